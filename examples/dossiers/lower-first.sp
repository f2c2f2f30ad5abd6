drt-dossier 1
policy fixed
drt 2
task T2
priority 9
vertex b 2 4
edge b b 8
task T1
priority 3
vertex a 2 2
edge a a 4
end
evidence fixed-yes
trees 1
tree 1
walk 1 0
pairs 0
proofs 2
proof 0 0 1 p4
proof 1 0 1 p2
close
