drt-dossier 1
policy fixed
drt 1
task T1
vertex a 2 4
task T2
vertex b 2 4
edge b b 8
end
evidence fixed-yes
trees 1
tree 1
walk 1 0
pairs 0
proofs 2
proof 0 0 1 p2
proof 1 0 1 p4
close
