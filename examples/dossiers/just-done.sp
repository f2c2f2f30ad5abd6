drt-dossier 1
policy fixed
drt 1
task T1
vertex a 2 2
edge a a 4
task T2
vertex b 2 5
edge b b 8
end
evidence fixed-yes
trees 1
tree 2
walk 1 0
walk 2 0 0
pairs 1
pair 0 1
proofs 2
proof 0 0 1 p2
proof 1 0 1 p4
close
