drt-dossier 1
policy fixed
drt 1
task T
vertex a 1000000 1000000
end
evidence fixed-yes
trees 0
proofs 1
proof 0 0 1 p1000000
close
