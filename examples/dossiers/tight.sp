drt-dossier 1
policy fixed
drt 1
task T
vertex a 5 5
end
evidence fixed-yes
trees 0
proofs 1
proof 0 0 1 p5
close
