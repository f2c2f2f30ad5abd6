drt-dossier 1
policy fixed
drt 1
task T
vertex a 2 5
edge a a 5
end
evidence fixed-yes
trees 0
proofs 0
close
