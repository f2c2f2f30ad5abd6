drt-dossier 1
policy fixed
drt 1
task T
vertex a 2 5
edge a a 5
end
evidence fixed-no
releases 1
release 0 0 0 2
miss 0 0 5
close
