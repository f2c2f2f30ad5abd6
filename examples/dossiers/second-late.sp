drt-dossier 1
policy fixed
drt 1
task T
vertex a 1 5
vertex b 7 6
end
evidence fixed-no
releases 1
release 0 1 0 7
miss 0 0 6
close
