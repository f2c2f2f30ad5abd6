drt-dossier 1
policy fixed
drt 1
task T1
vertex a 2 4
vertex b 1 4
task T2
vertex a 2 4
vertex b 1 4
task T3
vertex c 1 4
end
evidence fixed-no
releases 3
release 0 0 0 2
release 1 0 0 2
release 2 0 0 1
miss 2 0 4
close
