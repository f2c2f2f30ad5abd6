drt-dossier 1
policy fixed
drt 1
task T1
vertex x 3 5
vertex y 2 4
task T2
vertex z 2 4
end
evidence fixed-no
releases 2
release 0 0 0 3
release 1 0 0 2
miss 1 0 4
close
