drt-dossier 1
policy fixed
drt 1
task T1
vertex a 2 4
edge a a 4
task T2
vertex b 3 6
edge b b 6
end
evidence fixed-no
releases 3
release 0 0 0 2
release 0 0 4 2
release 1 0 0 3
miss 1 0 6
close
