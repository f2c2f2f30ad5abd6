drt-dossier 1
policy fixed
drt 1
task T2
vertex b 2 4
edge b b 8
task T1
vertex a 2 2
edge a a 4
end
evidence fixed-no
releases 2
release 0 0 0 2
release 1 0 0 2
miss 1 0 2
close
