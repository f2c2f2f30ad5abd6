drt-dossier 1
policy fixed
drt 1
task T1
vertex a 1 2
vertex b 4 6
edge a b 2
edge b a 8
edge a a 5
task T2
vertex c 2 4
edge c c 10
end
evidence fixed-no
releases 1
release 0 0 0 6
miss 0 0 5
close
