drt-dossier 1
policy fixed
drt 2
task T1
priority 2
vertex a 2 4
edge a a 5
task T2
priority 1
vertex b 4 7
edge b b 7
end
evidence fixed-no
releases 2
release 0 0 0 2
release 1 0 0 4
miss 0 0 4
close
