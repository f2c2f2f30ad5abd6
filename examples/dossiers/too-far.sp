drt-dossier 1
policy fixed
drt 1
task T1
vertex a 999998 999997
edge a a 999999
task T2
vertex b 1 1
edge b b 1000000
end
evidence fixed-no
releases 1
release 0 0 0 999998
miss 0 0 999997
close
