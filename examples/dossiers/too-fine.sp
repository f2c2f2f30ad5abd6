drt-dossier 1
policy fixed
drt 1
task A
vertex a 1 1
edge a a 1000000
task B
vertex a 1 1
edge a a 999999
task C
vertex a 1 1
edge a a 999998
task D
vertex a 1 1
edge a a 999997
end
evidence fixed-no
releases 2
release 0 0 0 1
release 1 0 0 1
miss 1 0 1
close
