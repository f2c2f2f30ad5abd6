drt-dossier 1
policy fixed
drt 2
task T
priority 7
vertex a 6 5
end
evidence fixed-no
releases 1
release 0 0 0 6
miss 0 0 5
close
