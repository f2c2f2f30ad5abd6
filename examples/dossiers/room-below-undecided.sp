drt-dossier 1
policy fixed
drt 1
task T2
vertex z 2 4
task T1
vertex x 3 5
vertex y 2 4
end
evidence undecided
close
