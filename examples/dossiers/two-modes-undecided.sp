drt-dossier 1
policy fixed
drt 1
task T1
vertex x 3 5
vertex y 2 4
edge x x 20
edge y y 4
task T2
vertex z 2 5
edge z z 10
end
evidence undecided
close
