drt-dossier 1
policy fixed
drt 1
task graph
vertex v1 1 6
vertex v2 3 10
vertex v3 2 8
vertex v4 4 12
vertex v5 1 5
edge v1 v2 10
edge v1 v5 8
edge v2 v3 12
edge v2 v4 15
edge v3 v1 9
edge v4 v2 13
edge v5 v4 7
task sporadic
vertex s 5 8
edge s s 40
end
evidence fixed-no
releases 2
release 0 3 0 4
release 1 0 0 5
miss 1 0 8
close
