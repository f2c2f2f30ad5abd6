drt-dossier 1
policy fixed
drt 1
task imu
vertex sample 1 5
edge sample sample 5
task motor
vertex track 3 10
vertex hold 2 20
edge track track 10
edge track hold 10
edge hold track 20
edge hold hold 20
task radio
vertex packet 21 40
edge packet packet 40
end
evidence fixed-no
releases 13
release 0 0 0 1
release 0 0 5 1
release 0 0 10 1
release 0 0 15 1
release 0 0 20 1
release 0 0 25 1
release 0 0 30 1
release 0 0 35 1
release 1 0 0 3
release 1 0 10 3
release 1 0 20 3
release 1 0 30 3
release 2 0 0 21
miss 2 0 40
close
