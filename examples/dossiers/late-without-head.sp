drt 1
task T
vertex a 6 5
end
evidence fixed-no
releases 1
release 0 0 0 6
miss 0 0 5
close
