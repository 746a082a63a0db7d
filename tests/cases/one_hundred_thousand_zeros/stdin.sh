# The permutations of three things, with an order of 100,000 zeros and a 6.
printf 'qdouble 1\norder %0100001d\ntable\n' 6
printf '0 1 2 3 4 5\n1 2 0 4 5 3\n2 0 1 5 3 4\n3 5 4 0 2 1\n4 3 5 1 0 2\n5 4 3 2 1 0\nroots 1\nomega trivial\nend\n'
