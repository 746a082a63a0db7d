# The document of the group of order two with its cocycle, 72 bytes, and blanks up to 4,194,304 bytes.
printf 'qdouble 1\norder 2\ntable\n0 1\n1 0\nroots 2\nomega dense\n0 0\n0 0\n0 0\n0 1\nend\n'
printf '%4194232s' ''
