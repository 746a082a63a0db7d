# A document of 72 bytes, and a comment up to 4,194,304 bytes that no line feed ends.
printf 'qdouble 1\norder 2\ntable\n0 1\n1 0\nroots 2\nomega dense\n0 0\n0 0\n0 0\n0 1\nend\n#'
printf '%4194231s' ''
