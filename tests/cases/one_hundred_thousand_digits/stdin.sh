printf 'qdouble 1\norder 9%0100000d\ntable\n' 0
