printf 'qdouble 1\norder 2\ntable\n0 1\n1 0\nroots 2\nomega dense\n0 0\n0 0\n0 0\n0 1\ncharacters 4\nclass 0\nrow 1 1\nrow 1 9%0100000d\n' 0
