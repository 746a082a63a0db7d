# The group of the even permutations of five things, of order 60, with trivial exponents.
awk 'BEGIN {
    n = 0
    for (i = 0; i < 3125; i++) {
        x = i
        used = 0
        odd = 0
        for (j = 4; j >= 0; j--) { p[j] = x % 5; x = int(x / 5) }
        for (j = 0; j < 5; j++) for (k = j + 1; k < 5; k++) { if (p[j] == p[k]) used = 1; if (p[j] > p[k]) odd = 1 - odd }
        if (used || odd) continue
        for (j = 0; j < 5; j++) images[n, j] = p[j]
        place[p[0], p[1], p[2], p[3], p[4]] = n++
    }
    print "qdouble 1\norder 60\ntable"
    for (g = 0; g < n; g++) for (h = 0; h < n; h++)
        print place[images[g, images[h, 0]], images[g, images[h, 1]], images[g, images[h, 2]], images[g, images[h, 3]], images[g, images[h, 4]]]
    print "roots 1\nomega trivial\nend"
}'
