# The dihedral group of order 60: the rotation by g is element g, the reflection before which it turns by g is 30 + g.
# The cocycle is -1 where g turns by an odd number, h does too, and k is a reflection; and else 1.
awk 'BEGIN {
    print "qdouble 1\norder 60\ntable"
    for (g = 0; g < 60; g++) for (h = 0; h < 60; h++) {
        turn = g < 30 ? g + h : g - h + 60
        print turn % 30 + ((g < 30) == (h < 30) ? 0 : 30)
    }
    print "roots 2\nomega dense"
    for (g = 0; g < 60; g++) for (h = 0; h < 60; h++) for (k = 0; k < 60; k++) print (g % 2) * (h % 2) * (k >= 30)
    print "end"
}'
