# The cyclic group of order 60, with exponents that are all 0 modulo 64: 0 and 4294967232 by turns.
echo 'qdouble 1 order 60 table'
g=0
while [ "$g" -lt 60 ]; do
    h=0
    while [ "$h" -lt 60 ]; do
        printf '%d ' "$(((g + h) % 60))"
        h=$((h + 1))
    done
    echo
    g=$((g + 1))
done
echo 'roots 64 omega dense'
pairs='0 4294967232 0 4294967232 0 4294967232 0 4294967232 0 4294967232'
row="$pairs $pairs $pairs $pairs $pairs $pairs"
rows=0
while [ "$rows" -lt 3600 ]; do
    echo "$row"
    rows=$((rows + 1))
done
echo end
