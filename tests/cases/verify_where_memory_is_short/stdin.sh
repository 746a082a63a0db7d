# A row of two million values, which want more room than there is.
printf 'qdouble 1 order 1 table 0 roots 1 omega trivial characters 4 class 0 row'
awk 'BEGIN { for (i = 0; i < 2000000; i++) printf " 1"; print " end" }'
