printf '%4194305s' ''
