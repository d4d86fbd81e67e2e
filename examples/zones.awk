# A sheet of zones to rows for `spanrun`: the days from `first` to `last` of each zone, which ends one metre before its border.
BEGIN { FS = "," }
{ sub(/\r$/, "") }
NR > 1 { printf "spansum,%d,%d,%d,%d,%d,%d\n", first, last, $2, $3 - 1, $4, $5 - 1 }
