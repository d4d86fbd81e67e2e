# A sheet of antennas to rows for `--degree 1`:
#   at_corner + per_east * (x - west) + per_north * (y - south)  =  c00 + c01 * y + c10 * x + c11 * x * y
BEGIN { FS = "," }
{ sub(/\r$/, "") }
NR > 1 { printf "add,1,%s,%s,%s,%s,%s,%s,%.0f,%s,%s,0\n", $1, $2, $3, $4, $5, $6, $7 - $8 * $2 - $9 * $4, $9, $8 }
END { print "commit,1" }
