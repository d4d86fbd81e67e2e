# A sheet of parcels to rows for `--degree 0`: the value in cents is the weight, and the function is the value of a square metre in
# thousandths of a cent. The boxes keep their true ends.
BEGIN { FS = "," }
{ sub(/\r$/, "") }
NR > 1 { printf "add,1,%s,%d,%d,%d,%d,%.0f,%.0f\n", $1, $2, $3, $4, $5, $6 * 100, $6 * 100000 / (($3 - $2) * ($5 - $4)) }
END { print "commit,1" }
