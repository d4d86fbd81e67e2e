# A sheet of uses to rows for `--degree 0`: the rate is the weight, and it is the function too.
BEGIN { FS = "," }
{ sub(/\r$/, "") }
NR > 1 { printf "add,1,%s,%s,%s,%s,%s\n", $1, $2, $3, $4, $4 }
END { print "commit,1" }
