# A sheet of parcels to rows: metres become centimetres, euros become cents, and a parcel ends one centimetre before its border.
BEGIN { FS = ","; word["new"] = "add"; word["changed"] = "move" }
{ sub(/\r$/, "") }
NR == 1 { next }
$1 == "gone" { printf "withdraw,1,%s\n", $2; next }
{ printf "%s,1,%s,%.0f,%.0f,%.0f,%.0f,%.0f\n", word[$1], $2, $3 * 100, $4 * 100 - 1, $5 * 100, $6 * 100 - 1, $7 * 100 }
END { print "commit,1" }
