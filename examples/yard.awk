# A sheet of the changes of a yard to rows: one batch a day up to the day `last`, also where nothing happens, so that version N is what
# stands at the end of day N. A lot ends one metre before its border.
BEGIN { FS = ","; day = 1; word["new"] = "add"; word["changed"] = "move" }
function end_days_before(next_one) { for (; day < next_one; day++) print "commit,1" }
{ sub(/\r$/, "") }
NR == 1 { next }
{ end_days_before($1) }
$2 == "gone" { printf "withdraw,1,%s\n", $3; next }
{ printf "%s,1,%s,%d,%d,%d,%d,%d\n", word[$2], $3, $4, $5 - 1, $6, $7 - 1, $8 }
END { end_days_before(last + 1) }
