# The replies of `spanrun`, and then the sheet of zones that they belong to, to an invoice: container days times the price of one.
BEGIN { FS = "," }
{ sub(/\r$/, "") }
NR == FNR { if ($1 != "spansum") { print "no span: " $0; wrong = 1; exit }; days[NR + 1] = $4; next }
FNR == 1 { next }
{ cents = days[FNR] * $6; total += cents }
{ printf "%-6s %5d container days at %.2f euros %8.2f\n", $1, days[FNR], $6 / 100, cents / 100 }
END { if (wrong) exit 1; printf "%-6s %43.2f\n", "Total", total / 100 }
