# The lines `stat` among replies, or in the report of tpca, as CSV: a head line, and a row for each.
#
#   ./envy run < trace | awk -f examples/to_csv.awk
#
# With -v change=1 a row has what was added since the line before, and its own cost. With -v program=P -v erase=E
# -v read=R, the seconds that a part takes for each, a last column adds up the programs, the erases, and a read for each
# copy and move.
BEGIN {
    timed = program != "" || erase != "" || read != ""
    print "number,hits,misses,flushes,copies,moves,erases,swaps,cost" (timed ? ",seconds" : "")
}
$1 == "stat" && NF == 17 {
    row = ++number
    for (i = 1; i <= 7; i++) {
        now[i] = $(2 * i + 1) - (change ? before[i] : 0)
        before[i] = $(2 * i + 1)
        row = row sprintf(",%.0f", now[i])
    }
    row = row "," (change ? (now[3] ? int(100 * (now[4] + now[5]) / now[3]) : 0) : $17)
    if (timed) row = row sprintf(",%.6f", (now[3] + now[4] + now[5]) * program + now[6] * erase + (now[4] + now[5]) * read)
    print row
}
