# Wear and life by segment, as CSV: what `envy map` writes, with a column more: how many of a segment's erases are left, of
# as many as the part's data sheet allows (cycles).
#
#   ./envy save < trace | ./envy map | awk -v cycles=100000 -f examples/life.awk > life.csv
#
# With -v stores=N, the stores of the trace, it also reports the sum of the part's life on standard error: after how many
# such stores the most worn segment has no erase left, and after how many if wear were level. Formatting's own erase
# counts as wear.
BEGIN { FS = "," }
NR == 1 && $3 == "wear" { print $0 ",left"; next }
NR > 1 && NF == 7 {
    print $0 "," cycles - $3
    worn += $3 - 1
    if ($3 - 1 > most) most = $3 - 1
    segments++
    next
}
{
    print "life: no line of a map: " $0 > "/dev/stderr"
    failed = 1
    exit 1
}
END {
    if (failed) exit 1
    if (stores == "" || !segments) exit
    if (!most) {
        print "life: no segment was erased since formatting: no life can be told" > "/dev/stderr"
        exit
    }
    printf "life: %d segments, wear %.1f on average and %d at most since formatting; %.3g stores until the most worn has none of %d erases left, %.3g if wear were level\n",
        segments, worn / segments, most, stores * (cycles - 1) / most, cycles, stores * (cycles - 1) * segments / worn > "/dev/stderr"
}
