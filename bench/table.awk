# The benchmark's table. A line of input: NAME STATE STEPS LENGTH, the times of the three sides in microseconds (0 if not taken), their counts:
# the plain run, the counted run and the yardstick. A formula whose name begins with "limit-" has every count at its limit, one whose name begins with
# "tiny-" a few clauses; the others have 1,000. Each kind has a sum of its own, and there is one for all but the tiny ones.
function row(name, verdict, steps, unit, run, counted, yard, run_time, counted_time, yard_time) {
    printf "%-15s %-7s %6s %8.1f %8.1f %8.1f %6.2f %6.1f", name, verdict, steps, run / unit, counted / unit, yard / unit, run / yard, yard / counted
    if (yard_time > 0)
        printf " %9.1f %8.1f %9.1f %6.2f %6.1f", run_time * 1e3 / unit, counted_time * 1e3 / unit, yard_time * 1e3 / unit, run_time / yard_time, yard_time / counted_time
    printf "\n"
}
function add(kind, column) {
    many[kind]++
    for (column = 3; column <= 10; column++)
        total[kind, column] += $column
}
function sum(name, kind, unit) {
    if (many[kind])
        row(name, "", total[kind, 3], unit, total[kind, 8], total[kind, 9], total[kind, 10], total[kind, 5], total[kind, 6], total[kind, 7])
}
function head(unit, time_unit) {
    print "                                " sprintf("%-41s", unit " instructions") (timed ? time_unit : "")
    print "formula         verdict  steps    plain  counted    yard. ratio   gain" (timed ? "     plain  counted     yard.  ratio   gain" : "")
}
BEGIN {
    split("paused Valid Unsat", verdicts, " ")
}
NR == 1 {
    timed = $7 > 0
    head("million", "milliseconds")
}
{
    kind = $1 ~ /^limit-/ ? "limit" : $1 ~ /^tiny-/ ? "tiny" : "thousand"
    if (kind == "tiny" && !many["tiny"]) {
        sum("1,000 clauses", "thousand", 1e6)
        sum("at the limits", "limit", 1e6)
        sum("both", "all", 1e6)
        head("thousand", "microseconds")
    }
    row($1, verdicts[$2 + 1], $3, kind == "tiny" ? 1e3 : 1e6, $8, $9, $10, $5, $6, $7)
    add(kind)
    if (kind != "tiny")
        add("all")
    if (kind == "thousand" && (!least || $10 / $9 < least))
        least = $10 / $9
}
END {
    sum("tiny", "tiny", 1e3)
    print many["thousand"] " formulas of 1,000 clauses, " many["limit"] " at the limits and " many["tiny"] " tiny ones: verdicts, counts, records and reasons agree, and the numbers are fresh"
    printf "ratio: plain to yardstick; gain: yardstick to counted. Of 1,000 clauses the least gain in instructions is %.1f\n", least
}
