# The table of readings or of writings. A line of input: NAME BYTES STATUS, the times of both sides in microseconds (0 if not taken), the counts of both.
NR == 1 {
    timed = $5 > 0
    print "                          instructions a byte   " (timed ? "million bytes a second" : "")
    print "text             bytes   proved    plain  ratio" (timed ? "   proved    plain  ratio" : "")
}
{
    if ($3 != 0) { print "bench: the text " $1 " was refused with " $3 > "/dev/stderr"; failed = 1 }
    printf "%-14s %7d %8.1f %8.1f %6.2f", $1, $2, $6 / $2, $7 / $2, $6 / $7
    if ($5 > 0)
        printf " %8.1f %8.1f %6.2f", $2 / $4, $2 / $5, $4 / $5
    printf "\n"
}
END {
    if (!failed)
        print NR " texts of the largest block: answers and outputs agree"
    exit failed
}
