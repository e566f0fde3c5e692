# The gains of the counted run as a bar chart, SVG. The input is that of table.awk; a formula has a bar for instructions and, where times were
# taken, one for time. The scale is in tens.
function bar(top, gain, colour) {
    printf "<rect x=\"%d\" y=\"%d\" width=\"%.1f\" height=\"%d\" fill=\"%s\"/>\n", left, top, gain * scale, thick, colour
    printf "<text x=\"%.1f\" y=\"%d\" font-size=\"9\">%.1f</text>\n", left + gain * scale + 3, top + thick - 1, gain
}
function label(x, y, anchor, words) {
    printf "<text x=\"%d\" y=\"%d\" text-anchor=\"%s\">%s</text>\n", x, y, anchor, words
}
{
    name[NR] = $1
    counts[NR] = $10 / $9
    times[NR] = $6 > 0 ? $7 / $6 : 0
    if (counts[NR] > most) most = counts[NR]
    if (times[NR] > most) most = times[NR]
}
END {
    left = 120; top = 56; thick = 8; step = 22; width = 760
    tens = int(most / 10) + 1
    scale = (width - left - 50) / (10 * tens)
    bottom = top + NR * step
    printf "<svg xmlns=\"http://www.w3.org/2000/svg\" width=\"%d\" height=\"%d\" font-family=\"sans-serif\" font-size=\"11\">\n", width, bottom + 30
    print "<rect width=\"100%\" height=\"100%\" fill=\"white\"/>"
    label(left, 16, "start", "How many times the yardstick takes of what the counted run takes")
    printf "<rect x=\"%d\" y=\"26\" width=\"10\" height=\"10\" fill=\"#3465a4\"/>\n", left
    label(left + 16, 35, "start", "instructions")
    if (times[1] > 0) {
        printf "<rect x=\"%d\" y=\"26\" width=\"10\" height=\"10\" fill=\"#f57900\"/>\n", left + 110
        label(left + 126, 35, "start", "time")
    }
    for (ten = 0; ten <= tens; ten++) {
        x = left + 10 * ten * scale
        printf "<line x1=\"%.1f\" y1=\"%d\" x2=\"%.1f\" y2=\"%d\" stroke=\"#cccccc\"/>\n", x, top - 6, x, bottom
        label(x, bottom + 16, "middle", 10 * ten)
    }
    for (line = 1; line <= NR; line++) {
        y = top + (line - 1) * step
        label(left - 6, y + 12, "end", name[line])
        bar(y, counts[line], "#3465a4")
        if (times[line] > 0)
            bar(y + thick + 1, times[line], "#f57900")
    }
    print "</svg>"
}
