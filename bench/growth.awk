# Draws how the instructions of each call grow with its input: one panel for each call, ours drawn full and plain C dashed.
# Reads lines of: case, size, side, instructions; those of the cases NAME-growth/N. -v commands=N says how many commands a session has there.
$1 ~ /-growth\// {
    split($1, part, "-growth/")
    call = part[1]
    if (!(call in panel)) panel[call] = ++panels
    name[panel[call]] = call
    n = ++points[call, $3]
    x[call, $3, n] = $2
    y[call, $3, n] = $4
    if ($2 > most_x[call]) most_x[call] = $2
    if ($4 > most_y[call]) most_y[call] = $4
}
function sorted_line(call, side, left, top,   i, j, n, t, line) {
    n = points[call, side]
    for (i = 1; i <= n; i++) for (j = i + 1; j <= n; j++) if (x[call, side, j] < x[call, side, i]) {
        t = x[call, side, i]; x[call, side, i] = x[call, side, j]; x[call, side, j] = t
        t = y[call, side, i]; y[call, side, i] = y[call, side, j]; y[call, side, j] = t
    }
    for (i = 1; i <= n; i++)
        line = line sprintf("%.1f,%.1f ", left + 220 * x[call, side, i] / most_x[call], top + 140 - 120 * y[call, side, i] / most_y[call])
    return line
}
END {
    rows = int((panels + 2) / 3)
    printf "<svg xmlns=\"http://www.w3.org/2000/svg\" width=\"840\" height=\"%d\" font-family=\"sans-serif\" font-size=\"11\">\n", 190 * rows + 30
    print "<rect width=\"100%\" height=\"100%\" fill=\"white\"/>"
    for (p = 1; p <= panels; p++) {
        call = name[p]
        left = 30 + 280 * ((p - 1) % 3)
        top = 10 + 190 * int((p - 1) / 3)
        unit = call == "read" ? "bytes of the file" : call == "write" ? "bytes of text" : "sessions of " commands " commands"
        printf "<path d=\"M%d,%d V%d H%d\" fill=\"none\" stroke=\"black\"/>\n", left, top + 15, top + 140, left + 225
        printf "<text x=\"%d\" y=\"%d\">%s: up to %d instructions</text>\n", left, top + 10, call, most_y[call]
        printf "<text x=\"%d\" y=\"%d\">0 to %d %s</text>\n", left, top + 155, most_x[call], unit
        printf "<polyline points=\"%s\" fill=\"none\" stroke=\"black\"/>\n", sorted_line(call, "ours", left, top)
        printf "<polyline points=\"%s\" fill=\"none\" stroke=\"gray\" stroke-dasharray=\"4 3\"/>\n", sorted_line(call, "plain", left, top)
    }
    printf "<text x=\"30\" y=\"%d\">full: the library; dashed: plain C (read: with re2c; write and collect: with snprintf)</text>\n", 190 * rows + 20
    print "</svg>"
}
