# A picture of how the calls grow: both axes logarithmic, the crate dashed and the port drawn through; the best time of each.
function log10(x) { return log(x) / log(10) }
function x(size) { return 70 + (log10(size) - 3) * 300 }
function y(time) { return 420 - log10(time) * 45 }
function told(e) { return e < 3 ? 10 ^ e " ns" : e < 6 ? 10 ^ (e - 3) " µs" : 10 ^ (e - 6) " ms" }
{
    key = $1 "\t" $2
    if (!(key in crate) || $3 < crate[key]) crate[key] = $3
    if (!(key in port) || $4 < port[key]) port[key] = $4
    if (!($1 in sizes)) names[++n] = $1
    if (index(sizes[$1] " ", " " $2 " ") == 0) sizes[$1] = sizes[$1] " " $2
}
function line(name, times, dash, colour,    k, s, m, path) {
    m = split(substr(sizes[name], 2), s, " ")
    for (k = 1; k <= m; k++) path = path sprintf("%s%.1f,%.1f", k > 1 ? " " : "", x(s[k]), y(times[name "\t" s[k]]))
    printf "<polyline points=\"%s\" fill=\"none\" stroke=\"%s\" stroke-width=\"2\"%s/>\n", path, colour, dash ? " stroke-dasharray=\"6 4\"" : ""
}
END {
    split("#1b6ca8 #b8432f #2f8f4e #7a4fa3 #a07a12 #3f3f3f", colours, " ")
    wanted["load"] = wanted["take, last of equal lengths"] = wanted["take, last of mixed lengths"] = wanted["get"] = wanted["read_rows"] = wanted["write_rows"] = 1
    print "<svg xmlns=\"http://www.w3.org/2000/svg\" width=\"860\" height=\"470\" font-family=\"sans-serif\" font-size=\"12\">"
    print "<rect width=\"860\" height=\"470\" fill=\"white\"/>"
    for (e = 0; e <= 8; e++) printf "<line x1=\"70\" x2=\"640\" y1=\"%d\" y2=\"%d\" stroke=\"#ddd\"/><text x=\"62\" y=\"%d\" text-anchor=\"end\">%s</text>\n", y(10 ^ e), y(10 ^ e), y(10 ^ e) + 4, told(e)
    for (e = 3; e <= 4; e++) printf "<line x1=\"%d\" x2=\"%d\" y1=\"60\" y2=\"420\" stroke=\"#ddd\"/><text x=\"%d\" y=\"440\" text-anchor=\"middle\">%d</text>\n", x(10 ^ e), x(10 ^ e), x(10 ^ e), 10 ^ e
    printf "<text x=\"%d\" y=\"440\" text-anchor=\"middle\">60000</text>\n", x(60000)
    print "<text x=\"355\" y=\"460\" text-anchor=\"middle\">entries of the pool, or rows of the table</text>"
    print "<text x=\"70\" y=\"40\">Time of a call: the crate dashed, the port drawn through</text>"
    for (i = 1; i <= n; i++) if (names[i] in wanted) {
        c++
        line(names[i], crate, 1, colours[c])
        line(names[i], port, 0, colours[c])
        printf "<text x=\"660\" y=\"%d\" fill=\"%s\">%s</text>\n", 60 + 20 * c, colours[c], names[i]
    }
    print "</svg>"
}
