# The measurements of several programs as a table: times in microseconds, ratios as ranges. With `defaults`, the takes by default beside
# those by the old choice; without, all else, the crate beside the port.
function time(t) { return sprintf(t < 1000000 ? "%.3g" : "%.0f", t / 1000) }
function share(r) { return sprintf(r < 100 ? "%.2f" : "%.0f", r) }
function range(low, high) { return low == high ? low : low " to " high }
/^take by default/ ? defaults : !defaults {
    key = $1 "\t" $2
    if (!(key in seen)) { order[++n] = key; seen[key] = 1; low[key] = 1e99; crate[key] = 1e99; port[key] = 1e99 }
    ratio = $4 / $3
    if (ratio < low[key]) low[key] = ratio
    if (ratio > high[key]) high[key] = ratio
    if ($3 < crate[key]) crate[key] = $3
    if ($3 > slow[key]) slow[key] = $3
    if ($4 < port[key]) port[key] = $4
    if ($4 > late[key]) late[key] = $4
}
END {
    if (defaults) print "| call | size | old choice, µs | default, µs | default over old choice |"
    else print "| call | size | crate, µs | port, µs | port over crate |"
    print "|---|---:|---:|---:|---:|"
    for (i = 1; i <= n; i++) {
        split(order[i], part, "\t")
        k = order[i]
        printf "| %s | %d | %s | %s | %s |\n", part[1], part[2], range(time(crate[k]), time(slow[k])), range(time(port[k]), time(late[k])), range(share(low[k]), share(high[k]))
    }
}
