# The goals, and what was measured beside them: the ratios of port over crate, over all lines and programs that a goal speaks of; of
# takes by default those of the default over the old choice.
BEGIN {
    goal("encode, is_valid", 0.35, "^(encode|is_valid)(,|$)", 0)
    goal("decode", 0.4, "^decode(,|$)", 0)
    goal("load, write_pool", 0.1, "^(load|write_pool)$", 0)
    goal("take at 60,000, equal lengths", 0.4, "^take, .*equal lengths$", 60000)
    goal("take at 60,000, mixed lengths", 0.7, "^take, .*mixed lengths$", 60000)
    # Where no entry is free; what a free one costs is in the table.
    goal("take by default at 60,000, last and new", 1.3, "^take by default, (last|new) ", 60000)
    goal("take by default at 60,000, middle", 1.5, "^take by default, middle ", 60000)
    goal("take by default at 60,000, first", 1.1, "^take by default, first$", 60000)
    goal("read_rows", 0.1, "^read_rows$", 0)
    goal("write_rows", 0.5, "^write_rows$", 0)
    goal("every cell of 34,000 files", 1.0, "walk over every cell$", 0)
}
function goal(name, most, pattern, size) { n++; names[n] = name; goals[n] = most; patterns[n] = pattern; sizes[n] = size; low[n] = 1e99 }
{
    for (i = 1; i <= n; i++) if ($1 ~ patterns[i] && (sizes[i] == 0 || sizes[i] == $2)) {
        ratio = $4 / $3
        if (ratio < low[i]) low[i] = ratio
        if (ratio > high[i]) { high[i] = ratio; worst[i] = $1 ", " $2 }
    }
}
END {
    print "| call | goal | measured | |"
    print "|---|---:|---|---|"
    for (i = 1; i <= n; i++)
        if (!high[i]) printf "| %s | %.2g | not measured | |\n", names[i], goals[i]
        else printf "| %s | %.2g | %.2f to %.2f | %s |\n", names[i], goals[i], low[i], high[i], high[i] <= goals[i] ? "met" : "not met: " worst[i]
}
