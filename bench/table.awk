# Sets two lists of counts beside each other. A line: instructions, degree, units, what. Growth is over the figure two degrees below. Some calls are
# measured for degree 8 alone.
{
    figure = $1 / $3
    degree = $2
    what = $4
    for (i = 5; i <= NF; i++)
        what = what " " $i
}
FNR == NR {
    ours[what, degree] = figure
    if (!(what in seen)) {
        seen[what] = 1
        order[++kinds] = what
    }
    next
}
{
    plain[what, degree] = figure
}
function growth(now, before) {
    return before > 0 ? sprintf("%.2f", now / before) : "-"
}
END {
    printf "%-46s %6s %14s %14s %7s %12s %8s\n", "instructions", "degree", "ours", "plain C", "ratio", "growth: ours", "plain C"
    for (k = 1; k <= kinds; k++)
        for (m = 8; m <= 16; m += 2) {
            w = order[k]
            if (!((w, m) in plain))
                continue
            printf "%-46s %6d %14.0f %14.0f %7.2f %12s %8s\n", m == 8 ? w : "", m, ours[w, m], plain[w, m], ours[w, m] / plain[w, m],
                growth(ours[w, m], ours[w, m - 2]), growth(plain[w, m], plain[w, m - 2])
        }
}
