# Prints the ratios of one run: the cost of each system over ours, and of ours over the floor.
{ time[$1, $2] = $4 }

# One row of the table: the four kinds of call, each over the same kind of `base`, or over its kind `base_kind`.
# What was left out has no row.
function row(title, name, base, base_kind,    i, below) {
    if (!((name, kinds[1]) in time) || !((base, base_kind == "" ? kinds[1] : base_kind) in time))
        return
    printf "  %-38s", title
    for (i = 1; i <= 4; i++) {
        below = base_kind == "" ? time[base, kinds[i]] : time[base, base_kind]
        printf " %13.2f", time[name, kinds[i]] / below
    }
    printf "\n"
}

END {
    split("local-strike local-add remote-strike remote-add", kinds, " ")
    printf "%-40s", "Ratios at 511 rows, lines of 48 bytes"
    for (i = 1; i <= 4; i++)
        printf " %13s", kinds[i]
    printf "\n"
    row("the second program over ours", "second", "ours", "")
    row("crdts List over ours", "crdts", "ours", "")
    row("  the same, its patch as bytes", "crdts-bytes", "ours", "")
    row("Yjs Y.Array over ours", "yjs", "ours", "")
    row("ours over or-ing by cc -O3", "ours", "floor-cc", "or-ing")
    row("ours over or-ing by clang -O3", "ours", "floor-clang", "or-ing")
    row("ours over its soundness check alone", "ours", "ours", "check")
}
