# The local lists of the functions `starts` and of all that they call, from forms, which tests/calls.awk reads. Prints
# rows with tabs between: the function in `starts`, elements, how many such lists, the list, the function that has it;
# for each of `starts` first a row with 0 elements. Exits 1 where it cannot tell. Functions of other crates than `ours`
# are the kit's: those of its crate `core` have no lists but what they are handed.
$1 == "local" { locals[$2, ++local_count[$2]] = $3 "\t" $4 }

function cannot_tell(why) {
    print "local_lists: " why >"/dev/stderr"
    failed = 1
    exit 1
}

function visit(start, called,    i, many, row, parts) {
    if ((start, called) in visited) return
    visited[start, called] = 1
    if (called ~ /^core::/ && !is_ours(called)) return
    if (!(called in known)) cannot_tell("there is no function " called)
    if (called in unknown_call) cannot_tell(called " calls a function that is not known")
    for (i = 1; i <= local_count[called]; i++) many[locals[called, i]]++
    for (row in many) {
        split(row, parts, "\t")
        if (parts[1] == "?") cannot_tell("a local of " called " is not known: " parts[2])
        print start "\t" parts[1] "\t" many[row] "\t" parts[2] "\t" called
    }
    for (i = 1; i <= call_count[called]; i++) visit(start, calls[called, i])
}

function is_ours(name,    parts) {
    split(name, parts, "::")
    return parts[1] in our
}

END {
    if (failed) exit 1
    n = split(ours, list, " ")
    for (i = 1; i <= n; i++) our[list[i]] = 1
    start_count = split(starts, start, " ")
    for (i = 1; i <= start_count; i++) {
        print start[i] "\t0"
        visit(start[i], start[i])
    }
}
