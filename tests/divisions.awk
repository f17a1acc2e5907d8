# The functions outside the crates `owners` from which calls lead to one of `inverses` by another way than through one
# of `doors`, from forms, which tests/calls.awk reads. Prints for each a row, the calls that lead there. Exits 1 where
# it cannot tell. Functions of other crates than `ours` are the kit's, of which tests/system_calls knows each call.
function cannot_tell(why) {
    print "divisions: " why >"/dev/stderr"
    unclear = 1
}

function must_be_known(names,    i, n, list) {
    n = split(names, list, " ")
    for (i = 1; i <= n; i++) if (!(list[i] in known)) cannot_tell("there is no function " list[i])
}

# Notes that calls lead from a function to an inverse, first to `next_one`.
function lead(from, next_one) {
    if (from in way) return
    way[from] = from (next_one == "" ? "" : " > " way[next_one])
    leading[++leading_count] = from
}

function is_ours(name,    parts) {
    split(name, parts, "::")
    return parts[1] in our
}

END {
    n = split(ours, list, /[ \n]+/)
    for (i = 1; i <= n; i++) our[list[i]] = 1
    must_be_known(inverses " " doors)
    for (caller in known) {
        if (caller in unknown_call) cannot_tell(caller " calls a function that is not known")
        for (i = 1; i <= call_count[caller]; i++) {
            called = calls[caller, i]
            if (!is_ours(called)) continue
            if (!(called in known)) cannot_tell(caller " calls " called ", which is not known")
            callers[called, ++caller_count[called]] = caller
        }
    }
    split(doors, list, " ")
    for (i in list) is_door[list[i]] = 1
    split(owners, list, " ")
    for (i in list) is_owner[list[i]] = 1
    n = split(inverses, list, " ")
    for (i = 1; i <= n; i++) lead(list[i], "")
    for (at = 1; at <= leading_count; at++) {
        called = leading[at]
        for (i = 1; i <= caller_count[called]; i++) {
            if (!(callers[called, i] in is_door)) lead(callers[called, i], called)
        }
        split(called, parts, "::")
        if (!(parts[1] in is_owner)) print way[called]
    }
    exit unclear
}
