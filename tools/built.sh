# For ./library, ./programs and the scripts of tests/ that read the compiler's form of crates: what rt has proved and
# built of the crates of the repository in which we are, and how more is built over it.
#
# A library lies in out/rlib of its crate. rt's commands for one crate build those below it where they have changed, and
# put a stamp beside each. rt ci leaves what it built without one, and those commands would prove it all again. So
# where PROVED is set, which ./test does when rt ci has just passed, what it left is built over as it lies there.
kit=$(dirname "$(rt doc)")

# Of the repository's crates those that a crate, $1, names, or with `all` behind it also those that these name.
named_by() {
    sed 's/#.*//' crates.txt | awk -F : -v crate="$1" -v all="${2:-}" '
        function find(crate,    list, count, i) {
            count = split(named[crate], list, " ")
            for (i = 1; i <= count; i++) {
                if (!(list[i] in named) || list[i] in found) continue
                found[list[i]] = 1
                print list[i]
                if (all != "") find(list[i])
            }
        }
        NF > 1 { split($1, words, " "); named[words[1]] = $2 }
        END { find(crate) }'
}

# The crates below a crate, $1: those that it names, and those that these name.
below() {
    named_by "$1" all | sort
}

rlib_of() {
    echo "$PWD/crates/$1/out/rlib/$1.rlib"
}

# Whether all libraries below a crate, $1, are those that rt ci has just proved.
over_proved() {
    local crate
    [ -n "${PROVED:-}" ] || return 1
    for crate in $(below "$1"); do
        [ -f "$(rlib_of "$crate")/format" ] && [ ! -e "crates/$crate/out/rlib/stamp" ] || return 1
    done
}

# Checks a crate, $1, whose root file is $2, over the libraries below it and builds what the other words say.
build() {
    local crate other words=()
    crate=$1
    for other in $(named_by "$crate"); do words+=(--extern "$other=$(rlib_of "$other")"); done
    for other in $(below "$crate"); do words+=(-L "dependency=$(dirname "$(rlib_of "$other")")"); done
    "$kit/bin/rattle" build --crate-name "$crate" "$2" --extern "std=$kit/rlibs/std.rlib" -L "dependency=$kit/rlibs" \
        "${words[@]}" --antt-project "$kit/rattle/logic/antt-project.json" --logic-built "$kit/logic_built" "${@:3}"
}
