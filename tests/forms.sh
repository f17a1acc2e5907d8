# For tests/divisions, tests/system_calls and tests/local_lists, which read the compiler's forms of crates: a folder for
# the script's files, and the forms, as tests/forms.py has them. FORMS is the folder in which ./test has them keep
# forms, since they read the same; one that lies there is not made again.
script=$(basename "$0")
tests=$(cd "$(dirname "${BASH_SOURCE[0]}")" && pwd)
work=$(mktemp -d)
trap 'rm -rf "$work"' EXIT
forms=${FORMS:-$work/forms}
source "$tests/../tools/built.sh"

failed() {
    echo "$script: $1" >&2
    exit 1
}

# The crates of the repository in which we are that have functions.
with_functions() {
    grep -rlw fn --include='*.rt' crates/*/src | cut -d / -f 2 | sort -u
}

# The crates that no other names.
topmost() {
    sed 's/#.*//' crates.txt | awk -F : '
        NF > 1 { split($1, words, " "); crates[++count] = words[1]; named = named " " $2 " " }
        END { for (i = 1; i <= count; i++) if (!index(named, " " crates[i] " ")) print crates[i] }'
}

is_library() {
    [ -f "crates/$1/src/lib.rt" ] && ! grep -q "^$1 staticlib" crates.txt
}

# Has rt prove and build a crate, $1, and all below it, where rt ci has not just done that.
prove() {
    local command=check
    over_proved "$1" && { ! is_library "$1" || [ -f "$(rlib_of "$1")/format" ]; } && return
    ! is_library "$1" || command=lib
    (cd "crates/$1" && rt "$command") >"$work/said" 2>&1 || { cat "$work/said" >&2 && failed "rt $command of $1"; }
}

# Makes a library of the text of a program in a folder, $1.
rename_main() {
    sed 's/^fn main(/fn main_of_library(/' "$1/src/main.rt" >"$1/src/lib.rt"
    rm "$1/src/main.rt"
    [ -d "$1/proofs/main" ] || return 0
    mv "$1/proofs/main" "$1/proofs/main_of_library"
    sed -i 's/[.]proofs[.]main[.]/.proofs.main_of_library./' "$1"/proofs/main_of_library/*
}

# The form of a library is in what rt builds of it. Of a static library or a program rt keeps none: its form is made
# here of its text as a library, in which main has another name.
mir_of() {
    if is_library "$1"; then
        cat "$(rlib_of "$1")/toolchain/mir.json"
        return
    fi
    mkdir -p "$work/$1/src"
    cp -r "crates/$1"/{src,specs,proofs} "$work/$1" 2>/dev/null || true
    [ ! -f "$work/$1/src/main.rt" ] || rename_main "$work/$1"
    build "$1" "$work/$1/src/lib.rt" --statements -o "$work/$1/rlib" >"$work/said" 2>&1 ||
        { cat "$work/said" >&2 && failed "the form of $1"; }
    cat "$work/$1/rlib/toolchain/mir.json"
}

# Makes $forms/CRATE, the form of a crate, of those proved and built.
make_form() {
    [ ! -s "$forms/$1" ] || return 0
    mkdir -p "$forms"
    mir_of "$1" >"$work/mir" && python3 "$tests/forms.py" "$work/mir" | sed 's/main_of_library/main/' >"$work/form"
    [ "$(grep -c '^function' "$work/form")" -ge "$(grep -rhow fn --include='*.rt' "crates/$1/src" | wc -l)" ] ||
        failed "the form of $1 lacks functions"
    mv "$work/form" "$forms/$1"
}

# Makes the forms of all crates, with every function of each.
make_forms() {
    local crate
    for crate in $(topmost); do prove "$crate"; done
    for crate in $(with_functions); do make_form "$crate"; done
}

# The form of a crate, $1, with those of all crates below it.
form_with_below() {
    local crate
    for crate in "$1" $(below "$1"); do [ ! -f "$forms/$crate" ] || cat "$forms/$crate"; done
}
