# Reads forms (tests/forms.py): the functions that are `known`, the `calls` of each, by their number, those of the methods
# of the impls that it uses among them, and which of them have an `unknown_call`, of something else.
BEGIN { FS = "\t" }
$1 == "function" { known[$2] = 1 }
$1 == "call" { calls[$2, ++call_count[$2]] = $3 }
$1 == "unknown" { unknown_call[$2] = 1 }
$1 == "uses" { uses[$2, ++use_count[$2]] = $3 }
$1 == "method" { methods[$2, ++method_count[$2]] = $3 }
END {
    for (caller in use_count) {
        for (i = 1; i <= use_count[caller]; i++) {
            impl = uses[caller, i]
            for (j = 1; j <= method_count[impl]; j++) calls[caller, ++call_count[caller]] = methods[impl, j]
        }
    }
}
