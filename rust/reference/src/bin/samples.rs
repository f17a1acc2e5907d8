//! Prints the table of samples that the definitions are computed against.

fn main() {
    print!("{}", reference::samples::text());
}
