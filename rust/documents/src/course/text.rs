//! Values as the course writes them.

/// An element: hexadecimal, without a prefix.
pub fn hex(element: u64) -> String {
    format!("{element:x}")
}

pub fn list(elements: &[u64]) -> String {
    elements.iter().map(|element| hex(*element)).collect::<Vec<_>>().join(", ")
}

pub fn decimals(numbers: &[u64]) -> String {
    numbers.iter().map(u64::to_string).collect::<Vec<_>>().join(", ")
}

/// A number with a comma before its last three digits, and so on: `65,536`.
pub fn thousands(number: usize) -> String {
    match number < 1000 {
        true => number.to_string(),
        false => format!("{},{:03}", thousands(number / 1000), number % 1000),
    }
}

/// A polynomial in t with the bits for coefficients: `t^4 + t^3 + t + 1`.
pub fn polynomial(bits: u128) -> String {
    let term = |bit: u32| match bit {
        0 => "1".into(),
        1 => "t".into(),
        _ => format!("t^{bit}"),
    };
    let set = (0..u128::BITS).rev().filter(|bit| bits >> bit & 1 == 1);
    set.map(term).collect::<Vec<_>>().join(" + ")
}
