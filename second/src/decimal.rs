//! The decimal form of an f32 as C's `%.8e` prints it: nine significant digits of the exact value, correctly rounded, ties to even.

const SIGNIFICANT: usize = 9;

/// The text of the f32 with these bits; NaNs are never asked for, and print as `nan`.
pub fn text(bits: u32) -> String {
    let sign = if bits >> 31 == 1 { "-" } else { "" };
    let (exponent, fraction) = (bits >> 23 & 0xFF, bits & 0x7F_FFFF);
    match (exponent, fraction) {
        (0xFF, 0) => format!("{sign}inf"),
        (0xFF, _) => format!("{sign}nan"),
        (0, 0) => format!("{sign}0.00000000e+00"),
        (0, _) => format!("{sign}{}", rounded(exact(fraction, -149))),
        _ => {
            let whole = fraction | 0x80_0000;
            format!("{sign}{}", rounded(exact(whole, exponent as i32 - 150)))
        }
    }
}

/// All digits of `number` × 2^`power`, the last one first, and the power of ten that they are to be multiplied by.
fn exact(number: u32, power: i32) -> (Vec<u8>, i32) {
    let mut digits = Vec::new();
    let mut rest = number;
    while rest > 0 {
        digits.push((rest % 10) as u8);
        rest /= 10;
    }
    // Halving is multiplying by 5 and dividing by 10.
    let factor = if power < 0 { 5 } else { 2 };
    for _ in 0..power.abs() {
        multiply(&mut digits, factor);
    }
    (digits, power.min(0))
}

fn multiply(digits: &mut Vec<u8>, factor: u8) {
    let mut carry = 0;
    for digit in digits.iter_mut() {
        let product = *digit * factor + carry;
        *digit = product % 10;
        carry = product / 10;
    }
    if carry > 0 {
        digits.push(carry);
    }
}

/// Nine digits, a point after the first, and the exponent with its sign and at least two digits.
fn rounded((digits, scale): (Vec<u8>, i32)) -> String {
    let mut exponent = digits.len() as i32 - 1 + scale;
    let mut digits: Vec<u8> = digits.into_iter().rev().collect();
    let rest = digits.split_off(digits.len().min(SIGNIFICANT));
    digits.resize(SIGNIFICANT, 0);
    if rounds_up(digits[SIGNIFICANT - 1], &rest) && !increment(&mut digits) {
        digits.insert(0, 1);
        digits.truncate(SIGNIFICANT);
        exponent += 1;
    }
    let shown: String = digits
        .iter()
        .map(|&digit| char::from(b'0' + digit))
        .collect();
    let (first, others) = shown.split_at(1);
    let sign = if exponent < 0 { '-' } else { '+' };
    format!("{first}.{others}e{sign}{:02}", exponent.abs())
}

/// Whether what is cut off is more than half of the last digit, or half of an odd one.
fn rounds_up(last: u8, rest: &[u8]) -> bool {
    let Some((&first, after)) = rest.split_first() else {
        return false;
    };
    let more = after.iter().any(|&digit| digit > 0);
    first > 5 || first == 5 && (more || last % 2 == 1)
}

/// Adds one in the last digit; false if that makes every digit 0.
fn increment(digits: &mut [u8]) -> bool {
    for digit in digits.iter_mut().rev() {
        *digit = (*digit + 1) % 10;
        if *digit != 0 {
            return true;
        }
    }
    false
}
