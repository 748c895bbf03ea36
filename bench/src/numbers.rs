//! Numbers as the tables show them.

/// A number with a decimal place below 1,000, and commas above.
pub fn shown(number: f64) -> String {
    if number < 999.95 {
        format!("{number:.1}")
    } else {
        grouped(number.round() as usize)
    }
}

/// A ratio with two decimal places, three below 0.1, and four below 0.01.
pub fn ratio(number: f64) -> String {
    let more = [0.095, 0.0095].iter().filter(|&&bound| number < bound).count();
    format!("{number:.*}", 2 + more)
}

/// A number with a comma before each three digits.
pub fn grouped(number: usize) -> String {
    match (number / 1000, number % 1000) {
        (0, low) => low.to_string(),
        (high, low) => format!("{},{low:03}", grouped(high)),
    }
}
