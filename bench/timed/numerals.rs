//! Numbers as a reader wants them.

/// 1234567.8 as 1,234,568.
pub fn whole(x: f64) -> String {
    let digits = format!("{x:.0}");
    let mut out = String::new();
    for (k, digit) in digits.chars().enumerate() {
        if k > 0 && (digits.len() - k) % 3 == 0 {
            out.push(',');
        }
        out.push(digit);
    }
    out
}

/// Small numbers keep what tells them apart behind the point.
#[allow(dead_code)]
pub fn shown(x: f64) -> String {
    match x {
        x if x < 0.1 => format!("{x:.3}"),
        x if x < 10.0 => format!("{x:.2}"),
        x if x < 100.0 => format!("{x:.1}"),
        x => whole(x),
    }
}
