//! Texts of numbers: as leaflets have them, and as long as they may be.

use willetcoffer::limits::NUMBER_TEXT_LIMIT;

fn as_leaflets_have_them(n: u32) -> String {
    match n % 4 {
        0 => n.to_string(),
        1 => format!("-{}.{:02}", n / 7, n % 100),
        2 => format!("{}.5", n / 3),
        _ => format!("0.{n:03}e2"),
    }
}

/// Zeros in front of an integer, or behind a number whose exponent takes them away again.
fn as_long_as_they_may_be(n: u32) -> String {
    let exponent = "e-30";
    if n.is_multiple_of(2) {
        format!("{n:0NUMBER_TEXT_LIMIT$}")
    } else {
        format!("{n:0<width$}{exponent}", width = NUMBER_TEXT_LIMIT - exponent.len())
    }
}

/// A thousand texts of each sort.
pub fn workloads() -> [(&'static str, Vec<String>); 2] {
    let thousand = |text: fn(u32) -> String| (0..1000).map(text).collect();
    [
        ("numbers as leaflets have them", thousand(as_leaflets_have_them)),
        ("numbers of 40 bytes", thousand(as_long_as_they_may_be)),
    ]
}
