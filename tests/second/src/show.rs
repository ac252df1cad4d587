//! Bytes and numbers as people read them.

use std::fmt::Display;

/// Bytes as a string: newline, tab, carriage return, quote and backslash by their usual
/// signs, others outside 0x20 to 0x7E as \xNN.
pub fn escaped(bytes: &[u8]) -> String {
    bytes.iter().map(|byte| escaped_byte(*byte)).collect()
}

/// A file as a string between quotes; of a long one only the beginning.
pub fn quoted(file: &[u8]) -> String {
    const SHOWN: usize = 4_000;
    match file.get(..SHOWN) {
        Some(first) if file.len() > SHOWN => {
            format!("\"{}\"... {} bytes", escaped(first), file.len())
        }
        _ => format!("\"{}\"", escaped(file)),
    }
}

fn escaped_byte(byte: u8) -> String {
    match byte {
        b'\n' => "\\n".to_string(),
        b'\t' => "\\t".to_string(),
        b'\r' => "\\r".to_string(),
        b'"' => "\\\"".to_string(),
        b'\\' => "\\\\".to_string(),
        0x20..=0x7E => char::from(byte).to_string(),
        _ => format!("\\x{byte:02X}"),
    }
}

/// Numbers with a separator between them.
pub fn list<T: Display>(numbers: &[T], separator: &str) -> String {
    numbers.iter().map(T::to_string).collect::<Vec<_>>().join(separator)
}

/// The first numbers of a list that may be long.
pub fn shortened<T: Display>(numbers: &[T]) -> String {
    const SHOWN: usize = 192;
    match numbers.get(..SHOWN) {
        Some(first) if numbers.len() > SHOWN => {
            format!("[{}, ... {} numbers]", list(first, ", "), numbers.len())
        }
        _ => format!("[{}]", list(numbers, ", ")),
    }
}

/// The numbers of a list that are not 0, each after its place and a colon.
pub fn where_not_zero<T: Display + Default + PartialEq>(numbers: &[T]) -> String {
    let placed = numbers.iter().enumerate().filter(|(_, number)| **number != T::default());
    let shown: Vec<String> = placed.map(|(at, number)| format!("{at}:{number}")).collect();
    if shown.is_empty() {
        "all 0".to_string()
    } else {
        format!("all 0 but {}", shortened(&shown))
    }
}
