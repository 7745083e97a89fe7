//! Bytes as hex digits.

/// The bytes of pairs of hex digits; blanks between them are left out.
pub fn read(text: &str) -> Result<Vec<u8>, String> {
    let digits: Option<Vec<u8>> = text
        .chars()
        .filter(|c| *c != ' ')
        .map(|c| c.to_digit(16).map(|digit| digit as u8))
        .collect();
    match digits {
        Some(digits) if digits.len() % 2 == 0 => Ok(digits
            .chunks(2)
            .map(|pair| 16 * pair[0] + pair[1])
            .collect()),
        _ => Err("bad hex digits".to_string()),
    }
}

/// The digits of the bytes.
pub fn digits(bytes: &[u8]) -> String {
    bytes.iter().map(|byte| format!("{byte:02x}")).collect()
}

/// The digits of the bytes, for a message: at most those of the first 400.
pub fn show(bytes: &[u8]) -> String {
    let mut text = digits(&bytes[..bytes.len().min(400)]);
    if bytes.len() > 400 {
        text.push_str(&format!(".. ({} bytes)", bytes.len()));
    }
    text
}
