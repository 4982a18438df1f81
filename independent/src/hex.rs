//! Bytes as hex, to be read by people.

/// A byte that occurs more often than this in a row is written once, with the
/// number of times.
const LONGEST_WRITTEN_OUT: usize = 8;

pub fn hex(bytes: &[u8]) -> String {
    let mut words = Vec::new();
    for same in bytes.chunk_by(|a, b| a == b) {
        let word = format!("{:02X}", same[0]);
        if same.len() > LONGEST_WRITTEN_OUT {
            words.push(format!("{word}*{}", same.len()));
        } else {
            words.extend(vec![word; same.len()]);
        }
    }
    match words.is_empty() {
        true => "(none)".to_string(),
        false => words.join(" "),
    }
}

/// Bytes from hex as the paper writes them; spaces do not matter.
pub fn from_hex(text: &str) -> Vec<u8> {
    let digits: Vec<u32> = text
        .chars()
        .filter_map(|digit| digit.to_digit(16))
        .collect();
    assert!(digits.len().is_multiple_of(2), "half a byte in {text}");
    digits
        .chunks(2)
        .map(|pair| (pair[0] * 16 + pair[1]) as u8)
        .collect()
}

#[cfg(test)]
mod tests {
    use super::*;

    #[test]
    fn hex_goes_there_and_back() {
        assert_eq!(from_hex("02 41 fF"), [2, 0x41, 0xFF]);
        assert_eq!(hex(&[2, 0x41, 0xFF]), "02 41 FF");
        assert_eq!(hex(&[7; 9]), "07*9");
        assert_eq!(hex(&[]), "(none)");
    }
}
