//! The forms of the stored lists (little-endian numbers) and of the case lines (bytes and numbers as text).

/// A stored list while it is written.
#[derive(Default)]
pub struct Stored(pub Vec<u8>);

impl Stored {
    pub fn byte(&mut self, value: usize) {
        self.0.push(u8::try_from(value).expect("a byte"));
    }

    pub fn half(&mut self, value: usize) {
        self.0.extend(u16::try_from(value).expect("16 bits").to_le_bytes());
    }

    pub fn word(&mut self, value: usize) {
        self.0.extend(u32::try_from(value).expect("32 bits").to_le_bytes());
    }

    pub fn bytes(&mut self, bytes: &[u8]) {
        self.0.extend(bytes);
    }

    /// A case: its kind, numbers of up to 32 bits, and parts. Its length stands before it.
    pub fn case(&mut self, kind: usize, numbers: &[usize], parts: &[&[u8]]) {
        let mut case = Stored::default();
        for head in [kind, numbers.len(), parts.len()] {
            case.byte(head);
        }
        for &number in numbers {
            case.word(number);
        }
        let mut end = 0;
        for part in parts {
            end += part.len();
            case.word(end);
        }
        for part in parts {
            case.bytes(part);
        }
        self.word(case.0.len());
        self.bytes(&case.0);
    }
}

/// Bytes as hexadecimal digits; no bytes as `-`.
pub fn bytes_text(bytes: &[u8]) -> String {
    if bytes.is_empty() {
        return "-".to_string();
    }
    bytes.iter().map(|byte| format!("{byte:02x}")).collect()
}

pub fn bytes_of(text: &str) -> Vec<u8> {
    if text == "-" {
        return Vec::new();
    }
    (0..text.len() / 2).map(|at| u8::from_str_radix(&text[2 * at..2 * at + 2], 16).expect("hexadecimal digits")).collect()
}

pub fn number(text: &str) -> usize {
    text.parse().unwrap_or_else(|_| panic!("not a number: {text}"))
}

/// Numbers with commas between; none as `-`.
pub fn numbers_text(numbers: impl IntoIterator<Item = usize>) -> String {
    let texts = numbers.into_iter().map(|n| n.to_string()).collect::<Vec<_>>();
    if texts.is_empty() {
        return "-".to_string();
    }
    texts.join(",")
}
