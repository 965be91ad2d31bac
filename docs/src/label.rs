//! Labels (document 01, Tree and table), and the 32-byte record that holds one.

pub const LABEL_MAXIMUM: usize = 24;
pub const RECORD_BYTES: usize = 32;
/// Where a record's spare bytes begin, which only a table uses (window.rs).
pub const SPARE_AT: usize = 2 + LABEL_MAXIMUM;

/// 1 to 24 letters, digits, hyphens, underscores and full stops; zeros behind. `==` compares bytes, as what is shown or stored is compared; labels are equal by
/// `same`.
#[derive(Clone, Copy, PartialEq, Eq, Hash, Debug)]
pub struct Label {
    length: u8,
    bytes: [u8; LABEL_MAXIMUM],
}

/// What a node carries that may be shown without its label.
pub const RESTRICTED: Label = Label { length: 10, bytes: *b"RESTRICTED\0\0\0\0\0\0\0\0\0\0\0\0\0\0" };

pub fn is_label_byte(byte: u8) -> bool {
    byte.is_ascii_alphanumeric() || matches!(byte, b'-' | b'_' | b'.')
}

impl Label {
    pub fn new(text: &[u8]) -> Option<Label> {
        if text.is_empty() || text.len() > LABEL_MAXIMUM || !text.iter().all(|&byte| is_label_byte(byte)) {
            return None;
        }
        let mut bytes = [0; LABEL_MAXIMUM];
        bytes[..text.len()].copy_from_slice(text);
        Some(Label { length: text.len() as u8, bytes })
    }

    pub fn text(&self) -> &[u8] {
        &self.bytes[..self.length as usize]
    }

    /// Whether two labels are equal: "Label equality now ignores the case of A to Z everywhere that two labels are compared" (document 02, card 6).
    pub fn same(&self, other: &Label) -> bool {
        self.length == other.length && self.bytes.eq_ignore_ascii_case(&other.bytes)
    }
}

/// How two labels are compared: by `Label::same`, or as a false reading has it.
pub type Equality = fn(&Label, &Label) -> bool;

/// Whether a label is equal to one of these.
pub fn listed(labels: &[Label], label: &Label, equal: Equality) -> bool {
    labels.iter().any(|other| equal(other, label))
}

pub fn all_zero(bytes: &[u8]) -> bool {
    bytes.chunks(64).all(|chunk| chunk.iter().fold(0, |or, byte| or | byte) == 0)
}

/// The first byte and the text of a record that has zeros between the text and the spare bytes.
pub fn read_text(record: &[u8]) -> Option<(u8, &[u8])> {
    let length = record[1] as usize;
    if !(1..=LABEL_MAXIMUM).contains(&length) || !all_zero(&record[2 + length..SPARE_AT]) {
        return None;
    }
    Some((record[0], &record[2..2 + length]))
}

/// The first byte and the text of a record whose unused bytes are zero.
pub fn read_record(record: &[u8]) -> Option<(u8, &[u8])> {
    read_text(record).filter(|_| all_zero(&record[SPARE_AT..RECORD_BYTES]))
}

/// A record with zeros behind its text.
pub fn write_record(record: &mut [u8], first: u8, text: &[u8]) {
    record.fill(0);
    record[0] = first;
    record[1] = text.len() as u8;
    record[2..2 + text.len()].copy_from_slice(text);
}

#[cfg(test)]
mod tests {
    use super::*;

    #[test]
    fn letters_alone_have_a_case() {
        let bytes: Vec<u8> = (0..=255).filter(|byte| is_label_byte(*byte)).collect();
        assert_eq!(bytes.len(), 2 * 26 + 10 + 3);
        for one in &bytes {
            for other in &bytes {
                let wanted = one == other || (one.is_ascii_alphabetic() && one ^ other == b'a' ^ b'A');
                let label = |byte: &u8| Label::new(&[b'x', *byte]).expect("a label");
                assert_eq!(label(one).same(&label(other)), wanted, "{one} {other}");
            }
        }
        assert!(!Label::new(b"ab").expect("a label").same(&Label::new(b"abc").expect("a label")));
    }
}
