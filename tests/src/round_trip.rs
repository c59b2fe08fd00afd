//! Both conversions of texts compared one after the other, and how often each
//! number was met.

use crate::compare;
use crate::damage::split_fields;
use std::collections::BTreeMap;

/// How often each number was met, to text and back; 0 for what was written.
#[derive(Debug, Default)]
pub struct Met {
    pub to: BTreeMap<u8, usize>,
    pub back: BTreeMap<u8, usize>,
}

/// Counts an answer. What was written was also refused with 16, for memory of
/// no byte.
fn count<T>(met: &mut BTreeMap<u8, usize>, answer: &Result<T, u8>) -> u8 {
    let number = answer.as_ref().err().copied().unwrap_or(0);
    *met.entry(number).or_default() += 1;
    if number == 0 {
        *met.entry(16).or_default() += 1;
    }
    number
}

/// A sound shape file without its remark, if it has one.
fn without_remark(file: &[u8]) -> Vec<u8> {
    let mut fields = split_fields(file);
    fields.retain(|field| field[0] != 0x15);
    fields.concat()
}

impl Met {
    /// Compares a shape file to text and gives its number. A text that is
    /// written comes back as the file, byte for byte but for its remark.
    pub fn file(&mut self, list: &[u8], file: &[u8]) -> u8 {
        let text = compare::to_text(list, file);
        if let Ok(text) = &text {
            let back = compare::from_text(list, text.as_bytes());
            count(&mut self.back, &back);
            assert_eq!(back, Ok(without_remark(file)), "{text}");
        }
        count(&mut self.to, &text)
    }

    /// Compares a text back and gives its number. The file that is written is
    /// sound, and its text is the same.
    pub fn text(&mut self, list: &[u8], text: &[u8]) -> u8 {
        let file = compare::from_text(list, text);
        if let Ok(file) = &file {
            let again = compare::to_text(list, file);
            count(&mut self.to, &again);
            assert_eq!(again.as_deref().map(str::as_bytes), Ok(text));
        }
        count(&mut self.back, &file)
    }

    /// Each of these numbers was met, and no other.
    pub fn assert_met(&self, to: &[u8], back: &[u8]) {
        for (met, wanted) in [(&self.to, to), (&self.back, back)] {
            let mut wanted = wanted.to_vec();
            wanted.sort();
            let met: Vec<u8> = met.keys().copied().collect();
            assert_eq!(met, wanted);
        }
    }
}
