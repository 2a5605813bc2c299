//! J-words (document 01, "Signal"): a word is an 80-bit number, its bits 0-1 are the format, 2-6
//! the label and 7-9 the sublabel.

use crate::pdu::{WORDS_HEADER_SIZE, WORD_SIZE};

const FORMAT_BITS: u32 = 2;
const LABEL_BITS: u32 = 5;
const SUBLABEL_BITS: u32 = 3;
const INITIAL_FORMAT: u8 = 0;

#[derive(Clone, Copy, Debug, PartialEq, Eq)]
pub struct Word {
    pub format: u8,
    pub label: u8,
    pub sublabel: u8,
}

impl Word {
    /// An initial word, which says what the message is.
    pub fn initial(label: u8, sublabel: u8) -> Self {
        Word {
            format: INITIAL_FORMAT,
            label,
            sublabel,
        }
    }

    /// The first word of a body of message type 0, if it has words.
    pub fn first(body: &[u8]) -> Option<Self> {
        let (word, _) = body.get(WORDS_HEADER_SIZE..)?.split_first_chunk()?;
        Some(Word::read(word))
    }

    fn read(word: &[u8; WORD_SIZE]) -> Self {
        let &[.., high, low] = word;
        let mut rest = u16::from_be_bytes([high, low]);
        let mut take = |bits: u32| {
            let taken = rest & ((1 << bits) - 1);
            rest >>= bits;
            taken as u8
        };
        Word {
            format: take(FORMAT_BITS),
            label: take(LABEL_BITS),
            sublabel: take(SUBLABEL_BITS),
        }
    }

    pub fn is_initial(self) -> bool {
        self.format == INITIAL_FORMAT
    }

    /// Puts format, label and sublabel into a word and keeps its other bits.
    pub fn put(self, word: &mut [u8; WORD_SIZE]) {
        let all_bits = FORMAT_BITS + LABEL_BITS + SUBLABEL_BITS;
        let value = u16::from(self.sublabel) << (FORMAT_BITS + LABEL_BITS)
            | u16::from(self.label) << FORMAT_BITS
            | u16::from(self.format);
        let [.., high, low] = word;
        let kept = u16::from_be_bytes([*high, *low]) >> all_bits << all_bits;
        [*high, *low] = (kept | value).to_be_bytes();
    }
}
