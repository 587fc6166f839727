//! Letter tables: which bytes of a plain text make words, and how they are folded.
use crate::entries;
use crate::refusal::Refused;

/// A letter table that has passed the engine's check. It has an entry for each byte: the letter that the byte is read as, or 0, which makes it a
/// separator. It keeps a byte if that byte's entry is the byte itself; each entry is 0 or a byte that the table keeps, entry 0A is 0, and some entry
/// is not 0.
///
/// A table of one's own is made from a copy of the built-in one, [`Letters::table`], in which some entries are changed.
#[derive(Clone, Debug, PartialEq, Eq)]
pub struct Letters([u8; 256]);

impl Letters {
    /// The built-in letter table, that of [`crate::read_text`], [`crate::find_word`] and [`crate::make_list`], over ISO 8859-1: 30 to 39 and 61 to 7A
    /// keep their value, 41 to 5A gain 20 (hexadecimal too), C0 to DE without D7 gain 20, DF to FF without F7 keep theirs; the rest are 0. The
    /// program `letters` of the repository prints it.
    pub const fn built_in() -> Letters {
        let mut table = [0; 256];
        let mut byte = 0;
        while byte < table.len() {
            table[byte] = match byte as u8 {
                0xD7 | 0xF7 => 0,
                same @ (0x30..=0x39 | 0x61..=0x7A | 0xDF..=0xFF) => same,
                capital @ (0x41..=0x5A | 0xC0..=0xDE) => capital + 0x20,
                _ => 0,
            };
            byte += 1;
        }
        Letters(table)
    }

    /// Takes a table that passes the engine's check; refused by [`crate::Refusal::Table`] where it breaks a rule, its length included.
    pub fn new(table: &[u8]) -> Result<Letters, Refused> {
        entries::check_letters(table).result()?;
        let mut letters = Letters([0; 256]);
        letters.0.copy_from_slice(table);
        Ok(letters)
    }

    /// The entries of the table, by their byte.
    pub const fn table(&self) -> &[u8; 256] {
        &self.0
    }

    /// The letter that a byte is read as; none for a separator.
    pub fn fold(&self, byte: u8) -> Option<u8> {
        match self.0[usize::from(byte)] {
            0 => None,
            letter => Some(letter),
        }
    }
}
