//! Plain text in UTF-8 or ISO 8859-1, turned into bytes of ISO 8859-1.
use std::borrow::Cow;
use std::collections::HashMap;

/// What the bytes 80 to 9F of a file stand for that is not UTF-8: the characters of Windows-1252, with the control characters that it lacks.
const WINDOWS: [char; 32] = [
    '€', '\u{81}', '‚', 'ƒ', '„', '…', '†', '‡', 'ˆ', '‰', 'Š', '‹', 'Œ', '\u{8D}', 'Ž', '\u{8F}', '\u{90}', '‘', '’',
    '“', '”', '•', '–', '—', '˜', '™', 'š', '›', 'œ', '\u{9D}', 'ž', 'Ÿ',
];

/// For each combining mark the letters that ISO 8859-1 has with it: the base letters, and in the same order the composed ones.
const COMPOSED: [(char, &str, &str); 7] = [
    ('\u{300}', "AEIOUaeiou", "ÀÈÌÒÙàèìòù"),
    ('\u{301}', "AEIOUYaeiouy", "ÁÉÍÓÚÝáéíóúý"),
    ('\u{302}', "AEIOUaeiou", "ÂÊÎÔÛâêîôû"),
    ('\u{303}', "ANOano", "ÃÑÕãñõ"),
    ('\u{308}', "AEIOUaeiouy", "ÄËÏÖÜäëïöüÿ"),
    ('\u{30A}', "Aa", "Åå"),
    ('\u{327}', "Cc", "Çç"),
];

/// The line that stands for "no recoding" where the recoding of an index is kept.
const AS_IT_IS: &str = "raw";

/// How the characters of files and phrases become bytes.
#[derive(Clone, Debug, PartialEq, Eq)]
pub enum Recoding {
    /// The bytes are those of a set of the user's own, and stay as they are.
    Raw,
    /// UTF-8 or ISO 8859-1 becomes ISO 8859-1, and these characters become these letters.
    Latin(HashMap<char, Vec<u8>>),
}

/// Where a text could not be read: the line and the column, both from 1 on, and why.
#[derive(Debug, PartialEq, Eq)]
pub struct Unread {
    pub line: usize,
    pub column: usize,
    pub why: String,
}

/// What becomes of a character.
enum Placed {
    /// It was put behind the bytes, or left out.
    Done,
    /// It is a letter that ISO 8859-1 lacks.
    Outside,
}

impl Recoding {
    /// Reads the lines of a file of replacements: a character, white space, and what is read in its place, in ISO 8859-1. Of characters that are one letter in two
    /// cases, the one of which nothing is said is replaced as the other.
    pub fn replacing(lines: &[u8]) -> Result<Recoding, Unread> {
        let mut given: Vec<(char, Vec<u8>)> = Vec::new();
        for (at, line) in decode(lines).lines().enumerate() {
            let refused = |why: &str| Unread { line: at + 1, column: 1, why: why.to_owned() };
            let mut chars = line.trim().chars();
            let Some(letter) = chars.next() else { continue };
            let rest = chars.as_str();
            if !rest.is_empty() && !rest.starts_with(char::is_whitespace) {
                return Err(refused("a line is one letter, a blank, and what is read in its place"));
            }
            if letter.is_ascii() {
                return Err(refused("the letters a to z, digits and signs of ASCII are not replaced"));
            }
            let Some(bytes) = rest.trim().chars().map(|c| u8::try_from(u32::from(c)).ok()).collect() else {
                return Err(refused("what is read in its place must be in ISO 8859-1"));
            };
            if given.iter().any(|(earlier, _)| *earlier == letter) {
                return Err(refused("the letter is replaced in an earlier line already"));
            }
            given.push((letter, bytes));
        }
        let mut replacements: HashMap<char, Vec<u8>> = given.iter().cloned().collect();
        for (letter, bytes) in given {
            if let Some(other) = other_case(letter) {
                replacements.entry(other).or_insert(bytes);
            }
        }
        Ok(Recoding::Latin(replacements))
    }

    /// Reads what an index keeps: the lines of [`Recoding::lines`].
    pub fn read(lines: &[u8]) -> Result<Recoding, Unread> {
        match lines == Recoding::Raw.lines().as_bytes() {
            true => Ok(Recoding::Raw),
            false => Recoding::replacing(lines),
        }
    }

    /// The lines that [`Recoding::read`] reads as this recoding, in the order of the characters.
    pub fn lines(&self) -> String {
        match self {
            Recoding::Raw => format!("{AS_IT_IS}\n"),
            Recoding::Latin(replacements) => {
                let mut lines: Vec<String> =
                    replacements.iter().map(|(c, bytes)| format!("{c} {}\n", latin(bytes))).collect();
                lines.sort();
                lines.concat()
            }
        }
    }

    /// Puts the bytes of a file behind others.
    pub fn put(&self, file: &[u8], bytes: &mut Vec<u8>) -> Result<(), Unread> {
        let Recoding::Latin(replacements) = self else {
            bytes.extend_from_slice(file);
            return Ok(());
        };
        if file.starts_with(&[0xFF, 0xFE]) || file.starts_with(&[0xFE, 0xFF]) {
            return Err(Unread { line: 1, column: 1, why: "the file is in UTF-16; save it as UTF-8".to_owned() });
        }
        let text = decode(file);
        let unread = |at: usize, why: String| {
            let (line, column) = line_and_column(text[..at].chars());
            Err(Unread { line, column, why })
        };
        if let Some(at) = text.bytes().position(|byte| byte == 0) {
            return unread(at, "a byte 00 stands here: this is no plain text".to_owned());
        }
        let mut at = 0;
        while let Some(ahead) = text.as_bytes()[at..].iter().position(|byte| !byte.is_ascii()) {
            bytes.extend_from_slice(&text.as_bytes()[at..at + ahead]);
            at += ahead;
            let Some(c) = text[at..].chars().next() else { break };
            if let Placed::Outside = put_char(c, replacements, bytes) {
                let why = format!(
                    "the letter {} is not in ISO 8859-1; give --replace FILE, or --raw with --letters TABLE",
                    named(c)
                );
                return unread(at, why);
            }
            at += c.len_utf8();
        }
        bytes.extend_from_slice(&text.as_bytes()[at..]);
        Ok(())
    }

    /// The line and the column of a file at which the byte with this number comes from, of those that [`Recoding::put`] makes of it.
    pub fn place_of(&self, file: &[u8], number: usize) -> (usize, usize) {
        let Recoding::Latin(replacements) = self else {
            return line_and_column(file[..number.min(file.len())].iter().map(|&byte| char::from(byte)));
        };
        let text = decode(file);
        let mut bytes = Vec::new();
        let before = text.char_indices().find(|&(_, c)| {
            put_char(c, replacements, &mut bytes);
            bytes.len() > number
        });
        line_and_column(text[..before.map_or(text.len(), |(at, _)| at)].chars())
    }

    /// The bytes of a typed phrase, character by character: none for a letter that has no place in the set.
    pub fn typed(&self, phrase: &[u8]) -> Vec<(String, Option<Vec<u8>>)> {
        let Recoding::Latin(replacements) = self else {
            return phrase.iter().map(|&byte| (char::from(byte).to_string(), Some(vec![byte]))).collect();
        };
        let mut characters: Vec<(String, Option<Vec<u8>>)> = Vec::new();
        for c in decode(phrase).chars() {
            let base = match characters.last_mut() {
                Some((shown, Some(bytes))) if is_mark(c) => Some((shown, bytes)),
                _ => None,
            };
            if let Some((shown, bytes)) = base {
                if let Placed::Done = put_char(c, replacements, bytes) {
                    shown.push(c);
                    continue;
                }
            }
            let mut bytes = Vec::new();
            let placed = matches!(put_char(c, replacements, &mut bytes), Placed::Done);
            characters.push((c.to_string(), placed.then_some(bytes)));
        }
        characters
    }

    /// Bytes of the set as they are printed: as UTF-8, or as they are.
    pub fn shown<'a>(&self, bytes: &'a [u8]) -> Cow<'a, [u8]> {
        match self {
            Recoding::Latin(_) if !bytes.is_ascii() => Cow::Owned(latin(bytes).into_bytes()),
            _ => Cow::Borrowed(bytes),
        }
    }
}

/// A letter in the other case, if that is one letter and both are in ISO 8859-1 or both are not.
fn other_case(letter: char) -> Option<char> {
    let cases: Vec<char> = letter.to_lowercase().chain(letter.to_uppercase()).collect();
    let other = match cases[..] {
        [small, capital] if small != letter => Some(small).filter(|_| capital == letter),
        [small, capital] => Some(capital).filter(|_| small == letter),
        _ => None,
    };
    other.filter(|&other| other != letter && (other > '\u{FF}') == (letter > '\u{FF}'))
}

/// The characters of a file: UTF-8 if it is, without the mark of the byte order, and otherwise ISO 8859-1 with the signs of Windows-1252.
fn decode(file: &[u8]) -> Cow<'_, str> {
    match std::str::from_utf8(file) {
        Ok(text) => Cow::Borrowed(text.strip_prefix('\u{FEFF}').unwrap_or(text)),
        Err(_) => Cow::Owned(file.iter().map(|&byte| windows(byte)).collect()),
    }
}

/// Whether a file is read as ISO 8859-1, since it is not UTF-8.
pub fn is_latin(file: &[u8]) -> bool {
    std::str::from_utf8(file).is_err()
}

/// The character of a byte in a file that is not UTF-8.
fn windows(byte: u8) -> char {
    match byte {
        0x80..=0x9F => WINDOWS[usize::from(byte - 0x80)],
        _ => char::from(byte),
    }
}

/// Bytes of ISO 8859-1 as characters.
pub fn latin(bytes: &[u8]) -> String {
    bytes.iter().map(|&byte| char::from(byte)).collect()
}

/// Puts a character behind bytes of ISO 8859-1.
fn put_char(c: char, replacements: &HashMap<char, Vec<u8>>, bytes: &mut Vec<u8>) -> Placed {
    if let Some(replaced) = replacements.get(&c) {
        bytes.extend_from_slice(replaced);
        return Placed::Done;
    }
    match c {
        '\u{AD}' | '\u{200C}' | '\u{200D}' | '\u{2060}' | '\u{FE00}'..='\u{FE0F}' | '\u{FEFF}' => {}
        '\u{00}'..='\u{FF}' => bytes.push(c as u8),
        '‘' | '’' | '‛' | '\u{2BC}' => bytes.push(b'\''),
        '\u{2010}' | '\u{2011}' => bytes.push(b'-'),
        _ if is_mark(c) => {
            let Some(composed) = bytes.last().and_then(|&base| compose(base, c)) else { return Placed::Outside };
            bytes.pop();
            return put_char(composed, replacements, bytes);
        }
        _ if is_letter(c) => return Placed::Outside,
        _ => bytes.push(b' '),
    }
    Placed::Done
}

/// The letter of ISO 8859-1 that is a base letter with a combining mark.
fn compose(base: u8, mark: char) -> Option<char> {
    let (_, bases, composed) = COMPOSED.iter().find(|(with, _, _)| *with == mark)?;
    let at = bases.chars().position(|letter| letter == char::from(base))?;
    composed.chars().nth(at)
}

/// Whether a character is a mark that is combined with the letter before it.
fn is_mark(c: char) -> bool {
    matches!(c, '\u{300}'..='\u{36F}' | '\u{1AB0}'..='\u{1AFF}' | '\u{1DC0}'..='\u{1DFF}' | '\u{20D0}'..='\u{20FF}' | '\u{FE20}'..='\u{FE2F}')
}

/// Whether a character above U+00FF makes words: a letter, or a digit of another script; not a raised or circled number, or a fraction.
fn is_letter(c: char) -> bool {
    let is_sign = matches!(c, '\u{2070}'..='\u{209F}' | '\u{2150}'..='\u{215F}' | '\u{2460}'..='\u{24FF}' | '\u{2776}'..='\u{2793}');
    c.is_alphabetic() || c.is_numeric() && !is_sign
}

/// A letter with its number; a mark alone by its number, since it would be printed over what stands before it.
fn named(c: char) -> String {
    match is_mark(c) {
        true => format!("U+{:04X} (a mark over the letter before it)", u32::from(c)),
        false => format!("{c} (U+{:04X})", u32::from(c)),
    }
}

/// The line and the column behind characters. CR LF is one line end, and so is CR alone.
fn line_and_column(before: impl Iterator<Item = char>) -> (usize, usize) {
    let (mut line, mut column, mut last) = (1, 1, ' ');
    for c in before {
        match c {
            '\n' if last == '\r' => {}
            '\n' | '\r' => (line, column) = (line + 1, 1),
            _ => column += 1,
        }
        last = c;
    }
    (line, column)
}

#[cfg(test)]
mod tests {
    use super::*;

    /// No replacements.
    fn plain() -> Recoding {
        Recoding::Latin(HashMap::new())
    }

    /// The bytes of a file.
    fn put(recoding: &Recoding, file: &[u8]) -> Result<Vec<u8>, Unread> {
        let mut bytes = Vec::new();
        recoding.put(file, &mut bytes).map(|()| bytes)
    }

    #[test]
    fn recodes_letters_quotes_dashes_and_marks() {
        let text = "\u{FEFF}Stra\u{DF}e \u{201C}caf\u{E9}\u{201D}\u{2014}l\u{2019}e\u{301}te\u{301} so\u{AD}wie\u{2026} x\u{2011}y \u{2074}";
        assert_eq!(put(&plain(), text.as_bytes()).unwrap(), b"Stra\xDFe  caf\xE9  l'\xE9t\xE9 sowie  x-y  ");
    }

    #[test]
    fn reads_what_is_not_utf_8_as_iso_8859_1() {
        assert_eq!(put(&plain(), b"na\xEFve \x93so\x94 \x85").unwrap(), b"na\xEFve  so   ");
        let unread = put(&plain(), b"un\r\nc\x9Cur \xE9").unwrap_err();
        assert_eq!((unread.line, unread.column), (2, 2));
        assert!(unread.why.contains("œ (U+0153)"), "{}", unread.why);
    }

    #[test]
    fn names_the_line_and_the_column_of_a_letter_outside_the_set() {
        for (text, line, column) in
            [("ł", 1, 1), ("é\nab\r\ncé ł", 3, 4), ("a\rb\rł", 3, 1), ("x\u{304}", 1, 2), ("\u{301}", 1, 1)]
        {
            let unread = put(&plain(), text.as_bytes()).unwrap_err();
            assert_eq!((unread.line, unread.column), (line, column), "{text:?}");
        }
    }

    #[test]
    fn refuses_what_is_no_plain_text() {
        assert_eq!(put(&plain(), b"ab\n\0").unwrap_err().line, 2);
        assert!(put(&plain(), b"\xFF\xFEa\0").unwrap_err().why.contains("UTF-16"));
    }

    #[test]
    fn replaces_letters_in_both_cases_and_keeps_the_replacements() {
        let recoding = Recoding::replacing("\u{FEFF}œ oe\n\nŁ L\nÿ y\né e\nσ s\nς z\n".as_bytes()).unwrap();
        assert_eq!(put(&recoding, "cœur Œ Łłÿ ÉéE\u{301} Σσς".as_bytes()).unwrap(), b"coeur oe LLy eee ssz");
        assert!(put(&recoding, "Ÿ".as_bytes()).is_err());
        assert_eq!(Recoding::read(recoding.lines().as_bytes()), Ok(recoding));
        for (lines, line) in [("œoe", 1), ("ł l\nł w", 2), ("é e\na b", 2), ("ж ж", 1), ("raw", 1)] {
            assert_eq!(Recoding::replacing(lines.as_bytes()).unwrap_err().line, line, "{lines}");
        }
    }

    #[test]
    fn leaves_bytes_of_ones_own_set_as_they_are() {
        let all: Vec<u8> = (0..=255).collect();
        assert_eq!(put(&Recoding::Raw, &all).unwrap(), all);
        assert_eq!(Recoding::read(Recoding::Raw.lines().as_bytes()), Ok(Recoding::Raw));
        assert_eq!(Recoding::Raw.place_of(b"a\nbc", 3), (2, 2));
    }

    #[test]
    fn finds_where_a_byte_comes_from() {
        let recoding = Recoding::replacing("œ oe".as_bytes()).unwrap();
        let text = "\u{AD}é\nœu e\u{301}ł".replace('ł', "x");
        let bytes = put(&recoding, text.as_bytes()).unwrap();
        assert_eq!(bytes, b"\xE9\noeu \xE9x");
        let places: Vec<_> = (0..bytes.len()).map(|number| recoding.place_of(text.as_bytes(), number)).collect();
        assert_eq!(places, [(1, 2), (1, 3), (2, 1), (2, 1), (2, 2), (2, 3), (2, 4), (2, 6)]);
    }
}
