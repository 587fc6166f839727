//! The index file: its layout, how it is read and tried, and how it is written.
//!
//! All numbers are little-endian. A header of 64 bytes is followed by a row for each section, and the sections begin at multiples of 64; bytes that
//! belong to none of them are 0.
//!
//! | at | bytes | holds |
//! |---|---|---|
//! | 0 | 8 | `concord` and 0A |
//! | 8 | 4, 4 | the version, 1; the byte order, 01020304 |
//! | 16 | 4 × 8 | V, B, b, s |
//! | 48 | 8, 8 | the length of the file; CRC-64/XZ of all bytes, these eight taken as 0 |
//! | 64 | 10 × 24 | for each section: its offset, the elements used, the elements for which there is room |
use crate::crc::Crc;
use crate::threads::both;
use bytemuck::Pod;
use concordance::entries::Slices;
use concordance::Shape;
use std::fmt::{self, Display};
use std::fs::{self, File};
use std::io::{self, Read, Write};
use std::os::unix::fs::FileExt;
use std::path::{Path, PathBuf};

/// What an index file begins with.
const MARK: &[u8; 8] = b"concord\n";
/// The version of the layout.
const VERSION: u32 = 1;
/// The number that shows the order of bytes.
const BYTE_ORDER: u32 = 0x0102_0304;
/// The number of closing byte values of the code that the engine reads.
const CLOSING: u64 = 128;
/// Sections begin at multiples of this.
const ALIGNMENT: usize = 64;
/// Where the checksum stands.
const CHECKSUM: usize = 56;
/// Where the rows of the sections begin.
const ROWS: usize = 64;
/// The bytes of a row.
const ROW: usize = 24;
/// The bytes of the header and the rows, up to the first section.
const FRONT: usize = (ROWS + ROW * Section::ALL.len()).next_multiple_of(ALIGNMENT);
/// How many marks there are, and the number that stands for one that is not set.
const MARKS: usize = 16;
const NOT_SET: u32 = u32::MAX;

/// A section of the file.
#[derive(Clone, Copy, Debug, PartialEq, Eq)]
pub enum Section {
    Lengths,
    Bytes,
    Superblocks,
    Blocks,
    List,
    Starts,
    Names,
    Marks,
    Letters,
    Recoding,
}

impl Section {
    /// The sections in the order of their rows.
    pub const ALL: [Section; 10] = [
        Section::Lengths,
        Section::Bytes,
        Section::Superblocks,
        Section::Blocks,
        Section::List,
        Section::Starts,
        Section::Names,
        Section::Marks,
        Section::Letters,
        Section::Recoding,
    ];

    /// The bytes of an element.
    const fn element(self) -> usize {
        match self {
            Section::Lengths | Section::Superblocks | Section::Starts | Section::Marks => 4,
            Section::Blocks => 2,
            Section::Bytes | Section::List | Section::Names | Section::Letters | Section::Recoding => 1,
        }
    }

    /// The name of the section for a reader.
    const fn name(self) -> &'static str {
        match self {
            Section::Lengths => "node lengths",
            Section::Bytes => "node bytes",
            Section::Superblocks => "superblock counters",
            Section::Blocks => "block counters",
            Section::List => "word list",
            Section::Starts => "document starts",
            Section::Names => "document names",
            Section::Marks => "marks",
            Section::Letters => "letter table",
            Section::Recoding => "recoding",
        }
    }
}

/// Why a file is not taken, in the order in which this is tried.
#[derive(Debug)]
pub enum Broken {
    System(io::Error),
    Mark,
    Version(u32),
    ByteOrder,
    Length { stated: u64, found: u64 },
    Closing(u64),
    Limits,
    SectionOutside(Section),
    SectionOrder(Section),
    SectionsOverlap(Section, Section),
    Gap(usize),
    Marks,
    Letters,
    Names(&'static str),
    Recoding,
    Checksum,
}

impl Display for Broken {
    fn fmt(&self, out: &mut fmt::Formatter<'_>) -> fmt::Result {
        const MEND: &str = "take the file from a copy, or index the letters again.";
        match self {
            Broken::System(error) => write!(out, "{error}"),
            Broken::Mark => write!(out, "refused. This is no index file of concord."),
            Broken::Version(version) => {
                write!(out, "refused. The file has version {version}, and this program reads version {VERSION}; index the letters again.")
            }
            Broken::ByteOrder => write!(out, "refused. The bytes of its numbers stand in another order; {MEND}"),
            Broken::Length { stated, found } if found < stated => {
                write!(out, "refused. The file is cut short: {found} of {stated} bytes are there; {MEND}")
            }
            Broken::Length { stated, found } => {
                write!(out, "refused. The file has {found} bytes, and {stated} were written; {MEND}")
            }
            Broken::Closing(closing) => {
                write!(out, "refused. The file is coded with {closing} closing values, and this program reads {CLOSING}.")
            }
            Broken::Limits => write!(out, "refused. The file is too large for the memory of this machine."),
            Broken::SectionOutside(section) => {
                write!(out, "refused. The section \"{}\" does not lie inside the file; {MEND}", section.name())
            }
            Broken::SectionOrder(section) => write!(
                out,
                "refused. The section \"{}\" does not begin at a multiple of {ALIGNMENT}, or uses more than it has room for; {MEND}",
                section.name()
            ),
            Broken::SectionsOverlap(one, other) => {
                write!(out, "refused. The sections \"{}\" and \"{}\" overlap; {MEND}", one.name(), other.name())
            }
            Broken::Gap(at) => write!(out, "refused. The byte at {at} belongs to no section and is not 0; {MEND}"),
            Broken::Marks => write!(out, "refused. There are not {MARKS} marks; {MEND}"),
            Broken::Letters => write!(out, "refused. The letter table has not 256 entries; {MEND}"),
            Broken::Names(why) => write!(out, "refused. {why}; {MEND}"),
            Broken::Recoding => write!(out, "refused. The recoding of its letters cannot be read; {MEND}"),
            Broken::Checksum => {
                write!(out, "refused. The file is not as it was written, its checksum differs; {MEND}")
            }
        }
    }
}

impl From<io::Error> for Broken {
    fn from(error: io::Error) -> Broken {
        Broken::System(error)
    }
}

/// What an index file holds, lent: to be written, or as it was read.
#[derive(Clone, Copy)]
pub struct Contents<'a> {
    pub shape: Shape,
    pub arrays: Slices<'a>,
    pub list: &'a [u8],
    pub starts: &'a [u32],
    pub names: &'a [u8],
    pub letters: &'a [u8],
    pub recoding: &'a [u8],
}

/// An index file that was read and has passed all tests but those of the checksum and of the engine.
pub struct IndexFile {
    /// The bytes of the file, in eights so that every element is aligned, and 0 behind them.
    eights: Vec<u64>,
    length: usize,
    shape: Shape,
    /// The first byte and the number of used elements of each section.
    parts: [(usize, usize); Section::ALL.len()],
}

impl IndexFile {
    /// Reads a file as a whole and tries what can be tried without the engine, the checksum excepted.
    pub fn read(path: &Path) -> Result<IndexFile, Broken> {
        let mut file = File::open(path)?;
        let found = file.metadata()?.len();
        let mut front = Vec::with_capacity(FRONT);
        (&mut file).take(FRONT as u64).read_to_end(&mut front)?;
        let length = tried_front(&front, found)?;
        let mut eights = zeros(length.div_ceil(8))?;
        let bytes: &mut [u8] = bytemuck::cast_slice_mut(&mut eights);
        bytes[..FRONT].copy_from_slice(&front);
        read_rest(&file, &mut bytes[FRONT..length])?;
        let (shape, parts) = tried_sections(&bytes[..length])?;
        let file = IndexFile { eights, length, shape, parts };
        file.try_contents()?;
        Ok(file)
    }

    /// All bytes of the file.
    fn bytes(&self) -> &[u8] {
        &bytemuck::cast_slice(&self.eights)[..self.length]
    }

    /// The used elements of a section.
    fn used<T: Pod>(&self, section: Section) -> &[T] {
        let (offset, used) = self.parts[section as usize];
        bytemuck::cast_slice(&self.bytes()[offset..offset + used * section.element()])
    }

    /// What the file holds.
    pub fn contents(&self) -> Contents<'_> {
        Contents {
            shape: self.shape,
            arrays: Slices {
                lengths: self.used(Section::Lengths),
                bytes: self.used(Section::Bytes),
                superblocks: self.used(Section::Superblocks),
                blocks: self.used(Section::Blocks),
            },
            list: self.used(Section::List),
            starts: self.used(Section::Starts),
            names: self.used(Section::Names),
            letters: self.used(Section::Letters),
            recoding: self.used(Section::Recoding),
        }
    }

    /// Tries the sections of which the engine knows nothing.
    fn try_contents(&self) -> Result<(), Broken> {
        let contents = self.contents();
        if self.used::<u32>(Section::Marks).len() != MARKS {
            return Err(Broken::Marks);
        }
        if !matches!(contents.letters.len(), 0 | 256) {
            return Err(Broken::Letters);
        }
        try_names(contents.names, contents.starts.len()).map_err(Broken::Names)
    }

    /// Tries the checksum: whether the file is as it was written.
    pub fn try_checksum(&self) -> Result<(), Broken> {
        match checksum(self.bytes()) == number(self.bytes(), CHECKSUM) {
            true => Ok(()),
            false => Err(Broken::Checksum),
        }
    }
}

/// Reads what stands behind the front of a file, one half on a thread of its own. A file that has become shorter is refused.
fn read_rest(file: &File, bytes: &mut [u8]) -> Result<(), Broken> {
    let half = bytes.len() / 2;
    let (first, second) = bytes.split_at_mut(half);
    let (there, here) =
        both(|| file.read_exact_at(second, (FRONT + half) as u64), || file.read_exact_at(first, FRONT as u64))?;
    there.and(here).map_err(Broken::System)
}

/// So many zeros, if there is memory for them.
fn zeros(number: usize) -> Result<Vec<u64>, Broken> {
    Vec::<u64>::new().try_reserve_exact(number).map_err(|_| Broken::Limits)?;
    Ok(vec![0; number])
}

/// Whether a file begins as an index does: with the mark and, behind the version, the byte order, which no plain text has.
pub fn is_index(file: &[u8]) -> bool {
    file.starts_with(MARK) && short_number(file, 12) == Some(BYTE_ORDER)
}

/// Whether the file with this name begins as an index does.
pub fn is_index_at(path: &Path) -> io::Result<bool> {
    let mut front = Vec::new();
    File::open(path)?.take(ROWS as u64).read_to_end(&mut front)?;
    Ok(is_index(&front))
}

/// The number of eight bytes at an offset.
fn number(bytes: &[u8], at: usize) -> u64 {
    u64::from_le_bytes(std::array::from_fn(|i| bytes[at + i]))
}

/// The number of four bytes at an offset, if they are there.
fn short_number(bytes: &[u8], at: usize) -> Option<u32> {
    Some(u32::from_le_bytes(bytes.get(at..at + 4)?.try_into().ok()?))
}

/// The checksum of a file, whose own eight bytes are taken as 0.
fn checksum(bytes: &[u8]) -> u64 {
    Crc::new().with(&bytes[..CHECKSUM]).with(&[0; 8]).with(&bytes[CHECKSUM + 8..]).value()
}

/// The length of a file whose front is this and which has so many bytes.
fn tried_front(front: &[u8], found: u64) -> Result<usize, Broken> {
    if !front.starts_with(MARK) {
        return Err(Broken::Mark);
    }
    let cut = Broken::Length { stated: FRONT as u64, found };
    match (short_number(front, 8), short_number(front, 12)) {
        (_, Some(order)) if order == BYTE_ORDER.swap_bytes() => return Err(Broken::ByteOrder),
        (Some(version), _) if version != VERSION => return Err(Broken::Version(version)),
        (_, Some(order)) if order != BYTE_ORDER => return Err(Broken::ByteOrder),
        (Some(_), Some(_)) if front.len() == FRONT => {}
        _ => return Err(cut),
    }
    let stated = number(front, 48);
    if stated != found {
        return Err(Broken::Length { stated, found });
    }
    usize::try_from(found).map_err(|_| Broken::Limits)
}

/// V, B and b, and where the used part of each section lies, of a file whose front was tried: the sections are inside the file and apart, and all
/// other bytes are 0.
fn tried_sections(bytes: &[u8]) -> Result<(Shape, [(usize, usize); Section::ALL.len()]), Broken> {
    let sized = |at| usize::try_from(number(bytes, at)).map_err(|_| Broken::Limits);
    let shape = Shape { vocabulary: sized(16)?, block: sized(24)?, per_superblock: sized(32)? };
    if number(bytes, 40) != CLOSING {
        return Err(Broken::Closing(number(bytes, 40)));
    }
    let mut parts = [(0, 0); Section::ALL.len()];
    let mut taken = Vec::new();
    for section in Section::ALL {
        let row = ROWS + ROW * section as usize;
        let (offset, used, room) = (sized(row)?, sized(row + 8)?, sized(row + 16)?);
        let end = room.checked_mul(section.element()).and_then(|length| length.checked_add(offset));
        let end = end.filter(|&end| end <= bytes.len() && offset >= FRONT).ok_or(Broken::SectionOutside(section))?;
        if offset % ALIGNMENT != 0 || used > room {
            return Err(Broken::SectionOrder(section));
        }
        parts[section as usize] = (offset, used);
        taken.push((offset, end, section));
    }
    taken.sort_by_key(|&(offset, end, _)| (offset, end));
    if let Some(pair) = taken.windows(2).find(|pair| pair[0].1 > pair[1].0) {
        return Err(Broken::SectionsOverlap(pair[0].2, pair[1].2));
    }
    let ends = [ROWS + ROW * Section::ALL.len()].into_iter().chain(taken.iter().map(|&(_, end, _)| end));
    let next = taken.iter().map(|&(offset, _, _)| offset).chain([bytes.len()]);
    for (end, next) in ends.zip(next) {
        if let Some(gap) = bytes[end..next].iter().position(|&byte| byte != 0) {
            return Err(Broken::Gap(end + gap));
        }
    }
    Ok((shape, parts))
}

/// The names of documents, each closed by 0A.
pub fn names_of(names: &[u8]) -> impl Iterator<Item = &[u8]> {
    names.split_inclusive(|&byte| byte == b'\n').map(|name| name.strip_suffix(b"\n").unwrap_or(name))
}

/// Tries the names of so many documents.
fn try_names(names: &[u8], documents: usize) -> Result<(), &'static str> {
    if names.last().is_some_and(|&last| last != b'\n') || names_of(names).count() != documents {
        return Err("There are not as many document names as documents");
    }
    match names_of(names).all(is_name) {
        true => Ok(()),
        false => Err("A document name is empty, has a control character, or leads out of its folder"),
    }
}

/// Whether bytes are the name of a document: a path below a folder, without control characters.
pub fn is_name(name: &[u8]) -> bool {
    let is_part = |part: &[u8]| !matches!(part, b"" | b"." | b"..");
    !name.iter().any(u8::is_ascii_control) && name.split(|&byte| byte == b'/').all(is_part)
}

/// The bytes of an index file.
pub fn image(contents: &Contents) -> Vec<u8> {
    let marks = [NOT_SET; MARKS];
    let Contents { shape, arrays, list, starts, names, letters, recoding } = contents;
    let parts: [&[u8]; Section::ALL.len()] = [
        bytemuck::cast_slice(arrays.lengths),
        arrays.bytes,
        bytemuck::cast_slice(arrays.superblocks),
        bytemuck::cast_slice(arrays.blocks),
        list,
        bytemuck::cast_slice(starts),
        names,
        bytemuck::cast_slice(&marks),
        letters,
        recoding,
    ];
    let sizes = parts.iter().map(|part| part.len().next_multiple_of(ALIGNMENT));
    let mut file = Vec::with_capacity(FRONT + sizes.sum::<usize>());
    file.extend_from_slice(MARK);
    file.extend_from_slice(&VERSION.to_le_bytes());
    file.extend_from_slice(&BYTE_ORDER.to_le_bytes());
    let header = [shape.vocabulary as u64, shape.block as u64, shape.per_superblock as u64, CLOSING, 0, 0];
    header.iter().for_each(|number| file.extend_from_slice(&number.to_le_bytes()));
    let mut offset = FRONT;
    for (section, part) in Section::ALL.iter().zip(parts) {
        let elements = part.len() / section.element();
        [offset, elements, elements].iter().for_each(|&number| file.extend_from_slice(&(number as u64).to_le_bytes()));
        offset += part.len().next_multiple_of(ALIGNMENT);
    }
    for part in parts {
        file.resize(file.len().next_multiple_of(ALIGNMENT), 0);
        file.extend_from_slice(part);
    }
    file.resize(offset, 0);
    file[48..CHECKSUM].copy_from_slice(&(offset as u64).to_le_bytes());
    let sum = checksum(&file);
    file[CHECKSUM..CHECKSUM + 8].copy_from_slice(&sum.to_le_bytes());
    file
}

/// Writes a file beside the one with its name, flushes it, and gives it the name, so that a run that is stopped leaves the file that was there.
pub fn write(path: &Path, bytes: &[u8]) -> io::Result<()> {
    let folder = path.parent().filter(|folder| !folder.as_os_str().is_empty()).unwrap_or(Path::new("."));
    let beside = beside(path);
    let written = File::create(&beside).and_then(|mut file| {
        file.write_all(bytes)?;
        file.sync_all()?;
        fs::rename(&beside, path)?;
        File::open(folder)?.sync_all()
    });
    if written.is_err() {
        let _ = fs::remove_file(&beside);
    }
    written
}

/// The name of the file that is written first.
fn beside(path: &Path) -> PathBuf {
    let mut name = std::ffi::OsString::from(".");
    name.push(path.file_name().unwrap_or_default());
    name.push(format!(".{}", std::process::id()));
    path.with_file_name(name)
}
