//! Hankuribo, a verified channel router: route a job, check a layout, write a job in house style.
//!
//! Safe functions over the static library that `rt lib` in crates/exports builds, crates/exports/out/libexports.a. What they call is proved: for
//! every content and length of the texts it ends with the answer that the documents give. What is not proved, and stands here: that a slice
//! is handed over as its pointer and length, and that a number is given its name. The functions hold no state and allocate nothing but what
//! `route_to_vec` and `house_to_vec` return. Give a thread that calls them 2 MB of stack, which is Rust's default (less than 1 MB was used
//! when measured).
//!
//! Use this file as a module (`#[path = ".."] mod hankuribo;`) or as a crate (`rustc --crate-type rlib`, or Cargo.toml beside it), and give
//! the linker the folder of the library, `-L crates/exports/out`.

use std::fmt;

#[link(name = "exports", kind = "static")]
extern "C" {
    fn hankuribo_route(job: *const u8, job_length: usize, out: *mut u8, room: usize, line: *mut usize, bytes: *mut usize) -> usize;
    fn hankuribo_house(job: *const u8, job_length: usize, out: *mut u8, room: usize, line: *mut usize, bytes: *mut usize) -> usize;
    fn hankuribo_check(job: *const u8, job_length: usize, layout: *const u8, layout_length: usize, line: *mut usize, broken: *mut usize) -> usize;
    fn hankuribo_read(job: *const u8, job_length: usize) -> usize;
    fn hankuribo_plan(job: *const u8, job_length: usize) -> usize;
}

/// The most bytes of a job and of a layout text. Every layout that is routed and every fixed text fits a buffer of this size.
pub const MOST_BYTES: usize = 64_000;

/// A numbered refusal; a number in it is the line that it names, but for `TooSmall`.
#[derive(Clone, Copy, Debug, PartialEq, Eq)]
pub enum Refusal {
    /// 1: the job is above 64,000 bytes
    JobTooLong,
    /// 2: not of the form; at the line after the last if the text ends early
    NotOfForm(usize),
    /// 3: a number outside its range
    OutOfRange(usize),
    /// 4: a 513th net or a 257th block
    TooMany(usize),
    /// 5: a net number not above that of the net before
    NumberNotAbove(usize),
    /// 6: L or R already used on its side
    PinUsed(usize),
    /// 7: L = R
    SameRow(usize),
    /// 8: no allowed length
    NoLength(usize),
    /// 9: needed rows above H
    TooFewRows(usize),
    /// 10, of route and house: the text has more bytes than the buffer, so many
    TooSmall(usize),
    /// 11, of check: the layout text is above 64,000 bytes
    LayoutTooLong,
}

/// What check says of a layout.
#[derive(Clone, Copy, Debug, PartialEq, Eq)]
pub enum Verdict {
    Sound,
    /// broken, and this is the first broken line as order 3 judges: the judging closes at a line that is not of the form or cannot stand
    /// where it does, and at an early end of the text, where the line after the last is broken. Nothing below is judged; the sum on the
    /// last track line above is judged only if a loose line or the closing line stands between
    Broken(usize),
    Refused(Refusal),
}

impl Refusal {
    /// The refusal of a number; none where nothing is refused.
    fn of(number: usize, line: usize, bytes: usize) -> Option<Refusal> {
        Some(match number {
            0 => return None,
            1 => Refusal::JobTooLong,
            2 => Refusal::NotOfForm(line),
            3 => Refusal::OutOfRange(line),
            4 => Refusal::TooMany(line),
            5 => Refusal::NumberNotAbove(line),
            6 => Refusal::PinUsed(line),
            7 => Refusal::SameRow(line),
            8 => Refusal::NoLength(line),
            9 => Refusal::TooFewRows(line),
            10 => Refusal::TooSmall(bytes),
            11 => Refusal::LayoutTooLong,
            _ => unreachable!("document 01 has no refusal {}", number),
        })
    }

    /// Document 01's number.
    pub fn number(self) -> usize {
        match self {
            Refusal::JobTooLong => 1,
            Refusal::NotOfForm(_) => 2,
            Refusal::OutOfRange(_) => 3,
            Refusal::TooMany(_) => 4,
            Refusal::NumberNotAbove(_) => 5,
            Refusal::PinUsed(_) => 6,
            Refusal::SameRow(_) => 7,
            Refusal::NoLength(_) => 8,
            Refusal::TooFewRows(_) => 9,
            Refusal::TooSmall(_) => 10,
            Refusal::LayoutTooLong => 11,
        }
    }

    /// The line that is named, 0 where none is.
    pub fn line(self) -> usize {
        match self {
            Refusal::JobTooLong | Refusal::TooSmall(_) | Refusal::LayoutTooLong => 0,
            Refusal::NotOfForm(line)
            | Refusal::OutOfRange(line)
            | Refusal::TooMany(line)
            | Refusal::NumberNotAbove(line)
            | Refusal::PinUsed(line)
            | Refusal::SameRow(line)
            | Refusal::NoLength(line)
            | Refusal::TooFewRows(line) => line,
        }
    }
}

/// As the programs print it, without the byte 10 behind it.
impl fmt::Display for Refusal {
    fn fmt(&self, f: &mut fmt::Formatter) -> fmt::Result {
        write!(f, "(refused {} {})", self.number(), self.line())
    }
}

impl std::error::Error for Refusal {}

/// As the program `check` prints it, without the byte 10 behind it.
impl fmt::Display for Verdict {
    fn fmt(&self, f: &mut fmt::Formatter) -> fmt::Result {
        match self {
            Verdict::Sound => write!(f, "(sound)"),
            Verdict::Broken(line) => write!(f, "(broken {})", line),
            Verdict::Refused(refusal) => refusal.fmt(f),
        }
    }
}

/// An operation that writes a text of a job into a buffer, as the library has it.
type Writes = unsafe extern "C" fn(*const u8, usize, *mut u8, usize, *mut usize, *mut usize) -> usize;

/// The length of the text that the operation has written, or its refusal.
fn written(operation: Writes, job: &[u8], out: &mut [u8]) -> Result<usize, Refusal> {
    let (mut line, mut bytes) = (0, 0);
    let number = unsafe { operation(job.as_ptr(), job.len(), out.as_mut_ptr(), out.len(), &mut line, &mut bytes) };
    match Refusal::of(number, line, bytes) {
        None => Ok(bytes),
        Some(refusal) => Err(refusal),
    }
}

/// The text of the operation. There is room for every text.
fn written_to_vec(operation: Writes, job: &[u8]) -> Result<Vec<u8>, Refusal> {
    let mut out = vec![0; MOST_BYTES];
    let bytes = written(operation, job, &mut out)?;
    out.truncate(bytes);
    out.shrink_to_fit();
    Ok(out)
}

/// Routes a job into `out`: the length of the layout, which stands at its start, with the bytes beyond it kept. A refusal changes no byte.
pub fn route(job: &[u8], out: &mut [u8]) -> Result<usize, Refusal> {
    written(hankuribo_route, job, out)
}

/// The layout of a job. It is never refused for the buffer.
pub fn route_to_vec(job: &[u8]) -> Result<Vec<u8>, Refusal> {
    written_to_vec(hankuribo_route, job)
}

/// Writes the one fixed text of a job into `out`: its length; it stands at the start, with the bytes beyond it kept. A refusal changes no
/// byte.
pub fn house(job: &[u8], out: &mut [u8]) -> Result<usize, Refusal> {
    written(hankuribo_house, job, out)
}

/// The one fixed text of a job. It is never refused for the buffer.
pub fn house_to_vec(job: &[u8]) -> Result<Vec<u8>, Refusal> {
    written_to_vec(hankuribo_house, job)
}

/// Checks a layout text, whoever drew it, for a job.
pub fn check(job: &[u8], layout: &[u8]) -> Verdict {
    let (mut line, mut broken) = (0, 0);
    let number = unsafe { hankuribo_check(job.as_ptr(), job.len(), layout.as_ptr(), layout.len(), &mut line, &mut broken) };
    match Refusal::of(number, line, 0) {
        Some(refusal) => Verdict::Refused(refusal),
        None if broken == 0 => Verdict::Sound,
        None => Verdict::Broken(line),
    }
}

/// Reads a job: the number of its refusal, 0 where it is accepted.
pub fn read(job: &[u8]) -> usize {
    unsafe { hankuribo_read(job.as_ptr(), job.len()) }
}

/// Reads a job and plans it: the sums of all its tracks, added up; 0 where it is refused.
pub fn plan(job: &[u8]) -> usize {
    unsafe { hankuribo_plan(job.as_ptr(), job.len()) }
}
