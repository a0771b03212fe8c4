//! The verified ends of a SERCOS ring (IEC 61491:1995) in safe Rust, over the library of `include/sercos.h`.
//!
//! Each safe function keeps what the header says that its caller owes: pointers are those of slices that are borrowed for the call,
//! and never null; what is written to is borrowed alone; a handle lies in a box of its own, so it is never copied, and each call on it
//! takes `&mut self`, so there is one at a time.
use std::ffi::c_void;
use std::fmt;
use std::ptr;

/// The most bytes of a content.
pub const MOST_CONTENT: usize = 2048;

const MOST_FRAME: usize = 2462;
const DONE: u8 = 0;
const NO: u8 = 1;
const WRITE_FAULT: u8 = 5;

/// A status that isn't the answer.
#[derive(Clone, Copy, Debug, PartialEq, Eq)]
pub enum Error {
    /// The answer is no: there is no such drive.
    No,
    BadWords,
    Refused,
    WriteFault,
    Memory,
    TooLong,
    Closed,
}

impl Error {
    fn of(status: u8) -> Error {
        match status {
            1 => Error::No,
            2 => Error::BadWords,
            3 => Error::Refused,
            5 => Error::WriteFault,
            6 => Error::Memory,
            7 => Error::TooLong,
            _ => Error::Closed,
        }
    }
}

impl fmt::Display for Error {
    fn fmt(&self, f: &mut fmt::Formatter<'_>) -> fmt::Result {
        f.write_str(match self {
            Error::No => "the answer is no",
            Error::BadWords => "the words are not a command",
            Error::Refused => "the input is refused",
            Error::WriteFault => "the output has too little room",
            Error::Memory => "no memory was found",
            Error::TooLong => "the input is too long",
            Error::Closed => "nothing is open",
        })
    }
}

impl std::error::Error for Error {}

pub type Result<T> = std::result::Result<T, Error>;

/// A handle as C has it. Zeros: it holds nothing.
#[repr(C)]
struct Handle {
    is_open: bool,
    at: *mut c_void,
}

impl Handle {
    fn closed() -> Box<Handle> {
        Box::new(Handle { is_open: false, at: ptr::null_mut() })
    }
}

/// The record of an MDT: its control word and its information word.
#[repr(C)]
#[derive(Clone, Copy, Debug, Default, PartialEq, Eq)]
pub struct Record {
    pub mhs: bool,
    pub write: bool,
    pub last: bool,
    pub element: u8,
    pub cyclic: u16,
    pub info: u16,
}

/// An AT: its address, its status word and its information word.
#[repr(C)]
#[derive(Clone, Copy, Debug, Default, PartialEq, Eq)]
pub struct At {
    pub address: u8,
    pub ahs: bool,
    pub busy: bool,
    pub error: bool,
    pub change: bool,
    pub cyclic: u16,
    pub info: u16,
}

/// Why bits are not a frame, by the numbers of the header.
#[repr(C)]
#[derive(Clone, Copy, Debug, Default, PartialEq, Eq)]
pub struct BadFrame {
    pub kind: u8,
    pub found: u32,
    pub wanted: u32,
}

#[repr(C)]
struct Layout {
    kind: u8,
    found: usize,
    wanted: usize,
}

#[repr(C)]
struct Mst {
    phase: u8,
}

extern "C" {
    fn sercos_call(
        words: *const u8, words_len: usize, input: *const u8, input_len: usize, output: *mut u8, output_len: usize, written: *mut usize,
    ) -> u8;
    fn sercos_fcs(content: *const u8, len: usize) -> u16;
    fn sercos_frame(content: *const u8, len: usize, out: *mut u8, out_len: usize, bits: *mut u32) -> u8;
    fn sercos_unframe(
        bits: *const u8, len: usize, count: usize, out: *mut u8, out_len: usize, written: *mut usize, why: *mut BadFrame,
    ) -> u8;
    fn sercos_mst_write(mst: *const Mst, out: *mut u8, out_len: usize, written: *mut usize) -> u8;
    fn sercos_single_write(address: u8, record: *const Record, out: *mut u8, out_len: usize, written: *mut usize) -> u8;
    fn sercos_at_read(address: u8, at_len: u16, content: *const u8, len: usize, at: *mut At, why: *mut Layout) -> u8;

    fn sercos_drive_open(document: *const u8, len: usize, place: usize, drive: *mut Handle) -> u8;
    fn sercos_drive_hear_mst(drive: *mut Handle, cycle: u32, arrived: bool, content: *const u8, len: usize) -> u8;
    fn sercos_drive_at(drive: *mut Handle, out: *mut u8, out_len: usize, written: *mut usize, start: *mut u16) -> u8;
    fn sercos_drive_hear_mdt(drive: *mut Handle, arrived: bool, content: *const u8, len: usize) -> u8;
    fn sercos_drive_restart(drive: *mut Handle) -> u8;
    fn sercos_drive_phase(drive: *mut Handle, phase: *mut u8) -> u8;
    fn sercos_drive_close(drive: *mut Handle);

    fn sercos_master_open(document: *const u8, len: usize, master: *mut Handle) -> u8;
    fn sercos_master_mst(master: *mut Handle, out: *mut u8, out_len: usize, written: *mut usize) -> u8;
    fn sercos_master_hear_mst(master: *mut Handle, arrived: bool, content: *const u8, len: usize) -> u8;
    fn sercos_master_hear_at(master: *mut Handle, content: *const u8, len: usize) -> u8;
    fn sercos_master_mdt(master: *mut Handle, out: *mut u8, out_len: usize, written: *mut usize, start: *mut u16) -> u8;
    fn sercos_master_end_cycle(master: *mut Handle) -> u8;
    fn sercos_master_events(master: *mut Handle, out: *mut u8, out_len: usize, written: *mut usize) -> u8;
    fn sercos_master_command(master: *mut Handle, phase: *mut u8) -> u8;
    fn sercos_master_restart(master: *mut Handle) -> u8;
    fn sercos_master_close(master: *mut Handle);

    fn sercos_ring_open(document: *const u8, len: usize, ring: *mut Handle) -> u8;
    fn sercos_ring_head(ring: *mut Handle, out: *mut u8, out_len: usize, written: *mut usize) -> u8;
    fn sercos_ring_cycle(ring: *mut Handle) -> u8;
    fn sercos_ring_lines(ring: *mut Handle, out: *mut u8, out_len: usize, written: *mut usize) -> u8;
    fn sercos_ring_end(ring: *mut Handle, out: *mut u8, out_len: usize, written: *mut usize) -> u8;
    fn sercos_ring_close(ring: *mut Handle);
}

fn done(status: u8) -> Result<()> {
    if status == DONE { Ok(()) } else { Err(Error::of(status)) }
}

/// The content that a call writes, or nothing if its status is that the answer is no.
fn content_by(call: impl FnOnce(*mut u8, usize, &mut usize) -> u8) -> Result<Option<Vec<u8>>> {
    let (mut out, mut written) = (vec![0; MOST_CONTENT], 0);
    match call(out.as_mut_ptr(), out.len(), &mut written) {
        NO => Ok(None),
        status => {
            done(status)?;
            out.truncate(written);
            Ok(Some(out))
        }
    }
}

/// The text that a call writes, with as much room as it needs. Such a call loses nothing if it has too little.
fn text_by(mut call: impl FnMut(*mut u8, usize, &mut usize) -> u8) -> Result<String> {
    let mut out = vec![0; 1 << 12];
    loop {
        let mut written = 0;
        let status = call(out.as_mut_ptr(), out.len(), &mut written);
        if status != WRITE_FAULT {
            done(status)?;
            out.truncate(written);
            return Ok(String::from_utf8_lossy(&out).into_owned());
        }
        out = vec![0; 2 * out.len()];
    }
}

/// The status and the output of a command: `call(&["plan"], document)`. An output that has no room at first is made anew.
pub fn call(words: &[&str], input: &[u8]) -> (u8, Vec<u8>) {
    let words = words.join("\n");
    let mut room = 1 << 16;
    loop {
        let (mut out, mut written) = (vec![0; room], 0);
        // SAFETY: these are slices borrowed for the call, and `out` and `written` are borrowed alone.
        let status = unsafe {
            sercos_call(words.as_ptr(), words.len(), input.as_ptr(), input.len(), out.as_mut_ptr(), out.len(), &mut written)
        };
        // An output that has too little room fills it, also a refusal, which has its own status.
        if status != WRITE_FAULT && written < room {
            out.truncate(written);
            return (status, out);
        }
        room *= 4;
    }
}

/// The frame check sequence of a content.
pub fn fcs(content: &[u8]) -> u16 {
    // SAFETY: a slice borrowed for the call.
    unsafe { sercos_fcs(content.as_ptr(), content.len()) }
}

/// The bits of the frame of a content of 1 to 2,048 bytes, packed from the lowest bit of each byte on, and their number.
pub fn frame(content: &[u8]) -> Result<(Vec<u8>, usize)> {
    let (mut out, mut bits) = (vec![0; MOST_FRAME], 0);
    // SAFETY: slices borrowed for the call, `out` and `bits` alone.
    done(unsafe { sercos_frame(content.as_ptr(), content.len(), out.as_mut_ptr(), out.len(), &mut bits) })?;
    out.truncate((bits as usize + 7) / 8);
    Ok((out, bits as usize))
}

/// The content of the frame that the first `count` bits are, or why they are not a frame. `Error::Refused`: there are fewer bits.
pub fn unframe(bits: &[u8], count: usize) -> Result<std::result::Result<Vec<u8>, BadFrame>> {
    let mut why = BadFrame::default();
    // SAFETY: slices borrowed for the call, the room and `why` alone.
    let content = content_by(|out, len, written| unsafe { sercos_unframe(bits.as_ptr(), bits.len(), count, out, len, written, &mut why) })?;
    Ok(content.ok_or(why))
}

/// The content of the MST of a phase, 0 to 4.
pub fn mst(phase: u8) -> Result<Vec<u8>> {
    // SAFETY: the struct and the room are borrowed for the call.
    content_by(|out, len, written| unsafe { sercos_mst_write(&Mst { phase }, out, len, written) })?.ok_or(Error::No)
}

/// The content of the MDT of phases 1 and 2 to an address.
pub fn single(address: u8, record: &Record) -> Result<Vec<u8>> {
    // SAFETY: as for `mst`.
    content_by(|out, len, written| unsafe { sercos_single_write(address, record, out, len, written) })?.ok_or(Error::No)
}

/// The AT of an address with `at_len` bytes after the address, or nothing if the content isn't one.
pub fn read_at(address: u8, at_len: u16, content: &[u8]) -> Result<Option<At>> {
    let (mut at, mut why) = (At::default(), Layout { kind: 0, found: 0, wanted: 0 });
    // SAFETY: a slice borrowed for the call, and two structs borrowed alone.
    match unsafe { sercos_at_read(address, at_len, content.as_ptr(), content.len(), &mut at, &mut why) } {
        NO => Ok(None),
        status => done(status).map(|()| Some(at)),
    }
}

/// A content and its start, in microseconds after the MST's end.
#[derive(Clone, Debug, PartialEq, Eq)]
pub struct Timed {
    pub start: u16,
    pub content: Vec<u8>,
}

/// A drive. In each cycle: `hear_mst`, `at`, `hear_mdt`; `restart` between two cycles.
pub struct Drive(Box<Handle>);

// SAFETY: the library has no state of its own, and a handle may go from thread to thread, with one call at a time.
unsafe impl Send for Drive {}

// In each call below the handle is borrowed alone, and slices, rooms and results are borrowed for the call.
impl Drive {
    /// The drive at a place of a ring document, the first at 0, in phase 0. `Error::No`: there is no such drive.
    pub fn open(document: &[u8], place: usize) -> Result<Drive> {
        let mut handle = Handle::closed();
        done(unsafe { sercos_drive_open(document.as_ptr(), document.len(), place, &mut *handle) })?;
        Ok(Drive(handle))
    }

    /// Takes the content of the frame at the MST's place, if one arrived.
    pub fn hear_mst(&mut self, cycle: u32, content: Option<&[u8]>) -> Result<()> {
        let bytes = content.unwrap_or(&[]);
        done(unsafe { sercos_drive_hear_mst(&mut *self.0, cycle, content.is_some(), bytes.as_ptr(), bytes.len()) })
    }

    /// This cycle's AT, if the drive sends one.
    pub fn at(&mut self) -> Result<Option<Timed>> {
        let mut start = 0;
        let content = content_by(|out, len, written| unsafe { sercos_drive_at(&mut *self.0, out, len, written, &mut start) })?;
        Ok(content.map(|content| Timed { start, content }))
    }

    /// Takes the content of the frame at the MDT's place, if one arrived.
    pub fn hear_mdt(&mut self, content: Option<&[u8]>) -> Result<()> {
        let bytes = content.unwrap_or(&[]);
        done(unsafe { sercos_drive_hear_mdt(&mut *self.0, content.is_some(), bytes.as_ptr(), bytes.len()) })
    }

    pub fn restart(&mut self) -> Result<()> {
        done(unsafe { sercos_drive_restart(&mut *self.0) })
    }

    /// The phase of the drive, 0 to 4.
    pub fn phase(&mut self) -> Result<u8> {
        let mut phase = 0;
        done(unsafe { sercos_drive_phase(&mut *self.0, &mut phase) })?;
        Ok(phase)
    }
}

impl Drop for Drive {
    fn drop(&mut self) {
        unsafe { sercos_drive_close(&mut *self.0) }
    }
}

/// A master. In each cycle: `mst`, `hear_mst`, `hear_at` for each AT, `mdt`, `end_cycle`; `restart` between two cycles.
pub struct Master(Box<Handle>);

// SAFETY: as for a drive.
unsafe impl Send for Master {}

impl Master {
    /// The master of a ring document with its requests, in phase 0.
    pub fn open(document: &[u8]) -> Result<Master> {
        let mut handle = Handle::closed();
        done(unsafe { sercos_master_open(document.as_ptr(), document.len(), &mut *handle) })?;
        Ok(Master(handle))
    }

    /// The content of this cycle's MST.
    pub fn mst(&mut self) -> Result<Vec<u8>> {
        content_by(|out, len, written| unsafe { sercos_master_mst(&mut *self.0, out, len, written) })?.ok_or(Error::No)
    }

    /// Takes its own MST as it came back round the ring, or that none did.
    pub fn hear_mst(&mut self, content: Option<&[u8]>) -> Result<()> {
        let bytes = content.unwrap_or(&[]);
        done(unsafe { sercos_master_hear_mst(&mut *self.0, content.is_some(), bytes.as_ptr(), bytes.len()) })
    }

    /// Takes the content of a frame at a place of ATs.
    pub fn hear_at(&mut self, content: &[u8]) -> Result<()> {
        done(unsafe { sercos_master_hear_at(&mut *self.0, content.as_ptr(), content.len()) })
    }

    /// This cycle's MDT, if one is sent.
    pub fn mdt(&mut self) -> Result<Option<Timed>> {
        let mut start = 0;
        let content = content_by(|out, len, written| unsafe { sercos_master_mdt(&mut *self.0, out, len, written, &mut start) })?;
        Ok(content.map(|content| Timed { start, content }))
    }

    /// Ends the cycle: the master falls, stays, or rises.
    pub fn end_cycle(&mut self) -> Result<()> {
        done(unsafe { sercos_master_end_cycle(&mut *self.0) })
    }

    /// The lines of the trace that the events of the last cycle have.
    pub fn events(&mut self) -> Result<String> {
        text_by(|out, len, written| unsafe { sercos_master_events(&mut *self.0, out, len, written) })
    }

    /// The phase that is commanded, 0 to 4.
    pub fn command(&mut self) -> Result<u8> {
        let mut phase = 0;
        done(unsafe { sercos_master_command(&mut *self.0, &mut phase) })?;
        Ok(phase)
    }

    pub fn restart(&mut self) -> Result<()> {
        done(unsafe { sercos_master_restart(&mut *self.0) })
    }
}

impl Drop for Master {
    fn drop(&mut self) {
        unsafe { sercos_master_close(&mut *self.0) }
    }
}

/// A ring under its document's script. Its trace is the text of `head`, that of `lines` after each `cycle` that returned true, and that
/// of `end`.
pub struct Ring(Box<Handle>);

// SAFETY: as for a drive.
unsafe impl Send for Ring {}

impl Ring {
    pub fn open(document: &[u8]) -> Result<Ring> {
        let mut handle = Handle::closed();
        done(unsafe { sercos_ring_open(document.as_ptr(), document.len(), &mut *handle) })?;
        Ok(Ring(handle))
    }

    pub fn head(&mut self) -> Result<String> {
        text_by(|out, len, written| unsafe { sercos_ring_head(&mut *self.0, out, len, written) })
    }

    /// Makes the next cycle. False: all cycles of the document have been made.
    pub fn cycle(&mut self) -> Result<bool> {
        match unsafe { sercos_ring_cycle(&mut *self.0) } {
            NO => Ok(false),
            status => done(status).map(|()| true),
        }
    }

    /// The lines of the cycle made last.
    pub fn lines(&mut self) -> Result<String> {
        text_by(|out, len, written| unsafe { sercos_ring_lines(&mut *self.0, out, len, written) })
    }

    /// The last line of the trace: the totals of the cycles made so far.
    pub fn end(&mut self) -> Result<String> {
        text_by(|out, len, written| unsafe { sercos_ring_end(&mut *self.0, out, len, written) })
    }
}

impl Drop for Ring {
    fn drop(&mut self) {
        unsafe { sercos_ring_close(&mut *self.0) }
    }
}
