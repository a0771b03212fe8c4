//! What `sercos show` does, written in plain Rust: without contracts and proofs, with the standard library alone, and meant
//! to be fast. `bench/run` times it beside the proved program, and `bench/compare.py --show` compares their answers. It is
//! no part of the program. Its answers and its status are those of `sercos show`, except where standard input or output is
//! closed: there the standard library puts `/dev/null` in its place.
//!
//! The answers are collected in one text, whose memory is taken at the start. A line's bits and its plain bits have fixed
//! memory, eight bits in a byte. They are looked at in words of 64 bits, each with 56 new ones behind the eight before them.

use std::env;
use std::io::{self, BufRead, ErrorKind, Read, Write};
use std::process::ExitCode;

const MOST_INPUT: usize = 1 << 20;
/// The most bits of a line, and the bytes that they take.
const MOST_BITS: usize = 19696;
const MOST_BYTES: usize = MOST_BITS.div_ceil(8);
/// The most bytes between the flags: 2048 of content, and two of the check sequence.
const MOST_PLAIN: usize = 2050;
/// A word begins at each byte, and so may reach past the last one.
type Bytes = [u8; MOST_BYTES + 8];

#[derive(Clone, Copy, PartialEq)]
enum Status {
    Done,
    BadWords = 2,
    Refused,
    ReadFault,
    WriteFault,
    Memory,
    TooLong,
}

impl Status {
    fn name(self) -> &'static str {
        match self {
            Status::Done => "Done",
            Status::BadWords => "BadWords",
            Status::Refused => "Refused",
            Status::ReadFault => "ReadFault",
            Status::WriteFault => "WriteFault",
            Status::Memory => "Memory",
            Status::TooLong => "TooLong",
        }
    }
}

#[derive(Clone, Copy)]
enum Kind {
    Raw,
    Mst,
    Single,
    At,
}

const KINDS: [(&[u8], Kind); 4] = [
    (b"raw ", Kind::Raw),
    (b"mst ", Kind::Mst),
    (b"single ", Kind::Single),
    (b"at ", Kind::At),
];

// ---- tables

/// The value of each hexadecimal digit, and 255 for each other byte.
const DIGITS: [u8; 256] = {
    let mut table = [255; 256];
    let mut byte = 0;
    while byte < 256 {
        table[byte] = match byte as u8 {
            b @ b'0'..=b'9' => b - b'0',
            b @ b'a'..=b'f' => b - b'a' + 10,
            b @ b'A'..=b'F' => b - b'A' + 10,
            _ => 255,
        };
        byte += 1;
    }
    table
};

/// The two digits of each byte.
const PAIRS: [[u8; 2]; 256] = {
    let digits = b"0123456789abcdef";
    let mut table = [[0; 2]; 256];
    let mut byte = 0;
    while byte < 256 {
        table[byte] = [digits[byte >> 4], digits[byte & 15]];
        byte += 1;
    }
    table
};

/// What a byte adds to the check sequence, when as many bytes follow it as the number of the table.
const CHECKS: [[u16; 256]; 8] = {
    let mut tables = [[0; 256]; 8];
    let mut byte = 0;
    while byte < 256 {
        let mut register = byte as u16;
        let mut table = 0;
        while table < 8 {
            let mut bit = 0;
            while bit < 8 {
                register = register >> 1 ^ if register & 1 == 1 { 0x8408 } else { 0 };
                bit += 1;
            }
            tables[table][byte] = register;
            table += 1;
        }
        byte += 1;
    }
    tables
};

fn check_sequence(content: &[u8]) -> u16 {
    let mut register = 0xffff_u16;
    let (eights, rest) = content.as_chunks::<8>();
    for eight in eights {
        let first = register ^ u16::from_le_bytes([eight[0], eight[1]]);
        register = CHECKS[7][usize::from(first & 255)] ^ CHECKS[6][usize::from(first >> 8)];
        for place in 2..8 {
            register ^= CHECKS[7 - place][usize::from(eight[place])];
        }
    }
    for &byte in rest {
        register = register >> 8 ^ CHECKS[0][usize::from(register as u8 ^ byte)];
    }
    !register
}

// ---- the parts of an answer

fn push_decimal(out: &mut Vec<u8>, mut number: usize) {
    let mut digits = [0; 20];
    let mut first = digits.len();
    loop {
        first -= 1;
        digits[first] = b'0' + (number % 10) as u8;
        number /= 10;
        if number == 0 {
            break;
        }
    }
    out.extend_from_slice(&digits[first..]);
}

fn push_named(out: &mut Vec<u8>, name: &[u8], number: usize) {
    out.extend_from_slice(name);
    push_decimal(out, number);
}

fn push_bit(out: &mut Vec<u8>, name: &[u8], word: u16, bit: u32) {
    out.extend_from_slice(name);
    out.push(b'0' + (word >> bit & 1) as u8);
}

fn push_word(out: &mut Vec<u8>, name: &[u8], word: u16) {
    let [high, low] = word.to_be_bytes().map(|byte| PAIRS[usize::from(byte)]);
    out.extend_from_slice(name);
    out.extend_from_slice(&[b'0', b'x', high[0], high[1], low[0], low[1]]);
}

fn push_hex(out: &mut Vec<u8>, bytes: &[u8]) {
    let begin = out.len();
    out.resize(begin + 2 * bytes.len(), 0);
    for (pair, byte) in out[begin..].as_chunks_mut::<2>().0.iter_mut().zip(bytes) {
        *pair = PAIRS[usize::from(*byte)];
    }
}

// ---- a line

/// The kind and the number of bits of a line, whose bits are put into `bits` with zeros behind them. Else the place of the
/// first byte that can't stand.
fn read_line(line: &[u8], bits: &mut Bytes) -> Result<(Kind, usize), usize> {
    let Some((kind, text)) = KINDS.iter().find_map(|(name, kind)| Some((*kind, line.strip_prefix(*name)?))) else {
        return Err(kind_fault(line));
    };
    let behind_kind = line.len() - text.len();
    let (count, len) = read_count(text).map_err(|place| behind_kind + place)?;
    let behind_count = behind_kind + len + 1;
    read_hex(count, &line[behind_count..], bits).map_err(|place| behind_count + place)?;
    Ok((kind, count))
}

#[cold]
fn kind_fault(line: &[u8]) -> usize {
    let shared = |(name, _): &(&[u8], Kind)| name.iter().zip(line).take_while(|(a, b)| a == b).count();
    KINDS.iter().map(shared).max().unwrap_or(0)
}

/// A number of bits and how many digits it has. A space is behind them.
fn read_count(text: &[u8]) -> Result<(usize, usize), usize> {
    let mut number = 0_usize;
    let mut len = 0;
    while let Some(digit @ b'0'..=b'9') = text.get(len) {
        number = number.saturating_mul(10).saturating_add(usize::from(digit - b'0'));
        len += 1;
    }
    if len > 1 && text[0] == b'0' {
        return Err(1);
    }
    if len == 0 || number > MOST_BITS {
        return Err(0);
    }
    if text.get(len) != Some(&b' ') {
        return Err(len);
    }
    Ok((number, len))
}

fn read_hex(count: usize, text: &[u8], bits: &mut Bytes) -> Result<(), usize> {
    if count == 0 {
        bits[..8].fill(0);
        return match text {
            b"-" => Ok(()),
            [b'-', ..] => Err(1),
            _ => Err(0),
        };
    }
    let len = count.div_ceil(8);
    let spare = spare_bits(count);
    let mut seen = 0;
    for (byte, pair) in bits[..len].iter_mut().zip(text.as_chunks::<2>().0) {
        let high = DIGITS[usize::from(pair[0])];
        let low = DIGITS[usize::from(pair[1])];
        seen |= high | low;
        *byte = high << 4 | low;
    }
    bits[len..len + 8].fill(0);
    if text.len() != 2 * len || seen > 15 || bits[len - 1] & spare != 0 {
        return Err(hex_fault(count, text));
    }
    Ok(())
}

/// The bits of the last byte that are past the last of so many bits.
fn spare_bits(count: usize) -> u8 {
    let used = (count - 1) % 8 + 1;
    (255_u16 << used) as u8
}

/// The place of the first byte that can't stand in the digits of so many bits, of which one can't.
#[cold]
fn hex_fault(count: usize, text: &[u8]) -> usize {
    let wanted = 2 * count.div_ceil(8);
    let last = wanted - 2;
    let spare = spare_bits(count);
    let digits = text.iter().take_while(|byte| byte.is_ascii_hexdigit()).count();
    if digits <= last {
        return digits;
    }
    let high = DIGITS[usize::from(text[last])] << 4;
    if high & spare != 0 {
        return last;
    }
    if digits < wanted {
        return digits;
    }
    let low = DIGITS[usize::from(text[last + 1])];
    if low & spare != 0 { last } else { wanted }
}

// ---- a frame

fn word_at(bytes: &Bytes, place: usize) -> u64 {
    u64::from_le_bytes(*bytes[place..].first_chunk().unwrap_or(&[0; 8]))
}

/// The place of the first six ones in a row behind an opening flag, and how many plain bits there are up to their end, which
/// are put into `plain`: all but the zeros behind five ones.
fn unstuff(count: usize, bits: &Bytes, plain: &mut Bytes) -> Option<(usize, usize)> {
    // The plain bits that don't fill a byte yet, how many they are, and how many bytes came before them.
    let mut kept = 0_u64;
    let mut kept_len = 0;
    let mut filled = 0;
    for begin in (1..count.div_ceil(8)).step_by(7) {
        // The last of the eight bits before is bit 7. Each word of `two` to `six` has the last of so many ones in a row.
        let word = word_at(bits, begin - 1);
        let two = word & word << 1;
        let four = two & two << 2;
        let five = four & word << 4;
        let six = (five & word << 5) >> 8;
        let mut inserted = (five << 1 & !word) >> 8;
        let mut value = word >> 8;
        let mut len = 56;
        if six != 0 {
            len = six.trailing_zeros() + 1;
            let mask = (1 << len) - 1;
            value &= mask;
            inserted &= mask;
        }
        let end = 8 * begin + len as usize;
        while inserted != 0 {
            let place = inserted.ilog2();
            let below = (1 << place) - 1;
            value = value & below | value >> 1 & !below;
            inserted ^= 1 << place;
            len -= 1;
        }
        kept |= value << kept_len;
        kept_len += len;
        plain[filled..filled + 8].copy_from_slice(&kept.to_le_bytes());
        if six != 0 {
            return Some((end - 6, 8 * filled + kept_len as usize));
        }
        filled += kept_len as usize / 8;
        kept >>= kept_len & !7;
        kept_len &= 7;
    }
    None
}

/// Writes why the bits are no frame, or what their content says.
fn answer(kind: Kind, count: usize, bits: &Bytes, plain: &mut Bytes, out: &mut Vec<u8>) {
    if count < 8 || bits[0] != 0x7e {
        return out.extend_from_slice(b"error 1 no open");
    }
    let Some((ones, plain_len)) = unstuff(count, bits, plain).filter(|(ones, _)| ones + 6 < count) else {
        return push_named(out, b"error 3 no close ", count);
    };
    if ones == 8 || word_at(bits, (ones + 6) / 8) >> ((ones + 6) % 8) & 1 == 1 {
        return push_named(out, b"error 2 abort ", ones);
    }
    // The opening flag ends with a zero, so five ones are none of its own.
    if word_at(bits, (ones - 6) / 8) >> ((ones - 6) % 8) & 31 == 31 {
        return push_named(out, b"error 2 abort ", ones - 1);
    }
    // The plain bits end with the zero and the six ones of the closing flag.
    let len = plain_len - 7;
    if len % 8 != 0 {
        return push_named(out, b"error 4 ragged ", len);
    }
    let len = len / 8;
    if len < 3 {
        return push_named(out, b"error 5 short ", len);
    }
    if len > MOST_PLAIN {
        return push_named(out, b"error 8 long ", len);
    }
    let content = &plain[..len - 2];
    let found = u16::from_le_bytes([plain[len - 2], plain[len - 1]]);
    let wanted = check_sequence(content);
    if found != wanted {
        push_word(out, b"error 6 check found ", found);
        return push_word(out, b" wanted ", wanted);
    }
    if ones + 7 < count {
        return push_named(out, b"error 7 after ", ones + 7);
    }
    match kind {
        Kind::Raw => {
            out.extend_from_slice(b"ok ");
            push_hex(out, content);
        }
        Kind::Mst => mst_answer(content, out),
        Kind::Single => single_answer(content, out),
        Kind::At => at_answer(content, out),
    }
}

fn layout_fault(out: &mut Vec<u8>, name: &[u8], found: usize, wanted: usize) {
    push_named(out, name, found);
    push_named(out, b" wanted ", wanted);
}

fn mst_answer(content: &[u8], out: &mut Vec<u8>) {
    match *content {
        [255, phase @ 0..=4] => push_named(out, b"mst phase ", usize::from(phase)),
        [255, _] => out.extend_from_slice(b"layout 3 field 1"),
        [address, _] => layout_fault(out, b"layout 2 address found ", usize::from(address), 255),
        _ => layout_fault(out, b"layout 1 length found ", content.len(), 2),
    }
}

fn single_answer(content: &[u8], out: &mut Vec<u8>) {
    let &[address, control_low, control_high, info_low, info_high] = content else {
        return layout_fault(out, b"layout 1 length found ", content.len(), 5);
    };
    if !(1..=254).contains(&address) {
        return layout_fault(out, b"layout 2 address found ", usize::from(address), 1);
    }
    let control = u16::from_le_bytes([control_low, control_high]);
    push_named(out, b"single ", usize::from(address));
    push_bit(out, b" mhs ", control, 0);
    push_bit(out, b" write ", control, 1);
    push_bit(out, b" last ", control, 2);
    push_named(out, b" element ", usize::from(control >> 3 & 7));
    push_word(out, b" info ", u16::from_le_bytes([info_low, info_high]));
    push_word(out, b" cyclic ", control & 0xffc0);
}

fn at_answer(content: &[u8], out: &mut Vec<u8>) {
    let &[address, status_low, status_high, info_low, info_high, ref values @ ..] = content else {
        return layout_fault(out, b"layout 1 length found ", content.len(), 5);
    };
    if !(1..=254).contains(&address) {
        return layout_fault(out, b"layout 2 address found ", usize::from(address), 1);
    }
    let status = u16::from_le_bytes([status_low, status_high]);
    push_named(out, b"at ", usize::from(address));
    push_bit(out, b" ahs ", status, 0);
    push_bit(out, b" busy ", status, 1);
    push_bit(out, b" error ", status, 2);
    push_bit(out, b" change ", status, 5);
    push_word(out, b" info ", u16::from_le_bytes([info_low, info_high]));
    push_word(out, b" cyclic ", status & 0xffd8);
    out.extend_from_slice(b" data ");
    if values.is_empty() {
        out.push(b'-');
    } else {
        push_hex(out, values);
    }
}

// ---- the whole input

/// Writes the answers to all lines, or else the refusal of the first one that can't stand.
fn answer_all(mut input: &[u8], out: &mut Vec<u8>) -> io::Result<Status> {
    let mut bits = [0; MOST_BYTES + 8];
    let mut plain = [0; MOST_BYTES + 8];
    let mut number = 0;
    while !input.is_empty() {
        let text = input;
        let len = input.skip_until(b'\n')?;
        let line = &text[..len];
        number += 1;
        match read_line(line.strip_suffix(b"\n").unwrap_or(line), &mut bits) {
            Ok((kind, count)) => answer(kind, count, &bits, &mut plain, out),
            Err(place) => {
                out.clear();
                push_named(out, b"refused line ", number);
                push_named(out, b" column ", place + 1);
                out.push(b'\n');
                return Ok(Status::Refused);
            }
        }
        out.push(b'\n');
    }
    Ok(Status::Done)
}

fn show() -> Status {
    let mut input = Vec::new();
    if input.try_reserve_exact(MOST_INPUT + 1).is_err() {
        return Status::Memory;
    }
    if let Err(error) = io::stdin().lock().take(MOST_INPUT as u64 + 1).read_to_end(&mut input) {
        return if error.kind() == ErrorKind::OutOfMemory {
            Status::Memory
        } else {
            Status::ReadFault
        };
    }
    if input.len() > MOST_INPUT {
        return Status::TooLong;
    }
    // No answer is longer than three times its line: the longest for its line is that to an AT without values, of at most
    // 73 bytes to at least 24. The refusal, of at most 45, may come in place of none.
    let mut out = Vec::new();
    if out.try_reserve_exact(3 * input.len() + 45).is_err() {
        return Status::Memory;
    }
    let Ok(status) = answer_all(&input, &mut out) else {
        return Status::ReadFault;
    };
    let mut sink = io::stdout().lock();
    match sink.write_all(&out).and_then(|()| sink.flush()) {
        Err(_) if status == Status::Done => Status::WriteFault,
        _ => status,
    }
}

/// The words are `show`, and one `--` may be before or behind it.
fn asks_to_show() -> bool {
    let mut words: Vec<_> = env::args_os().skip(1).collect();
    if let Some(place) = words.iter().position(|word| word == "--") {
        words.remove(place);
    }
    words == ["show"]
}

fn main() -> ExitCode {
    let status = if asks_to_show() { show() } else { Status::BadWords };
    if status != Status::Done {
        let _ = writeln!(io::stderr(), "{}", status.name());
    }
    ExitCode::from(status as u8)
}
