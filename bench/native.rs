//! A reader of responses without proofs, to measure the exporter beside: safe Rust, written for speed.
//!
//! It reads what `bench/exports.py` makes from the file that is named, or from standard input: COLMETADATA, ROW, NBCROW
//! and DONE, with columns of int, bigint, bit, decimal, money, date, datetime2, GUID, varchar, nvarchar
//! and varbinary, short or in chunks. It writes the same text as the exporter. Where bytes go by thousands it takes
//! 65,536 at a time. It judges nothing: a response that isn't whole ends it with a panic.

use std::fs::File;
use std::io::{self, BufReader, Read, Write};

const BLOCK: usize = 65_536;

/// The kind of a column, as far as its text goes.
#[derive(Clone, Copy)]
enum Kind {
    Int4,
    Counted(Text),
    Short(Data),
    Chunked(Data),
}

/// The text of a value after its length.
#[derive(Clone, Copy)]
enum Text {
    Int,
    Bit,
    Decimal(u8),
    Money,
    Date,
    DateTime2(u8),
    Guid,
}

/// What the data of a long kind is.
#[derive(Clone, Copy)]
enum Data {
    Narrow,
    Wide,
    Binary,
}

/// The payload of a message, packet after packet.
struct Payload {
    from: Box<dyn Read>,
    packet: Vec<u8>,
    at: usize,
    last: bool,
}

impl Payload {
    fn next_packet(&mut self) {
        let mut header = [0; 8];
        self.from.read_exact(&mut header).expect("a header");
        let length = usize::from(u16::from_be_bytes([header[2], header[3]])) - 8;
        let rest = self.packet.len() - self.at;
        self.packet.copy_within(self.at.., 0);
        self.packet.resize(rest + length, 0);
        self.from.read_exact(&mut self.packet[rest..]).expect("a body");
        self.at = 0;
        self.last = header[1] & 1 == 1;
    }

    /// Sees to it that `n` bytes lie together.
    fn ready(&mut self, n: usize) {
        while self.packet.len() - self.at < n {
            assert!(!self.last, "the message ends");
            self.next_packet();
        }
    }

    /// The next `n` bytes, where they lie together.
    fn take(&mut self, n: usize) -> &[u8] {
        self.ready(n);
        self.at += n;
        &self.packet[self.at - n..self.at]
    }

    /// The next bytes of the packet, at most `n` of them, in whole units of `unit` bytes.
    fn piece(&mut self, n: usize, unit: usize) -> &[u8] {
        self.ready(unit);
        let length = n.min((self.packet.len() - self.at) / unit * unit);
        self.take(length)
    }

    fn byte(&mut self) -> u8 {
        self.take(1)[0]
    }
}

/// Text on its way to standard output.
struct Lines {
    text: Vec<u8>,
    to: io::StdoutLock<'static>,
}

impl Lines {
    /// Writes the text where there is a block of it.
    fn turn(&mut self) {
        if self.text.len() >= BLOCK {
            self.flush();
        }
    }

    fn flush(&mut self) {
        self.to.write_all(&self.text).expect("standard output");
        self.text.clear();
    }
}

/// The digits of a number below 10,000, four of them.
fn four(to: &mut Vec<u8>, n: u32) {
    to.extend_from_slice(&[b'0' + (n / 1000) as u8, b'0' + (n / 100 % 10) as u8, b'0' + (n / 10 % 10) as u8, b'0' + (n % 10) as u8]);
}

fn two(to: &mut Vec<u8>, n: u32) {
    to.extend_from_slice(&[b'0' + (n / 10) as u8, b'0' + (n % 10) as u8]);
}

fn number(to: &mut Vec<u8>, mut n: u64) {
    let mut digits = [0; 20];
    let mut at = 20;
    loop {
        at -= 1;
        digits[at] = b'0' + (n % 10) as u8;
        n /= 10;
        if n == 0 {
            break;
        }
    }
    to.extend_from_slice(&digits[at..]);
}

fn signed(to: &mut Vec<u8>, n: i64) {
    if n < 0 {
        to.push(b'-');
    }
    number(to, n.unsigned_abs());
}

/// A number of units of a scale.
fn scaled(to: &mut Vec<u8>, negative: bool, n: u64, scale: u8) {
    if negative && n != 0 {
        to.push(b'-');
    }
    let unit = 10u64.pow(u32::from(scale));
    number(to, n / unit);
    if scale > 0 {
        fraction(to, n % unit, scale);
    }
}

fn fraction(to: &mut Vec<u8>, n: u64, scale: u8) {
    to.push(b'.');
    digits(to, n, usize::from(scale));
}

fn digits(to: &mut Vec<u8>, mut n: u64, count: usize) {
    let start = to.len();
    to.resize(start + count, b'0');
    for digit in to[start..].iter_mut().rev() {
        *digit = b'0' + (n % 10) as u8;
        n /= 10;
    }
}

/// The number of units of a scale that may have more than 64 bits.
fn scaled_wide(to: &mut Vec<u8>, negative: bool, n: u128, scale: u8) {
    if let Ok(n) = u64::try_from(n) {
        if scale < 20 {
            return scaled(to, negative, n, scale);
        }
    }
    if negative && n != 0 {
        to.push(b'-');
    }
    let unit = 10u128.pow(u32::from(scale));
    wide_number(to, n / unit);
    if scale > 0 {
        to.push(b'.');
        wide_digits(to, n % unit, usize::from(scale));
    }
}

const HALF: u128 = 10_000_000_000_000_000_000;

fn wide_number(to: &mut Vec<u8>, n: u128) {
    if n < HALF {
        return number(to, n as u64);
    }
    wide_number(to, n / HALF);
    digits(to, (n % HALF) as u64, 19);
}

fn wide_digits(to: &mut Vec<u8>, n: u128, count: usize) {
    if count > 19 {
        wide_digits(to, n / HALF, count - 19);
        return digits(to, (n % HALF) as u64, 19);
    }
    digits(to, n as u64, count);
}

/// The date of a day number from 0001-01-01 on.
fn date(to: &mut Vec<u8>, day: u32) {
    let z = day + 306;
    let era = z / 146_097;
    let of_era = z % 146_097;
    let year = (of_era - of_era / 1460 + of_era / 36_524 - of_era / 146_096) / 365;
    let of_year = of_era - (365 * year + year / 4 - year / 100);
    let m = (5 * of_year + 2) / 153;
    let month = if m < 10 { m + 3 } else { m - 9 };
    four(to, year + era * 400 + u32::from(month <= 2));
    to.push(b'-');
    two(to, month);
    to.push(b'-');
    two(to, of_year - (153 * m + 2) / 5 + 1);
}

fn little(bytes: &[u8]) -> u64 {
    bytes.iter().rev().fold(0, |n, byte| n << 8 | u64::from(*byte))
}

fn integer(bytes: &[u8]) -> i64 {
    match bytes.len() {
        1 => i64::from(bytes[0]),
        2 => i64::from(i16::from_le_bytes([bytes[0], bytes[1]])),
        4 => i64::from(i32::from_le_bytes(bytes.try_into().expect("four bytes"))),
        _ => i64::from_le_bytes(bytes.try_into().expect("eight bytes")),
    }
}

fn value(to: &mut Vec<u8>, text: Text, bytes: &[u8]) {
    match text {
        Text::Int => signed(to, integer(bytes)),
        Text::Bit => to.push(b'0' + u8::from(bytes[0] != 0)),
        Text::Decimal(scale) if bytes.len() <= 9 => scaled(to, bytes[0] == 0, little(&bytes[1..]), scale),
        Text::Decimal(scale) => {
            let magnitude = bytes[1..].iter().rev().fold(0, |n, byte| n << 8 | u128::from(*byte));
            scaled_wide(to, bytes[0] == 0, magnitude, scale);
        }
        Text::Money => {
            let high = little(&bytes[..4]) << 32;
            let n = (high | little(&bytes[4..])) as i64;
            scaled(to, n < 0, n.unsigned_abs(), 4);
        }
        Text::Date => date(to, little(bytes) as u32),
        Text::DateTime2(scale) => {
            let t = bytes.len() - 3;
            let units = little(&bytes[..t]);
            let unit = 10u64.pow(u32::from(scale));
            let seconds = (units / unit) as u32;
            date(to, little(&bytes[t..]) as u32);
            to.push(b' ');
            two(to, seconds / 3600);
            to.push(b':');
            two(to, seconds / 60 % 60);
            to.push(b':');
            two(to, seconds % 60);
            if scale > 0 {
                fraction(to, units % unit, scale);
            }
        }
        Text::Guid => {
            for (i, at) in [3, 2, 1, 0, 5, 4, 7, 6, 8, 9, 10, 11, 12, 13, 14, 15].into_iter().enumerate() {
                if matches!(i, 4 | 6 | 8 | 10) {
                    to.push(b'-');
                }
                to.extend_from_slice(&DIGITS[usize::from(bytes[at])]);
            }
        }
    }
}

/// The characters of the bytes 80 to 9F in Windows-1252.
const CONTROLS: [u16; 32] = [
    0x20AC, 0x81, 0x201A, 0x192, 0x201E, 0x2026, 0x2020, 0x2021, 0x2C6, 0x2030, 0x160, 0x2039, 0x152, 0x8D, 0x17D, 0x8F,
    0x90, 0x2018, 0x2019, 0x201C, 0x201D, 0x2022, 0x2013, 0x2014, 0x2DC, 0x2122, 0x161, 0x203A, 0x153, 0x9D, 0x17E, 0x178,
];

/// A character in UTF-8, and a quote twice.
fn character(to: &mut Vec<u8>, code: u32) {
    if code == 0x22 {
        to.push(b'"');
    }
    let mut bytes = [0; 4];
    to.extend_from_slice(char::from_u32(code).unwrap_or('\u{FFFD}').encode_utf8(&mut bytes).as_bytes());
}

/// How many bytes stand before the first that isn't of ASCII or is a quote, eight at a time.
fn plain_run(bytes: &[u8]) -> usize {
    let mut at = 0;
    while let Some(eight) = bytes[at..].first_chunk::<8>() {
        let all = u64::from_le_bytes(*eight);
        let quotes = all ^ 0x2222_2222_2222_2222;
        let stops = (all | quotes.wrapping_sub(0x0101_0101_0101_0101) & !quotes) & 0x8080_8080_8080_8080;
        if stops != 0 {
            return at + stops.trailing_zeros() as usize / 8;
        }
        at += 8;
    }
    at + bytes[at..].iter().take_while(|byte| byte.is_ascii() && **byte != b'"').count()
}

/// Text in Windows-1252.
fn narrow(to: &mut Vec<u8>, mut bytes: &[u8]) {
    loop {
        let (plain, rest) = bytes.split_at(plain_run(bytes));
        to.extend_from_slice(plain);
        let Some((byte, rest)) = rest.split_first() else {
            return;
        };
        character(to, match byte {
            0x80..=0x9F => u32::from(CONTROLS[usize::from(byte - 0x80)]),
            _ => u32::from(*byte),
        });
        bytes = rest;
    }
}

/// Text in UTF-16, four units at a time while they are of ASCII and no quotes. A high surrogate at the end is held.
fn wide(to: &mut Vec<u8>, mut bytes: &[u8], held: &mut Option<u32>) {
    while !bytes.is_empty() {
        if let (None, Some((eight, rest))) = (&held, bytes.split_first_chunk::<8>()) {
            let all = u64::from_le_bytes(*eight);
            let quotes = all ^ 0x0022_0022_0022_0022;
            if all & 0xFF80_FF80_FF80_FF80 | quotes.wrapping_sub(0x0001_0001_0001_0001) & !quotes & 0x8000_8000_8000_8000 == 0 {
                to.extend_from_slice(&[eight[0], eight[2], eight[4], eight[6]]);
                bytes = rest;
                continue;
            }
        }
        unit(to, u32::from(bytes[0]) + 256 * u32::from(bytes[1]), held);
        bytes = &bytes[2..];
    }
}

fn unit(to: &mut Vec<u8>, code: u32, held: &mut Option<u32>) {
    match (held.take(), code) {
        (Some(high), 0xDC00..=0xDFFF) => return character(to, 0x1_0000 + (high - 0xD800) * 0x400 + (code - 0xDC00)),
        (Some(_), _) => character(to, 0xFFFD),
        (None, _) => {}
    }
    match code {
        0xD800..=0xDBFF => *held = Some(code),
        _ => character(to, code),
    }
}

/// The two digits of each byte.
const DIGITS: [[u8; 2]; 256] = {
    let mut digits = [[0; 2]; 256];
    let mut byte = 0;
    while byte < 256 {
        digits[byte] = [b"0123456789abcdef"[byte / 16], b"0123456789abcdef"[byte % 16]];
        byte += 1;
    }
    digits
};

fn hexadecimal(to: &mut Vec<u8>, bytes: &[u8]) {
    let start = to.len();
    to.resize(start + 2 * bytes.len(), 0);
    for (two, byte) in to[start..].chunks_exact_mut(2).zip(bytes) {
        two.copy_from_slice(&DIGITS[usize::from(*byte)]);
    }
}

/// The next `n` bytes of the data of a value.
fn data(payload: &mut Payload, lines: &mut Lines, kind: Data, mut n: usize, held: &mut Option<u32>) {
    let size = if matches!(kind, Data::Wide) { 2 } else { 1 };
    while n > 0 {
        let bytes = payload.piece(n, size);
        n -= bytes.len();
        match kind {
            Data::Narrow => narrow(&mut lines.text, bytes),
            Data::Wide => wide(&mut lines.text, bytes, held),
            Data::Binary => hexadecimal(&mut lines.text, bytes),
        }
        lines.turn();
    }
}

/// The chunks of a value, or the whole of a short one.
fn long(payload: &mut Payload, lines: &mut Lines, kind: Data, short: Option<usize>) {
    let mut held = None;
    lines.text.extend_from_slice(if matches!(kind, Data::Binary) { b"0x" } else { b"\"" });
    match short {
        Some(n) => data(payload, lines, kind, n, &mut held),
        None => loop {
            match little(payload.take(4)) as usize {
                0 => break,
                n => data(payload, lines, kind, n, &mut held),
            }
        },
    }
    if held.is_some() {
        character(&mut lines.text, 0xFFFD);
    }
    if !matches!(kind, Data::Binary) {
        lines.text.push(b'"');
    }
}

const NULL: &[u8] = b"NULL";

fn cell(payload: &mut Payload, lines: &mut Lines, kind: Kind) {
    match kind {
        Kind::Int4 => value(&mut lines.text, Text::Int, payload.take(4)),
        Kind::Counted(kind) => match payload.byte() {
            0 => lines.text.extend_from_slice(NULL),
            n => value(&mut lines.text, kind, payload.take(usize::from(n))),
        },
        Kind::Short(kind) => match little(payload.take(2)) as usize {
            0xFFFF => lines.text.extend_from_slice(NULL),
            n => long(payload, lines, kind, Some(n)),
        },
        Kind::Chunked(kind) => match little(payload.take(8)) {
            u64::MAX => lines.text.extend_from_slice(NULL),
            _ => long(payload, lines, kind, None),
        },
    }
}

/// The cells of a row but those whose bit is set.
fn row(payload: &mut Payload, lines: &mut Lines, kinds: &[Kind], nulls: &[u8]) {
    for (i, kind) in kinds.iter().enumerate() {
        if i > 0 {
            lines.text.push(b',');
        }
        match nulls.get(i / 8) {
            Some(bits) if bits >> (i % 8) & 1 == 1 => lines.text.extend_from_slice(NULL),
            _ => cell(payload, lines, *kind),
        }
    }
    lines.text.extend_from_slice(b"\r\n");
    lines.turn();
}

/// The kind after a type byte of a long kind, whose type information goes on with a length.
fn long_kind(payload: &mut Payload, kind: Data) -> Kind {
    let most = little(payload.take(2));
    if !matches!(kind, Data::Binary) {
        payload.take(5);
    }
    if most == 0xFFFF { Kind::Chunked(kind) } else { Kind::Short(kind) }
}

fn describe(payload: &mut Payload, to: &mut Vec<u8>) -> Vec<Kind> {
    let count = little(payload.take(2));
    let mut kinds = Vec::new();
    for i in 0..count {
        let byte = payload.take(7)[6];
        kinds.push(match byte {
            0x38 => Kind::Int4,
            0x26 => { payload.take(1); Kind::Counted(Text::Int) }
            0x68 => { payload.take(1); Kind::Counted(Text::Bit) }
            0x6A => Kind::Counted(Text::Decimal(payload.take(3)[2])),
            0x6E => { payload.take(1); Kind::Counted(Text::Money) }
            0x28 => Kind::Counted(Text::Date),
            0x2A => Kind::Counted(Text::DateTime2(payload.byte())),
            0x24 => { payload.take(1); Kind::Counted(Text::Guid) }
            0xA5 => long_kind(payload, Data::Binary),
            0xA7 => long_kind(payload, Data::Narrow),
            0xE7 => long_kind(payload, Data::Wide),
            _ => panic!("a type byte that the benchmark hasn't: {byte:#x}"),
        });
        let units = usize::from(payload.byte());
        let name: Vec<u16> = payload.take(2 * units).chunks(2).map(|unit| u16::from_le_bytes([unit[0], unit[1]])).collect();
        if i > 0 {
            to.push(b',');
        }
        to.push(b'"');
        to.extend_from_slice(String::from_utf16(&name).expect("a name").replace('"', "\"\"").as_bytes());
        to.push(b'"');
    }
    to.extend_from_slice(b"\r\n");
    kinds
}

fn main() {
    let from: Box<dyn Read> = match std::env::args().nth(1) {
        Some(path) => Box::new(BufReader::with_capacity(BLOCK, File::open(path).expect("a file"))),
        None => Box::new(io::stdin().lock()),
    };
    let mut payload = Payload { from, packet: Vec::new(), at: 0, last: false };
    let mut lines = Lines { text: Vec::with_capacity(2 * BLOCK), to: io::stdout().lock() };
    let mut kinds = Vec::new();
    loop {
        match payload.byte() {
            0x81 => kinds = describe(&mut payload, &mut lines.text),
            0xD1 => row(&mut payload, &mut lines, &kinds, &[]),
            0xD2 => {
                let nulls = payload.take(kinds.len().div_ceil(8)).to_vec();
                row(&mut payload, &mut lines, &kinds, &nulls);
            }
            _ => break,
        }
    }
    lines.flush();
}
