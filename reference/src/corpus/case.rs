//! One call of the corpus: its bytes, its running, its expected line. The
//! format is told in FORMAT.md.

use super::calls::{
    APA1_READ, APA1_WRITE, APR1_READ, APR1_WRITE, Call, RELLEB_READ, RELLEB_WRITE, RELR_APPLY,
    RELR_READ, RELR_WRITE, Setting, Shape,
};
use crate::{
    Answer, ByteOrder, apa1_read, apa1_write, apr1_read, apr1_write, relleb_read, relleb_write,
    relr_apply, relr_read, relr_write,
};

/// In a call's code: the input is all zeros, and the file has its length alone.
const LONG: u8 = 128;

/// The length from which on a case is written so.
const LONG_FROM: usize = 1 << 16;

/// What every byte of a lent column or table holds before a call.
pub const FILL: u8 = 0xA5;

#[derive(Clone, PartialEq, Eq, Debug)]
pub struct Case {
    pub call: u8,
    pub class: u32,
    /// The words of tables and image are big-endian.
    pub big: bool,
    /// Padded numbers are refused, and addend differences of zero.
    pub strict: bool,
    pub base: u64,
    /// The address of the image's first byte.
    pub start: u64,
    pub input: Vec<u8>,
    pub offsets: Vec<u64>,
    pub types: Vec<u32>,
    pub symbols: Vec<u32>,
    pub addends: Vec<i64>,
    pub bytes: Vec<u8>,
}

impl Case {
    fn empty(call: u8, class: u32) -> Case {
        Case {
            call,
            class,
            big: false,
            strict: false,
            base: 0,
            start: 0,
            input: Vec::new(),
            offsets: Vec::new(),
            types: Vec::new(),
            symbols: Vec::new(),
            addends: Vec::new(),
            bytes: Vec::new(),
        }
    }

    /// A read of `table` into columns of these lengths: offsets, types,
    /// symbols, addends.
    pub fn read(call: u8, class: u32, table: &[u8], rooms: [usize; 4]) -> Case {
        Case {
            input: table.to_vec(),
            offsets: vec![u64::from_le_bytes([FILL; 8]); rooms[0]],
            types: vec![u32::from_le_bytes([FILL; 4]); rooms[1]],
            symbols: vec![u32::from_le_bytes([FILL; 4]); rooms[2]],
            addends: vec![i64::from_le_bytes([FILL; 8]); rooms[3]],
            ..Case::empty(call, class)
        }
    }

    /// A read with `room` in each column that the call has.
    pub fn read_into(call: u8, class: u32, table: &[u8], room: usize) -> Case {
        let rooms = Call::of(call).columns.map(|has| if has { room } else { 0 });
        Case::read(call, class, table, rooms)
    }

    /// A write of offsets alone into a table of `room` bytes.
    pub fn write(call: u8, class: u32, offsets: &[u64], room: usize) -> Case {
        Case { offsets: offsets.to_vec(), bytes: vec![FILL; room], ..Case::empty(call, class) }
    }

    pub fn with_types(mut self, types: &[u32]) -> Case {
        self.types = types.to_vec();
        self
    }

    pub fn with_symbols(mut self, symbols: &[u32]) -> Case {
        self.symbols = symbols.to_vec();
        self
    }

    pub fn with_addends(mut self, addends: &[i64]) -> Case {
        self.addends = addends.to_vec();
        self
    }

    pub fn apply(class: u32, table: &[u8], base: u64, start: u64, image: &[u8]) -> Case {
        Case {
            base,
            start,
            input: table.to_vec(),
            bytes: image.to_vec(),
            ..Case::empty(RELR_APPLY, class)
        }
    }

    /// The row of the case's call.
    pub fn call(&self) -> &'static Call {
        Call::of(self.call)
    }

    /// The order of the words of table and image.
    pub fn order(&self) -> ByteOrder {
        if self.big { ByteOrder::Big } else { ByteOrder::Little }
    }

    /// Whether a setting is on that makes a case the twin of another.
    pub fn is_twin(&self) -> bool {
        self.big || self.strict
    }

    pub fn is_write(&self) -> bool {
        self.call().shape == Shape::Write
    }

    /// Panics on a setting that the call doesn't take, so that no test believes
    /// it was tried.
    pub fn check_settings(&self) {
        let set = [
            (Setting::Class, self.class != 0),
            (Setting::Order, self.big),
            (Setting::Strict, self.strict),
            (Setting::Base, self.base != 0),
            (Setting::Start, self.start != 0),
        ];
        for (setting, set) in set {
            assert!(!set || self.call().takes(setting), "{} has no {setting:?}", self.call().name);
        }
    }

    /// The answer of the call, and the case with what it left in the lent
    /// buffers.
    pub fn run(&self) -> (Answer, Case) {
        self.check_settings();
        let (mut c, order) = (self.clone(), self.order());
        let (o, t, s, a) = (&mut c.offsets, &mut c.types, &mut c.symbols, &mut c.addends);
        let answer = match self.call {
            RELR_READ => relr_read(c.class, order, &c.input, o),
            RELR_WRITE => relr_write(c.class, order, o, &mut c.bytes),
            RELR_APPLY => relr_apply(c.class, order, &c.input, c.base, c.start, &mut c.bytes),
            APR1_READ => apr1_read(c.strict, &c.input, o),
            APR1_WRITE => apr1_write(o, &mut c.bytes),
            APA1_READ => apa1_read(c.strict, &c.input, o, a),
            APA1_WRITE => apa1_write(o, a, &mut c.bytes),
            RELLEB_READ => relleb_read(c.class, c.strict, &c.input, o, t, s, a),
            RELLEB_WRITE => relleb_write(c.class, o, t, s, a, &mut c.bytes),
            _ => panic!("no such call"),
        };
        (answer, c)
    }

    /// The contents of the lent output buffers: the columns of a read, the
    /// table of a write, the image of an apply.
    pub fn output(&self) -> Vec<u8> {
        let mut out = Vec::new();
        if !self.is_write() {
            self.put_columns(&mut out);
        }
        out.extend_from_slice(&self.bytes);
        out
    }

    fn put_columns(&self, out: &mut Vec<u8>) {
        out.extend(self.offsets.iter().flat_map(|v| v.to_le_bytes()));
        out.extend(self.types.iter().flat_map(|v| v.to_le_bytes()));
        out.extend(self.symbols.iter().flat_map(|v| v.to_le_bytes()));
        out.extend(self.addends.iter().flat_map(|v| v.to_le_bytes()));
    }

    /// The case's expected line, without its line feed.
    pub fn line(&self) -> String {
        let (answer, after) = self.run();
        let hash = fnv1a(&after.output());
        let Answer { number, place, count } = answer;
        format!("{number} {place} {count} {hash:016x}")
    }

    /// Whether the file holds only the lengths of what the call is given.
    fn is_long(&self) -> bool {
        self.input.len().max(self.offsets.len()) >= LONG_FROM
    }

    /// The case's bytes in the file.
    pub fn encode(&self, out: &mut Vec<u8>) {
        let long = self.is_long();
        out.push(if long { LONG | self.call } else { self.call });
        out.extend(self.class.to_le_bytes());
        out.extend([self.big as u8, self.strict as u8]);
        out.extend(self.base.to_le_bytes());
        out.extend(self.start.to_le_bytes());
        put_u32(self.input.len(), out);
        put_given(&self.input, long, out);
        put_u32(self.offsets.len(), out);
        put_u32(self.types.len(), out);
        put_u32(self.symbols.len(), out);
        put_u32(self.addends.len(), out);
        if self.is_write() {
            let mut columns = Vec::new();
            self.put_columns(&mut columns);
            put_given(&columns, long, out);
        }
        put_u32(self.bytes.len(), out);
        if self.call().shape == Shape::Apply {
            out.extend_from_slice(&self.bytes);
        }
    }
}

/// What a call is given, or nothing where the file holds only its length.
fn put_given(given: &[u8], long: bool, out: &mut Vec<u8>) {
    if long {
        assert!(given.iter().all(|byte| *byte == 0), "a long input is all zeros");
    } else {
        out.extend_from_slice(given);
    }
}

fn put_u32(value: usize, out: &mut Vec<u8>) {
    out.extend((value as u32).to_le_bytes());
}

/// The 64-bit FNV-1a hash.
pub fn fnv1a(bytes: &[u8]) -> u64 {
    let mut hash = 0xCBF2_9CE4_8422_2325u64;
    for byte in bytes {
        hash ^= *byte as u64;
        hash = hash.wrapping_mul(0x0000_0100_0000_01B3);
    }
    hash
}

/// All cases of a file.
pub fn decode(file: &[u8]) -> Vec<Case> {
    let mut from = From { file, next: 0 };
    let mut cases = Vec::new();
    while from.next < file.len() {
        cases.push(from.case());
    }
    cases
}

struct From<'a> {
    file: &'a [u8],
    next: usize,
}

impl From<'_> {
    fn take(&mut self, count: usize) -> &[u8] {
        let taken = &self.file[self.next..self.next + count];
        self.next += count;
        taken
    }

    fn array<const N: usize>(&mut self) -> [u8; N] {
        self.take(N).try_into().unwrap()
    }

    /// A byte that is 0 or 1.
    fn flag(&mut self) -> bool {
        let [byte] = self.array();
        assert!(byte < 2, "{byte} is neither 0 nor 1");
        byte == 1
    }

    fn u32(&mut self) -> u32 {
        u32::from_le_bytes(self.array())
    }

    fn u64(&mut self) -> u64 {
        u64::from_le_bytes(self.array())
    }

    fn size(&mut self) -> usize {
        self.u32() as usize
    }

    fn case(&mut self) -> Case {
        let code = self.array::<1>()[0];
        let (call, long) = (code & !LONG, code & LONG != 0);
        let class = self.u32();
        let (big, strict) = (self.flag(), self.flag());
        let (base, start) = (self.u64(), self.u64());
        let length = self.size();
        let input = if long { vec![0; length] } else { self.take(length).to_vec() };
        let rooms = [self.size(), self.size(), self.size(), self.size()];
        let read = Case::read(call, class, &input, rooms);
        let mut case = Case { big, strict, base, start, ..read };
        if case.is_write() && long {
            case.offsets.fill(0);
            case.types.fill(0);
            case.symbols.fill(0);
            case.addends.fill(0);
        } else if case.is_write() {
            case.offsets = (0..rooms[0]).map(|_| self.u64()).collect();
            case.types = (0..rooms[1]).map(|_| self.u32()).collect();
            case.symbols = (0..rooms[2]).map(|_| self.u32()).collect();
            case.addends = (0..rooms[3]).map(|_| self.u64() as i64).collect();
        }
        let length = self.size();
        case.bytes = match case.call().shape {
            Shape::Apply => self.take(length).to_vec(),
            _ => vec![FILL; length],
        };
        case
    }
}
