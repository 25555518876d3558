//! Values, cells, forms, and the scratch for waiting values. A value is a symbol (its top bit 0, in base 37), an integer (10..), a
//! sequence (110..: its length and its first cell) or a stop (111..).
use std::mem::MaybeUninit;

pub const INTEGER: u64 = 1 << 63;
pub const SEQUENCE: u64 = 3 << 62;
pub const STOP: u64 = 7 << 61;
pub const T: u64 = 20;
pub const F: u64 = 6;

#[inline(always)]
pub fn is_sequence(v: u64) -> bool {
    v >= SEQUENCE
}
#[inline(always)]
pub fn is_integer(v: u64) -> bool {
    v >> 62 == 2
}
#[inline(always)]
pub fn size(v: u64) -> u32 {
    v as u32 >> 16
}
#[inline(always)]
pub fn start(v: u64) -> u32 {
    v as u32 & 0xffff
}
#[inline(always)]
pub fn sequence(start: u32, len: u32) -> u64 {
    SEQUENCE | (len as u64) << 16 | start as u64
}
#[inline(always)]
pub fn integer(i: i32) -> u64 {
    INTEGER | i as u32 as u64
}
#[inline(always)]
pub fn truth(b: bool) -> u64 {
    if b { T } else { F }
}
pub const EMPTY: u64 = SEQUENCE;

/// One place of one sequence. `run` places, this one first, lie side by side; `next` is the place behind this one.
#[derive(Clone, Copy)]
#[repr(C, packed(4))]
pub struct Cell {
    pub value: u64,
    pub next: u32,
    pub run: u32,
}

/// A form. `link` leads to the part evaluated next by the form that holds this one.
#[derive(Clone, Copy)]
#[repr(C, packed(4))]
pub struct Form {
    pub kind: u8,
    pub pad: u8,
    pub link: u16,
    pub a: u32,
    pub value: u64,
}

// Kinds: 0 to 22 the words in the order of WORDS; these have no parts:
pub const SELECT: u8 = 23;
pub const SELECT_RIGHT: u8 = 24;
pub const CONSTANT: u8 = 25;
// and these have:
pub const NAME: u8 = 26;
pub const CHAIN: u8 = 27;
pub const ONE: u8 = 28; // constructions of one, two, and more
pub const TWO: u8 = 29;
pub const MANY: u8 = 30;
pub const INSERT: u8 = 31;
pub const ALL: u8 = 32;
pub const CONDITION: u8 = 33;
pub const WHILE: u8 = 34;
pub const BU: u8 = 35;

pub const NONE: u16 = 0xffff;
pub const FORMS: usize = 2048;
pub const RING: usize = 4096;

/// Waiting values, by place modulo 4,096: where more wait, the oldest are never asked for, since each asks for a cell first.
pub struct Scratch([MaybeUninit<u64>; RING]);

impl Scratch {
    #[inline(always)]
    pub fn new() -> Self {
        Scratch([const { MaybeUninit::uninit() }; RING])
    }
    #[inline(always)]
    pub fn put(&mut self, i: u32, v: u64) {
        self.0[i as usize % RING].write(v);
    }
    /// Only places that were put are asked for (see above), whatever stands there is a number.
    #[inline(always)]
    pub fn get(&self, i: u32) -> u64 {
        unsafe { self.0[i as usize % RING].assume_init() }
    }
    pub fn bytes(&mut self) -> *mut u8 {
        self.0.as_mut_ptr() as *mut u8
    }
}

/// n waiting values from `from` on as cells from p on, side by side.
#[inline(always)]
pub fn gather(cells: &mut [Cell], ring: &Scratch, from: u32, p: u32, n: u32) -> u64 {
    for (q, c) in (0u32..).zip(cells[p as usize..(p + n) as usize].iter_mut()) {
        *c = Cell { value: ring.get(from + q), next: p + q + 1, run: n - q };
    }
    sequence(p, n)
}
