//! The reader: a program to forms, children first, and an object to cells.
use super::values::*;
use super::words::*;

/// A refusal: number times 2^16, and the place.
pub type Read<X> = Result<X, u32>;

#[inline(always)]
fn refused<X>(number: u32, place: usize) -> Read<X> {
    Err(number << 16 | place as u32)
}

/// A run of letters and digits: its length, its first bytes, and which are letters and digits.
struct Run {
    n: usize,
    x: [u64; 2],
    letter: [u64; 2],
    digit: [u64; 2],
}

/// Eight bytes from p on; zeros behind the end.
#[inline(always)]
fn load(s: &[u8], p: usize) -> u64 {
    match s.get(p..p + 8) {
        Some(b) => u64::from_le_bytes(b.try_into().unwrap()),
        None => load_tail(s, p),
    }
}
#[cold]
#[inline(never)]
fn load_tail(s: &[u8], p: usize) -> u64 {
    let t = &s[p.min(s.len())..];
    let mut b = [0; 8];
    b[..t.len()].copy_from_slice(t);
    u64::from_le_bytes(b)
}

/// The run that starts at p.
#[inline(always)]
fn run_at(s: &[u8], p: usize) -> Run {
    let x = load(s, p);
    let (l, d) = classes(x);
    let stop = !(l | d) & TOPS;
    if stop != 0 {
        let m = ((stop & stop.wrapping_neg()) - 1) >> 7; // whole bytes of the run
        return Run { n: stop.trailing_zeros() as usize / 8, x: [x & m, 0], letter: [l & m, 0], digit: [d & m, 0] };
    }
    long_run(s, p, x, l, d)
}
/// A run of eight bytes or more, of which the first eight are classed.
#[inline(never)]
fn long_run(s: &[u8], p: usize, x: u64, l: u64, d: u64) -> Run {
    let y = load(s, p + 8);
    let (k, e) = classes(y);
    let stop = !(k | e) & TOPS;
    if stop != 0 {
        let m = ((stop & stop.wrapping_neg()) - 1) >> 7;
        return Run { n: 8 + stop.trailing_zeros() as usize / 8, x: [x, y & m], letter: [l, k & m], digit: [d, e & m] };
    }
    let n = 16 + s[p + 16..].iter().take_while(|b| b.is_ascii_alphanumeric()).count();
    Run { n, x: [x, y], letter: [l, k], digit: [d, e] }
}

/// A word as one number, in base 37.
#[inline(always)]
fn packed(r: &Run) -> u64 {
    let v = pack_eight(r.x[0], r.letter[0], r.digit[0]);
    if r.n <= 8 { v } else { v + EIGHT_PLACES * pack_eight(r.x[1], r.letter[1], r.digit[1]) }
}

/// The digits at p, of which there is one, behind a minus or not: the place behind them, and their value up to 2^31.
#[inline(always)]
fn number(s: &[u8], p: usize, minus: bool) -> Read<(usize, u64)> {
    let mut v = (s[p] - b'0') as u64;
    let mut e = p + 1;
    let end = loop {
        let b = if e < s.len() { s[e] } else { 0 };
        let d = b.wrapping_sub(b'0');
        if d > 9 {
            break b;
        }
        v = v.wrapping_mul(10) + d as u64;
        e += 1;
    };
    if end.is_ascii_alphabetic() || e - p > 10 || v > 2147483647 + minus as u64 || s[p] == b'0' && (minus || e - p > 1) {
        return long_number(s, p, minus);
    }
    Ok((e, v))
}
#[cold]
#[inline(never)]
fn long_number(s: &[u8], p: usize, minus: bool) -> Read<(usize, u64)> {
    let n = s[p..].iter().take_while(|b| b.is_ascii_alphanumeric()).count();
    let place = p - minus as usize;
    let ds = &s[p..p + n];
    if !ds.iter().all(u8::is_ascii_digit) {
        return refused(6, place);
    }
    if ds[0] == b'0' && (minus || n > 1) || n > 10 {
        return refused(8, place);
    }
    let v = ds.iter().fold(0, |v, b| 10 * v + (b - b'0') as u64);
    if v > 2147483647 + minus as u64 { refused(8, place) } else { Ok((p + n, v)) }
}

pub struct Reader<'a> {
    pub s: &'a [u8],
    pub at: usize,
    pub forms: &'a mut [Form; FORMS],
    pub count: usize,
    pub cells: &'a mut [Cell],
    pub used: usize,
    pub ring: &'a mut Scratch,
    pub names: u16,
}

impl Reader<'_> {
    /// Passes blanks; the byte there, 0 at the end.
    #[inline(always)]
    pub fn peek(&mut self) -> u8 {
        loop {
            match self.s.get(self.at) {
                Some(&b) if b == b' ' || b == b'\n' => self.at += 1,
                Some(&b) => return b,
                None => return 0,
            }
        }
    }

    #[cold]
    #[inline(never)]
    pub fn refuse<X>(&self) -> Read<X> {
        let p = self.at;
        if self.s.get(p).is_some_and(u8::is_ascii_alphabetic) && run_at(self.s, p).n > 12 {
            return refused(9, p);
        }
        refused(6, p)
    }

    #[inline(always)]
    fn mark(&mut self, b: u8) -> Read<()> {
        if self.peek() != b {
            return self.refuse();
        }
        self.at += 1;
        Ok(())
    }

    /// An object, where `room` more marks may open. Its values wait in the ring until their sequence ends.
    pub fn object(&mut self, room: u32) -> Read<u64> {
        let s = self.s;
        let mut at = self.at;
        macro_rules! peek {
            () => {
                loop {
                    match s.get(at) {
                        Some(&b) if b > b' ' => break b,
                        Some(&b) if b == b' ' || b == b'\n' => at += 1,
                        _ => break 0,
                    }
                }
            };
        }
        let mut opened = [0u32; 32];
        let mut depth = 0;
        let mut top = 0u32;
        loop {
            let b = peek!();
            let mut v = match b {
                b'0'..=b'9' => {
                    let v;
                    (at, v) = number(s, at, false)?;
                    INTEGER | v
                }
                b'A'..=b'Z' if !s.get(at + 1).is_some_and(u8::is_ascii_alphanumeric) => {
                    at += 1;
                    (b - b'@') as u64
                }
                b'A'..=b'Z' | b'a'..=b'z' => {
                    let r = run_at(s, at);
                    if r.n > 12 {
                        return refused(9, at);
                    }
                    if (r.x[0] & (r.letter[0] >> 2)) | (r.x[1] & (r.letter[1] >> 2)) != 0 {
                        return refused(6, at);
                    }
                    at += r.n;
                    packed(&r)
                }
                b'<' => {
                    if depth == room {
                        return refused(7, at);
                    }
                    at += 1;
                    if peek!() != b'>' {
                        opened[depth as usize % 32] = top;
                        depth += 1;
                        continue;
                    }
                    at += 1;
                    EMPTY
                }
                b'-' if s.get(at + 1).is_some_and(u8::is_ascii_digit) => {
                    let v;
                    (at, v) = number(s, at + 1, true)?;
                    integer((v as i64).wrapping_neg() as i32)
                }
                _ => return refused(6, at),
            };
            loop {
                if depth == 0 {
                    self.at = at;
                    return Ok(v);
                }
                self.ring.put(top, v);
                top += 1;
                let b = peek!();
                if b == b',' {
                    at += 1;
                    break;
                }
                if b != b'>' {
                    self.at = at;
                    return self.refuse();
                }
                at += 1;
                depth -= 1;
                let first = opened[depth as usize % 32];
                let n = top - first;
                top = first;
                let p = self.used;
                self.used += n as usize;
                v = EMPTY;
                if self.used <= self.cells.len() {
                    v = gather(self.cells, self.ring, first, p as u32, n);
                }
            }
        }
    }

    /// Adds a form. Past the table forms are only counted.
    #[inline(always)]
    fn put(&mut self, kind: u8, a: u32, value: u64) -> u32 {
        let i = self.count;
        self.count += 1;
        if i < FORMS {
            self.forms[i] = Form { kind, pad: 0, link: NONE, a, value };
        }
        i as u32
    }
    #[inline(always)]
    fn link(&mut self, i: u32, to: u32) {
        if (i as usize) < FORMS {
            self.forms[i as usize].link = to as u16;
        }
    }

    fn form(&mut self, room: u32) -> Read<u32> {
        let mut i = self.part(room)?;
        if self.peek() != b'.' {
            return Ok(i);
        }
        loop {
            self.at += 1;
            let j = self.part(room)?;
            self.link(j, i);
            i = j;
            if self.peek() != b'.' {
                return Ok(self.put(CHAIN, i, 0));
            }
        }
    }

    fn part(&mut self, room: u32) -> Read<u32> {
        let b = self.peek();
        let p = self.at;
        match b {
            b'a'..=b'z' | b'A'..=b'Z' => {
                let r = run_at(self.s, p);
                if r.n > 12 {
                    return refused(9, p);
                }
                if (!r.x[0] & (r.letter[0] >> 2)) | (!r.x[1] & (r.letter[1] >> 2)) != 0 {
                    return refused(6, p);
                }
                self.at = p + r.n;
                let (word, code) = SLOTS[(r.x[0].wrapping_mul(MULTIPLIER) >> 58) as usize];
                if word == r.x[0] && r.n < 8 {
                    return Ok(self.put(code, 0, 0));
                }
                let i = self.put(NAME, self.names as u32, packed(&r));
                self.names = i as u16;
                Ok(i)
            }
            b'0'..=b'9' => self.selector(p),
            b'[' | b'%' | b'/' | b'@' | b'{' | b'(' => {
                if room == 0 {
                    return refused(7, p);
                }
                self.at = p + 1;
                self.opened(b, room - 1)
            }
            _ => refused(6, p),
        }
    }

    #[inline(always)]
    fn selector(&mut self, p: usize) -> Read<u32> {
        let r = run_at(self.s, p);
        self.at = p + r.n;
        if r.n > 8 {
            return self.long_selector(p, r.n);
        }
        let ds = (!r.digit[0] & TOPS).trailing_zeros() as usize / 8;
        let right = ds + 1 == r.n && (r.x[0] >> (8 * ds)) as u8 == b'r';
        if ds != r.n && !right {
            return refused(6, p);
        }
        let k = eight_digits(r.x[0] & !(u64::MAX.checked_shl(8 * ds as u32).unwrap_or(0)), ds);
        if r.x[0] as u8 == b'0' || k > 255 {
            return refused(8, p);
        }
        Ok(self.put(if right { SELECT_RIGHT } else { SELECT }, k as u32, 0))
    }
    #[cold]
    fn long_selector(&self, p: usize, n: usize) -> Read<u32> {
        let w = &self.s[p..p + n];
        let ds = w.iter().take_while(|b| b.is_ascii_digit()).count();
        if ds == n || ds + 1 == n && w[ds] == b'r' { refused(8, p) } else { refused(6, p) }
    }

    fn opened(&mut self, b: u8, room: u32) -> Read<u32> {
        match b {
            b'[' => {
                let first = self.form(room)?;
                let (mut n, mut i) = (1u64, first);
                loop {
                    match self.peek() {
                        b',' => {
                            self.at += 1;
                            let j = self.form(room)?;
                            self.link(i, j);
                            i = j;
                            n += 1;
                        }
                        b']' => {
                            self.at += 1;
                            return Ok(self.put(if n == 1 { ONE } else if n == 2 { TWO } else { MANY }, first, n));
                        }
                        _ => return self.refuse(),
                    }
                }
            }
            b'%' => {
                let v = self.object(room)?;
                Ok(self.put(CONSTANT, 0, v))
            }
            b'/' => {
                let i = self.part(room)?;
                Ok(self.put(INSERT, i, 0))
            }
            b'@' => {
                let i = self.part(room)?;
                Ok(self.put(ALL, i, 0))
            }
            b'{' => {
                let i = self.part(room)?;
                self.mark(b',')?;
                let v = self.object(room)?;
                self.mark(b'}')?;
                Ok(self.put(BU, i, v))
            }
            _ => {
                let i = self.form(room)?;
                match self.peek() {
                    b')' => {
                        self.at += 1;
                        Ok(i)
                    }
                    b'?' => {
                        self.at += 1;
                        let j = self.form(room)?;
                        self.mark(b')')?;
                        Ok(self.put(WHILE, i, j as u64))
                    }
                    b'-' if self.s.get(self.at + 1) == Some(&b'>') => {
                        self.at += 2;
                        let j = self.form(room)?;
                        self.mark(b';')?;
                        let k = self.form(room)?;
                        self.mark(b')')?;
                        Ok(self.put(CONDITION, i, j as u64 | (k as u64) << 32))
                    }
                    _ => self.refuse(),
                }
            }
        }
    }

    /// All definitions, names resolved. The record of main's body, or NONE.
    pub fn program(&mut self) -> Read<u16> {
        let mut table = Names { slot: [0; 256], name: [0; 128], root: [0; 128], count: 0 };
        let mut twice = None;
        let mut total = 0;
        loop {
            let b = self.peek();
            let p = self.at;
            if p == self.s.len() {
                break;
            }
            if !b.is_ascii_alphabetic() {
                return refused(6, p);
            }
            let r = run_at(self.s, p);
            if r.n > 12 {
                return refused(9, p);
            }
            if (!r.x[0] & (r.letter[0] >> 2)) | (!r.x[1] & (r.letter[1] >> 2)) != 0 {
                return refused(6, p);
            }
            if SLOTS[(r.x[0].wrapping_mul(MULTIPLIER) >> 58) as usize].0 == r.x[0] && r.n < 8 {
                return refused(6, p);
            }
            self.at = p + r.n;
            let name = packed(&r);
            self.mark(b'=')?;
            let root = self.form(32)?;
            self.mark(b';')?;
            total += 1;
            if total <= 128 && !table.add(name, root as u16) && twice.is_none() {
                twice = Some(p);
            }
        }
        if self.count > FORMS || total > 128 {
            return refused(10, 0);
        }
        if let Some(p) = twice {
            return refused(11, p);
        }
        let mut i = self.names;
        while i != NONE {
            let f = &mut self.forms[i as usize % FORMS];
            i = f.a as u16;
            f.a = table.find(f.value) as u32;
        }
        Ok(table.find(pack_word(b"main")))
    }
}

fn pack_word(w: &[u8]) -> u64 {
    let x = word_key(w);
    let (l, d) = classes(x);
    pack_eight(x, l, d)
}

/// Definitions by name: slots lead to one more than their number.
struct Names {
    slot: [u8; 256],
    name: [u64; 128],
    root: [u16; 128],
    count: usize,
}

impl Names {
    #[inline(always)]
    fn hash(name: u64) -> usize {
        (name.wrapping_mul(0x9e37_79b9_7f4a_7c15) >> 56) as usize
    }
    /// Whether it is new.
    fn add(&mut self, name: u64, root: u16) -> bool {
        let mut h = Self::hash(name);
        loop {
            let d = self.slot[h] as usize;
            if d == 0 {
                self.name[self.count] = name;
                self.root[self.count] = root;
                self.count += 1;
                self.slot[h] = self.count as u8;
                return true;
            }
            if self.name[d - 1] == name {
                return false;
            }
            h = (h + 1) % 256;
        }
    }
    #[inline(always)]
    fn find(&self, name: u64) -> u16 {
        let mut h = Self::hash(name);
        loop {
            let d = self.slot[h] as usize;
            if d == 0 {
                return NONE;
            }
            if self.name[d - 1] == name {
                return self.root[d - 1];
            }
            h = (h + 1) % 256;
        }
    }
}
