//! The writer.
use super::values::*;

static PAIRS: [[u8; 2]; 1369] = {
    let letters = b"\0ABCDEFGHIJKLMNOPQRSTUVWXYZ0123456789";
    let mut t = [[0; 2]; 1369];
    let mut i = 0;
    while i < 1369 {
        t[i] = [letters[i % 37], letters[i / 37]];
        i += 1;
    }
    t
};
static HUNDRED: [[u8; 2]; 100] = {
    let mut t = [[0; 2]; 100];
    let mut i = 0;
    while i < 100 {
        t[i] = [b'0' + (i / 10) as u8, b'0' + (i % 10) as u8];
        i += 1;
    }
    t
};

pub struct Writer<'a> {
    pub cells: &'a [Cell],
    pub out: &'a mut [u8; 32768],
    pub room: usize,
}

impl Writer<'_> {
    /// An atom: the place behind it. It may pass the room, by 12 at most.
    #[inline(always)]
    fn atom(&mut self, v: u64, at: usize) -> usize {
        let out = &mut self.out[at..at + 16];
        if !is_integer(v) {
            let (mut v, mut i) = (v, 0);
            loop {
                let two = PAIRS[(v % 1369) as usize];
                v /= 1369;
                out[i] = two[0];
                out[i + 1] = two[1];
                i += 2;
                if v == 0 || i == 12 {
                    return at + i - (two[1] == 0) as usize;
                }
            }
        }
        let n = v as i32;
        out[0] = b'-';
        let minus = (n < 0) as usize;
        let mut u = n.unsigned_abs();
        let digits = if u < 10 { 1 } else { u.ilog10() as usize + 1 };
        let mut i = minus + digits;
        while u >= 100 {
            i -= 2;
            out[i..i + 2].copy_from_slice(&HUNDRED[(u % 100) as usize]);
            u /= 100;
        }
        if u >= 10 {
            out[i - 2..i].copy_from_slice(&HUNDRED[u as usize]);
        } else {
            out[i - 1] = b'0' + u as u8;
        }
        at + minus + digits
    }

    pub fn object(&mut self, v: u64, at: usize, open: u32) -> Result<usize, u32> {
        let mut at = at;
        if !is_sequence(v) {
            at = self.atom(v, at);
            return if at > self.room { Err(25) } else { Ok(at) };
        }
        if open == 32 {
            return Err(26);
        }
        if at == self.room {
            return Err(25);
        }
        self.out[at] = b'<';
        at += 1;
        let mut i = start(v);
        for left in (0..size(v)).rev() {
            let c = self.cells[i as usize];
            let x = c.value;
            at = if is_sequence(x) { self.object(x, at, open + 1)? } else { self.atom(x, at) };
            if at >= self.room {
                return Err(25);
            }
            self.out[at] = if left == 0 { b'>' } else { b',' };
            at += 1;
            i = c.next;
        }
        if size(v) == 0 {
            if at == self.room {
                return Err(25);
            }
            self.out[at] = b'>';
            at += 1;
        }
        Ok(at)
    }
}
