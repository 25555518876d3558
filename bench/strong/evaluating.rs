//! The metered evaluator.
use super::values::*;

pub struct Machine<'a> {
    pub forms: &'a [Form; FORMS],
    pub cells: &'a mut [Cell],
    pub used: u32,
    pub steps: u32,
    pub names: u32,
    pub top: u32,
    pub ring: &'a mut Scratch,
}

const BOTTOM: u64 = STOP | 21;

impl Machine<'_> {
    #[inline(always)]
    fn form(&self, i: u32) -> Form {
        self.forms[i as usize % FORMS]
    }
    #[inline(always)]
    fn cell(&self, i: u32) -> Cell {
        self.cells[i as usize]
    }

    /// n cells, or u32::MAX.
    #[inline(always)]
    fn take(&mut self, n: u32) -> u32 {
        let p = self.used;
        if self.cells.len() as u32 - p < n {
            return u32::MAX;
        }
        self.used = p + n;
        p
    }

    #[inline(always)]
    fn set_pair(&mut self, p: u32, a: u64, b: u64) -> u64 {
        let c = &mut self.cells[p as usize..p as usize + 2];
        c[0] = Cell { value: a, next: p + 1, run: 2 };
        c[1] = Cell { value: b, next: 0, run: 1 };
        sequence(p, 2)
    }
    #[inline(always)]
    fn pair(&mut self, a: u64, b: u64) -> u64 {
        let p = self.take(2);
        if p == u32::MAX {
            return STOP | 24;
        }
        self.set_pair(p, a, b)
    }

    /// Place k of the sequence v, counted from 0.
    #[inline(always)]
    fn place_of(&self, v: u64, mut k: u32) -> u64 {
        let mut i = start(v);
        loop {
            let c = self.cell(i);
            if k < c.run {
                return if k == 0 { c.value } else { self.cell(i + k).value };
            }
            k -= c.run;
            i = if c.run == 1 { c.next } else { self.cell(i + c.run - 1).next };
        }
    }

    /// n places from cell s on, copied to free cells from p on, side by side with `run` places in all. The cell behind them.
    #[inline(always)]
    fn copy(&mut self, s: u32, n: u32, p: u32, run: u32) -> u32 {
        let (old, new) = self.cells.split_at_mut(p as usize);
        let (mut s, mut q) = (s as usize, 0);
        while q < n {
            let r = old[s].run.min(n - q);
            let from = &old[s..s + r as usize];
            for (c, x) in new[q as usize..(q + r) as usize].iter_mut().zip(from) {
                *c = Cell { value: x.value, next: p + q + 1, run: run - q };
                q += 1;
            }
            s = from[r as usize - 1].next as usize;
        }
        s as u32
    }

    #[inline(always)]
    fn step(&mut self) -> bool {
        let s = self.steps;
        self.steps = s.wrapping_sub(1);
        s == 0
    }

    #[inline(always)]
    fn two(&self, v: u64) -> Option<(u64, u64)> {
        if !is_sequence(v) || size(v) != 2 {
            return None;
        }
        let c = self.cell(start(v));
        Some((c.value, self.cell(c.next).value))
    }
    #[inline(always)]
    fn ints(&self, v: u64) -> Option<(i64, i64)> {
        let (a, b) = self.two(v)?;
        if !is_integer(a) || !is_integer(b) {
            return None;
        }
        Some((a as i32 as i64, b as i32 as i64))
    }

    /// T, F, or a stop: one step for each pair looked at.
    #[inline(always)]
    fn same(&mut self, a: u64, b: u64) -> u64 {
        if self.step() {
            self.steps = 0;
            return STOP | 22;
        }
        if !is_sequence(a) || !is_sequence(b) || size(a) == 0 || size(b) == 0 {
            return truth(a == b);
        }
        self.same_places(a, b)
    }
    /// Of sequences with places, their own step charged.
    fn same_places(&mut self, a: u64, b: u64) -> u64 {
        let (mut i, mut j) = (start(a), start(b));
        for _ in 0..size(a).min(size(b)) {
            let (x, y) = (self.cell(i), self.cell(j));
            let r = self.same(x.value, y.value);
            if r != T {
                return r;
            }
            (i, j) = (x.next, y.next);
        }
        truth(size(a) == size(b))
    }

    /// A form without parts, its step charged.
    #[inline(never)]
    fn leaf(&mut self, kind: u8, k: u32, value: u64, v: u64) -> u64 {
        macro_rules! numbers {
            ($op:expr) => {{
                let Some((a, b)) = self.ints(v) else { return BOTTOM };
                let r: i64 = $op(a, b);
                if r as i32 as i64 != r { BOTTOM } else { integer(r as i32) }
            }};
        }
        match kind {
            0 => v,
            1 => {
                if !is_sequence(v) || size(v) == 0 {
                    return BOTTOM;
                }
                if size(v) == 1 { EMPTY } else { sequence(self.cell(start(v)).next, size(v) - 1) }
            }
            2 => truth(!is_sequence(v) || size(v) == 0),
            3 => truth(v == EMPTY),
            5 => {
                let Some((a, b)) = self.ints(v) else { return BOTTOM };
                truth(a < b)
            }
            6 => {
                if !is_sequence(v) {
                    return BOTTOM;
                }
                integer(size(v) as i32)
            }
            7 => numbers!(|a, b| a + b),
            8 => numbers!(|a, b| a - b),
            9 => numbers!(|a, b| a * b),
            10 => {
                let Some((a, b)) = self.ints(v) else { return BOTTOM };
                if b == 0 || a == i32::MIN as i64 && b == -1 {
                    return BOTTOM;
                }
                integer(a as i32 / b as i32)
            }
            11 | 12 => {
                let Some((a, b)) = self.two(v) else { return BOTTOM };
                if (a != T && a != F) || (b != T && b != F) {
                    return BOTTOM;
                }
                if kind == 11 { truth(a == T && b == T) } else { truth(a == T || b == T) }
            }
            13 => {
                if v != T && v != F {
                    return BOTTOM;
                }
                T + F - v
            }
            14 => {
                let Some((a, b)) = self.two(v) else { return BOTTOM };
                if !is_sequence(b) {
                    return BOTTOM;
                }
                let p = self.used;
                let Some(c) = self.cells.get_mut(p as usize) else { return STOP | 24 };
                *c = Cell { value: a, next: start(b), run: 1 };
                self.used = p + 1;
                sequence(p, size(b) + 1)
            }
            SELECT => {
                if !is_sequence(v) || size(v) < k {
                    return BOTTOM;
                }
                self.place_of(v, k - 1)
            }
            SELECT_RIGHT => {
                if !is_sequence(v) || size(v) < k {
                    return BOTTOM;
                }
                self.place_of(v, size(v) - k)
            }
            CONSTANT => value,
            _ => self.heavy(kind, v),
        }
    }

    /// The words that look at all places.
    #[inline(never)]
    fn heavy(&mut self, kind: u8, v: u64) -> u64 {
        if !is_sequence(v) {
            return BOTTOM;
        }
        let n = size(v);
        match kind {
            4 => {
                let Some((a, b)) = self.two(v) else { return BOTTOM };
                self.same(a, b)
            }
            15 => {
                if n == 0 {
                    return BOTTOM;
                }
                self.made(n - 1, |m, p| {
                    m.copy(start(v), n - 1, p, n - 1);
                })
            }
            16 => self.made(n, |m, p| {
                let mut s = start(v);
                for q in (0..n).rev() {
                    let c = m.cell(s);
                    m.cells[(p + q) as usize] = Cell { value: c.value, next: p + q + 1, run: n - q };
                    s = c.next;
                }
            }),
            17 => self.made(n, |m, p| {
                if n > 0 {
                    let c = m.cell(start(v));
                    m.copy(c.next, n - 1, p, n);
                    m.cells[(p + n - 1) as usize] = Cell { value: c.value, next: 0, run: 1 };
                }
            }),
            18 => self.made(n, |m, p| {
                if n > 0 {
                    let s = m.copy(start(v), n - 1, p + 1, n - 1);
                    m.cells[p as usize] = Cell { value: m.cell(s).value, next: p + 1, run: n };
                }
            }),
            19 => {
                let Some((a, b)) = self.two(v) else { return BOTTOM };
                if !is_sequence(a) {
                    return BOTTOM;
                }
                let n = size(a);
                self.made(n + 1, |m, p| {
                    m.copy(start(a), n, p, n + 1);
                    m.cells[(p + n) as usize] = Cell { value: b, next: 0, run: 1 };
                })
            }
            20 | 21 => {
                let Some((a, b)) = self.two(v) else { return BOTTOM };
                let (s, x) = if kind == 20 { (b, a) } else { (a, b) };
                if !is_sequence(s) {
                    return BOTTOM;
                }
                let n = size(s);
                let p = self.take(3 * n);
                if p == u32::MAX {
                    return STOP | 24;
                }
                let mut i = start(s);
                for q in 0..n {
                    let c = self.cell(i);
                    i = c.next;
                    let o = p + n + 2 * q;
                    let value = if kind == 20 { self.set_pair(o, x, c.value) } else { self.set_pair(o, c.value, x) };
                    self.cells[(p + q) as usize] = Cell { value, next: p + q + 1, run: n - q };
                }
                if n == 0 { EMPTY } else { sequence(p, n) }
            }
            _ => self.transpose(v),
        }
    }

    /// A sequence of n places in cells side by side, made by f.
    #[inline(always)]
    fn made(&mut self, n: u32, f: impl FnOnce(&mut Self, u32)) -> u64 {
        let p = self.take(n);
        if p == u32::MAX {
            return STOP | 24;
        }
        f(self, p);
        if n == 0 { EMPTY } else { sequence(p, n) }
    }

    /// Whether the n places from cell i on are sequences as long as `first`.
    fn rows(&self, i: u32, n: u32, first: u64) -> bool {
        let (mut i, mut left) = (i as usize, n as usize);
        while left > 0 {
            let r = (self.cells[i].run as usize).min(left);
            let part = &self.cells[i..i + r];
            if part.iter().any(|c| c.value >> 16 != first >> 16) {
                return false;
            }
            i = part[r - 1].next as usize;
            left -= r;
        }
        true
    }

    #[inline(never)]
    fn transpose(&mut self, v: u64) -> u64 {
        let n = size(v);
        if n == 0 {
            return BOTTOM;
        }
        let first = self.cell(start(v)).value;
        if !is_sequence(first) || !self.rows(start(v), n, first) {
            return BOTTOM;
        }
        let m = size(first);
        if m == 0 {
            return EMPTY;
        }
        if (m as u64) * (n as u64 + 1) > self.cells.len() as u64 {
            return STOP | 24;
        }
        let p = self.take(m + m * n);
        if p == u32::MAX {
            return STOP | 24;
        }
        let mut i = start(v);
        for q in 0..n {
            let row = self.cell(i);
            i = row.next;
            let mut s = start(row.value);
            for j in 0..m {
                let c = self.cell(s);
                s = c.next;
                let o = p + m + j * n + q;
                self.cells[o as usize] = Cell { value: c.value, next: o + 1, run: n - q };
            }
        }
        for j in 0..m {
            self.cells[(p + j) as usize] = Cell { value: sequence(p + m + j * n, n), next: p + j + 1, run: m - j };
        }
        sequence(p, m)
    }

    /// One application of the form i.
    #[inline(always)]
    fn apply(&mut self, i: u32, v: u64) -> u64 {
        let f = self.form(i);
        self.apply_form(f, v)
    }
    #[inline(always)]
    pub fn apply_form(&mut self, f: Form, v: u64) -> u64 {
        if self.step() {
            self.steps = 0;
            return STOP | 22;
        }
        if f.kind <= CONSTANT { self.leaf(f.kind, f.a, f.value, v) } else { self.compound(f, v) }
    }

    /// A form with parts, its step charged. The last application that it makes is made in its place.
    fn compound(&mut self, f: Form, v: u64) -> u64 {
        let (mut f, mut v) = (f, v);
        macro_rules! go_on {
            ($e:expr) => {{
                let x = $e;
                if x >= STOP {
                    return x;
                }
                x
            }};
        }
        loop {
            match f.kind {
                CHAIN => {
                    let mut g = self.form(f.a);
                    while g.link != NONE {
                        v = go_on!(self.apply_form(g, v));
                        g = self.form(g.link as u32);
                    }
                    f = g;
                }
                TWO => {
                    let g = self.form(f.a);
                    let a = go_on!(self.apply_form(g, v));
                    let b = go_on!(self.apply(g.link as u32, v));
                    return self.pair(a, b);
                }
                CONDITION => {
                    let b = go_on!(self.apply(f.a, v));
                    let value = f.value;
                    f = if b == T {
                        self.form(value as u32)
                    } else if b == F {
                        self.form((value >> 32) as u32)
                    } else {
                        return BOTTOM;
                    };
                }
                NAME => {
                    if f.a == NONE as u32 {
                        return BOTTOM;
                    }
                    if self.names == 0 {
                        return STOP | 23;
                    }
                    self.names -= 1;
                    let r = self.apply(f.a, v);
                    self.names += 1;
                    return r;
                }
                MANY => {
                    let n = f.value as u32;
                    let base = self.top;
                    let mut i = f.a;
                    for q in 0..n {
                        let g = self.form(i);
                        let r = go_on!(self.apply_form(g, v));
                        self.ring.put(base + q, r);
                        self.top = base + q + 1;
                        i = g.link as u32;
                    }
                    self.top = base;
                    return self.collect(base, n);
                }
                ALL => {
                    if !is_sequence(v) {
                        return BOTTOM;
                    }
                    let n = size(v);
                    if n == 0 {
                        return v;
                    }
                    let g = self.form(f.a);
                    let base = self.top;
                    let mut s = start(v);
                    for q in 0..n {
                        let c = self.cell(s);
                        let r = go_on!(self.apply_form(g, c.value));
                        self.ring.put(base + q, r);
                        self.top = base + q + 1;
                        s = c.next;
                    }
                    self.top = base;
                    return self.collect(base, n);
                }
                INSERT => {
                    if !is_sequence(v) || size(v) == 0 {
                        return BOTTOM;
                    }
                    return self.insert(f.a, v);
                }
                WHILE => {
                    let (p, g) = (self.form(f.a), self.form(f.value as u32));
                    loop {
                        let b = go_on!(self.apply_form(p, v));
                        if b == F {
                            return v;
                        }
                        if b != T {
                            return BOTTOM;
                        }
                        v = go_on!(self.apply_form(g, v));
                    }
                }
                BU => {
                    v = go_on!(self.pair(f.value, v));
                    f = self.form(f.a);
                }
                _ => {
                    let a = go_on!(self.apply(f.a, v));
                    let p = self.take(1);
                    if p == u32::MAX {
                        return STOP | 24;
                    }
                    self.cells[p as usize] = Cell { value: a, next: 0, run: 1 };
                    return sequence(p, 1);
                }
            }
            if self.step() {
                self.steps = 0;
                return STOP | 22;
            }
            if f.kind <= CONSTANT {
                return self.leaf(f.kind, f.a, f.value, v);
            }
        }
    }

    #[inline(never)]
    fn collect(&mut self, base: u32, n: u32) -> u64 {
        let p = self.take(n);
        if p == u32::MAX {
            return STOP | 24;
        }
        gather(self.cells, self.ring, base, p, n)
    }

    /// From the right. Where places do not lie side by side, they wait in the ring.
    #[inline(never)]
    fn insert(&mut self, g: u32, v: u64) -> u64 {
        let n = size(v);
        let s = start(v);
        let g = self.form(g);
        let mut x = self.place_of(v, n - 1);
        let side_by_side = self.cell(s).run >= n;
        let base = self.top;
        if !side_by_side {
            let mut i = s;
            for q in 0..n {
                let c = self.cell(i);
                self.ring.put(base + q, c.value);
                i = c.next;
            }
        }
        for q in (0..n - 1).rev() {
            let p = self.take(2);
            if p == u32::MAX {
                return STOP | 24;
            }
            let y = if side_by_side {
                self.cell(s + q).value
            } else {
                self.top = base + q;
                self.ring.get(base + q)
            };
            let z = self.set_pair(p, y, x);
            x = self.apply_form(g, z);
            if x >= STOP {
                return x;
            }
        }
        self.top = base;
        x
    }
}
