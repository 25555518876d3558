//! A plain Rust implementation of document 01: reader, metered evaluator and writer. It shares no line with the proved code;
//! the benchmarks run beside it, and its answers are compared with the proved ones.
#![allow(dead_code)]

use std::collections::HashMap;
use std::rc::Rc;

#[derive(Clone, Debug, PartialEq)]
pub enum Obj {
    Int(i64),
    Sym(Rc<str>),
    Seq(Rc<[Obj]>),
}

#[derive(Clone, Copy, Debug, PartialEq)]
pub enum Op {
    Id, Tl, Atom, Null, Eq, Lt, Length, Add, Sub, Mul, Div, And, Or, Not, Apndl, Tlr, Reverse, Rotl, Rotr, Apndr, Distl, Distr, Trans,
}

const WORDS: [(&str, Op); 23] = [
    ("id", Op::Id), ("tl", Op::Tl), ("atom", Op::Atom), ("null", Op::Null), ("eq", Op::Eq), ("lt", Op::Lt), ("length", Op::Length),
    ("add", Op::Add), ("sub", Op::Sub), ("mul", Op::Mul), ("div", Op::Div), ("and", Op::And), ("or", Op::Or), ("not", Op::Not),
    ("apndl", Op::Apndl), ("tlr", Op::Tlr), ("reverse", Op::Reverse), ("rotl", Op::Rotl), ("rotr", Op::Rotr), ("apndr", Op::Apndr),
    ("distl", Op::Distl), ("distr", Op::Distr), ("trans", Op::Trans),
];

#[derive(Clone, Debug)]
pub enum Form {
    Op(Op),
    Sel(usize),
    SelR(usize),
    Name(String),
    Chain(Vec<Form>),
    Cons(Vec<Form>),
    Const(Obj),
    Insert(Box<Form>),
    All(Box<Form>),
    Bu(Box<Form>, Obj),
    Cond(Box<Form>, Box<Form>, Box<Form>),
    While(Box<Form>, Box<Form>),
}

/// A refusal: number and place.
pub type Read<T> = Result<T, (u32, usize)>;

pub struct Reader<'a> {
    s: &'a [u8],
    at: usize,
    forms: usize,
}

fn word_byte(b: u8) -> bool {
    b.is_ascii_alphanumeric()
}

impl<'a> Reader<'a> {
    pub fn new(s: &'a [u8]) -> Self {
        Reader { s, at: 0, forms: 0 }
    }

    /// Passes blanks; place and end of the next token, which is not taken.
    fn peek(&mut self) -> (usize, usize) {
        while self.at < self.s.len() && (self.s[self.at] == b' ' || self.s[self.at] == b'\n') {
            self.at += 1;
        }
        let p = self.at;
        if p == self.s.len() {
            return (p, p);
        }
        let run = |mut e: usize| {
            while e < self.s.len() && word_byte(self.s[e]) {
                e += 1;
            }
            e
        };
        let b = self.s[p];
        let next = self.s.get(p + 1).copied().unwrap_or(0);
        let e = if word_byte(b) {
            run(p)
        } else if b == b'-' && next.is_ascii_digit() {
            run(p + 1)
        } else if b == b'-' && next == b'>' {
            p + 2
        } else {
            p + 1
        };
        (p, e)
    }

    fn refuse<T>(&self, p: usize, e: usize) -> Read<T> {
        if p < e && self.s[p].is_ascii_alphabetic() && e - p > 12 {
            return Err((9, p));
        }
        Err((6, p))
    }

    fn expect(&mut self, mark: &[u8]) -> Read<()> {
        let (p, e) = self.peek();
        if &self.s[p..e] != mark {
            return self.refuse(p, e);
        }
        self.at = e;
        Ok(())
    }

    fn open(&mut self, p: usize, e: usize, room: u32) -> Read<u32> {
        if room == 0 {
            return Err((7, p));
        }
        self.at = e;
        Ok(room - 1)
    }

    fn number(&self, ds: &[u8], neg: bool, p: usize) -> Read<i64> {
        if !ds.iter().all(|b| b.is_ascii_digit()) {
            return Err((6, p));
        }
        if ds[0] == b'0' && (neg || ds.len() > 1) {
            return Err((8, p));
        }
        let mut v: i64 = 0;
        for b in ds {
            v = v * 10 + (b - b'0') as i64;
            if v > 2147483648 {
                return Err((8, p));
            }
        }
        if !neg && v > 2147483647 {
            return Err((8, p));
        }
        Ok(if neg { -v } else { v })
    }

    pub fn object(&mut self, room: u32) -> Read<Obj> {
        let (p, e) = self.peek();
        let w = &self.s[p..e];
        if w.is_empty() {
            return Err((6, p));
        }
        let b = w[0];
        if b == b'<' {
            let room = self.open(p, e, room)?;
            let (q, f) = self.peek();
            if &self.s[q..f] == b">" {
                self.at = f;
                return Ok(Obj::Seq(Rc::from(Vec::new())));
            }
            let mut items = Vec::new();
            loop {
                items.push(self.object(room)?);
                let (q, f) = self.peek();
                match &self.s[q..f] {
                    b"," => self.at = f,
                    b">" => {
                        self.at = f;
                        return Ok(Obj::Seq(Rc::from(items)));
                    }
                    _ => return self.refuse(q, f),
                }
            }
        }
        let x = if b.is_ascii_digit() {
            Obj::Int(self.number(w, false, p)?)
        } else if b.is_ascii_alphabetic() {
            if w.len() > 12 {
                return Err((9, p));
            }
            if !w.iter().all(|b| b.is_ascii_uppercase() || b.is_ascii_digit()) {
                return Err((6, p));
            }
            Obj::Sym(Rc::from(std::str::from_utf8(w).unwrap()))
        } else if b == b'-' && w.len() > 1 && w[1].is_ascii_digit() {
            Obj::Int(self.number(&w[1..], true, p)?)
        } else {
            return Err((6, p));
        };
        self.at = e;
        Ok(x)
    }

    fn at_end(&mut self) -> Read<()> {
        let (p, e) = self.peek();
        if p == self.s.len() { Ok(()) } else { self.refuse(p, e) }
    }

    pub fn form(&mut self, room: u32) -> Read<Form> {
        let first = self.part(room)?;
        let mut parts = vec![first];
        loop {
            let (p, e) = self.peek();
            if &self.s[p..e] != b"." {
                break;
            }
            self.at = e;
            parts.push(self.part(room)?);
        }
        if parts.len() == 1 {
            return Ok(parts.pop().unwrap());
        }
        self.forms += 1;
        Ok(Form::Chain(parts))
    }

    fn part(&mut self, room: u32) -> Read<Form> {
        let (p, e) = self.peek();
        let w: &[u8] = &self.s[p..e];
        if w.is_empty() {
            return Err((6, p));
        }
        let b = w[0];
        if b == b'(' {
            return self.round(p, e, room);
        }
        let form = match b {
            b'[' => {
                let room = self.open(p, e, room)?;
                let mut items = Vec::new();
                loop {
                    items.push(self.form(room)?);
                    let (q, f) = self.peek();
                    match &self.s[q..f] {
                        b"," => self.at = f,
                        b"]" => {
                            self.at = f;
                            break Form::Cons(items);
                        }
                        _ => return self.refuse(q, f),
                    }
                }
            }
            b'%' => {
                let room = self.open(p, e, room)?;
                Form::Const(self.object(room)?)
            }
            b'/' => {
                let room = self.open(p, e, room)?;
                Form::Insert(Box::new(self.part(room)?))
            }
            b'@' => {
                let room = self.open(p, e, room)?;
                Form::All(Box::new(self.part(room)?))
            }
            b'{' => {
                let room = self.open(p, e, room)?;
                let f = self.part(room)?;
                self.expect(b",")?;
                let x = self.object(room)?;
                self.expect(b"}")?;
                Form::Bu(Box::new(f), x)
            }
            _ => self.plain(p, e)?,
        };
        self.forms += 1;
        Ok(form)
    }

    fn round(&mut self, p: usize, e: usize, room: u32) -> Read<Form> {
        let room = self.open(p, e, room)?;
        let test = self.form(room)?;
        let (q, f) = self.peek();
        match &self.s[q..f] {
            b")" => {
                self.at = f;
                Ok(test)
            }
            b"->" => {
                self.at = f;
                let yes = self.form(room)?;
                self.expect(b";")?;
                let no = self.form(room)?;
                self.expect(b")")?;
                self.forms += 1;
                Ok(Form::Cond(Box::new(test), Box::new(yes), Box::new(no)))
            }
            b"?" => {
                self.at = f;
                let body = self.form(room)?;
                self.expect(b")")?;
                self.forms += 1;
                Ok(Form::While(Box::new(test), Box::new(body)))
            }
            _ => self.refuse(q, f),
        }
    }

    fn lower(&self, p: usize, e: usize) -> Read<&'a str> {
        let w = &self.s[p..e];
        if w.len() > 12 {
            return Err((9, p));
        }
        if !w.iter().all(|b| b.is_ascii_lowercase() || b.is_ascii_digit()) {
            return Err((6, p));
        }
        Ok(std::str::from_utf8(w).unwrap())
    }

    fn plain(&mut self, p: usize, e: usize) -> Read<Form> {
        let w = &self.s[p..e];
        let form = if w[0].is_ascii_digit() {
            let right = w[w.len() - 1] == b'r';
            let ds = if right { &w[..w.len() - 1] } else { w };
            if !ds.iter().all(|b| b.is_ascii_digit()) {
                return Err((6, p));
            }
            if ds[0] == b'0' || ds.len() > 3 {
                return Err((8, p));
            }
            let k = ds.iter().fold(0usize, |v, b| v * 10 + (b - b'0') as usize);
            if k > 255 {
                return Err((8, p));
            }
            if right { Form::SelR(k) } else { Form::Sel(k) }
        } else if w[0].is_ascii_alphabetic() {
            let w = self.lower(p, e)?;
            match WORDS.iter().find(|(n, _)| *n == w) {
                Some((_, o)) => Form::Op(*o),
                None => Form::Name(w.to_string()),
            }
        } else {
            return Err((6, p));
        };
        self.at = e;
        Ok(form)
    }
}

pub struct Program {
    pub defs: Vec<(String, Form)>,
    pub index: HashMap<String, usize>,
}

pub fn read_program(s: &[u8]) -> Read<Program> {
    let mut r = Reader::new(s);
    let mut defs = Vec::new();
    let mut index = HashMap::new();
    let mut twice = None;
    loop {
        let (p, e) = r.peek();
        if p == s.len() {
            break;
        }
        if !s[p].is_ascii_alphabetic() {
            return Err((6, p));
        }
        let name = r.lower(p, e)?;
        if WORDS.iter().any(|(n, _)| *n == name) {
            return Err((6, p));
        }
        r.at = e;
        r.expect(b"=")?;
        let body = r.form(32)?;
        r.expect(b";")?;
        if index.contains_key(name) {
            twice = twice.or(Some(p));
        } else {
            index.insert(name.to_string(), defs.len());
        }
        defs.push((name.to_string(), body));
    }
    if r.forms > 2048 || defs.len() > 128 {
        return Err((10, 0));
    }
    match twice {
        Some(p) => Err((11, p)),
        None => Ok(Program { defs, index }),
    }
}

pub fn read_object(s: &[u8]) -> Read<Obj> {
    let mut r = Reader::new(s);
    let x = r.object(32)?;
    r.at_end()?;
    Ok(x)
}

// ---- cells

pub fn cells_of(x: &Obj) -> usize {
    match x {
        Obj::Seq(xs) => xs.iter().map(|y| 1 + cells_of(y)).sum(),
        _ => 0,
    }
}

pub fn constant_cells(f: &Form) -> usize {
    match f {
        Form::Chain(fs) | Form::Cons(fs) => fs.iter().map(constant_cells).sum(),
        Form::Const(x) => cells_of(x),
        Form::Insert(f) | Form::All(f) => constant_cells(f),
        Form::Bu(f, x) => constant_cells(f) + cells_of(x),
        Form::Cond(p, f, g) => constant_cells(p) + constant_cells(f) + constant_cells(g),
        Form::While(p, f) => constant_cells(p) + constant_cells(f),
        _ => 0,
    }
}

// ---- evaluation

/// 21 bottom; 22, 23, 24 a spent budget.
pub type Eval<T> = Result<T, u32>;

pub struct Machine<'a> {
    pub program: &'a Program,
    pub steps: u64,
    pub names: u64,
    pub cells: u64,
}

fn pair(a: Obj, b: Obj) -> Obj {
    Obj::Seq(Rc::from(vec![a, b]))
}

fn truth(b: bool) -> Obj {
    Obj::Sym(Rc::from(if b { "T" } else { "F" }))
}

fn as_truth(x: &Obj) -> Eval<bool> {
    match x {
        Obj::Sym(s) if &**s == "T" => Ok(true),
        Obj::Sym(s) if &**s == "F" => Ok(false),
        _ => Err(21),
    }
}

fn as_seq(x: &Obj) -> Eval<&Rc<[Obj]>> {
    match x {
        Obj::Seq(xs) => Ok(xs),
        _ => Err(21),
    }
}

fn as_pair(x: &Obj) -> Eval<(&Obj, &Obj)> {
    match x {
        Obj::Seq(xs) if xs.len() == 2 => Ok((&xs[0], &xs[1])),
        _ => Err(21),
    }
}

fn as_ints(x: &Obj) -> Eval<(i64, i64)> {
    match as_pair(x)? {
        (Obj::Int(a), Obj::Int(b)) => Ok((*a, *b)),
        _ => Err(21),
    }
}

fn number(v: i64) -> Eval<Obj> {
    if (-2147483648..=2147483647).contains(&v) { Ok(Obj::Int(v)) } else { Err(21) }
}

impl<'a> Machine<'a> {
    fn step(&mut self) -> Eval<()> {
        if self.steps == 0 {
            return Err(22);
        }
        self.steps -= 1;
        Ok(())
    }

    fn take(&mut self, n: usize) -> Eval<()> {
        if self.cells < n as u64 {
            return Err(24);
        }
        self.cells -= n as u64;
        Ok(())
    }

    fn make(&mut self, n: usize, xs: Vec<Obj>) -> Eval<Obj> {
        self.take(n)?;
        Ok(Obj::Seq(Rc::from(xs)))
    }

    fn same(&mut self, a: &Obj, b: &Obj) -> Eval<bool> {
        self.step()?;
        match (a, b) {
            (Obj::Seq(xs), Obj::Seq(ys)) => {
                for (x, y) in xs.iter().zip(ys.iter()) {
                    if !self.same(x, y)? {
                        return Ok(false);
                    }
                }
                Ok(xs.len() == ys.len())
            }
            (Obj::Int(m), Obj::Int(n)) => Ok(m == n),
            (Obj::Sym(s), Obj::Sym(t)) => Ok(s == t),
            _ => Ok(false),
        }
    }

    fn word(&mut self, o: Op, x: Obj) -> Eval<Obj> {
        match o {
            Op::Id => Ok(x),
            Op::Tl => {
                let xs = as_seq(&x)?;
                if xs.is_empty() {
                    return Err(21);
                }
                Ok(Obj::Seq(Rc::from(&xs[1..])))
            }
            Op::Atom => Ok(truth(match &x { Obj::Seq(xs) => xs.is_empty(), _ => true })),
            Op::Null => Ok(truth(match &x { Obj::Seq(xs) => xs.is_empty(), _ => false })),
            Op::Eq => {
                let (a, b) = as_pair(&x)?;
                Ok(truth(self.same(a, b)?))
            }
            Op::Lt => {
                let (a, b) = as_ints(&x)?;
                Ok(truth(a < b))
            }
            Op::Length => Ok(Obj::Int(as_seq(&x)?.len() as i64)),
            Op::Add => { let (a, b) = as_ints(&x)?; number(a + b) }
            Op::Sub => { let (a, b) = as_ints(&x)?; number(a - b) }
            Op::Mul => { let (a, b) = as_ints(&x)?; number(a * b) }
            Op::Div => {
                let (a, b) = as_ints(&x)?;
                if b == 0 { Err(21) } else { number(a / b) }
            }
            Op::And => { let (a, b) = as_pair(&x)?; Ok(truth(as_truth(a)? & as_truth(b)?)) }
            Op::Or => { let (a, b) = as_pair(&x)?; Ok(truth(as_truth(a)? | as_truth(b)?)) }
            Op::Not => Ok(truth(!as_truth(&x)?)),
            Op::Apndl => {
                let (a, b) = as_pair(&x)?;
                let ys = as_seq(b)?;
                let mut out = Vec::with_capacity(ys.len() + 1);
                out.push(a.clone());
                out.extend_from_slice(ys);
                self.make(1, out)
            }
            Op::Apndr => {
                let (a, b) = as_pair(&x)?;
                let xs = as_seq(a)?;
                let mut out = xs.to_vec();
                out.push(b.clone());
                self.make(out.len(), out)
            }
            Op::Tlr => {
                let xs = as_seq(&x)?;
                if xs.is_empty() {
                    return Err(21);
                }
                self.make(xs.len() - 1, xs[..xs.len() - 1].to_vec())
            }
            Op::Reverse => {
                let mut out = as_seq(&x)?.to_vec();
                out.reverse();
                self.make(out.len(), out)
            }
            Op::Rotl => {
                let mut out = as_seq(&x)?.to_vec();
                if !out.is_empty() {
                    out.rotate_left(1);
                }
                self.make(out.len(), out)
            }
            Op::Rotr => {
                let mut out = as_seq(&x)?.to_vec();
                if !out.is_empty() {
                    out.rotate_right(1);
                }
                self.make(out.len(), out)
            }
            Op::Distl => {
                let (a, b) = as_pair(&x)?;
                let ys = as_seq(b)?;
                self.take(3 * ys.len())?;
                Ok(Obj::Seq(ys.iter().map(|y| pair(a.clone(), y.clone())).collect()))
            }
            Op::Distr => {
                let (a, b) = as_pair(&x)?;
                let xs = as_seq(a)?;
                self.take(3 * xs.len())?;
                Ok(Obj::Seq(xs.iter().map(|x| pair(x.clone(), b.clone())).collect()))
            }
            Op::Trans => {
                let rows = as_seq(&x)?;
                if rows.is_empty() {
                    return Err(21);
                }
                let m = as_seq(&rows[0])?.len();
                for r in rows.iter() {
                    if as_seq(r)?.len() != m {
                        return Err(21);
                    }
                }
                self.take(m + m * rows.len())?;
                Ok(Obj::Seq((0..m).map(|j| Obj::Seq(rows.iter().map(|r| as_seq(r).unwrap()[j].clone()).collect())).collect()))
            }
        }
    }

    pub fn apply(&mut self, f: &'a Form, x: Obj) -> Eval<Obj> {
        self.step()?;
        match f {
            Form::Op(o) => self.word(*o, x),
            Form::Sel(k) => as_seq(&x)?.get(k - 1).cloned().ok_or(21),
            Form::SelR(k) => {
                let xs = as_seq(&x)?;
                if *k > xs.len() { Err(21) } else { Ok(xs[xs.len() - k].clone()) }
            }
            Form::Name(w) => {
                let Some(i) = self.program.index.get(w) else { return Err(21) };
                if self.names == 0 {
                    return Err(23);
                }
                self.names -= 1;
                let r = self.apply(&self.program.defs[*i].1, x);
                self.names += 1;
                r
            }
            Form::Chain(fs) => {
                let mut v = x;
                for g in fs.iter().rev() {
                    v = self.apply(g, v)?;
                }
                Ok(v)
            }
            Form::Cons(fs) => {
                let mut out = Vec::with_capacity(fs.len());
                for g in fs {
                    out.push(self.apply(g, x.clone())?);
                }
                self.make(out.len(), out)
            }
            Form::Const(c) => Ok(c.clone()),
            Form::Insert(g) => {
                let xs = as_seq(&x)?;
                if xs.is_empty() {
                    return Err(21);
                }
                let mut v = xs[xs.len() - 1].clone();
                for y in xs[..xs.len() - 1].iter().rev() {
                    self.take(2)?;
                    v = self.apply(g, pair(y.clone(), v))?;
                }
                Ok(v)
            }
            Form::All(g) => {
                let xs = as_seq(&x)?;
                let mut out = Vec::with_capacity(xs.len());
                for y in xs.iter() {
                    out.push(self.apply(g, y.clone())?);
                }
                self.make(out.len(), out)
            }
            Form::Bu(g, c) => {
                self.take(2)?;
                self.apply(g, pair(c.clone(), x))
            }
            Form::Cond(p, g, h) => {
                if as_truth(&self.apply(p, x.clone())?)? { self.apply(g, x) } else { self.apply(h, x) }
            }
            Form::While(p, g) => {
                let mut v = x;
                while as_truth(&self.apply(p, v.clone())?)? {
                    v = self.apply(g, v)?;
                }
                Ok(v)
            }
        }
    }
}

// ---- writing

/// The text, or 25 or 26.
pub fn write_object(x: &Obj, room: usize) -> Result<Vec<u8>, u32> {
    fn byte(out: &mut Vec<u8>, b: u8, room: usize) -> Result<(), u32> {
        if out.len() == room {
            return Err(25);
        }
        out.push(b);
        Ok(())
    }
    fn go(x: &Obj, open: u32, out: &mut Vec<u8>, room: usize) -> Result<(), u32> {
        match x {
            Obj::Int(v) => v.to_string().bytes().try_for_each(|b| byte(out, b, room)),
            Obj::Sym(s) => s.bytes().try_for_each(|b| byte(out, b, room)),
            Obj::Seq(xs) => {
                if open == 32 {
                    return Err(26);
                }
                byte(out, b'<', room)?;
                for (i, y) in xs.iter().enumerate() {
                    if i > 0 {
                        byte(out, b',', room)?;
                    }
                    go(y, open + 1, out, room)?;
                }
                byte(out, b'>', room)
            }
        }
    }
    let mut out = Vec::new();
    go(x, 0, &mut out, room.min(16384))?;
    Ok(out)
}

pub fn write_program(p: &Program) -> Vec<u8> {
    fn part(f: &Form, out: &mut Vec<u8>) {
        if let Form::Chain(_) = f {
            out.push(b'(');
            form(f, out);
            out.push(b')');
        } else {
            form(f, out);
        }
    }
    fn object(x: &Obj, out: &mut Vec<u8>) {
        match x {
            Obj::Int(v) => out.extend(v.to_string().bytes()),
            Obj::Sym(s) => out.extend(s.bytes()),
            Obj::Seq(xs) => {
                out.push(b'<');
                for (i, y) in xs.iter().enumerate() {
                    if i > 0 {
                        out.push(b',');
                    }
                    object(y, out);
                }
                out.push(b'>');
            }
        }
    }
    fn form(f: &Form, out: &mut Vec<u8>) {
        match f {
            Form::Op(o) => out.extend(WORDS.iter().find(|(_, p)| p == o).unwrap().0.bytes()),
            Form::Sel(k) => out.extend(k.to_string().bytes()),
            Form::SelR(k) => out.extend(format!("{k}r").bytes()),
            Form::Name(w) => out.extend(w.bytes()),
            Form::Chain(fs) => {
                for (i, g) in fs.iter().enumerate() {
                    if i > 0 {
                        out.push(b'.');
                    }
                    part(g, out);
                }
            }
            Form::Cons(fs) => {
                out.push(b'[');
                for (i, g) in fs.iter().enumerate() {
                    if i > 0 {
                        out.push(b',');
                    }
                    form(g, out);
                }
                out.push(b']');
            }
            Form::Const(x) => {
                out.push(b'%');
                object(x, out);
            }
            Form::Insert(g) => {
                out.push(b'/');
                part(g, out);
            }
            Form::All(g) => {
                out.push(b'@');
                part(g, out);
            }
            Form::Bu(g, x) => {
                out.push(b'{');
                part(g, out);
                out.push(b',');
                object(x, out);
                out.push(b'}');
            }
            Form::Cond(p, g, h) => {
                out.push(b'(');
                form(p, out);
                out.extend(b"->");
                form(g, out);
                out.push(b';');
                form(h, out);
                out.push(b')');
            }
            Form::While(p, g) => {
                out.push(b'(');
                form(p, out);
                out.push(b'?');
                form(g, out);
                out.push(b')');
            }
        }
    }
    let mut out = Vec::new();
    for (name, body) in &p.defs {
        out.extend(name.bytes());
        out.push(b'=');
        form(body, &mut out);
        out.push(b';');
    }
    out
}

// ---- the run call: the six numbers and the text

pub fn run(program: &[u8], object: &[u8], steps: u64, names: u64, cells: u64, room: usize) -> ([u32; 6], Vec<u8>) {
    let bare = |n: u32| ([n, 0, 0, 0, 0, 0], Vec::new());
    if program.len() > 8192 {
        return bare(1);
    }
    if object.len() > 16384 {
        return bare(2);
    }
    if steps > 1_000_000 {
        return bare(3);
    }
    if names > 256 {
        return bare(4);
    }
    if cells > 4096 {
        return bare(5);
    }
    let p = match read_program(program) {
        Err((n, p)) => return ([n, p as u32, 1, 0, 0, 0], Vec::new()),
        Ok(p) => p,
    };
    let x = match read_object(object) {
        Err((n, p)) => return ([n, p as u32, 2, 0, 0, 0], Vec::new()),
        Ok(x) => x,
    };
    let start: usize = p.defs.iter().map(|(_, f)| constant_cells(f)).sum::<usize>() + cells_of(&x);
    if start as u64 > cells {
        return bare(13);
    }
    let main = Form::Name("main".to_string());
    let mut m = Machine { program: &p, steps, names, cells: cells - start as u64 };
    let r = m.apply(&main, x);
    let s = (steps - m.steps) as u32;
    let c = (cells - m.cells) as u32;
    match r {
        Err(n) => ([n, 0, 0, s, c, 0], Vec::new()),
        Ok(v) => match write_object(&v, room) {
            Err(n) => ([n, 0, 0, s, c, 0], Vec::new()),
            Ok(t) => ([20, 0, 0, s, c, t.len() as u32], t),
        },
    }
}
