//! Nanoseconds a byte for reading programs of up to 8 KB and objects of 16 KB: the proved readers, linked from their static library,
//! beside the plain reader of reference.rs and the strong one of strong/, in one run. All answer the same numbers; each time is the
//! best of many rounds.
mod reference;
mod strong;

use std::hint::black_box;
use std::time::Instant;

extern "C" {
    fn nattglod_read_program(
        s: *const u8, s_len: usize, forms: *mut u32, forms_len: usize, cells: *mut u32, cells_len: usize, definitions: *mut u32, definitions_len: usize,
    ) -> u64;
    fn nattglod_read_object(s: *const u8, s_len: usize, cells: *mut u32, cells_len: usize) -> u64;
}

/// The tables that a caller lends.
struct Lent {
    forms: Vec<u32>,
    cells: Vec<u32>,
    definitions: Vec<u32>,
}

fn proved_program(s: &[u8], l: &mut Lent) -> u64 {
    unsafe {
        nattglod_read_program(
            s.as_ptr(), s.len(), l.forms.as_mut_ptr(), l.forms.len(), l.cells.as_mut_ptr(), l.cells.len(), l.definitions.as_mut_ptr(), l.definitions.len(),
        )
    }
}

fn proved_object(s: &[u8], l: &mut Lent) -> u64 {
    unsafe { nattglod_read_object(s.as_ptr(), s.len(), l.cells.as_mut_ptr(), l.cells.len()) }
}

fn refused((number, place): (u32, usize)) -> u64 {
    (number as u64) << 32 | place as u64
}

fn forms(f: &reference::Form) -> u64 {
    use reference::Form::*;
    1 + match f {
        Chain(fs) | Cons(fs) => fs.iter().map(forms).sum(),
        Insert(g) | All(g) | Bu(g, _) => forms(g),
        Cond(p, g, h) => forms(p) + forms(g) + forms(h),
        While(p, g) => forms(p) + forms(g),
        _ => 0,
    }
}

fn plain_program(s: &[u8]) -> u64 {
    match reference::read_program(s) {
        Ok(p) => 20 << 32 | p.defs.iter().map(|(_, f)| forms(f)).sum::<u64>(),
        Err(e) => refused(e),
    }
}

fn plain_object(s: &[u8]) -> u64 {
    match reference::read_object(s) {
        Ok(x) => 20 << 32 | reference::cells_of(&x) as u64,
        Err(e) => refused(e),
    }
}

/// The strong reader keeps 4,096 waiting values, as many as a call can need; of a longer sequence it counts all and keeps the last.
fn strong_program(s: &[u8], l: &mut Lent) -> u64 {
    match strong::read_program(s, &mut l.forms, &mut l.cells) {
        Ok((forms, _)) => 20 << 32 | forms as u64,
        Err((number, place)) => refused((number, place as usize)),
    }
}

fn strong_object(s: &[u8], l: &mut Lent) -> u64 {
    match strong::read_object(s, &mut l.forms, &mut l.cells) {
        Ok(cells) => 20 << 32 | cells as u64,
        Err((number, place)) => refused((number, place as usize)),
    }
}

/// `open`, pieces by turns as long as there is room (with their number for each `#`), `close`, and blanks up to `size` bytes.
fn filled(size: usize, open: &str, pieces: &[&str], close: &str) -> Vec<u8> {
    let mut text = open.to_string();
    for i in 0.. {
        let piece = pieces[i % pieces.len()].replace('#', &i.to_string());
        if text.len() + piece.len() + close.len() > size {
            break;
        }
        text += &piece;
    }
    text += close;
    text += &" ".repeat(size - text.len());
    text.into_bytes()
}

/// Rules as a server writes them: sums, choices, loops and constants in about a hundred definitions.
fn rules() -> Vec<u8> {
    let pieces = [
        "total#=/add.@mul.trans.[1,distl.[%WINDOW,id]].(null.tl->rotl;apndr.[tlr,1r]);\n",
        "last#=(null.tl->1;last#.tl).[(eq.[length,%31]->%<>;reverse),2.3,nearest#];\n",
        "nearest#=(lt.[sub.[1,2],%604800]->apndl;2).[1r,tl.reverse,(and.[atom,id]->3;or)];\n",
        "plan#=@(atom->[id,%<OPEN,0>];{apndl,<SHUT,-15>}.tlr).@distr.[id,%<<7,30,OPEN>,<8,15,SHUT>,<12,0,OPEN>,<13,30,SHUT>,<19,45,OPEN>,<22,0,SHUT>>];\n",
        "countdown#=(not.eq.[id,%0] ? sub.[id,%1]).div.[mul.[length,%1440],add.[%86400,2r]];\n",
    ];
    filled(8192, "main=plan3.total0;\n", &pieces, "")
}

/// A long construction as the first part of 32 chains in each other: its records move 32 times.
fn nested_chains() -> Vec<u8> {
    filled(8192, &format!("main={}[", "(".repeat(31)), &["255r,"], &format!("id]{}.id;", ".tl)".repeat(31)))
}

/// A day: rows of words and numbers.
fn day() -> Vec<u8> {
    filled(16384, "<", &["<OPEN,#,<12,-3>>,", "<SHUT,<ROOM4,2147483647>,<>>,", "<KITCHEN,1,2,3,4,<5,<6>>>,"], "END>")
}

/// 128 definitions, and 1,870 times a name that none of them has.
fn many_names() -> Vec<u8> {
    let defined = |i: usize| format!("{}{}=1;", (b'u' + (i / 26) as u8) as char, (b'a' + (i % 26) as u8) as char);
    format!("{}main=[{}];", (0..127).map(defined).collect::<String>(), vec!["zz"; 1870].join(",")).into_bytes()
}

/// 31 conditions in each other, the question of each a chain, round a long construction: it moves 62 times.
fn moved() -> Vec<u8> {
    format!("main={}[{}1]{};", "(".repeat(31), "1,".repeat(1850), ".1->1;1)".repeat(31)).into_bytes()
}

/// The least nanoseconds of one call of each, over short rounds that go by turns, so that other work on the machine disturbs no
/// reader's best round.
fn time(readers: &mut [&mut dyn FnMut() -> u64; 3]) -> [f64; 3] {
    let mut best = [f64::MAX; 3];
    for _ in 0..1000 {
        for (reader, best) in readers.iter_mut().zip(&mut best) {
            let start = Instant::now();
            for _ in 0..5 {
                black_box(reader());
            }
            *best = best.min(start.elapsed().as_nanos() as f64 / 5.0);
        }
    }
    best
}

fn report(what: &str, size: usize, [proved, plain, strong]: [f64; 3]) {
    let n = size as f64;
    println!("{what:<68} {:>7.2} {:>7.2} {:>7.2} {:>8.2} {:>8.2}", proved / n, plain / n, strong / n, proved / plain, proved / strong);
}

fn time_program(what: &str, text: Vec<u8>, lent: &mut [Lent; 2]) {
    let [l, k] = lent;
    let answer = plain_program(&text);
    assert_eq!(proved_program(&text, l), answer, "the proved reader reads {what} like the plain one");
    assert_eq!(strong_program(&text, k), answer, "the strong reader reads {what} like the plain one");
    assert_eq!(answer >> 32, 20, "{what} is a program");
    let what = format!("program, {} bytes, {} forms: {what}", text.len(), answer & 0xffff_ffff);
    let mut plain = || reference::read_program(black_box(&text)).map_or(0, |p| p.defs.len() as u64);
    let (mut proved, mut strong) = (|| proved_program(black_box(&text), l), || strong_program(black_box(&text), k));
    report(&what, text.len(), time(&mut [&mut proved, &mut plain, &mut strong]));
}

fn time_object(what: &str, text: Vec<u8>, lent: &mut [Lent; 2]) {
    let [l, k] = lent;
    let answer = plain_object(&text);
    assert_eq!(proved_object(&text, l), answer, "the proved reader reads {what} like the plain one");
    assert_eq!(strong_object(&text, k), answer, "the strong reader reads {what} like the plain one");
    assert_eq!(answer >> 32, 20, "{what} is an object");
    let what = format!("object, {} bytes, {} cells: {what}", text.len(), answer & 0xffff_ffff);
    let mut plain = || reference::read_object(black_box(&text)).map_or(0, |_| 1);
    let (mut proved, mut strong) = (|| proved_object(black_box(&text), l), || strong_object(black_box(&text), k));
    report(&what, text.len(), time(&mut [&mut proved, &mut plain, &mut strong]));
}

fn main() {
    let lent = || Lent { forms: vec![0; 8192], cells: vec![0; 32768], definitions: vec![0; 512] };
    let mut l = [lent(), lent()];
    println!("{:<68} {:>7} {:>7} {:>7} {:>8} {:>8}", "nanoseconds a byte", "proved", "plain", "strong", "/ plain", "/ strong");
    time_program("rules", rules(), &mut l);
    time_program("names", filled(8192, "main=id", &[".household", ".window4", ".tl"], ";"), &mut l);
    time_program("names of three letters", filled(8192, "main=id", &[".zzz"], ";"), &mut l);
    time_program("the word `or`", format!("main=or{};", ".or".repeat(2045)).into_bytes(), &mut l);
    time_program("the last word of the table", filled(8192, "main=id", &[".trans"], ";"), &mut l);
    time_program("128 definitions", (0..128).map(|i| format!("n{i}={}id;", "@".repeat(i % 31))).collect::<String>().into_bytes(), &mut l);
    time_program("1,870 names, 128 definitions", many_names(), &mut l);
    time_program("a construction in 32 chains", nested_chains(), &mut l);
    time_program("a construction that moves 62 times", moved(), &mut l);
    time_object("a day", day(), &mut l);
    time_object("one-digit numbers", filled(16384, "<", &["7,"], "7>"), &mut l);
    time_object("ten-digit numbers", filled(16384, "<", &["-2147483648,"], "7>"), &mut l);
    time_object("words", filled(16384, "<", &["ABCDEFGHIJKL,"], "A>"), &mut l);
    time_object("empty sequences", filled(16384, "<", &["<>,"], "<>>"), &mut l);
}
