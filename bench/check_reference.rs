//! Compares the two Rust implementations with stored answers: first with the outside vectors that the program vectors runs, then with
//! the replies of fprun that tests/fprun_inputs.py has. Its arguments are run.cases, inputs.cases and a file of the replies;
//! bench/check-reference runs it.
mod reference;
mod strong;

fn number(data: &[u8], at: usize) -> u32 {
    u32::from_le_bytes(data[at..at + 4].try_into().unwrap())
}

struct Call<'a> {
    program: &'a [u8],
    object: &'a [u8],
    steps: u32,
    names: u32,
    cells: u32,
    room: usize,
}

/// The six numbers and the text.
type Answer = ([u32; 6], Vec<u8>);

fn plain(c: &Call) -> Answer {
    reference::run(c.program, c.object, c.steps as u64, c.names as u64, c.cells as u64, c.room)
}

/// The strong implementation also has tables and an output, which must be as document 01 says.
fn strong_answer(c: &Call) -> Answer {
    let lent = if c.cells > 4096 { 0 } else { 4 * c.cells as usize };
    let (mut forms, mut cells, mut output) = (vec![7; 8192], vec![7; lent], vec![9; c.room]);
    let answer = strong::run(c.program, c.object, c.steps, c.names, c.cells, &mut forms, &mut cells, &mut output);
    let left = if answer[0] <= 5 { 7 } else { 0 };
    assert!(forms.iter().chain(&cells).all(|n| *n == left), "tables after {answer:?}");
    let n = answer[5] as usize;
    assert!(output[n..].iter().all(|b| *b == 9), "output behind the text after {answer:?}");
    (answer, output[..n].to_vec())
}

/// How many of the run cases there are, and how many are answered as stored.
fn check_runs(data: &[u8], run: impl Fn(&Call) -> Answer) -> (usize, usize) {
    let (mut at, mut all, mut good) = (0, 0, 0);
    while at < data.len() {
        let n: Vec<u32> = (0..13).map(|i| number(data, at + 4 * i)).collect();
        at += 52;
        let mut text = |length: u32| {
            at += length as usize;
            &data[at - length as usize..at]
        };
        let (program, object, expected) = (text(n[0]), text(n[1]), text(n[2]));
        let call = Call { program, object, steps: n[3], names: n[4], cells: n[5], room: n[6] as usize };
        let (answer, text) = run(&call);
        if answer[..] == n[7..] && text == expected {
            good += 1;
        } else {
            println!("case {all}: expected {:?}, answered {answer:?}", &n[7..]);
        }
        all += 1;
    }
    (all, good)
}

/// One to seven digits without a leading zero.
fn budget(s: &[u8]) -> Option<u32> {
    let short = !s.is_empty() && s.len() <= 7 && s.iter().all(u8::is_ascii_digit);
    if !short || s.len() > 1 && s[0] == b'0' { None } else { std::str::from_utf8(s).unwrap().parse().ok() }
}

/// The call in three lines, and nothing else.
fn call_of(input: &[u8]) -> Option<Call<'_>> {
    let lines: Vec<&[u8]> = input.split(|b| *b == b'\n').collect();
    if input.len() > 25000 || lines.len() != 4 || !lines[3].is_empty() {
        return None;
    }
    let budgets: Vec<&[u8]> = lines[0].split(|b| *b == b' ').collect();
    if budgets.len() != 3 {
        return None;
    }
    let (steps, names, cells) = (budget(budgets[0])?, budget(budgets[1])?, budget(budgets[2])?);
    Some(Call { program: lines[1], object: lines[2], steps, names, cells, room: 16384 })
}

fn reply(input: &[u8], run: &impl Fn(&Call) -> Answer) -> Vec<u8> {
    let Some(call) = call_of(input) else { return b"99\n".to_vec() };
    let (answer, text) = run(&call);
    let mut out = answer.map(|n| n.to_string()).join(" ").into_bytes();
    out.push(b'\n');
    if answer[0] == 20 {
        out.extend(text);
        out.push(b'\n');
    }
    out
}

/// How many inputs there are, and whether the replies to all of them are as stored.
fn check_inputs(data: &[u8], expected: &[u8], run: impl Fn(&Call) -> Answer) -> (usize, bool) {
    let (mut at, mut all, mut out) = (0, 0, Vec::new());
    while at < data.len() {
        let length = |at: usize| u16::from_le_bytes([data[at], data[at + 1]]) as usize;
        let (name, input) = (length(at), length(at + 2));
        at += 4;
        out.extend(&data[at..at + name]);
        out.push(b'\n');
        out.extend(reply(&data[at + name..at + name + input], &run));
        at += name + input;
        all += 1;
    }
    (all, out == expected)
}

fn check(what: &str, files: &[Vec<u8>], run: impl Fn(&Call) -> Answer) -> bool {
    let (all, good) = check_runs(&files[0], &run);
    println!("{what}: {all} cases, {good} agree");
    let (inputs, same) = check_inputs(&files[1], &files[2], &run);
    println!("{what}: {inputs} inputs of fprun, the replies {}", if same { "agree" } else { "DIFFER" });
    all == good && same
}

fn main() {
    let files: Vec<Vec<u8>> = std::env::args().skip(1).map(|path| std::fs::read(path).expect("a file of cases")).collect();
    let work = move || {
        let both = [check("plain Rust", &files, plain), check("strong Rust", &files, strong_answer)];
        std::process::exit(if both == [true, true] { 0 } else { 1 });
    };
    std::thread::Builder::new().stack_size(1 << 30).spawn(work).unwrap().join().unwrap();
}
