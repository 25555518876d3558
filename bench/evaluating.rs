//! The proved run call beside two in Rust, in one process: the plain one of reference.rs and the strong one of strong/. Each case is
//! run by all three, in turns; they must agree in all six numbers and the text. bench/run-evaluating builds and runs it.
mod cases;
mod reference;
mod strong;

use cases::Case;
use std::hint::black_box;

extern "C" {
    fn clock_gettime(clock: i32, time: *mut [i64; 2]) -> i32;
    fn nattglod_run(
        program: *const u8, program_length: usize, object: *const u8, object_length: usize, steps: u32, names: u32, cells: u32,
        forms: *mut u32, forms_length: usize, cell_table: *mut u32, cell_table_length: usize, output: *mut u8,
        output_length: usize, answer: *mut u32, answer_length: usize,
    );
}

/// The tables and the output that a caller lends.
struct Lent {
    forms: Vec<u32>,
    cells: Vec<u32>,
    output: Vec<u8>,
}

fn proved(case: &Case, l: &mut Lent) -> [u32; 6] {
    let mut answer = [0u32; 6];
    let [steps, names, cells] = case.budgets;
    let table = &mut l.cells[..4 * cells as usize];
    unsafe {
        nattglod_run(
            case.program.as_ptr(), case.program.len(), case.object.as_ptr(), case.object.len(), steps, names, cells,
            l.forms.as_mut_ptr(), l.forms.len(), table.as_mut_ptr(), table.len(), l.output.as_mut_ptr(), l.output.len(),
            answer.as_mut_ptr(), answer.len(),
        );
    }
    answer
}

fn plain(case: &Case) -> ([u32; 6], Vec<u8>) {
    let [steps, names, cells] = case.budgets.map(u64::from);
    reference::run(case.program.as_bytes(), case.object.as_bytes(), steps, names, cells, 16384)
}

fn strong(case: &Case, l: &mut Lent) -> [u32; 6] {
    let [steps, names, cells] = case.budgets;
    let table = &mut l.cells[..4 * cells as usize];
    strong::run(case.program.as_bytes(), case.object.as_bytes(), steps, names, cells, &mut l.forms, table, &mut l.output)
}

/// The answer of all three, which must agree.
fn agreed(case: &Case, l: &mut Lent) -> [u32; 6] {
    let (answer, text) = plain(case);
    for (who, run) in [("proved", proved as fn(&Case, &mut Lent) -> [u32; 6]), ("strong", strong)] {
        assert_eq!(run(case, l), answer, "{}, {who}", case.name);
        assert_eq!(&l.output[..text.len()], &text[..], "{}, {who}", case.name);
    }
    answer
}

/// Nanoseconds of the processor that this thread has had: other work on the machine does not count. The clock is Linux's third.
fn processor_time() -> f64 {
    let mut t = [0; 2];
    assert_eq!(unsafe { clock_gettime(3, &mut t) }, 0, "the thread's clock");
    t[0] as f64 * 1e9 + t[1] as f64
}

fn time(runs: usize, mut run: impl FnMut()) -> f64 {
    let start = processor_time();
    for _ in 0..runs {
        run();
    }
    (processor_time() - start) / runs as f64
}

/// Nanoseconds of one run: proved, plain and strong. Each is the least of so many rounds, which are taken in turns.
fn measured(case: &Case, rounds: usize, l: &mut Lent) -> [f64; 3] {
    let mut least = [f64::MAX; 3];
    for _ in 0..rounds {
        least[0] = least[0].min(time(case.runs, || _ = black_box(proved(black_box(case), l))));
        least[1] = least[1].min(time(case.runs, || _ = black_box(plain(black_box(case)))));
        least[2] = least[2].min(time(case.runs, || _ = black_box(strong(black_box(case), l))));
    }
    least
}

fn print_calls(l: &mut Lent) {
    println!("{:<30} {:>3} {:>7} {:>10} {:>10} {:>10} {:>8} {:>8}", "microseconds a call", "", "steps", "proved", "plain", "strong", "/ plain", "/ strong");
    for case in cases::calls() {
        let answer = agreed(&case, l);
        let [a, b, c] = measured(&case, 100, l);
        println!(
            "{:<30} {:>3} {:>7} {:>10.2} {:>10.2} {:>10.2} {:>8.2} {:>8.2}",
            case.name, answer[0], answer[3], a / 1000.0, b / 1000.0, c / 1000.0, a / b, a / c
        );
    }
}

fn print_long_steps(l: &mut Lent) {
    println!("\n{:<30} {:>3} {:>7} {:>10} {:>10} {:>10} {:>8} {:>8}", "nanoseconds a step", "", "steps", "proved", "plain", "strong", "/ plain", "/ strong");
    for case in cases::long_steps() {
        let answer = agreed(&case, l);
        let [a, b, c] = measured(&case, 10, l).map(|t| t / answer[3] as f64);
        println!("{:<30} {:>3} {:>7} {:>10.1} {:>10.1} {:>10.1} {:>8.2} {:>8.2}", case.name, answer[0], answer[3], a, b, c, a / b, a / c);
    }
}

fn main() {
    let work = || {
        let mut l = Lent { forms: vec![0; 8192], cells: vec![0; 16384], output: vec![0; 16384] };
        print_calls(&mut l);
        print_long_steps(&mut l);
    };
    std::thread::Builder::new().stack_size(64 << 20).spawn(work).unwrap().join().unwrap();
}
