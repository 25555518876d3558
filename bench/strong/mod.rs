//! Document 01's run call in plain Rust, written to be fast: reader, metered evaluator and writer. It is the hard yardstick for the
//! proved code, as reference.rs is the plain one, and shares no line with either. There is no heap: forms and cells live in the tables
//! that the caller lends, and a scratch of 32 KiB on the stack, never cleared, holds waiting values and, at the end, the text before
//! it is known to fit. `unsafe` is used for that scratch, and to see a lent slice of u32 as records of 16 bytes; all indexing of cells
//! and forms is checked or masked.
//!
//! What makes it fast: a value is one u64, and so is an application's answer (a stop is a value out of range); words are classed,
//! packed and looked up eight bytes at a time; forms are written children first, so that no record moves; a sequence that is made at
//! once lies in cells side by side, and each cell says for how long, so that selecting is mostly one step.
mod evaluating;
mod reading;
mod values;
mod words;
mod writing;

use evaluating::Machine;
use reading::{Read, Reader};
use values::{Cell, Form, Scratch, FORMS, NAME, NONE, STOP};
use writing::Writer;

/// A lent table as records of 16 bytes.
#[inline(always)]
fn records<X>(t: &mut [u32]) -> &mut [X] {
    assert!(size_of::<X>() == 16 && align_of::<X>() == 4);
    unsafe { std::slice::from_raw_parts_mut(t.as_mut_ptr() as *mut X, t.len() / 4) }
}

fn reader<'a>(s: &'a [u8], forms: &'a mut [u32], cells: &'a mut [u32], ring: &'a mut Scratch) -> Reader<'a> {
    let forms: &mut [Form] = records(forms);
    Reader { s, at: 0, forms: forms.try_into().unwrap(), count: 0, cells: records(cells), used: 0, ring, names: NONE }
}

/// How many forms and cells a program has, or its refusal: number and place.
pub fn read_program(s: &[u8], forms: &mut [u32], cells: &mut [u32]) -> Result<(u32, u32), (u32, u32)> {
    let mut ring = Scratch::new();
    let mut r = reader(s, forms, cells, &mut ring);
    match r.program() {
        Ok(_) => Ok((r.count as u32, r.used as u32)),
        Err(e) => Err((e >> 16, e & 0xffff)),
    }
}

/// How many cells an object has, or its refusal.
pub fn read_object(s: &[u8], forms: &mut [u32], cells: &mut [u32]) -> Result<u32, (u32, u32)> {
    let mut ring = Scratch::new();
    let mut r = reader(s, forms, cells, &mut ring);
    whole_object(&mut r).map(|_| r.used as u32).map_err(|e| (e >> 16, e & 0xffff))
}

fn whole_object(r: &mut Reader) -> Read<u64> {
    let v = r.object(32)?;
    r.peek();
    if r.at != r.s.len() {
        return r.refuse();
    }
    Ok(v)
}

/// The answer of a call that is not refused by its lengths and budgets. The tables are left as they come.
fn answered(
    program: &[u8], object: &[u8], steps: u32, names: u32, forms: &mut [Form; FORMS], cells: &mut [Cell], output: &mut [u8],
) -> [u32; 6] {
    let mut scratch = Scratch::new();
    let mut r = Reader { s: program, at: 0, forms, count: 0, cells, used: 0, ring: &mut scratch, names: NONE };
    let main = match r.program() {
        Err(e) => return [e >> 16, e & 0xffff, 1, 0, 0, 0],
        Ok(main) => main,
    };
    let mut r = Reader { s: object, at: 0, ..r };
    let v = match whole_object(&mut r) {
        Err(e) => return [e >> 16, e & 0xffff, 2, 0, 0, 0],
        Ok(v) => v,
    };
    let used = r.used;
    if used > cells.len() {
        return [13, 0, 0, 0, 0, 0];
    }
    let mut m = Machine { forms, cells, used: used as u32, steps, names, top: 0, ring: &mut scratch };
    let main = Form { kind: NAME, pad: 0, link: NONE, a: main as u32, value: 0 };
    let v = m.apply_form(main, v);
    let (steps, used) = (steps - m.steps, m.used);
    if v >= STOP {
        return [v as u8 as u32, 0, 0, steps, used, 0];
    }
    let out = unsafe { &mut *(scratch.bytes() as *mut [u8; 32768]) };
    let mut w = Writer { cells, out, room: output.len().min(16384) };
    match w.object(v, 0, 0) {
        Err(n) => [n, 0, 0, steps, used, 0],
        Ok(n) => {
            output[..n].copy_from_slice(&w.out[..n]);
            [20, 0, 0, steps, used, n as u32]
        }
    }
}

/// The run call: its six numbers. Both tables are zero afterwards, except after 1 to 5.
pub fn run(
    program: &[u8], object: &[u8], steps: u32, names: u32, cells: u32, forms: &mut [u32], cell_table: &mut [u32], output: &mut [u8],
) -> [u32; 6] {
    let refusal = if program.len() > 8192 {
        1
    } else if object.len() > 16384 {
        2
    } else if steps > 1_000_000 {
        3
    } else if names > 256 {
        4
    } else if cells > 4096 || forms.len() != 8192 || cell_table.len() != 4 * cells as usize {
        5
    } else {
        0
    };
    if refusal != 0 {
        return [refusal, 0, 0, 0, 0, 0];
    }
    let records_of_forms: &mut [Form] = records(forms);
    let answer = answered(program, object, steps, names, records_of_forms.try_into().unwrap(), records(cell_table), output);
    forms.fill(0);
    cell_table.fill(0);
    answer
}
