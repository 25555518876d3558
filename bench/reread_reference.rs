//! What the program reread has to print, by the plain implementation in reference.rs: for each text the text written back, the
//! refusal, or that there is no room. Its arguments are texts.cases and short.cases; bench/make-reread runs it.
mod reference;

fn limit(kind: u32) -> usize {
    if kind == 1 { 8192 } else { 16384 }
}

/// What became of a text.
enum Reread {
    Back(Vec<u8>),
    Refused(u32, usize),
    NoRoom,
}

fn written(kind: u32, text: &[u8]) -> Result<Vec<u8>, (u32, usize)> {
    if text.len() > limit(kind) {
        return Err((kind, 0));
    }
    if kind == 1 {
        return Ok(reference::write_program(&reference::read_program(text)?));
    }
    let x = reference::read_object(text)?;
    Ok(reference::write_object(&x, 16384).expect("an object that was read can be written"))
}

fn reread(kind: u32, text: &[u8], room: usize) -> Reread {
    match written(kind, text) {
        Ok(back) if back.len() <= room => Reread::Back(back),
        Ok(_) => Reread::NoRoom,
        Err((number, place)) => Reread::Refused(number, place),
    }
}

/// The cases of a file; in front of a text stand its kind, its length and, in a short case, the room. A text that is cut short
/// ends the file.
fn print_file(path: &str, short: bool, out: &mut impl std::io::Write) {
    let data = std::fs::read(path).expect("a file of text cases");
    let number = |at: usize| u32::from_le_bytes(data[at..at + 4].try_into().unwrap());
    let head = if short { 12 } else { 8 };
    let (mut at, mut case) = (0, 0);
    while at + head <= data.len() && at + head + number(at + 4) as usize <= data.len() {
        let (kind, length) = (number(at), number(at + 4) as usize);
        let room = if short { number(at + 8) as usize } else { 16384 };
        let text = &data[at + head..at + head + length];
        at += head + length;
        case += 1;
        write!(out, "{} {case}: ", if kind == 1 { "program" } else { "object" }).unwrap();
        match reread(kind, text, room) {
            Reread::Back(back) => out.write_all(&back).unwrap(),
            Reread::Refused(number, place) => write!(out, "refused {number} at {place}").unwrap(),
            Reread::NoRoom => out.write_all(b"no room").unwrap(),
        }
        out.write_all(b"\n").unwrap();
    }
}

fn main() {
    let files: Vec<String> = std::env::args().skip(1).collect();
    let mut out = std::io::stdout().lock();
    print_file(&files[0], false, &mut out);
    print_file(&files[1], true, &mut out);
}
