// Prints what the proved `tipi::read` makes of each input, one line each: its refusal, or the numbers of its plan. Not a test.
// print.sh beside it says how it is built and run. Each argument is a file of tipirun's input: a count of bytes and the actor, the same of its bindings, cycles.
use std::io::Write;

extern "C" {
    fn tipi_read(text: *const u8, nt: usize, bindings: *const u8, nb: usize, plan: *mut u32, np: usize, told: *mut u32) -> u32;
}

// What a table holds before it is lent: no plan has so many of it at its end.
const FREE: u32 = u32::MAX;

// A plan has at most 64 numbers and eight for each word, and a text at most 8,192 words.
const ROOM: usize = 64 + 8 * 8192;

// An answer: its row or 0, its place or the plan's length, and its text.
fn read(text: &[u8], bindings: &[u8], plan: &mut [u32]) -> (u32, u32, u32) {
    let mut told = [FREE; 2];
    let row = unsafe { tipi_read(text.as_ptr(), text.len(), bindings.as_ptr(), bindings.len(), plan.as_mut_ptr(), plan.len(), told.as_mut_ptr()) };
    (row, told[0], told[1])
}

fn said((row, place, text): (u32, u32, u32)) -> String {
    format!("{row} {} {place}", ["actor", "bindings"][text as usize])
}

// A count of bytes with its newline, and so many bytes.
fn counted(input: &[u8]) -> Option<(&[u8], &[u8])> {
    let end = input.iter().position(|b| *b == b'\n')?;
    let digits = &input[..end];
    if digits.is_empty() || digits.iter().any(|b| !b.is_ascii_digit()) || (end > 1 && digits[0] == b'0') {
        return None;
    }
    let count: usize = std::str::from_utf8(digits).ok()?.parse().ok()?;
    (count <= input.len() - end - 1).then(|| input[end + 1..].split_at(count))
}

fn line(input: &[u8]) -> String {
    let Some((actor, rest)) = counted(input) else { return "bad".into() };
    let Some((bindings, _)) = counted(rest) else { return "bad".into() };
    let mut plan = vec![FREE; ROOM];
    let answer = read(actor, bindings, &mut plan);
    let length = if answer.0 == 0 { answer.1 as usize } else { 0 };
    let more = if plan[length..].iter().all(|n| *n == FREE) { "" } else { ", and more was written" };
    if answer.0 != 0 {
        return format!("refused {}{more}", said(answer));
    }
    // the same where one number has no room: 13, and the table as it stood
    let mut short = vec![FREE; length - 1];
    let without = said(read(actor, bindings, &mut short));
    let left = if short.iter().all(|n| *n == FREE) { "" } else { ", written all the same" };
    let numbers: Vec<String> = plan[..length].iter().map(|n| n.to_string()).collect();
    format!("plan of {length}, one short {without}{left}{more}: {}", numbers.join(" "))
}

// The reader of 8,192 brackets needs more stack than a main thread may have.
fn main() {
    let files: Vec<String> = std::env::args().skip(1).collect();
    let all = move || {
        let (mut out, mut plans) = (std::io::stdout().lock(), 0);
        for file in &files {
            let said = line(&std::fs::read(file).expect("an input"));
            plans += said.starts_with("plan") as usize;
            let name = file.rsplit('/').next().unwrap_or(file);
            writeln!(out, "{}: {said}", name.trim_end_matches(".in")).expect("written");
        }
        writeln!(out, "{} inputs, {plans} plans", files.len()).expect("written");
    };
    std::thread::Builder::new().stack_size(64 << 20).spawn(all).expect("a thread").join().expect("all printed");
}
