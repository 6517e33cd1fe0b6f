//! judge FILE, replay FILE or check FILE TRACE: prints what the library gives of these files, and ends with its status.
use std::io::Write;
use std::{env, fs, io, process};

/// The numbers beside a status, as in `include/smp.h`.
#[repr(C)]
#[derive(Default)]
struct Answer {
    length: usize,
    written: usize,
    line: usize,
    cause: u32,
}

#[link(name = "smp", kind = "static")]
unsafe extern "C" {
    fn smp_judge(trace: *const u8, length: usize, out: *mut u8, room: usize, answer: &mut Answer) -> i32;
    fn smp_replay(script: *const u8, length: usize, out: *mut u8, room: usize, answer: &mut Answer) -> i32;
    fn smp_check(
        script: *const u8,
        script_length: usize,
        trace: *const u8,
        trace_length: usize,
        out: *mut u8,
        room: usize,
        answer: &mut Answer,
    ) -> i32;
}

/// Calls by the word. Slices keep to all that `include/smp.h` asks for.
fn call(word: &str, file: &[u8], trace: &[u8], out: &mut [u8], answer: &mut Answer) -> i32 {
    let (at, room) = (out.as_mut_ptr(), out.len());
    unsafe {
        match word {
            "judge" => smp_judge(file.as_ptr(), file.len(), at, room, answer),
            "replay" => smp_replay(file.as_ptr(), file.len(), at, room, answer),
            _ => smp_check(file.as_ptr(), file.len(), trace.as_ptr(), trace.len(), at, room, answer),
        }
    }
}

fn main() -> io::Result<()> {
    let words: Vec<String> = env::args().skip(1).collect();
    let (word, name, other) = match &words[..] {
        [word, name] => (word, name, name),
        [word, name, other] => (word, name, other),
        _ => return Err(io::Error::other("usage: judge FILE | replay FILE | check FILE TRACE")),
    };
    let (file, trace) = (fs::read(name)?, fs::read(other)?);
    let (mut out, mut answer) = (vec![0; 4096], Answer::default());
    let mut status = call(word, &file, &trace, &mut out, &mut answer);
    if answer.written < answer.length {
        out.resize(answer.length, 0);
        status = call(word, &file, &trace, &mut out, &mut answer);
    }
    io::stdout().write_all(&out[..answer.written])?;
    eprintln!("status {status} line {} cause {}", answer.line, answer.cause);
    process::exit(status)
}
