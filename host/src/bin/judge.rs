//! Judges claims: a line `most hexbytes [outwords]` on standard input, an answer a line on standard output.
//!
//! A line that is not of that form gets `line N: ...` on standard error and `error` on standard output, and the run goes
//! on; the exit status is then 1.

#![no_main]

use std::ffi::{c_char, c_int};
use std::fs::File;
use std::io::{self, BufRead, BufReader, BufWriter, Read, Seek, SeekFrom, Write, stdin, stdout};
use std::os::fd::AsFd;
use std::time::Instant;

use ceivuron::line::{Question, read_line};
use ceivuron::progress::Progress;
use ceivuron::start;
use ceivuron::{Judge, Refused};

const USAGE: &str = "usage: judge [--time] [--memory MIB] < lines
  reads lines `most hexbytes [outwords]`, `-` for no bytes, and writes an answer a line
  --time        adds the microseconds of each call behind its answer
  --memory MIB  the most work memory that a line may take (256, as the proved program has it)";

/// What is said on the command line.
struct Options {
    time: bool,
    mebibytes: u64,
}

fn options(mut words: impl Iterator<Item = String>) -> Option<Options> {
    let mut options = Options { time: false, mebibytes: 256 };
    while let Some(word) = words.next() {
        match word.as_str() {
            "--time" => options.time = true,
            "--memory" => options.mebibytes = words.next()?.parse().ok()?,
            _ => return None,
        }
    }
    Some(options)
}

/// How many lines are left on standard input, where it is a file: its line feeds are counted, and the file is put back. That is
/// asked only where progress is shown.
fn count_lines() -> io::Result<Option<u64>> {
    let mut file = File::from(stdin().as_fd().try_clone_to_owned()?);
    if !file.metadata()?.is_file() {
        return Ok(None);
    }
    let begin = file.stream_position()?;
    let mut block = vec![0; 1 << 16];
    let (mut count, mut last) = (0, b'\n');
    loop {
        let n = file.read(&mut block)?;
        if n == 0 {
            break;
        }
        count += block[..n].iter().filter(|byte| **byte == b'\n').count() as u64;
        last = block[n - 1];
    }
    file.seek(SeekFrom::Start(begin))?;
    // a last line without a line feed counts too
    Ok(Some(count + u64::from(last != b'\n')))
}

/// The answer to one line, as it is printed.
fn answer(judge: &mut Judge, question: &Question) -> String {
    let out_words = question.out_words.map_or(usize::MAX, |words| words as usize);
    match judge.judge_within(&question.claim, question.most, out_words) {
        Ok(answer) => answer.to_string(),
        Err(Refused::TooLarge { words, .. }) => format!("too much memory: {words} words"),
        Err(Refused::NoMemory { words }) => format!("too much memory: {words} words"),
    }
}

/// Judges all lines. Whether all were of the right form.
fn run(options: &Options) -> io::Result<bool> {
    let mut progress = Progress::new(count_lines)?;
    let mut input = BufReader::with_capacity(1 << 16, stdin());
    let mut output = BufWriter::new(stdout());
    let mut judge = Judge::with_limit(options.mebibytes.saturating_mul(1 << 18));
    let mut fine = true;
    let mut line = Vec::new();
    let mut number = 0u64;
    loop {
        // Whoever has asked line by line gets the answers before more is waited for.
        if input.buffer().is_empty() {
            output.flush()?;
        }
        line.clear();
        if input.read_until(b'\n', &mut line)? == 0 {
            break;
        }
        number += 1;
        let text = line.strip_suffix(b"\n").unwrap_or(&line);
        match read_line(text) {
            Ok(question) => {
                let begin = options.time.then(Instant::now);
                let said = answer(&mut judge, &question);
                match begin {
                    Some(begin) => writeln!(output, "{said} {} us", begin.elapsed().as_micros())?,
                    None => writeln!(output, "{said}")?,
                }
            }
            Err(fault) => {
                fine = false;
                progress.clear();
                eprintln!("line {number}: {fault}");
                writeln!(output, "error")?;
            }
        }
        progress.step();
    }
    output.flush()?;
    progress.end();
    Ok(fine)
}

/// The exit status: 0 if all lines were of the right form.
fn judge(words: Vec<String>) -> c_int {
    let Some(options) = options(words.into_iter()) else {
        eprintln!("{USAGE}");
        return 2;
    };
    match run(&options) {
        Ok(true) => 0,
        Ok(false) => 1,
        // whoever reads the answers has seen enough
        Err(error) if error.kind() == io::ErrorKind::BrokenPipe => 0,
        Err(error) => {
            eprintln!("judge: {error}");
            1
        }
    }
}

/// Called by the C library, without Rust's runtime (see [`start`]).
#[unsafe(no_mangle)]
extern "C" fn main(count: c_int, words: *const *const c_char) -> c_int {
    start::ignore_broken_pipes();
    // Sound: these are what the system gave.
    judge(unsafe { start::arguments(count, words) })
}
