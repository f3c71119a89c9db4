//! CPU times, user and system together: of a process that is run, and of a function.

use std::ffi::OsString;
use std::fs::File;
use std::io;
use std::path::PathBuf;
use std::process::{Command, Stdio};
use std::time::Duration;

/// What Linux fills in: two times of seconds and microseconds, and fourteen counts.
#[repr(C)]
#[derive(Default)]
struct Usage {
    user: [i64; 2],
    system: [i64; 2],
    counts: [i64; 14],
}

const PROCESS_CPU: i32 = 2;

unsafe extern "C" {
    fn wait4(process: i32, status: *mut i32, options: i32, usage: *mut Usage) -> i32;
    fn clock_gettime(clock: i32, time: *mut [i64; 2]) -> i32;
}

/// A program, its arguments, and the file that is its standard input.
pub struct Program {
    pub path: PathBuf,
    pub args: Vec<OsString>,
    pub input: PathBuf,
}

impl Program {
    /// The CPU time of one run.
    pub fn run(&self) -> io::Result<Duration> {
        let child = Command::new(&self.path)
            .args(&self.args)
            .stdin(File::open(&self.input)?)
            .stdout(Stdio::null())
            .stderr(Stdio::null())
            .spawn()?;
        let (mut status, mut usage) = (0, Usage::default());
        // Sound: the struct is as large as the system's, and both live until the call returns. Nobody else waits for the child.
        let ended = unsafe { wait4(child.id() as i32, &mut status, 0, &mut usage) };
        if ended < 0 {
            return Err(io::Error::last_os_error());
        }
        if status != 0 {
            return Err(io::Error::other(format!("{} ended with status {status}", self.path.display())));
        }
        let time = |[seconds, micros]: [i64; 2]| Duration::new(seconds as u64, micros as u32 * 1000);
        Ok(time(usage.user) + time(usage.system))
    }
}

/// How long each program is run in all, where one run is short.
const EACH: Duration = Duration::from_millis(500);

/// The least CPU time of each of the programs. They take turns, as often as the slowest of them is run in half a second: 5 to 200 times.
pub fn least_times(programs: &[Program]) -> io::Result<Vec<Duration>> {
    let round = || programs.iter().map(Program::run).collect::<io::Result<Vec<Duration>>>();
    let mut least = round()?;
    let longest = least.iter().max().map_or(1, |time| time.as_micros().max(1));
    let rounds = (EACH.as_micros() / longest).clamp(5, 200);
    for _ in 1..rounds {
        least = least.into_iter().zip(round()?).map(|(a, b)| a.min(b)).collect();
    }
    Ok(least)
}

/// The CPU time of this process so far.
fn own() -> Duration {
    let mut time = [0; 2];
    // Sound: seconds and nanoseconds are two words of 64 bits, which live until the call returns.
    let status = unsafe { clock_gettime(PROCESS_CPU, &mut time) };
    assert_eq!(status, 0, "clock_gettime");
    Duration::new(time[0] as u64, time[1] as u32)
}

/// The CPU time of a function, on average over as many runs as take 20 ms, at least one; the first run is not counted.
fn average(call: &mut dyn FnMut()) -> Duration {
    call();
    let begin = own();
    let mut runs = 0;
    loop {
        call();
        runs += 1;
        let time = own() - begin;
        if time > Duration::from_millis(20) {
            return time / runs;
        }
    }
}

/// The least of five averages of each of the functions, which take turns.
pub fn least_averages<const N: usize>(mut calls: [&mut dyn FnMut(); N]) -> [Duration; N] {
    let mut least = [Duration::MAX; N];
    turns(&mut calls, &mut least);
    least
}

/// The same of any number of functions.
pub fn least_averages_of(mut calls: Vec<&mut dyn FnMut()>) -> Vec<Duration> {
    let mut least = vec![Duration::MAX; calls.len()];
    turns(&mut calls, &mut least);
    least
}

fn turns(calls: &mut [&mut dyn FnMut()], least: &mut [Duration]) {
    for _ in 0..5 {
        for (least, call) in least.iter_mut().zip(&mut *calls) {
            *least = average(call).min(*least);
        }
    }
}
