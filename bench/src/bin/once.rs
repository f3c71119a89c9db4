//! One call, for counting its instructions: `once LINE proved` or `once LINE plain`. Everything around it is outside of the functions
//! `counted`.

use std::fs;
use std::path::Path;

use ceivuron::line::{Question, read_line};
use ceivuron::{Answer, Verdict, call, floor};
use ceivuron_bench::plain::Plain;

fn main() {
    let args: Vec<String> = std::env::args().skip(1).collect();
    let [line, who] = &args[..] else { panic!("usage: once LINE proved|plain") };
    let text = fs::read_to_string(Path::new(line)).expect("a file with a line");
    let Question { claim, most, .. } = read_line(text.trim_end().as_bytes()).expect("a line");
    match who.as_str() {
        "proved" => {
            let mut work = vec![0; floor(claim.bytes(), most) as usize];
            let mut out = vec![0; 2 * most as usize];
            assert_ne!(counted_proved(claim.bytes(), most, &mut out, &mut work), Verdict::Many);
        }
        "plain" => assert_ne!(counted_plain(&mut Plain::default(), claim.bytes(), most), Answer::Many),
        _ => panic!("proved or plain, not {who}"),
    }
}

#[inline(never)]
fn counted_proved(bytes: &[u8], most: u32, out: &mut [u32], work: &mut [u32]) -> Verdict {
    call(bytes, most, out, work)
}

#[inline(never)]
fn counted_plain(plain: &mut Plain, bytes: &[u8], most: u32) -> Answer {
    plain.judge(bytes, most)
}
