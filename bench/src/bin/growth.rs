//! How the time grows: `growth` prints a line for each claim of some families, its family, what it grows with, k, n, the classes of all its
//! parts, and the milliseconds of CPU time of the proved call, of plain Rust, and of MONA's process, with tabs between them. `bench/plot`
//! draws them.

use std::fs;
use std::time::Duration;

use ceivuron::{Verdict, call, floor};
use ceivuron_bench::claims::{self, Sample};
use ceivuron_bench::mona;
use ceivuron_bench::plain::Plain;
use ceivuron_bench::usage::{Program, least_averages, least_times};

fn main() {
    println!("family\tagainst\tk\tn\tparts\tcall\tplain\tmona");
    for (family, against, samples) in families() {
        for sample in samples {
            measure(family, against, &sample);
        }
    }
}

fn families() -> [(&'static str, &'static str, Vec<Sample>); 7] {
    // the recurrences of these degrees and taps have the longest period
    let marks = [(3, 1), (4, 1), (5, 2), (6, 1), (7, 1), (9, 4), (10, 3)];
    let by_sets = |first: u8, last: u8, of: fn(u8) -> Sample| (first..=last).map(of).collect();
    [
        ("marks", "n", marks.map(|(degree, tap)| claims::marks(degree, tap)).into()),
        ("trays", "n", [3, 5, 10, 20, 40, 60, 80, 100].map(claims::trays).into()),
        ("apart", "n", (2..=12).map(claims::apart).collect()),
        ("few-of", "k", by_sets(3, 12, claims::few_of)),
        ("row", "k", by_sets(2, 12, claims::row)),
        ("one-of", "k", by_sets(1, 10, claims::one_of)),
        ("singles", "k", by_sets(2, 12, claims::singles)),
    ]
}

fn measure(family: &str, against: &str, sample: &Sample) {
    let claim = sample.claim();
    let most = claims::least(&claim);
    let bytes = claim.bytes();
    let mut work = vec![0; floor(bytes, most) as usize];
    let mut out = vec![0; 2 * most as usize];
    let mut plain = Plain::default();
    assert!(!plain.judge(bytes, most).to_string().is_empty());
    let parts = plain.found();
    let [call, plain] =
        least_averages([&mut || assert_ne!(call(bytes, most, &mut out, &mut work), Verdict::Many), &mut || {
            assert!(!plain.judge(bytes, most).to_string().is_empty())
        }]);
    let file = std::env::temp_dir().join(format!("growth-{}.mona", std::process::id()));
    fs::write(&file, mona::text(family, sample.sets, &sample.part)).expect("a file in the folder for such files");
    let mona = Program { path: "mona".into(), args: vec!["-q".into(), file.clone().into()], input: file.clone() };
    let times = least_times(&[mona]).expect("MONA runs");
    let _ = fs::remove_file(&file);
    let ms = |time: Duration| time.as_secs_f64() * 1000.0;
    println!(
        "{family}\t{against}\t{}\t{most}\t{parts}\t{:.4}\t{:.4}\t{:.4}",
        sample.sets,
        ms(call),
        ms(plain),
        ms(times[0])
    );
}
