//! Links the proved library `export`, and has it proved and built first where that is due; behind it the library of the kit that
//! gives it the C library's heap.
//!
//! `rt lib`, run in the crate's folder, proves the library and everything below it and writes `crates/export/out/libexport.a`.
//! It is run only if that file is missing or older than a source of one of these crates. Where an earlier check has proved
//! the same crates it takes seconds, from nothing some minutes.

use std::fs;
use std::path::{Path, PathBuf};
use std::process::{Command, Output};
use std::time::SystemTime;

const LIBRARY: &str = "export";

/// The kit's library of the heap, in its folder `c`.
const HEAP: &str = "libc_c";

fn main() {
    let root = Path::new(env!("CARGO_MANIFEST_DIR")).join("..");
    let archive = root.join(format!("crates/{LIBRARY}/out/lib{LIBRARY}.a"));
    let folders = source_folders(&root);
    for folder in &folders {
        println!("cargo::rerun-if-changed={}", folder.display());
    }
    println!("cargo::rerun-if-changed={}", archive.display());
    println!("cargo::rerun-if-changed=build.rs");

    let newest = folders.iter().filter_map(|folder| newest(folder)).max();
    if is_due(&archive, newest) {
        build(&root);
    }
    let search = archive.parent().expect("the archive is in a folder");
    println!("cargo::rustc-link-search=native={}", search.display());
    println!("cargo::rustc-link-lib=static={LIBRARY}");

    let kit = kit_folder();
    println!("cargo::rerun-if-changed={}", kit.join(format!("lib{HEAP}.a")).display());
    println!("cargo::rustc-link-search=native={}", kit.display());
    println!("cargo::rustc-link-lib=static={HEAP}");
}

/// The folder of the kit's C libraries: `rt doc` prints the path of the page to read first, and it lies beside that page.
fn kit_folder() -> PathBuf {
    let output = output_of(Command::new("rt").arg("doc"));
    let page = String::from_utf8(output.stdout).expect("`rt doc` prints a path");
    Path::new(page.trim()).parent().expect("the kit's page is in a folder").join("c")
}

/// What a command of the kit prints, which has to succeed.
fn output_of(command: &mut Command) -> Output {
    match command.output() {
        Ok(output) if output.status.success() => output,
        Ok(output) => panic!(
            "{command:?} failed: {}\n{}{}",
            output.status,
            String::from_utf8_lossy(&output.stdout),
            String::from_utf8_lossy(&output.stderr),
        ),
        Err(error) => panic!("{command:?} cannot be run: {error}. The host needs the Rattle kit."),
    }
}

/// The folders of the library's crate and of all below it, by crates.txt: a line `name: used used ...` for each crate,
/// with `staticlib` behind the name of a static library.
fn source_folders(root: &Path) -> Vec<PathBuf> {
    let list = root.join("crates.txt");
    println!("cargo::rerun-if-changed={}", list.display());
    let text = fs::read_to_string(&list).expect("crates.txt is in the repository's root");
    // what the crate of that name uses; none where the name is that of a library of the kit, which has no line
    let used = |name: &str| {
        text.lines()
            .filter_map(|line| line.split_once(':'))
            .find_map(|(head, used)| (head.split_whitespace().next() == Some(name)).then_some(used))
    };
    assert!(used(LIBRARY).is_some(), "crates.txt has a line for {LIBRARY}");
    let mut names = vec![LIBRARY];
    let mut done = 0;
    while done < names.len() {
        for name in used(names[done]).into_iter().flat_map(str::split_whitespace) {
            if used(name).is_some() && !names.contains(&name) {
                names.push(name);
            }
        }
        done += 1;
    }
    names
        .into_iter()
        .map(|name| root.join("crates").join(name))
        .flat_map(|folder| ["src", "specs", "proofs"].map(|part| folder.join(part)))
        .filter(|folder| folder.is_dir())
        .collect()
}

/// When a file in the folder, or in one of its folders, was last changed.
fn newest(folder: &Path) -> Option<SystemTime> {
    let entries = fs::read_dir(folder).ok()?;
    entries
        .flatten()
        .filter_map(|entry| match entry.file_type().ok()? {
            kind if kind.is_dir() => newest(&entry.path()),
            _ => entry.metadata().ok()?.modified().ok(),
        })
        .max()
}

/// Whether the archive is missing, or older than the sources.
fn is_due(archive: &Path, newest: Option<SystemTime>) -> bool {
    let Ok(built) = fs::metadata(archive).and_then(|data| data.modified()) else {
        return true;
    };
    newest.is_some_and(|changed| built < changed)
}

fn build(root: &Path) {
    let folder = root.join("crates").join(LIBRARY);
    output_of(Command::new("rt").arg("lib").current_dir(&folder));
}
