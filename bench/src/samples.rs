//! The claims of a folder: NAME.line with a line for the line tool, NAME.mona with the text for MONA.

use std::fs;
use std::io;
use std::path::{Path, PathBuf};

use ceivuron::line::{Question, read_line};
use ceivuron::second::widths::widest;
use ceivuron::{Answer, Judge};

use crate::mona::Shortest;
use crate::plain::Plain;

pub struct Stored {
    pub name: String,
    pub line: PathBuf,
    pub mona: PathBuf,
    pub question: Question,
}

impl Stored {
    fn read(folder: &Path, name: String) -> io::Result<Stored> {
        let path = |end: &str| folder.join(format!("{name}.{end}"));
        let (line, mona) = (path("line"), path("mona"));
        let text = fs::read_to_string(&line)?;
        let question = read_line(text.trim_end().as_bytes())
            .map_err(|fault| io::Error::other(format!("{}: {fault}", line.display())))?;
        Ok(Stored { name, line, mona, question })
    }

    /// The number of sets.
    pub fn sets(&self) -> u8 {
        self.question.claim.bytes()[0]
    }

    /// The most sets that any part mentions.
    ///
    /// # Panics
    ///
    /// Where it is no claim.
    pub fn widest(&self) -> u32 {
        let (_, part) = self.question.claim.read().expect("a claim");
        widest(&part)
    }

    /// The answer of the call, which plain Rust and MONA must give too.
    ///
    /// # Panics
    ///
    /// Where they differ.
    pub fn agreed(&self) -> Answer {
        let Question { claim, most, .. } = &self.question;
        let answer = Judge::with_limit(1 << 32).judge(claim, *most).expect("memory");
        assert_eq!(answer, Plain::default().judge(claim.bytes(), *most), "{}", self.name);
        let mona = Shortest::by_mona(&self.mona).expect("MONA runs");
        assert_eq!(Shortest::judged(&answer), Some(mona), "{}", self.name);
        answer
    }
}

/// The claims of the folder in the order of their names, `start` first.
pub fn stored(folder: &Path) -> io::Result<Vec<Stored>> {
    let mut names = Vec::new();
    for entry in fs::read_dir(folder)? {
        if let Some(name) = entry?.file_name().to_str().and_then(|name| name.strip_suffix(".line")) {
            names.push(name.to_string());
        }
    }
    names.sort_by_key(|name| (name != "start", name.clone()));
    names.into_iter().map(|name| Stored::read(folder, name)).collect()
}
