//! The files that a replay's program writes: calls, answers and, where a third is named, the numbers of the
//! answers that have left demand 2 (request Q-5), a line each.

use std::{env, fs, io};

pub struct Files {
    calls: String,
    answers: String,
    left: Option<String>,
}

impl Files {
    /// The files that the arguments name, CALLS ANSWERS [LEFT].
    pub fn named() -> Option<Files> {
        let mut names = env::args().skip(1);
        let files = Files { calls: names.next()?, answers: names.next()?, left: names.next() };
        names.next().is_none().then_some(files)
    }

    pub fn write(&self, calls: &str, answers: &str, left: &[usize]) -> io::Result<()> {
        fs::write(&self.calls, calls)?;
        fs::write(&self.answers, answers)?;
        let numbers: String = left.iter().map(|number| format!("{number}\n")).collect();
        self.left.iter().try_for_each(|path| fs::write(path, &numbers))
    }
}
