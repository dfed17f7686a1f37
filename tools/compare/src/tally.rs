//! Counts of answers, and what differed.
use std::collections::BTreeMap;
use std::fs;
use std::path::PathBuf;

/// No more differences than this are written out.
const MOST_WRITTEN: usize = 20;

#[derive(Default)]
pub struct Tally {
    counts: BTreeMap<String, usize>,
    most_records: usize,
}

impl Tally {
    pub fn add(&mut self, what: impl Into<String>, times: usize) {
        *self.counts.entry(what.into()).or_default() += times;
    }

    /// Counts a sheet's answers by their words.
    pub fn add_answers(&mut self, text: &[u8]) {
        for line in String::from_utf8_lossy(text).lines() {
            match line.split(' ').next() {
                Some("no") => self.add(line, 1),
                Some("list") => self.add_list(line),
                Some(word @ ("ok" | "late")) => self.add(word, 1),
                _ => {}
            }
        }
    }

    /// Counts a list, and keeps in mind the longest.
    fn add_list(&mut self, line: &str) {
        let records = line[4..].trim().parse().unwrap_or(0);
        self.most_records = self.most_records.max(records);
        self.add("list", 1);
    }

    pub fn text(&self) -> String {
        let mut parts: Vec<String> = self.counts.iter().map(|(what, times)| format!("{what}: {times}")).collect();
        if self.most_records > 0 {
            parts.push(format!("most records: {}", self.most_records));
        }
        parts.join(", ")
    }
}

/// The differences of a run.
#[derive(Default)]
pub struct Differences {
    pub found: usize,
}

impl Differences {
    /// Writes the case with what was wanted and what came, and says where.
    pub fn report(&mut self, name: &str, case: &[u8], wanted: &[u8], got: &[u8]) {
        self.found += 1;
        if self.found > MOST_WRITTEN {
            return;
        }
        let folder = PathBuf::from(env!("CARGO_MANIFEST_DIR")).join("differences");
        let stem = format!("{}-{}", self.found, name.replace(' ', "-"));
        let write = |end: &str, bytes: &[u8]| fs::write(folder.join(format!("{stem}.{end}")), bytes);
        let written = fs::create_dir_all(&folder)
            .and_then(|()| write("case", case))
            .and_then(|()| write("wanted", wanted))
            .and_then(|()| write("got", got));
        match written {
            Ok(()) => println!("DIFFERENCE: {}/{stem}.case (and .wanted, .got)", folder.display()),
            Err(error) => println!("DIFFERENCE in {name}, which could not be written: {error}"),
        }
    }
}
