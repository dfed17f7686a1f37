//! One hold and its release on boards of several sizes.
use crate::program::{path, Job, Outcome};
use std::path::{Path, PathBuf};

const NOWHERE: &str = "/dev/null";

fn job(path: &Path, before: &[&str], rows: u32, times: u32) -> Job {
    let mut words: Vec<String> = before.iter().map(|word| word.to_string()).collect();
    words.extend([rows.to_string(), times.to_string()]);
    Job { path: path.to_path_buf(), words }
}

/// The instructions of one hold and release by each of both policies together.
fn instructions(path: &Path, before: &[&str], rows: u32) -> Outcome<u64> {
    let few = job(path, before, rows, 100).instructions(Path::new(NOWHERE))?;
    let many = job(path, before, rows, 300).instructions(Path::new(NOWHERE))?;
    Ok((many - few) / 200)
}

/// The number before some words.
fn number_before(text: &str, words: &str) -> Outcome<u64> {
    let front = text.split(words).next().ok_or("nothing was said")?;
    let word = front.trim().rsplit(' ').next().ok_or("a number was due")?;
    Ok(word.parse()?)
}

/// The best times in nanoseconds of one hold and release by the earliest start and by the largest product.
fn times(path: &Path, before: &[&str], rows: u32) -> Outcome<(u64, u64)> {
    let mut best = (u64::MAX, u64::MAX);
    for _ in 0..10 {
        let said = job(path, before, rows, 1000).output(Path::new(NOWHERE))?;
        let earliest = number_before(&said, " ns by earliest")? / 1000;
        let largest = number_before(&said, " ns by largest")? / 1000;
        best = (best.0.min(earliest), best.1.min(largest));
    }
    Ok(best)
}

/// How many records the board has, which must be the same in both programs.
fn records(proved: &Path, peer: &Path, rows: u32) -> Outcome<u64> {
    let mine = number_before(&job(proved, &[], rows, 0).output(Path::new(NOWHERE))?, " records")?;
    let peers = number_before(&job(peer, &["growth"], rows, 0).output(Path::new(NOWHERE))?, " records")?;
    if mine == peers {
        Ok(mine)
    } else {
        Err("the boards differ".into())
    }
}

fn row(proved: &Path, peer: &Path, rows: u32) -> Outcome<()> {
    let records = records(proved, peer, rows)?;
    let (mine, peers) = (instructions(proved, &[], rows)?, instructions(peer, &["growth"], rows)?);
    let ((mine_early, mine_large), (peer_early, peer_large)) =
        (times(proved, &[], rows)?, times(peer, &["growth"], rows)?);
    let ratio = mine as f64 / peers as f64;
    println!("| {rows} | {records} | {mine} | {peers} | {ratio:.2} | {mine_early} | {peer_early} | {mine_large} | {peer_large} |");
    Ok(())
}

pub fn table() -> Outcome<()> {
    let proved: PathBuf = path("GROWTH", "crates/growth/out/growth");
    let peer = path("PEER", "tools/target/release/peer");
    println!("| rows | records | instructions, growth | instructions, peer | ratio | earliest start, growth (ns) | peer (ns) | largest product, growth (ns) | peer (ns) |");
    println!("|---|---|---|---|---|---|---|---|---|");
    for rows in [8, 32, 128, 256] {
        row(&proved, &peer, rows)?;
    }
    Ok(())
}
