//! Prints tables of speed in Markdown: callsheet and growth beside the peer.
mod growth;
mod program;
mod sheets;

use program::{path, Job, Outcome};
use sheets::Sheet;
use std::fs;
use std::path::Path;

/// Runs both programs on a sheet; `start` has what each takes for an empty sheet.
fn row(jobs: &[Job; 2], sheet: &Sheet, file: &Path, start: [u64; 2]) -> Outcome<()> {
    fs::write(file, &sheet.text)?;
    if jobs[0].output(file)? != jobs[1].output(file)? {
        return Err(format!("the answers differ on {}", file.display()).into());
    }
    let total = [jobs[0].instructions(file)?, jobs[1].instructions(file)?];
    let own = [total[0].saturating_sub(start[0]), total[1].saturating_sub(start[1])];
    let ratio = if own[1] == 0 { "-".to_string() } else { format!("{:.2}", own[0] as f64 / own[1] as f64) };
    let micros = [jobs[0].best_time(file)?.as_micros(), jobs[1].best_time(file)?.as_micros()];
    let bytes = sheet.text.len();
    println!(
        "| {} | {bytes} | {} | {} | {} | {} | {ratio} | {} | {} |",
        sheet.name, total[0], total[1], own[0], own[1], micros[0], micros[1]
    );
    Ok(())
}

fn sheet_table(folder: &Path) -> Outcome<()> {
    let job = |variable, usual| Job { path: path(variable, usual), words: Vec::new() };
    let jobs = [job("CALLSHEET", "crates/callsheet/out/callsheet"), job("PEER", "tools/target/release/peer")];
    fs::create_dir_all(folder)?;
    let file = folder.join("empty.sheet");
    fs::write(&file, "")?;
    let start = [jobs[0].instructions(&file)?, jobs[1].instructions(&file)?];
    println!("| sheet | bytes | instructions, callsheet | instructions, peer | less the empty sheet, callsheet | less the empty sheet, peer | ratio | best time, callsheet (µs) | best time, peer (µs) |");
    println!("|---|---|---|---|---|---|---|---|---|");
    for (i, sheet) in sheets::all().iter().enumerate() {
        row(&jobs, sheet, &folder.join(format!("{i}.sheet")), start)?;
    }
    Ok(())
}

fn main() -> Outcome<()> {
    let folder = Path::new(env!("CARGO_MANIFEST_DIR")).join("../target/speed");
    sheet_table(&folder)?;
    println!();
    growth::table()
}
