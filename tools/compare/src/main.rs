//! Makes sheets and board files from a fixed seed, and compares what the programs answer with the reference, byte by byte: `compare [SHARE [SEED [PART]]]`, where SHARE multiplies the number of cases, and PART is `sheets`, `boards` or `files`, or else all.
mod boards;
mod damage;
mod dice;
mod files;
mod lines;
mod office;
mod program;
mod sheets;
mod tally;

use dice::Dice;
use program::Program;
use sheets::Class;
use std::process::ExitCode;
use tally::{Differences, Tally};

const SEED: u64 = 0x0a5_10c4_4a77_1e55;

/// Runs every program on a sheet, and reports where the answer isn't the reference's.
fn compare_sheet(
    name: &str,
    sheet: &[u8],
    piece: usize,
    programs: &[Program],
    differences: &mut Differences,
) -> Vec<u8> {
    let wanted = reference::sheet::answer(sheet);
    for program in programs {
        let got = program.run(sheet, piece).unwrap_or_else(|error| format!("{error}\n").into_bytes());
        if got != wanted {
            differences.report(&format!("{} {name}", program.name), sheet, &wanted, &got);
        }
    }
    wanted
}

fn compare_class(class: &Class, seed: u64, share: usize, programs: &[Program], differences: &mut Differences) {
    let dice = &mut Dice::new(seed, class.name);
    let mut tally = Tally::default();
    let (mut asked, mut said) = (0, 0);
    for _ in 0..class.sheets * share {
        let sheet = (class.make)(dice);
        let answers = compare_sheet(class.name, &sheet, sheet.len().max(1), programs, differences);
        tally.add_answers(&answers);
        asked += sheet.len();
        said += answers.len();
    }
    println!("{}: {} sheets, {asked} bytes in, {said} bytes out; {}", class.name, class.sheets * share, tally.text());
}

/// Sheets that come in pieces with pauses between.
fn compare_pieces(seed: u64, programs: &[Program], differences: &mut Differences) {
    let dice = &mut Dice::new(seed, "pieces");
    for _ in 0..20 {
        let sheet = (sheets::CLASSES[0].make)(dice);
        let piece = dice.pick(&[1, 7, 100, 1000]);
        compare_sheet("pieces", &sheet, piece, programs, differences);
    }
    println!("in pieces: 20 sheets");
}

/// A number from the command line.
fn argument<T: std::str::FromStr>(place: usize, usual: T) -> T {
    std::env::args().nth(place).and_then(|word| word.parse().ok()).unwrap_or(usual)
}

fn compare_sheets(seed: u64, share: usize, differences: &mut Differences) {
    let programs = program::programs();
    for class in sheets::CLASSES {
        compare_class(class, seed, share, &programs, differences);
    }
    compare_pieces(seed, &programs, differences);
}

fn main() -> ExitCode {
    let share = argument(1, 1usize);
    let seed = argument(2, SEED);
    let part = argument(3, "all".to_string());
    let wants = |name: &str| part == "all" || part == name;
    let mut differences = Differences::default();
    if wants("sheets") {
        compare_sheets(seed, share, &mut differences);
    }
    if wants("boards") {
        boards::compare(seed, share, &mut differences);
    }
    if wants("files") {
        files::compare(seed, share, &mut differences);
    }
    println!("{} differences", differences.found);
    ExitCode::from(u8::from(differences.found > 0))
}
