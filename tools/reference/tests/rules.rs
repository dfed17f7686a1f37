//! The examples of docs/RULES.md, and the refusals of files.
use reference::board::Board;
use reference::kind::Kind;
use reference::policy::Policy;
use reference::refusal::Refusal;
use reference::search::Request;
use reference::sheet;

fn request(ready: u32, duration: u32, deadline: u32, wanted: u32) -> Request {
    Request { ready, duration, deadline, wanted }
}

/// Start and claim, or the refusal's number.
fn hold(board: &mut Board, asked: Request, policy: Policy) -> Result<(u32, u64), u32> {
    let row = board.hold(&asked, policy).map_err(Refusal::number)?;
    Ok((row.start, row.claim))
}

fn earliest(board: &mut Board, asked: Request) -> Result<(u32, u64), u32> {
    hold(board, asked, Policy::EarliestStart)
}

fn list(board: &Board) -> Vec<(u32, u64)> {
    board.slot_list().iter().map(|slot| (slot.minute, slot.load)).collect()
}

/// The board of the examples after A and B.
fn after_b() -> Board {
    let mut board = Board::make(Kind::Crew, 4, 100, 4, 8);
    assert_eq!(earliest(&mut board, request(0, 10, 10, 2)), Ok((0, 3)));
    assert_eq!(earliest(&mut board, request(5, 10, 30, 2)), Ok((5, 12)));
    board
}

#[test]
fn a_gap_that_opens() {
    let mut board = after_b();
    assert_eq!(list(&board), [(0, 3), (5, 15), (10, 12), (15, 0)]);
    assert_eq!(earliest(&mut board, request(0, 10, 19, 2)), Err(9));
    assert_eq!(earliest(&mut board, request(0, 10, 20, 2)), Ok((10, 3)));
    assert_eq!(list(&board), [(0, 3), (5, 15), (15, 3), (20, 0)]);
    board.confirm(1).unwrap();
    board.cancel(1).unwrap();
    assert_eq!(list(&board), [(5, 12), (10, 15), (15, 3), (20, 0)]);
}

#[test]
fn most_free() {
    let found = hold(&mut after_b(), request(0, 10, 40, 2), Policy::MostFree);
    assert_eq!(found, Ok((15, 3)));
}

#[test]
fn refused_holds() {
    let mut board = Board::make(Kind::Crew, 4, 100, 4, 8);
    assert_eq!(earliest(&mut board, request(0, 0, 10, 1)), Err(4));
    assert_eq!(earliest(&mut board, request(0, 10, 10, 5)), Err(5));
    assert_eq!(earliest(&mut board, request(0, 10, 9, 1)), Err(6));
    assert_eq!(earliest(&mut board, request(91, 10, 101, 1)), Err(6));
    assert_eq!(earliest(&mut board, request(90, 10, 100, 1)), Ok((90, 1)));
}

#[test]
fn stock() {
    let mut board = Board::make(Kind::Stock, 3, 100, 4, 8);
    assert_eq!(earliest(&mut board, request(0, 10, 10, 2)), Ok((0, 2)));
    assert_eq!(earliest(&mut board, request(5, 10, 15, 2)), Err(9));
    assert_eq!(earliest(&mut board, request(5, 10, 20, 2)), Ok((10, 2)));
    assert_eq!(list(&board), [(0, 2), (20, 0)]);
}

#[test]
fn the_sheet_of_the_rules() {
    let asked = b"P 0 60 60 2 0\nP 30 60 300 7 100\nP 30 60 120 8 0\nP 60 60 300 8 100\nC 1\nL\n";
    let said = b"ok 1 0 3\nok 2 60 127\nno 9\nlate 3 120\nok\nlist 2\n60 127\n120 0\n";
    assert_eq!(sheet::answer(asked), said);
}

#[test]
fn a_file_goes_round() {
    let mut board = after_b();
    let mut memory = [7; 73];
    assert_eq!(board.save(&mut memory), Err(Refusal::Plain(20)));
    board.confirm(1).unwrap();
    board.confirm(2).unwrap();
    assert_eq!(board.save(&mut memory[..71]), Err(Refusal::Plain(21)));
    assert_eq!(board.save(&mut memory), Ok(72));
    assert_eq!(memory[72], 7);
    let mut other = Board::make(Kind::Crew, 9, 9, 4, 8);
    assert_eq!(board.load(&memory[..72]), Err(Refusal::Plain(13)));
    assert_eq!(other.load(&memory), Err(Refusal::Plain(16)));
    assert_eq!(other.load(&memory[..72]), Ok(()));
    assert_eq!(other, board);
}

#[test]
fn refused_files_name_the_row() {
    let mut board = after_b();
    board.confirm(1).unwrap();
    board.confirm(2).unwrap();
    let mut file = board.contents().bytes();
    let mut empty = Board::make(Kind::Crew, 1, 1, 4, 8);
    file[64] = 13;
    assert_eq!(empty.load(&file), Err(Refusal::FileClash(1)));
    file[24] = 3;
    assert_eq!(empty.load(&file), Err(Refusal::FileRow(0)));
    assert_eq!(Board::make(Kind::Stock, 1, 1, 4, 8).load(&file), Err(Refusal::Plain(15)));
    assert_eq!(Board::make(Kind::Crew, 1, 1, 1, 8).load(&file), Err(Refusal::Plain(17)));
}
