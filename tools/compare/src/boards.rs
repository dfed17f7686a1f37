//! Compares the boards of the reference and of the peer call by call, by both of the peer's policies.
use crate::dice::Dice;
use crate::tally::{Differences, Tally};
use reference::kind::Kind;
use reference::refusal::Refusal;

const BOARDS: usize = 600;

/// A hold's answer: number, start, end and claim, or the refusal's number.
type Answer = Result<(u32, u32, u32, u64), u32>;

/// The same board twice.
struct Pair {
    mine: reference::board::Board,
    peer: peer::board::Board,
}

fn sizes(dice: &mut Dice) -> (u32, u32, usize) {
    let mechanics = dice.pick(&[1, 2, 3, 5, 8, 63, 64]);
    let horizon = dice.pick(&[1, 10, 50, 100, 100, 400]);
    (mechanics, horizon, dice.pick(&[1, 10, 40, 64]))
}

fn make(dice: &mut Dice) -> Pair {
    let (mechanics, horizon, room) = sizes(dice);
    Pair {
        mine: reference::board::Board::make(Kind::Crew, mechanics, horizon, room, 2 * room),
        peer: peer::board::Board::new(mechanics, horizon, room),
    }
}

/// A request that mostly fits the board.
fn request(dice: &mut Dice, board: &reference::board::Board) -> [u32; 4] {
    let ready = dice.below(board.horizon);
    let longest = (board.horizon - ready).min(30) + u32::from(dice.one_in(20));
    let duration = dice.between(0, longest).max(u32::from(!dice.one_in(20)));
    let deadline = dice.between(ready, board.horizon).max((ready + duration).min(board.horizon));
    let most = dice.pick(&[board.capacity, board.capacity.div_ceil(3)]);
    let least = u32::from(!dice.one_in(30));
    [ready, duration, deadline, dice.between(least, most)]
}

fn hold(dice: &mut Dice, pair: &mut Pair) -> (Answer, Answer) {
    let [ready, duration, deadline, wanted] = request(dice, &pair.mine);
    let largest = dice.one_in(2);
    let (by, peers) = if largest {
        (reference::policy::Policy::LargestProduct, peer::search::Policy::LargestProduct)
    } else {
        (reference::policy::Policy::EarliestStart, peer::search::Policy::EarliestStart)
    };
    let asked = reference::search::Request { ready, duration, deadline, wanted };
    let mine = pair.mine.hold(&asked, by).map(|row| (row.number, row.start, row.end, row.claim));
    let asked = peer::search::Request { ready, duration, deadline, wanted };
    let peer = pair.peer.hold(asked, peers).map(|row| (row.number, row.start, row.end, row.claim));
    (mine.map_err(Refusal::number), peer.map_err(|refusal| refusal as u32))
}

type Mine = fn(&mut reference::board::Board, u32) -> Result<(), Refusal>;
type Peers = fn(&mut peer::board::Board, u32) -> Result<(), peer::refusal::Refusal>;

const EVENTS: [(Mine, Peers); 5] = [
    (reference::board::Board::confirm, peer::board::Board::confirm),
    (reference::board::Board::release, peer::board::Board::release),
    (reference::board::Board::cancel, peer::board::Board::cancel),
    (reference::board::Board::begin, peer::board::Board::begin),
    (reference::board::Board::finish, peer::board::Board::finish),
];

fn event(dice: &mut Dice, pair: &mut Pair) -> (Result<(), u32>, Result<(), u32>) {
    let number = dice.between(pair.mine.next.saturating_sub(30), pair.mine.next);
    let (mine, peers) = dice.pick(&EVENTS);
    let peer = peers(&mut pair.peer, number).map_err(|refusal| refusal as u32);
    (mine(&mut pair.mine, number).map_err(Refusal::number), peer)
}

/// The slot lists of both as text.
fn lists(pair: &Pair) -> (String, String) {
    let mine: Vec<_> = pair.mine.slot_list().iter().map(|slot| (slot.minute, slot.load)).collect();
    let peer: Vec<_> = pair.peer.slots().iter().map(|slot| (slot.minute, slot.load)).collect();
    (format!("{mine:?}"), format!("{peer:?}"))
}

/// One call on both boards, and their answers with the slot lists behind, as text.
fn step(dice: &mut Dice, pair: &mut Pair, tally: &mut Tally) -> (String, String) {
    let (mine, peer) = if dice.one_in(2) {
        let (mine, peer) = event(dice, pair);
        (format!("{mine:?}"), format!("{peer:?}"))
    } else {
        let (mine, peer) = hold(dice, pair);
        tally.add(mine.map_or_else(|number| format!("no {number}"), |_| "held".to_string()), 1);
        (format!("{mine:?}"), format!("{peer:?}"))
    };
    let (my_list, peers_list) = lists(pair);
    (format!("{mine} {my_list}"), format!("{peer} {peers_list}"))
}

pub fn compare(seed: u64, share: usize, differences: &mut Differences) {
    let dice = &mut Dice::new(seed, "boards");
    let mut tally = Tally::default();
    for _ in 0..BOARDS * share {
        let mut pair = make(dice);
        for _ in 0..dice.between(1, 120) {
            let before = format!("{:?}", pair.mine);
            let (mine, peer) = step(dice, &mut pair, &mut tally);
            if mine != peer {
                differences.report("peer board", before.as_bytes(), mine.as_bytes(), peer.as_bytes());
                break;
            }
        }
    }
    println!("peer boards: {} boards; {}", BOARDS * share, tally.text());
}
