//! A card reports read names by number, in any order. Each report is a claim, held against the
//! block's own names: four of the six are read when the first reports come in, the rest later. Then
//! it dumps the symbols that its adaptive model saw, and the table that they should have left is
//! printed.

use aqsurvel::{Block, Model, Read, Refusal, Room, Scoreboard, Verdict};

const INPUT: &[u8] = b"run7:0098/1\n\
    run7:0098/2\n\
    run7:0099/1\n\
    run7:0099/2\n\
    run7:0100/1\n\
    run7:0100/2\n";

/// A name's number, the name, and what is the matter with it.
type Report = (u32, &'static str, &'static str);

const EARLY: [Report; 6] = [
    (2, "run7:0099/1", "right"),
    (0, "run7:0098/1", "right"),
    (3, "run7:0101/2", "wrong increment"),
    (2, "run7:0099/2", "swapped mate"),
    (1, "run7:0098/", "cut name"),
    (5, "run7:0100/2", "too early"),
];

const LATE: [Report; 3] = [
    (5, "run7:0100/2", "right"),
    (4, "run7:0100/1", "right"),
    (1, "run7:0098/2", "right"),
];

/// The symbols that the card's model of five saw.
const TRACE: [u8; 11] = [0, 1, 4, 0, 2, 0, 3, 0, 1, 4, 0];

/// The table of a model of so many symbols.
fn replay(size: u32) {
    let mut model = Model::default();
    match model.replay(size, &TRACE) {
        Ok(()) => println!("model: {} symbols seen", TRACE.len()),
        Err(refusal) => println!("model: {refusal}"),
    }
    for (symbol, frequency) in model.table() {
        println!("symbol {symbol}: {frequency} of {}", model.total());
    }
}

/// Reads up to so many names more; fewer if the block is done before.
fn read_names(board: &mut Scoreboard<'_>, count: u32, most: u32) -> Result<(), Refusal> {
    for _ in 0..most {
        if let Read::Done(_) = board.read()? {
            break;
        }
    }
    println!("read: {} of {count} names", board.len());
    Ok(())
}

fn check(board: &Scoreboard<'_>, (number, name, about): Report) {
    match board.claim(number, name.as_bytes()) {
        Ok(Verdict::Confirmed) => println!("{about}: {number} {name} confirmed"),
        Ok(Verdict::Denied) => {
            let kept = board.name(number).unwrap_or_default();
            let kept = kept.escape_ascii();
            println!("{about}: {number} {name} denied, the name is {kept}");
        }
        Err(refusal) => println!("{about}: {refusal}"),
    }
}

fn main() -> Result<(), Refusal> {
    let block = Block::write(INPUT)?;
    let count = block.count();
    println!("written: {count} names, {} bytes", block.bytes().len());
    let mut board = Scoreboard::open(&block, Room::for_count(count))?;
    read_names(&mut board, count, 4)?;
    EARLY.into_iter().for_each(|report| check(&board, report));
    read_names(&mut board, count, count)?;
    LATE.into_iter().for_each(|report| check(&board, report));
    replay(5);
    // A model of two has seen a symbol that it can't have: its table is that of the symbols before.
    replay(2);
    Ok(())
}
