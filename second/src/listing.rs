//! The listing of a recording: all its blocks are read and cut into takes, and
//! each take is decoded from reset.

use crate::blocks::{Block, Reader};
use crate::{Decoder, Refusal, Wrong};

/// The blocks up to the end or to the first refusal, and that refusal.
fn blocks(recording: &[u8]) -> (Vec<Block<'_>>, Option<Refusal>) {
    let mut reader = Reader::new(recording);
    let mut blocks = Vec::new();
    loop {
        match reader.next_block() {
            Ok(Some(block)) => blocks.push(block),
            Ok(None) => return (blocks, None),
            Err(refusal) => return (blocks, Some(refusal)),
        }
    }
}

/// Whether a block belongs to the take of the block before it.
fn goes_on(before: &Block, block: &Block, wrong: Wrong) -> bool {
    let (not_zero, same_take) = (block.number != 0, block.take == before.take);
    match wrong {
        Wrong::OneRun => true,
        Wrong::OnlyBlockZero => not_zero,
        Wrong::OnlyOtherTake => same_take,
        Wrong::JumpBegins => same_take && not_zero && block.number - 1 == before.number,
        _ => same_take && not_zero,
    }
}

/// The line of a block.
fn line(decoder: &mut Decoder, block: &Block) -> String {
    let Block { take, number, mode, octets } = *block;
    let count = octets.len();
    let mut samples = vec![0; 2 * count];
    let limited = decoder.decode(mode, octets, &mut samples);
    let limited = limited.expect("a block that was read can be decoded");
    let ends = format!("{} {}", samples[0], samples[2 * count - 1]);
    format!("{take} {number} {mode} {count} {ends} {limited}\n")
}

/// The lines of the listing, and the line of the refusal that ends it.
pub fn listing(recording: &[u8], wrong: Wrong) -> String {
    let (blocks, refusal) = blocks(recording);
    // how many blocks of a take stand before its reset: none, if all is right
    let late = usize::from(wrong == Wrong::ResetLate);
    let mut decoder = Decoder::new(wrong);
    let mut lines = String::new();
    for take in blocks.chunk_by(|before, block| goes_on(before, block, wrong)) {
        let (until_reset, from_reset) = take.split_at(late);
        lines.extend(until_reset.iter().map(|block| line(&mut decoder, block)));
        decoder = decoder.for_next_take();
        lines.extend(from_reset.iter().map(|block| line(&mut decoder, block)));
    }
    lines.extend(refusal.map(|it| format!("refused {} {}\n", it.number, blocks.len())));
    lines
}
