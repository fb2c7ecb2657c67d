//! Two pairing boxes draw key labels from one message: the first 64 words, cut into labels of 16 bytes. The
//! second takes the message in pieces and has use for three labels alone. Shorter output is the beginning
//! of longer output, so that they are the first box's.

use luffa::{Error, Luffa512};

/// Four words.
type Label = [u8; 16];

fn main() -> Result<(), Error> {
    let mut labels = [Label::default(); 16];
    let rounds = Luffa512::output("box 17 with box 42", labels.as_flattened_mut())?;
    println!("{} labels in {rounds} rounds", labels.len());
    for place in [0, 1, 2, 15] {
        println!("{place:>2}  {:032x}", u128::from_be_bytes(labels[place]));
    }

    let mut few = [Label::default(); 3];
    let mut hash = Luffa512::new();
    for piece in ["box 17 ", "with ", "box 42"] {
        hash.update(piece);
    }
    let rounds = hash.finalize_output(few.as_flattened_mut())?;
    let same = labels.starts_with(&few);
    println!("{} in {rounds} rounds, the same: {same}", few.len());

    // 68 words are too many.
    let more = Luffa512::output("box 17 with box 42", &mut [0; 17 * 16]);
    if let Err(refused) = more {
        println!("17 refused, {}: {refused}", refused.number());
    }
    Ok(())
}
