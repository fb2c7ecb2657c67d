//! A logger sends its frame in blocks of 32 bytes, which are hashed as they come. The last one is garbled on
//! the way and sent again: the old one is taken back from the kept record, and nothing before it is needed.

use luffa::{BLOCK_BYTES, Digest, Error, Luffa256};

const FRAME: [[u8; BLOCK_BYTES]; 3] = [
    *b"1: 21874 dm, 148.6 C, 20517 kPa\n",
    *b"2: 21879 dm, 148.7 C, 20522 kPa\n",
    *b"3: 21884 dm, 148.7 C, 20528 kPa\n",
];
const GARBLED: [u8; BLOCK_BYTES] = *b"3: 21884 dm, 1#8.7 C, 2.528 kPa\n";

fn show(what: &str, hash: &Luffa256) {
    println!("{what:<10} {}", Digest::from(hash.clone().finalize()));
}

fn main() -> Result<(), Error> {
    let [first, second, third] = FRAME;
    let mut hash = Luffa256::new();
    for block in [first, second, GARBLED] {
        hash.update(block);
    }
    show("garbled", &hash);
    let kept = hash.to_record();

    let mut hash = Luffa256::from_record(&kept)?;
    hash.take_back(&GARBLED)?;
    show("taken back", &hash);
    hash.update(third);
    show("sent again", &hash);
    let whole = Luffa256::digest(FRAME.as_flattened());
    println!("the frame  {}", hash.clone().finalize() == whole);

    // Once a byte of the next frame has come, the block isn't the last any more.
    hash.update("1");
    if let Err(refused) = hash.take_back(&third) {
        println!("too late   refused, {}: {refused}", refused.number());
    }
    Ok(())
}
