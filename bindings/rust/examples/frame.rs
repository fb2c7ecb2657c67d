//! A downhole logger packs three readings into 43 bits: five bytes, and three bits of a sixth. The digest
//! is of these bits, in one call or as they come in; a record kept of them can't be fed on.

use luffa::{Digest, Error, Luffa256};

/// The frame's bytes, and how many bits it has.
#[derive(Default)]
struct Frame {
    bytes: Vec<u8>,
    bits: usize,
}

impl Frame {
    /// Adds a reading, its highest bit first.
    fn pack(mut self, reading: u32, width: usize) -> Frame {
        for place in (0..width).rev() {
            if self.bits % 8 == 0 {
                self.bytes.push(0);
            }
            self.bytes[self.bits / 8] |= ((reading >> place & 1) << (7 - self.bits % 8)) as u8;
            self.bits += 1;
        }
        self
    }

    /// The bits that count in the last byte, or 0 if all do.
    fn odd(&self) -> usize {
        self.bits % 8
    }
}

fn main() -> Result<(), Error> {
    let frame = Frame::default()
        .pack(21874, 17) // depth in decimetres
        .pack(1486, 11) // temperature in tenths of a degree
        .pack(20517, 15); // pressure in kilopascals
    let shown: String = frame
        .bytes
        .iter()
        .map(|byte| format!("{byte:02x}"))
        .collect();
    println!("{} bits    {shown}", frame.bits);

    let digest = Luffa256::digest_bits(&frame.bytes, frame.odd())?;
    println!("digest     {}", Digest::from(digest));

    let (first, last) = frame.bytes.split_at(2);
    let hash = Luffa256::new().chain_update(first);
    let kept = hash.to_record_bits(last, frame.odd())?;
    let same = hash.finalize_bits(last, frame.odd())? == digest;
    println!("in pieces  {}", if same { "the same" } else { "another" });

    if let Err(refused) = Luffa256::from_record(&kept) {
        println!("fed on     refused, {}: {refused}", refused.number());
    }
    Ok(())
}
