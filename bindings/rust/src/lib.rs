//! Luffa digests (Luffa specification 2.0.1) of 224, 256, 384 and 512 bits, and sheets of records
//! that are saved under their digest, over the repository's proved library.
//!
//! A message is hashed in one call or piece by piece, as with other hash crates:
//!
//! ```
//! use luffa::Luffa256;
//!
//! let mut hash = Luffa256::new();
//! hash.update("a");
//! hash.update(b"bc");
//! assert_eq!(hash.finalize(), Luffa256::digest("abc"));
//! ```
//!
//! A message may stop inside a byte, as a bit-packed frame does; see [`Luffa256::finalize_bits`]:
//!
//! ```
//! use luffa::{Error, Luffa256};
//!
//! // Two bytes and the three highest bits of the last.
//! let frame = [0x01, 0x23, 0x40];
//! let digest = Luffa256::digest_bits(frame, 3)?;
//! assert_eq!(digest, Luffa256::new().chain_update([0x01]).finalize_bits([0x23, 0x40], 3)?);
//! # Ok::<(), Error>(())
//! ```
//!
//! The last block of a message can be taken back, as where a logger sends it again; see
//! [`Luffa256::take_back`]:
//!
//! ```
//! use luffa::{Error, Luffa256};
//!
//! let mut hash = Luffa256::new().chain_update([1; 32]).chain_update([9; 32]);
//! hash.take_back(&[9; 32])?;
//! assert_eq!(hash.finalize(), Luffa256::digest([1; 32]));
//! # Ok::<(), Error>(())
//! ```
//!
//! Longer output, of which the digest is the beginning, fills a slice of up to 64 words; see
//! [`Luffa256::finalize_output`]:
//!
//! ```
//! use luffa::{Error, Luffa256};
//!
//! // Four key labels of 16 bytes.
//! let mut labels = [[0; 16]; 4];
//! Luffa256::output("a pairing", labels.as_flattened_mut())?;
//! assert!(labels.as_flattened().starts_with(&Luffa256::digest("a pairing")));
//! # Ok::<(), Error>(())
//! ```
//!
//! A controller's state is dumped by [`columns`], and a message block injected into the dump:
//!
//! ```
//! use luffa::{Code, Error, columns};
//!
//! let mut dump = columns::from_words(Code::Luffa256, &[0; 24])?;
//! let message = columns::from_message(b"2: 21879 dm, 148.7 C, 20522 kPa\n");
//! columns::inject(Code::Luffa256, &mut dump, &message)?;
//! // Block 0 of zeros has taken the message as it is, one byte of three.
//! assert!(dump.iter().step_by(3).eq(&message));
//! # Ok::<(), Error>(())
//! ```
//!
//! A [`Sheet`] takes a change only with the digest of the sheet that was seen:
//!
//! ```
//! use luffa::{Code, Error, Sheet};
//!
//! let mut sheet = Sheet::from_records(Code::Luffa256, &[[1; 40], [2; 40]])?;
//! let seen = sheet.digest();
//! sheet.change(0, &[3; 40], &seen)?;
//! // Somebody has saved since: nothing is written.
//! let stale = sheet.change(1, &[4; 40], &seen);
//! assert!(matches!(stale, Err(Error::Stale { .. })));
//! assert_eq!(sheet.records(), [[3; 40], [2; 40]]);
//! # Ok::<(), Error>(())
//! ```
//!
//! [`Sheet::change_all`] saves many changes at once, all of them or none. [`Sheet::close_up`] takes away the
//! records that were struck, and says where each of the others stood.
//!
//! A planner who keeps the whole of what was [`Opened`] is told which four records to look at:
//!
//! ```
//! use luffa::{Code, Error, Sheet};
//!
//! let mut sheet = Sheet::from_records(Code::Luffa256, &[[1; 40]; 1000])?;
//! let (anna, ben) = (sheet.opened(), sheet.opened());
//! sheet.change_from(613, &[2; 40], &anna)?;
//! let refused = sheet.append_from(&[3; 40], &ben).unwrap_err();
//! assert_eq!(refused.places(), Some(612..616));
//! # Ok::<(), Error>(())
//! ```
//!
//! A sheet's marks, which spare a save the hashing of it all, may be kept with the records;
//! [`Sheet::from_kept`] mends those that a disk has spoiled, and says which was the first.
//!
//! What the records mean to the balancer is in [`plan`]: a [`Well`](plan::Well) has the fields of a
//! record, [`Sheet::check`] says whether the wells of a sheet are sound, [`plan::brine()`] what the
//! injectors of many sheets are sent and have to spare, and [`plan::reach()`] who depends on a well.
//!
//! The library allocates nothing and keeps nothing, so every type here may go from thread to thread.
//! Not claimed, as by the library: that two messages never share a digest, anything about time or
//! secrecy. Digests are compared with `==`, which may stop at the first byte that differs.

#![forbid(unsafe_op_in_unsafe_fn)]
#![deny(unsafe_code, missing_docs)]

mod code;
pub mod columns;
mod digest;
mod error;
mod ffi;
mod hash;
#[cfg(test)]
mod order;
pub mod plan;
#[cfg(test)]
mod random;
mod sheet;

pub use code::Code;
pub use digest::{Digest, ParseDigestError};
pub use error::Error;
pub use hash::{
    BLOCK_BYTES, Luffa224, Luffa256, Luffa384, Luffa512, OUTPUT_BYTES_MOST, RECORD_BYTES,
};
pub use sheet::{Mended, Moved, Opened, Saved, Sheet};

/// The example in the README runs too.
#[cfg(doctest)]
#[doc = include_str!("../README.md")]
struct Readme;
