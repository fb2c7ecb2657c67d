//! A record of 40 bytes as the well that it means, so that nobody writes offsets by hand.

use super::Rule;
use crate::Sheet;

#[cfg(test)]
mod tests;

/// What a well does, by the numbers of luffa.h.
#[derive(Clone, Copy, Debug, PartialEq, Eq, Hash)]
pub enum Kind {
    /// It gives brine, which its links share out.
    Producer = 1,
    /// It takes brine in.
    Injector = 2,
}

/// A producer's link: an injector, and what it takes of the producer's rate.
#[derive(Clone, Copy, Debug, Default, PartialEq, Eq, Hash)]
pub struct Link {
    /// The injector's number.
    pub injector: u16,
    /// The share in thousandths.
    pub share: u16,
}

/// A well: what a record means.
///
/// Numbers, rates and links of any value can be held: whether they are sound shows beside the other
/// wells, in [`Sheet::check`](crate::Sheet::check). What no well can hold is answered with the rule
/// that it breaks: another kind, too many links, or bytes in links that aren't used.
///
/// ```
/// use luffa::plan::{Kind, Link, Rule, Well};
///
/// let links = [Link { injector: 14, share: 600 }, Link { injector: 15, share: 400 }];
/// let well = Well::producer(3).with_rate(500).with_links(&links)?.with_note(b"east flank");
/// let record = well.to_record();
/// assert_eq!(record[..12], [0, 3, 1, 2, 0, 0, 1, 244, 0, 14, 2, 88]);
///
/// let well = Well::from_record(&record)?;
/// assert_eq!((well.number(), well.kind(), well.rate()), (3, Kind::Producer, 500));
/// assert_eq!(well.links(), links);
/// assert!(well.note().starts_with(b"east flank"));
/// # Ok::<(), Rule>(())
/// ```
#[derive(Clone, Copy, Debug, PartialEq, Eq, Hash)]
pub struct Well {
    number: u16,
    kind: Kind,
    rate: u32,
    /// The used links, and zeros behind them.
    links: [Link; Well::LINKS_MOST],
    link_count: usize,
    note: [u8; Well::NOTE_BYTES],
}

impl Well {
    /// The most links that a producer may have.
    pub const LINKS_MOST: usize = 4;

    /// The highest rate that is sound, in tonnes a day.
    pub const RATE_MOST: u32 = 100_000;

    /// What a producer's shares add up to, in thousandths.
    pub const SHARES_TOTAL: u16 = 1000;

    /// The bytes of a note.
    pub const NOTE_BYTES: usize = 16;

    /// A producer with no links, and rate 0.
    pub fn producer(number: u16) -> Well {
        Well::new(number, Kind::Producer)
    }

    /// An injector with rate 0.
    pub fn injector(number: u16) -> Well {
        Well::new(number, Kind::Injector)
    }

    fn new(number: u16, kind: Kind) -> Well {
        Well {
            number,
            kind,
            rate: 0,
            links: Default::default(),
            link_count: 0,
            note: Default::default(),
        }
    }

    /// This well with a rate, in tonnes a day.
    pub fn with_rate(self, rate: u32) -> Well {
        Well { rate, ..self }
    }

    /// This producer with these links and no others, or [`Rule::LinkCount`] if they are more than
    /// [`Well::LINKS_MOST`], or any and the well is an injector.
    ///
    /// ```
    /// use luffa::plan::{Link, Rule, Well};
    ///
    /// let link = Link { injector: 14, share: 200 };
    /// assert!(Well::producer(3).with_links(&[link; 4]).is_ok());
    /// assert_eq!(Well::producer(3).with_links(&[link; 5]), Err(Rule::LinkCount));
    /// assert_eq!(Well::injector(3).with_links(&[link]), Err(Rule::LinkCount));
    /// ```
    pub fn with_links(self, links: &[Link]) -> Result<Well, Rule> {
        let link_count = links.len();
        let most = match self.kind {
            Kind::Producer => Well::LINKS_MOST,
            Kind::Injector => 0,
        };
        if link_count > most {
            return Err(Rule::LinkCount);
        }
        let mut well = Well {
            links: Default::default(),
            link_count,
            ..self
        };
        well.links[..link_count].copy_from_slice(links);
        Ok(well)
    }

    /// This well with a note, and zeros behind it. One of more than [`Well::NOTE_BYTES`] doesn't
    /// compile:
    ///
    /// ```compile_fail
    /// use luffa::plan::Well;
    ///
    /// let well = Well::injector(14).with_note(b"seventeen bytes !");
    /// ```
    pub fn with_note<const N: usize>(self, note: &[u8; N]) -> Well {
        const { assert!(N <= Well::NOTE_BYTES, "a note has at most 16 bytes") };
        let mut well = Well {
            note: Default::default(),
            ..self
        };
        well.note[..N].copy_from_slice(note);
        well
    }

    /// The well's number.
    pub fn number(&self) -> u16 {
        self.number
    }

    /// Whether it is a producer or an injector.
    pub fn kind(&self) -> Kind {
        self.kind
    }

    /// The rate in tonnes a day.
    pub fn rate(&self) -> u32 {
        self.rate
    }

    /// The links that are used.
    pub fn links(&self) -> &[Link] {
        &self.links[..self.link_count]
    }

    /// The note, with the zeros behind it.
    pub fn note(&self) -> &[u8; 16] {
        &self.note
    }

    /// The record that means this well.
    pub fn to_record(&self) -> [u8; 40] {
        let mut record = [0; 40];
        record[..2].copy_from_slice(&self.number.to_be_bytes());
        record[2] = self.kind as u8;
        record[3] = self.link_count as u8;
        record[4..8].copy_from_slice(&self.rate.to_be_bytes());
        for (bytes, link) in record[8..24].chunks_exact_mut(4).zip(self.links) {
            bytes[..2].copy_from_slice(&link.injector.to_be_bytes());
            bytes[2..].copy_from_slice(&link.share.to_be_bytes());
        }
        record[24..].copy_from_slice(&self.note);
        record
    }

    /// The well that a record means, whose record is this one again. If no well has it, the answer is
    /// the first of [`Rule::Kind`], [`Rule::LinkCount`] and [`Rule::UnusedLinks`] that stands against
    /// it. A struck record is of neither kind; where a sheet may have some, ask
    /// [`unless_struck`](Well::unless_struck).
    ///
    /// ```
    /// use luffa::plan::{Rule, Well};
    ///
    /// assert_eq!(Well::from_record(&[0; 40]), Err(Rule::Kind));
    /// let mut record = Well::injector(14).to_record();
    /// record[11] = 1;
    /// assert_eq!(Well::from_record(&record), Err(Rule::UnusedLinks));
    /// ```
    pub fn from_record(record: &[u8; 40]) -> Result<Well, Rule> {
        let [n0, n1, kind, link_count, r0, r1, r2, r3, rest @ ..] = record;
        let kind = match kind {
            1 => Kind::Producer,
            2 => Kind::Injector,
            _ => return Err(Rule::Kind),
        };
        let links = [0, 4, 8, 12].map(|at| Link {
            injector: u16::from_be_bytes([rest[at], rest[at + 1]]),
            share: u16::from_be_bytes([rest[at + 2], rest[at + 3]]),
        });
        let used = links.get(..(*link_count).into()).ok_or(Rule::LinkCount)?;
        let mut well = Well::new(u16::from_be_bytes([*n0, *n1]), kind)
            .with_rate(u32::from_be_bytes([*r0, *r1, *r2, *r3]))
            .with_links(used)?;
        well.note.copy_from_slice(&rest[16..]);
        // All has been taken over but the links that aren't used.
        if well.links == links {
            Ok(well)
        } else {
            Err(Rule::UnusedLinks)
        }
    }

    /// The well that a record means, as [`from_record`](Well::from_record) has it, or none if the record is
    /// [struck](Sheet::STRUCK): what to read a sheet with, whose check says that it is sound.
    ///
    /// ```
    /// use luffa::plan::{Rule, Well};
    /// use luffa::{Code, Sheet};
    ///
    /// let records = [Well::injector(14).to_record(), Sheet::STRUCK, Well::injector(15).to_record()];
    /// let sheet = Sheet::from_records(Code::Luffa256, &records)?;
    /// let mut numbers = Vec::new();
    /// for record in sheet.records() {
    ///     if let Some(well) = Well::unless_struck(record)? {
    ///         numbers.push(well.number());
    ///     }
    /// }
    /// assert_eq!(numbers, [14, 15]);
    /// # Ok::<(), Box<dyn std::error::Error>>(())
    /// ```
    pub fn unless_struck(record: &[u8; 40]) -> Result<Option<Well>, Rule> {
        match *record {
            Sheet::STRUCK => Ok(None),
            _ => Well::from_record(record).map(Some),
        }
    }
}
