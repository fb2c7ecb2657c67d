//! The check of content (document 02, "A sheet that makes sense") by the plainest means: each record is
//! read into a well, and each rule is asked of it, and of every other well where the rule speaks of
//! the sheet. A struck record is read too, as the well that has nothing, and is asked nothing.

use crate::sheet::Record;
use std::fmt;

pub const PRODUCER: u8 = 1;
pub const INJECTOR: u8 = 2;

#[derive(Clone, Copy, Debug, Default, PartialEq)]
pub struct Link {
    pub injector: u16,
    pub share: u16,
}

/// A record, field by field. Its note means nothing, but a record with one isn't struck.
#[derive(Clone, Copy, Debug, Default, PartialEq)]
pub struct Well {
    pub number: u16,
    pub kind: u8,
    pub link_count: u8,
    pub rate: u32,
    pub links: [Link; 4],
    pub note: [u8; 16],
}

/// The rules, in the document's order.
#[derive(Clone, Copy, Debug, PartialEq)]
pub enum Rule {
    Number = 1,
    Kind,
    LinkCount,
    Rate,
    Links,
    Shares,
    UnusedLinks,
    Repeat,
}

impl Rule {
    pub const ALL: [Rule; 8] = [
        Rule::Number,
        Rule::Kind,
        Rule::LinkCount,
        Rule::Rate,
        Rule::Links,
        Rule::Shares,
        Rule::UnusedLinks,
        Rule::Repeat,
    ];
}

impl fmt::Display for Rule {
    fn fmt(&self, f: &mut fmt::Formatter) -> fmt::Result {
        f.write_str(match self {
            Rule::Number => "number",
            Rule::Kind => "kind",
            Rule::LinkCount => "link count",
            Rule::Rate => "rate",
            Rule::Links => "links",
            Rule::Shares => "shares",
            Rule::UnusedLinks => "unused links",
            Rule::Repeat => "repeat",
        })
    }
}

impl Well {
    pub fn read(record: &Record) -> Well {
        let two = |at: usize| u16::from_be_bytes([record[at], record[at + 1]]);
        let link = |at| Link {
            injector: two(at),
            share: two(at + 2),
        };
        Well {
            number: two(0),
            kind: record[2],
            link_count: record[3],
            rate: u32::from_be_bytes([record[4], record[5], record[6], record[7]]),
            links: [link(8), link(12), link(16), link(20)],
            note: record[24..].try_into().unwrap(),
        }
    }

    /// No byte of the record is set.
    pub fn is_struck(&self) -> bool {
        *self == Well::default()
    }

    /// The links that the link count takes in, of which there are four at most.
    pub fn used(&self) -> &[Link] {
        &self.links[..self.link_count.min(4) as usize]
    }

    fn unused(&self) -> &[Link] {
        &self.links[self.used().len()..]
    }
}

/// The wells of the first n records, as many as are there.
pub fn wells(sheet: &[u8], n: usize) -> Vec<Well> {
    let records = sheet.as_chunks().0.iter();
    records.take(n).map(Well::read).collect()
}

/// A link names an injector if some well of the sheet has that number and kind 2.
pub fn is_injector(wells: &[Well], number: u16) -> bool {
    wells
        .iter()
        .any(|well| well.number == number && well.kind == INJECTOR)
}

/// Whether the well at this place keeps the rule, whatever others it breaks. A well that is neither
/// producer nor injector has no number of links that would be wrong.
fn keeps(wells: &[Well], place: usize, rule: Rule) -> bool {
    let well = &wells[place];
    let used = well.used();
    match rule {
        Rule::Number => well.number != 0,
        Rule::Kind => well.kind == PRODUCER || well.kind == INJECTOR,
        Rule::LinkCount => match well.kind {
            PRODUCER => well.link_count <= 4 && (well.link_count == 0) == (well.rate == 0),
            INJECTOR => well.link_count == 0,
            _ => true,
        },
        Rule::Rate => well.rate <= 100_000,
        Rule::Links => used.iter().all(|link| {
            let same = used.iter().filter(|other| other.injector == link.injector);
            is_injector(wells, link.injector) && same.count() == 1
        }),
        Rule::Shares => {
            let total: u32 = used.iter().map(|link| u32::from(link.share)).sum();
            let each = used.iter().all(|link| (1..=1000).contains(&link.share));
            used.is_empty() || (each && total == 1000)
        }
        Rule::UnusedLinks => well.unused().iter().all(|&link| link == Link::default()),
        Rule::Repeat => wells[..place]
            .iter()
            .all(|earlier| earlier.number != well.number || earlier.is_struck()),
    }
}

/// Every rule that the well at this place breaks, in order. A struck record is exempt from all.
pub fn broken(wells: &[Well], place: usize) -> Vec<Rule> {
    let asked = Rule::ALL.into_iter().filter(|_| !wells[place].is_struck());
    asked.filter(|&rule| !keeps(wells, place, rule)).collect()
}

/// The lowest faulty place and the first rule broken there; none where the sheet is sound.
pub fn fault(wells: &[Well]) -> Option<(usize, Rule)> {
    (0..wells.len()).find_map(|place| Some((place, *broken(wells, place).first()?)))
}
