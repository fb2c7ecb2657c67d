//! What the records of a sheet mean to the balancer: each is a well or [struck](crate::Sheet::STRUCK), and a
//! check says whether all are sound. A save never asks.
//!
//! ```
//! use luffa::plan::{Fault, Link, Rule, Well};
//! use luffa::{Code, Sheet};
//!
//! let injector = Well::injector(14).with_rate(600);
//! let mistyped = Link { injector: 41, share: 1000 };
//! let producer = Well::producer(3).with_rate(500).with_links(&[mistyped])?;
//! let records = [injector.to_record(), producer.to_record()];
//! let mut sheet = Sheet::from_records(Code::Luffa256, &records)?;
//! assert_eq!(sheet.check(), Err(Fault { place: 1, rule: Rule::Links }));
//!
//! let meant = Link { injector: 14, ..mistyped };
//! let claim = sheet.digest();
//! sheet.change(1, &producer.with_links(&[meant])?.to_record(), &claim)?;
//! sheet.check()?;
//! # Ok::<(), Box<dyn std::error::Error>>(())
//! ```
//!
//! What the injectors of up to 64 sheets are sent, and have to spare, is on one page: [`brine()`]. Who
//! depends on a well, by the links that join them, [`reach()`] says. To all of them a struck record is no
//! well, and its number, 0, nobody's.

use crate::{Error, ffi, sheet};
use std::fmt;

mod brine;
#[cfg(test)]
mod given;
mod reach;
#[cfg(test)]
mod rules;
#[cfg(test)]
mod tests;
mod well;

pub use brine::{Page, Row, Totals, brine, brine_into};
pub use reach::{Reached, reach, reach_into};
pub use well::{Kind, Link, Well};

/// What a check says: sound, or where the sheet isn't.
pub type Verdict = Result<(), Fault>;

/// Whether the records that stand one after the other in these bytes are sound, or [`Error::Sheet`] if
/// they are more than [`Sheet::MOST`](crate::Sheet::MOST) or the last isn't whole.
///
/// No records are sound, and so is a [struck](crate::Sheet::STRUCK) one, beside others too: it is exempt from
/// every rule and repeats nobody's number. Of a [`Sheet`](crate::Sheet) ask [`check`](crate::Sheet::check),
/// which is never refused. The library takes some 17 KiB of stack for it.
///
/// ```
/// use luffa::plan::{self, Fault, Rule, Well};
/// use luffa::Error;
///
/// let wells = [Well::injector(14), Well::injector(14)];
/// let bytes = wells.map(|well| well.to_record()).concat();
/// assert_eq!(plan::check(&bytes[..40]), Ok(Ok(())));
/// let repeat = Fault { place: 1, rule: Rule::Repeat };
/// assert_eq!(plan::check(&bytes), Ok(Err(repeat)));
/// assert_eq!(plan::check(&bytes[..79]), Err(Error::Sheet));
///
/// // Both wells are struck.
/// assert_eq!(plan::check(&[0; 80]), Ok(Ok(())));
/// ```
pub fn check(bytes: &[u8]) -> Result<Verdict, Error> {
    let answer = ffi::plan_check(bytes, sheet::records_in(bytes));
    Error::judge(answer.number, 0)?;
    Ok(match Rule::broken(answer.rule) {
        None => Ok(()),
        Some(rule) => Err(Fault {
            place: answer.place as usize,
            rule,
        }),
    })
}

/// The fault of the lowest faulty place. Places behind it may be faulty too.
///
/// ```
/// use luffa::plan::{Fault, Rule};
///
/// let fault = Fault { place: 7, rule: Rule::Rate };
/// assert_eq!(fault.to_string(), "place 7: the rate is over 100,000 tonnes a day");
/// ```
#[derive(Clone, Copy, Debug, PartialEq, Eq, Hash)]
pub struct Fault {
    /// The record's place, counted from 0.
    pub place: usize,
    /// The first rule that the record breaks.
    pub rule: Rule,
}

impl fmt::Display for Fault {
    fn fmt(&self, f: &mut fmt::Formatter) -> fmt::Result {
        write!(f, "place {}: {}", self.place, self.rule)
    }
}

impl std::error::Error for Fault {}

/// A rule that a record breaks, by the numbers of luffa.h. They are in the order in which a record is
/// held to them, unless it is [struck](crate::Sheet::STRUCK).
///
/// ```
/// use luffa::plan::Rule;
///
/// assert_eq!(Rule::LinkCount.number(), 3);
/// assert!(Rule::LinkCount < Rule::Rate);
/// assert_eq!(Rule::Repeat.to_string(), "a well at an earlier place has the same number");
/// ```
#[derive(Clone, Copy, Debug, PartialEq, Eq, PartialOrd, Ord, Hash)]
#[non_exhaustive]
pub enum Rule {
    /// 1: the number isn't 0.
    Number = 1,
    /// 2: the kind is 1 or 2.
    Kind = 2,
    /// 3: a producer has at most four links, none exactly when its rate is 0; an injector has none.
    LinkCount = 3,
    /// 4: the rate is at most [`Well::RATE_MOST`].
    Rate = 4,
    /// 5: the links name different injectors, each a record of this sheet at any place.
    Links = 5,
    /// 6: the shares, where there are links, are 1 to [`Well::SHARES_TOTAL`] each and add up to it.
    Shares = 6,
    /// 7: the bytes of links that aren't used are 0.
    UnusedLinks = 7,
    /// 8: no record at an earlier place has this number.
    Repeat = 8,
}

impl Rule {
    /// The number in luffa.h.
    pub const fn number(self) -> u32 {
        self as u32
    }

    /// The rule that a check found broken, if any.
    fn broken(number: u64) -> Option<Rule> {
        if number == 0 {
            return None;
        }
        let all = [
            Rule::Number,
            Rule::Kind,
            Rule::LinkCount,
            Rule::Rate,
            Rule::Links,
            Rule::Shares,
            Rule::UnusedLinks,
            Rule::Repeat,
        ];
        let known = all.into_iter().find(|r| u64::from(r.number()) == number);
        // As in `Error::judge`.
        assert!(
            known.is_some(),
            "libluffa.a answered rule {number}, which this crate doesn't know"
        );
        known
    }
}

impl fmt::Display for Rule {
    fn fmt(&self, f: &mut fmt::Formatter) -> fmt::Result {
        f.write_str(match self {
            Rule::Number => "the well's number is 0",
            Rule::Kind => "the well is neither a producer, kind 1, nor an injector, kind 2",
            Rule::LinkCount => {
                "the link count isn't 1 to 4, or 0 for an injector and for a producer at rate 0"
            }
            Rule::Rate => "the rate is over 100,000 tonnes a day",
            Rule::Links => "the links don't name different injectors of this sheet",
            Rule::Shares => "the shares aren't 1 to 1,000 thousandths each and 1,000 together",
            Rule::UnusedLinks => "a link that isn't used has bytes other than 0",
            Rule::Repeat => "a well at an earlier place has the same number",
        })
    }
}

impl std::error::Error for Rule {}
