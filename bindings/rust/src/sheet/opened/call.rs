//! A save that brings what was opened, beneath the types.

use super::Sheet;
use super::tests::{Kind, told};
use crate::Error;
use crate::ffi::{self, Own};
use crate::sheet::held::Held;
use crate::sheet::saves::Save;

/// A call, with all that it is lent.
#[derive(Clone)]
pub struct Call {
    pub kind: Kind,
    pub held: Held,
    pub place: usize,
    pub record: Vec<u8>,
    pub claim: Vec<u8>,
    pub own_n: usize,
    pub own: Vec<u32>,
    /// What it is answered if it is stale.
    pub stale: [u64; 6],
}

impl Call {
    /// A save to a sheet by one who brings another, with the claim right and nothing else wrong.
    pub fn new(kind: Kind, held: &Sheet, own: &Sheet) -> Call {
        let n = held.len() as u64;
        let stale = match told(held, own.records()) {
            Error::StaleGroup {
                group,
                pairs,
                rounds,
            } => [11, n, rounds, 1, group as u64, pairs as u64],
            Error::StaleTail { pairs, rounds, .. } => [16, n, rounds, 0, 0, pairs as u64],
            other => unreachable!("{other}"),
        };
        Call {
            kind,
            held: Held::of(held),
            place: held.len() / 2,
            record: vec![7; 40],
            claim: held.digest().as_bytes().to_vec(),
            own_n: own.len(),
            own: [own.marks(), &[0xa5; 50]].concat(),
            stale,
        }
    }

    pub fn make(&mut self) -> [u64; 6] {
        let (record, claim) = (&self.record, &self.claim);
        let own = Own {
            n: self.own_n,
            marks: &self.own,
        };
        let a = self.held.lend(|lent, out| match self.kind {
            Kind::Change => ffi::change_own(lent, self.place, record, claim, &own, out),
            Kind::Append => ffi::append_own(lent, record, claim, &own, out),
            Kind::Drop => ffi::drop_own(lent, claim, &own, out),
        });
        [a.number, a.count, a.rounds, a.kind, a.group, a.pairs]
    }

    /// The same save without what was opened.
    fn make_plain(&mut self) -> [u64; 3] {
        let (record, claim) = (&self.record, &self.claim);
        self.held.save(|lent, out| match self.kind {
            Kind::Change => ffi::change(lent, self.place, record, claim, out),
            Kind::Append => ffi::append(lent, record, claim, out),
            Kind::Drop => ffi::drop_last(lent, claim, out),
        })
    }

    /// Where done, all is as the plain save leaves and answers it. Where refused, nothing is written, and the
    /// count is the one given. 11 stands for 16 too, as the sheets have it.
    #[track_caller]
    pub fn answers(mut self, number: u64) {
        let (mut plain, before) = (self.clone(), self.clone());
        let answer = self.make();
        assert!(self.own == before.own, "written to what was opened");
        if number == 0 {
            assert_eq!(answer[..3], plain.make_plain());
            assert_eq!((answer[0], &answer[3..]), (0, &[0; 3][..]));
            assert!(self.held == plain.held, "not as the plain save");
        } else {
            let n = before.held.n as u64;
            let refused = [number, n, 0, 0, 0, 0];
            let wanted = if number == 11 { self.stale } else { refused };
            assert_eq!(answer, wanted);
            assert!(self.held == before.held, "written");
        }
    }
}

impl Save for Call {
    fn held(&mut self) -> &mut Held {
        &mut self.held
    }

    fn claim(&mut self) -> &mut Vec<u8> {
        &mut self.claim
    }
}
