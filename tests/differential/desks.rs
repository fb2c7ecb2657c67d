//! Two desks that change different wells of one sheet: the saves of both in either order, the second with the digest
//! that the first handed out, leave the same sheet, marks, final digest and round total, over true marks and false.
//! With the digest that both opened the second is stale. Every call goes through calls.rs.

use crate::calls;
use crate::luffa;
use crate::mends::{Way, WAYS};
use crate::met::Met;
use crate::model::{bytes_of, digest_bytes};
use crate::plan_kinds::See;
use crate::sheet::{GROUP, MOST, RECORD_BYTES};
use crate::sheet_model::{self, Answer, Call, Given};
use crate::{Agreed, Numbers};

/// One desk's save of the sheet that both opened.
struct Desk {
    call: Call,
    given: Given,
}

/// What two saves left, and the rounds of both.
#[derive(PartialEq)]
struct Left {
    sheet: Vec<u8>,
    marks: Vec<u32>,
    digest: Vec<u8>,
    rounds: u64,
}

/// How the places of two changes lie.
const SPREADS: [&str; 3] = ["in one group", "in groups in a row", "in groups apart"];

const MARKS: [&str; 2] = ["false", "true"];

/// What each desk saves, without order.
const SAVES: [&str; 3] = ["two changes", "a change and a batch", "two batches"];

/// What the second desk's save is answered with the claim of the sheet that both opened.
const LATE: [&str; 2] = ["stale", "done, the first left the digest"];

impl Numbers {
    /// A number of records with two places: few groups, or now and then as many as a sheet can have.
    fn shared(&mut self) -> usize {
        match self.between(0, 999) {
            0 => MOST,
            1 => self.between(25, 150),
            _ => self.between(2, 24),
        }
    }

    /// The places of each desk among n, none of them both's: one each, or those of a set, or of two.
    fn apart(&mut self, n: usize) -> [Vec<usize>; 2] {
        if self.between(0, 2) > 0 {
            let one = self.between(0, n - 1);
            let near = (one / GROUP * GROUP + self.between(0, 2 * GROUP - 1)).min(n - 1);
            let any = self.between(0, n - 1);
            let other = match self.one_of(&[near, any]) {
                same if same == one => (one + 1) % n,
                other => other,
            };
            return [vec![one], vec![other]];
        }
        let mut sets = [vec![], vec![]];
        for place in self.places(n) {
            sets[self.between(0, 1)].push(place);
        }
        sets
    }

    /// A desk that saves new records at these places, at times those held.
    fn desk(&mut self, opened: &Given, places: Vec<usize>) -> Desk {
        let times = self.one_of(&[0, 0, 0, 5]);
        let record = |place: usize, numbers: &mut Numbers| match numbers.between(1, 10) <= times {
            true => opened.sheet[RECORD_BYTES * place..][..RECORD_BYTES].to_vec(),
            false => numbers.bytes(RECORD_BYTES),
        };
        let out = digest_bytes(opened.code) + self.one_of(&[0, 0, 1, 40]);
        let mut given = Given {
            out: self.bytes(out),
            ..opened.clone()
        };
        if let [place] = places[..] {
            if self.between(0, 3) > 0 {
                given.place = place;
                given.record = record(place, self);
                let call = Call::Change;
                return Desk { call, given };
            }
        }
        given.records = places.iter().flat_map(|&p| record(p, self)).collect();
        given.places = places;
        let call = Call::Batch;
        Desk { call, given }
    }
}

impl Desk {
    fn places(&self) -> &[usize] {
        match self.call {
            Call::Change => std::slice::from_ref(&self.given.place),
            _ => &self.given.places,
        }
    }
}

/// One desk's save and then the other's: first with the claim that both opened with, which alters nothing where it is
/// stale, and then with the digest that the first save handed out.
fn in_turn(first: &Desk, second: &Desk, met: &mut Met) -> Result<Left, String> {
    let digest = |out: &[u8]| out[..digest_bytes(first.given.code)].to_vec();
    let mut saved = first.given.clone();
    let one = calls::sheet(first.call, &mut saved)?;
    let mut late = Given {
        sheet: saved.sheet,
        marks: saved.marks,
        ..second.given.clone()
    };
    let handed = digest(&saved.out);
    let again = late.claim == handed;
    let old = calls::sheet(second.call, &mut late.clone())?;
    met.see(format!("Desks: late, {}", LATE[usize::from(again)]));
    late.claim = handed;
    let two = calls::sheet(second.call, &mut late)?;
    let numbers = [one, old, two].map(|answer: Answer| answer.number);
    if numbers != [0, if again { 0 } else { 11 }, 0] {
        return Err(format!("two desks answered {numbers:?}\n"));
    }
    Ok(Left {
        sheet: late.sheet,
        marks: late.marks,
        digest: digest(&late.out),
        rounds: one.rounds + two.rounds,
    })
}

/// Both orders of two saves of one sheet, whose marks are at times spoiled.
pub fn desks(numbers: &mut Numbers, met: &mut Met) -> Agreed {
    let n = numbers.shared();
    let mut held = numbers.sheet_and_marks(n);
    let any = numbers.one_of(&WAYS);
    let way = numbers.one_of(&[Way::Not, any]);
    numbers.spoil_marks(way, &mut held);
    let true_marks = held.clone().answer().wrong == 0;
    let mut opened = Given::from(held);
    opened.claim = sheet_model::held(&opened).0;
    let [a, b] = numbers.apart(n).map(|set| numbers.desk(&opened, set));
    let (one, other) = (in_turn(&a, &b, met)?, in_turn(&b, &a, met)?);
    let code = opened.code;
    let what = format!(
        "{:?} of {:?} and {:?} of {:?} at code {code}, n = {n}",
        a.call,
        a.places(),
        b.call,
        b.places(),
    );
    for (left, same) in [
        ("sheets", one.sheet == other.sheet),
        ("marks", one.marks == other.marks),
        ("digests", one.digest == other.digest),
        ("rounds", one.rounds == other.rounds),
    ] {
        if !same {
            return Err(format!("{what}: {left} differ by the order\n"));
        }
    }
    let whole = luffa::digest(code, &one.sheet[..RECORD_BYTES * n]);
    if true_marks && one.digest != bytes_of(&whole) {
        return Err(format!("{what}: not the digest of the sheet\n"));
    }
    see(met, &a, &b, true_marks);
    Ok(())
}

fn see(met: &mut Met, a: &Desk, b: &Desk, true_marks: bool) {
    let (code, n) = (a.given.code, a.given.n);
    let mut see = |what: String| met.see(format!("Desks: {what}"));
    let marks = MARKS[usize::from(true_marks)];
    let batches = [a, b].map(|desk| usize::from(desk.call == Call::Batch));
    let saves = SAVES[batches[0] + batches[1]];
    see(format!("{saves}, marks {marks}, code {code}"));
    let (Call::Change, Call::Change) = (a.call, b.call) else {
        return;
    };
    let groups = [a, b].map(|desk| desk.given.place / GROUP);
    let spread = SPREADS[groups[0].abs_diff(groups[1]).min(2)];
    see(spread.into());
    see(format!("{spread}, marks {marks}, code {code}"));
    if groups.contains(&(n / GROUP)) {
        see(format!("{spread}, after the last group, n % 4 = {}", n % 4));
    }
}

/// Prints the counts, and answers the kinds that should have been met and weren't.
pub fn print(met: &Met) -> Vec<String> {
    println!("two desks:");
    for spread in SPREADS {
        let times = met.times(&format!("Desks: {spread}"));
        println!("  changes {spread}: {times} pairs");
    }
    met.unmet(wanted())
}

fn wanted() -> Vec<String> {
    let mut kinds = vec![];
    let want: See = &mut |what| kinds.push(format!("Desks: {what}"));
    for (code, marks) in (1..=4).flat_map(|code| MARKS.map(|marks| (code, marks))) {
        for saves in SAVES.iter().chain(&SPREADS) {
            want(format!("{saves}, marks {marks}, code {code}"));
        }
    }
    for (rest, spread) in (1..=3).flat_map(|rest| SPREADS.map(|spread| (rest, spread))) {
        // Two places after the last group need two records there.
        if rest > 1 || spread != SPREADS[0] {
            want(format!("{spread}, after the last group, n % 4 = {rest}"));
        }
    }
    for late in LATE {
        want(format!("late, {late}"));
    }
    kinds
}
