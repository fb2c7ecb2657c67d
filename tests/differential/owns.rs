//! Saves with the planner's own marks: those of the sheet as it was opened, which is an older, newer, longer or shorter
//! one than that held, or words that part from the marks held where they are made to; and what is refused of them. Every
//! call goes through calls.rs, and the archive's plain save must do the same but for what is said of the marks.

use crate::batches::NO_PLACES;
use crate::calls;
use crate::histories::{words_for, EDGES};
use crate::luffa::{Luffa, CODES};
use crate::mend_model::Mending;
use crate::mends::{Way, WAYS};
use crate::met::Met;
use crate::model::{digest_bytes, state_words};
use crate::own::{self, Own};
use crate::own_kinds::{see, see_refused};
use crate::own_model::OwnAnswer;
use crate::plans::{TOO_MANY, TOO_SHORT};
use crate::sheet::{Sheet, MARK_WORDS, MOST, RECORD_BYTES};
use crate::sheet_model::{self, Call, Given};
use crate::{Agreed, Numbers};

/// The saves that can bring own marks.
pub const CALLS: [Call; 3] = [Call::Change, Call::Append, Call::Drop];

/// Makes the call on both sides, judges it, and notes what it was. The sheets are the one held and the planner's, each
/// where its marks are true.
pub fn call(
    call: Call,
    given: &mut Given,
    own: &Own,
    sheets: [Option<&Sheet>; 2],
    met: &mut Met,
) -> Result<OwnAnswer, String> {
    let before = given.clone();
    let answer = calls::own(call, given, own)?;
    let fault = [
        beside_plain(call, &before, given, &answer),
        by_the_marks(&before, own, &answer),
        by_the_records(sheets, &answer),
    ];
    if let Some(fault) = fault.into_iter().flatten().next() {
        let (code, n, own_n) = (before.code, before.n, own.n);
        return Err(format!(
            "{call:?} with own marks at code {code}, n = {n}, own n = {own_n}: {answer:?}, {fault}\n"
        ));
    }
    see(
        met,
        call,
        &before,
        own,
        &answer,
        sheets.map(|s| s.is_some()),
    );
    Ok(answer)
}

/// The archive's plain save of the same, which leaves and answers the same. 15 comes between its refusals and its claim.
fn beside_plain(call: Call, before: &Given, after: &Given, answer: &OwnAnswer) -> Option<String> {
    let mut plain = before.clone();
    let saved = calls::alone(call, &mut plain);
    let same = match answer.number {
        15 => [0, 11].contains(&saved.number),
        _ => {
            saved == answer.plain()
                && plain.sheet == after.sheet
                && plain.marks == after.marks
                && plain.out == after.out
        }
    };
    (!same).then(|| format!("but the plain save {saved:?}"))
}

/// The mark after a named group differs, and those from 1 to it don't.
fn by_the_marks(before: &Given, own: &Own, answer: &OwnAnswer) -> Option<String> {
    if answer.number != 11 {
        return None;
    }
    let used = state_words(before.code);
    let mark = |m: usize| MARK_WORDS * m..MARK_WORDS * m + used;
    let differs = |m: usize| before.marks[mark(m)] != own.marks[mark(m)];
    let m = answer.group as usize + 1;
    let first = differs(m) && !(1..m).any(differs);
    (!first).then(|| format!("but mark {m} isn't the first that differs"))
}

/// Where both sets of marks are true, the records of a named group differ, and no earlier ones do.
fn by_the_records(sheets: [Option<&Sheet>; 2], answer: &OwnAnswer) -> Option<String> {
    let [Some(held), Some(opened)] = sheets else {
        return None;
    };
    let want = OwnAnswer::new(answer.plain(), || own::by_records(held, opened));
    let same = !answer.stale() || *answer == want;
    (!same).then(|| format!("the records {want:?}"))
}

/// How the sheet that the planner opened is apart from the one held.
pub const OPENED: [&str; 9] = [
    "the same",
    "changed",
    "groups changed",
    "longer",
    "shorter",
    "longer and changed",
    "shorter and changed",
    "another",
    "empty",
];

/// How words that are a planner's marks are apart from the marks held.
const APART: [&str; 7] = [
    "not at all",
    "not at all",
    "in a bit",
    "in a bit",
    "in a bit",
    "from a mark on",
    "in some marks",
];

/// Words in the place of the starting variables. The last have zeros where this code has its last block.
pub const NO_STARTS: [&str; 4] = ["any words", "zeros", "swapped", "a narrower code's"];

/// A sheet and its marks, its records alone, and whether these marks are true.
struct Kept {
    marked: Mending,
    plain: Sheet,
    true_marks: bool,
}

impl Kept {
    fn truth(&self) -> Option<&Sheet> {
        self.true_marks.then_some(&self.plain)
    }
}

/// Up to so many records the marks are at times true; more take long to hash.
const HASHED: usize = 150;

impl Numbers {
    /// A number of records: few groups, or now and then about as many as a sheet can have.
    fn held_count(&mut self) -> usize {
        match self.between(0, 199) {
            0 | 1 => MOST,
            2 => self.between(MOST - 5, MOST - 1),
            3 => self.between(25, HASHED),
            4..=60 => self.one_of(&[0, 1, 3, 4, 5, 8]),
            _ => self.between(0, 24),
        }
    }

    /// A planner's number of records beside n held.
    fn own_count(&mut self, n: usize) -> usize {
        let near = (n + self.between(0, 9)).saturating_sub(self.between(0, 9));
        let (few, edge) = (self.between(0, 24), self.one_of(&EDGES));
        self.one_of(&[n, n, n, near, near, near, few, edge])
            .min(MOST)
    }

    fn any_record(&mut self) -> [u8; RECORD_BYTES] {
        self.bytes(RECORD_BYTES).try_into().unwrap()
    }

    /// The sheet as the planner opened it, and how it is apart.
    fn opened(&mut self, held: &Sheet) -> (&'static str, Kept) {
        let way = self.one_of(&OPENED);
        let mut opened = held.clone();
        let records = &mut opened.records;
        let n = records.len();
        let some = self.between(1, 9);
        match way {
            "empty" => records.clear(),
            "another" => *records = (0..n + some).map(|_| self.any_record()).collect(),
            _ if way.starts_with("longer") => records.extend((0..some).map(|_| self.any_record())),
            _ if way.starts_with("shorter") => records.truncate(n.saturating_sub(some)),
            _ => (),
        }
        let changes = match way.ends_with("changed") && !records.is_empty() {
            true if way.starts_with("groups") => self.between(2, 4),
            true => 1,
            false => 0,
        };
        for _ in 0..changes {
            let place = self.between(0, records.len() - 1);
            let byte = self.between(0, RECORD_BYTES - 1);
            records[place][byte] ^= 1 << self.between(0, 7);
        }
        let marked = Mending {
            code: opened.code,
            sheet: opened.records.as_flattened().to_vec(),
            n: opened.records.len(),
            marks: opened.marks().as_flattened().to_vec(),
        };
        (way, self.kept(marked))
    }

    /// Marks that start as they must and are otherwise those held, but for where they are made to part; where the sheet
    /// held has no more, they are any words.
    fn parted(&mut self, held: &Mending) -> Own {
        let (w, n) = (CODES[held.code - 1].0, self.own_count(held.n));
        let mut marks = held.marks[..words_for(held.n)].to_vec();
        let more = words_for(n).saturating_sub(marks.len());
        marks.extend(self.words(more));
        marks.truncate(words_for(n));
        marks[..MARK_WORDS].copy_from_slice(&Luffa::new(w).state());
        let shared = held.n.min(n) / 4;
        if shared > 0 {
            let any = self.between(1, shared);
            let m = self.one_of(&[1, any, shared]);
            let word = MARK_WORDS * m + self.between(0, 8 * w - 1);
            match self.one_of(&APART) {
                "in a bit" => marks[word] ^= 1 << self.between(0, 31),
                "from a mark on" => {
                    let after = self.words(words_for(n) - MARK_WORDS * m);
                    marks[MARK_WORDS * m..].copy_from_slice(&after);
                }
                "in some marks" => {
                    for m in [m, any, any, self.between(1, shared)] {
                        marks[MARK_WORDS * m + self.between(0, 8 * w - 1)] ^= 1;
                    }
                }
                _ => (),
            }
        }
        Own { n, marks }
    }

    /// Any words in the unused blocks of marks, at times.
    fn set_unused(&mut self, code: usize, marks: &mut [u32]) {
        if self.between(0, 1) == 0 {
            for mark in marks.as_chunks_mut::<MARK_WORDS>().0 {
                for word in &mut mark[state_words(code)..] {
                    *word = self.next() as u32;
                }
            }
        }
    }

    /// A sheet whose marks are now and then spoiled.
    fn kept(&mut self, mut marked: Mending) -> Kept {
        let any = self.one_of(&WAYS);
        let way = self.one_of(&[Way::Not, Way::Not, any]);
        self.spoil_marks(way, &mut marked);
        Kept {
            plain: marked.plain(),
            true_marks: [Way::Not, Way::Unused].contains(&way),
            marked,
        }
    }

    /// The sheet held. The marks of a large one are any words.
    fn held(&mut self) -> Kept {
        let n = self.held_count();
        let mut held = match n > HASHED {
            false => {
                let marked = self.sheet_and_marks(n);
                self.kept(marked)
            }
            true => {
                let more = self.one_of(&[0, 0, 1, 40]);
                let marked = Mending {
                    code: self.code(),
                    sheet: self.bytes(RECORD_BYTES * n + more),
                    n,
                    marks: self.words(words_for(n) + more),
                };
                Kept {
                    plain: marked.plain(),
                    true_marks: false,
                    marked,
                }
            }
        };
        let marks = &mut held.marked.marks[..words_for(n)];
        self.set_unused(held.marked.code, marks);
        held
    }

    /// What the planner brings to a call: the marks of the sheet as it was opened, or words that part from those held.
    fn owned(&mut self, held: &Mending, opened: Option<&Kept>) -> Own {
        let mut own = match opened {
            Some(Kept { marked, .. }) => Own {
                n: marked.n,
                marks: marked.marks.clone(),
            },
            None => self.parted(held),
        };
        self.set_unused(held.code, &mut own.marks);
        let more = self.one_of(&[0, 0, 0, 1, 39, 40, 85]);
        own.marks.extend(self.words(more));
        own
    }

    /// A save of the sheet held, without a claim. For an append there is room, at times just enough; a change to an early
    /// group of a large sheet would take long.
    fn save(&mut self, call: Call, held: &Mending) -> Given {
        let mut given = Given::from(held.clone());
        let n = given.n;
        if call == Call::Append {
            let bytes = (RECORD_BYTES * (n + 1)).saturating_sub(given.sheet.len());
            given.sheet.extend(self.bytes(bytes));
            let words = words_for(n + 1).saturating_sub(given.marks.len());
            given.marks.extend(self.words(words));
        }
        given.place = self.between(n.saturating_sub(HASHED), n.max(1) - 1);
        given.record = self.bytes(RECORD_BYTES);
        let out = digest_bytes(given.code) + self.one_of(&[0, 0, 1, 40]);
        given.out = self.bytes(out);
        given
    }

    /// A claim that isn't the digest held: the planner's, if there is one, which at times is it after all.
    fn stale(&mut self, right: &[u8], planner: Option<&[u8]>) -> Vec<u8> {
        match planner {
            Some(digest) if self.between(0, 2) > 0 => return digest.to_vec(),
            _ => (),
        }
        let mut claim = right.to_vec();
        let last = claim.len() - 1;
        let any = self.between(0, last);
        let at = self.one_of(&[0, last, any]);
        claim[at] ^= 1 << self.between(0, 7);
        let other = self.bytes(last + 1);
        match self.between(0, 3) {
            0 => other,
            _ => claim,
        }
    }

    /// Has the planner's count or marks be those of no sheet at this code, and says how.
    fn refuse_own(&mut self, code: usize, own: &mut Own) -> String {
        match self.between(0, 11) {
            0..=2 => {
                let (name, many) = self.one_of(&TOO_MANY);
                own.n = many + if name.ends_with('n') { own.n } else { 0 };
                format!("own n is {name}")
            }
            3 => {
                own.n = MOST + 1;
                own.marks.resize(words_for(own.n), 0);
                "own 1,025 with room".into()
            }
            4 | 5 => format!("own {}", self.refuse_marks(own.n, &mut own.marks)),
            6 => {
                // No code is narrower than the first two.
                let known = NO_STARTS.len() - usize::from(code < 3);
                let way = self.one_of(&NO_STARTS[..known]);
                let start = &mut own.marks[..MARK_WORDS];
                match way {
                    "any words" => start.copy_from_slice(&self.words(MARK_WORDS)),
                    "zeros" => start.fill(0),
                    "swapped" => start.iter_mut().for_each(|word| *word = word.swap_bytes()),
                    _ => start[state_words(code - 1)..].fill(0),
                }
                format!("own mark 0 {way}")
            }
            _ => {
                let k = self.between(0, state_words(code) - 1);
                own.marks[k] ^= 1 << self.between(0, 31);
                format!("own mark 0, word {k}, code {code}")
            }
        }
    }

    /// Has this refusal of a save with own marks hold, and says how.
    fn refuse_one(
        &mut self,
        number: u64,
        call: Call,
        n: usize,
        given: &mut Given,
        own: &mut Own,
    ) -> String {
        // The count as it was, unless a drop has been left no record.
        let n = given.n.min(n);
        match (number, call) {
            (7, Call::Drop) => given.n = 0,
            (7, _) => {
                let (name, wide) = self.one_of(&NO_PLACES);
                let place = given.place * usize::from(name.ends_with("place"));
                let n = n * usize::from(name.starts_with('n'));
                given.place = place.wrapping_add(wide).wrapping_add(n);
            }
            (8, _) => match self.between(0, 9) {
                0 => {
                    given.n = MOST;
                    given.sheet.resize(RECORD_BYTES * (MOST + 1), 0);
                    given.marks.resize(words_for(MOST + 1), 0);
                }
                1..=5 if n % 4 == 3 => {
                    let words = words_for(n) + self.one_of(&[0, MARK_WORDS - 1]);
                    given.marks.truncate(words);
                }
                _ => {
                    let bytes = RECORD_BYTES * n + self.one_of(&[0, RECORD_BYTES - 1]);
                    given.sheet.truncate(bytes);
                }
            },
            (5, _) => match self.between(0, 9) {
                // An append is refused nothing else only where there is room for one more.
                k if k == 0 || k < 3 && call == Call::Append => {
                    given.n = MOST + 1;
                    given.sheet.resize(RECORD_BYTES * (MOST + 2), 0);
                    given.marks.resize(words_for(MOST + 2), 0);
                }
                0..=5 if n > 0 => {
                    let (_, short) = self.one_of(&TOO_SHORT);
                    let bytes = (RECORD_BYTES * n).saturating_sub(short);
                    given.sheet.truncate(bytes);
                }
                _ => {
                    let (name, many) = self.one_of(&TOO_MANY);
                    given.n = many + n * usize::from(name.ends_with('n'));
                }
            },
            (9, _) => {
                let length = self.one_of(&[0, 1, 39, 41, 80]);
                given.record.resize(length, 0);
            }
            (15, _) => return self.refuse_own(given.code, own),
            _ => return self.refuse_save(number, n, given),
        }
        format!("{number}")
    }

    /// Has one refusal of the call hold, or some of them, and says how.
    fn refuse_saves(&mut self, call: Call, given: &mut Given, own: &mut Own) -> Vec<(u64, String)> {
        let (all, n) = (can_hold(call), given.n);
        let one = 1 << self.between(0, all.len() - 1);
        let some = self.between(1, (1 << all.len()) - 1);
        let hold = self.one_of(&[one, some]);
        let hold = (0..all.len()).filter(|k| hold >> k & 1 == 1);
        hold.map(|k| (all[k], self.refuse_one(all[k], call, n, given, own)))
            .collect()
    }
}

/// The refusals of a save, in an order in which they can be had to hold together: the code, which says how long a digest
/// is, comes last, and a count that is too high makes room for its marks before there are too few.
fn can_hold(call: Call) -> &'static [u64] {
    match call {
        Call::Change => &[15, 7, 9, 10, 2, 5, 6, 1],
        Call::Append => &[15, 8, 9, 10, 2, 5, 6, 1],
        _ => &[15, 7, 10, 2, 5, 6, 1],
    }
}

/// The calls of a case that are refused, beside one that is refused 15.
const REFUSED: usize = 2;

/// A sheet and a planner's marks: each save of it with another claim, one with the right claim, and what is refused.
pub fn own(numbers: &mut Numbers, met: &mut Met) -> Agreed {
    let held = numbers.held();
    let marked = &held.marked;
    let seen = match marked.n <= HASHED && numbers.between(0, 1) == 0 {
        true => Some(numbers.opened(&held.plain)),
        false => None,
    };
    let opened = seen.as_ref().map(|(_, opened)| opened);
    let sheets = [held.truth(), opened.and_then(Kept::truth)];
    let right = sheet_model::held(&Given::from(marked.clone())).0;
    let digest = opened.map(|opened| opened.plain.digest());
    for save in CALLS {
        let mut given = numbers.save(save, marked);
        given.claim = numbers.stale(&right, digest.as_deref());
        let own = numbers.owned(marked, opened);
        let answer = call(save, &mut given, &own, sheets, met)?;
        if let (Some((way, _)), true) = (&seen, answer.stale()) {
            met.see(format!("Own {}, opened: {way}", answer.number));
        }
    }
    let save = numbers.one_of(&CALLS);
    let mut given = numbers.save(save, marked);
    given.claim = right.clone();
    let own = numbers.owned(marked, opened);
    call(save, &mut given, &own, sheets, met)?;

    // Large buffers take long to compare.
    if marked.n > HASHED {
        return Ok(());
    }
    for k in 0..=REFUSED {
        let save = numbers.one_of(&CALLS);
        let mut given = numbers.save(save, marked);
        let claimed = numbers.between(0, 1) == 0;
        given.claim = match claimed {
            true => right.clone(),
            false => numbers.stale(&right, None),
        };
        let mut own = numbers.owned(marked, opened);
        let ways = match k {
            0 => vec![(15, numbers.refuse_own(given.code, &mut own))],
            _ => numbers.refuse_saves(save, &mut given, &mut own),
        };
        let answer = call(save, &mut given, &own, [None, None], met)?;
        see_refused(met, &ways, &answer, claimed);
    }
    Ok(())
}
