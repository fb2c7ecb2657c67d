//! Histories of a sheet: built, then saved by two planners whose digests are at times outdated, who at times
//! bring the marks that they have seen last, with arguments that are at times refused and marks that are at times
//! false, or spoiled and mended. Every call goes through calls.rs; while the marks are true, the plain sheet of
//! the separately written program is held beside it.

use crate::mend_model::{MendAnswer, Mending};
use crate::mends::{self, WAYS};
use crate::met::{answer_kinds, Met};
use crate::model::{digest_bytes, state_words};
use crate::own::Own;
use crate::own_model;
use crate::sheet::{Mark, Saved, Sheet, MARK_WORDS, MOST, RECORD_BYTES};
use crate::sheet_model::{held, refusals, Answer, Call, Given};
use crate::{batch, batches, calls, close_up, close_up_kinds, close_ups, owns};
use crate::{Agreed, Numbers};
use std::cmp::Ordering::Equal;

const CALLS: [Call; 6] = [
    Call::Build,
    Call::Change,
    Call::Append,
    Call::Drop,
    Call::Batch,
    Call::CloseUp,
];

/// The calls whose arguments are spoiled here. Batches and closing up have cases of their own for that, in batches.rs
/// and close_ups.rs.
const SPOILED: &[Call] = CALLS.split_at(4).0;

impl Met {
    /// Counts what a call was: the number answered, and the refusals that hold.
    fn note(&mut self, call: Call, given: &Given, number: u64, hold: &[u64], false_marks: bool) {
        let (code, n) = (given.code, given.n);
        self.see_answer(&format!("{call:?}"), number, hold);
        let fits = |n| {
            let (sheet, marks) = (given.sheet.len(), given.marks.len());
            (sheet.cmp(&(RECORD_BYTES * n)), marks.cmp(&words_for(n)))
        };
        if hold == [8] {
            let (sheet, marks) = fits(n + 1);
            match (n == MOST, sheet.is_lt(), marks.is_lt()) {
                (true, false, false) => self.see("Append full at 1,024 alone".into()),
                (false, true, false) => self.see("Append full for the sheet alone".into()),
                (false, false, true) => self.see("Append full for the marks alone".into()),
                _ => (),
            }
        }
        if call != Call::Build && false_marks {
            match number {
                0 => self.see(format!("{call:?} done, marks false")),
                11 => self.see(format!("{call:?} stale, marks false")),
                _ => (),
            }
        }
        if number != 0 {
            return;
        }
        self.see(format!("{call:?} done, code {code}"));
        if EDGES.contains(&n) {
            self.see(format!("{call:?} done, n = {n}"));
        }
        let needed = if call == Call::Append { n + 1 } else { n };
        if fits(needed) == (Equal, Equal) {
            self.see(format!("{call:?} done, buffers just enough, code {code}"));
        }
        match call {
            Call::Append if n % 4 == 3 => self.see("Append done, mark written".into()),
            Call::Drop if n % 4 == 0 => self.see("Drop done, mark zeroed".into()),
            _ => (),
        }
    }
}

/// Prints the counts, and answers the kinds that should have been met and weren't.
pub fn print(met: &Met) -> Vec<String> {
    println!("sheet calls, by the number answered:");
    for call in CALLS {
        met.print_answers(&format!("{call:?}"), numbers_of(call));
    }
    met.unmet(wanted())
}

/// Every kind that a whole run has to meet.
fn wanted() -> Vec<String> {
    let mut kinds: Vec<String> = [
        "Append done, mark written",
        "Drop done, mark zeroed",
        "Append full at 1,024 alone",
        "Append full for the sheet alone",
        "Append full for the marks alone",
        "words of an unused block set",
        "true marks mended",
        "false marks mended",
        "marks spoiled and mended",
    ]
    .map(String::from)
    .into();
    for call in CALLS {
        let numbers = numbers_of(call);
        let refusals: Vec<u64> = numbers
            .iter()
            .copied()
            .filter(|n| ![0, 11].contains(n))
            .collect();
        kinds.extend(answer_kinds(&format!("{call:?}"), numbers, &refusals));
        for n in EDGES {
            kinds.push(format!("{call:?} done, n = {n}"));
        }
        for code in 1..=4 {
            kinds.push(format!("{call:?} done, code {code}"));
            kinds.push(format!("{call:?} done, buffers just enough, code {code}"));
        }
        if call != Call::Build {
            for what in [
                "done, marks false",
                "stale, marks false",
                "stale, outdated digest",
                "stale, last byte",
                "done, marks mended",
                "stale, marks mended",
                "done, closed up",
                "stale, closed up",
            ] {
                kinds.push(format!("{call:?} {what}"));
            }
        }
    }
    for call in owns::CALLS {
        kinds.push(format!("{call:?} own stale, outdated digest"));
        for number in [0, 11, 16] {
            kinds.push(format!("{call:?} own {number} in a history"));
        }
    }
    kinds.retain(|kind| !IMPOSSIBLE.iter().any(|end| kind.ends_with(end)));
    kinds
}

/// Numbers of records at which each call must be done.
pub const EDGES: [usize; 7] = [0, 1, 3, 4, 5, 1023, MOST];

/// An unknown code has no digest length; a sheet of no records is never too short; marks too few for
/// n are too few for n + 1.
const IMPOSSIBLE: [&str; 7] = [
    "with 1 and 2",
    "with 1 and 10",
    "Drop with 5 and 7",
    "Append with 6 alone",
    "Append done, n = 1024",
    "Change done, n = 0",
    "Drop done, n = 0",
];

/// The numbers that the documents let a call give, the refusals in their order.
fn numbers_of(call: Call) -> &'static [u64] {
    match call {
        Call::Build => &[0, 1, 2, 5, 6],
        Call::Change => &[0, 1, 2, 5, 6, 7, 9, 10, 11],
        Call::Batch => &[0, 1, 2, 5, 6, 14, 7, 9, 10, 11],
        Call::Append => &[0, 1, 2, 5, 6, 8, 9, 10, 11],
        Call::Drop => &[0, 1, 2, 5, 6, 7, 10, 11],
        Call::CloseUp => &[0, 1, 2, 5, 6, 23, 10, 11],
    }
}

/// A sheet under way.
#[derive(Clone)]
pub struct History {
    pub code: usize,
    pub n: usize,
    sheet: Vec<u8>,
    marks: Vec<u32>,
    /// The plain sheet, while the marks are true, and its digest.
    plain: Option<Sheet>,
    digest: Vec<u8>,
    /// Whether the marks are true because they were mended.
    mended: bool,
    /// Whether struck records have been closed up.
    closed_up: bool,
    /// What each planner has seen last.
    seen: [Seen; 2],
}

/// A digest and marks as a planner has them, and the plain sheet that both are of, if they are of one.
#[derive(Clone, Default)]
struct Seen {
    digest: Vec<u8>,
    own: Own,
    plain: Option<Sheet>,
}

pub fn words_for(n: usize) -> usize {
    MARK_WORDS * (n / 4 + 1)
}

impl Numbers {
    pub fn words(&mut self, n: usize) -> Vec<u32> {
        (0..n).map(|_| self.next() as u32).collect()
    }

    /// A number of records: those where a group or the sheet begins or ends, or any. Large sheets
    /// take long, so there are few.
    fn records(&mut self) -> usize {
        match self.between(0, 299) {
            0 => MOST,
            1 | 2 => 1023,
            3 => self.between(1000, MOST),
            4..=9 => self.between(30, 150),
            10..=150 => self.one_of(&[0, 0, 1, 3, 4, 5]),
            _ => self.between(0, 24),
        }
    }
}

/// A sheet of any bytes, at times with struck records, and with buffers that are just large enough or larger. Its marks
/// are any words, and so is what the planners have seen.
fn any_sheet(numbers: &mut Numbers) -> History {
    let n = numbers.records();
    let room = n + numbers.one_of(&[0, 1, 1, 2, 6]);
    let sheet = RECORD_BYTES * room + numbers.one_of(&[0, 0, 0, 1, 39]);
    let room = n + numbers.one_of(&[0, 1, 1, 2, 6]);
    let marks = words_for(room) + numbers.one_of(&[0, 0, 0, 1, 39]);
    let code = numbers.code();
    let d = digest_bytes(code);
    let mut sheet = numbers.bytes(sheet);
    if numbers.between(0, 1) == 0 {
        numbers.strike_any(&mut sheet[..RECORD_BYTES * n]);
    }
    History {
        code,
        n,
        sheet,
        marks: numbers.words(marks),
        plain: None,
        digest: vec![],
        mended: false,
        closed_up: false,
        seen: [d, d].map(|d| Seen {
            digest: numbers.bytes(d),
            ..Seen::default()
        }),
    }
}

/// The first mark of which the words that the code uses aren't the true ones.
fn untrue(code: usize, truth: &[Mark], marks: &[u32]) -> Option<usize> {
    let used = state_words(code);
    (0..truth.len()).find(|&m| marks[MARK_WORDS * m..][..used] != truth[m][..used])
}

impl History {
    /// A sheet and its marks as they were found, of which no planner knows the digest.
    pub fn found(held: Mending) -> History {
        let plain = held.plain();
        let true_marks = untrue(held.code, &plain.marks(), &held.marks).is_none();
        History {
            code: held.code,
            n: held.n,
            sheet: held.sheet,
            marks: held.marks,
            plain: true_marks.then_some(plain),
            digest: vec![],
            mended: false,
            closed_up: false,
            seen: Default::default(),
        }
    }

    /// A new record for the place: any bytes, or so many times in ten those held. Now and then it strikes the well, or
    /// nearly so.
    fn record(&self, numbers: &mut Numbers, place: usize, times: usize) -> Vec<u8> {
        let mut held = self.sheet[..RECORD_BYTES * self.n].chunks(RECORD_BYTES);
        match held.nth(place) {
            Some(held) if numbers.between(1, 10) <= times => held.to_vec(),
            _ => match numbers.between(0, 7) {
                0 => vec![0; RECORD_BYTES],
                1 => numbers.nearly_struck().to_vec(),
                _ => numbers.bytes(RECORD_BYTES),
            },
        }
    }

    /// A call as the planner means it.
    pub fn given(&self, numbers: &mut Numbers, planner: usize) -> Given {
        let place = match self.n {
            0 => 0,
            n => {
                let any = numbers.between(0, n - 1);
                numbers.one_of(&[0, n / 2, n - 1, any])
            }
        };
        let d = digest_bytes(self.code);
        let out = numbers.one_of(&[d, d, d + 1, 100]);
        let places = numbers.places(self.n);
        let times = numbers.one_of(&[0, 0, 0, 0, 5, 10]);
        let records = places
            .iter()
            .flat_map(|&place| self.record(numbers, place, times))
            .collect();
        Given {
            code: self.code,
            sheet: self.sheet.clone(),
            n: self.n,
            marks: self.marks.clone(),
            place,
            record: self.record(numbers, place, 1),
            places,
            records,
            claim: self.seen[planner].digest.clone(),
            list: numbers.list(self.n),
            out: numbers.bytes(out),
        }
    }

    /// Makes the call on both sides, judges it by the plain sheet too, and takes over what it left.
    pub fn call(&mut self, call: Call, mut given: Given, met: &mut Met) -> Result<Answer, String> {
        let before = given.clone();
        let hold = refusals(call, &given);
        let answer = calls::sheet(call, &mut given)?;
        met.note(call, &before, answer.number, &hold, self.plain.is_none());
        let true_marks = self.plain.is_some();
        match (call, answer.number) {
            (Call::Batch, _) => batches::judge(&before, &given, &answer, true_marks, met)?,
            (Call::CloseUp, 0) => close_ups::judge(&before, &given, &answer)?,
            _ => (),
        }
        if call == Call::CloseUp {
            close_up_kinds::see(met, &before, &given, &answer, true_marks);
        }
        for (holds, after) in [(self.mended, "marks mended"), (self.closed_up, "closed up")] {
            match answer.number {
                0 if holds => met.see(format!("{call:?} done, {after}")),
                11 if holds => met.see(format!("{call:?} stale, {after}")),
                _ => (),
            }
        }
        self.closed_up |= call == Call::CloseUp && given.n < before.n;
        self.take_over(call, &before, &given, &hold, answer)?;
        Ok(answer)
    }

    /// The same of a save with the marks that the planner has seen last. Its answer is the plain save's: a stale one is
    /// 11, whatever was said of the marks.
    fn call_own(
        &mut self,
        call: Call,
        mut given: Given,
        planner: usize,
        met: &mut Met,
    ) -> Result<Answer, String> {
        let before = given.clone();
        let Seen { own, plain, .. } = &self.seen[planner];
        let hold = own_model::refusals(call, &given, own);
        let sheets = [self.plain.as_ref(), plain.as_ref()];
        let answer = owns::call(call, &mut given, own, sheets, met)?;
        if hold.is_empty() && sheets.iter().all(Option::is_some) {
            met.see(format!("{call:?} own {} in a history", answer.number));
        }
        self.take_over(call, &before, &given, &hold, answer.plain())?;
        Ok(answer.plain())
    }

    /// Takes over what a call left, and judges it by the plain sheet.
    fn take_over(
        &mut self,
        call: Call,
        before: &Given,
        given: &Given,
        hold: &[u64],
        answer: Answer,
    ) -> Agreed {
        let number = answer.number;
        // A call that was lent less of a buffer leaves the rest of it as it was.
        if number == 0 {
            self.n = given.n;
            self.sheet[..given.sheet.len()].copy_from_slice(&given.sheet);
            self.marks[..given.marks.len()].copy_from_slice(&given.marks);
        }
        if call == Call::Build && number == 0 {
            self.plain = Some(self.mending().plain());
            self.mended = false;
        }
        match hold {
            [] | [7] | [14] | [14, 7] => self.plain_agrees(call, before, &answer, given),
            _ => Ok(()),
        }
    }

    /// The plain sheet does the same: its answer, its records, the old places of those that are closed up, its digest
    /// and the used words of all marks must be those left.
    fn plain_agrees(
        &mut self,
        call: Call,
        before: &Given,
        answer: &Answer,
        after: &Given,
    ) -> Agreed {
        let Some(plain) = &mut self.plain else {
            return Ok(());
        };
        let mut places = vec![];
        let claim = &before.claim[..];
        let record = || before.record[..].try_into().unwrap();
        let saved = match call {
            Call::Build => Saved::Done(plain.build()),
            Call::Change => plain.change(before.place, record(), claim),
            Call::Batch => {
                let records = before.records.as_chunks().0.iter().copied();
                let changes: Vec<_> = before.places.iter().copied().zip(records).collect();
                batch::save(plain, &changes, claim)
            }
            Call::Append => plain.append(record(), claim),
            Call::Drop => plain.drop(claim),
            Call::CloseUp => {
                let (saved, left) = close_up::save(plain, claim);
                places = left;
                saved
            }
        };
        let (number, rounds) = match saved {
            Saved::Done(rounds) => (0, rounds),
            Saved::NoPlace => (7, 0),
            Saved::Full => (8, 0),
            Saved::Stale(rounds) => (11, rounds),
            Saved::NoSet => (14, 0),
        };
        let count = plain.records.len();
        let want = Answer {
            number,
            count: count as u64,
            rounds,
        };
        let what = format!("{call:?} at code {}, n = {}", before.code, before.n);
        if *answer != want {
            return Err(format!("{what}: {answer:?}, the plain sheet {want:?}\n"));
        }
        if self.sheet[..RECORD_BYTES * count] != *plain.records.as_flattened() {
            return Err(format!("{what}: other records than the plain sheet's\n"));
        }
        let list = after.list.iter().map(|&place| usize::from(place));
        if !list.take(places.len()).eq(places) {
            return Err(format!("{what}: other places than the plain sheet's\n"));
        }
        if number == 0 {
            self.digest = plain.digest();
        }
        if number == 0 && !after.out.starts_with(&self.digest) {
            return Err(format!("{what}: another digest than the plain sheet's\n"));
        }
        let truth = match call {
            Call::CloseUp => close_up::marks_left(before.n, plain),
            _ => plain.marks(),
        };
        match untrue(before.code, &truth, &self.marks) {
            Some(m) => Err(format!("{what}: mark {m} isn't the plain sheet's\n")),
            None => Ok(()),
        }
    }

    fn mending(&self) -> Mending {
        Mending {
            code: self.code,
            sheet: self.sheet.clone(),
            n: self.n,
            marks: self.marks.clone(),
        }
    }

    /// Mends the marks, at times spoiled first, and judges this by the plain sheet: only marks that aren't its
    /// marks are wrong, so true ones are left as they are. From here on saves go on as if nothing had happened.
    fn mend(&mut self, numbers: &mut Numbers, met: &mut Met) -> Agreed {
        let mut given = self.mending();
        let spoil = numbers.between(0, 1) == 0;
        if spoil {
            let way = numbers.one_of(&WAYS);
            numbers.spoil_marks(way, &mut given);
        }
        let plain = given.plain();
        let (marks, _) = given.marks.as_chunks::<MARK_WORDS>();
        let truth = plain.marks();
        let wrong: Vec<usize> = (0..truth.len()).filter(|&m| marks[m] != truth[m]).collect();
        let want = MendAnswer {
            number: 0,
            wrong: wrong.len() as u64,
            first: wrong.first().map_or(0, |&m| m as u64),
            rounds: 5 * (self.n / 4) as u64,
        };
        let answer = mends::call(&mut given, met)?;
        let what = format!("a mend at code {}, n = {}", self.code, self.n);
        if answer != want {
            return Err(format!("{what}: {answer:?}, the plain sheet {want:?}\n"));
        }
        if given.marks[..words_for(self.n)] != *truth.as_flattened() {
            return Err(format!("{what}: other marks than the plain sheet's\n"));
        }
        match (wrong.is_empty(), spoil, self.plain.is_some()) {
            (true, false, true) => met.see("true marks mended".into()),
            (false, true, true) => met.see("marks spoiled and mended".into()),
            (false, false, false) => met.see("false marks mended".into()),
            _ => (),
        }
        self.mended |= !wrong.is_empty();
        self.marks = given.marks;
        self.digest = plain.digest();
        self.plain = Some(plain);
        Ok(())
    }

    /// One thing wrong with the arguments. Some are only wrong for some calls.
    fn spoil(&self, given: &mut Given, numbers: &mut Numbers) {
        let n = self.n;
        let d = digest_bytes(self.code);
        // Such as are few once they are cut to 32 bits, or whose bytes are few once cut to 64.
        let (wide, wraps) = (1 << 32, usize::MAX / 40 + 1);
        match numbers.between(0, 13) {
            0 => given.code = numbers.one_of(&[0, 5, 6, 1 << 8 | 2, 1 << 32 | 4, usize::MAX]),
            1 => given.out.truncate(d - 1),
            2 => given.n = numbers.one_of(&[MOST + 1, MOST + 4, wide, wide + n, wraps]),
            3 => given.n = numbers.one_of(&[usize::MAX, usize::MAX - 3, 1 << 63, 1 << 62]),
            4 => given.sheet.truncate((RECORD_BYTES * n).saturating_sub(1)),
            5 => given
                .marks
                .truncate(words_for(n) - numbers.one_of(&[1, 40])),
            6 => given.place = numbers.one_of(&[n, n + 1, wide, wraps, usize::MAX, 1 << 63]),
            7 => given
                .sheet
                .truncate(RECORD_BYTES * n + numbers.one_of(&[0, 39])),
            8 => given
                .marks
                .truncate(words_for(n) + numbers.one_of(&[0, 39])),
            9 => {
                let length = numbers.one_of(&[0, 1, 39, 41, 80]);
                given.record.resize(length, 0);
            }
            10 => {
                let length = numbers.one_of(&[0, d - 1, d + 1, 28, 32, 48, 64]);
                given.claim.resize(length, 0);
            }
            11 => {
                let at = numbers.between(0, d - 1);
                given.claim.resize(d, 0);
                given.claim[at] ^= 1 << numbers.between(0, 7);
            }
            12 => given.claim = numbers.bytes(d),
            _ => {
                // Too many, though the buffers have room for them.
                given.n = MOST + 1;
                given.sheet.resize(RECORD_BYTES * (MOST + 2), 0);
                given.marks.resize(words_for(MOST + 2), 0);
            }
        }
    }

    fn open(&mut self, planner: usize, numbers: &mut Numbers, met: &mut Met) -> Agreed {
        let given = self.given(numbers, planner);
        let answer = self.call(Call::Build, given, met)?;
        assert_eq!(answer.number, 0);
        self.look(planner);
        Ok(())
    }

    /// The planner sees the sheet as it is, with marks that are true.
    fn look(&mut self, planner: usize) {
        self.seen[planner] = Seen {
            digest: self.digest.clone(),
            own: Own {
                n: self.n,
                marks: self.marks[..words_for(self.n)].to_vec(),
            },
            plain: self.plain.clone(),
        };
    }

    /// A planner's save, at times with the marks that were seen last. Of large sheets there are few, and each plain save
    /// of them must be met too.
    fn save(
        &mut self,
        call: Call,
        given: Given,
        planner: usize,
        numbers: &mut Numbers,
        met: &mut Met,
    ) -> Result<(Answer, bool), String> {
        let one_in = if self.n < 1000 { 3 } else { 6 };
        let own = owns::CALLS.contains(&call) && numbers.between(1, one_in) == 1;
        let answer = match own {
            true => self.call_own(call, given, planner, met)?,
            false => self.call(call, given, met)?,
        };
        Ok((answer, own))
    }

    /// One planner's next doing.
    fn step(&mut self, numbers: &mut Numbers, met: &mut Met) -> Agreed {
        let planner = numbers.between(0, 1);
        // Of large sheets there are few, and each other save of them must be met; close_ups.rs has its own.
        let calls = if self.n < 1000 { 1..6 } else { 1..5 };
        let call = numbers.one_of(&CALLS[calls]);
        let d = digest_bytes(self.code);

        let used = state_words(self.code);
        let some_mark = MARK_WORDS * numbers.between(0, self.n / 4);
        match numbers.between(0, 19) {
            0 => {
                // A false mark. From here to the next build only the steps decide.
                let at = some_mark + numbers.between(0, used - 1);
                self.marks[at] ^= 1 << numbers.between(0, 31);
                self.plain = None;
                self.mended = false;
            }
            1 | 2 if used < MARK_WORDS => {
                let at = some_mark + numbers.between(used, MARK_WORDS - 1);
                self.marks[at] = numbers.next() as u32;
                met.see("words of an unused block set".into());
            }
            3 => return self.open(planner, numbers, met),
            4 => self.mend(numbers, met)?,
            _ => (),
        }
        if self.plain.is_none() && numbers.between(0, 3) == 0 {
            return self.open(planner, numbers, met);
        }

        // With false marks a planner can know at best what the steps give.
        let mut given = self.given(numbers, planner);
        if self.plain.is_none() && numbers.between(0, 2) > 0 {
            given.claim = held(&given).0;
        }
        let outdated = self.plain.is_some() && self.digest != given.claim;
        match numbers.between(0, 5) {
            0 => {
                for _ in 0..numbers.one_of(&[1, 2, 3, 4]) {
                    self.spoil(&mut given, numbers);
                }
                let call = numbers.one_of(SPOILED);
                self.call(call, given, met)?;
                return Ok(());
            }
            1 if !outdated => {
                let any = numbers.between(0, d - 1);
                let at = numbers.one_of(&[0, d - 1, d - 1, any]);
                given.claim[at] ^= 1 << numbers.between(0, 7);
                let (answer, own) = self.save(call, given, planner, numbers, met)?;
                if answer.number == 11 && at == d - 1 && !own {
                    met.see(format!("{call:?} stale, last byte"));
                }
                return Ok(());
            }
            _ => (),
        }
        let (answer, own) = self.save(call, given, planner, numbers, met)?;
        match answer.number {
            11 if outdated => {
                let own = if own { " own" } else { "" };
                met.see(format!("{call:?}{own} stale, outdated digest"));
                if numbers.between(0, 1) == 0 {
                    self.open(planner, numbers, met)?;
                }
            }
            0 if self.plain.is_some() => self.look(planner),
            _ => (),
        }
        Ok(())
    }
}

pub fn history(numbers: &mut Numbers, met: &mut Met) -> Agreed {
    let mut history = any_sheet(numbers);
    // At times nothing was ever built, and the marks are any words.
    if numbers.between(0, 15) > 0 {
        history.open(0, numbers, met)?;
        history.seen[1] = history.seen[0].clone();
    }
    for _ in 0..numbers.between(2, 10) {
        history.step(numbers, met)?;
    }
    Ok(())
}
