//! The cases, and running them on both sides.
use crate::callgrind::counted;
use crate::plain::{self, Account, Fields, Hold, STRIP};
use crate::proved;
use crate::records::{self, CARD, OTHER_CARD, Records, authorise, book, bytes_of, inquire};
use std::hint::black_box;

const FULL: usize = plain::FULL;
const HOLDS: usize = 64;

const ACCOUNTS: [Account; 2] = [
    Account {
        card: CARD,
        balance: 70_000,
    },
    Account {
        card: OTHER_CARD,
        balance: 5_000,
    },
];

#[derive(Clone, Copy, PartialEq, Eq, Debug)]
pub enum Side {
    Proved,
    Plain,
}

const SIDES: [Side; 2] = [Side::Proved, Side::Plain];

/// What a run leaves: how many were handled, their answers and the holds.
#[derive(PartialEq, Eq)]
pub struct Left {
    handled: usize,
    answers: Vec<u8>,
    holds: Vec<Hold>,
}

impl Left {
    fn new(holds: usize, records: &Records) -> Left {
        Left {
            handled: 0,
            answers: vec![0xAA; records.count * FULL],
            holds: vec![Hold::default(); holds],
        }
    }
}

impl Side {
    pub fn name(self) -> &'static str {
        match self {
            Side::Proved => "proved",
            Side::Plain => "plain",
        }
    }

    fn run(self, records: &[u8], left: &mut Left) {
        let run = match self {
            Side::Proved => proved::run,
            Side::Plain => plain::run,
        };
        // hidden, so that neither is compiled for these accounts
        let accounts = black_box(&ACCOUNTS[..]);
        left.handled = run(accounts, &mut left.holds, records, &mut left.answers);
    }

    fn open(self, message: &[u8], strip: &mut [u8], fields: &mut Fields) -> u8 {
        match self {
            Side::Proved => proved::open_into(message, strip, fields),
            Side::Plain => plain::open_into(message, strip, fields),
        }
    }

    fn write(self, fields: &Fields, buffer: &mut [u8], length: &mut usize) -> u8 {
        match self {
            Side::Proved => proved::write_into(fields, buffer, length),
            Side::Plain => plain::write_into(fields, buffer, length),
        }
    }
}

/// Messages that are measured after others: what a run of all takes more than one of the first ones.
pub struct Case {
    pub name: &'static str,
    holds: usize,
    before: Records,
    all: Records,
    // what the last message is answered
    code: u8,
}

impl Case {
    fn new(name: &'static str, holds: usize, before: Records, measured: &[u8]) -> Case {
        let mut all = before.clone();
        all.push(measured);
        Case {
            name,
            holds,
            before,
            all,
            code: 0,
        }
    }

    fn refused(self, code: u8) -> Case {
        Case { code, ..self }
    }

    /// Runs both parts on both sides, each once before it is counted.
    pub fn count(&self) {
        let messages = self.all.count - self.before.count;
        for side in SIDES {
            for (part, records) in [("base", &self.before), ("all", &self.all)] {
                let mut left = Left::new(self.holds, &self.all);
                side.run(&records.bytes, &mut left);
                let name = format!("{}|{}|{part}|{messages}", self.name, side.name());
                counted(&name, || side.run(&records.bytes, &mut left));
            }
        }
    }

    pub fn compare(&self) -> bool {
        let mut left = Left::new(self.holds, &self.all);
        Side::Proved.run(&self.all.bytes, &mut left);
        let last = left.answers.chunks_exact(FULL).last().map(code_of);
        let same = same_answers(self.holds, &self.all) && last == Some(self.code);
        if !same {
            eprintln!(
                "the two differ, or the last answer is another: {}",
                self.name
            );
        }
        same
    }
}

fn code_of(answer: &[u8]) -> u8 {
    // a full answer has its code last, a short one third
    if answer[0] == 0xE5 {
        answer[FULL - 1]
    } else {
        answer[2]
    }
}

// Whether both handle all of the records, and leave the same answers and holds.
fn same_answers(holds: usize, records: &Records) -> bool {
    let [proved, plain] = SIDES.map(|side| {
        let mut left = Left::new(holds, records);
        side.run(&records.bytes, &mut left);
        left
    });
    proved == plain && proved.handled == records.count
}

// A card whose last digit is another, so that it fails the Luhn check.
fn refused_card() -> Vec<u8> {
    let mut message = bytes_of(&authorise(1, 1, 1_000));
    message[42] ^= 1;
    message
}

fn two_remembered() -> Records {
    let mut records = Records::default();
    records.send(&records::batch(7, 1, records::BATCH));
    records.send(&authorise(2, 1, 1_000));
    records
}

pub const PLAUSIBLE: &str = "a plausible meeting";

// A case over 64 rows for holds.
fn case(name: &'static str, before: Records, measured: &Fields) -> Case {
    Case::new(name, HOLDS, before, &bytes_of(measured))
}

fn authorisations() -> [Case; 3] {
    let first = authorise(1, 1, 1_000);
    let last = authorise(64, 64, 1_000);
    let few = "an authorisation, empty books, 4 rows for holds";
    let many = "an authorisation, empty books, 64 rows for holds";
    let late = "the 64th authorisation, 63 holds in 64 rows";
    [
        Case::new(few, 4, Records::default(), &bytes_of(&first)),
        case(many, Records::default(), &first),
        case(late, records::authorised(63), &last),
    ]
}

fn repeats() -> [Case; 3] {
    let one = "a repeat, 1 remembered answer";
    let some = "a repeat of the last of 64 remembered answers";
    let full = "a repeat of the last of 256 remembered answers";
    [
        case(one, records::authorised(1), &authorise(1, 1, 1_000)),
        case(some, records::authorised(64), &authorise(64, 64, 1_000)),
        case(full, records::busy(256), &authorise(256, 64, 1_000)),
    ]
}

fn captures() -> [Case; 2] {
    let early = "a capture, 2 remembered answers";
    let late = "a capture, 255 remembered answers and 64 purchases";
    [
        case(early, two_remembered(), &book(3, 3, 1, 900)),
        case(late, records::busy(255), &book(3, 256, 64, 900)),
    ]
}

fn inquiries() -> [Case; 2] {
    let early = "an inquiry, 1 purchase";
    let late = "an inquiry about the last of 64 purchases";
    [
        case(early, records::authorised(1), &inquire(1)),
        case(late, records::authorised(64), &inquire(64)),
    ]
}

fn refusals() -> [Case; 2] {
    let short = &bytes_of(&authorise(1, 1, 1_000))[..52];
    let card = "a card that fails the Luhn check";
    [
        Case::new(card, HOLDS, Records::default(), &refused_card()).refused(6),
        Case::new("a wrong length", HOLDS, Records::default(), short).refused(5),
    ]
}

pub fn cases() -> Vec<Case> {
    let mut cases: Vec<Case> = authorisations().into();
    cases.extend(repeats());
    cases.extend(captures());
    cases.extend(inquiries());
    cases.extend(refusals());
    cases.push(Case {
        name: PLAUSIBLE,
        holds: HOLDS,
        before: Records::default(),
        all: records::plausible(),
        // its last message names a batch that is closed
        code: 20,
    });
    cases
}

/// The calls that are measured alone.
pub const CALLS: [&str; 4] = [
    "opening alone, kind 1",
    "opening alone, kind 9",
    "writing alone, kind 1",
    "writing alone, kind 9",
];

// So many calls are counted, and twice as many.
const CALLED: usize = 100;

fn count_call(name: &str, side: Side, mut call: impl FnMut(Side)) {
    for (part, times) in [("base", CALLED), ("all", 2 * CALLED)] {
        call(side);
        let name = format!("{name}|{}|{part}|{CALLED}", side.name());
        counted(&name, || (0..times).for_each(|_| call(side)));
    }
}

/// Counts opening and writing alone, and compares what they give.
pub fn count_calls() -> bool {
    let messages = [authorise(1, 1, 1_000), inquire(1)];
    let mut same = true;
    for (at, m) in messages.iter().enumerate() {
        let bytes = bytes_of(m);
        for side in SIDES {
            let (mut strip, mut fields) = ([7; STRIP], Fields::default());
            count_call(CALLS[at], side, |side| {
                side.open(
                    black_box(&bytes),
                    black_box(&mut strip),
                    black_box(&mut fields),
                );
            });
            same &= fields == *m && strip == [0; STRIP];
            let (mut buffer, mut length) = ([0; 60], 0);
            count_call(CALLS[2 + at], side, |side| {
                side.write(black_box(m), black_box(&mut buffer), black_box(&mut length));
            });
            same &= buffer[..length] == bytes[..] && buffer[length..].iter().all(|byte| *byte == 0);
        }
    }
    same
}

pub const RANDOM: &str = "random meetings";
const SEEDS: u64 = 20;
const LENGTH: usize = 400;

/// Counts random meetings, all seeds together, and compares their answers.
pub fn count_random() -> bool {
    let meetings: Vec<Records> = (1..=SEEDS)
        .map(|seed| records::random(seed, LENGTH))
        .collect();
    let messages = LENGTH * meetings.len();
    for side in SIDES {
        let mut left = Left::new(HOLDS, &meetings[0]);
        side.run(&meetings[0].bytes, &mut left);
        for part in ["base", "all"] {
            let name = format!("{RANDOM}|{}|{part}|{messages}", side.name());
            let bytes = |meeting: &Records| {
                if part == "base" {
                    0
                } else {
                    meeting.bytes.len()
                }
            };
            counted(&name, || {
                for meeting in &meetings {
                    side.run(&meeting.bytes[..bytes(meeting)], &mut left);
                }
            });
        }
    }
    let same = meetings.iter().all(|meeting| same_answers(HOLDS, meeting));
    if !same {
        eprintln!("the two differ on a random meeting");
    }
    same
}

/// Compares both on all cases and on random meetings from so many seeds, over few and many rows for holds, and opening and
/// writing on all of their messages.
pub fn compare(seeds: u64) -> bool {
    let mut same = cases().iter().all(Case::compare);
    let mut codes = [0usize; 26];
    for seed in 0..seeds {
        let meeting = records::random(seed, 300 + seed as usize % 400);
        let holds = [HOLDS, 4, 20, 0][seed as usize % 4];
        same &= same_answers(holds, &meeting) && same_calls(&meeting);
        note_codes(holds, &meeting, &mut codes);
    }
    for (code, count) in codes.iter().enumerate() {
        println!("code {code:2}: {count}");
    }
    same
}

// How often each code was answered.
fn note_codes(holds: usize, meeting: &Records, codes: &mut [usize; 26]) {
    let mut left = Left::new(holds, meeting);
    Side::Plain.run(&meeting.bytes, &mut left);
    for answer in left.answers.chunks_exact(FULL) {
        codes[usize::from(code_of(answer))] += 1;
    }
}

// Opening each message on both sides, on a strip of its length or under it, and writing what was opened, changed a little.
fn same_calls(meeting: &Records) -> bool {
    let mut rest = &meeting.bytes[..];
    let mut turn = 0;
    let mut same = true;
    while let Some((message, after)) = plain::first_record(rest) {
        rest = after;
        turn += 1;
        let strip = if turn % 50 == 0 {
            STRIP - 1
        } else {
            STRIP + turn % 3
        };
        let opened = SIDES.map(|side| {
            let (mut strip, mut fields) = (vec![7; strip], Fields::default());
            let code = side.open(message, &mut strip, &mut fields);
            (code, strip, fields)
        });
        same &= opened[0] == opened[1];
        let mut m = opened[0].2;
        if turn % 4 == 0 {
            m.card ^= turn as u64;
            m.amount = m.amount.wrapping_mul(turn as u64);
        }
        same &= same_writing(&m, turn);
    }
    same
}

fn same_writing(m: &Fields, turn: usize) -> bool {
    let [proved, plain] = SIDES.map(|side| {
        let (mut buffer, mut length) = (vec![7; 60 - turn % 60], 0);
        let code = side.write(m, &mut buffer, &mut length);
        (code, buffer, length)
    });
    proved == plain
}
