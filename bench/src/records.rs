//! The records that both gateways are run on: the prefix and the measured messages of each case, a plausible meeting, and
//! random ones from a seed.
use crate::plain::{Fields, write};

pub const COURSE: u32 = 9;
pub const BATCH: u32 = 7;
pub const CARD: u64 = 4_111_111_111_111_111;
pub const OTHER_CARD: u64 = 5_500_005_555_555_559;

/// Records in the order in which they come, and how many.
#[derive(Clone, Default)]
pub struct Records {
    pub bytes: Vec<u8>,
    pub count: usize,
}

impl Records {
    pub fn push(&mut self, message: &[u8]) {
        self.bytes.push(message.len() as u8);
        self.bytes.extend_from_slice(message);
        self.count += 1;
    }

    pub fn send(&mut self, m: &Fields) {
        self.push(&bytes_of(m));
    }
}

pub fn bytes_of(m: &Fields) -> Vec<u8> {
    let mut buffer = [0; 53];
    let length = write(m, &mut buffer).expect("the writer refused a message of the benchmark");
    buffer[..length].to_vec()
}

// Twenty bytes that differ from each other's in the first as in the last.
pub fn xid(name: u8) -> [u8; 20] {
    [name; 20]
}

fn bare(kind: u8, request: u64) -> Fields {
    Fields {
        kind,
        request,
        course: COURSE,
        ..Fields::default()
    }
}

pub fn authorise(request: u64, name: u8, amount: u64) -> Fields {
    Fields {
        xid: xid(name),
        card: CARD,
        amount,
        ..bare(1, request)
    }
}

pub fn lower(request: u64, name: u8, amount: u64) -> Fields {
    Fields {
        xid: xid(name),
        amount,
        ..bare(2, request)
    }
}

/// A capture, a credit or the reversal of a credit.
pub fn book(kind: u8, request: u64, name: u8, amount: u64) -> Fields {
    Fields {
        xid: xid(name),
        amount,
        batch: BATCH,
        ..bare(kind, request)
    }
}

pub fn reverse_capture(request: u64, name: u8) -> Fields {
    Fields {
        xid: xid(name),
        batch: BATCH,
        ..bare(4, request)
    }
}

pub fn batch(kind: u8, request: u64, number: u32) -> Fields {
    Fields {
        batch: number,
        ..bare(kind, request)
    }
}

pub fn inquire(name: u8) -> Fields {
    Fields {
        xid: xid(name),
        ..bare(9, 1_000)
    }
}

/// So many authorisations, of the XIDs from 1.
pub fn authorised(count: u8) -> Records {
    let mut records = Records::default();
    for name in 1..=count {
        records.send(&authorise(u64::from(name), name, 1_000));
    }
    records
}

/// So many remembered answers, from 65 to 255: an open batch, 63 purchases, each lowered, captured and credited as long as there
/// are answers to come, and at last a 64th purchase that is only authorised.
pub fn busy(answers: u64) -> Records {
    let mut records = authorised(63);
    records.send(&batch(7, 64, BATCH));
    let mut request = 65;
    for round in 0..3 {
        for name in 1..=63 {
            if request == answers {
                break;
            }
            records.send(&match round {
                0 => lower(request, name, 900),
                1 => book(3, request, name, 800),
                _ => book(5, request, name, 100),
            });
            request += 1;
        }
    }
    while request < answers {
        // a number that is used
        records.send(&batch(7, request, BATCH));
        request += 1;
    }
    records.send(&authorise(answers, 64, 1_000));
    records
}

/// A meeting as one might be: two batches, 40 purchases, some lowered, most captured, some of these credited or reversed, each
/// fifth message sent twice, and inquiries between.
pub fn plausible() -> Records {
    let mut records = Records::default();
    let mut request = 0;
    let mut send = |m: Fields| {
        request += 1;
        let m = Fields {
            request: if m.kind == 9 {
                1_000 + request
            } else {
                request
            },
            ..m
        };
        records.send(&m);
        if request % 5 == 0 {
            records.send(&m);
        }
    };
    send(batch(7, 0, BATCH));
    send(batch(7, 0, BATCH + 1));
    for name in 1..=40 {
        send(authorise(0, name, 500 + 10 * u64::from(name)));
        if name % 3 == 0 {
            send(lower(0, name, 400));
        }
        if name % 4 == 0 {
            send(inquire(name));
        }
    }
    for name in 1..=36 {
        send(book(3, 0, name, 300));
    }
    for name in 1..=8 {
        send(book(5, 0, name, 120));
    }
    send(book(6, 0, 3, 20));
    send(reverse_capture(0, 20));
    send(book(3, 0, 20, 250));
    send(inquire(20));
    send(batch(8, 0, BATCH));
    send(batch(8, 0, BATCH + 1));
    send(book(3, 0, 38, 300));
    records
}

/// Numbers from a seed (xorshift), and how much the messages made of them differ.
struct Seeded {
    state: u64,
    requests: u64,
    names: u64,
    most: u64,
}

impl Seeded {
    fn new(seed: u64) -> Seeded {
        let mut seeded = Seeded {
            state: seed.wrapping_mul(0x9E37_79B9_7F4A_7C15) | 1,
            requests: 300 + 900 * (seed % 4),
            names: 10 + 40 * (seed % 5),
            most: 200 + 600 * (seed % 3),
        };
        for _ in 0..8 {
            seeded.below(2);
        }
        seeded
    }

    fn below(&mut self, bound: u64) -> u64 {
        self.state ^= self.state << 13;
        self.state ^= self.state >> 7;
        self.state ^= self.state << 17;
        (self.state >> 11) % bound
    }

    // Captures and credits are of less than what is authorised, as a rule; one reversal in four takes all of it back.
    fn amount(&mut self, kind: u8) -> u64 {
        if kind == 2 && self.below(4) == 0 {
            return 0;
        }
        1 + self.below(if kind == 1 {
            self.most
        } else {
            self.most / u64::from(kind)
        })
    }

    fn fields(&mut self) -> Fields {
        // kinds 1, 2, 3 and 5 come oftener than the others
        let kind = [1, 1, 1, 1, 2, 2, 3, 3, 3, 4, 5, 5, 6, 7, 8, 9][self.below(16) as usize];
        let has = |kinds: &[u8]| kinds.contains(&kind);
        Fields {
            kind,
            request: self.below(self.requests),
            course: COURSE + u32::from(self.below(12) == 0),
            xid: if has(&[7, 8]) {
                [0; 20]
            } else {
                xid(1 + self.below(self.names) as u8)
            },
            card: if kind == 1 {
                [CARD, CARD, CARD, OTHER_CARD][self.below(4) as usize]
            } else {
                0
            },
            amount: if has(&[1, 2, 3, 5, 6]) {
                self.amount(kind)
            } else {
                0
            },
            batch: if has(&[3, 4, 5, 6, 7, 8]) {
                BATCH + self.below(if has(&[7]) { 10 } else { 3 }) as u32
            } else {
                0
            },
        }
    }

    // A message, and now and then one that is damaged: a byte changed, or bytes cut off.
    fn message(&mut self) -> Vec<u8> {
        let mut message = bytes_of(&self.fields());
        match self.below(16) {
            0 => {
                let at = self.below(message.len() as u64) as usize;
                message[at] = self.below(256) as u8;
            }
            1 => message.truncate(self.below(54) as usize),
            _ => {}
        }
        message
    }
}

/// So many messages from a seed; one in eight repeats an earlier one.
pub fn random(seed: u64, count: usize) -> Records {
    let mut seeded = Seeded::new(seed);
    let mut sent: Vec<Vec<u8>> = Vec::new();
    let mut records = Records::default();
    for _ in 0..count {
        let message = if !sent.is_empty() && seeded.below(8) == 0 {
            sent[seeded.below(sent.len() as u64) as usize].clone()
        } else {
            seeded.message()
        };
        records.push(&message);
        sent.push(message);
    }
    records
}
