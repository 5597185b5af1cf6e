//! The gateway in plain Rust: the same rules, proved by nobody, and written for speed. Its searches are linear, as those of the
//! proved gateway are; each message looks a row up once, and no call allocates after the books are made.

pub const STRIP: usize = 19;
pub const FULL: usize = 24;

const PURCHASES: usize = 64;
const ANSWERS: usize = 256;
const BATCHES: usize = 8;
const MOST_PENCE: u64 = 99_999_999;

/// The fields of a message; those that its kind lacks are 0.
#[repr(C)]
#[derive(Clone, Copy, PartialEq, Eq, Debug, Default)]
pub struct Fields {
    pub kind: u8,
    pub request: u64,
    pub course: u32,
    pub xid: [u8; 20],
    pub card: u64,
    pub amount: u64,
    pub batch: u32,
}

// Opening.

// By kind; kind 0 is none.
const MAPS: [u16; 10] = [
    0, 0xFC00, 0xF400, 0xF600, 0xF200, 0xF600, 0xF600, 0xE200, 0xE200, 0xF000,
];
const LENGTHS: [u8; 10] = [0, 53, 43, 47, 39, 47, 47, 19, 19, 35];

// The parts of an entry of the card table: the number that the two halves write, their Luhn sums with the higher or the lower
// one doubled, and a mark where one of the halves is no digit. The sums of nine bytes fit their bytes.
const VALUE: u32 = 0xFF;
const HIGHER_DOUBLED: u32 = 8;
const LOWER_DOUBLED: u32 = 16;
const NO_PAIR: u32 = 1 << 31;

const fn doubled(digit: u32) -> u32 {
    2 * digit / 10 + 2 * digit % 10
}

const fn pair(byte: u32) -> u32 {
    let (higher, lower) = (byte / 16, byte % 16);
    if higher > 9 || lower > 9 {
        return NO_PAIR;
    }
    (higher * 10 + lower)
        | (doubled(higher) + lower) << HIGHER_DOUBLED
        | (higher + doubled(lower)) << LOWER_DOUBLED
}

const fn pairs() -> [u32; 256] {
    let mut table = [0; 256];
    let mut byte = 0;
    while byte < 256 {
        table[byte] = pair(byte as u32);
        byte += 1;
    }
    table
}

static PAIRS: [u32; 256] = pairs();

// The number of the card in ten bytes, if they hold one.
fn card_number(bytes: &[u8; 10]) -> Option<u64> {
    let mut number = 0u64;
    let mut sums = 0u32;
    let mut full = 0;
    while full < 9 {
        let entry = PAIRS[bytes[full] as usize];
        if entry & NO_PAIR != 0 {
            break;
        }
        number = number * 100 + u64::from(entry & VALUE);
        sums += entry & !VALUE;
        full += 1;
    }
    if full < 6 || bytes[0] < 16 {
        return None;
    }
    let last = bytes[full];
    if bytes[full + 1..].iter().any(|byte| *byte != 0xFF) {
        return None;
    }
    let sum = if last == 0xFF {
        // an even count of digits, 14 at least
        if full < 7 {
            return None;
        }
        sums >> HIGHER_DOUBLED & 0xFF
    } else {
        let digit = u32::from(last >> 4);
        if last & 0xF != 0xF || digit > 9 {
            return None;
        }
        number = number * 10 + u64::from(digit);
        (sums >> LOWER_DOUBLED & 0xFF) + digit
    };
    (sum % 10 == 0).then_some(number)
}

fn u64_at(message: &[u8], at: usize) -> u64 {
    u64::from_be_bytes(message[at..at + 8].try_into().unwrap())
}

fn u32_at(message: &[u8], at: usize) -> u32 {
    u32::from_be_bytes(message[at..at + 4].try_into().unwrap())
}

fn xid_at(message: &[u8]) -> [u8; 20] {
    message[15..35].try_into().unwrap()
}

fn some_amount(amount: u64, least: u64) -> Result<u64, u8> {
    if amount >= least && amount <= MOST_PENCE {
        Ok(amount)
    } else {
        Err(7)
    }
}

// The fields that come after the course, by kind. Each length is tested before, and the arrays say it once more.
fn rest_of(message: &[u8], m: &mut Fields) -> Result<(), u8> {
    match m.kind {
        1 => {
            let message: &[u8; 53] = message.try_into().unwrap();
            m.xid = xid_at(message);
            m.card = card_number(message[35..45].try_into().unwrap()).ok_or(6)?;
            m.amount = some_amount(u64_at(message, 45), 1)?;
        }
        2 => {
            let message: &[u8; 43] = message.try_into().unwrap();
            m.xid = xid_at(message);
            m.amount = some_amount(u64_at(message, 35), 0)?;
        }
        3 | 5 | 6 => {
            let message: &[u8; 47] = message.try_into().unwrap();
            m.xid = xid_at(message);
            m.amount = some_amount(u64_at(message, 35), 1)?;
            m.batch = u32_at(message, 43);
        }
        4 => {
            let message: &[u8; 39] = message.try_into().unwrap();
            m.xid = xid_at(message);
            m.batch = u32_at(message, 35);
        }
        7 | 8 => m.batch = u32_at(message, 15),
        _ => m.xid = xid_at(message),
    }
    Ok(())
}

fn examine(message: &[u8]) -> Result<Fields, u8> {
    let &[high, low, kind, ..] = message else {
        return Err(2);
    };
    let map = u16::from_be_bytes([high, low]);
    if map & 0x80FF != 0x8000 {
        return Err(2);
    }
    if kind == 0 || kind > 9 {
        return Err(3);
    }
    if map != MAPS[kind as usize] {
        return Err(4);
    }
    if message.len() != LENGTHS[kind as usize] as usize || message.len() < 19 {
        return Err(5);
    }
    let mut m = Fields {
        kind,
        request: u64_at(message, 3),
        course: u32_at(message, 11),
        ..Fields::default()
    };
    rest_of(message, &mut m)?;
    Ok(m)
}

/// Opens a message on a strip. The card table takes the digits two at a time as they are packed, so that they need not be
/// spread on the strip; it is blank after, as the rules say.
pub fn open(message: &[u8], strip: &mut [u8]) -> Result<Fields, u8> {
    let Some(strip) = strip.first_chunk_mut::<STRIP>() else {
        return Err(1);
    };
    *strip = [0; STRIP];
    examine(message)
}

// Writing.

// The ten bytes of a card's number, if it is one.
fn pack(number: u64) -> Option<[u8; 10]> {
    if number < 1_000_000_000_000 {
        return None;
    }
    let count = number.ilog10() as usize + 1;
    if count > 19 {
        return None;
    }
    let mut bytes = [0xFF; 10];
    let mut rest = number;
    let mut sum = 0;
    if count % 2 == 1 {
        let digit = (rest % 10) as u32;
        rest /= 10;
        bytes[count / 2] = (digit as u8) << 4 | 0xF;
        sum += digit;
    }
    let part = if count % 2 == 1 {
        LOWER_DOUBLED
    } else {
        HIGHER_DOUBLED
    };
    for byte in bytes[..count / 2].iter_mut().rev() {
        let two = (rest % 100) as u32;
        rest /= 100;
        let packed = two / 10 * 16 + two % 10;
        *byte = packed as u8;
        sum += PAIRS[packed as usize] >> part & 0xFF;
    }
    (sum % 10 == 0).then_some(bytes)
}

fn put<const N: usize>(buffer: &mut [u8], at: usize, bytes: [u8; N]) {
    buffer[at..at + N].copy_from_slice(&bytes);
}

// What follows the course, by kind, once nothing refuses.
fn write_rest(m: &Fields, card: [u8; 10], buffer: &mut [u8]) {
    if m.kind == 7 || m.kind == 8 {
        put(buffer, 15, m.batch.to_be_bytes());
        return;
    }
    put(buffer, 15, m.xid);
    match m.kind {
        1 => {
            put(buffer, 35, card);
            put(buffer, 45, m.amount.to_be_bytes());
        }
        2 => put(buffer, 35, m.amount.to_be_bytes()),
        3 | 5 | 6 => {
            put(buffer, 35, m.amount.to_be_bytes());
            put(buffer, 43, m.batch.to_be_bytes());
        }
        4 => put(buffer, 35, m.batch.to_be_bytes()),
        _ => {}
    }
}

/// Writes a message and answers its length.
pub fn write(m: &Fields, buffer: &mut [u8]) -> Result<usize, u8> {
    if m.kind == 0 || m.kind > 9 {
        return Err(3);
    }
    let card = if m.kind == 1 {
        pack(m.card).ok_or(6)?
    } else {
        [0; 10]
    };
    match m.kind {
        1 | 3 | 5 | 6 => some_amount(m.amount, 1)?,
        2 => some_amount(m.amount, 0)?,
        _ => 0,
    };
    let length = LENGTHS[m.kind as usize] as usize;
    let Some(buffer) = buffer.get_mut(..length) else {
        return Err(1);
    };
    put(buffer, 0, MAPS[m.kind as usize].to_be_bytes());
    buffer[2] = m.kind;
    put(buffer, 3, m.request.to_be_bytes());
    put(buffer, 11, m.course.to_be_bytes());
    write_rest(m, card, buffer);
    Ok(length)
}

// The host.

#[repr(C)]
#[derive(Clone, Copy, PartialEq, Eq, Debug, Default)]
pub struct Account {
    pub card: u64,
    pub balance: u64,
}

/// A hold; one of amount 0 is free.
#[repr(C)]
#[derive(Clone, Copy, PartialEq, Eq, Debug, Default)]
pub struct Hold {
    pub card: u64,
    pub reference: u64,
    pub amount: u64,
}

// A host may be silent, though the account book never is.
#[allow(dead_code)]
#[derive(Clone, Copy, PartialEq, Eq, Debug)]
pub enum PutReply {
    Done,
    Refused,
    Silent,
}

pub trait Host {
    fn put(&mut self, card: u64, reference: u64, amount: u64) -> PutReply;

    /// What is held; nothing where the host is silent.
    fn read(&mut self, card: u64, reference: u64) -> Option<u64>;
}

pub struct AccountBook<'a> {
    accounts: &'a [Account],
    holds: &'a mut [Hold],
}

// What one pass over the holds finds for a card and a reference: its row, and what the card's other rows hold. A free row holds
// nothing, so that it adds nothing.
struct Found {
    own: Option<usize>,
    others: u64,
}

impl<'a> AccountBook<'a> {
    pub fn new(accounts: &'a [Account], holds: &'a mut [Hold]) -> Self {
        holds.fill(Hold::default());
        AccountBook { accounts, holds }
    }

    fn found(&self, card: u64, reference: u64) -> Found {
        let mut found = Found {
            own: None,
            others: 0,
        };
        for (place, hold) in self.holds.iter().enumerate() {
            if hold.card == card {
                if hold.reference != reference {
                    found.others += hold.amount;
                } else if hold.amount != 0 {
                    found.own = Some(place);
                }
            }
        }
        found
    }

    // Where a raise to the amount is written, if there is assent to it.
    fn raised(&self, card: u64, found: &Found, amount: u64) -> Option<usize> {
        let account = self.accounts.iter().find(|account| account.card == card)?;
        let left = account.balance.checked_sub(found.others)?;
        if amount > left {
            return None;
        }
        let free = || self.holds.iter().position(|hold| hold.amount == 0);
        found.own.or_else(free)
    }
}

impl Host for AccountBook<'_> {
    fn put(&mut self, card: u64, reference: u64, amount: u64) -> PutReply {
        let found = self.found(card, reference);
        let held = found.own.map_or(0, |place| self.holds[place].amount);
        let place = if amount <= held {
            found.own
        } else {
            match self.raised(card, &found, amount) {
                Some(place) => Some(place),
                None => return PutReply::Refused,
            }
        };
        if let Some(place) = place {
            self.holds[place] = if amount == 0 {
                Hold::default()
            } else {
                Hold {
                    card,
                    reference,
                    amount,
                }
            };
        }
        PutReply::Done
    }

    fn read(&mut self, card: u64, reference: u64) -> Option<u64> {
        let own = self
            .holds
            .iter()
            .find(|hold| hold.reference == reference && hold.card == card && hold.amount != 0);
        Some(own.map_or(0, |hold| hold.amount))
    }
}

// The books.

#[derive(Clone, Copy)]
struct Purchase {
    xid: [u8; 20],
    course: u32,
    card: u64,
    authorised: u64,
    captured: u64,
    credited: u64,
    batch: u32,
    doubt: Option<u64>,
}

#[derive(Clone, Copy)]
struct Remembered {
    fields: Fields,
    answer: Performed,
}

#[derive(Clone, Copy)]
struct Batch {
    course: u32,
    number: u32,
    closed: bool,
    total: i64,
}

#[derive(Clone, Copy, PartialEq, Eq, Debug)]
pub struct Performed {
    pub code: u8,
    pub amount: u64,
}

#[derive(Clone, Copy, PartialEq, Eq, Debug)]
pub enum Handled {
    NoRoom,
    Short(u8),
    Full(u8, Performed),
}

pub struct Gateway<H> {
    purchases: Vec<Purchase>,
    answers: Vec<Remembered>,
    batches: Vec<Batch>,
    host: H,
}

// The first eight bytes tell most XIDs apart.
fn same_xid(a: &[u8; 20], b: &[u8; 20]) -> bool {
    a.first_chunk::<8>() == b.first_chunk() && a == b
}

// Checks 11 and 12.
fn sound(p: &Purchase, m: &Fields) -> Result<(), u8> {
    if p.course != m.course {
        return Err(11);
    }
    if p.doubt.is_some() {
        return Err(12);
    }
    Ok(())
}

// Checks 10 to 12.
fn purchase<'a>(purchases: &'a mut [Purchase], m: &Fields) -> Result<&'a mut Purchase, u8> {
    let p = purchases
        .iter_mut()
        .find(|p| same_xid(&p.xid, &m.xid))
        .ok_or(10)?;
    sound(p, m)?;
    Ok(p)
}

// Checks 10 to 12 and 17.
fn captured<'a>(purchases: &'a mut [Purchase], m: &Fields) -> Result<&'a mut Purchase, u8> {
    let p = purchase(purchases, m)?;
    if p.captured == 0 { Err(17) } else { Ok(p) }
}

// Checks 15 and 16.
fn uncaptured(p: &Purchase) -> Result<(), u8> {
    if p.authorised == 0 {
        return Err(15);
    }
    if p.captured > 0 {
        return Err(16);
    }
    Ok(())
}

// Checks 19 and 20.
fn open_batch<'a>(batches: &'a mut [Batch], m: &Fields) -> Result<&'a mut Batch, u8> {
    let b = batches
        .iter_mut()
        .find(|b| b.number == m.batch && b.course == m.course)
        .ok_or(19)?;
    if b.closed { Err(20) } else { Ok(b) }
}

// What a put's reply makes of a purchase, and the code.
fn settle(p: &mut Purchase, reply: PutReply, amount: u64) -> u8 {
    match reply {
        PutReply::Done => {
            p.authorised = amount;
            p.doubt = None;
            0
        }
        PutReply::Refused => {
            p.doubt = None;
            24
        }
        PutReply::Silent => {
            p.doubt = Some(amount);
            25
        }
    }
}

impl<H: Host> Gateway<H> {
    pub fn new(host: H) -> Self {
        Gateway {
            purchases: Vec::with_capacity(PURCHASES),
            answers: Vec::with_capacity(ANSWERS),
            batches: Vec::with_capacity(BATCHES),
            host,
        }
    }

    fn place_of(&self, xid: &[u8; 20]) -> Option<usize> {
        self.purchases.iter().position(|p| same_xid(&p.xid, xid))
    }

    // A new XID takes the next row.
    fn seat(&mut self, m: &Fields) -> Result<usize, u8> {
        if self.purchases.len() >= PURCHASES {
            return Err(14);
        }
        self.purchases.push(Purchase {
            xid: m.xid,
            course: m.course,
            card: m.card,
            authorised: 0,
            captured: 0,
            credited: 0,
            batch: 0,
            doubt: None,
        });
        Ok(self.purchases.len() - 1)
    }

    fn authorise(&mut self, m: &Fields) -> Result<u64, u8> {
        let place = match self.place_of(&m.xid) {
            Some(place) => {
                let p = &self.purchases[place];
                if p.card != m.card {
                    return Err(11);
                }
                sound(p, m)?;
                if p.authorised > 0 {
                    return Err(13);
                }
                place
            }
            None => self.seat(m)?,
        };
        let reply = self.host.put(m.card, place as u64 + 1, m.amount);
        match settle(&mut self.purchases[place], reply, m.amount) {
            0 => Ok(m.amount),
            code => Err(code),
        }
    }

    fn lower(&mut self, m: &Fields) -> Result<u64, u8> {
        let place = self.place_of(&m.xid).ok_or(10)?;
        let p = &mut self.purchases[place];
        sound(p, m)?;
        uncaptured(p)?;
        if m.amount >= p.authorised {
            return Err(18);
        }
        let reply = self.host.put(p.card, place as u64 + 1, m.amount);
        match settle(p, reply, m.amount) {
            0 => Ok(m.amount),
            code => Err(code),
        }
    }

    fn capture(&mut self, m: &Fields) -> Result<u64, u8> {
        let p = purchase(&mut self.purchases, m)?;
        uncaptured(p)?;
        if m.amount > p.authorised {
            return Err(18);
        }
        let b = open_batch(&mut self.batches, m)?;
        p.captured = m.amount;
        p.batch = m.batch;
        b.total += m.amount as i64;
        Ok(p.captured - p.credited)
    }

    fn reverse_capture(&mut self, m: &Fields) -> Result<u64, u8> {
        let p = captured(&mut self.purchases, m)?;
        let closed = |b: &Batch| b.number == p.batch && b.course == p.course && b.closed;
        let elsewhere = p.batch != m.batch && !self.batches.iter().any(closed);
        let b = open_batch(&mut self.batches, m)?;
        if p.credited > 0 || elsewhere {
            return Err(21);
        }
        b.total -= p.captured as i64;
        p.captured = 0;
        Ok(0)
    }

    fn credit(&mut self, m: &Fields) -> Result<u64, u8> {
        let p = captured(&mut self.purchases, m)?;
        if m.amount > p.captured - p.credited {
            return Err(18);
        }
        let b = open_batch(&mut self.batches, m)?;
        p.credited += m.amount;
        b.total -= m.amount as i64;
        Ok(p.captured - p.credited)
    }

    fn reverse_credit(&mut self, m: &Fields) -> Result<u64, u8> {
        let p = captured(&mut self.purchases, m)?;
        if m.amount > p.credited {
            return Err(18);
        }
        let b = open_batch(&mut self.batches, m)?;
        p.credited -= m.amount;
        b.total += m.amount as i64;
        Ok(p.captured - p.credited)
    }

    fn start_batch(&mut self, m: &Fields) -> Result<u64, u8> {
        let taken = |b: &Batch| b.number == m.batch && b.course == m.course;
        if self.batches.iter().any(taken) {
            return Err(22);
        }
        if self.batches.len() >= BATCHES {
            return Err(23);
        }
        self.batches.push(Batch {
            course: m.course,
            number: m.batch,
            closed: false,
            total: 0,
        });
        Ok(0)
    }

    fn close_batch(&mut self, m: &Fields) -> Result<u64, u8> {
        let b = open_batch(&mut self.batches, m)?;
        b.closed = true;
        Ok(b.total as u64)
    }

    // An inquiry is asked of the host whether or not the purchase is in doubt.
    fn inquire(&mut self, m: &Fields) -> Result<u64, u8> {
        let place = self.place_of(&m.xid).ok_or(10)?;
        let p = &self.purchases[place];
        if p.course != m.course {
            return Err(11);
        }
        self.host.read(p.card, place as u64 + 1).ok_or(25)
    }

    // The put of a message at which the host was silent is made again.
    fn retry(&mut self, m: &Fields, answer: usize) -> Result<u64, u8> {
        let place = self.place_of(&m.xid).ok_or(10)?;
        let p = &mut self.purchases[place];
        let reply = self.host.put(p.card, place as u64 + 1, m.amount);
        let result = match settle(p, reply, m.amount) {
            0 => Ok(m.amount),
            code => Err(code),
        };
        self.answers[answer].answer = performed(m, result);
        result
    }

    fn fresh(&mut self, m: &Fields) -> Result<u64, u8> {
        match m.kind {
            1 => self.authorise(m),
            2 => self.lower(m),
            3 => self.capture(m),
            4 => self.reverse_capture(m),
            5 => self.credit(m),
            6 => self.reverse_credit(m),
            7 => self.start_batch(m),
            _ => self.close_batch(m),
        }
    }

    pub fn perform(&mut self, m: &Fields) -> Performed {
        if m.kind == 9 {
            return performed(m, self.inquire(m));
        }
        let same = |r: &Remembered| r.fields.request == m.request && r.fields.course == m.course;
        if let Some(place) = self.answers.iter().position(same) {
            let r = &self.answers[place];
            if r.fields != *m {
                return performed(m, Err(8));
            }
            if r.answer.code == 25 {
                return performed(m, self.retry(m, place));
            }
            return r.answer;
        }
        if self.answers.len() >= ANSWERS {
            return performed(m, Err(9));
        }
        let answer = performed(m, self.fresh(m));
        self.answers.push(Remembered { fields: *m, answer });
        answer
    }

    pub fn handle(&mut self, message: &[u8], strip: &mut [u8], answer: &mut [u8]) -> Handled {
        let Some(full) = answer.first_chunk_mut::<FULL>() else {
            return Handled::NoRoom;
        };
        if strip.len() < STRIP {
            return Handled::NoRoom;
        }
        match open(message, strip) {
            Ok(m) => {
                let performed = self.perform(&m);
                write_full(&m, performed, full);
                Handled::Full(m.kind, performed)
            }
            Err(code) => {
                full[..3].copy_from_slice(&[0x01, 0x00, code]);
                Handled::Short(code)
            }
        }
    }
}

// The amount of an answer that is no success is the amount asked for an authorisation, 0 for any other.
fn performed(m: &Fields, result: Result<u64, u8>) -> Performed {
    match result {
        Ok(amount) => Performed { code: 0, amount },
        Err(code) => Performed {
            code,
            amount: if m.kind == 1 { m.amount } else { 0 },
        },
    }
}

fn write_full(m: &Fields, performed: Performed, answer: &mut [u8; FULL]) {
    answer[..2].copy_from_slice(&[0xE5, 0x00]);
    answer[2] = m.kind;
    answer[3..11].copy_from_slice(&m.request.to_be_bytes());
    answer[11..15].copy_from_slice(&m.course.to_be_bytes());
    answer[15..23].copy_from_slice(&performed.amount.to_be_bytes());
    answer[23] = performed.code;
}

/// The first message of a file of records, each a length byte and a message, and the records after it; nothing where the
/// bytes end before the message does.
pub fn first_record(bytes: &[u8]) -> Option<(&[u8], &[u8])> {
    let (length, rest) = bytes.split_first()?;
    rest.split_at_checked(usize::from(*length))
}

/// What the export `gateway_run` does: the records over new books, each answer into the next 24 bytes.
#[inline(never)]
pub fn run(accounts: &[Account], holds: &mut [Hold], records: &[u8], answers: &mut [u8]) -> usize {
    let mut gateway = Gateway::new(AccountBook::new(accounts, holds));
    let mut strip = [0; STRIP];
    let mut rest = records;
    let mut handled = 0;
    for answer in answers.chunks_exact_mut(FULL) {
        let Some((message, after)) = first_record(rest) else {
            break;
        };
        gateway.handle(message, &mut strip, answer);
        rest = after;
        handled += 1;
    }
    handled
}

/// What the export `gateway_open` does.
#[inline(never)]
pub fn open_into(message: &[u8], strip: &mut [u8], fields: &mut Fields) -> u8 {
    match open(message, strip) {
        Ok(opened) => {
            *fields = opened;
            0
        }
        Err(code) => code,
    }
}

/// What the export `gateway_write` does.
#[inline(never)]
pub fn write_into(fields: &Fields, buffer: &mut [u8], length: &mut usize) -> u8 {
    match write(fields, buffer) {
        Ok(written) => {
            *length = written;
            0
        }
        Err(code) => code,
    }
}
