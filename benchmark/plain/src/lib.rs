//! One end of a basic conversation, in plain safe Rust: what a programmer would write from documents 01 and 02 without proofs. It is
//! here to be compared with: by the benchmark for its speed, by the tests for its answers. It shares no code with the library.
//!
//! The walk over records skips a record's body at once; it does not go byte by byte. Bytes are moved by `copy_from_slice`.

#[derive(Clone, Copy, Debug, PartialEq, Eq)]
pub enum State {
    Reset,
    Send,
    Receive,
    Owes,
    Waits,
    DeferTurn,
    DeferEnd,
}

impl State {
    // Send or Defer.
    fn holds_send(self) -> bool {
        self == State::Send || self.prepared() != Follow::Stay
    }

    // The turn or end that is prepared; `Stay` where none is.
    fn prepared(self) -> Follow {
        match self {
            State::DeferTurn => Follow::Turn,
            State::DeferEnd => Follow::End,
            _ => Follow::Stay,
        }
    }
}

#[derive(Clone, Copy, Debug, PartialEq, Eq)]
pub enum Follow {
    Stay,
    Turn,
    End,
}

#[derive(Clone, Copy, Debug, PartialEq, Eq)]
pub enum Mark {
    None,
    Turn,
    End,
    Confirm,
    ConfirmTurn,
    ConfirmEnd,
    Error,
}

/// A record place: between records, after the first LL byte, or with that many bytes left. The flag is the top bit of the record's
/// LL, which says that another part follows.
#[derive(Clone, Copy, Debug, PartialEq, Eq)]
pub enum Place {
    Between(bool),
    AfterFirst(u8),
    Left(u16, bool),
}

/// The place of a fresh end: between records, and nothing is to follow.
pub const WHOLE: Place = Place::Between(false);

/// One direction's window: its size W, the place in it, and the flag of a pacing request not yet answered.
#[derive(Clone, Copy, Debug, PartialEq, Eq)]
pub struct Window {
    pub size: u8,
    pub place: u8,
    pub pending: bool,
}

#[derive(Clone, Copy, Debug, PartialEq, Eq)]
pub struct End {
    pub bidder: bool,
    pub state: State,
    pub follow: Follow,
    pub mark: Mark,
    pub due: bool,
    pub error: bool,
    pub bid: bool,
    pub out_chain: bool,
    pub in_chain: bool,
    pub out: Window,
    pub out_max: u16,
    pub out_held: u16,
    pub out_number: u16,
    pub given: Place,
    pub into: Window,
    pub in_max: u16,
    pub inbox: u16,
    pub in_held: u16,
    pub in_number: u16,
    pub taken: Place,
    pub read: Place,
    pub bid_number: u16,
    pub owed_number: u16,
    pub expedited: Expedited,
}

/// What an end keeps of the expedited lines: whether its signal has not been answered, and the last numbers sent and taken there.
#[derive(Clone, Copy, Debug, Default, PartialEq, Eq)]
pub struct Expedited {
    pub unanswered: bool,
    pub sent: u16,
    pub taken: u16,
}

#[derive(Clone, Copy, Debug, Default, PartialEq, Eq)]
pub struct Answer {
    pub refusal: u32,
    pub sense: u32,
    pub rule: u32,
    pub unit: u32,
    pub copied: u32,
    pub complete: bool,
    pub more: bool,
    pub mark: u32,
    pub signalled: bool,
}

const BID: [u8; 5] = [0x04, 0x00, 0x06, 0x00, 0x00];
const GRANT: [u8; 1] = [0x04];
const BID_REFUSAL: [u8; 5] = [0x08, 0x13, 0x00, 0x00, 0x04];
const NO_CONFIRMATION: [u8; 4] = [0x08, 0x46, 0x00, 0x00];
const ERROR_HEADER: [u8; 7] = [0x07, 0x07, 0x08, 0x89, 0x00, 0x00, 0x00];

// On the expedited lines: a signal and its answer, header and RU.
const SIGNAL: ([u8; 3], [u8; 5]) = ([0x4B, 0x80, 0x00], [0xC9, 0x00, 0x01, 0x00, 0x00]);
const SIGNAL_ANSWER: ([u8; 3], [u8; 1]) = ([0xCB, 0x80, 0x00], [0xC9]);

pub fn sense(number: u32) -> u32 {
    match number {
        20 => 0x4005_0000,
        22 => 0x1002_0000,
        23 => 0x2001_0000,
        24 => 0x2002_0000,
        25 => 0x2003_0000,
        26 => 0x2004_0000,
        27 => 0x2011_0000,
        28 => 0x200E_0000,
        _ => 0,
    }
}

fn made(unit: usize) -> Answer {
    Answer { unit: unit as u32, ..Answer::default() }
}

fn refused(number: u32) -> Answer {
    Answer { refusal: number, sense: sense(number), ..Answer::default() }
}

// Length and top bit of an LL, or none if the length is under 2.
fn length_of(high: u8, low: u8) -> Option<(u16, bool)> {
    let ll = u16::from_be_bytes([high, low]);
    let length = ll & 0x7FFF;
    (length >= 2).then_some((length, ll != length))
}

fn after_ll(high: u8, low: u8) -> Option<Place> {
    match length_of(high, low)? {
        (2, more) => Some(Place::Between(more)),
        (length, more) => Some(Place::Left(length - 2, more)),
    }
}

/// The place after these bytes, or none if an LL among them is bad.
pub fn walk(mut place: Place, mut bytes: &[u8]) -> Option<Place> {
    while let Some((&first, rest)) = bytes.split_first() {
        match place {
            Place::Between(_) => {
                place = Place::AfterFirst(first);
                bytes = rest;
            }
            Place::AfterFirst(high) => {
                place = after_ll(high, first)?;
                bytes = rest;
            }
            Place::Left(left, more) => {
                let skipped = bytes.len().min(left as usize);
                place = match left - skipped as u16 {
                    0 => Place::Between(more),
                    n => Place::Left(n, more),
                };
                bytes = &bytes[skipped..];
            }
        }
    }
    Some(place)
}

impl Window {
    pub fn credit(&self) -> u32 {
        let size = u32::from(self.size);
        let fresh = if self.pending { 0 } else { size };
        let rest = if self.place == 0 { 0 } else { size.saturating_sub(u32::from(self.place)) };
        fresh + rest
    }

    // One request goes by: at place 0 it carries the pacing bit.
    fn step(&mut self) -> bool {
        let bit = self.place == 0;
        if bit {
            self.pending = true;
        }
        self.place += 1;
        if self.place == self.size {
            self.place = 0;
        }
        bit
    }

    fn good(&self) -> bool {
        (1..=63).contains(&self.size) && self.place < self.size
    }
}

fn place_good(place: Place) -> bool {
    match place {
        Place::Left(left, _) => (1..=32765).contains(&left),
        _ => true,
    }
}

enum Kind {
    Data { first: bool, last: bool, confirm: bool, pacing: bool, begin: bool, follow: Follow },
    Bid { pacing: bool },
    Error { pacing: bool },
    Grant,
    BidRefusal,
    Confirmation,
    NoConfirmation,
    Pacing,
}

/// The rules H1 to H6 that a header breaks, H1 at index 0. The lower rules decide which of the others are asked.
pub fn broken(header: [u8; 3]) -> [bool; 6] {
    let [a, b, c] = header;
    let mut rules = [false; 6];
    match a {
        0..=3 => {
            let confirm = b == 0x20 || b == 0x21;
            rules[2] = !(confirm || b == 0x90 || b == 0x91);
            rules[3] = confirm && a & 1 == 0;
            rules[4] = ![0x00, 0x01, 0x20, 0x80, 0x81, 0xA0].contains(&c);
            rules[5] = (c & 0x80 != 0 && a & 2 == 0) || (c & 0x21 != 0 && a & 1 == 0);
        }
        0x0B => rules[1] = !((b == 0x90 || b == 0x91) && c == 0x00),
        0x4B => rules[1] = !((b == 0x80 || b == 0x81) && c == 0x80),
        0x83 => rules[1] = !((b == 0x20 || b == 0x01) && c == 0x00),
        0x87 => rules[1] = !(b == 0x30 && c == 0x00),
        0xCB => rules[1] = !(b == 0x80 && c == 0x00),
        0xCF => rules[1] = !(b == 0x90 && c == 0x00),
        _ => rules[0] = true,
    }
    rules
}

/// The rule, H1 or H2, that a header breaks on an expedited line. Document 02 has no other rules there.
pub fn broken_expedited(header: [u8; 3]) -> Option<u32> {
    match header[0] {
        0x4B | 0xCB if header == SIGNAL.0 || header == SIGNAL_ANSWER.0 => None,
        0x4B | 0xCB => Some(2),
        _ => Some(1),
    }
}

fn kind(header: [u8; 3]) -> Result<Kind, u32> {
    if let Some(rule) = broken(header).iter().position(|&b| b) {
        return Err(rule as u32 + 1);
    }
    let [a, b, c] = header;
    Ok(match a {
        0x0B => Kind::Error { pacing: b & 1 != 0 },
        0x4B => Kind::Bid { pacing: b & 1 != 0 },
        0x83 if b == 0x01 => Kind::Pacing,
        0x83 => Kind::Confirmation,
        0x87 => Kind::NoConfirmation,
        0xCB => Kind::Grant,
        0xCF => Kind::BidRefusal,
        _ => Kind::Data {
            first: a & 2 != 0,
            last: a & 1 != 0,
            confirm: b & 0x20 != 0,
            pacing: b & 1 != 0,
            begin: c & 0x80 != 0,
            follow: if c & 0x20 != 0 {
                Follow::Turn
            } else if c & 1 != 0 {
                Follow::End
            } else {
                Follow::Stay
            },
        },
    })
}

// The state after the last unit of a chain, or after its confirmation.
fn after_last(follow: Follow) -> State {
    match follow {
        Follow::Stay => State::Send,
        Follow::Turn => State::Receive,
        Follow::End => State::Reset,
    }
}

fn mark_of(confirm: bool, follow: Follow) -> Mark {
    match (confirm, follow) {
        (false, Follow::Stay) => Mark::None,
        (false, Follow::Turn) => Mark::Turn,
        (false, Follow::End) => Mark::End,
        (true, Follow::Stay) => Mark::Confirm,
        (true, Follow::Turn) => Mark::ConfirmTurn,
        (true, Follow::End) => Mark::ConfirmEnd,
    }
}

fn write_head(unit: &mut [u8], number: u16, header: [u8; 3]) {
    unit[..2].copy_from_slice(&number.to_be_bytes());
    unit[2..5].copy_from_slice(&header);
}

fn write_unit(unit: &mut [u8], number: u16, header: [u8; 3], ru: &[u8]) -> Answer {
    write_head(unit, number, header);
    unit[5..5 + ru.len()].copy_from_slice(ru);
    made(5 + ru.len())
}

/// What a session is opened with.
#[derive(Clone, Copy, Debug)]
pub struct Session {
    pub role: u8,
    pub out_window: u8,
    pub in_window: u8,
    pub out_max: u32,
    pub in_max: u32,
}

/// Opens a session by the lengths of the buffers.
pub fn open(session: Session, send: usize, unit: usize, inbox: usize) -> Result<End, u32> {
    let windows = 1..=63;
    let maxima = 8..=1024;
    if session.role > 1 {
        return Err(1);
    }
    if !windows.contains(&session.out_window) || !windows.contains(&session.in_window) {
        return Err(2);
    }
    if !maxima.contains(&session.out_max) || !maxima.contains(&session.in_max) {
        return Err(3);
    }
    let out_max = session.out_max as usize;
    let least = usize::from(session.in_window) * session.in_max as usize;
    if send < out_max || unit < out_max + 5 || !(least..=65535).contains(&inbox) {
        return Err(4);
    }
    Ok(fresh(session, inbox as u16))
}

// The record of an end just opened.
fn fresh(session: Session, inbox: u16) -> End {
    End {
        bidder: session.role == 1,
        state: State::Reset,
        follow: Follow::Stay,
        mark: Mark::None,
        due: false,
        error: false,
        bid: false,
        out_chain: false,
        in_chain: false,
        out: Window { size: session.out_window, place: 0, pending: false },
        out_max: session.out_max as u16,
        out_held: 0,
        out_number: 0,
        given: WHOLE,
        into: Window { size: session.in_window, place: 0, pending: false },
        in_max: session.in_max as u16,
        inbox,
        in_held: 0,
        in_number: 0,
        taken: WHOLE,
        read: WHOLE,
        bid_number: 0,
        owed_number: 0,
        expedited: Expedited::default(),
    }
}

impl End {
    /// Question 5.
    pub fn good(&self) -> bool {
        let maxima = 8..=1024;
        let sends = self.state.holds_send();
        self.out.good()
            && self.into.good()
            && maxima.contains(&self.out_max)
            && maxima.contains(&self.in_max)
            && (self.mark == Mark::None || self.state == State::Receive)
            && (!self.due || (!self.bidder && sends && !self.out_chain))
            && (!self.error || (self.state == State::Send && self.out_held == 0 && !self.due))
            && (!self.bid || self.bidder)
            && self.out_held <= self.out_max
            && (!self.out_chain || (sends && self.out_held >= 1))
            && (sends || self.out_held == 0)
            && u32::from(self.in_held) + self.into.credit() * u32::from(self.in_max) <= u32::from(self.inbox)
            && place_good(self.given)
            && place_good(self.taken)
            && place_good(self.read)
    }

    fn send_fits(&self, send: &[u8]) -> bool {
        send.len() >= usize::from(self.out_max)
    }

    fn unit_fits(&self, unit: &[u8]) -> bool {
        unit.len() >= usize::from(self.out_max) + 5
    }

    fn inbox_fits(&self, inbox: &[u8]) -> bool {
        inbox.len() == usize::from(self.inbox)
    }

    fn next_request(&mut self) -> (u16, u8) {
        self.out_number = self.out_number.wrapping_add(1);
        let bit = self.out.step();
        (self.out_number, u8::from(bit))
    }

    // In Send, with no error header to go first.
    fn may_send(&self) -> bool {
        self.state == State::Send && !self.error
    }

    // Number and header of the next data unit.
    fn next_data(&mut self, last: bool, byte1: u8, byte2: u8) -> (u16, [u8; 3]) {
        let first = !self.out_chain;
        let begin = if self.due { 0x80 } else { 0 };
        self.due = false;
        self.out_chain = !last;
        let (number, bit) = self.next_request();
        (number, [u8::from(first) * 2 + u8::from(last), byte1 | bit, byte2 | begin])
    }

    pub fn allocate(&mut self, unit: &mut [u8]) -> Answer {
        if !self.unit_fits(unit) {
            return refused(4);
        }
        if !self.good() {
            return refused(5);
        }
        if self.state != State::Reset || (self.bidder && self.bid) {
            return refused(7);
        }
        if !self.bidder {
            self.state = State::Send;
            self.due = true;
            return made(0);
        }
        if self.out.credit() == 0 {
            return refused(10);
        }
        let (number, bit) = self.next_request();
        self.bid = true;
        self.bid_number = number;
        write_unit(unit, number, [0x4B, 0x80 | bit, 0x80], &BID)
    }

    pub fn send_data(&mut self, bytes: &[u8], send: &mut [u8], unit: &mut [u8]) -> Answer {
        if !self.send_fits(send) || !self.unit_fits(unit) {
            return refused(4);
        }
        if !self.good() {
            return refused(5);
        }
        let max = usize::from(self.out_max);
        if bytes.is_empty() || bytes.len() > max {
            return refused(6);
        }
        if !self.may_send() {
            return refused(7);
        }
        let Some(given) = walk(self.given, bytes) else {
            return refused(8);
        };
        let held = usize::from(self.out_held);
        if held + bytes.len() <= max {
            send[held..held + bytes.len()].copy_from_slice(bytes);
            self.out_held += bytes.len() as u16;
            self.given = given;
            return made(0);
        }
        if self.out.credit() == 0 {
            return refused(10);
        }
        let (front, rest) = bytes.split_at(max - held);
        let (number, header) = self.next_data(false, 0x90, 0);
        write_head(unit, number, header);
        unit[5..5 + held].copy_from_slice(&send[..held]);
        unit[5 + held..5 + max].copy_from_slice(front);
        send[..rest.len()].copy_from_slice(rest);
        self.out_held = rest.len() as u16;
        self.given = given;
        made(5 + max)
    }

    fn close(&mut self, follow: Follow, confirm: bool, send: &[u8], unit: &mut [u8]) -> Answer {
        if !self.send_fits(send) || !self.unit_fits(unit) {
            return refused(4);
        }
        if !self.good() {
            return refused(5);
        }
        // Flush and confirm say nothing to follow, and carry out what is prepared.
        let carries_out = follow == Follow::Stay && self.state.prepared() != Follow::Stay;
        if self.error && follow == Follow::Stay && !confirm {
            return self.send_error_header(unit);
        }
        if !self.may_send() && !carries_out {
            return refused(7);
        }
        let follow = if carries_out { self.state.prepared() } else { follow };
        self.send_last(follow, confirm, send, unit)
    }

    // The last unit of a chain, or none where nothing is held that flush could send.
    fn send_last(&mut self, follow: Follow, confirm: bool, send: &[u8], unit: &mut [u8]) -> Answer {
        let flush = follow == Follow::Stay && !confirm;
        if !flush && self.given != WHOLE {
            return refused(9);
        }
        if flush && self.out_held == 0 {
            return made(0);
        }
        if self.out.credit() == 0 {
            return refused(10);
        }
        let byte1 = if confirm { 0x20 } else { 0x90 };
        let byte2 = match follow {
            Follow::Stay => 0x00,
            Follow::Turn => 0x20,
            Follow::End => 0x01,
        };
        let (number, header) = self.next_data(true, byte1, byte2);
        let answer = write_unit(unit, number, header, &send[..usize::from(self.out_held)]);
        self.out_held = 0;
        if confirm {
            self.state = State::Waits;
            self.follow = follow;
        } else {
            self.state = after_last(follow);
        }
        answer
    }

    // Flush where an error header is due: it goes alone, and asks nothing of the records given.
    fn send_error_header(&mut self, unit: &mut [u8]) -> Answer {
        if self.out.credit() == 0 {
            return refused(10);
        }
        self.error = false;
        let (number, bit) = self.next_request();
        write_unit(unit, number, [0x0B, 0x90 | bit, 0x00], &ERROR_HEADER)
    }

    pub fn flush(&mut self, send: &[u8], unit: &mut [u8]) -> Answer {
        self.close(Follow::Stay, false, send, unit)
    }

    pub fn confirm(&mut self, send: &[u8], unit: &mut [u8]) -> Answer {
        self.close(Follow::Stay, true, send, unit)
    }

    pub fn prepare_to_receive(&mut self, confirm: bool, send: &[u8], unit: &mut [u8]) -> Answer {
        self.close(Follow::Turn, confirm, send, unit)
    }

    pub fn deallocate(&mut self, confirm: bool, send: &[u8], unit: &mut [u8]) -> Answer {
        self.close(Follow::End, confirm, send, unit)
    }

    fn defer(&mut self, state: State) -> Answer {
        if !self.good() {
            return refused(5);
        }
        if !self.may_send() {
            return refused(7);
        }
        if self.given != WHOLE {
            return refused(9);
        }
        self.state = state;
        made(0)
    }

    pub fn defer_turn(&mut self) -> Answer {
        self.defer(State::DeferTurn)
    }

    pub fn defer_end(&mut self) -> Answer {
        self.defer(State::DeferEnd)
    }

    pub fn withdraw(&mut self) -> Answer {
        if !self.good() {
            return refused(5);
        }
        if self.state.prepared() == Follow::Stay {
            return refused(7);
        }
        self.state = State::Send;
        made(0)
    }

    /// What refuses both a confirmation and a denial.
    fn owes_nothing(&self, unit: &[u8]) -> Option<Answer> {
        if !self.unit_fits(unit) {
            return Some(refused(4));
        }
        if !self.good() {
            return Some(refused(5));
        }
        (self.state != State::Owes).then(|| refused(7))
    }

    pub fn confirmed(&mut self, unit: &mut [u8]) -> Answer {
        if let Some(no) = self.owes_nothing(unit) {
            return no;
        }
        self.state = match self.follow {
            Follow::Stay => State::Receive,
            Follow::Turn => State::Send,
            Follow::End => State::Reset,
        };
        write_unit(unit, self.owed_number, [0x83, 0x20, 0x00], &[])
    }

    /// Document 02's denial of what is to be confirmed.
    pub fn send_error(&mut self, unit: &mut [u8]) -> Answer {
        if let Some(no) = self.owes_nothing(unit) {
            return no;
        }
        self.state = State::Send;
        self.error = true;
        write_unit(unit, self.owed_number, [0x87, 0x30, 0x00], &NO_CONFIRMATION)
    }

    /// Document 02's request for the turn. It changes no state, and costs no credit.
    pub fn request_to_send(&mut self, unit: &mut [u8]) -> Answer {
        if !self.unit_fits(unit) {
            return refused(4);
        }
        if !self.good() {
            return refused(5);
        }
        if self.state != State::Receive && self.state != State::Owes {
            return refused(7);
        }
        if self.expedited.unanswered {
            return refused(30);
        }
        let number = self.expedited.sent.wrapping_add(1);
        (self.expedited.sent, self.expedited.unanswered) = (number, true);
        write_unit(unit, number, SIGNAL.0, &SIGNAL.1)
    }

    /// Takes a unit of the expedited line: a signal, which is answered at once, or the answer to this end's own.
    pub fn receive_expedited(&mut self, unit_taken: &[u8], unit: &mut [u8]) -> Answer {
        if !self.unit_fits(unit) {
            return refused(4);
        }
        if !self.good() {
            return refused(5);
        }
        if unit_taken.len() < 5 {
            return refused(20);
        }
        let header = [unit_taken[2], unit_taken[3], unit_taken[4]];
        if let Some(rule) = broken_expedited(header) {
            return Answer { rule, ..refused(21) };
        }
        let is_signal = header == SIGNAL.0;
        let right_ru = if is_signal { &SIGNAL.1[..] } else { &SIGNAL_ANSWER.1 };
        if &unit_taken[5..] != right_ru {
            return refused(22);
        }
        let number = u16::from_be_bytes([unit_taken[0], unit_taken[1]]);
        if !is_signal {
            return self.signal_answered(number);
        }
        if number != self.expedited.taken.wrapping_add(1) {
            return refused(23);
        }
        self.expedited.taken = number;
        Answer { signalled: true, ..write_unit(unit, number, SIGNAL_ANSWER.0, &SIGNAL_ANSWER.1) }
    }

    fn signal_answered(&mut self, number: u16) -> Answer {
        if !self.expedited.unanswered || number != self.expedited.sent {
            return refused(28);
        }
        self.expedited.unanswered = false;
        made(0)
    }

    pub fn send_pacing_response(&mut self, unit: &mut [u8]) -> Answer {
        if !self.unit_fits(unit) {
            return refused(4);
        }
        if !self.good() {
            return refused(5);
        }
        let open_then = self.into.credit() + u32::from(self.into.size);
        let room = u32::from(self.in_held) + open_then * u32::from(self.in_max) <= u32::from(self.inbox);
        if !self.into.pending || !room {
            return refused(11);
        }
        self.into.pending = false;
        write_unit(unit, 0, [0x83, 0x01, 0x00], &[])
    }

    pub fn receive_unit(&mut self, unit_taken: &[u8], inbox: &mut [u8], unit: &mut [u8]) -> Answer {
        if !self.inbox_fits(inbox) || !self.unit_fits(unit) {
            return refused(4);
        }
        if !self.good() {
            return refused(5);
        }
        if self.mark != Mark::None {
            return refused(13);
        }
        if unit_taken.len() < 5 {
            return refused(20);
        }
        let number = u16::from_be_bytes([unit_taken[0], unit_taken[1]]);
        let ru = &unit_taken[5..];
        let kind = match kind([unit_taken[2], unit_taken[3], unit_taken[4]]) {
            Ok(kind) => kind,
            Err(rule) => return Answer { rule, ..refused(21) },
        };
        let ru_good = match kind {
            Kind::Data { confirm, follow, .. } => {
                ru.len() <= usize::from(self.in_max) && (!ru.is_empty() || confirm || follow != Follow::Stay)
            }
            Kind::Bid { .. } => ru == BID,
            Kind::Error { .. } => ru == ERROR_HEADER,
            Kind::Grant => ru == GRANT,
            Kind::BidRefusal => ru == BID_REFUSAL,
            Kind::NoConfirmation => ru == NO_CONFIRMATION,
            Kind::Confirmation | Kind::Pacing => ru.is_empty(),
        };
        if !ru_good {
            return refused(22);
        }
        match kind {
            Kind::Data { first, pacing, .. } => self.take_request(first, pacing, number, kind, ru, inbox, unit),
            Kind::Bid { pacing } | Kind::Error { pacing } => self.take_request(true, pacing, number, kind, ru, inbox, unit),
            _ => self.take_response(number, kind),
        }
    }

    #[allow(clippy::too_many_arguments)]
    fn take_request(
        &mut self,
        first: bool,
        pacing: bool,
        number: u16,
        kind: Kind,
        ru: &[u8],
        inbox: &mut [u8],
        unit: &mut [u8],
    ) -> Answer {
        if self.into.credit() == 0 || pacing != (self.into.place == 0) {
            return refused(27);
        }
        if number != self.in_number.wrapping_add(1) {
            return refused(23);
        }
        if first == self.in_chain {
            return refused(24);
        }
        // Of an error header nothing joins the inbox; it is alone in its chain.
        match kind {
            Kind::Data { last, confirm, begin, follow, .. } => {
                self.take_chain(last, confirm, begin, mark_of(confirm, follow), number, ru, inbox)
            }
            Kind::Error { .. } => self.take_chain(true, false, false, Mark::Error, number, &[], inbox),
            _ => self.take_bid(number, unit),
        }
    }

    #[allow(clippy::too_many_arguments)]
    fn take_chain(
        &mut self,
        last: bool,
        confirm: bool,
        begin: bool,
        mark: Mark,
        number: u16,
        ru: &[u8],
        inbox: &mut [u8],
    ) -> Answer {
        if begin != (self.bidder && self.state == State::Reset) {
            return refused(25);
        }
        if !begin && self.state != State::Receive {
            return refused(26);
        }
        let taken = match walk(self.taken, ru) {
            Some(place) if mark == Mark::None || place == WHOLE => place,
            _ => return refused(29),
        };
        self.into.step();
        self.in_number = number;
        self.in_chain = !last;
        self.state = State::Receive;
        self.taken = taken;
        self.mark = mark;
        if confirm {
            self.owed_number = number;
        }
        let held = usize::from(self.in_held);
        inbox[held..held + ru.len()].copy_from_slice(ru);
        self.in_held += ru.len() as u16;
        made(0)
    }

    fn take_bid(&mut self, number: u16, unit: &mut [u8]) -> Answer {
        if self.bidder {
            return refused(25);
        }
        self.into.step();
        self.in_number = number;
        if self.state == State::Reset {
            self.state = State::Receive;
            return write_unit(unit, number, [0xCB, 0x80, 0x00], &GRANT);
        }
        write_unit(unit, number, [0xCF, 0x90, 0x00], &BID_REFUSAL)
    }

    fn take_response(&mut self, number: u16, kind: Kind) -> Answer {
        match kind {
            Kind::Pacing => {
                if !self.out.pending {
                    return refused(27);
                }
                if number != 0 {
                    return refused(23);
                }
                self.out.pending = false;
            }
            Kind::Grant => {
                if self.state != State::Reset || !self.bid || number != self.bid_number {
                    return refused(28);
                }
                self.state = State::Send;
                self.bid = false;
            }
            Kind::BidRefusal => {
                if !self.bid || number != self.bid_number {
                    return refused(28);
                }
                self.bid = false;
            }
            _ => {
                if self.state != State::Waits || number != self.out_number {
                    return refused(28);
                }
                // Without a confirmation this end receives, whatever was to follow.
                let denied = matches!(kind, Kind::NoConfirmation);
                self.state = if denied { State::Receive } else { after_last(self.follow) };
            }
        }
        made(0)
    }

    pub fn receive(&mut self, inbox: &mut [u8], buffer: &mut [u8]) -> Answer {
        if !self.inbox_fits(inbox) {
            return refused(4);
        }
        if !self.good() {
            return refused(5);
        }
        if buffer.is_empty() {
            return refused(6);
        }
        let held = usize::from(self.in_held);
        // How many bytes the record still has, its LL counted; one byte of LL is a read by itself.
        let rest = match (self.read, held) {
            (Place::Left(left, _), _) => Some(left),
            (Place::Between(_), 2..) => length_of(inbox[0], inbox[1]).map(|(length, _)| length),
            (Place::AfterFirst(high), 1..) => length_of(high, inbox[0]).map(|(length, _)| length - 1),
            _ => Some(1),
        };
        let Some(rest) = rest else {
            return refused(8);
        };
        if held == 0 {
            return self.read_mark();
        }
        let copied = buffer.len().min(held).min(usize::from(rest));
        buffer[..copied].copy_from_slice(&inbox[..copied]);
        if let Some(place) = walk(self.read, &buffer[..copied]) {
            self.read = place;
        }
        inbox.copy_within(copied..held, 0);
        self.in_held -= copied as u16;
        let (complete, more) = match self.read {
            Place::Between(more) => (true, more),
            _ => (false, false),
        };
        Answer { copied: copied as u32, complete, more, ..made(0) }
    }

    fn read_mark(&mut self) -> Answer {
        let mark = self.mark;
        let (state, follow, code) = match mark {
            Mark::None => return refused(12),
            Mark::Turn => (State::Send, self.follow, 1),
            Mark::End => (State::Reset, self.follow, 2),
            Mark::Confirm => (State::Owes, Follow::Stay, 3),
            Mark::ConfirmTurn => (State::Owes, Follow::Turn, 4),
            Mark::ConfirmEnd => (State::Owes, Follow::End, 5),
            Mark::Error => (State::Receive, self.follow, 6),
        };
        self.state = state;
        self.follow = follow;
        self.mark = Mark::None;
        Answer { mark: code, ..made(0) }
    }
}
