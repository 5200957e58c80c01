//! Two joined ends, called in any order with anything their callers choose, units crossing on the line.
//!
//! After every call: the ends are not both in Send or Defer; a take was not refused as a breach; the number of bytes accepted and
//! not yet read is that of the bytes in the inbox, on the line and in the send buffer; requests made and credit left are the windows
//! allowed.
//! At every read: each byte is the next of those accepted at the other end, none past the end of a record, and what is complete,
//! whether more parts follow and which cells change is right. At every send data: 8 is answered for a bad LL and for nothing else. At
//! every confirm, turn, end and prepare: 9 is answered in Send for a record that is not whole or that another part follows, and for
//! nothing else. At every call in Defer: flush and confirm carry out what is prepared, or are refused with 10; withdraw gives Send
//! back; take, read and pace leave the state; all others are refused, with 7 or, for a wrong length, 6. At every read that completes
//! a table (parts joined by what the reads say, until one that no other follows): it is the first table given that has not been read.
//!
//! A confirmation refused: the end that refuses it is in Send, and until its error header has gone flush makes that and nothing else,
//! or is refused with 10; every other call that needs Send is refused with 7. The end that takes the refusal is in Receive with no mark
//! until it takes its next request, which is the error header; that comes nowhere else, leaves its mark and no byte, and the mark read
//! leaves Receive.
//!
//! Request to send and the expedited lines: a signal is made in Receive and Owes where none is unanswered, and refused with 7 elsewhere
//! and with 30 else. It and its answer change no byte of an image but those of the expedited lines, which no other call changes. After
//! every call: signals made at one end are those told at the other and those on the line between; a signal is unanswered exactly while
//! it or its answer is on a line; and the numbers kept are how many were made and told. The expedited lines are no part of what is
//! said of bytes, credit and requests.
//!
//! Beside each end stands the plain end, with buffers of its own: it is called as the end is, and answer, record and every lent cell
//! are compared after every call.
//!
//! At times: the bytes in the inbox, on the line and in the send buffer are compared with those accepted, one by one. That is after
//! every call while fewer than 256 bytes are under way; with more, once in as many calls as there are 256s of them; and at the end
//! of every run.
//!
//! For every fourth of the shorter runs, at its end: each end's calls are made again, in up to three other orders between the ends,
//! and records, lent cells, lines and answers are compared. An order is counted as compared only if it differs from the first.
mod common;

use common::images::encode;
use common::{at, credit, word, Random};
use lu62::{Answer, Deferred, End, ExpeditedAnswer, Mark, ReadAnswer, Reason, Refusal, Role, Session, IMAGE};
use plain::{walk, Place, WHOLE};
use std::collections::VecDeque;

const SEED: u64 = 0x6C75_3632_0001;
const CALLS: usize = 1_500_000;

#[derive(Clone, Debug, PartialEq, Eq)]
enum Call {
    Allocate,
    SendData(Vec<u8>),
    Flush,
    Confirm,
    Turn(bool),
    Deallocate(bool),
    Confirmed,
    Pace,
    Take,
    // The cells that the caller's buffer holds before the read.
    Read(Vec<u8>),
    Defer(Deferred),
    Withdraw,
    SendError,
    RequestToSend,
    TakeExpedited,
}

const SEND: u8 = 1;
const RECEIVE: u8 = 2;
const OWES: u8 = 3;
const WAITS: u8 = 4;
const DEFER_TURN: u8 = 5;
const DEFER_END: u8 = 6;

fn is_defer(state: u8) -> bool {
    state == DEFER_TURN || state == DEFER_END
}

fn holds_send(state: u8) -> bool {
    state == SEND || is_defer(state)
}

#[derive(Clone, Debug, PartialEq, Eq)]
enum Outcome {
    Called(Result<Answer, Refusal>),
    // A read's outcome with every cell of the caller's buffer after it.
    Read(Result<ReadAnswer, Refusal>, Vec<u8>),
    Expedited(Result<ExpeditedAnswer, Refusal>),
}

#[derive(Clone, Copy, Debug)]
struct Sizes {
    window: [u8; 2],
    max: [u32; 2],
    send: [usize; 2],
    unit: [usize; 2],
    inbox: [usize; 2],
}

// One end with the buffers lent to it, the line towards it, and what the test knows of its history.
struct Side {
    end: End,
    send: Vec<u8>,
    unit: Vec<u8>,
    inbox: Vec<u8>,
    plain: Plain,
    // Units that the partner made and this end has not taken, oldest first.
    line: VecDeque<Vec<u8>>,
    expedited: VecDeque<Vec<u8>>,
    // The unit last taken here.
    taken: Vec<u8>,
    // Signals made here, and signals of the partner told here.
    signals: usize,
    told: usize,
    // Bytes accepted here and not yet read at the partner.
    unread: VecDeque<u8>,
    // Data bytes on the line towards this end.
    on_line: usize,
    given: Place,
    read: Place,
    tables: Tables,
    // The refusal of a confirmation has been taken here, and the error header behind it has not.
    unexplained: bool,
    requests: usize,
    pacing_taken: usize,
    records_read: usize,
}

// The plain end with buffers of its own, which start with the same cells.
struct Plain {
    end: plain::End,
    send: Vec<u8>,
    unit: Vec<u8>,
    inbox: Vec<u8>,
}

impl Plain {
    // The same call. `taken` is the unit that a take gets, and `buffer` the cells of a read's buffer.
    fn call(&mut self, call: &Call, taken: &[u8], buffer: &mut [u8]) -> plain::Answer {
        let Plain { end, send, unit, inbox } = self;
        match call {
            Call::Allocate => end.allocate(unit),
            Call::SendData(bytes) => end.send_data(bytes, send, unit),
            Call::Flush => end.flush(send, unit),
            Call::Confirm => end.confirm(send, unit),
            Call::Turn(confirm) => end.prepare_to_receive(*confirm, send, unit),
            Call::Deallocate(confirm) => end.deallocate(*confirm, send, unit),
            Call::Confirmed => end.confirmed(unit),
            Call::Pace => end.send_pacing_response(unit),
            Call::Take => end.receive_unit(taken, inbox, unit),
            Call::Read(_) => end.receive(inbox, buffer),
            Call::Defer(Deferred::Turn) => end.defer_turn(),
            Call::Defer(Deferred::End) => end.defer_end(),
            Call::Withdraw => end.withdraw(),
            Call::SendError => end.send_error(unit),
            Call::RequestToSend => end.request_to_send(unit),
            Call::TakeExpedited => end.receive_expedited(taken, unit),
        }
    }
}

// An outcome as the plain end answers.
fn as_plain(outcome: &Outcome) -> plain::Answer {
    let none = plain::Answer::default();
    let refused =
        |refusal: &Refusal| plain::Answer { refusal: refusal.reason.number(), sense: refusal.sense, rule: refusal.rule, ..none };
    match outcome {
        Outcome::Called(Ok(answer)) => plain::Answer { unit: answer.unit as u32, ..none },
        Outcome::Read(Ok(answer), _) => plain::Answer {
            copied: answer.copied as u32,
            complete: answer.complete,
            more: answer.more,
            mark: answer.mark.map_or(0, |mark| mark as u32 + 1),
            ..none
        },
        Outcome::Expedited(Ok(answer)) => plain::Answer { unit: answer.unit as u32, signalled: answer.signalled, ..none },
        Outcome::Called(Err(refusal)) | Outcome::Read(Err(refusal), _) | Outcome::Expedited(Err(refusal)) => refused(refusal),
    }
}

// A table: the bytes of its parts, LL included.
type Table = Vec<Vec<u8>>;

// The tables that one side gives, told from the bytes alone, and the one that it reads, told from what its reads say.
#[derive(Default)]
struct Tables {
    // Whole tables accepted here and not yet read at the partner, oldest first.
    given: VecDeque<Table>,
    // The parts accepted of the next table, and what has been accepted of its next part.
    giving: Table,
    part_given: Vec<u8>,
    // The same of what has been read here.
    reading: Table,
    part_read: Vec<u8>,
}

impl Tables {
    fn give(&mut self, bytes: &[u8]) {
        for &byte in bytes {
            self.part_given.push(byte);
            if ended(&self.part_given) {
                let part = std::mem::take(&mut self.part_given);
                let last = part[0] < 0x80;
                self.giving.push(part);
                if last {
                    self.given.push_back(std::mem::take(&mut self.giving));
                }
            }
        }
    }

    // Bytes read. Gives the table that is whole with them, if one is.
    fn read(&mut self, bytes: &[u8], complete: bool, more: bool) -> Option<Table> {
        self.part_read.extend(bytes);
        if complete {
            self.reading.push(std::mem::take(&mut self.part_read));
        }
        (complete && !more).then(|| std::mem::take(&mut self.reading))
    }
}

// Whether a part has as many bytes as its LL says.
fn ended(part: &[u8]) -> bool {
    part.len() >= 2 && part.len() == (usize::from(part[0]) * 256 + usize::from(part[1])) % 0x8000
}

// What was seen of confirmations refused.
#[derive(Default)]
struct Errors {
    // Refused, by what was to follow: stay, turn, end.
    denials: [usize; 3],
    denials_taken: usize,
    headers_made: usize,
    headers_taken: usize,
    // Where an error is due: flushes refused with 10, calls refused with 7 or 6, pacing responses and bid refusals taken.
    meanwhile: [usize; 4],
}

// What was seen of signals.
#[derive(Default)]
struct Signals {
    // Made in Receive, in Receive under a mark, and in Owes.
    made: [usize; 3],
    // Told, by the state of the end that is told.
    told: [usize; 7],
    answered: usize,
    // Expedited units taken under a mark, and before a normal unit that was made earlier.
    under_mark: usize,
    overtaking: usize,
}

#[derive(Default)]
struct Seen {
    calls: usize,
    accepted: [usize; 16],
    refused: [usize; 31],
    // In Defer-turn and Defer-end: carried out by flush, by confirm; withdrawn; refused with 10, with 7 or 6; pacing responses taken;
    // bids refused.
    deferred: [[usize; 7]; 2],
    errors: Errors,
    signals: Signals,
    grants: usize,
    bid_refusals: usize,
    marks: [usize; 7],
    records: usize,
    parts: usize,
    tables: usize,
    tables_of_parts: usize,
    most_parts: usize,
    // 9 because a record is not whole, and because another part is to follow.
    unfinished: [usize; 2],
    // LLs given, by the edge values below.
    edges: [usize; EDGES.len()],
    units_a_record: usize,
    whole_checks: usize,
    compared: usize,
    alike: usize,
    wrapped: usize,
}

// The first and last good LLs and the bad ones, without and with the top bit.
const EDGES: [u16; 8] = [0x0000, 0x0001, 0x0002, 0x7FFF, 0x8000, 0x8001, 0x8002, 0xFFFF];

impl Seen {
    // The LLs that begin in these bytes, up to the first bad one, if they are among the edge values.
    fn count_edges(&mut self, mut place: Place, bytes: &[u8]) {
        let mut rest = bytes;
        while let [first, second, ..] = rest {
            let ll = u16::from_be_bytes([*first, *second]);
            let skipped = match place {
                Place::Between(_) => {
                    if let Some(edge) = EDGES.iter().position(|&edge| edge == ll) {
                        self.edges[edge] += 1;
                    }
                    2
                }
                Place::AfterFirst(_) => 1,
                Place::Left(left, _) => rest.len().min(usize::from(left)),
            };
            let Some(after) = walk(place, &rest[..skipped]) else {
                return;
            };
            place = after;
            rest = &rest[skipped..];
        }
    }

    fn count(&mut self, call: &Call, outcome: &Outcome) {
        self.calls += 1;
        let place = match call {
            Call::Allocate => 0,
            Call::SendData(_) => 1,
            Call::Flush => 2,
            Call::Confirm => 3,
            Call::Turn(_) => 4,
            Call::Deallocate(_) => 5,
            Call::Confirmed => 6,
            Call::Pace => 7,
            Call::Take => 8,
            Call::Read(_) => 9,
            Call::Defer(Deferred::Turn) => 10,
            Call::Defer(Deferred::End) => 11,
            Call::Withdraw => 12,
            Call::SendError => 13,
            Call::RequestToSend => 14,
            Call::TakeExpedited => 15,
        };
        match outcome {
            Outcome::Called(Err(refusal)) | Outcome::Read(Err(refusal), _) | Outcome::Expedited(Err(refusal)) => {
                assert!(!refusal.reason.is_breach(), "a take between joined ends was refused: {refusal}");
                assert_ne!(refusal.reason, Reason::BadBuffer, "the buffers are those of opening");
                assert_ne!(refusal.reason, Reason::BadRecord, "calls left a record out of range");
                self.refused[refusal.reason.number() as usize] += 1;
            }
            _ => self.accepted[place] += 1,
        }
    }

    fn print(&self, runs: usize) {
        println!(
            "joined: seed {SEED:#x}, {} calls in {runs} runs, {} records read, {} of them with another part to follow, \
             {} tables read, {} of several parts, {} other orders compared ({} more were the first again), {} comparisons of all bytes",
            self.calls,
            self.records,
            self.parts,
            self.tables,
            self.tables_of_parts,
            self.compared,
            self.alike,
            self.whole_checks
        );
        println!("joined: accepted by call {:?}", self.accepted);
        println!("joined: refused by number {:?}", self.refused);
        println!("joined: 9 for a record not whole, and for a part that another follows {:?}", self.unfinished);
        println!("joined: LLs given {EDGES:04X?}: {:?}", self.edges);
        println!("joined: at most {} parts in a table", self.most_parts);
        println!("joined: bids granted {}, refused {}; marks read {:?}", self.grants, self.bid_refusals, self.marks);
        let what =
            "carried out by flush, by confirm, withdrawn, refused with 10, with 7 or 6, pacing responses taken, bids refused";
        println!("joined: in Defer-turn and in Defer-end: {what}: {:?}", self.deferred);
        let Errors { denials, denials_taken, headers_made, headers_taken, meanwhile } = &self.errors;
        println!(
            "joined: confirmations refused {}, by what was to follow (stay, turn, end) {denials:?}; refusals taken {denials_taken}; \
             error headers made {headers_made}, taken {headers_taken}, their marks read {}",
            denials.iter().sum::<usize>(),
            self.marks[Mark::Error as usize + 1]
        );
        let what = "flush refused with 10, calls refused with 7 or 6, pacing responses taken, bid refusals taken";
        println!("joined: where an error is due: {what}: {meanwhile:?}");
        let Signals { made, told, answered, under_mark, overtaking } = &self.signals;
        println!(
            "joined: signals made {}, in Receive, in Receive under a mark and in Owes {made:?}; told {}, by state {told:?}; \
             answers taken {answered}; expedited units taken under a mark {under_mark}, before a unit made earlier {overtaking}",
            made.iter().sum::<usize>(),
            told.iter().sum::<usize>()
        );
    }

    // Runs that never reach a rule would show nothing about it.
    fn assert_reached(&self) {
        assert!(self.calls >= 1_000_000 && self.compared >= 100);
        assert!(self.accepted.iter().all(|&n| n >= 1000));
        assert!([6, 7, 8, 9, 10, 11, 12, 13, 30].iter().all(|&n: &usize| self.refused[n] >= 1000));
        assert!(self.grants >= 1000 && self.bid_refusals >= 1000);
        assert!(self.marks[1..].iter().all(|&n| n >= 1000));
        assert!(self.records >= 10_000 && self.units_a_record >= 20);
        assert!(self.parts >= 10_000 && self.tables_of_parts >= 10_000 && self.most_parts >= 10);
        assert!(self.unfinished.iter().all(|&n| n >= 1000));
        assert!(self.edges.iter().all(|&n| n >= 20));
        assert!(self.deferred.iter().all(|counts| counts[..5].iter().all(|&n| n >= 500) && counts[5..].iter().all(|&n| n >= 50)));
        assert!(self.errors.denials.iter().all(|&n| n >= 500) && self.errors.denials_taken >= 1000);
        assert!(self.errors.headers_made >= 1000 && self.errors.headers_taken >= 1000);
        assert!(self.errors.meanwhile.iter().all(|&n| n >= 50));
        assert!(self.signals.made.iter().all(|&n| n >= 500) && self.signals.told.iter().all(|&n| n >= 20));
        assert!(self.signals.answered >= 1000 && self.signals.under_mark >= 500 && self.signals.overtaking >= 1000);
    }
}

impl Side {
    // Bytes given here: 8 is answered for a bad LL and for nothing else.
    fn note_given(&mut self, bytes: &[u8], result: &Result<Answer, Refusal>, seen: &mut Seen) {
        let after = walk(self.given, bytes);
        match result {
            Ok(_) => {
                seen.count_edges(self.given, bytes);
                self.given = after.expect("an accepted LL is in range");
                self.unread.extend(bytes);
                self.tables.give(bytes);
            }
            Err(refusal) => {
                let image = self.end.image();
                let fits = (1..=word(image, at::OUT_MAX)).contains(&bytes.len());
                assert_eq!(
                    refusal.reason == Reason::BadLl,
                    fits && image[at::STATE] == SEND && image[at::ERROR] == 0 && after.is_none(),
                    "8 is for a bad LL given in Send with no error due: {refusal}"
                );
                if refusal.reason == Reason::BadLl {
                    seen.count_edges(self.given, bytes);
                }
            }
        }
    }

    // A confirm, turn, end or prepare made here in this state: 9 is answered where the last record is not whole or another part is to
    // follow it.
    fn note_closed(&self, state: u8, result: &Result<Answer, Refusal>, seen: &mut Seen) {
        let refused = result.is_err_and(|refusal| refusal.reason == Reason::UnfinishedRecord);
        assert_eq!(refused, state == SEND && self.given != WHOLE, "9 at record place {:?}", self.given);
        if refused {
            seen.unfinished[usize::from(self.given == Place::Between(true))] += 1;
        }
    }

    // A call made here in Defer.
    fn note_deferred(&self, call: &Call, state: u8, outcome: &Outcome, seen: &mut Seen) {
        let counts = &mut seen.deferred[usize::from(state == DEFER_END)];
        let after = self.end.image()[at::STATE];
        match (call, outcome) {
            (Call::Flush | Call::Confirm, Outcome::Called(Ok(answer))) => {
                let confirm = *call == Call::Confirm;
                self.check_carried_out(state == DEFER_TURN, confirm, answer);
                counts[usize::from(confirm)] += 1;
            }
            (Call::Withdraw, Outcome::Called(Ok(_))) => {
                assert_eq!(after, SEND, "withdrawing gives Send back");
                counts[2] += 1;
            }
            (Call::Take | Call::Read(_) | Call::Pace, _) => {
                assert_eq!(after, state, "{call:?} leaves Defer as it is");
                if let (Call::Take, Outcome::Called(Ok(answer))) = (call, outcome) {
                    counts[5] += usize::from(self.taken[2..5] == PACING_RESPONSE);
                    counts[6] += usize::from(answer.unit > 0);
                }
            }
            (Call::TakeExpedited, _) => assert_eq!(after, state, "{call:?} leaves Defer as it is"),
            (_, Outcome::Called(Err(refusal))) => {
                assert_eq!((refusal.reason, after), (self.reason_in_defer(call), state), "{call:?} in Defer");
                counts[if refusal.reason == Reason::NoCredit { 3 } else { 4 }] += 1;
            }
            _ => panic!("{call:?} is accepted in Defer"),
        }
    }

    // A call made here where an error is due.
    fn note_error_due(&self, call: &Call, outcome: &Outcome, seen: &mut Seen) {
        let image = self.end.image();
        let counts = &mut seen.errors.meanwhile;
        let left = (image[at::STATE], image[at::ERROR]);
        match (call, outcome) {
            (Call::Flush, Outcome::Called(Ok(answer))) => {
                assert!(is_error_header(&self.unit[..answer.unit]) && answer.unit == 12, "flush makes the error header");
                assert_eq!(left, (SEND, 0), "after the error header");
                seen.errors.headers_made += 1;
            }
            (Call::Take | Call::Read(_) | Call::Pace, _) => {
                assert_eq!(left, (SEND, 1), "{call:?} leaves the error due");
                if let (Call::Take, Outcome::Called(Ok(answer))) = (call, outcome) {
                    assert_eq!(answer.unit, 0, "no bid comes where an error is due");
                    counts[2] += usize::from(self.taken[2..5] == PACING_RESPONSE);
                    counts[3] += usize::from(self.taken[2] == 0xCF);
                }
            }
            (Call::TakeExpedited, _) => assert_eq!(left, (SEND, 1), "{call:?} leaves the error due"),
            (_, Outcome::Called(Err(refusal))) => {
                let expected = match call {
                    Call::Confirm => Reason::WrongState,
                    _ => self.reason_in_defer(call),
                };
                assert_eq!((refusal.reason, left), (expected, (SEND, 1)), "{call:?} where an error is due");
                counts[usize::from(refusal.reason != Reason::NoCredit)] += 1;
            }
            _ => panic!("{call:?} is accepted where an error is due"),
        }
    }

    // A confirmation refused here, if one is owed: the unit that was made, and what the record then says.
    fn note_denied(&self, before: &[u8; IMAGE], result: &Result<Answer, Refusal>, seen: &mut Seen) {
        let image = self.end.image();
        let Ok(answer) = result else {
            let wrong_state = result.is_err_and(|refusal| refusal.reason == Reason::WrongState);
            assert!(wrong_state && before[at::STATE] != OWES, "a confirmation that is owed is not refused: {result:?}");
            return;
        };
        let number = (word(before, at::OWED_NUMBER) as u16).to_be_bytes();
        assert_eq!(self.unit[..answer.unit], [&number[..], &NO_CONFIRMATION, &[0x08, 0x46, 0x00, 0x00]].concat());
        let mut expected = *before;
        (expected[at::STATE], expected[at::ERROR]) = (SEND, 1);
        assert_eq!((before[at::STATE], image), (OWES, &expected), "only state and error due change");
        seen.errors.denials[usize::from(before[at::FOLLOW])] += 1;
    }

    // A unit taken here: a bid, which is answered; the refusal of a confirmation, and the next request behind it, which is the error
    // header.
    fn note_taken(&mut self, before: &[u8; IMAGE], answer: &Answer, seen: &mut Seen) {
        match (answer.unit, self.unit[2], before[at::STATE]) {
            (0, _, _) => {}
            (_, 0xCB, 0) => seen.grants += 1,
            (_, 0xCF, 1..) => seen.bid_refusals += 1,
            (_, other, state) => panic!("a take in state {state} made a unit of kind {other:02X}"),
        }
        let image = self.end.image();
        let left = (image[at::STATE], image[at::MARK], word(image, at::IN_HELD));
        let held = word(before, at::IN_HELD);
        if self.taken[2] & 0x80 == 0 {
            let error = is_error_header(&self.taken);
            assert_eq!(error, self.unexplained, "the request behind a refused confirmation, and no other, is the error header");
            assert!(!error || left == (RECEIVE, 6, held), "an error header leaves its mark and no byte");
            seen.errors.headers_taken += usize::from(error);
            self.unexplained = false;
        }
        if self.taken[2..5] == NO_CONFIRMATION {
            assert_eq!((before[at::STATE], left), (WAITS, (RECEIVE, 0, held)), "the refusal of a confirmation gives Receive");
            seen.errors.denials_taken += 1;
            self.unexplained = true;
        }
    }

    // The turn requested here: the signal made, and what the record then says.
    fn note_requested(&mut self, before: &[u8; IMAGE], result: &Result<Answer, Refusal>, seen: &mut Seen) {
        let (state, marked) = (before[at::STATE], before[at::MARK] != 0);
        let expected = match (state, before[at::UNANSWERED]) {
            (RECEIVE | OWES, 0) => None,
            (RECEIVE | OWES, _) => Some(Reason::SignalUnanswered),
            _ => Some(Reason::WrongState),
        };
        assert_eq!(result.err().map(|refusal| refusal.reason), expected, "request to send in state {state}");
        let Ok(answer) = result else {
            return;
        };
        self.signals += 1;
        let number = (self.signals as u16).to_be_bytes();
        assert_eq!(self.unit[..answer.unit], [&number[..], &SIGNAL, &[0xC9, 0x00, 0x01, 0x00, 0x00]].concat());
        seen.signals.made[if state == OWES { 2 } else { usize::from(marked) }] += 1;
    }

    // An expedited unit taken here: a signal, which is told and answered, or the answer to this end's own.
    fn note_expedited(&mut self, before: &[u8; IMAGE], result: &Result<ExpeditedAnswer, Refusal>, seen: &mut Seen) {
        let answer = result.expect("an expedited unit of the partner is taken in every state");
        assert_eq!(answer.signalled, self.taken[2..5] == SIGNAL, "a signal taken is told, and nothing else");
        let made = &self.unit[..answer.unit];
        if answer.signalled {
            self.told += 1;
            assert_eq!(made, [&self.taken[..2], &SIGNAL_ANSWER, &[0xC9]].concat(), "a signal is answered under its number");
            seen.signals.told[usize::from(before[at::STATE])] += 1;
        } else {
            assert_eq!((made, before[at::UNANSWERED]), (&[][..], 1), "the answer to a signal that is unanswered");
            seen.signals.answered += 1;
        }
        seen.signals.under_mark += usize::from(before[at::MARK] != 0);
        seen.signals.overtaking += usize::from(!self.line.is_empty());
    }

    // Signals, and answers to them, on the expedited line towards this end.
    fn signals_waiting(&self) -> [usize; 2] {
        let count = |header: [u8; 3]| self.expedited.iter().filter(|unit| unit[2..5] == header).count();
        [count(SIGNAL), count(SIGNAL_ANSWER)]
    }

    // A turn or an end carried out: the unit that was made, and the state after it.
    fn check_carried_out(&self, turn: bool, confirm: bool, answer: &Answer) {
        assert!(answer.unit >= 5, "flush and confirm in Defer make a unit");
        let header = [self.unit[2] & 0x01, self.unit[3] & 0xFE, self.unit[4] & 0x7F];
        let expected = [0x01, if confirm { 0x20 } else { 0x90 }, if turn { 0x20 } else { 0x01 }];
        assert_eq!(header, expected, "last in its chain, and what it says, but for first, pacing bit and BB");
        let state = match (confirm, turn) {
            (true, _) => WAITS,
            (false, true) => RECEIVE,
            (false, false) => 0,
        };
        assert_eq!(self.end.image()[at::STATE], state, "the state after it");
    }

    // Why this call can be refused in Defer, if it is.
    fn reason_in_defer(&self, call: &Call) -> Reason {
        match call {
            Call::Flush | Call::Confirm => Reason::NoCredit,
            Call::SendData(bytes) if !(1..=word(self.end.image(), at::OUT_MAX)).contains(&bytes.len()) => Reason::BadLength,
            _ => Reason::WrongState,
        }
    }
}

impl Side {
    // The call, with the unit that a take gets.
    fn call(&mut self, call: &Call, waiting: &[u8]) -> Outcome {
        let Side { end, send, unit, inbox, .. } = self;
        Outcome::Called(match call {
            Call::Allocate => end.allocate(unit),
            Call::SendData(bytes) => end.send_data(bytes, send, unit),
            Call::Flush => end.flush(send, unit),
            Call::Confirm => end.confirm(send, unit),
            Call::Turn(confirm) => end.prepare_to_receive(*confirm, send, unit),
            Call::Deallocate(confirm) => end.deallocate(*confirm, send, unit),
            Call::Confirmed => end.confirmed(unit),
            Call::Pace => end.send_pacing_response(unit),
            Call::Take => end.receive_unit(waiting, inbox, unit),
            Call::Read(cells) => {
                let mut buffer = cells.clone();
                let result = end.receive(inbox, &mut buffer);
                return Outcome::Read(result, buffer);
            }
            Call::Defer(what) => end.defer(*what).map(|()| Answer { unit: 0 }),
            Call::Withdraw => end.withdraw().map(|()| Answer { unit: 0 }),
            Call::SendError => end.send_error(unit),
            Call::RequestToSend => end.request_to_send(unit),
            Call::TakeExpedited => return Outcome::Expedited(end.receive_expedited(waiting, unit)),
        })
    }

    // Makes the call at the plain end, and compares all that it leaves.
    fn compare_plain(&mut self, call: &Call, waiting: &[u8], outcome: &Outcome) {
        let mut buffer = if let Call::Read(cells) = call { cells.clone() } else { Vec::new() };
        let answer = self.plain.call(call, waiting, &mut buffer);
        assert_eq!(as_plain(outcome), answer, "{call:?}: the plain end answers otherwise");
        let mut image = [0; IMAGE];
        encode(&self.plain.end, &mut image);
        assert_eq!(*self.end.image(), image, "{call:?}: the plain end leaves another record");
        let Plain { send, unit, inbox, .. } = &self.plain;
        assert!(*send == self.send && *unit == self.unit && *inbox == self.inbox, "{call:?}: the plain end leaves other cells");
        if let Outcome::Read(_, cells) = outcome {
            assert!(*cells == buffer, "the plain end leaves other cells of a read's buffer");
        }
    }
}

struct Pair {
    sides: [Side; 2],
}

// The headers of a pacing response and of a refused confirmation.
const PACING_RESPONSE: [u8; 3] = [0x83, 0x01, 0x00];
const NO_CONFIRMATION: [u8; 3] = [0x87, 0x30, 0x00];

// On the expedited lines: those of a signal and of its answer.
const SIGNAL: [u8; 3] = [0x4B, 0x80, 0x00];
const SIGNAL_ANSWER: [u8; 3] = [0xCB, 0x80, 0x00];

// The error header, with or without the pacing bit.
fn is_error_header(unit: &[u8]) -> bool {
    (unit[2], unit[3] & 0xFE, unit[4]) == (0x0B, 0x90, 0x00) && unit[5..] == [0x07, 0x07, 0x08, 0x89, 0x00, 0x00, 0x00]
}

fn data_ru(unit: &[u8]) -> &[u8] {
    if unit[2] <= 3 {
        &unit[5..]
    } else {
        &[]
    }
}

// The plain end opened as the end is, with these cells.
fn plain_beside(sizes: &Sizes, who: usize, send: &[u8], unit: &[u8], inbox: &[u8]) -> Plain {
    let session = plain::Session {
        role: who as u8,
        out_window: sizes.window[who],
        in_window: sizes.window[1 - who],
        out_max: sizes.max[who],
        in_max: sizes.max[1 - who],
    };
    let end = plain::open(session, send.len(), unit.len(), inbox.len()).expect("these sizes are in range");
    Plain { end, send: send.to_vec(), unit: unit.to_vec(), inbox: inbox.to_vec() }
}

fn session(sizes: &Sizes, who: usize) -> Session {
    Session {
        role: if who == 0 { Role::FirstSpeaker } else { Role::Bidder },
        out_window: sizes.window[who],
        in_window: sizes.window[1 - who],
        out_max: sizes.max[who],
        in_max: sizes.max[1 - who],
    }
}

impl Pair {
    // Both ends opened. The cells of the buffers come from a generator of their own, so that two pairs can start alike.
    fn open(sizes: &Sizes, cells: u64) -> Pair {
        let mut random = Random(cells);
        let mut side = |who: usize| {
            let mut send = vec![0; sizes.send[who]];
            let mut unit = vec![0; sizes.unit[who]];
            let mut inbox = vec![0; sizes.inbox[who]];
            random.fill(&mut send);
            random.fill(&mut unit);
            random.fill(&mut inbox);
            let end = End::open(session(sizes, who), &send, &unit, &inbox).expect("these sizes are in range");
            Side {
                plain: plain_beside(sizes, who, &send, &unit, &inbox),
                end,
                send,
                unit,
                inbox,
                line: VecDeque::new(),
                expedited: VecDeque::new(),
                taken: Vec::new(),
                signals: 0,
                told: 0,
                unread: VecDeque::new(),
                on_line: 0,
                given: WHOLE,
                read: WHOLE,
                tables: Tables::default(),
                unexplained: false,
                requests: 0,
                pacing_taken: 0,
                records_read: 0,
            }
        };
        Pair { sides: [side(0), side(1)] }
    }

    // One call at one end, and at the plain end beside it. A take needs a unit on the line.
    fn call(&mut self, who: usize, call: &Call) -> Outcome {
        let side = &mut self.sides[who];
        let line = if *call == Call::TakeExpedited { &side.expedited } else { &side.line };
        let waiting = line.front().cloned().unwrap_or_default();
        let outcome = side.call(call, &waiting);
        side.compare_plain(call, &waiting, &outcome);
        match outcome {
            Outcome::Called(Ok(answer)) => self.carry(who, call, answer.unit),
            Outcome::Expedited(Ok(answer)) => self.carry(who, call, answer.unit),
            _ => {}
        }
        outcome
    }

    // After an accepted call: a unit taken leaves its line, and a unit made joins the other.
    fn carry(&mut self, who: usize, call: &Call, made: usize) {
        let side = &mut self.sides[who];
        match call {
            Call::Take => {
                side.taken = side.line.pop_front().unwrap_or_default();
                side.on_line -= data_ru(&side.taken).len();
                side.pacing_taken += usize::from(side.taken[2..5] == PACING_RESPONSE);
            }
            Call::TakeExpedited => side.taken = side.expedited.pop_front().unwrap_or_default(),
            _ => {}
        }
        if made == 0 {
            return;
        }
        let unit = side.unit[..made].to_vec();
        if matches!(call, Call::RequestToSend | Call::TakeExpedited) {
            self.sides[1 - who].expedited.push_back(unit);
            return;
        }
        if unit[2] & 0x80 == 0 {
            side.requests += 1;
        }
        let other = &mut self.sides[1 - who];
        other.on_line += data_ru(&unit).len();
        other.line.push_back(unit);
    }

    // What the outcome adds to the histories, with the checks that belong to this one call. `before` is the image before the call.
    fn note(&mut self, who: usize, call: &Call, before: &[u8; IMAGE], outcome: &Outcome, seen: &mut Seen) {
        let state = before[at::STATE];
        seen.count(call, outcome);
        check_other_lines(call, before, self.sides[who].end.image());
        if is_defer(state) {
            self.sides[who].note_deferred(call, state, outcome, seen);
        }
        if before[at::ERROR] == 1 {
            self.sides[who].note_error_due(call, outcome, seen);
        }
        match (call, outcome) {
            (Call::SendData(bytes), Outcome::Called(result)) => self.sides[who].note_given(bytes, result, seen),
            (Call::Confirm | Call::Turn(_) | Call::Deallocate(_), Outcome::Called(result)) => {
                self.sides[who].note_closed(state, result, seen);
            }
            (Call::Defer(what), Outcome::Called(result)) => {
                self.sides[who].note_closed(state, result, seen);
                let after = if result.is_err() { state } else { DEFER_TURN + *what as u8 };
                assert_eq!(self.sides[who].end.image()[at::STATE], after, "what is prepared is noted");
                assert!(result.is_err() || state == SEND, "a turn or an end was prepared outside Send");
            }
            (Call::Read(cells), Outcome::Read(result, buffer)) => {
                let copied = result.map_or(0, |answer| answer.copied);
                assert_eq!(buffer[copied..], cells[copied..], "cells past the bytes copied keep what they had");
                match result {
                    Ok(answer) => self.note_read(who, answer, &buffer[..copied], seen),
                    Err(refusal) => assert!([Reason::NothingToRead, Reason::BadLength].contains(&refusal.reason)),
                }
            }
            (Call::Take, Outcome::Called(Ok(answer))) => self.sides[who].note_taken(before, answer, seen),
            (Call::Withdraw, Outcome::Called(Ok(_))) => assert!(is_defer(state), "nothing was prepared"),
            (Call::SendError, Outcome::Called(result)) => self.sides[who].note_denied(before, result, seen),
            (Call::RequestToSend, Outcome::Called(result)) => self.sides[who].note_requested(before, result, seen),
            (Call::TakeExpedited, Outcome::Expedited(result)) => self.sides[who].note_expedited(before, result, seen),
            _ => {}
        }
    }

    // An accepted read: its bytes are the next of those accepted at the other end, none past the end of a record.
    fn note_read(&mut self, who: usize, answer: &ReadAnswer, bytes: &[u8], seen: &mut Seen) {
        let (one, two) = self.sides.split_at_mut(1);
        let (reader, giver) = if who == 0 { (&mut one[0], &mut two[0]) } else { (&mut two[0], &mut one[0]) };
        for (i, byte) in bytes.iter().enumerate() {
            assert_eq!(Some(*byte), giver.unread.pop_front(), "byte {i} read is not the next byte accepted");
            reader.read = walk(reader.read, &[*byte]).expect("an LL read is in range");
            let last = i + 1 == bytes.len();
            assert!(last || !matches!(reader.read, Place::Between(_)), "a read went past the end of a record");
        }
        assert_eq!(answer.complete, !bytes.is_empty() && matches!(reader.read, Place::Between(_)));
        assert_eq!(answer.more, answer.complete && reader.read == Place::Between(true));
        assert_eq!(answer.mark.is_some(), bytes.is_empty());
        assert!(answer.mark.is_none() || reader.read == WHOLE, "a mark was read inside a table");
        if answer.complete {
            reader.records_read += 1;
            seen.records += 1;
            seen.parts += usize::from(answer.more);
        }
        if let Some(table) = reader.tables.read(bytes, answer.complete, answer.more) {
            seen.tables += 1;
            seen.tables_of_parts += usize::from(table.len() > 1);
            seen.most_parts = seen.most_parts.max(table.len());
            assert_eq!(Some(table), giver.tables.given.pop_front(), "a table read is not the next table given");
        }
        let state = reader.end.image()[at::STATE];
        assert!(answer.mark != Some(Mark::Error) || state == RECEIVE, "the mark error leaves Receive");
        seen.marks[answer.mark.map_or(0, |mark| mark as usize + 1)] += 1;
    }

    // What must hold after every call. The bytes themselves are compared where `whole` says so, their number always.
    fn check(&self, sizes: &Sizes, whole: bool) {
        let images = [self.sides[0].end.image(), self.sides[1].end.image()];
        assert!(!images.iter().all(|image| holds_send(image[at::STATE])), "both ends are in Send or Defer");
        for who in 0..2 {
            let (giver, taker) = (&self.sides[who], &self.sides[1 - who]);
            let waits_for_cause = images[who][at::STATE] == RECEIVE && images[who][at::MARK] == 0;
            assert!(!giver.unexplained || waits_for_cause, "Receive and no mark, until the error header is taken");
            check_signals(giver, taker);
            let window = usize::from(sizes.window[who]);
            assert_eq!(
                giver.requests + credit(images[who], at::OUT_WINDOW),
                window * (1 + giver.pacing_taken),
                "requests made and credit left are not the windows allowed"
            );
            let inbox = word(images[1 - who], at::IN_HELD);
            let held = word(images[who], at::OUT_HELD);
            assert_eq!(giver.unread.len(), inbox + taker.on_line + held, "bytes were lost or made");
            if whole {
                let mut rest = giver.unread.iter();
                let mut same = |bytes: &[u8]| bytes.iter().all(|byte| rest.next() == Some(byte));
                assert!(same(&taker.inbox[..inbox]), "bytes in the inbox");
                assert!(taker.line.iter().all(|unit| same(data_ru(unit))), "bytes on the line");
                assert!(same(&giver.send[..held]), "bytes in the send buffer");
            }
        }
    }
}

// The calls of the expedited lines change the last bytes of the image only, and every other call changes none of these.
fn check_other_lines(call: &Call, before: &[u8; IMAGE], after: &[u8; IMAGE]) {
    let expedited = matches!(call, Call::RequestToSend | Call::TakeExpedited);
    let kept = if expedited { 0..at::UNANSWERED } else { at::UNANSWERED..IMAGE };
    assert_eq!(after[kept.clone()], before[kept], "{call:?} changes bytes of the other lines");
}

// What must hold after every call of the signals made at one end.
fn check_signals(giver: &Side, taker: &Side) {
    let (signals, answers) = (taker.signals_waiting()[0], giver.signals_waiting()[1]);
    assert_eq!(giver.signals, taker.told + signals, "each signal is told once, when it is taken");
    let image = giver.end.image();
    assert_eq!(usize::from(image[at::UNANSWERED]), signals + answers, "a signal is unanswered until its answer is taken");
    assert_eq!(word(image, at::EXPEDITED_SENT), giver.signals % 65_536, "the last expedited number sent");
    assert_eq!(word(taker.end.image(), at::EXPEDITED_TAKEN), taker.told % 65_536, "the last expedited number taken");
}

// How the callers of one run behave.
struct Habits {
    // How often, of 16, a call is one that the state does not suggest.
    odd: usize,
    // How often, of 16, the end that called last calls again.
    stay: usize,
    // How often, of 16, a suggested call is a take of an expedited unit, a take of another, or a read.
    take_expedited: usize,
    take: usize,
    read: usize,
    // How often, of 16, an end in Send with a whole record closes in one of the ways.
    close: usize,
    // How often, of 16, a record is a part that another follows.
    parts: usize,
    // How often, of 16, a confirmation that is owed is refused.
    deny: usize,
    // How often, of 16, an end in Receive or Owes requests the turn.
    request: usize,
    longest_record: usize,
    longest_read: usize,
    largest_gift: usize,
}

fn habits(random: &mut Random, sizes: &Sizes) -> Habits {
    let largest = sizes.max[0].max(sizes.max[1]) as usize;
    let longest_record = match random.below(4) {
        0 => random.range(2, 12),
        1 => random.range(2, largest + 10),
        2 => (largest * random.range(2, 20)).min(32767),
        _ => 32767,
    };
    Habits {
        odd: random.range(0, 4),
        stay: random.range(0, 15),
        take_expedited: random.pick(&[1, 1, 4, 12]),
        take: random.range(2, 14),
        read: random.range(2, 14),
        close: random.range(1, 12),
        parts: random.pick(&[0, 0, 2, 5, 12]),
        deny: random.pick(&[0, 4, 13]),
        request: random.pick(&[0, 1, 4, 8]),
        longest_record,
        longest_read: if random.chance(1, 2) { random.range(1, 20) } else { random.range(1, 3000) },
        largest_gift: if random.chance(1, 3) { 9 } else { 1024 },
    }
}

// An LL: with `bad` one that is refused, else one of a record of at most `longest` bytes, with the top bit on in `parts` of 16.
fn ll(random: &mut Random, longest: usize, parts: usize, bad: bool) -> u16 {
    if bad {
        return random.pick(&[0x0000, 0x0001, 0x8000, 0x8001]);
    }
    let length = match random.below(16) {
        0..=3 => 2,
        4..=7 => random.range(2, longest.min(9)),
        8..=10 => longest,
        _ => random.range(2, longest),
    };
    length as u16 + if random.chance(parts, 16) { 0x8000 } else { 0 }
}

// Bytes of records that go on from `place`. With `bad`, an LL among them is refused.
fn gift(random: &mut Random, mut place: Place, length: usize, longest: usize, parts: usize, bad: bool) -> Vec<u8> {
    let mut bytes = vec![0; length];
    random.fill(&mut bytes);
    let mut i = 0;
    while i < length {
        let from = i;
        match place {
            Place::Between(_) => {
                let ll = ll(random, longest, parts, bad).to_be_bytes();
                i = length.min(i + 2);
                bytes[from..i].copy_from_slice(&ll[..i - from]);
            }
            Place::AfterFirst(high) => {
                // LL 00 00, 00 01, 80 00 and 80 01 are bad; with any other first byte every second byte is good.
                bytes[i] = match (high & 0x7F, bad) {
                    (0, true) => random.below(2) as u8,
                    (0, false) => random.range(2, 255) as u8,
                    _ => random.byte(),
                };
                i += 1;
            }
            Place::Left(left, _) => i = length.min(i + usize::from(left)),
        }
        match walk(place, &bytes[from..i]) {
            Some(after) => place = after,
            None => return bytes,
        }
    }
    bytes
}

fn send_data(random: &mut Random, side: &Side, max: usize, habits: &Habits) -> Call {
    let length = match (side.given, random.below(8)) {
        (_, 0) => max,
        // Often exactly to the end of the record, so that it can be closed.
        (Place::Left(left, _), 1..=3) if usize::from(left) <= max => usize::from(left),
        _ => random.range(1, max.min(habits.largest_gift)),
    };
    Call::SendData(gift(random, side.given, length, habits.longest_record, habits.parts, false))
}

fn read(random: &mut Random, habits: &Habits) -> Call {
    let length = random.range(1, habits.longest_read);
    let mut cells = vec![0; length];
    random.fill(&mut cells);
    Call::Read(cells)
}

fn odd_call(random: &mut Random, side: &Side, max: usize, habits: &Habits) -> Call {
    match random.below(18) {
        0 => Call::Allocate,
        1 => Call::Flush,
        2 => Call::Confirm,
        3 => Call::Turn(random.chance(1, 2)),
        4 => Call::Deallocate(random.chance(1, 2)),
        5 => Call::Confirmed,
        6 => Call::Pace,
        7 => Call::Take,
        8 => Call::Read(Vec::new()),
        9 => Call::SendData(vec![0; if random.chance(1, 2) { 0 } else { max + 1 }]),
        10 => {
            let bytes = gift(random, side.given, max.min(64), habits.longest_record.min(40), habits.parts, true);
            if walk(side.given, &bytes).is_none() {
                Call::SendData(bytes)
            } else {
                Call::Flush
            }
        }
        11 => send_data(random, side, max, habits),
        12 => Call::Defer(random.pick(&[Deferred::Turn, Deferred::End])),
        13 => Call::Withdraw,
        14 => Call::SendError,
        15 => Call::RequestToSend,
        16 => Call::TakeExpedited,
        _ => read(random, habits),
    }
}

fn closes(given: Place, random: &mut Random, habits: &Habits) -> bool {
    match given {
        WHOLE => random.chance(habits.close, 16),
        Place::Between(true) => random.chance(1, 16),
        _ => false,
    }
}

// What Defer suggests.
const DEFER_CALLS: [&Call; 5] = [&Call::Flush, &Call::Flush, &Call::Confirm, &Call::Confirm, &Call::Withdraw];

// The next call of an end: mostly one that its state suggests.
fn choose(random: &mut Random, side: &Side, max: usize, habits: &Habits) -> Call {
    if random.chance(habits.odd, 16) {
        return odd_call(random, side, max, habits);
    }
    let image = side.end.image();
    if random.chance(habits.take_expedited, 16) && !side.expedited.is_empty() {
        return Call::TakeExpedited;
    }
    if random.chance(habits.take, 16) && !side.line.is_empty() && (image[at::MARK] == 0 || random.chance(1, 8)) {
        return Call::Take;
    }
    if random.chance(habits.read, 16) && (word(image, at::IN_HELD) > 0 || image[at::MARK] != 0) {
        return read(random, habits);
    }
    if image[at::IN_WINDOW + 2] == 1 && random.chance(4, 16) {
        return Call::Pace;
    }
    match image[at::STATE] {
        0 => Call::Allocate,
        SEND if image[at::ERROR] == 1 && random.chance(1, 2) => odd_call(random, side, max, habits),
        SEND if image[at::ERROR] == 1 => Call::Flush,
        // After a part that another follows, confirm, turn and end are tried too, but not often: they are refused.
        SEND if closes(side.given, random, habits) => match random.below(6) {
            0 => Call::Confirm,
            1 => Call::Deallocate(random.chance(1, 2)),
            2 => Call::Flush,
            3 => Call::Turn(random.chance(1, 2)),
            _ => Call::Defer(random.pick(&[Deferred::Turn, Deferred::End])),
        },
        SEND if random.chance(1, 16) => Call::Flush,
        SEND => send_data(random, side, max, habits),
        DEFER_TURN | DEFER_END if random.chance(1, 8) => odd_call(random, side, max, habits),
        DEFER_TURN | DEFER_END => random.pick(&DEFER_CALLS).clone(),
        RECEIVE | OWES if random.chance(habits.request, 16) => Call::RequestToSend,
        OWES if random.chance(habits.deny, 16) => Call::SendError,
        OWES => Call::Confirmed,
        _ => Call::Take,
    }
}

fn sizes(random: &mut Random) -> Sizes {
    let mut window = [0; 2];
    let mut max = [0; 2];
    for who in 0..2 {
        window[who] = if random.chance(1, 2) { random.range(1, 4) } else { random.range(1, 63) } as u8;
        max[who] = match random.below(3) {
            0 => random.range(8, 16),
            1 => random.range(8, 100),
            _ => random.range(8, 1024),
        } as u32;
    }
    let mut sizes = Sizes { window, max, send: [0; 2], unit: [0; 2], inbox: [0; 2] };
    for who in 0..2 {
        let spare = if random.chance(1, 2) { 0 } else { random.below(20) };
        sizes.send[who] = max[who] as usize + spare;
        sizes.unit[who] = max[who] as usize + 5 + spare;
        let least = usize::from(window[1 - who]) * max[1 - who] as usize;
        sizes.inbox[who] = if random.chance(1, 2) { least } else { random.range(least, 65535.min(3 * least)) };
    }
    sizes
}

// Everything that must be the same after two orders: records, every lent cell, lines, and each end's answers in order.
fn same_outcome(first: &Pair, second: &Pair, answers: &[Vec<Outcome>; 2], others: &[Vec<Outcome>; 2]) {
    for who in 0..2 {
        let (one, two) = (&first.sides[who], &second.sides[who]);
        assert_eq!(one.end, two.end, "records differ after another order");
        assert!(one.send == two.send && one.unit == two.unit && one.inbox == two.inbox, "lent cells differ");
        assert!(one.line == two.line && one.expedited == two.expedited, "lines differ after another order");
        assert!(answers[who] == others[who], "answers differ after another order");
    }
}

// The pair after a row of calls, the answers of each end, and which end was called at each.
struct Made {
    pair: Pair,
    answers: [Vec<Outcome>; 2],
    order: Vec<usize>,
}

// The same calls of each end in an order of their own between the ends. A take waits until there is a unit.
fn replay(random: &mut Random, sizes: &Sizes, cells: u64, calls: &[Vec<Call>; 2], stay: usize) -> Made {
    let mut pair = Pair::open(sizes, cells);
    let mut answers = [Vec::new(), Vec::new()];
    let mut order = Vec::new();
    let mut who = random.below(2);
    loop {
        let ready = |w: usize| match calls[w].get(answers[w].len()) {
            None => false,
            Some(Call::Take) => !pair.sides[w].line.is_empty(),
            Some(Call::TakeExpedited) => !pair.sides[w].expedited.is_empty(),
            Some(_) => true,
        };
        if !random.chance(stay, 16) {
            who = 1 - who;
        }
        if !ready(who) {
            who = 1 - who;
        }
        if !ready(who) {
            break;
        }
        let outcome = pair.call(who, &calls[who][answers[who].len()]);
        answers[who].push(outcome);
        order.push(who);
    }
    for w in 0..2 {
        assert_eq!(answers[w].len(), calls[w].len(), "another order of the same calls stands still");
    }
    Made { pair, answers, order }
}

// Checks the pair after a call, and counts the calls until all bytes are compared again: comparing them after every call would make
// runs with large inboxes slow.
fn check_after(pair: &Pair, sizes: &Sizes, until_whole: &mut usize, seen: &mut Seen) {
    let whole = *until_whole == 0;
    pair.check(sizes, whole);
    if whole {
        seen.whole_checks += 1;
        *until_whole = (pair.sides[0].unread.len() + pair.sides[1].unread.len()) / 256;
    } else {
        *until_whole -= 1;
    }
}

// What the whole run came to.
fn note_run(pair: &Pair, seen: &mut Seen) {
    for (side, other) in [(0, 1), (1, 0)] {
        let units = pair.sides[side].requests.checked_div(pair.sides[other].records_read);
        seen.units_a_record = seen.units_a_record.max(units.unwrap_or(0));
        if pair.sides[side].requests > 65_536 {
            seen.wrapped += 1;
        }
    }
}

// Makes each end's calls again in other orders between the ends.
fn compare_orders(random: &mut Random, sizes: &Sizes, cells: u64, lists: &[Vec<Call>; 2], first: &Made, seen: &mut Seen) {
    for stay in [15, 2, 9] {
        let other = replay(random, sizes, cells, lists, stay);
        same_outcome(&first.pair, &other.pair, &first.answers, &other.answers);
        if other.order == first.order {
            seen.alike += 1;
        } else {
            seen.compared += 1;
        }
    }
}

fn run(random: &mut Random, sizes: &Sizes, habits: &Habits, calls: usize, compare: bool, seen: &mut Seen) {
    let cells = random.next();
    let mut made = Made { pair: Pair::open(sizes, cells), answers: [Vec::new(), Vec::new()], order: Vec::new() };
    let mut lists: [Vec<Call>; 2] = [Vec::new(), Vec::new()];
    let mut who = 0;
    let mut until_whole = 0;
    for _ in 0..calls {
        if !random.chance(habits.stay, 16) {
            who = 1 - who;
        }
        let call = choose(random, &made.pair.sides[who], sizes.max[who] as usize, habits);
        // A take with nothing waiting is no call of the end.
        let side = &made.pair.sides[who];
        if (call == Call::Take && side.line.is_empty()) || (call == Call::TakeExpedited && side.expedited.is_empty()) {
            continue;
        }
        let before = *made.pair.sides[who].end.image();
        let outcome = made.pair.call(who, &call);
        made.pair.note(who, &call, &before, &outcome, seen);
        check_after(&made.pair, sizes, &mut until_whole, seen);
        if compare {
            lists[who].push(call);
            made.answers[who].push(outcome);
            made.order.push(who);
        }
    }
    made.pair.check(sizes, true);
    note_run(&made.pair, seen);
    if compare {
        compare_orders(random, sizes, cells, &lists, &made, seen);
    }
}

#[test]
fn joined_ends() {
    let mut random = Random(SEED);
    let mut seen = Seen::default();
    // Two long runs with little units, so that sequence numbers pass 65,535 both ways.
    for window in [7, 63] {
        let least = usize::from(window) * 8;
        let little = Sizes { window: [window, window], max: [8, 8], send: [8, 8], unit: [13, 13], inbox: [2 * least, 2 * least] };
        let eager = Habits {
            odd: 1,
            stay: 8,
            take_expedited: 4,
            take: 10,
            read: 9,
            close: 3,
            parts: 4,
            deny: 8,
            request: 2,
            longest_record: 40,
            longest_read: 64,
            largest_gift: 1024,
        };
        run(&mut random, &little, &eager, 1_000_000, false, &mut seen);
    }
    assert!(seen.wrapped >= 2, "the sequence numbers did not wrap");
    let mut runs = 0;
    let long_runs = seen.calls;
    while seen.calls < long_runs + CALLS {
        let sizes = sizes(&mut random);
        let habits = habits(&mut random, &sizes);
        let calls = random.range(20, 3000);
        run(&mut random, &sizes, &habits, calls, runs % 4 == 0, &mut seen);
        runs += 1;
    }
    seen.print(runs + 2);
    seen.assert_reached();
}

// Signals past number 65,535, with and without a conversation: the number after it is 0.
#[test]
fn signals_past_65535() {
    let sizes = Sizes { window: [1, 1], max: [8, 8], send: [8, 8], unit: [13, 13], inbox: [8, 8] };
    let mut pair = Pair::open(&sizes, SEED);
    let mut seen = Seen::default();
    let mut called = |pair: &mut Pair, who: usize, call: Call| {
        let before = *pair.sides[who].end.image();
        let outcome = pair.call(who, &call);
        pair.note(who, &call, &before, &outcome, &mut seen);
        pair.check(&sizes, false);
    };
    for call in [Call::Allocate, Call::Turn(false)] {
        called(&mut pair, 0, call);
    }
    called(&mut pair, 1, Call::Take);
    for _ in 0..65_540 {
        called(&mut pair, 1, Call::RequestToSend);
        called(&mut pair, 0, Call::TakeExpedited);
        called(&mut pair, 1, Call::TakeExpedited);
    }
    let numbers = [word(pair.sides[1].end.image(), at::EXPEDITED_SENT), word(pair.sides[0].end.image(), at::EXPEDITED_TAKEN)];
    assert_eq!((numbers, seen.signals.answered), ([4, 4], 65_540));
}
