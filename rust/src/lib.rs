//! One end of a basic conversation of LU type 6.2: a safe face of the library liblu62.a.
//!
//! An [`End`] is opened with its role, windows and maximum RUs, or with the bytes that say these in BIND. Each call is lent the buffers that it uses, and either is
//! accepted, or gives a [`Refusal`] and changes nothing. [`Answer::unit`] is the length of the unit that now stands at the front
//! of the unit buffer; the caller carries it to the partner's [`End::receive_unit`], in the order in which units are made.
//!
//! Units made by [`End::request_to_send`] and [`End::receive_expedited`] are expedited: they run on a line of their own, to the
//! partner's [`End::receive_expedited`], again in the order in which they are made. They may overtake the others, and none of them costs
//! or waits for credit. The bytes of a unit do not say which line it belongs to.
//!
//! The same buffers must be lent to the calls of one end, and nobody else may write to them between the calls: the bytes given
//! and not yet sent lie in the send buffer, the bytes taken and not yet read in the inbox.
//!
//! One record from one end to the other:
//!
//! ```
//! use lu62::{inbox_length, unit_length, End, Mark, Refusal, Role, Session};
//!
//! const W: u8 = 3;
//! const M: usize = 64;
//!
//! # fn main() -> Result<(), Refusal> {
//! let terms = |role| Session { role, out_window: W, in_window: W, out_max: M as u32, in_max: M as u32 };
//! let (mut send, mut unit, inbox) = ([0; M], [0; unit_length(M)], [0; inbox_length(W as usize, M)]);
//! let mut laboratory = End::open(terms(Role::FirstSpeaker), &send, &unit, &inbox)?;
//! let (far_send, mut far_unit, mut far_inbox) = ([0; M], [0; unit_length(M)], [0; inbox_length(W as usize, M)]);
//! let mut blender = End::open(terms(Role::Bidder), &far_send, &far_unit, &far_inbox)?;
//!
//! // The laboratory gives a record, its length in front, and ends the conversation: the record goes out as one unit. The top bit of
//! // the length is off, so no other part follows.
//! let record = b"\x00\x07V46.1";
//! assert_eq!(laboratory.allocate(&mut unit)?.unit, 0);
//! assert_eq!(laboratory.send_data(record, &mut send, &mut unit)?.unit, 0);
//! let made = laboratory.deallocate(false, &send, &mut unit)?.unit;
//!
//! // The blender takes the unit, and reads the record and that the conversation is over.
//! assert_eq!(blender.receive_unit(&unit[..made], &mut far_inbox, &mut far_unit)?.unit, 0);
//! let mut buffer = [0; 100];
//! let read = blender.receive(&mut far_inbox, &mut buffer)?;
//! assert_eq!((&buffer[..read.copied], read.complete, read.more), (&record[..], true, false));
//! assert_eq!(blender.receive(&mut far_inbox, &mut buffer)?.mark, Some(Mark::End));
//! # Ok(())
//! # }
//! ```
#![deny(missing_docs, unsafe_code)]

#[allow(missing_docs, unsafe_code)]
pub mod raw;
mod refusal;

pub use refusal::{Reason, Refusal};

/// The length of an end's record as bytes.
pub const IMAGE: usize = 48;

/// The first of those bytes, raised with each change of what they hold.
pub const FORMAT: u8 = 5;

/// The top bit of LL, a logical record's first two bytes: another part follows. The other 15 bits are the record's length, LL counted,
/// 2 to 32,767.
pub const MORE_FOLLOWS: u16 = 0x8000;

/// The largest inbox.
pub const INBOX_MOST: usize = 65_535;

/// The least length of the unit buffer of an end whose sending maximum is `max`.
pub const fn unit_length(max: usize) -> usize {
    max + 5
}

/// The least length of the inbox of an end with this receiving window and maximum.
pub const fn inbox_length(window: usize, max: usize) -> usize {
    window * max
}

/// Which end of the session this is.
#[derive(Clone, Copy, Debug, PartialEq, Eq)]
pub enum Role {
    /// Begins a conversation at once.
    FirstSpeaker,
    /// Begins a conversation by a bid.
    Bidder,
}

impl Role {
    fn number(self) -> u8 {
        match self {
            Role::FirstSpeaker => 0,
            Role::Bidder => 1,
        }
    }
}

/// What a session is opened with. The partner has the other role, and windows and maximum RUs exchanged.
#[derive(Clone, Copy, Debug, PartialEq, Eq)]
pub struct Session {
    /// This end's role.
    pub role: Role,
    /// Window of what this end sends, 1 to 63.
    pub out_window: u8,
    /// Window of what this end receives, 1 to 63.
    pub in_window: u8,
    /// Maximum RU of what this end sends, 8 to 1,024.
    pub out_max: u32,
    /// Maximum RU of what this end receives, 8 to 1,024.
    pub in_max: u32,
}

/// The bytes with which a session starts, as they stand in BIND. The partner has the other role, and windows and sizes exchanged.
///
/// A window is the low six bits of its byte; the two high bits are ignored. A size byte has a mantissa, its high four bits, 8 to 15, and an
/// exponent, its low four, and means a maximum RU of the mantissa times 2 to the power of the exponent: 0x85 is 256, 0x87 is 1,024.
#[derive(Clone, Copy, Debug, PartialEq, Eq)]
pub struct SessionBytes {
    /// This end's role.
    pub role: Role,
    /// Window byte of what this end sends.
    pub out_window: u8,
    /// Window byte of what this end receives.
    pub in_window: u8,
    /// Size byte of what this end sends.
    pub out_size: u8,
    /// Size byte of what this end receives.
    pub in_size: u8,
}

/// The size byte of a maximum RU (document 02). Of the maxima from 8 to 1,024 only 57 have one; the others are refused with
/// [`Reason::NoSizeByte`], and what is out of range with [`Reason::BadMaximum`].
///
/// ```
/// use lu62::{size_byte, Reason};
///
/// assert_eq!(size_byte(256), Ok(0x85));
/// assert_eq!(size_byte(1_023).map_err(|refusal| refusal.reason), Err(Reason::NoSizeByte));
/// ```
pub fn size_byte(max: u32) -> Result<u8, Refusal> {
    let (refusal, byte) = raw::size_byte(max);
    outcome(raw::Answer { refusal, ..raw::Answer::default() }).map(|_| byte)
}

/// The state of an end.
#[derive(Clone, Copy, Debug, PartialEq, Eq)]
pub enum State {
    /// No conversation.
    Reset,
    /// This end sends; first the error header, if it is due.
    Send,
    /// This end receives.
    Receive,
    /// This end must make a confirmation, or refuse to.
    ConfirmOwed,
    /// This end waits for a confirmation, or its refusal.
    ConfirmAwaited,
    /// Defer: a turn is prepared, to be carried out by flush or confirm, or withdrawn.
    DeferTurn,
    /// Defer: an end is prepared, to be carried out by flush or confirm, or withdrawn.
    DeferEnd,
}

impl State {
    /// The state with this number of lu62.h.
    pub fn from_number(number: u32) -> Option<State> {
        match number {
            0 => Some(State::Reset),
            1 => Some(State::Send),
            2 => Some(State::Receive),
            3 => Some(State::ConfirmOwed),
            4 => Some(State::ConfirmAwaited),
            5 => Some(State::DeferTurn),
            6 => Some(State::DeferEnd),
            _ => None,
        }
    }
}

/// What [`End::defer`] prepares.
#[derive(Clone, Copy, Debug, PartialEq, Eq)]
pub enum Deferred {
    /// The turn goes to the partner.
    Turn,
    /// The conversation ends.
    End,
}

/// What a unit says after its bytes, answered by a read when all bytes before it have been read.
#[derive(Clone, Copy, Debug, PartialEq, Eq)]
pub enum Mark {
    /// This end sends now.
    Turn,
    /// The conversation is over.
    End,
    /// A confirmation is due; then this end receives on.
    Confirm,
    /// A confirmation is due; then this end sends.
    ConfirmTurn,
    /// A confirmation is due; then the conversation is over.
    ConfirmEnd,
    /// The partner has refused the confirmation that this end asked for: this is its error header, sense data 08 89 00 00. This end
    /// receives on.
    Error,
}

impl Mark {
    /// The mark with this number of lu62.h; 0 is none.
    pub fn from_number(number: u32) -> Option<Mark> {
        match number {
            1 => Some(Mark::Turn),
            2 => Some(Mark::End),
            3 => Some(Mark::Confirm),
            4 => Some(Mark::ConfirmTurn),
            5 => Some(Mark::ConfirmEnd),
            6 => Some(Mark::Error),
            _ => None,
        }
    }
}

/// An accepted call.
#[derive(Clone, Copy, Debug, PartialEq, Eq)]
#[must_use = "a unit made must be carried to the partner"]
pub struct Answer {
    /// The length of the unit made, at the front of the unit buffer; 0 for none.
    pub unit: usize,
}

/// An accepted take of an expedited unit.
#[derive(Clone, Copy, Debug, PartialEq, Eq)]
#[must_use = "a unit made must be carried to the partner"]
pub struct ExpeditedAnswer {
    /// The length of the unit made, at the front of the unit buffer, to be carried on the expedited line; 0 for none.
    pub unit: usize,
    /// Whether a signal was taken: the partner requests the turn.
    pub signalled: bool,
}

/// An accepted read.
#[derive(Clone, Copy, Debug, PartialEq, Eq)]
#[must_use = "the bytes copied are part of a record only together with those read before"]
pub struct ReadAnswer {
    /// How many bytes now stand at the front of the buffer.
    pub copied: usize,
    /// Whether the last of them ends a logical record.
    pub complete: bool,
    /// Whether the record that ends with them is a part that another part follows; `false` unless `complete`. A table sent as several
    /// parts is whole with the part that is complete and that none follows.
    pub more: bool,
    /// The mark answered, if any. Then no byte was copied.
    pub mark: Option<Mark>,
}

fn outcome(raw: raw::Answer) -> Result<Answer, Refusal> {
    if raw.refusal == 0 {
        return Ok(Answer { unit: raw.unit as usize });
    }
    let reason = Reason::from_number(raw.refusal).expect("the library refuses with the numbers of lu62.h");
    Err(Refusal { reason, sense: raw.sense, rule: raw.rule })
}

/// One end of a session.
#[derive(Clone, Debug, PartialEq, Eq)]
pub struct End {
    image: [u8; IMAGE],
}

impl End {
    /// Opens a session, for calls that will be lent these buffers. Only their lengths matter here.
    pub fn open(session: Session, send: &[u8], unit: &[u8], inbox: &[u8]) -> Result<End, Refusal> {
        let mut end = End { image: [0; IMAGE] };
        let raw = raw::open(
            session.role.number(),
            session.out_window,
            session.in_window,
            session.out_max,
            session.in_max,
            send.len(),
            unit.len(),
            inbox.len(),
            &mut end.image,
        );
        outcome(raw).map(|_| end)
    }

    /// Opens a session by its bytes (document 02). Opened either way with equal numbers it is the same end.
    pub fn open_bind(bytes: SessionBytes, send: &[u8], unit: &[u8], inbox: &[u8]) -> Result<End, Refusal> {
        let mut end = End { image: [0; IMAGE] };
        let raw = raw::open_bind(
            bytes.role.number(),
            bytes.out_window,
            bytes.in_window,
            bytes.out_size,
            bytes.in_size,
            send.len(),
            unit.len(),
            inbox.len(),
            &mut end.image,
        );
        outcome(raw).map(|_| end)
    }

    /// The end whose record was kept as these bytes. Any bytes may be given. If they are of another [`FORMAT`], or break a rule that
    /// every record keeps (no window is 0, no more bytes are held than the inbox has room for, and the like), every call is refused
    /// with [`Reason::BadRecord`] or [`Reason::BadBuffer`]. Bytes that were changed and still keep these rules are accepted as the
    /// record that they now are: whoever keeps an image must see to it that it is not changed.
    pub fn from_image(image: [u8; IMAGE]) -> End {
        End { image }
    }

    /// The end's record as bytes, to be kept.
    pub fn image(&self) -> &[u8; IMAGE] {
        &self.image
    }

    /// The state, or `None` for an image that no call has left.
    pub fn state(&self) -> Option<State> {
        State::from_number(u32::from(self.image[2]))
    }

    /// Whether a bid of this end has not been answered.
    pub fn bid_pending(&self) -> bool {
        self.image[6] == 1
    }

    /// Whether an error is due: this end has refused a confirmation, and the error header has not gone.
    pub fn error_due(&self) -> bool {
        self.image[42] == 1
    }

    /// Whether a signal of this end has not been answered.
    pub fn signal_unanswered(&self) -> bool {
        self.image[43] == 1
    }

    /// How many bytes the send buffer holds: given, and not yet in a unit.
    pub fn send_held(&self) -> usize {
        usize::from(u16::from_le_bytes([self.image[14], self.image[15]]))
    }

    /// How many bytes the inbox holds: taken, and not yet read.
    pub fn inbox_held(&self) -> usize {
        usize::from(u16::from_le_bytes([self.image[28], self.image[29]]))
    }

    /// Begins a conversation: a first speaker sends at once, a bidder makes a bid and waits for its answer.
    pub fn allocate(&mut self, unit: &mut [u8]) -> Result<Answer, Refusal> {
        outcome(raw::allocate(&mut self.image, unit))
    }

    /// Gives bytes of logical records, cut anywhere, to be sent.
    ///
    /// A table may be given as several records, its parts, each but the last with [`MORE_FOLLOWS`] in its LL. After such a part confirm,
    /// turn, end and defer are refused with [`Reason::UnfinishedRecord`]. A record's length is asked when its second byte is given.
    pub fn send_data(&mut self, bytes: &[u8], send: &mut [u8], unit: &mut [u8]) -> Result<Answer, Refusal> {
        outcome(raw::send_data(&mut self.image, bytes, send, unit))
    }

    /// Sends the bytes kept, if any. In Defer carries out the turn or end that is prepared, without confirmation: a unit always goes.
    /// Where an error is due sends the error header; see [`End::send_error`].
    pub fn flush(&mut self, send: &[u8], unit: &mut [u8]) -> Result<Answer, Refusal> {
        outcome(raw::flush(&mut self.image, send, unit))
    }

    /// Sends the bytes kept and asks for a confirmation. In Defer carries out the turn or end that is prepared, with confirmation.
    ///
    /// The partner may refuse to confirm, here and wherever a confirmation is asked for. Then this end is in [`State::Receive`], whatever
    /// was to follow, and what the partner sends first is read as [`Mark::Error`].
    pub fn confirm(&mut self, send: &[u8], unit: &mut [u8]) -> Result<Answer, Refusal> {
        outcome(raw::confirm(&mut self.image, send, unit))
    }

    /// Sends the bytes kept and gives the turn to the partner, with or without confirmation.
    pub fn prepare_to_receive(&mut self, confirm: bool, send: &[u8], unit: &mut [u8]) -> Result<Answer, Refusal> {
        outcome(raw::prepare_to_receive(&mut self.image, confirm, send, unit))
    }

    /// Sends the bytes kept and ends the conversation, with or without confirmation.
    pub fn deallocate(&mut self, confirm: bool, send: &[u8], unit: &mut [u8]) -> Result<Answer, Refusal> {
        outcome(raw::deallocate(&mut self.image, confirm, send, unit))
    }

    /// Prepares a turn or an end (document 02), where it is not yet known whether it is to go with a confirmation: in [`State::Send`],
    /// with the last record whole. It is only noted, and no unit is made.
    ///
    /// This end is then in Defer, [`State::DeferTurn`] or [`State::DeferEnd`], until [`End::flush`] or [`End::confirm`] carries the
    /// turn or end out, or [`End::withdraw`] drops it. Refused with [`Reason::NoCredit`], flush and confirm leave this end in Defer:
    /// take a pacing response and make the call again. Units of both lines are taken, bytes read and pacing responses made in Defer as
    /// in Send; no other call is accepted there ([`Reason::WrongState`]).
    pub fn defer(&mut self, what: Deferred) -> Result<(), Refusal> {
        let raw = match what {
            Deferred::Turn => raw::defer_turn(&mut self.image),
            Deferred::End => raw::defer_end(&mut self.image),
        };
        outcome(raw).map(|_| ())
    }

    /// Withdraws the turn or end that is prepared: this end is in [`State::Send`] again, with nothing else changed.
    pub fn withdraw(&mut self) -> Result<(), Refusal> {
        outcome(raw::withdraw(&mut self.image)).map(|_| ())
    }

    /// Makes the confirmation that is owed.
    pub fn confirmed(&mut self, unit: &mut [u8]) -> Result<Answer, Refusal> {
        outcome(raw::confirmed(&mut self.image, unit))
    }

    /// Refuses the confirmation that is owed (document 02): makes a negative response. This end is then in [`State::Send`], whatever
    /// was to follow, and the partner in [`State::Receive`] when it has taken the unit.
    ///
    /// The next request must be the error header, which [`End::flush`] makes. Until it has gone ([`End::error_due`]) every other call
    /// that needs Send is refused with [`Reason::WrongState`]. Refused with [`Reason::NoCredit`], flush leaves the error due: take a
    /// pacing response and make the call again. The partner reads the error header as [`Mark::Error`].
    pub fn send_error(&mut self, unit: &mut [u8]) -> Result<Answer, Refusal> {
        outcome(raw::send_error(&mut self.image, unit))
    }

    /// Requests the turn (document 02) while this end receives or owes a confirmation: makes a signal, an expedited unit. No state
    /// changes at either end. The next signal can be made when the answer to this one has been taken.
    pub fn request_to_send(&mut self, unit: &mut [u8]) -> Result<Answer, Refusal> {
        outcome(raw::request_to_send(&mut self.image, unit))
    }

    /// Makes a pacing response, if one is owed and the inbox has room for a window.
    pub fn send_pacing_response(&mut self, unit: &mut [u8]) -> Result<Answer, Refusal> {
        outcome(raw::send_pacing_response(&mut self.image, unit))
    }

    /// Takes the oldest unit of the normal line. Refused with [`Reason::UnreadMark`], it must be taken again after a read.
    pub fn receive_unit(&mut self, taken: &[u8], inbox: &mut [u8], unit: &mut [u8]) -> Result<Answer, Refusal> {
        outcome(raw::receive_unit(&mut self.image, taken, inbox, unit))
    }

    /// Takes the oldest unit of the expedited line, in any state: a signal, of which it makes the answer, or the answer to this end's own.
    /// It changes no state.
    pub fn receive_expedited(&mut self, taken: &[u8], unit: &mut [u8]) -> Result<ExpeditedAnswer, Refusal> {
        let raw = raw::receive_expedited(&mut self.image, taken, unit);
        outcome(raw).map(|answer| ExpeditedAnswer { unit: answer.unit, signalled: raw.signalled != 0 })
    }

    /// Reads bytes of the current record, never past its end; or, with all bytes read, the mark.
    pub fn receive(&mut self, inbox: &mut [u8], buffer: &mut [u8]) -> Result<ReadAnswer, Refusal> {
        let raw = raw::receive(&mut self.image, inbox, buffer);
        let mark = Mark::from_number(raw.mark);
        let (complete, more) = (raw.complete != 0, raw.more != 0);
        outcome(raw).map(|_| ReadAnswer { copied: raw.copied as usize, complete, more, mark })
    }
}
