//! The record of the plain end read from an image, and written to one.
use super::{at, put_word, word};
use lu62::FORMAT;
use plain::{Expedited, Follow, Mark, Place, State, Window};

fn flag(byte: u8) -> Option<bool> {
    match byte {
        0 => Some(false),
        1 => Some(true),
        _ => None,
    }
}

fn window(image: &[u8], at: usize) -> Option<Window> {
    Some(Window { size: image[at], place: image[at + 1], pending: flag(image[at + 2])? })
}

fn place(image: &[u8], at: usize) -> Option<Place> {
    let value = word(image, at + 1) as u16;
    match (image[at], value) {
        (0, 0) => Some(Place::Between(false)),
        (1, 0) => Some(Place::Between(true)),
        (2, _) => Some(Place::Left(value, false)),
        (3, _) => Some(Place::Left(value, true)),
        (4, 0..=255) => Some(Place::AfterFirst(value as u8)),
        _ => None,
    }
}

// In the order of their codes.
pub const STATES: [State; 7] =
    [State::Reset, State::Send, State::Receive, State::Owes, State::Waits, State::DeferTurn, State::DeferEnd];
pub const FOLLOWS: [Follow; 3] = [Follow::Stay, Follow::Turn, Follow::End];
pub const MARKS: [Mark; 7] = [Mark::None, Mark::Turn, Mark::End, Mark::Confirm, Mark::ConfirmTurn, Mark::ConfirmEnd, Mark::Error];

// The record in an image, or none if a code, flag or place is one that no record has.
pub fn decoded(image: &[u8]) -> Option<plain::End> {
    if image[at::FORMAT] != FORMAT {
        return None;
    }
    Some(plain::End {
        bidder: flag(image[at::ROLE])?,
        state: *STATES.get(usize::from(image[at::STATE]))?,
        follow: *FOLLOWS.get(usize::from(image[at::FOLLOW]))?,
        mark: *MARKS.get(usize::from(image[at::MARK]))?,
        due: flag(image[at::DUE])?,
        error: flag(image[at::ERROR])?,
        bid: flag(image[at::BID])?,
        out_chain: flag(image[at::OUT_CHAIN])?,
        in_chain: flag(image[at::IN_CHAIN])?,
        out: window(image, at::OUT_WINDOW)?,
        out_max: word(image, at::OUT_MAX) as u16,
        out_held: word(image, at::OUT_HELD) as u16,
        out_number: word(image, at::OUT_NUMBER) as u16,
        given: place(image, at::GIVEN)?,
        into: window(image, at::IN_WINDOW)?,
        in_max: word(image, at::IN_MAX) as u16,
        inbox: word(image, at::INBOX) as u16,
        in_held: word(image, at::IN_HELD) as u16,
        in_number: word(image, at::IN_NUMBER) as u16,
        taken: place(image, at::TAKEN)?,
        read: place(image, at::READ)?,
        bid_number: word(image, at::BID_NUMBER) as u16,
        owed_number: word(image, at::OWED_NUMBER) as u16,
        expedited: Expedited {
            unanswered: flag(image[at::UNANSWERED])?,
            sent: word(image, at::EXPEDITED_SENT) as u16,
            taken: word(image, at::EXPEDITED_TAKEN) as u16,
        },
    })
}

fn put_window(image: &mut [u8], at: usize, window: Window) {
    image[at] = window.size;
    image[at + 1] = window.place;
    image[at + 2] = u8::from(window.pending);
}

fn put_place(image: &mut [u8], at: usize, place: Place) {
    let (kind, value) = match place {
        Place::Between(false) => (0, 0),
        Place::Between(true) => (1, 0),
        Place::Left(left, false) => (2, left),
        Place::Left(left, true) => (3, left),
        Place::AfterFirst(byte) => (4, u16::from(byte)),
    };
    image[at] = kind;
    put_word(image, at + 1, usize::from(value));
}

pub fn encode(end: &plain::End, image: &mut [u8]) {
    image[at::FORMAT] = FORMAT;
    image[at::ROLE] = u8::from(end.bidder);
    image[at::STATE] = end.state as u8;
    image[at::FOLLOW] = end.follow as u8;
    image[at::MARK] = end.mark as u8;
    image[at::DUE] = u8::from(end.due);
    image[at::BID] = u8::from(end.bid);
    image[at::OUT_CHAIN] = u8::from(end.out_chain);
    image[at::IN_CHAIN] = u8::from(end.in_chain);
    put_window(image, at::OUT_WINDOW, end.out);
    put_word(image, at::OUT_MAX, usize::from(end.out_max));
    put_word(image, at::OUT_HELD, usize::from(end.out_held));
    put_word(image, at::OUT_NUMBER, usize::from(end.out_number));
    put_place(image, at::GIVEN, end.given);
    put_window(image, at::IN_WINDOW, end.into);
    put_word(image, at::IN_MAX, usize::from(end.in_max));
    put_word(image, at::INBOX, usize::from(end.inbox));
    put_word(image, at::IN_HELD, usize::from(end.in_held));
    put_word(image, at::IN_NUMBER, usize::from(end.in_number));
    put_place(image, at::TAKEN, end.taken);
    put_place(image, at::READ, end.read);
    put_word(image, at::BID_NUMBER, usize::from(end.bid_number));
    put_word(image, at::OWED_NUMBER, usize::from(end.owed_number));
    image[at::ERROR] = u8::from(end.error);
    image[at::UNANSWERED] = u8::from(end.expedited.unanswered);
    put_word(image, at::EXPEDITED_SENT, usize::from(end.expedited.sent));
    put_word(image, at::EXPEDITED_TAKEN, usize::from(end.expedited.taken));
}
