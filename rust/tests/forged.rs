//! Calls on forged images, units and lengths.
//!
//! The buffers of a call lie in one block of memory with cells between them, and the whole block is compared after the call: a
//! refusal changed nothing anywhere, an accepted call wrote only where it may, and the answer is one that the call can give.
//! Besides, every answer and every cell is compared with what the plain end gives; and the call is made once more with every buffer
//! against a page that cannot be touched, right before its first byte or right behind its last, and must come to the same.
//!
//! And on such images: flush or confirm after a prepared turn or end gives answer, image and every cell that turn or end gives on the
//! image before, and withdrawing gives that image back. After a confirmation refused flush gives the error header, and nothing else that
//! needs Send is accepted before it; with the error header gone, the image is that of Send, with what was to follow as it was.
//!
//! Request to send and the take of an expedited unit change no byte of the image but the five of the expedited lines.
mod common;

use common::images::{decoded, encode, FOLLOWS, MARKS, STATES};
use common::pages::Area;
use common::{at, put_word, word, Random};
use lu62::raw;
use lu62::{FORMAT, IMAGE};
use plain::{Expedited, Follow, Mark, Place, State, Window, WHOLE};
use std::ops::Range;

const SEED: u64 = 0x6C75_3632_0002;
const CALLS: usize = 1_500_000;
// On which a turn or an end is prepared.
const IMAGES: usize = 500_000;
// On which a confirmation is refused.
const OWING_IMAGES: usize = 100_000;
// Cells before, between and after the buffers.
const GUARD: usize = 40;
const ANSWER_GUARD: u32 = 0xA5A5_5A5A;
// No buffer of these tests is longer.
const LARGEST_BUFFER: usize = 4 * 65_536;

#[derive(Clone, Copy, Debug, PartialEq, Eq)]
enum Call {
    Open,
    Allocate,
    SendData,
    Flush,
    Confirm,
    Turn,
    Deallocate,
    Confirmed,
    Pace,
    Take,
    Read,
    DeferTurn,
    DeferEnd,
    Withdraw,
    SendError,
    RequestToSend,
    TakeExpedited,
}

// How many numbers a call can return: 0, and those of the refusals, of which 30 is the last.
const REFUSALS: usize = 31;

const ALL: [Call; 17] = [
    Call::Open,
    Call::Allocate,
    Call::SendData,
    Call::Flush,
    Call::Confirm,
    Call::Turn,
    Call::Deallocate,
    Call::Confirmed,
    Call::Pace,
    Call::Take,
    Call::Read,
    Call::DeferTurn,
    Call::DeferEnd,
    Call::Withdraw,
    Call::SendError,
    Call::RequestToSend,
    Call::TakeExpedited,
];

// The refusals that the questions of documents 01 and 02 leave possible for each call.
fn allowed(call: Call) -> &'static [u32] {
    match call {
        Call::Open => &[1, 2, 3, 4],
        Call::Allocate => &[4, 5, 7, 10],
        Call::SendData => &[4, 5, 6, 7, 8, 10],
        Call::Flush | Call::Confirm | Call::Turn | Call::Deallocate => &[4, 5, 7, 9, 10],
        Call::DeferTurn | Call::DeferEnd => &[4, 5, 7, 9],
        Call::Confirmed | Call::SendError | Call::Withdraw => &[4, 5, 7],
        Call::Pace => &[4, 5, 11],
        Call::Take => &[4, 5, 13, 20, 21, 22, 23, 24, 25, 26, 27, 28, 29],
        Call::Read => &[4, 5, 6, 8, 12],
        Call::RequestToSend => &[4, 5, 7, 30],
        Call::TakeExpedited => &[4, 5, 20, 21, 22, 23, 28],
    }
}

const SENSES: [(u32, u32); 8] = [
    (20, 0x4005_0000),
    (22, 0x1002_0000),
    (23, 0x2001_0000),
    (24, 0x2002_0000),
    (25, 0x2003_0000),
    (26, 0x2004_0000),
    (27, 0x2011_0000),
    (28, 0x200E_0000),
];

// The block of memory with the place of each buffer in it.
#[derive(Clone)]
struct Block {
    cells: Vec<u8>,
    image: Range<usize>,
    send: Range<usize>,
    unit: Range<usize>,
    inbox: Range<usize>,
    // The bytes given to send data, or the unit taken.
    gift: Range<usize>,
    // The caller's buffer of a read.
    buffer: Range<usize>,
}

impl Block {
    fn new() -> Block {
        Block { cells: Vec::new(), image: 0..0, send: 0..0, unit: 0..0, inbox: 0..0, gift: 0..0, buffer: 0..0 }
    }

    fn lay(&mut self, lengths: [usize; 6]) {
        let mut start = 0;
        let mut place = |length: usize| {
            start += GUARD;
            let range = start..start + length;
            start += length;
            range
        };
        self.image = place(lengths[0]);
        self.send = place(lengths[1]);
        self.unit = place(lengths[2]);
        self.inbox = place(lengths[3]);
        self.gift = place(lengths[4]);
        self.buffer = place(lengths[5]);
        self.cells.resize(start + GUARD, 0);
    }
}

fn copy_block(from: &Block, to: &mut Block) {
    to.cells.clear();
    to.cells.extend_from_slice(&from.cells);
    to.image = from.image.clone();
    to.send = from.send.clone();
    to.unit = from.unit.clone();
    to.inbox = from.inbox.clone();
    to.gift = from.gift.clone();
    to.buffer = from.buffer.clone();
}

#[derive(Clone, Copy, Debug)]
struct Opening {
    role: u8,
    out_window: u8,
    in_window: u8,
    out_max: u32,
    in_max: u32,
    send: usize,
    unit: usize,
    inbox: usize,
}

// Where the buffers of a call lie.
struct Lent {
    image: (*mut u8, usize),
    send: (*mut u8, usize),
    unit: (*mut u8, usize),
    inbox: (*mut u8, usize),
    gift: (*mut u8, usize),
    buffer: (*mut u8, usize),
    answer: *mut raw::Answer,
}

// The library's call on these buffers. Gives what it returned beside the answer.
//
// # Safety
// Every pointer is good for as many bytes as stand beside it, and nothing that two of them reach is the same.
unsafe fn made(call: Call, lent: &Lent, opening: &Opening, confirm: u8) -> u32 {
    let Lent { image: (image, il), send: (send, sl), unit: (unit, ul), inbox: (inbox, xl), .. } = *lent;
    let Lent { gift: (gift, gl), buffer: (buffer, bl), answer, .. } = *lent;
    // SAFETY: as this function asks of its caller.
    unsafe {
        match call {
            Call::Open => raw::lu62_open(
                opening.role,
                opening.out_window,
                opening.in_window,
                opening.out_max,
                opening.in_max,
                opening.send,
                opening.unit,
                opening.inbox,
                image,
                il,
                answer,
            ),
            Call::Allocate => raw::lu62_allocate(image, il, unit, ul, answer),
            Call::SendData => raw::lu62_send_data(image, il, gift, gl, send, sl, unit, ul, answer),
            Call::Flush => raw::lu62_flush(image, il, send, sl, unit, ul, answer),
            Call::Confirm => raw::lu62_confirm(image, il, send, sl, unit, ul, answer),
            Call::Turn => raw::lu62_prepare_to_receive(image, il, confirm, send, sl, unit, ul, answer),
            Call::Deallocate => raw::lu62_deallocate(image, il, confirm, send, sl, unit, ul, answer),
            Call::Confirmed => raw::lu62_confirmed(image, il, unit, ul, answer),
            Call::Pace => raw::lu62_send_pacing_response(image, il, unit, ul, answer),
            Call::Take => raw::lu62_receive_unit(image, il, gift, gl, inbox, xl, unit, ul, answer),
            Call::Read => raw::lu62_receive(image, il, inbox, xl, buffer, bl, answer),
            Call::DeferTurn => raw::lu62_defer_turn(image, il, answer),
            Call::DeferEnd => raw::lu62_defer_end(image, il, answer),
            Call::Withdraw => raw::lu62_withdraw(image, il, answer),
            Call::SendError => raw::lu62_send_error(image, il, unit, ul, answer),
            Call::RequestToSend => raw::lu62_request_to_send(image, il, unit, ul, answer),
            Call::TakeExpedited => raw::lu62_receive_expedited(image, il, gift, gl, unit, ul, answer),
        }
    }
}

// The library's call on the block.
fn library(call: Call, block: &mut Block, opening: &Opening, confirm: u8, answer: &mut raw::Answer) -> u32 {
    let start = block.cells.as_mut_ptr();
    // SAFETY: every range lies within the block and no two overlap; the block is borrowed mutably for the whole call.
    unsafe {
        let place = |range: &Range<usize>| (start.add(range.start), range.len());
        let lent = Lent {
            image: place(&block.image),
            send: place(&block.send),
            unit: place(&block.unit),
            inbox: place(&block.inbox),
            gift: place(&block.gift),
            buffer: place(&block.buffer),
            answer,
        };
        made(call, &lent, opening, confirm)
    }
}

// Areas of memory for the buffers of a call, each with a page on either side that cannot be touched.
struct Pages {
    buffers: [Area; 6],
    answer: Area,
}

impl Pages {
    fn new() -> Pages {
        Pages {
            buffers: std::array::from_fn(|_| Area::new(LARGEST_BUFFER)),
            answer: Area::new(std::mem::size_of::<raw::Answer>()),
        }
    }

    // The call with every buffer at one side of its area. Gives the answer, with the buffers copied back to the block.
    fn library(&mut self, call: Call, block: &mut Block, opening: &Opening, confirm: u8, at_end: bool) -> raw::Answer {
        let ranges = [&block.image, &block.send, &block.unit, &block.inbox, &block.gift, &block.buffer].map(Range::clone);
        let mut places = [(std::ptr::null_mut(), 0); 6];
        for (i, range) in ranges.iter().enumerate() {
            let room = self.buffers[i].place(range.len(), at_end);
            room.copy_from_slice(&block.cells[range.clone()]);
            places[i] = (room.as_mut_ptr(), room.len());
        }
        let answer = self.answer.place(std::mem::size_of::<raw::Answer>(), at_end).as_mut_ptr().cast::<raw::Answer>();
        let [image, send, unit, inbox, gift, buffer] = places;
        let lent = Lent { image, send, unit, inbox, gift, buffer, answer };
        // SAFETY: the places are in areas of their own, as long as said; the answer's has its size and lies at a multiple of four.
        let answer = unsafe {
            made(call, &lent, opening, confirm);
            answer.read()
        };
        for (i, range) in ranges.iter().enumerate() {
            block.cells[range.clone()].copy_from_slice(self.buffers[i].place(range.len(), at_end));
        }
        answer
    }
}

fn only(refusal: u32) -> plain::Answer {
    plain::Answer { refusal, ..plain::Answer::default() }
}

// Opens the plain end on an image of the right length.
fn opened_plain(opening: &Opening, image: &mut [u8]) -> plain::Answer {
    let session = plain::Session {
        role: opening.role,
        out_window: opening.out_window,
        in_window: opening.in_window,
        out_max: opening.out_max,
        in_max: opening.in_max,
    };
    match plain::open(session, opening.send, opening.unit, opening.inbox) {
        Ok(end) => {
            encode(&end, image);
            only(0)
        }
        Err(number) => {
            image.fill(0);
            image[at::FORMAT] = FORMAT;
            only(number)
        }
    }
}

// The same call by the plain end, on another block.
fn by_plain(call: Call, block: &mut Block, opening: &Opening, confirm: u8) -> plain::Answer {
    let image = block.image.clone();
    if image.len() != IMAGE {
        return only(4);
    }
    if call == Call::Open {
        return opened_plain(opening, &mut block.cells[image]);
    }
    let Some(mut end) = decoded(&block.cells[image.clone()]) else {
        return only(5);
    };
    let answer = called_plain(call, &mut end, block, confirm);
    encode(&end, &mut block.cells[image]);
    answer
}

// A call but opening, on the plain end of this block.
fn called_plain(call: Call, end: &mut plain::End, block: &mut Block, confirm: u8) -> plain::Answer {
    // The ranges follow one another in this order, so the block can be split at them.
    let (_, rest) = block.cells.split_at_mut(block.send.start);
    let (send, rest) = rest.split_at_mut(block.unit.start - block.send.start);
    let (unit, rest) = rest.split_at_mut(block.inbox.start - block.unit.start);
    let (inbox, rest) = rest.split_at_mut(block.gift.start - block.inbox.start);
    let (gift, buffer) = rest.split_at_mut(block.buffer.start - block.gift.start);
    let send = &mut send[..block.send.len()];
    let unit = &mut unit[..block.unit.len()];
    let inbox = &mut inbox[..block.inbox.len()];
    let gift = &gift[..block.gift.len()];
    let buffer = &mut buffer[..block.buffer.len()];
    match call {
        Call::Open => only(0),
        Call::Allocate => end.allocate(unit),
        Call::SendData => end.send_data(gift, send, unit),
        Call::Flush => end.flush(send, unit),
        Call::Confirm => end.confirm(send, unit),
        Call::Turn => end.prepare_to_receive(confirm != 0, send, unit),
        Call::Deallocate => end.deallocate(confirm != 0, send, unit),
        Call::Confirmed => end.confirmed(unit),
        Call::Pace => end.send_pacing_response(unit),
        Call::Take => end.receive_unit(gift, inbox, unit),
        Call::Read => end.receive(inbox, buffer),
        Call::DeferTurn => end.defer_turn(),
        Call::DeferEnd => end.defer_end(),
        Call::Withdraw => end.withdraw(),
        Call::SendError => end.send_error(unit),
        Call::RequestToSend => end.request_to_send(unit),
        Call::TakeExpedited => end.receive_expedited(gift, unit),
    }
}

fn random_place(random: &mut Random) -> Place {
    let more = random.chance(1, 2);
    match random.below(5) {
        0 => Place::AfterFirst(random.byte()),
        1 => Place::AfterFirst(if more { 0x80 } else { 0 }),
        2 => Place::Left(random.range(1, 20) as u16, more),
        3 => Place::Left(random.range(1, 32765) as u16, more),
        _ => Place::Between(more),
    }
}

fn random_max(random: &mut Random) -> usize {
    match random.below(8) {
        0 => random.range(8, 1024),
        1 => random.range(8, 200),
        _ => random.range(8, 24),
    }
}

fn random_window(random: &mut Random) -> Window {
    let size = if random.chance(3, 4) { random.range(1, 4) } else { random.range(1, 63) };
    let place = if random.chance(1, 2) { 0 } else { random.below(size) };
    Window { size: size as u8, place: place as u8, pending: random.chance(1, 2) }
}

// The inbox's length and the bytes held in it, with room for what is open.
fn random_inbox(random: &mut Random, into: Window, in_max: usize) -> (usize, usize) {
    let open = into.credit() as usize * in_max;
    let in_held = match random.below(4) {
        0 => 0,
        1 => random.range(0, 3),
        _ => random.range(0, 3 * in_max),
    };
    let least = in_held + open;
    let inbox = match random.below(4) {
        0 | 1 => least,
        2 => least + usize::from(into.size) * in_max,
        _ => least + random.below(3 * in_max),
    };
    let inbox = inbox.min(65535);
    (inbox, in_held.min(inbox.saturating_sub(open)))
}

// A record that is within question 5, though not one that calls must be able to reach.
fn random_end(random: &mut Random) -> plain::End {
    let [reset, send, receive, owes, waits, turn, end] = STATES;
    let state = random.pick(&[reset, send, send, receive, receive, owes, waits, turn, end]);
    random_end_in(random, state)
}

// How many bytes an end keeps that may keep them.
fn random_kept(random: &mut Random, max: usize) -> usize {
    match random.below(4) {
        0 => 0,
        1 => max,
        _ => random.range(0, max),
    }
}

fn random_end_in(random: &mut Random, state: State) -> plain::End {
    let bidder = random.chance(1, 2);
    let sends = matches!(state, State::Send | State::DeferTurn | State::DeferEnd);
    let error = state == State::Send && random.chance(1, 4);
    let out_max = random_max(random);
    let out_held = if sends && !error { random_kept(random, out_max) } else { 0 };
    let out_chain = sends && out_held > 0 && random.chance(1, 2);
    let into = random_window(random);
    let in_max = random_max(random);
    let (inbox, in_held) = random_inbox(random, into, in_max);
    let whole = random.chance(1, 2);
    plain::End {
        bidder,
        state,
        follow: random.pick(&FOLLOWS),
        mark: if state == State::Receive && random.chance(1, 4) { random.pick(&MARKS[1..]) } else { Mark::None },
        due: !bidder && sends && !error && !out_chain && random.chance(1, 2),
        error,
        bid: bidder && random.chance(1, 2),
        out_chain,
        in_chain: random.chance(1, 2),
        out: random_window(random),
        out_max: out_max as u16,
        out_held: out_held as u16,
        out_number: random_number(random),
        given: if whole { WHOLE } else { random_place(random) },
        into,
        in_max: in_max as u16,
        inbox: inbox as u16,
        in_held: in_held as u16,
        in_number: random_number(random),
        taken: if random.chance(1, 8) { WHOLE } else { random_place(random) },
        read: random_place(random),
        bid_number: random.next() as u16,
        owed_number: random.next() as u16,
        expedited: Expedited { unanswered: random.chance(1, 2), sent: random_number(random), taken: random_number(random) },
    }
}

// A sequence number, often the last before 0.
fn random_number(random: &mut Random) -> u16 {
    if random.chance(1, 8) {
        65535
    } else {
        random.next() as u16
    }
}

// The first and last good lengths and the bad ones, without and with the top bit.
const EDGES: [u16; 8] = [0x0000, 0x0001, 0x0002, 0x7FFF, 0x8000, 0x8001, 0x8002, 0xFFFF];

// Where in the bytes the record ends that is under way at `from`. The second byte of its LL is written if it is to come.
fn put_rest(random: &mut Random, bytes: &mut [u8], from: Place, end_whole: bool) -> usize {
    match from {
        Place::Between(_) => 0,
        Place::Left(left, _) => usize::from(left),
        Place::AfterFirst(_) if bytes.is_empty() => 0,
        Place::AfterFirst(high) => {
            let length = if end_whole { bytes.len() + 1 } else { random.range(2, 255) };
            if high & 0x7F == 0 && length <= 255 {
                bytes[0] = length as u8;
            }
            usize::from(u16::from_be_bytes([high & 0x7F, bytes[0]])).saturating_sub(1)
        }
    }
}

// Writes record lengths into bytes so that records go on from `from`, some as parts that another follows. With `end_whole` the last
// record ends with the bytes, and mostly no other part follows it.
fn put_records(random: &mut Random, bytes: &mut [u8], from: Place, end_whole: bool) {
    let mut i = put_rest(random, bytes, from, end_whole);
    while i < bytes.len() {
        let rest = bytes.len() - i;
        let length = if rest == 1 {
            0
        } else if end_whole && (rest < 4 || random.chance(1, 2)) {
            rest
        } else if end_whole {
            random.range(2, rest - 2)
        } else {
            random.range(2, 40)
        };
        let more = random.chance(1, if end_whole && length == rest { 8 } else { 3 });
        let mut ll = length as u16 + if more { 0x8000 } else { 0 };
        if random.chance(1, 16) {
            ll = random.pick(&EDGES);
        }
        let [high, low] = ll.to_be_bytes();
        bytes[i] = high;
        if rest > 1 {
            bytes[i + 1] = low;
        }
        i += length.max(1);
    }
}

const HEADS: [[u8; 3]; 9] = [
    [0x4B, 0x80, 0x80],
    [0x4B, 0x81, 0x80],
    [0x0B, 0x90, 0x00],
    [0x0B, 0x91, 0x00],
    [0xCB, 0x80, 0x00],
    [0xCF, 0x90, 0x00],
    [0x83, 0x20, 0x00],
    [0x87, 0x30, 0x00],
    [0x83, 0x01, 0x00],
];
const ERROR_HEADER: [u8; 7] = [0x07, 0x07, 0x08, 0x89, 0x00, 0x00, 0x00];

// Number, header and RU of a unit.
type Parts = (u16, [u8; 3], Vec<u8>);

// A bid, an error header or a response that the end might take.
fn fixed_unit(random: &mut Random, end: &plain::End) -> Parts {
    let header = random.pick(&HEADS);
    let pacing = u8::from(end.into.place == 0);
    match header[0] {
        0x4B => (end.in_number.wrapping_add(1), [0x4B, 0x80 | pacing, 0x80], vec![0x04, 0x00, 0x06, 0x00, 0x00]),
        0x0B => (end.in_number.wrapping_add(1), [0x0B, 0x90 | pacing, 0x00], ERROR_HEADER.to_vec()),
        0x87 => (end.out_number, header, vec![0x08, 0x46, 0x00, 0x00]),
        0xCB => (end.bid_number, header, vec![0x04]),
        0xCF => (end.bid_number, header, vec![0x08, 0x13, 0x00, 0x00, 0x04]),
        _ if header[1] == 1 => (0, header, Vec::new()),
        _ => (end.out_number, header, Vec::new()),
    }
}

// The RU of data: records that go on from those taken, cut anywhere or, at a mark, mostly not.
fn data_ru(random: &mut Random, end: &plain::End, marks: bool) -> Vec<u8> {
    let max = usize::from(end.in_max);
    let mut length = match random.below(6) {
        0 => max,
        1 => 0,
        _ => random.range(1, max),
    };
    if marks && random.chance(3, 4) {
        // Long enough for the record under way to end in it, if it can.
        length = match end.taken {
            Place::Left(left, _) if usize::from(left) <= max => usize::from(left),
            Place::AfterFirst(_) => length.max(1),
            _ => length,
        };
    }
    if !marks {
        length = length.max(1);
    }
    let mut ru = vec![0; length];
    random.fill(&mut ru);
    if random.chance(15, 16) {
        put_records(random, &mut ru, end.taken, marks);
    }
    ru
}

// A data unit that the end might take.
fn data_unit(random: &mut Random, end: &plain::End) -> Parts {
    let first = !end.in_chain;
    let last = random.chance(1, 2);
    let begin = first && end.bidder && end.state == State::Reset;
    let pacing = u8::from(end.into.place == 0);
    let byte1 = if last && random.chance(1, 3) { 0x20 } else { 0x90 } | pacing;
    let follows = if last { random.pick(&[0x00, 0x20, 0x01]) } else { 0x00 };
    let header = [u8::from(first) * 2 + u8::from(last), byte1, follows | u8::from(begin) << 7];
    let marks = byte1 & 0x20 != 0 || follows != 0;
    (end.in_number.wrapping_add(1), header, data_ru(random, end, marks))
}

fn put_fault(random: &mut Random, unit: &mut Vec<u8>) {
    match random.below(8) {
        0 => unit.truncate(random.below(unit.len() + 1)),
        1 => unit.extend(vec![0; random.range(1, 1100)]),
        2 => unit[0] = random.byte(),
        3 => unit[3] ^= 1,
        4 => unit[4] ^= 0x80,
        5 => unit[2] ^= 2,
        6 => unit[random.range(2, 4)] = random.byte(),
        _ => unit[random.range(2, 4)] ^= 1 << random.below(8),
    }
}

// A unit that the end might take, with faults in some.
fn random_unit(random: &mut Random, end: &plain::End) -> Vec<u8> {
    if random.chance(1, 16) {
        let mut unit = vec![0; random.below(40)];
        random.fill(&mut unit);
        return unit;
    }
    let (number, header, ru) = if random.chance(1, 3) { fixed_unit(random, end) } else { data_unit(random, end) };
    let mut unit = number.to_be_bytes().to_vec();
    unit.extend(header);
    unit.extend(ru);
    if random.chance(1, 4) {
        put_fault(random, &mut unit);
    }
    unit
}

// A signal or the answer to one that the end might take on the expedited line, with faults in some.
fn random_expedited(random: &mut Random, end: &plain::End) -> Vec<u8> {
    let mut unit = if random.chance(1, 16) {
        random_unit(random, end)
    } else if random.chance(1, 2) {
        signal(end.expedited.taken.wrapping_add(1))
    } else {
        signal_answer(end.expedited.sent)
    };
    match random.below(8) {
        0 if unit.len() >= 5 => put_fault(random, &mut unit),
        1 if unit.len() > 5 => {
            let last = unit.len() - 1;
            unit[random.range(5, last)] ^= 1 << random.below(8);
        }
        2 if unit.len() > 1 => unit[random.below(2)] ^= 1 << random.below(8),
        _ => {}
    }
    unit
}

fn signal(number: u16) -> Vec<u8> {
    [&number.to_be_bytes()[..], &[0x4B, 0x80, 0x00, 0xC9, 0x00, 0x01, 0x00, 0x00]].concat()
}

fn signal_answer(number: u16) -> Vec<u8> {
    [&number.to_be_bytes()[..], &[0xCB, 0x80, 0x00, 0xC9]].concat()
}

// A length near the right one.
fn near(random: &mut Random, right: usize) -> usize {
    match random.below(24) {
        0 => right.saturating_sub(1),
        1 => right + 1,
        2 => 0,
        3 => random.below(70),
        4 => right + random.below(50),
        _ => right,
    }
}

// A length of any kind, most often the right one.
fn any_length(random: &mut Random, right: usize) -> usize {
    match random.below(16) {
        0 => right.wrapping_sub(1),
        1 => usize::MAX,
        2 => right + 65536,
        3 => random.next() as usize,
        4 => 65535,
        5 => 65536,
        6 => 0,
        _ => right,
    }
}

fn random_opening(random: &mut Random) -> Opening {
    let window = |random: &mut Random| match random.below(12) {
        0 => random.byte(),
        1 => 0,
        2 => 64,
        3 => 63,
        _ => random.range(1, 63) as u8,
    };
    let max = |random: &mut Random| match random.below(12) {
        0 => random.next() as u32,
        1 => 7,
        2 => 1025,
        3 => 65536 + 8,
        4 => 1024,
        5 => 8,
        _ => random.range(8, 1024) as u32,
    };
    let mut opening = Opening {
        role: if random.chance(1, 16) { random.byte() } else { random.below(2) as u8 },
        out_window: window(random),
        in_window: window(random),
        out_max: max(random),
        in_max: max(random),
        send: 0,
        unit: 0,
        inbox: 0,
    };
    opening.send = any_length(random, opening.out_max as usize);
    opening.unit = any_length(random, opening.out_max as usize + 5);
    opening.inbox = any_length(random, usize::from(opening.in_window) * opening.in_max as usize);
    opening
}

// Writes the record's image, in some with a place that no record has, in some with a cell or two forged.
fn put_image(random: &mut Random, mut end: plain::End, image: &mut [u8]) {
    if random.chance(1, 16) {
        // With no byte left, or with more than the longest record leaves.
        let forged = Place::Left(random.pick(&[0, 32766, 32767, 32768, 65535]), random.chance(1, 2));
        match random.below(3) {
            0 => end.given = forged,
            1 => end.taken = forged,
            _ => end.read = forged,
        }
    }
    encode(&end, image);
    if random.chance(1, 16) {
        // Any kind of place from the first to one past the last, with any number.
        let place = random.pick(&[at::GIVEN, at::TAKEN, at::READ]);
        image[place] = random.below(6) as u8;
        put_word(image, place + 1, random.pick(&[0, 0, 1, 2, 255, 256, 32765, 32766, 65535]));
    }
    if random.chance(1, 4) {
        for _ in 0..random.range(1, 2) {
            let cell = &mut image[random.below(IMAGE)];
            *cell = match random.below(3) {
                0 => random.byte(),
                1 => cell.wrapping_add(1),
                _ => random.below(8) as u8,
            };
        }
    }
}

// Bytes of records to be given.
fn random_gift(random: &mut Random, end: &plain::End) -> Vec<u8> {
    let max = usize::from(end.out_max);
    let length = match random.below(12) {
        0 => 0,
        1 => max + 1,
        2 => max,
        3 => random.below(1100),
        _ => random.range(1, max),
    };
    let mut bytes = vec![0; length];
    random.fill(&mut bytes);
    if random.chance(15, 16) {
        put_records(random, &mut bytes, end.given, false);
    }
    bytes
}

// Lays out and fills a block for one call on this end.
fn fill_block(random: &mut Random, call: Call, end: plain::End, block: &mut Block) {
    let max = usize::from(end.out_max);
    let gift = match call {
        Call::Take => random_unit(random, &end),
        Call::TakeExpedited => random_expedited(random, &end),
        _ => random_gift(random, &end),
    };
    let image = if random.chance(1, 64) { random.below(64) } else { IMAGE };
    let read = match random.below(8) {
        0 => 0,
        1 => random.below(1000),
        _ => random.range(1, 24),
    };
    let lengths = [
        image,
        near(random, max),
        near(random, max + 5),
        if random.chance(15, 16) { usize::from(end.inbox) } else { near(random, usize::from(end.inbox)) },
        gift.len(),
        read,
    ];
    block.lay(lengths);
    random.fill(&mut block.cells);
    block.cells[block.gift.clone()].copy_from_slice(&gift);
    let held = usize::from(end.in_held).min(block.inbox.len());
    if random.chance(7, 8) {
        let inbox = block.inbox.start..block.inbox.start + held;
        put_records(random, &mut block.cells[inbox], end.read, false);
    }
    // Else the image is random cells.
    if image == IMAGE && random.chance(15, 16) {
        let range = block.image.clone();
        put_image(random, end, &mut block.cells[range]);
    }
}

// Whether every cell outside the ranges is as before.
fn unchanged_outside(before: &Block, after: &Block, ranges: &[Range<usize>]) -> bool {
    let mut ranges = ranges.to_vec();
    ranges.sort_by_key(|range| range.start);
    let mut from = 0;
    for range in &ranges {
        if before.cells[from..range.start] != after.cells[from..range.start] {
            return false;
        }
        from = range.end;
    }
    before.cells[from..] == after.cells[from..]
}

// What the paper leaves a refused call to answer and to write.
fn check_refused(call: Call, before: &Block, after: &Block, answer: &raw::Answer) {
    assert!(allowed(call).contains(&answer.refusal), "{call:?} refused with {}", answer.refusal);
    let sense = SENSES.iter().find(|(number, _)| *number == answer.refusal).map_or(0, |(_, sense)| *sense);
    assert_eq!(answer.sense, sense, "sense of {}", answer.refusal);
    if answer.refusal == 21 {
        let unit = &before.cells[before.gift.clone()];
        let header = [unit[2], unit[3], unit[4]];
        let lowest = match call {
            Call::TakeExpedited => plain::broken_expedited(header),
            _ => plain::broken(header).iter().position(|&broken| broken).map(|index| index as u32 + 1),
        };
        assert_eq!(lowest, Some(answer.rule), "the rule named is not the lowest that is broken");
    } else {
        assert_eq!(answer.rule, 0, "a rule named with {}", answer.refusal);
    }
    let told = [answer.unit, answer.copied, answer.complete, answer.more, answer.mark, answer.signalled];
    assert_eq!(told, [0; 6], "a refusal has zeros");
    if call == Call::Open && before.image.len() == IMAGE {
        let (format, zeros) = after.cells[after.image.clone()].split_at(1);
        assert!(format == [FORMAT] && zeros.iter().all(|&cell| cell == 0), "a refused opening leaves the format and zeros");
        assert!(unchanged_outside(before, after, std::slice::from_ref(&before.image)), "opening wrote outside the image");
    } else {
        assert!(before.cells == after.cells, "{call:?} refused with {} changed a cell", answer.refusal);
    }
}

// The cells that an accepted call may write beside image and unit buffer, in two ranges at most.
fn kept_cells(call: Call, before: &Block, after: &Block, answer: &raw::Answer) -> [Range<usize>; 2] {
    let (image, image_after) = (&before.cells[before.image.clone()], &after.cells[after.image.clone()]);
    let held = word(image, at::IN_HELD);
    match call {
        Call::SendData => {
            // Kept bytes follow those held; after a unit the rest stands at the front.
            let kept = word(image_after, at::OUT_HELD);
            let from = if answer.unit == 0 { word(image, at::OUT_HELD) } else { 0 };
            [before.send.start + from..before.send.start + kept, 0..0]
        }
        Call::Take => {
            let joined = word(image_after, at::IN_HELD);
            assert!(joined >= held && joined <= before.inbox.len());
            [before.inbox.start + held..before.inbox.start + joined, 0..0]
        }
        Call::Read => {
            let copied = answer.copied as usize;
            assert!(copied <= before.buffer.len() && copied <= held);
            assert_eq!(copied == 0, answer.mark != 0, "a read gives bytes or a mark");
            assert!(answer.complete <= 1 && (copied > 0 || answer.complete == 0) && answer.mark <= 6);
            assert!(answer.more <= answer.complete, "more parts are told of only with the end of one");
            let left = before.inbox.start..before.inbox.start + held - copied;
            [left, before.buffer.start..before.buffer.start + copied]
        }
        _ => [0..0, 0..0],
    }
}

// What the paper leaves a call to answer and to write, told from the block before and the answer alone.
fn check(call: Call, before: &Block, after: &Block, answer: &raw::Answer, opening: &Opening) {
    if answer.refusal != 0 {
        check_refused(call, before, after, answer);
        return;
    }
    assert_eq!((answer.sense, answer.rule), (0, 0), "an accepted call has no sense and no rule");
    if call != Call::Read {
        let told = [answer.copied, answer.complete, answer.more, answer.mark];
        assert_eq!(told, [0; 4], "only a read copies bytes, tells of records or answers a mark");
    }
    assert!(answer.signalled == 0 || call == Call::TakeExpedited, "only a take on the expedited line tells of a signal");
    let mut may = vec![before.image.clone()];
    if call == Call::Open {
        assert_eq!(answer.unit, 0, "opening makes no unit");
        assert!(opening.role < 2 && opening.inbox <= 65535);
    } else {
        let unit = answer.unit as usize;
        let max = word(&before.cells[before.image.clone()], at::OUT_MAX);
        assert!(unit == 0 || (5..=max + 5).contains(&unit), "a unit of {unit} bytes");
        may.push(before.unit.start..before.unit.start + unit);
        may.extend(kept_cells(call, before, after, answer));
    }
    if matches!(call, Call::RequestToSend | Call::TakeExpedited) {
        may[0].start += at::UNANSWERED;
    }
    assert!(unchanged_outside(before, after, &may), "{call:?} wrote outside what it may");
    if let Some((from, to)) = only_the_state(call) {
        let state = before.image.start + at::STATE;
        let cell = state..state + 1;
        assert_eq!(answer.unit, 0, "{call:?} makes no unit");
        assert!(from.contains(&before.cells[state]) && after.cells[state] == to, "{call:?} leaves another state");
        assert!(unchanged_outside(before, after, std::slice::from_ref(&cell)), "{call:?} changes more than the state");
    }
}

// For a call that changes no more than the state: from which states and to which.
fn only_the_state(call: Call) -> Option<(&'static [u8], u8)> {
    match call {
        Call::DeferTurn => Some((&[1], 5)),
        Call::DeferEnd => Some((&[1], 6)),
        Call::Withdraw => Some((&[5, 6], 1)),
        _ => None,
    }
}

// What the calls are tried with: the block as it was before, as the plain end leaves it, and the areas with pages beside them.
struct Bench {
    before: Block,
    expected: Block,
    paged: Block,
    pages: Pages,
}

impl Bench {
    fn new() -> Bench {
        Bench { before: Block::new(), expected: Block::new(), paged: Block::new(), pages: Pages::new() }
    }

    // Makes the call on the block in each way, and compares. `i` tells the call in a message, and which side the pages are on.
    fn tried(&mut self, i: usize, call: Call, block: &mut Block, opening: &Opening, confirm: u8) -> raw::Answer {
        copy_block(block, &mut self.before);
        copy_block(block, &mut self.expected);
        copy_block(block, &mut self.paged);
        let guard = raw::Answer {
            refusal: ANSWER_GUARD,
            sense: ANSWER_GUARD,
            rule: ANSWER_GUARD,
            unit: ANSWER_GUARD,
            copied: ANSWER_GUARD,
            complete: ANSWER_GUARD,
            more: ANSWER_GUARD,
            mark: ANSWER_GUARD,
            signalled: ANSWER_GUARD,
        };
        let mut guarded = [guard; 3];
        let returned = library(call, block, opening, confirm, &mut guarded[1]);
        let answer = guarded[1];
        assert_eq!((guarded[0], guarded[2]), (guard, guard), "call {i}, {call:?}: the cells beside the answer");
        assert_eq!(returned, answer.refusal, "call {i}, {call:?}: the number returned is that of the answer");
        check(call, &self.before, block, &answer, opening);
        self.compare_plain(i, call, block, opening, confirm, &answer);
        let again = self.pages.library(call, &mut self.paged, opening, confirm, i & 1 == 0);
        assert_eq!(again, answer, "call {i}, {call:?}: another answer against a page that cannot be touched");
        assert!(self.paged.cells == block.cells, "call {i}, {call:?}: other cells against a page that cannot be touched");
        answer
    }

    fn compare_plain(&mut self, i: usize, call: Call, block: &Block, opening: &Opening, confirm: u8, answer: &raw::Answer) {
        let other = by_plain(call, &mut self.expected, opening, confirm);
        let told = plain::Answer {
            refusal: answer.refusal,
            sense: answer.sense,
            rule: answer.rule,
            unit: answer.unit,
            copied: answer.copied,
            complete: answer.complete != 0,
            more: answer.more != 0,
            mark: answer.mark,
            signalled: answer.signalled != 0,
        };
        assert_eq!(told, other, "call {i}, {call:?}: the plain end answers otherwise");
        assert!(block.cells == self.expected.cells, "call {i}, {call:?}: the plain end leaves other cells");
    }
}

// What the calls on forged images have reached.
#[derive(Default)]
struct Reached {
    // Refusals of each call.
    refusals: [[usize; REFUSALS]; ALL.len()],
    // Reads inside a record, at its end, and at the end of a part that another follows.
    reads: [usize; 3],
    error_marks: usize,
    // Error headers and refusals of a confirmation taken.
    taken: [usize; 2],
    // Signals and answers to them taken on the expedited line.
    expedited: [usize; 2],
}

impl Reached {
    fn note(&mut self, call: Call, block: &Block, answer: &raw::Answer) {
        self.refusals[call as usize][answer.refusal as usize] += 1;
        self.reads[(answer.complete + answer.more) as usize] += usize::from(answer.copied > 0);
        self.error_marks += usize::from(answer.mark == Mark::Error as u32);
        if (call, answer.refusal) == (Call::Take, 0) {
            let byte0 = block.cells[block.gift.start + 2];
            self.taken[0] += usize::from(byte0 == 0x0B);
            self.taken[1] += usize::from(byte0 == 0x87);
        }
        if (call, answer.refusal) == (Call::TakeExpedited, 0) {
            assert_eq!(answer.signalled == 1, answer.unit == 6, "a signal is told of, and answered");
            self.expedited[usize::from(answer.signalled == 0)] += 1;
        }
    }

    fn print(&self) {
        let Reached { refusals, reads, error_marks, taken, expedited } = self;
        println!("forged: seed {SEED:#x}, {CALLS} calls, each against pages that cannot be touched too");
        println!("forged: reads inside a record, at its end, and at the end of a part that another follows: {reads:?}");
        println!("forged: error headers and refusals of a confirmation taken: {taken:?}; error marks read: {error_marks}");
        println!("forged: signals and answers to them taken on the expedited line: {expedited:?}");
        for (call, counts) in ALL.iter().zip(refusals) {
            let told: Vec<String> = (0..REFUSALS).filter(|&n| counts[n] > 0).map(|n| format!("{n}: {}", counts[n])).collect();
            println!("forged: {call:?}: {}", told.join(", "));
        }
    }

    fn assert_reached(&self) {
        assert!(self.reads.iter().all(|&n| n >= 1000), "hardly any read of one kind");
        assert!(self.taken.iter().all(|&n| n >= 100) && self.error_marks >= 100, "hardly any error header, refusal or mark");
        assert!(self.expedited.iter().all(|&n| n >= 1000), "hardly any signal or answer");
        for (call, counts) in ALL.iter().zip(&self.refusals) {
            assert!(counts[0] >= 1000, "{call:?} was hardly ever accepted");
            for &n in allowed(*call) {
                assert!(counts[n as usize] >= 50, "{call:?} was hardly ever refused with {n}");
            }
        }
    }
}

#[test]
fn forged_calls() {
    let mut random = Random(SEED);
    let mut block = Block::new();
    let mut bench = Bench::new();
    let mut reached = Reached::default();
    for i in 0..CALLS {
        // Takes have the most questions.
        let call = if random.chance(1, 4) { Call::Take } else { random.pick(&ALL) };
        let end = random_end(&mut random);
        fill_block(&mut random, call, end, &mut block);
        let opening = random_opening(&mut random);
        let confirm = random.pick(&[0, 0, 1, 1, 2, 255]);
        let answer = bench.tried(i, call, &mut block, &opening, confirm);
        reached.note(call, &block, &answer);
    }
    reached.print();
    reached.assert_reached();
}

// The four ways in which what is prepared is carried out, and the call that does the same at once.
#[derive(Clone, Copy)]
struct Way {
    defer: Call,
    carry_out: Call,
    at_once: Call,
    confirm: u8,
}

const WAYS: [Way; 4] = [
    Way { defer: Call::DeferTurn, carry_out: Call::Flush, at_once: Call::Turn, confirm: 0 },
    Way { defer: Call::DeferTurn, carry_out: Call::Confirm, at_once: Call::Turn, confirm: 1 },
    Way { defer: Call::DeferEnd, carry_out: Call::Flush, at_once: Call::Deallocate, confirm: 0 },
    Way { defer: Call::DeferEnd, carry_out: Call::Confirm, at_once: Call::Deallocate, confirm: 1 },
];

#[test]
fn prepared_and_carried_out() {
    let mut random = Random(SEED + 1);
    let mut bench = Bench::new();
    let [mut block, mut later, mut at_once] = [(); 3].map(|()| Block::new());
    // Calls made; refusals of preparing; refusals of carrying out, for each way.
    let (mut calls, mut unprepared, mut seen) = (0, [0usize; REFUSALS], [[0usize; REFUSALS]; WAYS.len()]);
    for i in 0..IMAGES {
        let way = random.below(WAYS.len());
        let Way { defer, carry_out, at_once: other, confirm } = WAYS[way];
        let state = if random.chance(15, 16) { State::Send } else { random.pick(&STATES) };
        let end = random_end_in(&mut random, state);
        fill_block(&mut random, defer, end, &mut block);
        copy_block(&block, &mut later);
        let prepared = bench.tried(i, defer, &mut later, &AN_OPENING, 0);
        unprepared[prepared.refusal as usize] += 1;
        calls += 1;
        if prepared.refusal != 0 {
            continue;
        }
        copy_block(&later, &mut at_once);
        assert_eq!(bench.tried(i, Call::Withdraw, &mut at_once, &AN_OPENING, 0), prepared, "withdrawing is accepted");
        assert!(at_once.cells == block.cells, "image {i}: withdrawing gives every cell back");
        let answer = bench.tried(i, carry_out, &mut later, &AN_OPENING, 0);
        assert_eq!(answer, bench.tried(i, other, &mut block, &AN_OPENING, confirm), "image {i}, {carry_out:?} after {defer:?}");
        if answer.refusal == 0 {
            assert!(answer.unit > 0 && later.cells == block.cells, "image {i}: {carry_out:?} after {defer:?} leaves other cells");
        }
        seen[way][answer.refusal as usize] += 1;
        calls += 3;
    }
    println!("prepared: {calls} calls on {IMAGES} images to prepare a turn or an end, and to withdraw it or carry it out");
    for (way, counts) in WAYS.iter().zip(&seen) {
        let [accepted, bad_buffer, no_credit] = [0, 4, 10].map(|n| counts[n]);
        println!("prepared: {:?} after {:?}: 0: {accepted}, 4: {bad_buffer}, 10: {no_credit}", way.carry_out, way.defer);
        assert_eq!(accepted + bad_buffer + no_credit, counts.iter().sum(), "only 4 and 10 are left to refuse with");
        assert!(accepted >= 1000 && bad_buffer >= 100 && no_credit >= 100);
    }
    assert!([4, 5, 7, 9].iter().all(|&n: &usize| unprepared[n] >= 1000), "hardly any refusal of one kind: {unprepared:?}");
}

// The calls that need Send, but for flush.
const NEED_SEND: [Call; 6] = [Call::SendData, Call::Confirm, Call::Turn, Call::Deallocate, Call::DeferTurn, Call::DeferEnd];

// What flush leaves of an image in which a confirmation was owed and has been refused, and whether the error header has the pacing bit.
fn explained(before: &[u8]) -> (Vec<u8>, bool) {
    let mut image = before.to_vec();
    image[at::STATE] = State::Send as u8;
    put_word(&mut image, at::OUT_NUMBER, word(before, at::OUT_NUMBER) + 1);
    let [size, place, pending] = [0, 1, 2].map(|i| before[at::OUT_WINDOW + i]);
    image[at::OUT_WINDOW + 1] = (place + 1) % size;
    image[at::OUT_WINDOW + 2] = if place == 0 { 1 } else { pending };
    (image, place == 0)
}

#[test]
fn refused_and_explained() {
    let mut random = Random(SEED + 2);
    let mut bench = Bench::new();
    let [mut block, mut later, mut other] = [(); 3].map(|()| Block::new());
    // Calls made; refusals of refusing; of the calls that need Send; of flush.
    let (mut calls, mut undenied, mut seen, mut flushed) = (0, [0usize; REFUSALS], [0usize; REFUSALS], [0usize; REFUSALS]);
    for i in 0..OWING_IMAGES {
        let state = if random.chance(15, 16) { State::Owes } else { random.pick(&STATES) };
        let end = random_end_in(&mut random, state);
        fill_block(&mut random, Call::SendError, end, &mut block);
        copy_block(&block, &mut later);
        let denied = bench.tried(i, Call::SendError, &mut later, &AN_OPENING, 0);
        undenied[denied.refusal as usize] += 1;
        calls += 1;
        if denied.refusal != 0 {
            continue;
        }
        for call in NEED_SEND {
            copy_block(&later, &mut other);
            seen[bench.tried(i, call, &mut other, &AN_OPENING, random.byte()).refusal as usize] += 1;
        }
        let answer = bench.tried(i, Call::Flush, &mut later, &AN_OPENING, 0);
        flushed[answer.refusal as usize] += 1;
        calls += NEED_SEND.len() + 1;
        if answer.refusal == 0 {
            let (image, pacing) = explained(&block.cells[block.image.clone()]);
            assert!(later.cells[later.image.clone()] == image[..], "image {i}: the error header leaves another image");
            let unit = &later.cells[later.unit.start + 2..later.unit.start + answer.unit as usize];
            assert_eq!(unit, [&[0x0B, 0x90 | u8::from(pacing), 0x00], &ERROR_HEADER[..]].concat(), "image {i}");
        }
    }
    println!("refused: {calls} calls on {OWING_IMAGES} images to refuse a confirmation, and to send the error header or another");
    only_these("a confirmation refused", &undenied, &[0, 4, 5, 7]);
    only_these("a call that needs Send before the error header", &seen, &[4, 6, 7]);
    only_these("flush for the error header", &flushed, &[0, 4, 10]);
}

// Of these counts by refusal number only some may be above 0, and those well above.
fn only_these(what: &str, counts: &[usize; REFUSALS], numbers: &[usize]) {
    let told: Vec<String> = numbers.iter().map(|&n| format!("{n}: {}", counts[n])).collect();
    println!("refused: {what}: {}", told.join(", "));
    assert_eq!(numbers.iter().map(|&n| counts[n]).sum::<usize>(), counts.iter().sum(), "{what}: another refusal");
    assert!(numbers.iter().all(|&n| counts[n] >= 100), "{what}: hardly any refusal of one kind");
}

// ---- calls at the bounds of the rules, one by one

const MAX: u16 = 16;
const WINDOW: u8 = 3;
const INBOX: u16 = WINDOW as u16 * MAX;

fn accepting_state(call: Call) -> State {
    match call {
        Call::Allocate => State::Reset,
        Call::Confirmed | Call::SendError => State::Owes,
        Call::Take | Call::Read | Call::Pace | Call::RequestToSend | Call::TakeExpedited => State::Receive,
        Call::Withdraw => State::DeferTurn,
        _ => State::Send,
    }
}

// An end on which each call is accepted, lent the right buffers, with these bytes given or taken.
fn accepting(call: Call) -> (plain::End, Vec<u8>) {
    let window = Window { size: WINDOW, place: 0, pending: false };
    let end = plain::End {
        bidder: false,
        state: accepting_state(call),
        follow: Follow::Stay,
        mark: Mark::None,
        due: false,
        error: false,
        bid: false,
        out_chain: false,
        in_chain: false,
        out: window,
        out_max: MAX,
        out_held: 0,
        out_number: 1,
        given: WHOLE,
        // For a pacing response a whole window has been taken; for a read its first unit, whose bytes are in the inbox.
        into: Window { place: u8::from(call == Call::Read), pending: matches!(call, Call::Pace | Call::Read), ..window },
        in_max: MAX,
        inbox: INBOX,
        in_held: if call == Call::Read { 4 } else { 0 },
        in_number: 1,
        taken: WHOLE,
        read: WHOLE,
        bid_number: 0,
        owed_number: 1,
        expedited: Expedited::default(),
    };
    let gift = match call {
        Call::TakeExpedited => signal(1),
        Call::Take => vec![0x00, 0x02, 0x02, 0x91, 0x00, 0x00, 0x04, 0x41, 0x42],
        _ => vec![0x00, 0x04, 0x41, 0x42],
    };
    (end, gift)
}

const SMALL_READ: usize = 8;

// The block for a call on this end. `longer` is added to the lengths of send, unit, inbox and the caller's buffer.
fn laid(end: &plain::End, gift: &[u8], inbox: &[u8], longer: [usize; 4]) -> Block {
    let mut block = Block::new();
    let max = usize::from(MAX);
    let lengths =
        [IMAGE, max + longer[0], max + 5 + longer[1], usize::from(INBOX) + longer[2], gift.len(), SMALL_READ + longer[3]];
    block.lay(lengths);
    encode(end, &mut block.cells[block.image.clone()]);
    block.cells[block.gift.clone()].copy_from_slice(gift);
    block.cells[block.inbox.start..block.inbox.start + inbox.len()].copy_from_slice(inbox);
    block
}

const GOOD_INBOX: [u8; 4] = [0x00, 0x04, 0x41, 0x42];
const AN_OPENING: Opening = Opening {
    role: 0,
    out_window: WINDOW,
    in_window: WINDOW,
    out_max: MAX as u32,
    in_max: MAX as u32,
    send: MAX as usize,
    unit: MAX as usize + 5,
    inbox: INBOX as usize,
};

fn later_calls() -> impl Iterator<Item = Call> {
    ALL.into_iter().filter(|&call| call != Call::Open)
}

#[test]
fn record_places_at_their_bounds() {
    let mut bench = Bench::new();
    for call in later_calls() {
        for place in [at::GIVEN, at::TAKEN, at::READ] {
            for kind in 0..=6 {
                for number in [0, 1, 2, 255, 256, 32764, 32765, 32766, 32767, 32768, 65535] {
                    let (end, gift) = accepting(call);
                    let mut block = laid(&end, &gift, &GOOD_INBOX, [0; 4]);
                    let start = block.image.start + place;
                    block.cells[start] = kind;
                    put_word(&mut block.cells, start + 1, number);
                    let answer = bench.tried(0, call, &mut block, &AN_OPENING, 0);
                    let good = match kind {
                        0 | 1 => number == 0,
                        2 | 3 => (1..=32765).contains(&number),
                        4 => number <= 255,
                        _ => false,
                    };
                    assert_eq!(
                        answer.refusal != 5,
                        good,
                        "{call:?}, place {place} of kind {kind} and {number}: {}",
                        answer.refusal
                    );
                }
            }
        }
    }
}

#[test]
fn states_at_their_bounds() {
    let mut bench = Bench::new();
    for call in later_calls() {
        for state in 0..=255 {
            let (end, gift) = accepting(call);
            let mut block = laid(&end, &gift, &GOOD_INBOX, [0; 4]);
            block.cells[block.image.start + at::STATE] = state;
            let answer = bench.tried(5, call, &mut block, &AN_OPENING, 0);
            assert_eq!(answer.refusal == 5, usize::from(state) >= STATES.len(), "{call:?} in state {state}: {}", answer.refusal);
        }
    }
}

#[test]
fn marks_at_their_bounds() {
    let mut bench = Bench::new();
    for call in later_calls() {
        for mark in 0..=255 {
            let (end, gift) = accepting(call);
            let mut block = laid(&end, &gift, &GOOD_INBOX, [0; 4]);
            block.cells[block.image.start + at::MARK] = mark;
            let answer = bench.tried(6, call, &mut block, &AN_OPENING, 0);
            // A mark stands only in Receive, and blocks a take.
            let expected = match usize::from(mark) {
                0 => 0,
                1..=6 if end.state != State::Receive => 5,
                1..=6 if call == Call::Take => 13,
                1..=6 => 0,
                _ => 5,
            };
            assert_eq!(answer.refusal, expected, "{call:?} under mark {mark}");
        }
    }
}

#[test]
fn error_due_at_its_bounds() {
    let mut bench = Bench::new();
    for call in later_calls() {
        for error in 0..=255 {
            // In the state in which the call is accepted; then in Send, with nothing kept, with a byte kept, and with BB due.
            for (send, held, due) in [(false, 0, false), (true, 0, false), (true, 1, false), (true, 0, true)] {
                let (mut end, gift) = accepting(call);
                let state = if send { State::Send } else { end.state };
                (end.state, end.out_held, end.due) = (state, held, due);
                let mut block = laid(&end, &gift, &GOOD_INBOX, [0; 4]);
                let without = bench.tried(7, call, &mut block.clone(), &AN_OPENING, 0).refusal;
                block.cells[block.image.start + at::ERROR] = error;
                let answer = bench.tried(7, call, &mut block, &AN_OPENING, 0);
                let expected = match error {
                    0 => without,
                    1 if state != State::Send || held > 0 || due => 5,
                    1 if NEED_SEND.contains(&call) => 7,
                    1 => without,
                    _ => 5,
                };
                assert_eq!(answer.refusal, expected, "{call:?} in {state:?}, error due {error}, {held} kept, BB due {due}");
            }
        }
    }
}

// The RU of a unit, right, and with one byte more, one less, none, and each byte changed.
fn near_rus(right: &[u8]) -> Vec<Vec<u8>> {
    let mut rus = vec![right.to_vec(), [right, &[0x00]].concat(), right[1..].to_vec(), Vec::new()];
    for i in 0..right.len() {
        let mut changed = right.to_vec();
        changed[i] ^= 1;
        rus.push(changed);
    }
    rus
}

// An error header in every state: the first question in document 01's order that it fails.
#[test]
fn error_headers_taken() {
    let mut bench = Bench::new();
    let places = [WHOLE, Place::Between(true), Place::AfterFirst(0), Place::Left(1, false)];
    for (state, bidder) in STATES.into_iter().flat_map(|state| [(state, false), (state, true)]) {
        for (chain, taken) in places.into_iter().flat_map(|place| [(false, place), (true, place)]) {
            for (pacing, number) in [(true, 2), (false, 2), (true, 3), (true, 1)] {
                for ru in near_rus(&ERROR_HEADER) {
                    let (mut end, _) = accepting(Call::Take);
                    (end.state, end.bidder, end.in_chain, end.taken) = (state, bidder, chain, taken);
                    let gift = [&[0x00, number, 0x0B, 0x90 | u8::from(pacing), 0x00], &ru[..]].concat();
                    let mut block = laid(&end, &gift, &[], [0; 4]);
                    let answer = bench.tried(8, Call::Take, &mut block, &AN_OPENING, 0);
                    let questions = [
                        (22, ru == ERROR_HEADER),
                        (27, pacing),
                        (23, number == 2),
                        (24, !chain),
                        (25, !bidder || state != State::Reset),
                        (26, state == State::Receive),
                        (29, taken == WHOLE),
                    ];
                    let expected = questions.iter().find(|(_, good)| !good).map_or(0, |(number, _)| *number);
                    assert_eq!(answer.refusal, expected, "{gift:02X?} in {state:?}, bidder {bidder}, chain {chain}, {taken:?}");
                }
            }
        }
    }
}

// The refusal of a confirmation in every state: it is taken where one is awaited, and gives Receive whatever was to follow.
#[test]
fn refusals_of_a_confirmation_taken() {
    let mut bench = Bench::new();
    for (state, follow) in STATES.into_iter().flat_map(|state| FOLLOWS.map(|follow| (state, follow))) {
        for number in 0..3 {
            for ru in near_rus(&[0x08, 0x46, 0x00, 0x00]) {
                let (mut end, _) = accepting(Call::Take);
                (end.state, end.follow) = (state, follow);
                let gift = [&[0x00, number, 0x87, 0x30, 0x00], &ru[..]].concat();
                let mut block = laid(&end, &gift, &[], [0; 4]);
                let answer = bench.tried(9, Call::Take, &mut block, &AN_OPENING, 0);
                let fits = state == State::Waits && number == 1;
                let expected = match (ru == [0x08, 0x46, 0x00, 0x00], fits) {
                    (false, _) => 22,
                    (true, false) => 28,
                    (true, true) => 0,
                };
                assert_eq!(answer.refusal, expected, "{gift:02X?} in {state:?}");
                end.state = if expected == 0 { State::Receive } else { state };
                assert_eq!(decoded(&block.cells[block.image.clone()]), Some(end), "{gift:02X?} in {state:?}, {follow:?}");
            }
        }
    }
}

#[test]
fn signal_unanswered_at_its_bounds() {
    let mut bench = Bench::new();
    for call in later_calls() {
        for unanswered in 0..=255 {
            let (end, gift) = accepting(call);
            let mut block = laid(&end, &gift, &GOOD_INBOX, [0; 4]);
            block.cells[block.image.start + at::UNANSWERED] = unanswered;
            let answer = bench.tried(10, call, &mut block, &AN_OPENING, 0);
            // Question 5 asks nothing of the flag; only the next signal waits for the answer.
            let expected = match unanswered {
                0 => 0,
                1 if call == Call::RequestToSend => 30,
                1 => 0,
                _ => 5,
            };
            assert_eq!(answer.refusal, expected, "{call:?}, signal unanswered {unanswered}");
        }
    }
}

// Request to send in every state, under every mark: no state changes, and the number after 65,535 is 0.
#[test]
fn the_turn_requested() {
    let mut bench = Bench::new();
    for (state, mark) in STATES.into_iter().flat_map(|state| MARKS.map(|mark| (state, mark))) {
        for (unanswered, sent) in [0u16, 1, 65534, 65535].into_iter().flat_map(|sent| [(false, sent), (true, sent)]) {
            let (mut end, gift) = accepting(Call::RequestToSend);
            (end.state, end.mark) = (state, mark);
            end.expedited = Expedited { unanswered, sent, taken: 7 };
            let mut block = laid(&end, &gift, &[], [0; 4]);
            let answer = bench.tried(11, Call::RequestToSend, &mut block, &AN_OPENING, 0);
            let questions = [
                (5, mark == Mark::None || state == State::Receive),
                (7, state == State::Receive || state == State::Owes),
                (30, !unanswered),
            ];
            let expected = questions.iter().find(|(_, good)| !good).map_or(0, |(number, _)| *number);
            assert_eq!(answer.refusal, expected, "request to send in {state:?} under {mark:?}, unanswered {unanswered}");
            if expected == 0 {
                let number = sent.wrapping_add(1);
                end.expedited = Expedited { unanswered: true, sent: number, taken: 7 };
                let unit = &block.cells[block.unit.start..block.unit.start + answer.unit as usize];
                assert_eq!(unit, signal(number), "the signal made");
            }
            assert_eq!(decoded(&block.cells[block.image.clone()]), Some(end), "request to send in {state:?}");
        }
    }
}

// The refusal of a unit on the expedited line, told from its bytes and the three fields, and what an accepted one leaves of these.
fn expedited_expected(before: Expedited, unit: &[u8]) -> (u32, Expedited) {
    let header = &unit[2..5];
    let number = u16::from_be_bytes([unit[0], unit[1]]);
    let is_signal = header == [0x4B, 0x80, 0x00];
    let right = if is_signal { signal(number) } else { signal_answer(number) };
    let questions = [
        (21, is_signal || header == [0xCB, 0x80, 0x00]),
        (22, unit == right),
        (23, !is_signal || number == before.taken.wrapping_add(1)),
        (28, is_signal || (before.unanswered && number == before.sent)),
    ];
    let after = match is_signal {
        true => Expedited { taken: number, ..before },
        false => Expedited { unanswered: false, ..before },
    };
    questions.iter().find(|(_, good)| !good).map_or((0, after), |(number, _)| (*number, before))
}

// Signals and answers to them in every state, under every mark that may stand there: the first question that each fails.
#[test]
fn expedited_units_taken() {
    let mut bench = Bench::new();
    let headers = [[0x4B, 0x80, 0x00], [0xCB, 0x80, 0x00], [0x4B, 0x81, 0x00], [0x4B, 0x80, 0x80], [0xCB, 0x90, 0x00]];
    let rus = near_rus(&[0xC9, 0x00, 0x01, 0x00, 0x00]).into_iter().chain(near_rus(&[0xC9]));
    let rus: Vec<Vec<u8>> = rus.chain([vec![0xC9, 0x00, 0x01, 0x00, 0x01], vec![0x04]]).collect();
    let marked = MARKS.into_iter().map(|mark| (State::Receive, mark));
    for (state, mark) in STATES.into_iter().map(|state| (state, Mark::None)).chain(marked) {
        for (unanswered, last) in [0u16, 1, 65535].into_iter().flat_map(|last| [(false, last), (true, last)]) {
            for (number, header) in [last, last.wrapping_add(1), 5].into_iter().flat_map(|n| headers.map(|header| (n, header))) {
                for ru in &rus {
                    let (mut end, _) = accepting(Call::TakeExpedited);
                    (end.state, end.mark) = (state, mark);
                    end.expedited = Expedited { unanswered, sent: last, taken: last };
                    let gift = [&number.to_be_bytes()[..], &header, ru].concat();
                    let mut block = laid(&end, &gift, &[], [0; 4]);
                    let answer = bench.tried(12, Call::TakeExpedited, &mut block, &AN_OPENING, 0);
                    let (refusal, expedited) = expedited_expected(end.expedited, &gift);
                    assert_eq!(answer.refusal, refusal, "{gift:02X?} in {state:?} under {mark:?}, unanswered {unanswered}");
                    let signalled = refusal == 0 && header[0] == 0x4B;
                    let made = &block.cells[block.unit.start..block.unit.start + answer.unit as usize];
                    assert_eq!(made, if signalled { signal_answer(number) } else { Vec::new() }, "{gift:02X?}");
                    assert_eq!(answer.signalled, u32::from(signalled), "{gift:02X?}");
                    end.expedited = expedited;
                    assert_eq!(decoded(&block.cells[block.image.clone()]), Some(end), "{gift:02X?} in {state:?}");
                }
            }
        }
    }
}

#[test]
fn record_lengths_at_their_bounds() {
    let mut bench = Bench::new();
    let others = [0x0003, 0x00FF, 0x0100, 0x7FFE, 0x8003, 0x80FF, 0x8100, 0xFFFE];
    for ll in EDGES.into_iter().chain(others) {
        let good = ll & 0x7FFF >= 2;
        let [high, low] = ll.to_be_bytes();
        // Both bytes at once, after a part of either kind, or the second alone after a first that was accepted before.
        let befores = [Place::Between(false), Place::Between(true), Place::AfterFirst(high)];
        for (place, bytes) in befores.into_iter().zip([vec![high, low], vec![high, low], vec![low]]) {
            for call in [Call::SendData, Call::Take, Call::Read] {
                let (mut end, _) = accepting(call);
                let mut gift = bytes.clone();
                match call {
                    Call::SendData => end.given = place,
                    Call::Take => {
                        end.taken = place;
                        gift = [&[0x00, 0x02, 0x02, 0x91, 0x00], &bytes[..]].concat();
                    }
                    _ => {
                        end.read = place;
                        end.in_held = bytes.len() as u16;
                    }
                }
                let mut block = laid(&end, &gift, &bytes, [0; 4]);
                let answer = bench.tried(1, call, &mut block, &AN_OPENING, 0);
                let bad = if call == Call::Take { 29 } else { 8 };
                assert_eq!(answer.refusal, if good { 0 } else { bad }, "{call:?} of LL {ll:04X}, {} bytes of it", bytes.len());
                // A read of LL alone ends the record only where there is nothing else in it.
                let ends = call == Call::Read && ll & 0x7FFF == 2;
                assert_eq!(
                    (answer.complete, answer.more),
                    (u32::from(ends), u32::from(ends && ll > 0x7FFF)),
                    "read of LL {ll:04X}"
                );
            }
        }
    }
}

// A mark behind a part that another follows, however the part ends.
#[test]
fn parts_at_a_mark() {
    let mut bench = Bench::new();
    for more in [false, true] {
        let top = if more { 0x80 } else { 0x00 };
        let ways = [
            (Place::Between(more), vec![]),
            (Place::Left(1, more), vec![0x41]),
            (WHOLE, vec![top, 0x02]),
            (Place::Between(true), vec![top, 0x03, 0x41]),
            (Place::AfterFirst(top), vec![0x03, 0x41]),
        ];
        for (place, bytes) in ways {
            // Turn, end and confirmation are refused where another part is to follow; a unit with no mark is not.
            for (byte1, byte2) in [(0x91, 0x00), (0x91, 0x20), (0x91, 0x01), (0x21, 0x00), (0x21, 0x20), (0x21, 0x01)] {
                let marks = byte1 & 0x20 != 0 || byte2 != 0;
                let (mut end, _) = accepting(Call::Take);
                end.taken = place;
                let gift = [&[0x00, 0x02, 0x03, byte1, byte2], &bytes[..]].concat();
                let mut block = laid(&end, &gift, &[], [0; 4]);
                let answer = bench.tried(3, Call::Take, &mut block, &AN_OPENING, 0);
                let expected = match (marks, more, bytes.is_empty()) {
                    (true, true, _) => 29,
                    (false, _, true) => 22,
                    _ => 0,
                };
                assert_eq!(answer.refusal, expected, "header 03 {byte1:02X} {byte2:02X}, {place:?}, {bytes:02X?}");
            }
        }
    }
}

// The calls that would make a mark, or prepare one.
#[test]
fn parts_before_a_mark() {
    let mut bench = Bench::new();
    let in_send = [Call::Confirm, Call::Turn, Call::Deallocate, Call::DeferTurn, Call::DeferEnd].map(|call| (call, State::Send));
    let in_defer = [State::DeferTurn, State::DeferEnd].map(|state| [(Call::Flush, state), (Call::Confirm, state)]);
    for (call, state) in in_send.into_iter().chain(in_defer.into_iter().flatten()) {
        for (more, confirm) in [(false, 0), (false, 1), (true, 0), (true, 1)] {
            let (mut end, gift) = accepting(call);
            (end.state, end.given) = (state, Place::Between(more));
            let mut block = laid(&end, &gift, &[], [0; 4]);
            let answer = bench.tried(4, call, &mut block, &AN_OPENING, confirm);
            assert_eq!(answer.refusal, if more { 9 } else { 0 }, "{call:?} in {state:?} with another part to follow: {more}");
        }
    }
}

#[test]
fn lent_lengths_past_65535() {
    let mut bench = Bench::new();
    for call in later_calls() {
        for which in 0..4 {
            for more in [65_535, 65_536, 65_537, 2 * 65_536] {
                let (end, gift) = accepting(call);
                let mut longer = [0; 4];
                longer[which] = more;
                let mut block = laid(&end, &gift, &GOOD_INBOX, longer);
                let answer = bench.tried(more, call, &mut block, &AN_OPENING, 0);
                // Longer send and unit buffers are as good; an inbox has the length of opening.
                let refused = which == 2 && matches!(call, Call::Take | Call::Read);
                assert_eq!(answer.refusal, if refused { 4 } else { 0 }, "{call:?} with {more} cells more in buffer {which}");
            }
        }
    }
    // Bytes given, and a unit taken, that are longer by 2^16 than good ones.
    for (call, refusal) in [(Call::SendData, 6), (Call::Take, 22), (Call::TakeExpedited, 22)] {
        let (end, mut gift) = accepting(call);
        gift.resize(gift.len() + 65_536, 0);
        let mut block = laid(&end, &gift, &GOOD_INBOX, [0; 4]);
        assert_eq!(bench.tried(2, call, &mut block, &AN_OPENING, 0).refusal, refusal, "{call:?} of {} bytes", gift.len());
    }
}
