//! The safe calls as a program uses them: one record from one end to the other, a turn, a confirmation and the end; a table in several
//! parts; a turn or an end prepared, and carried out or withdrawn; a confirmation refused, and the error header behind it; the turn
//! requested, on the expedited lines.
use lu62::{inbox_length, unit_length, Answer, Deferred, End, Mark, Reason, Refusal, Role, Session, State, FORMAT, MORE_FOLLOWS};

const WINDOW: u8 = 3;
const MAX: usize = 8;

struct Host {
    end: End,
    send: [u8; MAX],
    unit: [u8; unit_length(MAX)],
    inbox: [u8; inbox_length(WINDOW as usize, MAX)],
}

fn host(role: Role) -> Host {
    let (send, unit, inbox) = ([0; MAX], [0; unit_length(MAX)], [0; inbox_length(WINDOW as usize, MAX)]);
    let max = MAX as u32;
    let session = Session { role, out_window: WINDOW, in_window: WINDOW, out_max: max, in_max: max };
    let end = End::open(session, &send, &unit, &inbox).expect("these sizes are in range");
    Host { end, send, unit, inbox }
}

// Reads until a record is whole or a mark is answered.
fn read(host: &mut Host) -> (Vec<u8>, Option<Mark>) {
    let mut record = Vec::new();
    loop {
        let mut buffer = [0; 3];
        let answer = host.end.receive(&mut host.inbox, &mut buffer).expect("there is something to read");
        record.extend(&buffer[..answer.copied]);
        if answer.complete || answer.mark.is_some() {
            return (record, answer.mark);
        }
    }
}

#[test]
fn a_conversation() {
    let mut laboratory = host(Role::FirstSpeaker);
    let mut blender = host(Role::Bidder);
    let none = laboratory.end.allocate(&mut laboratory.unit).expect("Reset");
    assert_eq!((none.unit, laboratory.end.state()), (0, Some(State::Send)));

    // Ten bytes need two units of at most eight.
    let record = [0x00, 0x0A, 1, 2, 3, 4, 5, 6, 7, 8];
    let mut units = Vec::new();
    for piece in record.chunks(4) {
        let made = laboratory.end.send_data(piece, &mut laboratory.send, &mut laboratory.unit).expect("credit is there");
        units.push(laboratory.unit[..made.unit].to_vec());
    }
    let made = laboratory.end.prepare_to_receive(true, &laboratory.send, &mut laboratory.unit).expect("a whole record");
    units.push(laboratory.unit[..made.unit].to_vec());
    assert_eq!(laboratory.end.state(), Some(State::ConfirmAwaited));
    assert_eq!(laboratory.end.send_held(), 0);

    for unit in units.iter().filter(|unit| !unit.is_empty()) {
        let answer = blender.end.receive_unit(unit, &mut blender.inbox, &mut blender.unit).expect("units in order");
        assert_eq!(answer.unit, 0);
    }
    assert_eq!(blender.end.inbox_held(), record.len());
    assert_eq!(read(&mut blender), (record.to_vec(), None));
    assert_eq!(read(&mut blender), (Vec::new(), Some(Mark::ConfirmTurn)));
    let made = blender.end.confirmed(&mut blender.unit).expect("a confirmation is owed");
    let confirmation = blender.unit[..made.unit].to_vec();
    assert_eq!(confirmation, [0x00, 0x02, 0x83, 0x20, 0x00]);
    assert_eq!(blender.end.state(), Some(State::Send));

    let taken = laboratory.end.receive_unit(&confirmation, &mut laboratory.inbox, &mut laboratory.unit);
    assert!(taken.is_ok());
    assert_eq!(laboratory.end.state(), Some(State::Receive));
}

// Reads parts until one that no other follows, each without its LL.
fn read_table(host: &mut Host) -> Vec<Vec<u8>> {
    let mut parts = Vec::new();
    let mut part = Vec::new();
    loop {
        let mut buffer = [0; 3];
        let answer = host.end.receive(&mut host.inbox, &mut buffer).expect("there is something to read");
        part.extend(&buffer[..answer.copied]);
        assert!(answer.complete || !answer.more, "more parts are told of only with the end of one");
        if answer.complete {
            parts.push(part.split_off(2));
            part.clear();
            if !answer.more {
                return parts;
            }
        }
    }
}

#[test]
fn a_table_in_three_parts() {
    let mut laboratory = host(Role::FirstSpeaker);
    let mut blender = host(Role::Bidder);
    assert_eq!(laboratory.end.allocate(&mut laboratory.unit).expect("Reset").unit, 0);

    // Fourteen bytes in two units of at most eight; the second part has no byte but its LL.
    let table = [&b"V46.1"[..], b"", b"S91"];
    let mut units = Vec::new();
    for (i, text) in table.iter().enumerate() {
        let follows = if i + 1 < table.len() { MORE_FOLLOWS } else { 0 };
        let ll = (text.len() as u16 + 2) | follows;
        let part = [&ll.to_be_bytes()[..], text].concat();
        let made = laboratory.end.send_data(&part, &mut laboratory.send, &mut laboratory.unit).expect("credit is there");
        units.push(laboratory.unit[..made.unit].to_vec());
        // A table may end only with its last part.
        if follows != 0 {
            let refusal = laboratory.end.deallocate(false, &laboratory.send, &mut laboratory.unit).unwrap_err();
            assert_eq!(refusal.reason, Reason::UnfinishedRecord);
        }
    }
    let made = laboratory.end.deallocate(false, &laboratory.send, &mut laboratory.unit).expect("the table is whole");
    units.push(laboratory.unit[..made.unit].to_vec());
    for unit in units.iter().filter(|unit| !unit.is_empty()) {
        let answer = blender.end.receive_unit(unit, &mut blender.inbox, &mut blender.unit).expect("units in order");
        assert_eq!(answer.unit, 0);
    }
    assert_eq!(read_table(&mut blender), table);
    assert_eq!(read(&mut blender), (Vec::new(), Some(Mark::End)));
}

// A first speaker in Send that has given these bytes, none of which has gone.
fn sender(bytes: &[u8]) -> Host {
    let mut sender = host(Role::FirstSpeaker);
    assert_eq!(sender.end.allocate(&mut sender.unit).expect("Reset").unit, 0);
    if !bytes.is_empty() {
        assert_eq!(sender.end.send_data(bytes, &mut sender.send, &mut sender.unit).expect("good bytes").unit, 0);
    }
    sender
}

// A bidder that has read a record of two bytes and the turn.
fn sender_by_turn() -> Host {
    let mut sender = host(Role::Bidder);
    let unit = [0x00, 0x01, 0x03, 0x91, 0xA0, 0x00, 0x02];
    assert!(sender.end.receive_unit(&unit, &mut sender.inbox, &mut sender.unit).is_ok());
    assert_eq!(read(&mut sender), (vec![0x00, 0x02], None));
    assert_eq!(read(&mut sender), (Vec::new(), Some(Mark::Turn)));
    sender
}

// Flush or, with confirmation, confirm.
fn carry_out(host: &mut Host, confirm: bool) -> Result<Answer, Refusal> {
    if confirm {
        host.end.confirm(&host.send, &mut host.unit)
    } else {
        host.end.flush(&host.send, &mut host.unit)
    }
}

const DEFERRED: [(Deferred, State); 2] = [(Deferred::Turn, State::DeferTurn), (Deferred::End, State::DeferEnd)];

#[test]
fn what_is_prepared_is_carried_out_as_at_once() {
    // With bytes kept and BB due, with none kept, and at the end that has the turn.
    let senders: [fn() -> Host; 3] = [|| sender(b"\x00\x04AB"), || sender(b""), sender_by_turn];
    for open in senders {
        for (what, state) in DEFERRED {
            for confirm in [false, true] {
                let mut at_once = open();
                let expected = match what {
                    Deferred::Turn => at_once.end.prepare_to_receive(confirm, &at_once.send, &mut at_once.unit),
                    Deferred::End => at_once.end.deallocate(confirm, &at_once.send, &mut at_once.unit),
                };
                assert!(expected.is_ok_and(|answer| answer.unit >= unit_length(0)));
                let mut later = open();
                let held = later.end.send_held();
                assert_eq!(later.end.defer(what), Ok(()));
                assert_eq!((later.end.state(), later.end.send_held()), (Some(state), held));
                assert_eq!(carry_out(&mut later, confirm), expected, "{what:?}, confirmation {confirm}");
                assert_eq!((later.end, later.unit, later.send), (at_once.end, at_once.unit, at_once.send));
            }
        }
    }
}

#[test]
fn what_is_prepared_is_withdrawn() {
    for (what, state) in DEFERRED {
        let mut laboratory = sender(b"\x00\x04AB");
        let before = *laboratory.end.image();
        assert_eq!(laboratory.end.defer(what), Ok(()));
        assert_ne!(laboratory.end.image(), &before);
        assert_eq!(laboratory.end.state(), Some(state));
        assert_eq!(laboratory.end.withdraw(), Ok(()));
        assert_eq!(laboratory.end.image(), &before, "withdrawing gives every byte back");
        assert_eq!(laboratory.end.withdraw().unwrap_err().reason, Reason::WrongState);
        // More is given, and both records go.
        assert!(laboratory.end.send_data(b"\x00\x03C", &mut laboratory.send, &mut laboratory.unit).is_ok());
        let made = laboratory.end.flush(&laboratory.send, &mut laboratory.unit).expect("credit is there");
        assert_eq!(&laboratory.unit[..made.unit], b"\x00\x01\x03\x91\x80\x00\x04AB\x00\x03C");
        assert_eq!(laboratory.end.state(), Some(State::Send));
    }
}

// The end has refused for this reason, and is as it was.
fn refused<T: std::fmt::Debug>(end: &End, before: &End, result: Result<T, Refusal>, reason: Reason) {
    let refusal = result.expect_err("the call is to be refused");
    assert_eq!((refusal.reason, refusal.sense, refusal.rule), (reason, 0, 0));
    assert_eq!(end, before);
}

#[test]
fn preparing_is_refused_outside_send_and_within_a_record() {
    let mut awaiting = sender(b"");
    assert!(awaiting.end.confirm(&awaiting.send, &mut awaiting.unit).is_ok());
    let mut receiving = sender(b"");
    assert!(receiving.end.prepare_to_receive(false, &receiving.send, &mut receiving.unit).is_ok());
    assert_eq!(receiving.end.state(), Some(State::Receive));
    let mut deferring = sender(b"");
    assert_eq!(deferring.end.defer(Deferred::End), Ok(()));
    let hosts = [
        (sender(b"\x00"), Reason::UnfinishedRecord),
        (sender(b"\x00\x04A"), Reason::UnfinishedRecord),
        (sender(b"\x80\x02"), Reason::UnfinishedRecord),
        (host(Role::FirstSpeaker), Reason::WrongState),
        (awaiting, Reason::WrongState),
        (receiving, Reason::WrongState),
        (deferring, Reason::WrongState),
    ];
    for (mut host, reason) in hosts {
        let before = host.end.clone();
        for (what, _) in DEFERRED {
            let result = host.end.defer(what);
            refused(&host.end, &before, result, reason);
        }
        // Only what is prepared can be withdrawn.
        if before.state() != Some(State::DeferEnd) {
            let result = host.end.withdraw();
            refused(&host.end, &before, result, Reason::WrongState);
        }
    }
}

#[test]
fn nothing_else_is_accepted_where_something_is_prepared() {
    for (what, _) in DEFERRED {
        let Host { mut end, mut send, mut unit, mut inbox } = sender(b"\x00\x04AB");
        assert_eq!(end.defer(what), Ok(()));
        let before = end.clone();
        let result = end.allocate(&mut unit);
        refused(&end, &before, result, Reason::WrongState);
        let result = end.send_data(b"\x00\x02", &mut send, &mut unit);
        refused(&end, &before, result, Reason::WrongState);
        let result = end.send_data(b"", &mut send, &mut unit);
        refused(&end, &before, result, Reason::BadLength);
        for confirm in [false, true] {
            let result = end.prepare_to_receive(confirm, &send, &mut unit);
            refused(&end, &before, result, Reason::WrongState);
            let result = end.deallocate(confirm, &send, &mut unit);
            refused(&end, &before, result, Reason::WrongState);
        }
        let result = end.confirmed(&mut unit);
        refused(&end, &before, result, Reason::WrongState);
        // A read and a pacing response are refused only because there is nothing to read or to answer.
        let result = end.receive(&mut inbox, &mut [0; 4]);
        refused(&end, &before, result, Reason::NothingToRead);
        let result = end.send_pacing_response(&mut unit);
        refused(&end, &before, result, Reason::NothingToPace);
        // A bid is answered with a bid refusal, as in Send, and what is prepared stays.
        let bid = [0x00, 0x01, 0x4B, 0x81, 0x80, 0x04, 0x00, 0x06, 0x00, 0x00];
        let made = end.receive_unit(&bid, &mut inbox, &mut unit).expect("a bid may come at any time");
        assert_eq!(unit[..made.unit], [0x00, 0x01, 0xCF, 0x90, 0x00, 0x08, 0x13, 0x00, 0x00, 0x04]);
        assert_eq!(end.state(), before.state());
    }
}

#[test]
fn a_prepared_turn_waits_for_credit() {
    for confirm in [false, true] {
        let mut laboratory = sender(b"");
        // A window of three units goes, so that none is left for the turn.
        for _ in 0..WINDOW {
            assert!(laboratory.end.send_data(b"\x00\x02", &mut laboratory.send, &mut laboratory.unit).is_ok());
            assert_eq!(laboratory.end.flush(&laboratory.send, &mut laboratory.unit).expect("credit is there").unit, 7);
        }
        assert_eq!(laboratory.end.defer(Deferred::Turn), Ok(()));
        let before = laboratory.end.clone();
        let result = carry_out(&mut laboratory, confirm);
        refused(&laboratory.end, &before, result, Reason::NoCredit);
        let pacing = [0x00, 0x00, 0x83, 0x01, 0x00];
        let taken = laboratory.end.receive_unit(&pacing, &mut laboratory.inbox, &mut laboratory.unit);
        assert_eq!(taken.expect("a pacing response is awaited").unit, 0);
        assert_eq!(laboratory.end.state(), Some(State::DeferTurn));
        let made = carry_out(&mut laboratory, confirm).expect("credit is there");
        let byte1 = if confirm { 0x21 } else { 0x91 };
        assert_eq!(laboratory.unit[..made.unit], [0x00, 0x04, 0x03, byte1, 0x20]);
        assert_eq!(laboratory.end.state(), Some(if confirm { State::ConfirmAwaited } else { State::Receive }));
    }
}

// The unit that the last call of this host made, taken by the other.
fn carry(from: &Host, made: Answer, to: &mut Host) {
    let answer = to.end.receive_unit(&from.unit[..made.unit], &mut to.inbox, &mut to.unit).expect("units in order");
    assert_eq!(answer.unit, 0);
}

// The three ways to ask for a confirmation, each with the mark that it leaves.
type Asks = fn(&mut Host) -> Result<Answer, Refusal>;
const ASKS: [(Asks, Mark); 3] = [
    (|host| host.end.confirm(&host.send, &mut host.unit), Mark::Confirm),
    (|host| host.end.prepare_to_receive(true, &host.send, &mut host.unit), Mark::ConfirmTurn),
    (|host| host.end.deallocate(true, &host.send, &mut host.unit), Mark::ConfirmEnd),
];

// A laboratory that waits for the confirmation of a record, and a blender that has read it and owes the confirmation.
fn asked(asks: Asks, mark: Mark) -> [Host; 2] {
    let mut laboratory = sender(b"\x00\x06S9.1");
    let mut blender = host(Role::Bidder);
    let made = asks(&mut laboratory).expect("a whole record");
    assert_eq!(laboratory.end.state(), Some(State::ConfirmAwaited));
    carry(&laboratory, made, &mut blender);
    assert_eq!(read(&mut blender), (b"\x00\x06S9.1".to_vec(), None));
    assert_eq!(read(&mut blender), (Vec::new(), Some(mark)));
    assert_eq!(blender.end.state(), Some(State::ConfirmOwed));
    [laboratory, blender]
}

const NO_CONFIRMATION: [u8; 4] = [0x08, 0x46, 0x00, 0x00];
const ERROR_HEADER: [u8; 7] = [0x07, 0x07, 0x08, 0x89, 0x00, 0x00, 0x00];

#[test]
fn a_confirmation_refused() {
    for (asks, mark) in ASKS {
        let [mut laboratory, mut blender] = asked(asks, mark);
        let made = blender.end.send_error(&mut blender.unit).expect("a confirmation is owed");
        assert_eq!(blender.unit[..made.unit], [&[0x00, 0x01, 0x87, 0x30, 0x00], &NO_CONFIRMATION[..]].concat());
        assert_eq!((blender.end.state(), blender.end.error_due()), (Some(State::Send), true));
        carry(&blender, made, &mut laboratory);
        assert_eq!(laboratory.end.state(), Some(State::Receive), "whatever was to follow");
        assert_eq!(laboratory.end.receive(&mut laboratory.inbox, &mut [0; 4]).unwrap_err().reason, Reason::NothingToRead);

        let made = blender.end.flush(&blender.send, &mut blender.unit).expect("credit is there");
        assert_eq!(blender.unit[..made.unit], [&[0x00, 0x01, 0x0B, 0x91, 0x00], &ERROR_HEADER[..]].concat());
        assert_eq!((blender.end.state(), blender.end.error_due()), (Some(State::Send), false));
        carry(&blender, made, &mut laboratory);
        let made = blender.end.prepare_to_receive(false, &blender.send, &mut blender.unit).expect("the error header has gone");
        // The error header waits as a mark, and no byte of it is read.
        let turn = blender.unit[..made.unit].to_vec();
        let refusal = laboratory.end.receive_unit(&turn, &mut laboratory.inbox, &mut laboratory.unit).unwrap_err();
        assert_eq!((refusal.reason, laboratory.end.inbox_held()), (Reason::UnreadMark, 0));
        assert_eq!(read(&mut laboratory), (Vec::new(), Some(Mark::Error)));
        assert_eq!(laboratory.end.state(), Some(State::Receive));
        carry(&blender, made, &mut laboratory);
        assert_eq!(read(&mut laboratory), (Vec::new(), Some(Mark::Turn)));

        // The laboratory sends the card again, corrected, and the blender confirms it.
        assert!(laboratory.end.send_data(b"\x00\x05S91", &mut laboratory.send, &mut laboratory.unit).is_ok());
        let made = laboratory.end.deallocate(true, &laboratory.send, &mut laboratory.unit).expect("a whole record");
        carry(&laboratory, made, &mut blender);
        assert_eq!(read(&mut blender), (b"\x00\x05S91".to_vec(), None));
        assert_eq!(read(&mut blender), (Vec::new(), Some(Mark::ConfirmEnd)));
        let made = blender.end.confirmed(&mut blender.unit).expect("a confirmation is owed");
        carry(&blender, made, &mut laboratory);
        assert_eq!([laboratory.end.state(), blender.end.state()], [Some(State::Reset); 2]);
    }
}

#[test]
fn nothing_else_is_sent_before_the_error_header() {
    let [_, blender] = asked(ASKS[0].0, ASKS[0].1);
    let Host { mut end, mut send, mut unit, mut inbox } = blender;
    assert!(end.send_error(&mut unit).is_ok());
    let before = end.clone();
    let result = end.send_data(b"\x00\x02", &mut send, &mut unit);
    refused(&end, &before, result, Reason::WrongState);
    let result = end.send_data(b"", &mut send, &mut unit);
    refused(&end, &before, result, Reason::BadLength);
    let result = end.confirm(&send, &mut unit);
    refused(&end, &before, result, Reason::WrongState);
    for confirm in [false, true] {
        let result = end.prepare_to_receive(confirm, &send, &mut unit);
        refused(&end, &before, result, Reason::WrongState);
        let result = end.deallocate(confirm, &send, &mut unit);
        refused(&end, &before, result, Reason::WrongState);
    }
    for (what, _) in DEFERRED {
        let result = end.defer(what);
        refused(&end, &before, result, Reason::WrongState);
    }
    let result = end.allocate(&mut unit);
    refused(&end, &before, result, Reason::WrongState);
    for result in [end.confirmed(&mut unit), end.send_error(&mut unit)] {
        refused(&end, &before, result, Reason::WrongState);
    }
    let result = end.receive(&mut inbox, &mut [0; 4]);
    refused(&end, &before, result, Reason::NothingToRead);
    // A second flush after the error header has nothing to send.
    assert_eq!(end.flush(&send, &mut unit).expect("credit is there").unit, unit_length(ERROR_HEADER.len()));
    assert_eq!(end.flush(&send, &mut unit).expect("nothing is kept").unit, 0);
}

#[test]
fn the_error_header_waits_for_credit() {
    // The laboratory's window of three units is used up with the turn; then it is the one to be asked.
    let mut laboratory = sender(b"");
    for _ in 1..WINDOW {
        assert!(laboratory.end.send_data(b"\x00\x02", &mut laboratory.send, &mut laboratory.unit).is_ok());
        assert_eq!(laboratory.end.flush(&laboratory.send, &mut laboratory.unit).expect("credit is there").unit, 7);
    }
    assert!(laboratory.end.prepare_to_receive(false, &laboratory.send, &mut laboratory.unit).is_ok());
    let asks = [0x00, 0x01, 0x03, 0x21, 0x00];
    assert!(laboratory.end.receive_unit(&asks, &mut laboratory.inbox, &mut laboratory.unit).is_ok());
    assert_eq!(read(&mut laboratory), (Vec::new(), Some(Mark::Confirm)));
    // Refusing a confirmation costs no credit; the error header does.
    let made = laboratory.end.send_error(&mut laboratory.unit).expect("a confirmation is owed");
    assert_eq!(laboratory.unit[..made.unit], [&[0x00, 0x01, 0x87, 0x30, 0x00], &NO_CONFIRMATION[..]].concat());
    let before = laboratory.end.clone();
    let result = laboratory.end.flush(&laboratory.send, &mut laboratory.unit);
    refused(&laboratory.end, &before, result, Reason::NoCredit);
    let pacing = [0x00, 0x00, 0x83, 0x01, 0x00];
    assert!(laboratory.end.receive_unit(&pacing, &mut laboratory.inbox, &mut laboratory.unit).is_ok());
    assert!(laboratory.end.error_due());
    let made = laboratory.end.flush(&laboratory.send, &mut laboratory.unit).expect("credit is there");
    assert_eq!(laboratory.unit[..made.unit], [&[0x00, 0x04, 0x0B, 0x91, 0x00], &ERROR_HEADER[..]].concat());
}

#[test]
fn a_confirmation_is_refused_only_where_one_is_owed() {
    let [mut laboratory, mut blender] = asked(ASKS[2].0, ASKS[2].1);
    let before = blender.end.clone();
    let result = blender.end.send_error(&mut blender.unit[1..]);
    refused(&blender.end, &before, result, Reason::BadBuffer);
    let hosts = [host(Role::FirstSpeaker), sender(b""), sender_by_turn()];
    for mut host in hosts {
        let before = host.end.clone();
        let result = host.end.send_error(&mut host.unit);
        refused(&host.end, &before, result, Reason::WrongState);
    }
    // A refusal of another number, and one that has come already.
    let another = [&[0x00, 0x02, 0x87, 0x30, 0x00], &NO_CONFIRMATION[..]].concat();
    let awaits = laboratory.end.clone();
    let refusal = laboratory.end.receive_unit(&another, &mut laboratory.inbox, &mut laboratory.unit).unwrap_err();
    assert_eq!((refusal.reason, refusal.sense), (Reason::BadResponse, 0x200E_0000));
    assert_eq!(laboratory.end, awaits);
    let made = blender.end.send_error(&mut blender.unit).expect("a confirmation is owed");
    carry(&blender, made, &mut laboratory);
    let unit = &blender.unit[..made.unit];
    let refusal = laboratory.end.receive_unit(unit, &mut laboratory.inbox, &mut laboratory.unit).unwrap_err();
    assert_eq!(refusal.reason, Reason::BadResponse);
}

#[test]
fn a_forged_error_due_is_refused_outside_send_and_with_bytes_kept() {
    let forged = |end: &End, error: u8| {
        let mut image = *end.image();
        image[42] = error;
        End::from_image(image)
    };
    // In Reset; in Send with BB due; in Send with a byte kept. By the turn, with nothing kept, it is a record that calls can leave.
    let mut keeps = sender_by_turn();
    assert!(keeps.end.send_data(b"\x00", &mut keeps.send, &mut keeps.unit).is_ok());
    for host in [host(Role::Bidder), sender(b""), keeps] {
        let Host { end, send, mut unit, .. } = host;
        assert_eq!(forged(&end, 1).flush(&send, &mut unit).unwrap_err().reason, Reason::BadRecord);
    }
    let Host { end, send, mut unit, .. } = sender_by_turn();
    assert_eq!(forged(&end, 1).flush(&send, &mut unit).expect("credit is there").unit, unit_length(ERROR_HEADER.len()));
    for error in 2..=255 {
        assert_eq!(forged(&end, error).flush(&send, &mut unit).unwrap_err().reason, Reason::BadRecord);
    }
}

// A laboratory that sends, and a blender that has taken its first unit and receives.
fn receiving() -> [Host; 2] {
    let mut laboratory = sender(b"\x00\x04AB");
    let made = laboratory.end.flush(&laboratory.send, &mut laboratory.unit).expect("credit is there");
    let mut blender = host(Role::Bidder);
    carry(&laboratory, made, &mut blender);
    [laboratory, blender]
}

const SIGNAL: [u8; 8] = [0x4B, 0x80, 0x00, 0xC9, 0x00, 0x01, 0x00, 0x00];
const SIGNAL_ANSWER: [u8; 4] = [0xCB, 0x80, 0x00, 0xC9];

#[test]
fn the_turn_is_requested_while_the_partner_sends() {
    let [mut laboratory, mut blender] = receiving();
    for number in 1..=3 {
        let states = [laboratory.end.state(), blender.end.state()];
        let made = blender.end.request_to_send(&mut blender.unit).expect("it receives, and no signal is unanswered");
        assert_eq!(blender.unit[..made.unit], [&[0x00, number], &SIGNAL[..]].concat());
        assert!(blender.end.signal_unanswered());
        // Units of the normal line that were made before may be overtaken.
        assert!(laboratory.end.send_data(b"\x00\x02", &mut laboratory.send, &mut laboratory.unit).is_ok());
        let told = laboratory.end.receive_expedited(&blender.unit[..made.unit], &mut laboratory.unit).expect("a signal");
        assert!(told.signalled);
        assert_eq!(laboratory.unit[..told.unit], [&[0x00, number], &SIGNAL_ANSWER[..]].concat());
        let answered = blender.end.receive_expedited(&laboratory.unit[..told.unit], &mut blender.unit).expect("its answer");
        assert_eq!((answered.unit, answered.signalled, blender.end.signal_unanswered()), (0, false, false));
        assert_eq!([laboratory.end.state(), blender.end.state()], states);
    }
    let made = laboratory.end.prepare_to_receive(false, &laboratory.send, &mut laboratory.unit).expect("the record is whole");
    carry(&laboratory, made, &mut blender);
    assert_eq!([read(&mut blender), read(&mut blender)].map(|(record, _)| record.len()), [4, 2]);
}

#[test]
fn one_signal_is_unanswered_at_a_time_and_only_where_this_end_receives() {
    let [_, mut blender] = receiving();
    assert!(blender.end.request_to_send(&mut blender.unit).is_ok());
    let before = blender.end.clone();
    let result = blender.end.request_to_send(&mut blender.unit);
    refused(&blender.end, &before, result, Reason::SignalUnanswered);
    let refusal = result.unwrap_err();
    assert!(!refusal.reason.is_breach());
    assert_eq!(refusal.to_string(), "refusal 30 (a signal has not been answered), sense 00000000");
    let result = blender.end.request_to_send(&mut blender.unit[1..]);
    refused(&blender.end, &before, result, Reason::BadBuffer);
    let [waits, mut owes] = asked(ASKS[0].0, ASKS[0].1);
    let mut defers = sender(b"");
    assert_eq!(defers.end.defer(Deferred::Turn), Ok(()));
    for mut host in [host(Role::FirstSpeaker), sender(b""), defers, waits] {
        let before = host.end.clone();
        let result = host.end.request_to_send(&mut host.unit);
        refused(&host.end, &before, result, Reason::WrongState);
    }
    assert_eq!(owes.end.request_to_send(&mut owes.unit).expect("it owes a confirmation").unit, 10);
    assert_eq!(owes.end.state(), Some(State::ConfirmOwed));
}

#[test]
fn each_line_has_units_of_its_own() {
    let mut bidder = host(Role::Bidder);
    assert!(bidder.end.allocate(&mut bidder.unit).is_ok());
    let before = bidder.end.clone();
    let grant = [0x00, 0x01, 0xCB, 0x80, 0x00, 0x04];
    let signal = [&[0x00, 0x01], &SIGNAL[..]].concat();
    // On the expedited line: a grant, a bid, data; a signal of another number; an answer to no signal; the manual's signal code.
    let breaches: [(&[u8], Reason, u32); 6] = [
        (&grant, Reason::BadRu, 0),
        (&[0x00, 0x01, 0x4B, 0x81, 0x80, 0x04, 0x00, 0x06, 0x00, 0x00], Reason::BadHeader, 2),
        (&[0x00, 0x01, 0x03, 0x90, 0x00, 0x00, 0x02], Reason::BadHeader, 1),
        (&[&[0x00, 0x02], &SIGNAL[..]].concat(), Reason::BadNumber, 0),
        (&[&[0x00, 0x00], &SIGNAL_ANSWER[..]].concat(), Reason::BadResponse, 0),
        (&[0x00, 0x01, 0x4B, 0x80, 0x00, 0xC9, 0x00, 0x01, 0x00, 0x01], Reason::BadRu, 0),
    ];
    for (unit, reason, rule) in breaches {
        let refusal = bidder.end.receive_expedited(unit, &mut bidder.unit).unwrap_err();
        assert_eq!((refusal.reason, refusal.rule, refusal.reason.is_breach()), (reason, rule, true), "{unit:02X?}");
        assert_eq!(bidder.end, before);
    }
    // On the normal line: a signal.
    let refusal = bidder.end.receive_unit(&signal, &mut bidder.inbox, &mut bidder.unit).unwrap_err();
    assert_eq!((refusal.reason, refusal.rule), (Reason::BadHeader, 2));
    // Each on its own; a signal is taken in every state.
    assert!(bidder.end.receive_expedited(&signal, &mut bidder.unit).expect("a signal").signalled);
    assert!(bidder.end.receive_unit(&grant, &mut bidder.inbox, &mut bidder.unit).is_ok());
    assert_eq!(bidder.end.state(), Some(State::Send));
}

#[test]
fn refusals_say_what_was_wrong() {
    let mut blender = host(Role::Bidder);
    let before = blender.end.clone();
    let refusal = blender.end.receive_unit(&[0, 1, 3, 0x90, 0x21], &mut blender.inbox, &mut blender.unit).unwrap_err();
    assert_eq!((refusal.reason, refusal.sense, refusal.rule), (Reason::BadHeader, 0, 5));
    assert!(refusal.reason.is_breach());
    assert_eq!(refusal.to_string(), "refusal 21 (the header breaks a rule), sense 00000000, rule H5");
    let refusal = blender.end.receive_unit(&[0, 1], &mut blender.inbox, &mut blender.unit).unwrap_err();
    assert_eq!(refusal.to_string(), "refusal 20 (the unit is too short), sense 40050000");
    assert_eq!(blender.end, before);
    let refusal = blender.end.receive(&mut blender.inbox, &mut [0; 4]).unwrap_err();
    assert_eq!(refusal.reason, Reason::NothingToRead);
    assert!(!refusal.reason.is_breach());
}

#[test]
fn an_image_is_kept_and_taken_up_again() {
    let mut blender = host(Role::Bidder);
    let kept = *blender.end.image();
    let mut again = End::from_image(kept);
    let mut unit = blender.unit;
    assert_eq!(again.allocate(&mut unit), blender.end.allocate(&mut blender.unit));
    assert_eq!(again, blender.end);
    let mut forged = End::from_image([0xFF; lu62::IMAGE]);
    assert_eq!(forged.state(), None);
    assert_eq!(forged.allocate(&mut unit).unwrap_err().reason, Reason::BadRecord);
}

#[test]
fn a_changed_image_is_refused_or_another_record() {
    let blender = host(Role::Bidder);
    let mut unit = blender.unit;
    // Of another format: refused.
    let mut image = *blender.end.image();
    image[0] = FORMAT + 1;
    assert_eq!(End::from_image(image).allocate(&mut unit).unwrap_err().reason, Reason::BadRecord);
    // Out of document 01's section on the record: a place past the end of the window.
    let mut image = *blender.end.image();
    image[10] = WINDOW;
    assert_eq!(End::from_image(image).allocate(&mut unit).unwrap_err().reason, Reason::BadRecord);
    // Within it: the last number sent, changed, is taken as it is.
    let mut image = *blender.end.image();
    image[16] = 6;
    let mut changed = End::from_image(image);
    let made = changed.allocate(&mut unit).expect("a record within the section is accepted");
    assert_eq!((made.unit, &unit[..2]), (10, &[0x00, 0x07][..]));
    assert!(changed.bid_pending() && !blender.end.bid_pending());
}

#[test]
fn a_forged_state_is_refused_and_a_forged_defer_asks_for_a_whole_record() {
    let laboratory = sender(b"\x00\x04AB");
    let Host { end, send, mut unit, .. } = laboratory;
    let forged = |state: u8, place: u8| {
        let mut image = *end.image();
        (image[2], image[18]) = (state, place);
        End::from_image(image)
    };
    // No state has the number 7 or one above.
    for state in 7..=255 {
        let mut end = forged(state, 0);
        assert_eq!(end.state(), None);
        for (what, _) in DEFERRED {
            assert_eq!(end.defer(what).unwrap_err().reason, Reason::BadRecord);
        }
        assert_eq!(end.withdraw().unwrap_err().reason, Reason::BadRecord);
        assert_eq!(end.flush(&send, &mut unit).unwrap_err().reason, Reason::BadRecord);
        assert_eq!(end.confirm(&send, &mut unit).unwrap_err().reason, Reason::BadRecord);
    }
    // Defer behind a part that another follows: no calls lead there, and neither flush nor confirm sends it.
    for state in [5, 6] {
        let mut end = forged(state, 1);
        assert_eq!(end.flush(&send, &mut unit).unwrap_err().reason, Reason::UnfinishedRecord);
        assert_eq!(end.confirm(&send, &mut unit).unwrap_err().reason, Reason::UnfinishedRecord);
        assert_eq!(end.withdraw(), Ok(()));
        assert_eq!(end, forged(1, 1));
    }
}
