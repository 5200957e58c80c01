//! Every one of the 2^24 headers, taken by a bidder as opened, on the normal and on the expedited line: the rule that 21 names is the
//! lowest that the header breaks.
//!
//! The rules of a header are asked by the plain end, one by one. A refused take must leave image, inbox and unit buffer as they were.
use lu62::raw;
use lu62::IMAGE;

const MAX: usize = 8;

// How many headers are good, and how many name each of H1 to H6, counted from the rules by hand: H1 246 of 256 values of byte 0; H2 six
// values of byte 0 less nine headers; H3 four values of byte 0 and 252 of byte 1; H4 two values of byte 0 and two of byte 1; H5 the 12
// pairs of bytes 0 and 1 that are left, and 250 values of byte 2; H6 these pairs with the other six values, less 42 headers of data.
const GOOD: usize = 42 + FIXED.len();
const NAMED: [usize; 6] = [246 * 65_536, 6 * 65_536 - FIXED.len(), 4 * 252 * 256, 2 * 2 * 256, 12 * 250, 12 * 6 - 42];

// The headers of documents 01 and 02 that are not data: error header, bid, confirmation, pacing response, no confirmation, grant and bid
// refusal.
const FIXED: [[u8; 3]; 9] = [
    [0x0B, 0x90, 0x00],
    [0x0B, 0x91, 0x00],
    [0x4B, 0x80, 0x80],
    [0x4B, 0x81, 0x80],
    [0x83, 0x20, 0x00],
    [0x83, 0x01, 0x00],
    [0x87, 0x30, 0x00],
    [0xCB, 0x80, 0x00],
    [0xCF, 0x90, 0x00],
];

fn opened() -> [u8; IMAGE] {
    let mut image = [0; IMAGE];
    let answer = raw::open(1, 1, 1, MAX as u32, MAX as u32, MAX, MAX + 5, MAX, &mut image);
    assert_eq!(answer.refusal, 0, "opening");
    image
}

// The rule that the take of a unit with this header names, if it is refused for its header.
fn named(fresh: &[u8; IMAGE], header: [u8; 3]) -> Option<u32> {
    let mut image = *fresh;
    let mut inbox = [0xA5; MAX];
    let mut unit = [0x5A; MAX + 5];
    let [a, b, c] = header;
    let answer = raw::receive_unit(&mut image, &[0, 1, a, b, c, 0, 2], &mut inbox, &mut unit);
    if answer.refusal != 0 {
        let kept = image == *fresh && inbox == [0xA5; MAX] && unit == [0x5A; MAX + 5];
        assert!(kept, "{header:02X?} is refused with {} and changes a byte", answer.refusal);
    }
    (answer.refusal == 21).then_some(answer.rule)
}

#[test]
fn the_lowest_rule_broken_is_named() {
    let fresh = opened();
    let mut good = 0;
    let mut counts = [0; 6];
    let mut most = 0;
    for number in 0..1u32 << 24 {
        let [_, a, b, c] = number.to_be_bytes();
        let broken = plain::broken([a, b, c]);
        let lowest = broken.iter().position(|&broken| broken);
        assert_eq!(named(&fresh, [a, b, c]), lowest.map(|index| index as u32 + 1), "header {a:02X} {b:02X} {c:02X}");
        match lowest {
            Some(index) => counts[index] += 1,
            None => {
                good += 1;
                assert!(a <= 3 || FIXED.contains(&[a, b, c]), "header {a:02X} {b:02X} {c:02X} is good");
            }
        }
        most = most.max(broken.iter().filter(|&&broken| broken).count());
    }
    assert_eq!((good, counts, most), (GOOD, NAMED, 3));
    println!("every_header: all 2^24 taken: {good} good, H1 to H6 named {counts:?} times, never more than {most} broken");
}

// On the expedited line: a signal and the answer to one.
const EXPEDITED: [[u8; 3]; 2] = [[0x4B, 0x80, 0x00], [0xCB, 0x80, 0x00]];

// The rule that the take of an expedited unit with this header names, if it is refused for its header.
fn named_expedited(fresh: &[u8; IMAGE], header: [u8; 3]) -> Option<u32> {
    let mut image = *fresh;
    let mut unit = [0x5A; MAX + 5];
    let [a, b, c] = header;
    let answer = raw::receive_expedited(&mut image, &[0, 1, a, b, c, 0xC9, 0x00, 0x01, 0x00, 0x00], &mut unit);
    if answer.refusal != 0 {
        let kept = image == *fresh && unit == [0x5A; MAX + 5];
        assert!(kept, "{header:02X?} is refused with {} and changes a byte", answer.refusal);
    }
    // Of the RU the signal's is the right one, and of a good header no question but 22 is left.
    let expected = if header == EXPEDITED[0] { 0 } else { 22 };
    assert!(answer.refusal == 21 || answer.refusal == expected, "{header:02X?} is refused with {}", answer.refusal);
    (answer.refusal == 21).then_some(answer.rule)
}

#[test]
fn of_the_expedited_line_two_are_good() {
    let fresh = opened();
    let mut counts = [0; 3];
    for number in 0..1u32 << 24 {
        let [_, a, b, c] = number.to_be_bytes();
        let rule = named_expedited(&fresh, [a, b, c]);
        let broken = match [a, b, c] {
            header if EXPEDITED.contains(&header) => None,
            [0x4B | 0xCB, _, _] => Some(2),
            _ => Some(1),
        };
        assert_eq!(rule, broken, "header {a:02X} {b:02X} {c:02X} on the expedited line");
        assert_eq!(rule, plain::broken_expedited([a, b, c]), "the plain end on {a:02X} {b:02X} {c:02X}");
        counts[rule.unwrap_or(0) as usize] += 1;
    }
    // H1 254 of 256 values of byte 0; H2 the other two less two headers.
    assert_eq!(counts, [EXPEDITED.len(), 254 * 65_536, 2 * 65_536 - EXPEDITED.len()]);
    let [good, h1, h2] = counts;
    println!("expedited: all 2^24 taken on the expedited line: {good} good, H1 and H2 named {h1} and {h2} times");
}
