//! A session opened by its bytes beside one opened by the numbers that they mean, at every window byte and size byte and at random ones;
//! and the byte of every size. What a byte means is said here anew.
mod common;

use common::Random;
use lu62::{inbox_length, raw, size_byte, unit_length, End, Reason, Role, Session, SessionBytes, IMAGE};

const MOST: usize = 1024;
const INBOX: usize = 63 * MOST;

// The mantissa times 2 to the power of the exponent, if there is such a maximum RU.
fn maximum(byte: u8) -> Option<u32> {
    let (mantissa, exponent) = (u32::from(byte >> 4), u32::from(byte & 15));
    let size = mantissa * 2u32.pow(exponent);
    (mantissa >= 8 && (8..=1024).contains(&size)).then_some(size)
}

#[derive(Clone, Copy, Debug)]
struct Bytes {
    role: u8,
    windows: [u8; 2],
    sizes: [u8; 2],
    lengths: [usize; 3],
}

fn by_bytes(of: &Bytes, image: &mut [u8]) -> raw::Answer {
    let ([out_window, in_window], [out_size, in_size], [send, unit, inbox]) = (of.windows, of.sizes, of.lengths);
    raw::open_bind(of.role, out_window, in_window, out_size, in_size, send, unit, inbox, image)
}

// With 0, which is no maximum, for a size byte that means none.
fn by_numbers(of: &Bytes, image: &mut [u8]) -> raw::Answer {
    let ([out_window, in_window], [send, unit, inbox]) = (of.windows.map(|byte| byte & 0x3F), of.lengths);
    let [out_max, in_max] = of.sizes.map(|byte| maximum(byte).unwrap_or(0));
    raw::open(of.role, out_window, in_window, out_max, in_max, send, unit, inbox, image)
}

// The first of 1, 2, 3 and 4 that fits, in the words of document 02.
fn refusal(of: &Bytes) -> u32 {
    if of.role > 1 {
        return 1;
    }
    let [out_window, in_window] = of.windows.map(|byte| usize::from(byte % 64));
    if out_window == 0 || in_window == 0 {
        return 2;
    }
    let [Some(out_max), Some(in_max)] = of.sizes.map(maximum) else { return 3 };
    let [send, unit, inbox] = of.lengths;
    let (out_max, in_max) = (out_max as usize, in_max as usize);
    let room = inbox_length(in_window, in_max)..=65_535;
    if send < out_max || unit < unit_length(out_max) || !room.contains(&inbox) {
        return 4;
    }
    0
}

// Opens both ways. Whatever the images held, they are the same then, and so are the answers. Gives the refusal number.
fn opened(of: &Bytes, was: u8) -> u32 {
    let (mut one, mut two) = ([was; IMAGE], [!was; IMAGE]);
    let answer = by_bytes(of, &mut one);
    assert_eq!(answer, by_numbers(of, &mut two), "{of:?}");
    assert_eq!(one, two, "{of:?}");
    assert_eq!(answer, raw::Answer { refusal: refusal(of), ..raw::Answer::default() }, "{of:?}");
    answer.refusal
}

#[test]
fn every_window_byte_and_size_byte() {
    let mut counts = [0u32; 5];
    for window in 0..=255 {
        for size in 0..=255 {
            for direction in 0..2 {
                let mut of = Bytes { role: 0, windows: [1; 2], sizes: [0x87; 2], lengths: [MOST, unit_length(MOST), INBOX] };
                of.windows[direction] = window;
                of.sizes[direction] = size;
                counts[opened(&of, window ^ size) as usize] += 1;
            }
        }
    }
    // Of the 256 window bytes 4 have a window of 0, and of the 256 size bytes 57 mean a maximum.
    assert_eq!(counts, [2 * 252 * 57, 0, 2 * 4 * 256, 2 * 252 * 199, 0]);
    println!("session_bytes: {} openings by every window byte and size byte, {} accepted", counts.iter().sum::<u32>(), counts[0]);
}

#[test]
fn random_bytes_and_lengths() {
    let mut random = Random(3);
    let mut counts = [0u32; 5];
    for _ in 0..1_000_000 {
        let mut sizes = [random.byte(), random.byte()];
        for size in &mut sizes {
            // Every other one means a maximum or nearly.
            if random.chance(1, 2) {
                *size = 0x80 | *size & 0x77;
            }
        }
        let of = Bytes {
            role: random.below(64).saturating_sub(61) as u8,
            windows: [random.byte(), random.byte()],
            sizes,
            lengths: [random.below(2 * MOST), random.below(2 * MOST), random.below(70_000)],
        };
        counts[opened(&of, random.byte()) as usize] += 1;
    }
    assert!(counts.iter().all(|&count| count > 1_000), "{counts:?}");
    println!("random: accepted and refused with 1 to 4: {counts:?}");
}

// Refused with 4, and not a cell of it is written.
#[test]
fn an_image_of_a_wrong_length() {
    let of = Bytes { role: 0, windows: [7; 2], sizes: [0x85; 2], lengths: [256, 261, 1792] };
    for length in (0..2 * IMAGE).filter(|&length| length != IMAGE) {
        let mut image = vec![0xA5; length];
        assert_eq!(by_bytes(&of, &mut image), raw::Answer { refusal: 4, ..raw::Answer::default() });
        assert!(image.iter().all(|&cell| cell == 0xA5));
    }
}

#[test]
fn the_byte_of_every_size() {
    let of = |size: u32| (0..=255).filter(|&byte| maximum(byte) == Some(size)).collect::<Vec<u8>>();
    let mut with_byte = 0;
    for size in 0..=2048 {
        let expected = match of(size)[..] {
            [byte] => (0, byte),
            [] if (8..=1024).contains(&size) => (31, 0),
            [] => (3, 0),
            _ => panic!("{size} has two bytes"),
        };
        assert_eq!(raw::size_byte(size), expected, "{size}");
        with_byte += u32::from(expected.0 == 0);
    }
    assert_eq!(with_byte, 57);
    let mut random = Random(31);
    for _ in 0..1_000_000 {
        let size = (random.next() >> 32) as u32 | 2048;
        assert_eq!(raw::size_byte(size), (3, 0), "{size}");
    }
    for size in [1 << 16, 1 << 31, u32::MAX] {
        assert_eq!(raw::size_byte(size), (3, 0));
    }
    // There and back.
    for byte in 0..=255 {
        if let Some(size) = maximum(byte) {
            assert_eq!(raw::size_byte(size), (0, byte));
        }
    }
}

#[test]
fn the_crate_opens_by_bytes() {
    let (send, unit, inbox) = ([0; 256], [0; unit_length(256)], [0; inbox_length(7, 256)]);
    let bytes = SessionBytes { role: Role::Bidder, out_window: 0xC7, in_window: 0x07, out_size: 0x85, in_size: 0x85 };
    let numbers = Session { role: Role::Bidder, out_window: 7, in_window: 7, out_max: 256, in_max: 256 };
    let end = End::open_bind(bytes, &send, &unit, &inbox).expect("these bytes open a session");
    assert_eq!(Ok(end), End::open(numbers, &send, &unit, &inbox));
    let reason = |bytes| End::open_bind(bytes, &send, &unit, &inbox).map_err(|refusal| refusal.reason);
    assert_eq!(reason(SessionBytes { in_window: 0x40, ..bytes }), Err(Reason::BadWindow));
    assert_eq!(reason(SessionBytes { out_size: 0x97, ..bytes }), Err(Reason::BadMaximum));
    assert_eq!(reason(SessionBytes { in_size: 0x75, ..bytes }), Err(Reason::BadMaximum));
    assert_eq!(reason(SessionBytes { out_size: 0x87, ..bytes }), Err(Reason::BadBuffer));
    assert_eq!(size_byte(1_024), Ok(0x87));
    assert_eq!(size_byte(1_025).map_err(|refusal| refusal.reason), Err(Reason::BadMaximum));
    assert_eq!(size_byte(1_023).map_err(|refusal| refusal.reason), Err(Reason::NoSizeByte));
}
