//! The same work as `through` by the plain end: carries records of 1,024 bytes from one end to the other in one process.
//! Usage: plain M W RECORDS ROUNDS. The work is done ROUNDS times; prints the payload bytes of one round and the seconds of the
//! fastest.
use plain::{open, Answer, End, Session};
use std::env;
use std::process::ExitCode;
use std::time::Instant;

const RECORD: usize = 1024;

// The buffers lent to one end. They are made once, before the clock starts.
struct Buffers {
    send: Vec<u8>,
    unit: Vec<u8>,
    inbox: Vec<u8>,
}

impl Buffers {
    fn new(window: u8, max: u32) -> Buffers {
        Buffers { send: vec![0; 1024], unit: vec![0; 1029], inbox: vec![0; usize::from(window) * max as usize] }
    }
}

struct Host<'a> {
    end: End,
    send: &'a mut [u8],
    unit: &'a mut [u8],
    inbox: &'a mut [u8],
}

fn host(role: u8, window: u8, max: u32, buffers: &mut Buffers) -> Result<Host<'_>, u32> {
    let Buffers { send, unit, inbox } = buffers;
    let session = Session { role, out_window: window, in_window: window, out_max: max, in_max: max };
    let end = open(session, send.len(), unit.len(), inbox.len())?;
    Ok(Host { end, send, unit, inbox })
}

fn accepted(answer: Answer) -> Result<Answer, u32> {
    if answer.refusal == 0 {
        Ok(answer)
    } else {
        Err(answer.refusal)
    }
}

// The unit is taken and its bytes are read at once; after each window the reader makes a pacing response.
fn carry(from: &mut Host, to: &mut Host, length: usize, buffer: &mut [u8], window: u8, place: &mut u8) -> Result<usize, u32> {
    let mut copied = 0;
    accepted(to.end.receive_unit(&from.unit[..length], to.inbox, to.unit))?;
    while copied < length - 5 {
        copied += accepted(to.end.receive(to.inbox, buffer))?.copied as usize;
    }
    *place += 1;
    if *place == window {
        *place = 0;
        let made = accepted(to.end.send_pacing_response(to.unit))?;
        accepted(from.end.receive_unit(&to.unit[..made.unit as usize], from.inbox, from.unit))?;
    }
    Ok(copied)
}

fn run(max: u32, window: u8, records: usize, record: &[u8], lent: &mut [Buffers; 2], buffer: &mut [u8]) -> Result<usize, u32> {
    let [one, two] = lent;
    let mut from = host(0, window, max, one)?;
    let mut to = host(1, window, max, two)?;
    let mut carried = 0;
    let mut place = 0;
    accepted(from.end.allocate(from.unit))?;
    for _ in 0..records {
        for piece in record.chunks(max as usize) {
            let made = accepted(from.end.send_data(piece, from.send, from.unit))?;
            if made.unit > 0 {
                carried += carry(&mut from, &mut to, made.unit as usize, buffer, window, &mut place)?;
            }
        }
    }
    let made = accepted(from.end.deallocate(false, from.send, from.unit))?;
    Ok(carried + carry(&mut from, &mut to, made.unit as usize, buffer, window, &mut place)?)
}

fn main() -> ExitCode {
    let numbers: Vec<usize> = env::args().skip(1).filter_map(|text| text.parse().ok()).collect();
    let [max, window, records, rounds] = numbers[..] else {
        eprintln!("usage: plain M W RECORDS ROUNDS");
        return ExitCode::from(2);
    };
    let mut record: Vec<u8> = (0..RECORD).map(|i| (i * 7) as u8).collect();
    record[..2].copy_from_slice(&(RECORD as u16).to_be_bytes());
    let mut lent = [(); 2].map(|()| Buffers::new(window as u8, max as u32));
    let mut buffer = vec![0; RECORD];
    let mut best = f64::INFINITY;
    for _ in 0..rounds {
        let start = Instant::now();
        let carried = run(max as u32, window as u8, records, &record, &mut lent, &mut buffer);
        best = best.min(start.elapsed().as_secs_f64());
        let last = max.min(RECORD);
        if carried != Ok(records * RECORD) || buffer[..last] != record[RECORD - last..] {
            eprintln!("plain: what was read is not what was given: {carried:?}");
            return ExitCode::FAILURE;
        }
    }
    println!("{} {best:.9}", records * RECORD);
    ExitCode::SUCCESS
}
