//! What is measured. A row is one entry of [`rows`]: its words, and the call that is made.

use compare::call::Call;
use compare::calls::frame::{frame, Frame};
use compare::calls::gate::operate::operate;
use compare::calls::gate::receive::{receive, GateReceive, WORDS};
use compare::calls::gate::write::{write, GateWrite};
use compare::calls::send::{fresh, send, LinkSend, LOW};
use compare::calls::{dry_run, read_reply::heard, receive::Receive, station, write_request::WriteRequest};
use compare::inputs::Random;
use compare::lent::Lent;
use hanraquin::sys::START;
use hanraquin::{gate, DATA_MAX, DLE, FRAME_MAX, REGISTERS, ROUTE, STX, TELEGRAM};
use std::hint::black_box;

/// One line of the table.
pub struct Row {
    /// The word by which the row is asked for.
    pub key: &'static str,
    pub name: &'static str,
    pub work: Box<dyn Work>,
    /// How many calls are made each time.
    pub calls: usize,
    /// How many bytes of data go through each time, where that is of interest.
    pub bytes: Option<usize>,
}

/// Makes the calls of a row once, always on the same memory, and gives their answers as one sum.
pub trait Work {
    fn library(&mut self) -> u64;
    fn plain(&mut self) -> u64;
    /// Whether library, plain Rust and reference give the same answers and leave the same memory.
    fn agree(&self) -> bool;
}

impl<C: Call> Work for C {
    fn library(&mut self) -> u64 {
        black_box(&mut *self).call(C::LIBRARY)
    }

    fn plain(&mut self) -> u64 {
        black_box(&mut *self).call(C::PLAIN)
    }

    fn agree(&self) -> bool {
        let [library, plain, reference] =
            [C::LIBRARY, C::PLAIN, C::REFERENCE].map(|function| self.outcome(function, 0));
        library == reference && plain == reference
    }
}

/// A call that takes one event, and goes on from the one before.
trait Receiving: Call {
    /// Feeds events to an implementation, on the slices of the call.
    fn feeding(&mut self, function: Self::Function) -> impl FnMut(u32) -> u64;
}

impl Receiving for Receive {
    #[inline(always)]
    fn feeding(&mut self, receive: Self::Function) -> impl FnMut(u32) -> u64 {
        let (state, buffer) = (&mut *self.state, &mut *self.buffer);
        move |event| receive(state, event, buffer)
    }
}

impl Receiving for GateReceive {
    #[inline(always)]
    fn feeding(&mut self, receive: Self::Function) -> impl FnMut(u32) -> u64 {
        let (own, state, store, out) = (self.own, &mut *self.state, &mut *self.store, &mut *self.out);
        move |event| receive(own, state, store, event, out)
    }
}

/// The words of a fresh sender.
const FRESH: [u64; 9] = fresh(3, 3, LOW);

impl Receiving for LinkSend {
    /// The sender is fresh again before the first event.
    #[inline(always)]
    fn feeding(&mut self, send: Self::Function) -> impl FnMut(u32) -> u64 {
        let (state, data, buffer, out) = (&mut *self.state, &*self.data, &mut *self.buffer, &mut *self.out);
        state.copy_from_slice(&FRESH);
        move |event| send(state, event, data, buffer, out)
    }
}

/// Events, fed one by one.
#[derive(Clone)]
struct Fed<C>(C, Vec<u32>);

impl<C: Receiving> Fed<C> {
    #[inline(always)]
    fn feed(&mut self, function: C::Function) -> u64 {
        let mut feed = black_box(&mut self.0).feeding(function);
        self.1.iter().fold(0, |answers: u64, &event| answers.wrapping_add(feed(event)))
    }
}

impl<C: Receiving> Work for Fed<C> {
    fn library(&mut self) -> u64 {
        self.feed(C::LIBRARY)
    }

    fn plain(&mut self) -> u64 {
        self.feed(C::PLAIN)
    }

    fn agree(&self) -> bool {
        let [library, plain, reference] = [C::LIBRARY, C::PLAIN, C::REFERENCE].map(|function| {
            let mut fed = self.clone();
            (fed.feed(function), fed.0)
        });
        library == reference && plain == reference
    }
}

/// A row of one call.
fn row(key: &'static str, name: &'static str, call: impl Call) -> Row {
    Row { key, name, work: Box::new(call), calls: 1, bytes: None }
}

/// A row of a call for each byte of a stream, and for the events before it.
fn fed_row(key: &'static str, name: &'static str, call: impl Receiving, before: &[u32], stream: &[u8]) -> Row {
    let events: Vec<u32> = before.iter().copied().chain(stream.iter().map(|&byte| byte.into())).collect();
    Row { key, name, calls: events.len(), work: Box::new(Fed(call, events)), bytes: Some(stream.len()) }
}

/// All rows, with random data from a seed.
pub fn rows(seed: u64) -> Vec<Row> {
    let random = Random::new(seed).bytes(DATA_MAX);
    let framed = |key, name, data: &[u8]| Row { bytes: Some(data.len()), ..row(key, name, frame(data, FRAME_MAX)) };
    let half = Receive { state: vec![0; 3].into(), event: 0, buffer: Lent::output(DATA_MAX) };
    let sender = send(&FRESH, START, &random, DATA_MAX, FRAME_MAX);
    let sending = fed_row("send", "send, 1 of 3 events, 1,024 random bytes", sender.clone(), &[START], &[DLE, DLE]);
    let handled = |key, name, telegram: Vec<u8>| {
        let mut call = station::call(telegram);
        (call.registers, call.out) = (vec![7; REGISTERS].into(), Lent::output(TELEGRAM));
        row(key, name, call)
    };
    let standard = |block: [u8; 4]| [&[0x60, 0xFF], &block[..], &BODY].concat();
    let route: Vec<u8> = (0..ROUTE).map(|i| (i * 77 % 240) as u8 + 1).collect();
    let fresh = extended(&[&route[..], &[0]].concat());
    let arrived = extended(&[&route[ROUTE - 1..], &[0], &route[..ROUTE - 1]].concat());
    let (relay, destination) = ([0x12, 0x13, 0x55, 0x00], [0x55, 0x00, 0x12, 0x13]);
    let request = WriteRequest {
        route: vec![0x12, 0x13, 0x55].into(),
        read_start: 955,
        read_count: 3,
        write_start: 952,
        values: vec![15, 5].into(),
        out: Lent::output(TELEGRAM),
    };
    let reply = vec![0xE0, 0xFF, 0x00, 0x12, 0x13, 0x55, 0x03, 0xBB, 2, 1, 2, 3, 4];
    let run = dry_run::run(fresh.clone(), route, vec![7; ROUTE * REGISTERS]);
    let sent = write(0x10, 0x00, &random[..gate::DATA_MAX], gate::TELEGRAM_MAX);
    let bus = sent.outcome(GateWrite::REFERENCE, 0).after.out.to_vec();
    let barrier = receive(0x10, &[0; WORDS], 0, gate::DATA_MAX);
    let command = operate(&[0x01, gate::BA, gate::ACTIVATE], 0, 0);
    vec![
        framed("frame-random", "frame, 1,024 random bytes", &random),
        framed("frame-10", "frame, 1,024 bytes of 10", &[0x10; DATA_MAX]),
        fed_row("receive", "receive, one byte of such a frame", half, &[], &stream_of(&random)),
        Row { bytes: Some(DATA_MAX), ..sending },
        fed_row("send-yield", "send, a byte of a yield to such a frame", sender, &[START], &stream_of(&random)),
        handled("relay", "station, relay, 4 entries", standard(relay)),
        handled("relay-32", "station, relay, 32 entries", fresh),
        handled("destination", "station, destination, 4 entries", standard(destination)),
        handled("destination-32", "station, destination, 32 entries", arrived),
        row("request", "write request, 3 stations, 2 values", request),
        row("reply", "read reply, 3 stations, 2 values", heard(reply)),
        row("dry-run", "dry run, 31 stations, 62 transmissions", run),
        Row { bytes: Some(gate::DATA_MAX), ..row("gate-write", "gate write, 253 random bytes", sent) },
        fed_row("gate-receive", "gate receive, a byte of such a telegram", barrier, &[], &bus),
        row("gate-operate", "gate operate, one command", command),
    ]
}

/// A request that reads 955 to 957 and writes 952 and 953.
const BODY: [u8; 10] = [0x03, 0xBB, 3, 0x03, 0xB8, 2, 0x00, 0x0F, 0x00, 0x05];

/// A request with an extended block.
fn extended(block: &[u8]) -> Vec<u8> {
    let front = [0x60, 0xFF, 0xEF, 0xEF, 0xEF, 0xEF, block.len() as u8];
    [&front, block, &BODY].concat()
}

/// STX and the frame of data.
fn stream_of(data: &[u8]) -> Vec<u8> {
    let mut stream = vec![STX; 1 + FRAME_MAX];
    let length = Frame::REFERENCE(data, &mut stream[1..]) as usize;
    stream.truncate(1 + length);
    stream
}
