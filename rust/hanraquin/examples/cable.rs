//! Both ends of a cable, each in a thread of its own: the centre, with high priority, and the radio,
//! with low. They open together, a block is damaged, an opening byte is lost, and the cable is cut.
//!
//!     cargo run --offline -p hanraquin --example cable
//!
//! What is printed does not depend on how fast the computer is, and no end goes on past a deadline.

use hanraquin::{
    Answer, DATA_MAX, DLE, Event, FRAME_MAX, Phase, Priority, Receiver, Sender, Sending,
};
use std::error::Error;
use std::fmt::Write as _;
use std::io::{ErrorKind, Read, Write as _};
use std::os::unix::net::UnixStream;
use std::thread;
use std::time::{Duration, Instant};

const CONNECTIONS: u64 = 2;
const BLOCKS: u64 = 2;

/// How long the timer runs. It is long, so that no slow computer is taken for a silent end.
const TIMER: Duration = Duration::from_secs(10);
/// How long it runs where the line has lost all that was sent, so that nothing can come.
const TIMER_FOR_NOTHING: Duration = Duration::from_millis(30);
/// How long a case may take.
const DEADLINE: Duration = Duration::from_secs(20);

type Failure = Box<dyn Error + Send + Sync>;

fn main() -> Result<(), Failure> {
    print!("{}", cable()?);
    Ok(())
}

/// The text that is printed.
fn cable() -> Result<String, Failure> {
    let (request, reply) = (&[0x60, 0x10][..], &[0xE0, 0x05][..]);
    let mut text = String::new();

    writeln!(text, "both ends open together, and the radio yields")?;
    let centre = Part::new().sends(request).awaits(1);
    let radio = Part::new().sends(reply).awaits(1);
    play(&mut text, centre, radio)?;

    // The second 10 is no answer to the block, which is damaged; the centre must not feed it.
    writeln!(
        text,
        "the first block is damaged, and the 10 before it comes twice"
    )?;
    let centre = Part::new().sends(request).over(Fault::Damages(1));
    let radio = Part::new().awaits(1).over(Fault::Doubles(0));
    play(&mut text, centre, radio)?;

    writeln!(text, "the first opening byte is lost")?;
    let centre = Part::new().sends(request).over(Fault::Loses(0));
    play(&mut text, centre, Part::new().awaits(1))?;

    writeln!(text, "the cable is cut")?;
    let centre = Part::new().sends(request).over(Fault::Cut);
    play(&mut text, centre, Part::new())?;
    Ok(text)
}

/// What an end has to do in a case.
#[derive(Clone, Copy)]
struct Part {
    /// The data that it sends.
    sends: Option<&'static [u8]>,
    /// How many messages have to come.
    awaits: usize,
    /// What is wrong with the line on which it sends.
    fault: Fault,
}

impl Part {
    fn new() -> Part {
        Part {
            sends: None,
            awaits: 0,
            fault: Fault::None,
        }
    }

    fn sends(mut self, data: &'static [u8]) -> Part {
        self.sends = Some(data);
        self
    }

    fn awaits(mut self, messages: usize) -> Part {
        self.awaits = messages;
        self
    }

    fn over(mut self, fault: Fault) -> Part {
        self.fault = fault;
        self
    }
}

/// Plays a case over a pair of sockets.
fn play(text: &mut String, centre: Part, radio: Part) -> Result<(), Failure> {
    let (at_centre, at_radio) = UnixStream::pair()?;
    let deadline = Instant::now() + DEADLINE;
    let mut ends = [
        End::new("centre", Priority::High, centre, &at_centre, deadline)?,
        End::new("radio", Priority::Low, radio, &at_radio, deadline)?,
    ];
    // Whoever sends anything opens before anybody hears anything.
    for end in &mut ends {
        if end.part.sends.is_some() {
            end.send(None)?;
        }
    }
    let ended = thread::scope(|scope| {
        let threads = ends.map(|end| scope.spawn(|| end.run()));
        threads.map(|thread| thread.join())
    });
    for said in ended {
        text.push_str(&said.map_err(|_| "an end panicked")??);
    }
    Ok(())
}

/// One end of the cable.
struct End<'a> {
    name: &'static str,
    part: Part,
    line: Line<'a>,
    sender: Sender,
    receiver: Receiver,
    /// For the sender and the receiver: no block comes to both.
    buffer: [u8; DATA_MAX],
    messages: usize,
    /// A line for every event, but for those inside a block, of which nothing comes.
    text: String,
}

impl<'a> End<'a> {
    fn new(
        name: &'static str,
        priority: Priority,
        part: Part,
        stream: &'a UnixStream,
        deadline: Instant,
    ) -> Result<End<'a>, Failure> {
        Ok(End {
            name,
            part,
            line: Line::new(stream, part.fault, deadline)?,
            sender: Sender::new(CONNECTIONS, BLOCKS, priority),
            receiver: Receiver::new(),
            buffer: [0; DATA_MAX],
            messages: 0,
            text: String::new(),
        })
    }

    /// Goes on until all is sent, or is given up, and all messages have come. Gives the text.
    fn run(mut self) -> Result<String, Failure> {
        while self.sender.is_under_way() || self.messages < self.part.awaits {
            if self.sender.is_under_way() {
                let event = self.line.wait(true)?;
                self.send(Some(event))?;
            } else {
                let event = self.line.wait(!self.receiver.is_at_rest())?;
                self.receive(event)?;
            }
        }
        if self.part.sends.is_some() {
            let (connections, blocks) = (
                self.sender.failed_connections(),
                self.sender.failed_blocks(),
            );
            writeln!(
                self.text,
                "{:7} {connections} of {CONNECTIONS} connections failed, {blocks} of {BLOCKS} blocks failed",
                self.name
            )?;
        }
        Ok(self.text)
    }

    /// Tells the sender an event, or that it has to start, and does what it says.
    fn send(&mut self, event: Option<Event>) -> Result<(), Failure> {
        let (data, before) = (self.part.sends.unwrap_or_default(), self.sender.phase());
        let (buffer, mut out) = (&mut self.buffer, [0; FRAME_MAX]);
        let Sending { bytes, message } = match event {
            None => self.sender.start(data, buffer, &mut out),
            Some(Event::Byte(byte)) => self.sender.byte(byte, data, buffer, &mut out),
            Some(Event::Timer) => self.sender.timer(data, buffer, &mut out),
        }?;
        // A block. The line takes it at once, so what comes while it is going out is there by now.
        let dropped = if bytes.len() > 2 {
            self.line.drop_what_came()?
        } else {
            vec![]
        };
        self.line.send(bytes)?;
        self.messages += usize::from(message.is_some());
        if before == Phase::Receiving && bytes.is_empty() {
            return Ok(());
        }

        let mut says = said(event, bytes, message.as_deref());
        match (before, self.sender.phase()) {
            (Phase::Opening, Phase::Receiving) => says += ", yields",
            (_, Phase::Sent) => says += ", sent",
            (_, Phase::GaveUp) => says += ", gave up",
            _ => {}
        }
        if !dropped.is_empty() {
            says += &format!(", drops{}", hex(&dropped));
        }
        writeln!(self.text, "{:7} {says}", self.name)?;
        Ok(())
    }

    /// Tells the receiver an event, and does what it says.
    fn receive(&mut self, event: Event) -> Result<(), Failure> {
        let (bytes, message) = match self.receiver.event(event, &mut self.buffer)? {
            Answer::Nothing => return Ok(()),
            Answer::Send(byte) => ([byte], None),
            Answer::Message(message) => ([DLE], Some(message)),
        };
        self.line.send(&bytes)?;
        self.messages += usize::from(message.is_some());
        let says = said(Some(event), &bytes, message.as_deref());
        writeln!(self.text, "{:7} {says}", self.name)?;
        Ok(())
    }
}

/// What is wrong with a line, for the bytes that go out on it. They are counted from 0.
#[derive(Clone, Copy)]
enum Fault {
    None,
    /// A bit of this byte is turned over.
    Damages(usize),
    /// This byte comes twice.
    Doubles(usize),
    /// This byte does not come.
    Loses(usize),
    /// No byte comes.
    Cut,
}

/// A line to the other end.
struct Line<'a> {
    stream: &'a UnixStream,
    fault: Fault,
    deadline: Instant,
    /// How many bytes went out.
    count: usize,
    /// Whether the last of them was lost.
    lost: bool,
}

impl<'a> Line<'a> {
    fn new(stream: &'a UnixStream, fault: Fault, deadline: Instant) -> Result<Line<'a>, Failure> {
        stream.set_write_timeout(Some(DEADLINE))?;
        Ok(Line {
            stream,
            fault,
            deadline,
            count: 0,
            lost: false,
        })
    }

    fn send(&mut self, bytes: &[u8]) -> Result<(), Failure> {
        let mut coming = vec![];
        for &byte in bytes {
            let before = coming.len();
            match self.fault {
                Fault::Damages(place) if place == self.count => coming.push(byte ^ 0x01),
                Fault::Doubles(place) if place == self.count => coming.extend([byte, byte]),
                Fault::Loses(place) if place == self.count => {}
                Fault::Cut => {}
                _ => coming.push(byte),
            }
            self.lost = coming.len() == before;
            self.count += 1;
        }
        self.stream.write_all(&coming)?;
        Ok(())
    }

    /// Waits for a byte, and for the timer too if that runs.
    fn wait(&mut self, timer: bool) -> Result<Event, Failure> {
        let runs_for = if self.lost { TIMER_FOR_NOTHING } else { TIMER };
        loop {
            let left = self.deadline.saturating_duration_since(Instant::now());
            if left.is_zero() {
                return Err("the deadline is over".into());
            }
            let most = if timer { runs_for.min(left) } else { left };
            self.stream.set_read_timeout(Some(most))?;
            let mut byte = [0];
            match self.stream.read(&mut byte) {
                Ok(0) => return Err("the other end is gone".into()),
                Ok(_) => return Ok(Event::Byte(byte[0])),
                Err(error) => match error.kind() {
                    ErrorKind::WouldBlock | ErrorKind::TimedOut if timer => {
                        return Ok(Event::Timer);
                    }
                    ErrorKind::WouldBlock | ErrorKind::TimedOut | ErrorKind::Interrupted => {}
                    _ => return Err(error.into()),
                },
            }
        }
    }

    /// Takes all that is there, without waiting, and gives it.
    fn drop_what_came(&mut self) -> Result<Vec<u8>, Failure> {
        let mut came = vec![];
        self.stream.set_nonblocking(true)?;
        // All there is, and then an error: nothing more is there.
        let ended = self.stream.read_to_end(&mut came);
        self.stream.set_nonblocking(false)?;
        match ended {
            Err(error) if error.kind() == ErrorKind::WouldBlock => Ok(came),
            Err(error) => Err(error.into()),
            Ok(_) => Err("the other end is gone".into()),
        }
    }
}

/// What is said of an event, or of the start, of the bytes that are sent, and of a message.
fn said(event: Option<Event>, bytes: &[u8], message: Option<&[u8]>) -> String {
    let mut says = match event {
        None => "start: ".into(),
        Some(Event::Byte(byte)) => format!("fed {byte:02X}: "),
        Some(Event::Timer) => "timer: ".into(),
    };
    says += &match bytes {
        [] => "nothing".into(),
        bytes => format!("sends{}", hex(bytes)),
    };
    if let Some(message) = message {
        let mark = if message.is_empty() { "" } else { ":" };
        says += &format!(", message of {}{mark}{}", message.len(), hex(message));
    }
    says
}

fn hex(bytes: &[u8]) -> String {
    bytes.iter().map(|byte| format!(" {byte:02X}")).collect()
}

#[test]
fn prints_what_is_expected() {
    assert_eq!(cable().expect("no error"), include_str!("cable.expected"));
}

#[test]
fn ends_by_the_deadline() {
    let (here, _there) = UnixStream::pair().expect("a pair");
    let before = Instant::now();
    let deadline = before + Duration::from_millis(50);
    let mut line = Line::new(&here, Fault::None, deadline).expect("a line");
    assert!(line.wait(false).is_err());
    assert!(before.elapsed() >= Duration::from_millis(50));
    // With a timer, too.
    assert!(line.wait(true).is_err());
}
