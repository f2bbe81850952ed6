//! Two ends of a link over a socket on loopback. Both send their banner, which
//! chooses the revision; then one sends frames, and the other acknowledges
//! each message. Everything is cut at random on its way, one frame is aborted
//! by its sender, and the last one is damaged. Segment 1 of a longer frame is
//! reported before the rest of it came.
//!
//! The exit status says whether everything came as it should.

use mahuixen::{abort_frame, build_banner, build_frame};
use mahuixen::{tag, Features, Header, Receiver, Refusal, Report, Revision, Segment};
use mahuixen::{LONGEST_FRAME, STORE_LIMIT};
use std::error::Error;
use std::io::{Read, Write};
use std::net::{Ipv4Addr, TcpListener, TcpStream};
use std::process::ExitCode;
use std::thread;

type Outcome<T> = Result<T, Box<dyn Error + Send + Sync>>;

const OWN: Features = Features::new(Features::REVISION_1, 0);

/// Numbers that look random and are the same in every run (xorshift).
struct Cuts(u64);

impl Cuts {
    /// A number from 0 to `most`.
    fn up_to(&mut self, most: usize) -> usize {
        self.0 ^= self.0 << 13;
        self.0 ^= self.0 >> 7;
        self.0 ^= self.0 << 17;
        (self.0 % (most as u64 + 1)) as usize
    }
}

/// One end: its socket, what it sends from and what it receives into.
struct End {
    name: &'static str,
    socket: TcpStream,
    cuts: Cuts,
    send: Vec<u8>,
    receiver: Receiver,
    store: Vec<u8>,
    /// Bytes that came and were not yet taken.
    unread: Vec<u8>,
    said: Vec<String>,
}

impl End {
    fn new(name: &'static str, socket: TcpStream, seed: u64) -> Outcome<Self> {
        socket.set_nodelay(true)?;
        Ok(Self {
            name,
            socket,
            cuts: Cuts(seed),
            send: vec![0; LONGEST_FRAME],
            receiver: Receiver::start(OWN)?,
            store: vec![0; STORE_LIMIT],
            unread: Vec::new(),
            said: Vec::new(),
        })
    }

    fn say(&mut self, line: String) {
        self.said.push(format!("{}: {line}", self.name));
    }

    /// Sends the first bytes of the send buffer, in pieces.
    fn send(&mut self, length: usize) -> Outcome<()> {
        let mut sent = 0;
        while sent < length {
            let piece = 1 + self.cuts.up_to((length - sent - 1).min(5_000));
            self.socket.write_all(&self.send[sent..sent + piece])?;
            sent += piece;
        }
        Ok(())
    }

    fn send_banner(&mut self) -> Outcome<()> {
        let length = build_banner(&mut self.send, 0, OWN)?;
        self.send(length)
    }

    /// The next report, or none where the other end has closed the link.
    fn next(&mut self) -> Outcome<Option<Report>> {
        loop {
            // Now and then the receiver is offered nothing at all.
            let offered = self.cuts.up_to(self.unread.len());
            let received = self
                .receiver
                .receive(&self.unread[..offered], &mut self.store);
            self.unread.drain(..received.taken);
            if received.report != Report::More {
                self.say(received.report.to_string());
                return Ok(Some(received.report));
            }
            if self.unread.is_empty() && !self.read()? {
                return Ok(None);
            }
        }
    }

    /// Reads some bytes; false where there are no more.
    fn read(&mut self) -> Outcome<bool> {
        let mut bytes = [0; 4_000];
        let most = 1 + self.cuts.up_to(bytes.len() - 1);
        let length = self.socket.read(&mut bytes[..most])?;
        self.unread.extend(&bytes[..length]);
        Ok(length > 0)
    }

    /// Waits for the other end's banner.
    fn revision(&mut self) -> Outcome<Revision> {
        match self.next()? {
            Some(Report::Banner { revision, .. }) => Ok(revision),
            other => Err(format!("{}: no banner but {other:?}", self.name).into()),
        }
    }
}

/// What happens to a frame before it arrives.
#[derive(Clone, Copy, PartialEq, Eq)]
enum Fate {
    Whole,
    Aborted,
    /// A bit of its second segment is flipped.
    Damaged,
}

/// A frame to send; byte n of its segments is n.
struct Parcel {
    header: Header,
    fate: Fate,
}

fn parcel(tag: u8, fate: Fate, lengths: &[u32]) -> Parcel {
    let segments: Vec<Segment> = lengths.iter().map(|len| Segment::new(*len, 8)).collect();
    let header = Header::new(tag, &segments);
    Parcel { header, fate }
}

impl Parcel {
    fn source(&self) -> Vec<u8> {
        (0..self.header.total()).map(|place| place as u8).collect()
    }

    fn send(&self, end: &mut End, revision: Revision) -> Outcome<()> {
        let build = if self.fate == Fate::Aborted {
            abort_frame
        } else {
            build_frame
        };
        let length = build(&mut end.send, 0, revision, &self.header, &self.source())?;
        if self.fate == Fate::Damaged {
            let second = 32 + self.header.segments[0].len as usize + 4;
            end.send[second] ^= 0x10;
        }
        end.send(length)
    }

    /// Whether segment 1 is reported by itself, as msgr2.1 does where it is not
    /// empty and others follow.
    fn is_reported_early(&self) -> bool {
        self.header.segments[0].len > 0 && self.header.count > 1
    }

    /// What the other end must report, and have in its store.
    fn due(&self) -> (Report, Vec<u8>) {
        let zeros = vec![0; self.source().len()];
        match self.fate {
            Fate::Whole => (Report::Frame(self.header), self.source()),
            Fate::Aborted => (Report::Dropped(self.header), zeros),
            Fate::Damaged => {
                let refusal = Refusal::SegmentChecksum { segment: 2 };
                (Report::Refused(refusal), zeros)
            }
        }
    }
}

fn parcels() -> Vec<Parcel> {
    vec![
        parcel(tag::HELLO, Fate::Whole, &[36]),
        parcel(tag::MESSAGE, Fate::Whole, &[20, 70, 0, 350]),
        parcel(tag::KEEPALIVE2, Fate::Whole, &[0]),
        parcel(tag::MESSAGE, Fate::Aborted, &[41, 217, 5_000]),
        parcel(tag::MESSAGE, Fate::Whole, &[16_384, 16_384]),
        parcel(tag::MESSAGE, Fate::Damaged, &[41, 217]),
    ]
}

/// Sends the parcels; answers how many messages were acknowledged.
fn sender(mut end: End) -> Outcome<(usize, Vec<String>)> {
    end.send_banner()?;
    let revision = end.revision()?;
    for parcel in parcels() {
        parcel.send(&mut end, revision)?;
    }
    let mut acknowledged = 0;
    while let Some(report) = end.next()? {
        acknowledged += usize::from(matches!(report, Report::Frame(h) if h.tag == tag::ACK));
    }
    Ok((acknowledged, end.said))
}

/// Receives until the link is refused or ends, and acknowledges messages;
/// answers whether each report was the one due.
fn receiver(mut end: End) -> Outcome<(bool, Vec<String>)> {
    end.send_banner()?;
    let revision = end.revision()?;
    let ack = parcel(tag::ACK, Fate::Whole, &[8]);
    let mut good = true;
    for parcel in parcels() {
        if parcel.is_reported_early() {
            good &= end.next()? == Some(Report::First(parcel.header));
            let first = parcel.header.first_segment_in(&end.store);
            good &= first == parcel.header.first_segment_in(&parcel.source());
        }
        let (due, segments) = parcel.due();
        good &= end.next()? == Some(due) && end.store.starts_with(&segments);
        if parcel.fate == Fate::Whole && parcel.header.tag == tag::MESSAGE {
            ack.send(&mut end, revision)?;
        }
    }
    // A refused stream stays refused.
    good &= matches!(end.next()?, Some(Report::Refused(_)));
    Ok((good, end.said))
}

fn run() -> Outcome<bool> {
    let listener = TcpListener::bind((Ipv4Addr::LOCALHOST, 0))?;
    let socket = TcpStream::connect(listener.local_addr()?)?;
    let near = End::new("sender", socket, 0x1234_5678)?;
    let (socket, _) = listener.accept()?;
    let far = End::new("receiver", socket, 0x9876_5432)?;
    let receiving = thread::spawn(move || receiver(far));
    let (acknowledged, said) = sender(near)?;
    let (good, heard) = receiving.join().expect("a thread that ends")?;
    said.iter()
        .chain(&heard)
        .for_each(|line| println!("{line}"));
    Ok(good && acknowledged == 2)
}

fn main() -> ExitCode {
    match run() {
        Ok(true) => {
            println!("everything came as it should");
            ExitCode::SUCCESS
        }
        Ok(false) => {
            println!("something came that should not, or did not come");
            ExitCode::FAILURE
        }
        Err(error) => {
            eprintln!("two_ends: {error}");
            ExitCode::FAILURE
        }
    }
}
