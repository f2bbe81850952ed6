//! A session with the monitor, over one connection after the other.

mod handshake;

use crate::layouts;
use crate::link::{Frame, Link};
use crate::Outcome;
use mahuixen::{read_body, tag, tag_text, Body, Effect, Features, Message, Session};
use std::process;
use std::time::{SystemTime, UNIX_EPOCH};

/// How many questions are sent before the connection is cut; of the last only half
/// goes out.
const CUT: u64 = 3;

/// What a handle stands for: a question about a map, whether an answer is due, and
/// how many came.
struct Question {
    map: &'static str,
    is_due: bool,
    answers: u64,
}

/// How many messages were acknowledged, each way, and how many dropped.
#[derive(Default)]
struct Released {
    by_ack: usize,
    by_reconnect: usize,
    by_header: usize,
    dropped: usize,
}

pub struct Desk {
    port: u16,
    own: Features,
    /// Tells our address from that of other runs.
    nonce: u32,
    session: Session,
    /// The last of the monitor's messages that came.
    came: u64,
    /// The two sides' cookies; the monitor's is 0 before there is a session.
    client: u64,
    server: u64,
    /// Goes up with every connection, and with every reconnect.
    global: u64,
    connect: u64,
    /// All that was sent, each at its handle.
    questions: Vec<Question>,
    released: Released,
}

impl Desk {
    pub fn new(port: u16, own: Features) -> Self {
        let nonce = process::id();
        Self {
            port,
            own,
            nonce,
            session: Session::start(),
            came: 0,
            client: u64::from(nonce) << 8 | own.supported << 4 | 1,
            server: 0,
            global: 0,
            connect: 0,
            questions: Vec::new(),
            released: Released::default(),
        }
    }

    /// Some messages on each connection, and on all but the last one some that are
    /// held when it is cut. On the last the monitor is told another cookie, as by a
    /// desk that has lost its own: it resets the session.
    pub fn run(mut self, cuts: u64) -> Outcome<()> {
        for connection in 1..=cuts + 2 {
            println!("connection {connection}");
            if connection == cuts + 2 {
                self.client += 1;
            }
            let mut link = self.connect()?;
            self.keep_alive(&mut link)?;
            for map in [layouts::UNKNOWN, layouts::KNOWN, layouts::KNOWN] {
                self.ask(&mut link, map)?;
                self.settle(&mut link)?;
            }
            if connection < cuts + 2 {
                self.cut(link)?;
            }
        }
        self.add_up()
    }

    /// Every message is acknowledged or dropped.
    fn add_up(&self) -> Outcome<()> {
        let sent = self.questions.len();
        let Released {
            by_ack,
            by_reconnect,
            by_header,
            dropped,
        } = self.released;
        let acknowledged = by_ack + by_reconnect + by_header;
        println!(
            "{sent} messages: {acknowledged} acknowledged, {dropped} dropped; {}",
            self.held()?
        );
        println!("acknowledged by ack {by_ack}, by reconnect ok {by_reconnect}, by a message's header {by_header}");
        if sent == acknowledged + dropped {
            return Ok(());
        }
        Err("a message is missing".into())
    }

    fn count(&self) -> Outcome<usize> {
        let mut count = 0;
        while self.session.held(count)?.is_some() {
            count += 1;
        }
        Ok(count)
    }

    /// What is held, in words.
    fn held(&self) -> Outcome<String> {
        let last = self.count()?.checked_sub(1);
        let last = last.map_or(Ok(None), |place| self.session.held(place))?;
        Ok(match (self.session.held(0)?, last) {
            (Some(first), Some(last)) if first == last => format!("{} is held", first.number),
            (Some(first), Some(last)) => format!("{} to {} are held", first.number, last.number),
            _ => "nothing is held".to_string(),
        })
    }

    /// The next frame. One that speaks to the session has already done so.
    fn next(&mut self, link: &mut Link) -> Outcome<Frame> {
        let before = self.count()?;
        let frame = link.next(&mut self.session)?;
        let gone = before - self.count()?;
        match frame.header.tag {
            tag::ACK => self.released.by_ack += gone,
            tag::SESSION_RECONNECT_OK => self.released.by_reconnect += gone,
            tag::SESSION_RESET => self.released.dropped += gone,
            _ => {}
        }
        match frame.effect {
            Effect::Refused(refusal) | Effect::Malformed(refusal) => Err(refusal.into()),
            _ => Ok(frame),
        }
    }

    /// Takes a frame of a session that is under way.
    fn take(&mut self, link: &mut Link) -> Outcome<Frame> {
        let frame = self.next(link)?;
        let tag = frame.header.tag;
        if tag == tag::MESSAGE {
            self.message(link, &frame)?;
            return Ok(frame);
        }
        let body = read_body(tag, &frame.segments[0])?;
        match body {
            Body::Number(number) => println!("  got ack {number}; {}", self.held()?),
            Body::Stamp(stamp) if tag == tag::KEEPALIVE2 => {
                link.send_body(tag::KEEPALIVE2_ACK, &Body::Stamp(stamp))?;
                println!("  got keepalive2, and answered it");
            }
            _ => println!("  got {}", tag_text(tag).unwrap_or("a frame")),
        }
        Ok(frame)
    }

    /// A message came: its header says what the monitor has of ours, and it is
    /// acknowledged, once.
    fn message(&mut self, link: &mut Link, frame: &Frame) -> Outcome<()> {
        let [header, front, ..] = &frame.segments;
        let message = layouts::message(header, front).ok_or("a message without its header")?;
        let before = self.count()?;
        self.session.ack(message.acknowledged)?;
        self.released.by_header += before - self.count()?;
        println!(
            "  got message {}, ack_seq {}; {}",
            message.number,
            message.acknowledged,
            self.held()?
        );
        if message.number <= self.came {
            return Ok(());
        }
        if message.number != self.came + 1 {
            return Err(format!("message {} came behind {}", message.number, self.came).into());
        }
        self.came = message.number;
        link.send_body(tag::ACK, &Body::Number(self.came))?;
        if message.kind == layouts::VERSION {
            let question = self.questions.get_mut(message.handle as usize);
            question.ok_or("an answer to no question")?.answers += 1;
        }
        Ok(())
    }

    /// A keepalive, which comes back with its stamp.
    fn keep_alive(&mut self, link: &mut Link) -> Outcome<()> {
        let now = SystemTime::now().duration_since(UNIX_EPOCH)?;
        let (seconds, nanoseconds) = (now.as_secs() as u32, now.subsec_nanos());
        let stamp = [seconds, nanoseconds].map(u32::to_le_bytes).concat();
        link.send_body(tag::KEEPALIVE2, &Body::Stamp(&stamp))?;
        println!("  sent keepalive2, stamp {seconds}.{nanoseconds:09}");
        let mut frame = self.take(link)?;
        while frame.header.tag != tag::KEEPALIVE2_ACK {
            frame = self.take(link)?;
        }
        if frame.segments[0] == stamp {
            return Ok(());
        }
        Err("a keepalive2 ack with another stamp".into())
    }

    /// A question is to be sent, and held from now on: its number and handle.
    fn accept(&mut self, map: &'static str) -> Outcome<Message> {
        let handle = self.questions.len() as u64;
        let number = self.session.accept(handle)?;
        self.questions.push(Question {
            map,
            is_due: map == layouts::KNOWN,
            answers: 0,
        });
        Ok(Message { number, handle })
    }

    /// The two segments of a question that is held.
    fn segments(&self, message: Message) -> [Vec<u8>; 2] {
        let map = self.questions[message.handle as usize].map;
        let header = layouts::header(message.number, self.came);
        [header, layouts::question(message.handle, map)]
    }

    fn send(&mut self, link: &mut Link, message: Message) -> Outcome<()> {
        let [header, front] = self.segments(message);
        link.send(tag::MESSAGE, &[&header, &front])
    }

    fn ask(&mut self, link: &mut Link, map: &'static str) -> Outcome<()> {
        let message = self.accept(map)?;
        self.send(link, message)?;
        println!("  sent message {}; {}", message.number, self.held()?);
        Ok(())
    }

    fn send_again(&mut self, link: &mut Link) -> Outcome<()> {
        for place in 0..self.count()? {
            if let Some(message) = self.session.held(place)? {
                self.send(link, message)?;
                println!("  sent message {} again", message.number);
            }
        }
        Ok(())
    }

    /// Waits until nothing is held and every answer that is due came, once.
    fn settle(&mut self, link: &mut Link) -> Outcome<()> {
        let is_open = |q: &Question| q.is_due && q.answers == 0;
        while self.count()? > 0 || self.questions.iter().any(is_open) {
            self.take(link)?;
        }
        let is_over = |q: &Question| q.answers == u64::from(q.is_due);
        if self.questions.iter().all(is_over) {
            return Ok(());
        }
        Err("a question was answered twice".into())
    }

    /// Sends some questions, of the last one only half, and cuts the connection.
    fn cut(&mut self, mut link: Link) -> Outcome<()> {
        for _ in 1..CUT {
            self.ask(&mut link, layouts::KNOWN)?;
        }
        let message = self.accept(layouts::KNOWN)?;
        let [header, front] = self.segments(message);
        link.cut(tag::MESSAGE, &[&header, &front])?;
        let number = message.number;
        println!(
            "  sent half of message {number}, and the connection is cut; {}",
            self.held()?
        );
        Ok(())
    }
}
