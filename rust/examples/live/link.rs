//! One connection: its socket, what is sent from and what is received into.

use crate::layouts::SIGNATURE;
use crate::Outcome;
use mahuixen::{build_banner, build_frame, write_body, Body, Effect};
use mahuixen::{
    Features, Handshake, Header, Receiver, Report, Revision, Segment, Session, Verdict,
};
use mahuixen::{LONGEST_FRAME, STORE_LIMIT};
use std::io::{ErrorKind, Read, Write};
use std::net::{Ipv4Addr, Shutdown, TcpStream};
use std::time::Duration;

/// A frame that came, its segments, and what it did to the session.
pub struct Frame {
    pub header: Header,
    pub segments: [Vec<u8>; 4],
    pub effect: Effect,
}

pub struct Link {
    socket: TcpStream,
    receiver: Receiver,
    revision: Revision,
    handshake: Handshake,
    store: Vec<u8>,
    /// Bytes that came and were not yet taken.
    unread: Vec<u8>,
    send: Vec<u8>,
}

impl Link {
    /// Connects to a port on loopback, sends our banner and waits for the peer's.
    pub fn open(port: u16, own: Features, session: &mut Session) -> Outcome<Self> {
        let socket = TcpStream::connect((Ipv4Addr::LOCALHOST, port))?;
        socket.set_nodelay(true)?;
        socket.set_read_timeout(Some(Duration::from_secs(10)))?;
        let mut link = Self {
            socket,
            receiver: Receiver::start(own)?,
            revision: Revision::Msgr20,
            handshake: Handshake::Hello,
            store: vec![0; STORE_LIMIT],
            unread: Vec::new(),
            send: vec![0; LONGEST_FRAME],
        };
        let length = build_banner(&mut link.send, 0, own)?;
        link.socket.write_all(&link.send[..length])?;
        println!("  sent banner, {own}");
        let (report, _) = link.report(session)?;
        let Report::Banner { revision, .. } = report else {
            return Err(format!("no banner came: {report}").into());
        };
        println!("  got {report}");
        link.revision = revision;
        Ok(link)
    }

    /// The next report but for more bytes, and what it did to the session.
    fn report(&mut self, session: &mut Session) -> Outcome<(Report, Effect)> {
        loop {
            let (received, effect) = self
                .receiver
                .deliver(session, &self.unread, &mut self.store);
            self.unread.drain(..received.taken);
            if received.report != Report::More {
                return Ok((received.report, effect));
            }
            let mut bytes = [0; 4_096];
            let length = self.socket.read(&mut bytes)?;
            if length == 0 {
                return Err("the monitor closed the connection".into());
            }
            self.unread.extend(&bytes[..length]);
        }
    }

    /// The next frame, which is a step of the handshake.
    pub fn next(&mut self, session: &mut Session) -> Outcome<Frame> {
        loop {
            let (report, effect) = self.report(session)?;
            match report {
                Report::First(_) => {}
                Report::Frame(header) => return self.step(header, effect),
                other => return Err(other.to_string().into()),
            }
        }
    }

    fn step(&mut self, header: Header, effect: Effect) -> Outcome<Frame> {
        let segments = header.segments_in(&self.store);
        let segments = segments
            .ok_or("the store is too short")?
            .map(<[u8]>::to_vec);
        let verdict = Verdict {
            signature: segments[0] == SIGNATURE,
            ..Verdict::default()
        };
        self.handshake = self.handshake.client_step(header.tag, &verdict)?;
        Ok(Frame {
            header,
            segments,
            effect,
        })
    }

    /// Whether messages may be sent.
    pub fn is_ready(&self) -> bool {
        self.handshake == Handshake::Ready
    }

    /// Builds a frame at the front of the send buffer, and answers its length.
    fn build(&mut self, tag: u8, segments: &[&[u8]]) -> Outcome<usize> {
        let used = segments.iter().map(|s| Segment::new(s.len() as u32, 8));
        let header = Header::new(tag, &used.collect::<Vec<_>>());
        let source = segments.concat();
        Ok(build_frame(
            &mut self.send,
            0,
            self.revision,
            &header,
            &source,
        )?)
    }

    pub fn send(&mut self, tag: u8, segments: &[&[u8]]) -> Outcome<()> {
        let length = self.build(tag, segments)?;
        self.socket.write_all(&self.send[..length])?;
        Ok(())
    }

    /// Sends a control frame with this body.
    pub fn send_body(&mut self, tag: u8, body: &Body<'_, &[u32]>) -> Outcome<()> {
        let mut segment = [0; 1_000];
        let length = write_body(&mut segment, tag, body)?;
        self.send(tag, &[&segment[..length]])
    }

    /// Sends the first half of a frame, and then the connection is lost: what the
    /// peer still sends is not looked at.
    pub fn cut(mut self, tag: u8, segments: &[&[u8]]) -> Outcome<()> {
        let length = self.build(tag, segments)?;
        self.socket.write_all(&self.send[..length / 2])?;
        self.socket.shutdown(Shutdown::Write)?;
        let mut lost = [0; 4_096];
        loop {
            match self.socket.read(&mut lost) {
                Ok(0) => return Ok(()),
                Ok(_) => {}
                Err(error) if error.kind() == ErrorKind::ConnectionReset => return Ok(()),
                Err(error) => return Err(error.into()),
            }
        }
    }
}
