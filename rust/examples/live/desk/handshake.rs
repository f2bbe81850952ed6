//! A connection's beginning: both greet, the desk authenticates and begins the
//! session or goes on with it.

use super::Desk;
use crate::layouts;
use crate::link::{Frame, Link};
use crate::Outcome;
use mahuixen::{read_body, tag, Body, Effect};

/// The features of messages that we support, those of a program of Ceph 16, and
/// the two that it asks for.
const SUPPORTED: u64 = 0x3f01_cfbd_fffd_ffff;
const REQUIRED: u64 = 0x0800_0000_0000_1000;

impl Desk {
    /// A connection of the session, on which messages may be sent.
    pub(super) fn connect(&mut self) -> Outcome<Link> {
        let mut link = Link::open(self.port, self.own, &mut self.session)?;
        self.greet(&mut link)?;
        self.authenticate(&mut link)?;
        self.global += 1;
        if self.server == 0 {
            self.identify(&mut link)?;
        } else {
            self.resume(&mut link)?;
        }
        if link.is_ready() {
            Ok(link)
        } else {
            Err("the handshake did not come to its end".into())
        }
    }

    /// The next frame, which has to be of this tag.
    fn due(&mut self, link: &mut Link, due: u8) -> Outcome<Frame> {
        let frame = self.next(link)?;
        if frame.header.tag == due {
            return Ok(frame);
        }
        Err(format!("tag {due} was due, and not a frame with {}", frame.header).into())
    }

    fn greet(&mut self, link: &mut Link) -> Outcome<()> {
        let hello = Body::Hello {
            entity: layouts::MONITOR,
            address: &layouts::address(layouts::MSGR2, 0, self.port),
        };
        link.send_body(tag::HELLO, &hello)?;
        println!("  sent hello, entity {}", layouts::MONITOR);
        let frame = self.due(link, tag::HELLO)?;
        if let Body::Hello { entity, address } = read_body(tag::HELLO, &frame.segments[0])? {
            println!(
                "  got hello, entity {entity}, an address of {} bytes",
                address.len()
            );
        }
        Ok(())
    }

    fn authenticate(&mut self, link: &mut Link) -> Outcome<()> {
        let request = Body::AuthRequest {
            method: layouts::METHOD_NONE,
            modes: &[layouts::MODE_CRC][..],
            payload: &layouts::name("desk"),
        };
        link.send_body(tag::AUTH_REQUEST, &request)?;
        println!("  sent auth request, method none, mode crc");
        let frame = self.due(link, tag::AUTH_DONE)?;
        match read_body(tag::AUTH_DONE, &frame.segments[0])? {
            Body::AuthDone { mode, .. } if mode == layouts::MODE_CRC => {
                println!("  got auth done, mode crc");
            }
            other => return Err(format!("not crc mode: {other:?}").into()),
        }
        link.send(tag::AUTH_SIGNATURE, &[&layouts::SIGNATURE])?;
        println!("  sent auth signature");
        self.due(link, tag::AUTH_SIGNATURE)?;
        println!("  got auth signature, a good one");
        Ok(())
    }

    fn own_address(&self) -> Vec<u8> {
        layouts::address(layouts::ANY, self.nonce, 0)
    }

    /// Begins a session.
    fn identify(&mut self, link: &mut Link) -> Outcome<()> {
        let wanted = layouts::address(layouts::MSGR2, 0, self.port);
        let (addresses, block) = layouts::addresses(&self.own_address(), &wanted);
        let ident = Body::Ident {
            addresses,
            block: &block,
            gid: u64::MAX,
            global_seq: self.global,
            supported: SUPPORTED,
            required: REQUIRED,
            flags: 0,
            cookie: self.client,
        };
        link.send_body(tag::CLIENT_IDENT, &ident)?;
        println!("  sent client ident, cookie {:#x}", self.client);
        let frame = self.due(link, tag::SERVER_IDENT)?;
        if let Body::Ident { cookie, .. } = read_body(tag::SERVER_IDENT, &frame.segments[0])? {
            println!("  got server ident, cookie {cookie:#x}");
            self.server = cookie;
        }
        if self.server == 0 {
            return Err("the monitor keeps no session".into());
        }
        Ok(())
    }

    /// Goes on with the session, and sends again what is held.
    fn resume(&mut self, link: &mut Link) -> Outcome<()> {
        self.reconnect(link)?;
        let mut frame = self.next(link)?;
        while self.is_retry(&frame)? {
            self.reconnect(link)?;
            frame = self.next(link)?;
        }
        match (frame.header.tag, frame.effect) {
            (_, Effect::Resend(count)) => {
                println!(
                    "  got reconnect ok; {}, {count} to be sent again",
                    self.held()?
                );
                self.send_again(link)
            }
            (_, Effect::Reset) => {
                println!("  got reset; {}", self.held()?);
                self.start_over(link)
            }
            _ => Err(format!("the session does not go on: {}", frame.header).into()),
        }
    }

    /// The monitor knows the session no longer, and what is not answered never will
    /// be: a new session, on the same connection.
    fn start_over(&mut self, link: &mut Link) -> Outcome<()> {
        for question in &mut self.questions {
            question.is_due &= question.answers > 0;
        }
        self.came = 0;
        self.identify(link)
    }

    fn reconnect(&mut self, link: &mut Link) -> Outcome<()> {
        self.connect += 1;
        let (addresses, block) = layouts::addresses(&self.own_address(), &[]);
        let reconnect = Body::Reconnect {
            addresses,
            block: &block,
            client_cookie: self.client,
            server_cookie: self.server,
            global_seq: self.global,
            connect_seq: self.connect,
            msg_seq: self.came,
        };
        link.send_body(tag::SESSION_RECONNECT, &reconnect)?;
        println!(
            "  sent reconnect, global_seq {}, connect_seq {}, msg_seq {}; {}",
            self.global,
            self.connect,
            self.came,
            self.held()?
        );
        Ok(())
    }

    /// Whether the monitor asks for a higher number, which is then used.
    fn is_retry(&mut self, frame: &Frame) -> Outcome<bool> {
        let asked = layouts::number_at(&frame.segments[0], 0);
        match (frame.header.tag, asked) {
            (tag::SESSION_RETRY, Some(connect)) => {
                println!("  got retry session, connect_seq {connect}");
                self.connect = connect;
            }
            (tag::SESSION_RETRY_GLOBAL, Some(global)) => {
                println!("  got retry global, global_seq {global}");
                self.global = global + 1;
            }
            _ => return Ok(false),
        }
        Ok(true)
    }
}
