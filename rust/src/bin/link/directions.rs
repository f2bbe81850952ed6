//! Prints the directions of a capture that begin with a banner.

use crate::capture::{Capture, Connection, Counts, Direction, Gap, Run};
use crate::failure::Failure;
use crate::hints::{hints, Seen};
use crate::layout::{self, number, MAGIC};
use crate::link_file;
use crate::options::Options;
use crate::text::{counted, Printer};
use crate::walk::Walk;
use crate::OWN;
use mahuixen::Features;
use std::io::Write;
use std::net::SocketAddr;
use std::time::Duration;

/// What a capture counts; a frame has segments too.
const TCP_SEGMENT: &str = "TCP segment";

/// A direction that is read.
struct Link<'a> {
    /// Which side of its connection sent it.
    side: usize,
    run: Run<'a>,
    walk: Walk,
    /// Our own features, if they are the other direction's.
    own: Option<Features>,
    lines: Vec<u8>,
    ok: bool,
    seen: Seen,
}

/// What there is to say of all directions.
#[derive(Default)]
struct Tally {
    /// Directions that are printed, and those of them that do not end ok.
    printed: usize,
    bad: usize,
    /// Directions with bytes that do not begin with a banner, and those of
    /// them that lack their first bytes.
    others: usize,
    without_start: usize,
}

/// Prints the directions; answers whether there are some, and all end ok.
pub fn print(capture: &Capture, options: &Options, out: &mut impl Write) -> Result<bool, Failure> {
    let mut tally = Tally::default();
    for connection in &capture.connections {
        let links = read(connection, options)?;
        for (place, link) in links.iter().enumerate() {
            tally.printed += 1;
            tally.bad += usize::from(!link.ok || link.run.gap.is_some());
            heading(tally.printed, connection, link, capture.began, out)?;
            write_pieces(tally.printed, connection, link, options, out)?;
            out.write_all(&link.lines)?;
            let other = links.get(1 - place).map(|other| &other.seen);
            for hint in hints(&link.seen, &link.walk.end(), other) {
                writeln!(out, "hint: {hint}")?;
            }
            writeln!(out)?;
        }
        for direction in &connection.directions {
            let front = front(&direction.run());
            let other = direction.has_bytes() && !begins_with_banner(&front);
            tally.others += usize::from(other);
            tally.without_start += usize::from(other && front.is_empty());
        }
    }
    footing(capture, &tally, out)?;
    Ok(tally.printed > 0 && tally.bad == 0 && capture.damage.is_none())
}

/// Reads the directions of a connection that begin with a banner.
fn read<'a>(connection: &Connection<'a>, options: &Options) -> Result<Vec<Link<'a>>, Failure> {
    let runs = connection.directions.each_ref().map(Direction::run);
    let fronts = runs.each_ref().map(front);
    let mut links = Vec::new();
    for (side, run) in runs.into_iter().enumerate() {
        if !begins_with_banner(&fronts[side]) {
            continue;
        }
        let own = match options.own {
            Some(_) => None,
            None => features(&fronts[1 - side]),
        };
        let chosen = own.or(options.own).unwrap_or(OWN);
        let mut walk = Walk::start(chosen, options.store)?;
        let mut lines = Vec::new();
        let mut printer = Printer::new(&mut lines, options.summary);
        for piece in &run.pieces {
            walk.offer(piece, |part| printer.part(part))?;
        }
        let (ok, seen) = printer.end(&walk)?;
        links.push(Link {
            side,
            run,
            walk,
            own,
            lines,
            ok,
            seen,
        });
    }
    Ok(links)
}

/// As many bytes as a banner with the shortest payload has.
fn front(run: &Run) -> Vec<u8> {
    let bytes = run.pieces.iter().copied().flatten();
    bytes.take(layout::REQUIRED.end).copied().collect()
}

fn begins_with_banner(front: &[u8]) -> bool {
    !front.is_empty() && (front.starts_with(MAGIC) || MAGIC.starts_with(front))
}

/// What a banner says of its sender's features, as far as the receiver knows
/// them.
fn features(front: &[u8]) -> Option<Features> {
    let whole = front.len() == layout::REQUIRED.end && front.starts_with(MAGIC);
    whole.then(|| {
        let supported = number(front, layout::SUPPORTED) & Features::REVISION_1;
        let required = number(front, layout::REQUIRED) & supported;
        Features::new(supported, required)
    })
}

/// The lines in front of a direction's own.
fn heading(
    printed: usize,
    connection: &Connection,
    link: &Link,
    began: Option<Duration>,
    out: &mut impl Write,
) -> Result<(), Failure> {
    let direction = &connection.directions[link.side];
    let (from, to) = addresses(connection, link.side);
    writeln!(out, "direction {printed}: {from} to {to}")?;
    let segments = counted(direction.counts.segments, TCP_SEGMENT);
    let length = counted(link.run.length, "byte");
    write!(out, "  {segments} with bytes, {length} in order")?;
    if let (Some((first, last)), Some(began)) = (direction.times, began) {
        let since = |time: Duration| time.saturating_sub(began).as_secs_f64();
        let (first, last) = (since(first), since(last));
        write!(out, "; from {first:.6} to {last:.6} seconds")?;
    }
    writeln!(out)?;
    if let Some(own) = link.own {
        writeln!(out, "  read with the other direction's features: {own}")?;
    }
    for note in notes(direction, &link.run) {
        writeln!(out, "  {note}")?;
    }
    Ok(())
}

/// The addresses of who sent a direction, and of who received it.
fn addresses(connection: &Connection, side: usize) -> (SocketAddr, SocketAddr) {
    (connection.ends[side], connection.ends[1 - side])
}

/// What is to be said of how a direction was put in order.
fn notes(direction: &Direction, run: &Run) -> Vec<String> {
    let mut notes = counts(&direction.counts);
    if !direction.has_syn() {
        notes.push("the connection's beginning is not in the capture".to_string());
    }
    notes.extend(run.gap.map(|gap| gap_words(gap, run.length)));
    let end = match (direction.reset, direction.has_fin()) {
        (true, _) => "reset by its sender",
        (false, true) => "closed by its sender",
        (false, false) => "still open at the end of the capture",
    };
    notes.push(end.to_string());
    notes
}

/// A line for each count that is not 0.
fn counts(counts: &Counts) -> Vec<String> {
    let again = counted(counts.duplicates, TCP_SEGMENT);
    let again = format!("came again; {again} brought nothing else");
    let lines = [
        (counts.repeated_bytes, "byte", &*again),
        (
            counts.conflicting_bytes,
            "byte",
            "came again with another value; the first one is read",
        ),
        (counts.out_of_order, TCP_SEGMENT, "came late, put in order"),
        (counts.truncated, TCP_SEGMENT, "not captured whole"),
        (
            counts.out_of_window,
            TCP_SEGMENT,
            "left out, with numbers far from all others",
        ),
    ];
    let lines = lines.iter().filter(|(count, ..)| *count > 0);
    lines
        .map(|(count, thing, words)| format!("{} {words}", counted(*count, thing)))
        .collect()
}

/// What is missing behind a byte.
fn gap_words(gap: Gap, length: u64) -> String {
    match gap {
        Gap::Inside {
            missing,
            pieces,
            bytes,
        } => {
            let (missing, bytes) = (counted(missing, "byte"), counted(bytes, "byte"));
            let pieces = counted(pieces, "piece");
            format!(
                "the capture lacks {missing} behind byte {length}; {bytes} behind the gap, in {pieces}, are not read"
            )
        }
        Gap::AtTheEnd { missing } => {
            let missing = counted(missing, "byte");
            format!("the capture lacks {missing} at the end, behind byte {length}")
        }
    }
}

/// Writes a direction as a link file, where that is wanted, and says so.
fn write_pieces(
    printed: usize,
    connection: &Connection,
    link: &Link,
    options: &Options,
    out: &mut impl Write,
) -> Result<(), Failure> {
    let Some(folder) = &options.pieces else {
        return Ok(());
    };
    let (from, to) = addresses(connection, link.side);
    let part = |end: SocketAddr| format!("{}.{}", end.ip(), end.port()).replace(':', "_");
    let name = format!("{printed}-{}-{}", part(from), part(to));
    let lengths: Vec<usize> = link.run.pieces.iter().map(|piece| piece.len()).collect();
    let (joined, each) = link_file::join(&lengths);
    let path = link_file::write(folder, &name, &joined, &link.run.pieces)?;
    let pieces = counted(joined.len() as u64, "piece");
    let how = match each {
        1 => "a piece a TCP segment".to_string(),
        _ => format!("{each} of the {} TCP segments joined in each", lengths.len()),
    };
    writeln!(out, "  written to {path}: {pieces}, {how}")?;
    Ok(())
}

/// The lines behind all directions.
fn footing(capture: &Capture, tally: &Tally, out: &mut impl Write) -> Result<(), Failure> {
    let Tally {
        printed,
        others,
        without_start,
        ..
    } = *tally;
    let Capture {
        packets,
        others: other_packets,
        fragments,
        malformed,
        ..
    } = capture;
    write!(out, "packets {packets}")?;
    if other_packets + fragments + malformed > 0 {
        write!(
            out,
            "; left out: {other_packets} without TCP over IP, {fragments} fragments of IP packets, {malformed} malformed"
        )?;
    }
    writeln!(out)?;
    for link in &capture.links {
        writeln!(out, "packets of link type {link} are not read")?;
    }
    if printed == 0 {
        writeln!(out, "no direction begins with a banner")?;
    }
    if others > 0 {
        writeln!(
            out,
            "directions with bytes that do not begin with a banner: {others}, of which {without_start} lack their first bytes"
        )?;
    }
    if let Some(damage) = capture.damage {
        writeln!(out, "{damage}")?;
    }
    Ok(())
}
