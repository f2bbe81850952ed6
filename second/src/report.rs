//! What a call of the receiver says.

use crate::banner::Features;
use crate::frame::Frame;
use crate::refusal::Refusal;
use crate::wire::Revision;

#[derive(Clone, Copy, Debug, PartialEq, Eq)]
pub enum Report {
    /// The whole piece was taken, and it completes nothing.
    More,
    Banner {
        peer: Features,
        revision: Revision,
    },
    /// Segment 1's checksum holds, and more segments follow it: it stands at the
    /// store's front. The frame's own report still comes.
    First(Frame),
    Frame(Frame),
    Dropped(Frame),
    Refused(Refusal),
}
