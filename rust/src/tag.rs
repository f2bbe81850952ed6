//! The tags of frames, and their texts.

macro_rules! tags {
    ($($number:literal $constant:ident $text:literal)*) => {
        $(
            #[doc = concat!("Tag ", stringify!($number), ", ", $text, ".")]
            pub const $constant: u8 = $number;
        )*

        /// A tag's text, for the twenty that there are.
        ///
        /// ```
        /// use mahuixen::{tag, tag_text};
        ///
        /// assert_eq!(tag_text(tag::KEEPALIVE2_ACK), Some("keepalive2 ack"));
        /// assert_eq!(tag_text(0), None);
        /// assert_eq!((1..=255).filter_map(tag_text).count(), 20);
        /// ```
        #[must_use]
        pub const fn tag_text(tag: u8) -> Option<&'static str> {
            match tag {
                $($number => Some($text),)*
                _ => None,
            }
        }
    };
}

tags! {
    1 HELLO "hello"
    2 AUTH_REQUEST "auth request"
    3 AUTH_BAD_METHOD "bad method"
    4 AUTH_REPLY_MORE "reply more"
    5 AUTH_REQUEST_MORE "request more"
    6 AUTH_DONE "auth done"
    7 AUTH_SIGNATURE "auth signature"
    8 CLIENT_IDENT "client ident"
    9 SERVER_IDENT "server ident"
    10 IDENT_MISSING_FEATURES "missing features"
    11 SESSION_RECONNECT "reconnect"
    12 SESSION_RESET "reset"
    13 SESSION_RETRY "retry session"
    14 SESSION_RETRY_GLOBAL "retry global"
    15 SESSION_RECONNECT_OK "reconnect ok"
    16 WAIT "wait"
    17 MESSAGE "message"
    18 KEEPALIVE2 "keepalive2"
    19 KEEPALIVE2_ACK "keepalive2 ack"
    20 ACK "ack"
}
