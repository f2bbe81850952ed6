/*
 * Both ends of Ceph's msgr2 wire protocol: builders of banners and frames, a
 * receiver that reads a stream which the network may cut anywhere, the switch to
 * secure mode and sealed frames, the bodies and steps of the handshake, and
 * sessions that outlive their connections.
 *
 * Every function answers for every number and every byte that it is handed.
 * Nothing is allocated, nothing is kept between calls and nothing is shared:
 * what a receiver knows is the state that it is lent, and threads may call at
 * the same time.
 *
 * Functions take pointers and 64-bit numbers, and every struct has fields of 64
 * bits and no others, so that this header means the same on every processor. A
 * field whose comment names a narrower type holds numbers of that type; a state
 * or a header with a number beyond it is refused with 26, and nothing is changed.
 *
 * What a caller lends is lent for the time of the call:
 *   - bytes are a pointer and a length. A pointer points to as many initialised
 *     bytes as its length says; where the length is 0 it is not looked at and may
 *     be NULL. With any other length it may not;
 *   - a pointer to a struct or an array is never NULL, and what it points to is
 *     initialised where it is read: a state, a header, a key, a nonce;
 *   - what is const is only read;
 *   - what is not const overlaps nothing else that is lent.
 *
 * C99 or C++. Link libmahuixen.a, which calls nothing but memcpy, memmove and
 * memset.
 */
#ifndef MAHUIXEN_H
#define MAHUIXEN_H

#include <stdint.h>

#ifdef __cplusplus
extern "C" {
#endif

/* ---- the version */

/* The header's version: 1000000 times the first of its three numbers, and 1000 times the second, and the third. */
#define MAHUIXEN_VERSION_TEXT "0.1.0"
#define MAHUIXEN_VERSION UINT64_C(1000)

/* The library's. A program that was compiled with this header wants the same. */
uint64_t mahuixen_version(void);

/* ---- numbers */

/* The revision of a stream, chosen by the two banners. */
enum {
    MAHUIXEN_MSGR20 = 0,
    MAHUIXEN_MSGR21 = 1
};

/* The one feature bit that is known: its holder speaks msgr2.1. */
enum { MAHUIXEN_FEATURE_REVISION_1 = 1 };

/*
 * Limits and lengths, in bytes. A store of MAHUIXEN_STORE_LIMIT bytes is never too
 * short: a sealed part comes in with its padding and its tag. Where the peer's
 * frames are known to be shorter, lend what the longest of them needs, and a longer
 * one is refused with 10. Neither is for a stack: keep a store in static or
 * allocated memory.
 */
enum {
    MAHUIXEN_SEGMENT_LIMIT = 1048576, /* a segment */
    MAHUIXEN_FRAME_LIMIT = 2097152,   /* all segments of a frame; the store that crc frames need at most */
    MAHUIXEN_STORE_LIMIT = 2097232,   /* the store that any frame needs at most */
    MAHUIXEN_BANNER_LENGTH = 26,      /* the banner that is built */
    MAHUIXEN_FRAME_OVERHEAD = 49,     /* at most so many bytes of a crc frame are not its segments' */
    MAHUIXEN_SEALED_OVERHEAD = 173    /* and so many of a sealed frame */
};

/* Start values of the checksum. */
#define MAHUIXEN_PREAMBLE_START UINT64_C(0)
#define MAHUIXEN_SEGMENT_START UINT64_C(0xFFFFFFFF)

/* The kind of a report. */
enum {
    MAHUIXEN_MORE = 0,    /* the whole piece was taken, and more is wanted */
    MAHUIXEN_BANNER = 1,  /* the peer's banner came: peer and revision are set */
    MAHUIXEN_FRAME = 2,   /* a frame came: header is set, its segments stand at the front of the store */
    MAHUIXEN_DROPPED = 3, /* the peer aborted a frame: header is set, the store's first bytes are zeros */
    MAHUIXEN_REFUSED = 4, /* the stream was turned away: refusal is set, and every later call repeats it */
    MAHUIXEN_FIRST = 5    /* segment 1 of a frame came and its checksum holds, and more segments follow (msgr2.1 alone):
                             header is set, segment 1 stands at the front of the store. The same frame is still
                             reported at its end, as a frame or dropped, or refused */
};

/* The tag of a frame. mahuixen_read_body and mahuixen_write_body have the bodies of all but 7, 13, 14, 16 and 17, whose
 * segments are the caller's own to read and to write. */
enum {
    MAHUIXEN_TAG_HELLO = 1,
    MAHUIXEN_TAG_AUTH_REQUEST = 2,
    MAHUIXEN_TAG_AUTH_BAD_METHOD = 3,
    MAHUIXEN_TAG_AUTH_REPLY_MORE = 4,
    MAHUIXEN_TAG_AUTH_REQUEST_MORE = 5,
    MAHUIXEN_TAG_AUTH_DONE = 6,
    MAHUIXEN_TAG_AUTH_SIGNATURE = 7,
    MAHUIXEN_TAG_CLIENT_IDENT = 8,
    MAHUIXEN_TAG_SERVER_IDENT = 9,
    MAHUIXEN_TAG_IDENT_MISSING_FEATURES = 10,
    MAHUIXEN_TAG_SESSION_RECONNECT = 11,
    MAHUIXEN_TAG_SESSION_RESET = 12,
    MAHUIXEN_TAG_SESSION_RETRY = 13,
    MAHUIXEN_TAG_SESSION_RETRY_GLOBAL = 14,
    MAHUIXEN_TAG_SESSION_RECONNECT_OK = 15,
    MAHUIXEN_TAG_WAIT = 16,
    MAHUIXEN_TAG_MESSAGE = 17,
    MAHUIXEN_TAG_KEEPALIVE2 = 18,
    MAHUIXEN_TAG_KEEPALIVE2_ACK = 19,
    MAHUIXEN_TAG_ACK = 20
};

/* The number of a refusal. Details that are not named are 0. */
enum {
    MAHUIXEN_REFUSAL_NONE = 0,              /* not refused */
    MAHUIXEN_REFUSAL_MAGIC = 1,             /* the first eight bytes are not a banner's */
    MAHUIXEN_REFUSAL_BANNER_LENGTH = 2,     /* banner payload below 16 or above 1,024 bytes; first: its length */
    MAHUIXEN_REFUSAL_PEER_REQUIRES = 3,     /* the peer requires features that we do not support;
                                               first: their bits, second: the lowest one's number, third: how many */
    MAHUIXEN_REFUSAL_PEER_LACKS = 4,        /* we require features that the peer does not support; details as for 3 */
    MAHUIXEN_REFUSAL_PREAMBLE_CHECKSUM = 5, /* a preamble's checksum differs; first: 28, its place in the preamble */
    MAHUIXEN_REFUSAL_SHAPE = 6,             /* not 1 to 4 segments; or an unused segment has a length or an alignment;
                                               or the last used one of several is empty;
                                               first: the place of the first such field in the preamble */
    MAHUIXEN_REFUSAL_FLAGS = 7,             /* a preamble's flags or its reserved byte are not 0; first: 26 or 27, its place */
    MAHUIXEN_REFUSAL_TAG = 8,               /* a tag outside 1 to 20; first: the tag */
    MAHUIXEN_REFUSAL_LIMIT = 9,             /* a segment, or all of them, above the limit; first: the place of the first
                                               length that is too long, or of the one at which the sum is;
                                               or a text to be sealed or opened above its limit; first: 0 */
    MAHUIXEN_REFUSAL_STORE_SHORT = 10,      /* the store is too short for the frame; first: the bytes that it needs, which
                                               are those of its segments, or, sealed, of its segments each rounded up to
                                               a multiple of 16, and 32 more */
    MAHUIXEN_REFUSAL_SEGMENT_CHECKSUM = 11, /* a segment's checksum differs; first: the segment, 1 to 4 */
    MAHUIXEN_REFUSAL_LATE_STATUS = 12,      /* the low four bits of an epilogue's late status are no code word; first: the byte */
    MAHUIXEN_REFUSAL_SOURCE_LENGTH = 13,    /* build: the source is not as long as the segments */
    MAHUIXEN_REFUSAL_NO_ROOM = 14,          /* the buffer has no room, of a build behind its queued bytes; first: the bytes
                                               to be written */
    MAHUIXEN_REFUSAL_ABORT_ONE_SEGMENT = 15, /* build: an msgr2.1 frame of one segment cannot be aborted */
    MAHUIXEN_REFUSAL_OWN_FEATURES = 16,     /* our own features: an unknown bit, or required and not supported */
    MAHUIXEN_REFUSAL_AUTH_TAG = 17,         /* sealed bytes fewer than 16, or their authentication tag differs */
    MAHUIXEN_REFUSAL_NONCES_SPENT = 18,     /* build: fewer nonces are left than the sealed frame has parts;
                                               receive: a sealed part came, and no nonce is left to open it with */
    MAHUIXEN_REFUSAL_PADDING = 19,          /* padding in a sealed frame is not 0 */
    MAHUIXEN_REFUSAL_BODY_MALFORMED = 20,   /* a body that is not its tag's; first: the place of the first fault in it */
    MAHUIXEN_REFUSAL_UNEXPECTED_TAG = 21,   /* a tag that the side's state does not wait for; first: the tag */
    MAHUIXEN_REFUSAL_TABLE_FULL = 22,       /* the session holds 64 messages */
    MAHUIXEN_REFUSAL_ACK_AHEAD = 23,        /* an ack, or a reconnect's msg_seq, above the last number given */
    MAHUIXEN_REFUSAL_NON_CANONICAL = 24,    /* an epilogue that is not spelled as we write it: the checksum of an unused
                                               segment is not 0, or, in msgr2.0, the late flags are neither 0 nor 1;
                                               first: the lowest such segment, 2 to 4, or 0 for the late flags */
    MAHUIXEN_REFUSAL_NUMBERS_SPENT = 25,    /* the session's last message number was 2^64 - 1 */
    MAHUIXEN_REFUSAL_STATE_CONTRADICTS = 26, /* a state that contradicts itself, or a number beyond its field's type;
                                               no start gives such a state, and no call that was not handed one */
    MAHUIXEN_REFUSAL_SWITCH_REFUSED = 27    /* a switch to secure mode where there is none to be made, or a build with
                                               what such a switch handed back */
};

/* ---- structs */

/* The features of a banner, a bit for each. */
typedef struct mahuixen_features {
    uint64_t supported;
    uint64_t required;
} mahuixen_features;

/* A segment in a preamble: its length, and the alignment that the sender would have for it. */
typedef struct mahuixen_segment {
    uint64_t len;   /* 32 bits */
    uint64_t align; /* 16 bits */
} mahuixen_segment;

/* A frame's preamble: its tag, how many segments it has, and the segments; those behind the last used one are all 0. */
typedef struct mahuixen_header {
    uint64_t tag;   /* 8 bits */
    uint64_t count; /* 8 bits */
    mahuixen_segment segments[4];
} mahuixen_header;

/* Why something was turned away: a number, 0 where it was not, and its details. */
typedef struct mahuixen_refusal {
    uint64_t number; /* 8 bits */
    uint64_t first;
    uint64_t second;
    uint64_t third;
} mahuixen_refusal;

/* The part of a receiver that reads crc frames, and the banner before them. */
typedef struct mahuixen_crc {
    uint64_t stage;           /* 0 magic, 1 length, 2 payload, 3 skip, 4 preamble, 5 first segment,
                                 6 its checksum, 7 the other segments, 8 epilogue, 9 refused */
    uint64_t revision;        /* 0 or 1 */
    uint64_t first;           /* 1 behind segment 1's checksum, to the frame's end; else 0 */
    uint64_t payload;         /* the banner's payload length, 16 bits */
    mahuixen_header header;
    mahuixen_refusal refusal;
    uint64_t got;             /* bytes of the stage that came */
    mahuixen_features own;
    mahuixen_features peer;
    uint64_t block[4];        /* 32 bytes that are judged together, as far as they came, and zeros behind them */
} mahuixen_crc;

/* The part that reads sealed frames, from a switch on. */
typedef struct mahuixen_sealed {
    uint64_t stage;           /* 0 first part, 1 second part, 2 last part, 3 refused */
    uint64_t exhausted;       /* 1 once all nonces are used; else 0 */
    mahuixen_header header;
    mahuixen_refusal refusal;
    uint64_t got;             /* bytes of the part that came */
    uint64_t opened;          /* how many parts were opened; 0 where all nonces are used */
    uint64_t first[12];       /* the 96 bytes of a first part, as far as they came, and zeros behind them */
    uint64_t key[2];          /* the key's 16 bytes */
    uint64_t nonce[2];        /* the 12 bytes of the next part's nonce; the other 4 are not looked at */
} mahuixen_sealed;

/*
 * A receiver between two calls. Keep it, lend it to the next call and look at
 * nothing in it: reports say what there is to know. A copy is a receiver of its
 * own. Any numbers may be handed in; those that contradict each other, or are
 * beyond their fields, give 26 (docs/STATE.md has the rules). The part that is
 * not in use is not looked at. Behind a switch a state holds a key.
 */
typedef struct mahuixen_state {
    uint64_t mode;            /* 0 crc, 1 secure: which frames come next */
    uint64_t ready;           /* 1 behind a reported or dropped crc frame, before any byte of the next; else 0 */
    mahuixen_crc crc;
    mahuixen_sealed sealed;
} mahuixen_state;

/* What a call reports: a kind, the bytes of the piece that it took, and the fields that the kind uses; the others are 0. */
typedef struct mahuixen_report {
    uint64_t kind;
    uint64_t taken;
    uint64_t revision;
    mahuixen_features peer;
    mahuixen_header header;
    mahuixen_refusal refusal;
} mahuixen_report;

/*
 * What the builder of sealed frames is between two builds: a key, and the nonce
 * of the next part. A switch to secure mode writes one; keep it, lend it to the
 * next build and never use a copy of an older one, since that would use a nonce
 * twice.
 */
typedef struct mahuixen_sending {
    uint64_t exhausted; /* 0, or 1: all 2^64 nonces are spent */
    uint64_t refused;   /* 0, or 1: a refused switch wrote it */
    uint64_t spent;     /* nonces spent, 0 where all are */
    uint64_t key[2];    /* 16 bytes */
    uint64_t nonce[2];  /* 12 bytes, and 4 that are not looked at */
} mahuixen_sending;

/* The kind of a session's answer. */
enum {
    MAHUIXEN_SESSION_DONE = 1,
    MAHUIXEN_SESSION_ACCEPTED = 2, /* number is the message's */
    MAHUIXEN_SESSION_RESEND = 3,   /* number says how many messages are to be sent again */
    MAHUIXEN_SESSION_REFUSED = 4   /* refusal is set */
};

/* So many messages a session holds at most. */
enum { MAHUIXEN_SESSION_PLACES = 64 };

/*
 * The messages that were sent and are not acknowledged yet: those with the
 * numbers above released up to last. It outlives its connections.
 */
typedef struct mahuixen_session {
    uint64_t released;
    uint64_t last;
    uint64_t handles[64]; /* the caller's, message n's at n % 64, where it stays until message n + 64 is accepted: of
                             messages that were just released it can still be read there */
} mahuixen_session;

typedef struct mahuixen_answer {
    uint64_t kind;
    uint64_t number;
    mahuixen_refusal refusal;
} mahuixen_answer;

/* A message that is held: its number, and the caller's handle for it. */
typedef struct mahuixen_message {
    uint64_t number;
    uint64_t handle;
} mahuixen_message;

/* The states of a side in the handshake. A server alone comes to MORE and STANDBY, a client alone to WAIT. */
enum {
    MAHUIXEN_HANDSHAKE_HELLO = 0,
    MAHUIXEN_HANDSHAKE_AUTH = 1,
    MAHUIXEN_HANDSHAKE_MORE = 2,
    MAHUIXEN_HANDSHAKE_SIGNATURE = 3,
    MAHUIXEN_HANDSHAKE_SESSION = 4,
    MAHUIXEN_HANDSHAKE_READY = 5,
    MAHUIXEN_HANDSHAKE_STANDBY = 6,
    MAHUIXEN_HANDSHAKE_WAIT = 7,
    MAHUIXEN_HANDSHAKE_CLOSED = 8
};

/* Where an auth request leads a server. */
enum {
    MAHUIXEN_AUTH_STAY = 0,
    MAHUIXEN_AUTH_MORE = 1,
    MAHUIXEN_AUTH_SIGNATURE = 2,
    MAHUIXEN_AUTH_STANDBY = 3
};

/* What the caller found of a frame. */
typedef struct mahuixen_verdict {
    uint64_t auth;      /* one of the four above */
    uint64_t signature; /* 1 where the signature is good, else 0 */
    uint64_t features;  /* 1 where the client's ident misses no feature */
    uint64_t reconnect; /* 1 where the reconnect is accepted */
} mahuixen_verdict;

/* No mode is picked. */
#define MAHUIXEN_NO_MODE UINT64_C(0x100000000)

/* The kind of a body, and the numbers that it has, in their order. */
enum {
    MAHUIXEN_BODY_REFUSED = 0,
    MAHUIXEN_BODY_HELLO = 1,        /* entity type, 8 bits; the address as bytes */
    MAHUIXEN_BODY_AUTH_REQUEST = 2, /* method, 32 bits; the preferred modes; the payload as bytes */
    MAHUIXEN_BODY_BAD_METHOD = 3,   /* method, error, 32 bits each, the error's two's complement; the allowed methods and
                                       modes */
    MAHUIXEN_BODY_MORE = 4,         /* no number; the payload as bytes: auth_reply_more and auth_request_more */
    MAHUIXEN_BODY_AUTH_DONE = 5,    /* global id; mode, 32 bits; the payload as bytes */
    MAHUIXEN_BODY_IDENT = 6,        /* number of addresses, 32 bits (see below); gid, global seq, supported, required,
                                       flags, cookie; the addresses as bytes: client_ident and server_ident */
    MAHUIXEN_BODY_RECONNECT = 7,    /* number of addresses, 32 bits (see below); client cookie, server cookie, global
                                       seq, connect seq, message seq; the addresses as bytes */
    MAHUIXEN_BODY_NUMBER = 8,       /* one number: missing features, reconnect_ok's message seq, ack */
    MAHUIXEN_BODY_RESET = 9,        /* full or not, 8 bits */
    MAHUIXEN_BODY_STAMP = 10        /* no number; eight bytes: keepalive2 and its ack */
};

/*
 * The place of each number among a body's numbers. The number of addresses of an
 * ident and of a reconnect is what stands in the body's first four bytes. Ceph's
 * own programs put a byte 2 in front of their count, so that with them it is 258
 * for one address, and the bytes of the addresses begin with the count's last byte.
 */
enum {
    MAHUIXEN_HELLO_ENTITY = 0,
    MAHUIXEN_AUTH_REQUEST_METHOD = 0,
    MAHUIXEN_BAD_METHOD_METHOD = 0,
    MAHUIXEN_BAD_METHOD_ERROR = 1,
    MAHUIXEN_AUTH_DONE_GLOBAL_ID = 0,
    MAHUIXEN_AUTH_DONE_MODE = 1,
    MAHUIXEN_IDENT_ADDRESSES = 0,
    MAHUIXEN_IDENT_GID = 1,
    MAHUIXEN_IDENT_GLOBAL_SEQ = 2,
    MAHUIXEN_IDENT_SUPPORTED = 3,
    MAHUIXEN_IDENT_REQUIRED = 4,
    MAHUIXEN_IDENT_FLAGS = 5,
    MAHUIXEN_IDENT_COOKIE = 6,
    MAHUIXEN_RECONNECT_ADDRESSES = 0,
    MAHUIXEN_RECONNECT_CLIENT_COOKIE = 1,
    MAHUIXEN_RECONNECT_SERVER_COOKIE = 2,
    MAHUIXEN_RECONNECT_GLOBAL_SEQ = 3,
    MAHUIXEN_RECONNECT_CONNECT_SEQ = 4,
    MAHUIXEN_RECONNECT_MSG_SEQ = 5,
    MAHUIXEN_NUMBER_VALUE = 0,
    MAHUIXEN_RESET_FULL = 0
};

/* A list of 32-bit numbers in a segment: the place of its first number and how many there are. */
typedef struct mahuixen_list {
    uint64_t at;
    uint64_t count;
} mahuixen_list;

/* Bytes in a segment: their place and how many there are. */
typedef struct mahuixen_span {
    uint64_t at;
    uint64_t len;
} mahuixen_span;

/* What a body says; all that its kind does not use is 0. Lists and bytes lie within the segment that was read; an empty one has its place too,
 * which may be the segment's end. */
typedef struct mahuixen_body {
    uint64_t kind;
    uint64_t numbers[7]; /* by the places above */
    mahuixen_list first;
    mahuixen_list second;
    mahuixen_span bytes;
    mahuixen_refusal refusal;
} mahuixen_body;

/* ---- receiving */

/* The library's own functions, which are handed a state part by part. Call the three below them. */
uint64_t mahuixen_start_in(mahuixen_state *state, mahuixen_crc *crc, uint8_t *block, mahuixen_sealed *sealed,
                           uint8_t *first, uint8_t *key, uint8_t *nonce, uint64_t supported, uint64_t required);
uint64_t mahuixen_receive_in(mahuixen_state *state, mahuixen_crc *crc, uint8_t *block, mahuixen_sealed *sealed,
                             uint8_t *first, uint8_t *key, uint8_t *nonce, mahuixen_report *report,
                             const uint8_t *piece, uint64_t piece_len, uint8_t *store, uint64_t store_len);
uint64_t mahuixen_switch_in(mahuixen_state *state, const mahuixen_crc *crc, const uint8_t *block,
                            mahuixen_sealed *sealed, uint8_t *first, uint8_t *key, uint8_t *nonce,
                            const uint8_t *with, const uint8_t *receiving_nonce, const uint8_t *sending_nonce,
                            mahuixen_sending *sending, uint8_t *out_key, uint8_t *out_nonce);

/*
 * Makes *state a receiver for a new stream, with our own features. Answers 0; or
 * 16 where the features have a bit other than bit 0, or require what they do not
 * support, and every call on the state then repeats that.
 */
static inline uint64_t mahuixen_start(mahuixen_state *state, uint64_t supported, uint64_t required)
{
    state->sealed.nonce[1] = 0;
    return mahuixen_start_in(state, &state->crc, (uint8_t *)state->crc.block, &state->sealed,
                             (uint8_t *)state->sealed.first, (uint8_t *)state->sealed.key,
                             (uint8_t *)state->sealed.nonce, supported, required);
}

/*
 * Takes bytes of the piece up to and including the one that completes a report,
 * or the whole piece. Writes the state for the next call and the whole report,
 * and answers the report's kind. Offer the bytes that were not taken again. Lend
 * the same store, with its bytes as the last call left them, until the frame is
 * reported. A frame's segments stand one behind the other at the front of the
 * store, and the next call may write over them. Of a frame whose segment 1 is
 * reported early, segment 1 may be read from there on and must not be written to
 * before the frame's own report.
 */
static inline uint64_t mahuixen_receive(mahuixen_state *state, mahuixen_report *report, const uint8_t *piece,
                                        uint64_t piece_len, uint8_t *store, uint64_t store_len)
{
    return mahuixen_receive_in(state, &state->crc, (uint8_t *)state->crc.block, &state->sealed,
                               (uint8_t *)state->sealed.first, (uint8_t *)state->sealed.key,
                               (uint8_t *)state->sealed.nonce, report, piece, piece_len, store, store_len);
}

/*
 * Switches a msgr2.1 stream to secure, behind a reported or dropped frame and
 * before any byte of the next: sealed frames come from then on, and *sending is
 * what ours are built with. One key of 16 bytes, and 12 bytes each for the nonce
 * of the peer's first part and of ours. Answers 0; or 26, or 27 anywhere else,
 * and then the state is as it was and nothing can be built with *sending.
 */
static inline uint64_t mahuixen_switch(mahuixen_state *state, const uint8_t key[16], const uint8_t receiving_nonce[12],
                                       const uint8_t sending_nonce[12], mahuixen_sending *sending)
{
    sending->nonce[1] = 0;
    return mahuixen_switch_in(state, &state->crc, (const uint8_t *)state->crc.block, &state->sealed,
                              (uint8_t *)state->sealed.first, (uint8_t *)state->sealed.key,
                              (uint8_t *)state->sealed.nonce, key, receiving_nonce, sending_nonce, sending,
                              (uint8_t *)sending->key, (uint8_t *)sending->nonce);
}

/* ---- building: each answers how many bytes it wrote, and writes the refusal, all 0 where there is none.
 * A refused build answers 0 and leaves every byte as it was. */

/* Writes our banner into buf behind its first queued bytes. Refused with 16 or 14. */
uint64_t mahuixen_build_banner(uint8_t *buf, uint64_t buf_len, uint64_t queued, uint64_t supported, uint64_t required,
                               mahuixen_refusal *refusal);

/*
 * Writes a whole frame into buf behind its first queued bytes. The source has
 * the segments one behind the other. Refused with 26, 6, 8, 9, 13 or 14. Any
 * revision but 0 is msgr2.1.
 */
uint64_t mahuixen_build_frame(uint8_t *buf, uint64_t buf_len, uint64_t queued, uint64_t revision,
                              const mahuixen_header *header, const uint8_t *source, uint64_t source_len,
                              mahuixen_refusal *refusal);

/*
 * The same for a frame that is given up after segment 1: zeros go out for its
 * other segments, and the receiver drops it. The source is as long as that of a
 * whole frame. Refused also with 15.
 */
uint64_t mahuixen_abort_frame(uint8_t *buf, uint64_t buf_len, uint64_t queued, uint64_t revision,
                              const mahuixen_header *header, const uint8_t *source, uint64_t source_len,
                              mahuixen_refusal *refusal);

/* ---- secure mode */

/* Seals a text into the front of out, 16 bytes longer than the text: the ciphertext, and then the authentication tag
 * (AES-128-GCM, no associated data). A nonce must never be used twice with one key: the sealed builds below see to that
 * themselves. Refused with 9, for a text above 2^36 - 32 bytes, or 14. */
uint64_t mahuixen_seal(const uint8_t key[16], const uint8_t nonce[12], const uint8_t *text, uint64_t text_len,
                       uint8_t *out, uint64_t out_len, mahuixen_refusal *refusal);

/* Opens sealed bytes into the front of out, 16 bytes shorter, and answers how many it wrote: 0 for a good empty text
 * too, so look at the refusal's number, which is 0 where they were opened. Refused with 17 for fewer than 16 bytes, 9 or
 * 14, which leave every byte as it was, and last with 17 for a tag that differs, which leaves zeros where the text would
 * stand. */
uint64_t mahuixen_open(const uint8_t key[16], const uint8_t nonce[12], const uint8_t *sealed, uint64_t sealed_len,
                       uint8_t *out, uint64_t out_len, mahuixen_refusal *refusal);

/* The library's own functions, which are handed a sending state part by part. Call the two below them. */
uint64_t mahuixen_build_sealed_in(uint8_t *buf, uint64_t buf_len, uint64_t queued, mahuixen_sending *sending,
                                  const uint8_t *key, uint8_t *nonce, const mahuixen_header *header,
                                  const uint8_t *source, uint64_t source_len, mahuixen_refusal *refusal);
uint64_t mahuixen_abort_sealed_in(uint8_t *buf, uint64_t buf_len, uint64_t queued, mahuixen_sending *sending,
                                  const uint8_t *key, uint8_t *nonce, const mahuixen_header *header,
                                  const uint8_t *source, uint64_t source_len, mahuixen_refusal *refusal);

/*
 * Writes a whole frame into buf behind its first queued bytes, sealed with the
 * key and the next nonces of the sending state, which moves on. Refused with 26,
 * 27, 6, 8, 9, 13, 14 or 18; the state is then as it was and no nonce is spent.
 */
static inline uint64_t mahuixen_build_sealed(uint8_t *buf, uint64_t buf_len, uint64_t queued, mahuixen_sending *sending,
                                             const mahuixen_header *header, const uint8_t *source, uint64_t source_len,
                                             mahuixen_refusal *refusal)
{
    return mahuixen_build_sealed_in(buf, buf_len, queued, sending, (const uint8_t *)sending->key,
                                    (uint8_t *)sending->nonce, header, source, source_len, refusal);
}

/* The same for a frame that is given up after segment 1. Refused also with 15. */
static inline uint64_t mahuixen_abort_sealed(uint8_t *buf, uint64_t buf_len, uint64_t queued, mahuixen_sending *sending,
                                             const mahuixen_header *header, const uint8_t *source, uint64_t source_len,
                                             mahuixen_refusal *refusal)
{
    return mahuixen_abort_sealed_in(buf, buf_len, queued, sending, (const uint8_t *)sending->key,
                                    (uint8_t *)sending->nonce, header, source, source_len, refusal);
}

/* ---- sessions: each call changes the session in place, writes the whole answer and answers its kind. A refused call
 * leaves the session as it was. */

/* The library's own functions, which are handed a session part by part. Call those below them. */
void mahuixen_session_start_in(mahuixen_session *session, uint64_t *handles);
uint64_t mahuixen_session_accept_in(mahuixen_session *session, uint64_t *handles, mahuixen_answer *answer,
                                    uint64_t handle);
uint64_t mahuixen_session_ack_in(mahuixen_session *session, uint64_t *handles, mahuixen_answer *answer,
                                 uint64_t number);
uint64_t mahuixen_session_reconnect_in(mahuixen_session *session, uint64_t *handles, mahuixen_answer *answer,
                                       uint64_t msg_seq);
uint64_t mahuixen_session_reset_in(mahuixen_session *session, uint64_t *handles, mahuixen_answer *answer,
                                   uint64_t full);
uint64_t mahuixen_session_held_in(const mahuixen_session *session, const uint64_t *handles, mahuixen_message *message,
                                  uint64_t place);

/* Makes *session one of which no message was sent. */
static inline void mahuixen_session_start(mahuixen_session *session)
{
    mahuixen_session_start_in(session, session->handles);
}

/* A message is to be sent: it gets the next number, and is held with the caller's handle for it until it is
 * acknowledged. Accepted, or refused with 26, 25 or 22. */
static inline uint64_t mahuixen_session_accept(mahuixen_session *session, uint64_t handle, mahuixen_answer *answer)
{
    return mahuixen_session_accept_in(session, session->handles, answer, handle);
}

/* The peer has the messages up to a number, and they are held no longer. Done, or refused with 26 or 23. */
static inline uint64_t mahuixen_session_ack(mahuixen_session *session, uint64_t number, mahuixen_answer *answer)
{
    return mahuixen_session_ack_in(session, session->handles, answer, number);
}

/* A reconnect_ok came with this msg_seq: an ack, and what is then held is to be sent again, oldest first. Resend, or
 * refused with 26 or 23. */
static inline uint64_t mahuixen_session_reconnect(mahuixen_session *session, uint64_t msg_seq, mahuixen_answer *answer)
{
    return mahuixen_session_reconnect_in(session, session->handles, answer, msg_seq);
}

/* A session_reset came: a full one, where full is not 0, drops what is held, another keeps it. Hand in 1 where the frame's
 * byte is 1, and else 0: only 1 is a full reset, as mahuixen_deliver reads it. Done, or refused with 26. */
static inline uint64_t mahuixen_session_reset(mahuixen_session *session, uint64_t full, mahuixen_answer *answer)
{
    return mahuixen_session_reset_in(session, session->handles, answer, full);
}

/*
 * The message at a place of those held, 0 the oldest: answers 1 and writes it;
 * answers 0 where fewer are held, or 26 for a session that contradicts itself, and
 * writes zeros. So compare with 1:
 *
 *     for (uint64_t place = 0; mahuixen_session_held(&session, place, &message) == 1; place++)
 *         send_again(&message);
 */
static inline uint64_t mahuixen_session_held(const mahuixen_session *session, uint64_t place, mahuixen_message *message)
{
    return mahuixen_session_held_in(session, session->handles, message, place);
}

/*
 * What a delivered report did to the session, in an answer's fields: an answer of the session, or one of these two.
 * MAHUIXEN_SESSION_DONE is an ack where the report's tag is 20, and a reset where it is 12: what a full reset drops was
 * not acknowledged. The refusal of a malformed body is 20, and nothing was done.
 */
enum {
    MAHUIXEN_EFFECT_NOTHING = 0,  /* the report asks nothing of the session */
    MAHUIXEN_EFFECT_MALFORMED = 5 /* a frame with tag 20, 15 or 12 whose body is not what its tag says */
};

/* The library's own function, which is handed a state and a session part by part. Call the one below it. */
uint64_t mahuixen_deliver_in(mahuixen_state *state, mahuixen_crc *crc, uint8_t *block, mahuixen_sealed *sealed,
                             uint8_t *first, uint8_t *key, uint8_t *nonce, mahuixen_session *session,
                             const uint64_t *handles, mahuixen_report *report, mahuixen_answer *effect,
                             const uint8_t *piece, uint64_t piece_len, uint8_t *store, uint64_t store_len);

/*
 * Receiver and session in one call: takes bytes as mahuixen_receive does, and does to the session what the report asks,
 * which only a whole frame does: an ack, a reconnect_ok or a reset. Writes the whole effect, and answers the report's
 * kind. An acknowledgement in a message's own header is the caller's to read and to hand to mahuixen_session_ack.
 */
static inline uint64_t mahuixen_deliver(mahuixen_state *state, mahuixen_session *session, mahuixen_report *report,
                                        mahuixen_answer *effect, const uint8_t *piece, uint64_t piece_len,
                                        uint8_t *store, uint64_t store_len)
{
    return mahuixen_deliver_in(state, &state->crc, (uint8_t *)state->crc.block, &state->sealed,
                               (uint8_t *)state->sealed.first, (uint8_t *)state->sealed.key,
                               (uint8_t *)state->sealed.nonce, session, session->handles, report, effect, piece,
                               piece_len, store, store_len);
}

/* ---- the handshake */

/* Answers the state that a side in a state comes to when a frame with this tag came, and writes the refusal, all 0 where
 * the tag is taken. Refused with 21, and the side is closed; or with 26 for a number beyond its field, and the state
 * stays. The verdict says what the caller found of the frame; a step looks only at the part that it asks for. */
uint64_t mahuixen_client_step(uint64_t state, uint64_t tag, const mahuixen_verdict *verdict, mahuixen_refusal *refusal);
uint64_t mahuixen_server_step(uint64_t state, uint64_t tag, const mahuixen_verdict *verdict, mahuixen_refusal *refusal);

/* The first of the client's preferred connection modes that is on the server's own list, or MAHUIXEN_NO_MODE. */
uint64_t mahuixen_pick_mode(const uint32_t *preferred, uint64_t preferred_count, const uint32_t *allowed,
                            uint64_t allowed_count);

/* Reads the body of a control frame, its one segment, by the frame's tag: writes the whole body and answers its kind.
 * MAHUIXEN_BODY_REFUSED, with refusal 20, for one that is not of its tag, or a tag that has none (0, 7, 13, 14, 16, 17
 * and 21 to 255), and with 26 for a tag above 255. */
uint64_t mahuixen_read_body(uint64_t tag, const uint8_t *segment, uint64_t segment_len, mahuixen_body *body);

/*
 * Writes the body of a control frame at the front of out, and answers its length.
 * Of the body the kind and the numbers count. The lists, in the body's order, and
 * its bytes are lent beside it; those that its kind does not have are not looked
 * at. What was read can so be written again. Refused with 26, 20 or 14, which
 * leave every byte as it was.
 */
uint64_t mahuixen_write_body(uint8_t *out, uint64_t out_len, uint64_t tag, const mahuixen_body *body,
                             const uint32_t *first, uint64_t first_count, const uint32_t *second,
                             uint64_t second_count, const uint8_t *bytes, uint64_t bytes_len,
                             mahuixen_refusal *refusal);

/* Number i of a list that stands in the segment that was read; i is below the list's count. */
static inline uint32_t mahuixen_list_number(const uint8_t *segment, const mahuixen_list *list, uint64_t i)
{
    const uint8_t *at = segment + list->at + 4 * i;
    return (uint32_t)at[0] | (uint32_t)at[1] << 8 | (uint32_t)at[2] << 16 | (uint32_t)at[3] << 24;
}

/* ---- the checksum */

/* CRC32-C of bytes from a start value, of which the low 32 bits count, with no complement at the end. */
uint64_t mahuixen_checksum(uint64_t start, const uint8_t *bytes, uint64_t len);

/* ---- texts, for people: what a number stands for, or "unknown". They say no details. */

static inline const char *mahuixen_refusal_text(uint64_t number)
{
    switch (number) {
    case MAHUIXEN_REFUSAL_NONE: return "not refused";
    case MAHUIXEN_REFUSAL_MAGIC: return "the stream does not begin as a banner does";
    case MAHUIXEN_REFUSAL_BANNER_LENGTH: return "the banner's payload length is not 16 to 1024";
    case MAHUIXEN_REFUSAL_PEER_REQUIRES: return "the peer requires features that we lack";
    case MAHUIXEN_REFUSAL_PEER_LACKS: return "we require features that the peer lacks";
    case MAHUIXEN_REFUSAL_PREAMBLE_CHECKSUM: return "the preamble's checksum differs";
    case MAHUIXEN_REFUSAL_SHAPE: return "the segment count or the shape of the segments is wrong";
    case MAHUIXEN_REFUSAL_FLAGS: return "the preamble's flags or its reserved byte are not 0";
    case MAHUIXEN_REFUSAL_TAG: return "the tag is not 1 to 20";
    case MAHUIXEN_REFUSAL_LIMIT: return "a segment, all segments together, or a text is too long";
    case MAHUIXEN_REFUSAL_STORE_SHORT: return "the store is too short for the frame";
    case MAHUIXEN_REFUSAL_SEGMENT_CHECKSUM: return "a segment's checksum differs";
    case MAHUIXEN_REFUSAL_LATE_STATUS: return "the late status is neither complete nor aborted";
    case MAHUIXEN_REFUSAL_SOURCE_LENGTH: return "the source has not as many bytes as the segments together";
    case MAHUIXEN_REFUSAL_NO_ROOM: return "the buffer has no room";
    case MAHUIXEN_REFUSAL_ABORT_ONE_SEGMENT: return "a msgr2.1 frame of one segment cannot be aborted";
    case MAHUIXEN_REFUSAL_OWN_FEATURES: return "our own features have an unknown bit, or require one that they do not support";
    case MAHUIXEN_REFUSAL_AUTH_TAG: return "the authentication tag differs or is cut off";
    case MAHUIXEN_REFUSAL_NONCES_SPENT: return "the key has not enough nonces left for the frame";
    case MAHUIXEN_REFUSAL_PADDING: return "padding in a sealed frame is not 0";
    case MAHUIXEN_REFUSAL_BODY_MALFORMED: return "the body is not its tag's";
    case MAHUIXEN_REFUSAL_UNEXPECTED_TAG: return "the handshake does not wait for the tag";
    case MAHUIXEN_REFUSAL_TABLE_FULL: return "the session holds as many messages as it can";
    case MAHUIXEN_REFUSAL_ACK_AHEAD: return "the peer acknowledges a message that was never sent";
    case MAHUIXEN_REFUSAL_NON_CANONICAL: return "the epilogue is not spelled as we write it";
    case MAHUIXEN_REFUSAL_NUMBERS_SPENT: return "the session has no message number left";
    case MAHUIXEN_REFUSAL_STATE_CONTRADICTS: return "the fields of the state contradict each other, or a number is beyond its field";
    case MAHUIXEN_REFUSAL_SWITCH_REFUSED: return "there was no switch to secure mode to be made";
    default: return "unknown";
    }
}

static inline const char *mahuixen_tag_text(uint64_t tag)
{
    switch (tag) {
    case MAHUIXEN_TAG_HELLO: return "hello";
    case MAHUIXEN_TAG_AUTH_REQUEST: return "auth request";
    case MAHUIXEN_TAG_AUTH_BAD_METHOD: return "bad method";
    case MAHUIXEN_TAG_AUTH_REPLY_MORE: return "reply more";
    case MAHUIXEN_TAG_AUTH_REQUEST_MORE: return "request more";
    case MAHUIXEN_TAG_AUTH_DONE: return "auth done";
    case MAHUIXEN_TAG_AUTH_SIGNATURE: return "auth signature";
    case MAHUIXEN_TAG_CLIENT_IDENT: return "client ident";
    case MAHUIXEN_TAG_SERVER_IDENT: return "server ident";
    case MAHUIXEN_TAG_IDENT_MISSING_FEATURES: return "missing features";
    case MAHUIXEN_TAG_SESSION_RECONNECT: return "reconnect";
    case MAHUIXEN_TAG_SESSION_RESET: return "reset";
    case MAHUIXEN_TAG_SESSION_RETRY: return "retry session";
    case MAHUIXEN_TAG_SESSION_RETRY_GLOBAL: return "retry global";
    case MAHUIXEN_TAG_SESSION_RECONNECT_OK: return "reconnect ok";
    case MAHUIXEN_TAG_WAIT: return "wait";
    case MAHUIXEN_TAG_MESSAGE: return "message";
    case MAHUIXEN_TAG_KEEPALIVE2: return "keepalive2";
    case MAHUIXEN_TAG_KEEPALIVE2_ACK: return "keepalive2 ack";
    case MAHUIXEN_TAG_ACK: return "ack";
    default: return "unknown";
    }
}

static inline const char *mahuixen_report_text(uint64_t kind)
{
    switch (kind) {
    case MAHUIXEN_MORE: return "more";
    case MAHUIXEN_BANNER: return "banner";
    case MAHUIXEN_FRAME: return "frame";
    case MAHUIXEN_DROPPED: return "dropped";
    case MAHUIXEN_REFUSED: return "refused";
    case MAHUIXEN_FIRST: return "segment 1 of a frame";
    default: return "unknown";
    }
}

#ifdef __cplusplus
}
#endif

#endif
