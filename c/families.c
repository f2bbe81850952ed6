/*
 * Sealing, sealed builds, sessions, mahuixen_deliver, the switch and sealed frames,
 * the handshake and bodies from C, against known values: GCM's published vectors,
 * and what the rules say. Prints a line for each that differs; the exit status is
 * 0 only if there is none.
 */
#include <stdio.h>
#include <string.h>

#include "mahuixen.h"

static int failures = 0;

static void check(int ok, const char *what)
{
    if (!ok) {
        printf("families: NOT AS KNOWN: %s\n", what);
        failures++;
    }
}

static mahuixen_refusal refusal;

static void refused(uint64_t number, uint64_t first, const char *what)
{
    check(refusal.number == number && refusal.first == first && refusal.second == 0 && refusal.third == 0, what);
}

/* ---- sealing: test cases 1 and 2 of "The Galois/Counter Mode of Operation (GCM)" */

static void sealing(void)
{
    static const uint8_t zeros[16] = {0};
    static const uint8_t empty[16] = {0x58, 0xe2, 0xfc, 0xce, 0xfa, 0x7e, 0x30, 0x61,
                                      0x36, 0x7f, 0x1d, 0x57, 0xa4, 0xe7, 0x45, 0x5a};
    static const uint8_t block[32] = {0x03, 0x88, 0xda, 0xce, 0x60, 0xb6, 0xa3, 0x92, 0xf3, 0x28, 0xc2,
                                      0xb9, 0x71, 0xb2, 0xfe, 0x78, 0xab, 0x6e, 0x47, 0xd4, 0x2c, 0xec,
                                      0x13, 0xbd, 0xf5, 0x3a, 0x67, 0xb2, 0x12, 0x57, 0xbd, 0xdf};
    uint8_t out[40];
    uint8_t back[16];

    check(mahuixen_seal(zeros, zeros, NULL, 0, out, sizeof out, &refusal) == 16, "the length of a sealed empty text");
    refused(0, 0, "an empty text is sealed");
    check(memcmp(out, empty, 16) == 0, "a sealed empty text");

    memset(out, 0xAA, sizeof out);
    check(mahuixen_seal(zeros, zeros, zeros, 16, out, sizeof out, &refusal) == 32, "the length of a sealed block");
    check(memcmp(out, block, 32) == 0 && out[32] == 0xAA, "a sealed block");
    check(mahuixen_open(zeros, zeros, out, 32, back, 16, &refusal) == 16, "the length of an opened block");
    refused(0, 0, "a block is opened");
    check(memcmp(back, zeros, 16) == 0, "an opened block");

    check(mahuixen_seal(zeros, zeros, zeros, 16, out, 31, &refusal) == 0, "no room to seal");
    refused(14, 32, "no room to seal");
    out[31] ^= 1;
    memset(back, 0xAA, sizeof back);
    check(mahuixen_open(zeros, zeros, out, 32, back, 16, &refusal) == 0, "a damaged tag");
    refused(17, 0, "a damaged tag");
    check(memcmp(back, zeros, 16) == 0, "zeros behind a damaged tag");
    check(mahuixen_open(zeros, zeros, out, 15, back, 16, &refusal) == 0 && refusal.number == 17, "no whole tag");
    check(mahuixen_open(zeros, zeros, empty, 16, NULL, 0, &refusal) == 0 && refusal.number == 0, "an opened empty text");
}

/* ---- sealed builds: what is built opens to the frame's preamble and its segment */

static void sealed_builds(void)
{
    static const mahuixen_header header = {MAHUIXEN_TAG_ACK, 1, {{8, 0}, {0, 0}, {0, 0}, {0, 0}}};
    static const mahuixen_header sparse = {MAHUIXEN_TAG_MESSAGE, 4, {{0, 0}, {1, 0}, {1, 0}, {1, 0}}};
    static const uint8_t source[8] = {1, 2, 3, 4, 5, 6, 7, 8};
    mahuixen_sending sending;
    mahuixen_sending before;
    uint8_t key[16];
    uint8_t nonce[12];
    uint8_t wire[200];
    uint8_t text[80];

    memset(&sending, 0, sizeof sending);
    memset(sending.key, 7, 16);
    memset(sending.nonce, 1, 12);
    memcpy(key, sending.key, 16);
    memcpy(nonce, sending.nonce, 12);
    check(mahuixen_build_sealed(wire, sizeof wire, 3, &sending, &header, source, 8, &refusal) == 96, "a sealed build");
    refused(0, 0, "a sealed build");
    check(sending.spent == 1 && ((uint8_t *)sending.nonce)[4] == 2, "the next nonce");
    check(mahuixen_open(key, nonce, wire + 3, 96, text, 80, &refusal) == 80, "a sealed build opens");
    check(text[0] == MAHUIXEN_TAG_ACK && text[1] == 1 && memcmp(text + 32, source, 8) == 0, "what it opens to");

    check(mahuixen_build_sealed(wire, sizeof wire, 0, &sending, &sparse, source, 3, &refusal) ==
              3 + MAHUIXEN_SEALED_OVERHEAD,
          "a frame with the most bytes beside its segments");

    before = sending;
    check(mahuixen_abort_sealed(wire, sizeof wire, 0, &sending, &header, source, 8, &refusal) == 0, "one segment");
    refused(15, 0, "a sealed frame of one segment is not aborted");
    check(memcmp(&before, &sending, sizeof sending) == 0, "a refused build spends nothing");
    sending.refused = 2;
    check(mahuixen_build_sealed(wire, sizeof wire, 0, &sending, &header, source, 8, &refusal) == 0, "beyond its field");
    refused(26, 0, "a number beyond its field");
    sending.refused = 0;
    sending.exhausted = 1;
    sending.spent = 0;
    check(mahuixen_build_sealed(wire, sizeof wire, 0, &sending, &header, source, 8, &refusal) == 0, "all nonces spent");
    refused(18, 0, "all nonces are spent");
}

/* ---- sessions */

static void sessions(void)
{
    mahuixen_session session;
    mahuixen_answer answer;
    mahuixen_message message;
    uint64_t i;

    memset(&session, 0xAA, sizeof session);
    mahuixen_session_start(&session);
    for (i = 1; i <= MAHUIXEN_SESSION_PLACES; i++) {
        check(mahuixen_session_accept(&session, 700 + i, &answer) == MAHUIXEN_SESSION_ACCEPTED, "accepted");
        check(answer.kind == MAHUIXEN_SESSION_ACCEPTED && answer.number == i && answer.refusal.number == 0, "its number");
    }
    check(mahuixen_session_accept(&session, 1, &answer) == MAHUIXEN_SESSION_REFUSED, "the table is full");
    check(answer.refusal.number == 22, "the table is full: 22");
    check(mahuixen_session_ack(&session, 60, &answer) == MAHUIXEN_SESSION_DONE, "an ack");
    check(mahuixen_session_reconnect(&session, 62, &answer) == MAHUIXEN_SESSION_RESEND && answer.number == 2, "a resend");
    check(mahuixen_session_held(&session, 0, &message) == 1, "the oldest that is held");
    check(message.number == 63 && message.handle == 763, "its number and its handle");
    check(mahuixen_session_held(&session, 2, &message) == 0 && message.number == 0, "nothing behind the last");
    check(mahuixen_session_ack(&session, 65, &answer) == MAHUIXEN_SESSION_REFUSED && answer.refusal.number == 23, "23");
    check(mahuixen_session_reset(&session, 0, &answer) == MAHUIXEN_SESSION_DONE, "a reset that keeps");
    check(mahuixen_session_held(&session, 1, &message) == 1, "what a reset keeps");
    check(mahuixen_session_reset(&session, 1, &answer) == MAHUIXEN_SESSION_DONE, "a full reset");
    check(mahuixen_session_held(&session, 0, &message) == 0, "what a full reset drops");
    session.released = session.last + 1;
    check(mahuixen_session_held(&session, 0, &message) == 26, "a session that contradicts itself");
    check(mahuixen_session_accept(&session, 1, &answer) == MAHUIXEN_SESSION_REFUSED && answer.refusal.number == 26, "26");
}

/* ---- mahuixen_deliver: an ack, a malformed one, a reconnect_ok and a full reset of two messages */

static uint64_t delivered(mahuixen_state *state, mahuixen_session *session, uint64_t tag, uint64_t length, uint8_t number,
                          mahuixen_answer *effect)
{
    mahuixen_header header = {0, 1, {{0, 0}, {0, 0}, {0, 0}, {0, 0}}};
    uint8_t source[9] = {0};
    uint8_t store[9];
    uint8_t wire[80];
    mahuixen_report report;
    uint64_t written;

    header.tag = tag;
    header.segments[0].len = length;
    source[0] = number;
    written = mahuixen_build_frame(wire, sizeof wire, 0, MAHUIXEN_MSGR21, &header, source, length, &refusal);
    check(mahuixen_deliver(state, session, &report, effect, wire, written - 1, store, sizeof store) == MAHUIXEN_MORE, "more");
    check(effect->kind == MAHUIXEN_EFFECT_NOTHING, "nothing before a frame's last byte");
    check(mahuixen_deliver(state, session, &report, effect, wire + written - 1, 1, store, sizeof store) == MAHUIXEN_FRAME,
          "a delivered frame");
    return effect->kind;
}

static void deliveries(void)
{
    static mahuixen_state state;
    mahuixen_session session;
    mahuixen_answer effect;
    mahuixen_message message;
    mahuixen_report report;
    uint8_t banner[MAHUIXEN_BANNER_LENGTH];
    uint64_t length = mahuixen_build_banner(banner, sizeof banner, 0, MAHUIXEN_FEATURE_REVISION_1, 0, &refusal);

    (void)mahuixen_start(&state, MAHUIXEN_FEATURE_REVISION_1, 0);
    mahuixen_session_start(&session);
    (void)mahuixen_session_accept(&session, 700, &effect);
    (void)mahuixen_session_accept(&session, 701, &effect);
    check(mahuixen_deliver(&state, &session, &report, &effect, banner, length, NULL, 0) == MAHUIXEN_BANNER, "a banner");
    check(effect.kind == MAHUIXEN_EFFECT_NOTHING, "a banner asks nothing");
    check(delivered(&state, &session, MAHUIXEN_TAG_ACK, 9, 1, &effect) == MAHUIXEN_EFFECT_MALFORMED, "a malformed ack");
    check(effect.refusal.number == 20 && effect.refusal.first == 8, "a byte too much: 20");
    check(delivered(&state, &session, MAHUIXEN_TAG_ACK, 8, 3, &effect) == MAHUIXEN_SESSION_REFUSED, "an ack ahead");
    check(effect.refusal.number == 23, "an ack ahead: 23");
    check(delivered(&state, &session, MAHUIXEN_TAG_ACK, 8, 1, &effect) == MAHUIXEN_SESSION_DONE, "an ack is delivered");
    check(mahuixen_session_held(&session, 0, &message) == 1 && message.handle == 701, "what is then held");
    check(delivered(&state, &session, MAHUIXEN_TAG_KEEPALIVE2, 8, 9, &effect) == MAHUIXEN_EFFECT_NOTHING, "another tag");
    check(delivered(&state, &session, MAHUIXEN_TAG_SESSION_RECONNECT_OK, 8, 1, &effect) == MAHUIXEN_SESSION_RESEND &&
              effect.number == 1,
          "a reconnect_ok is delivered");
    check(delivered(&state, &session, MAHUIXEN_TAG_SESSION_RESET, 1, 0, &effect) == MAHUIXEN_SESSION_DONE, "a reset");
    check(mahuixen_session_held(&session, 0, &message) == 1, "a reset that keeps, delivered");
    check(delivered(&state, &session, MAHUIXEN_TAG_SESSION_RESET, 1, 1, &effect) == MAHUIXEN_SESSION_DONE, "a full reset");
    check(mahuixen_session_held(&session, 0, &message) == 0, "what a delivered full reset drops");
}

/* ---- the switch: two sides behind a crc frame, what one builds sealed is received by the other */

static const uint8_t the_key[16] = {1, 2, 3, 4, 5, 6, 7, 8, 9, 10, 11, 12, 13, 14, 15, 16};
static const uint8_t of_us[12] = {1, 0, 0, 0, 0xFF, 0xFF, 0xFF, 0xFF, 0xFF, 0xFF, 0xFF, 0xFF};
static const uint8_t of_the_peer[12] = {2};

/* A receiver behind a banner and a crc frame, switched, and what its side then builds with. */
static void switched(mahuixen_state *state, const uint8_t receiving_nonce[12], const uint8_t sending_nonce[12],
                     mahuixen_sending *sending)
{
    static const mahuixen_header header = {MAHUIXEN_TAG_AUTH_SIGNATURE, 1, {{4, 8}, {0, 0}, {0, 0}, {0, 0}}};
    static const uint8_t source[4] = {1, 2, 3, 4};
    uint8_t wire[100];
    uint8_t store[4];
    mahuixen_report report;
    uint64_t banner = mahuixen_build_banner(wire, sizeof wire, 0, MAHUIXEN_FEATURE_REVISION_1, 0, &refusal);
    uint64_t frame = mahuixen_build_frame(wire, sizeof wire, banner, MAHUIXEN_MSGR21, &header, source, 4, &refusal);

    (void)mahuixen_start(state, MAHUIXEN_FEATURE_REVISION_1, 0);
    check(mahuixen_switch(state, the_key, receiving_nonce, sending_nonce, sending) == 27, "a switch before a frame");
    check(mahuixen_receive(state, &report, wire, banner, NULL, 0) == MAHUIXEN_BANNER, "a banner before a switch");
    check(mahuixen_receive(state, &report, wire + banner, frame, store, sizeof store) == MAHUIXEN_FRAME,
          "a frame before a switch");
    check(mahuixen_switch(state, the_key, receiving_nonce, sending_nonce, sending) == 0, "a switch behind a frame");
    check(memcmp(sending->key, the_key, 16) == 0 && memcmp(sending->nonce, sending_nonce, 12) == 0, "what it hands out");
}

/* Two segments, the first longer than what stands in a first part: three parts, cut at every byte. */
static void sealed_frames(void)
{
    static const mahuixen_header header = {MAHUIXEN_TAG_MESSAGE, 2, {{50, 8}, {20, 0}, {0, 0}, {0, 0}}};
    static mahuixen_state ours;
    static mahuixen_state theirs;
    static mahuixen_state state;
    mahuixen_sending unused;
    mahuixen_sending sending;
    mahuixen_report report;
    uint8_t source[70];
    uint8_t store[128];
    uint8_t wire[400];
    uint64_t whole;
    uint64_t aborted;
    uint64_t cut;
    size_t i;

    for (i = 0; i < sizeof source; i++)
        source[i] = (uint8_t)(i + 1);
    switched(&ours, of_the_peer, of_us, &unused);
    switched(&theirs, of_us, of_the_peer, &sending);
    whole = mahuixen_build_sealed(wire, sizeof wire, 0, &sending, &header, source, sizeof source, &refusal);
    aborted = mahuixen_abort_sealed(wire, sizeof wire, whole, &sending, &header, source, sizeof source, &refusal);
    check(whole == 96 + 32 + 64 && aborted == whole && sending.spent == 6, "two sealed frames of three parts");
    for (cut = 0; cut < whole; cut++) {
        state = ours;
        check(mahuixen_receive(&state, &report, wire, cut, store, sizeof store) == MAHUIXEN_MORE && report.taken == cut,
              "a sealed frame as far as it came");
        check(mahuixen_receive(&state, &report, wire + cut, whole + aborted - cut, store, sizeof store) == MAHUIXEN_FRAME,
              "a sealed frame");
        check(report.taken == whole - cut && memcmp(&report.header, &header, sizeof header) == 0, "its bytes and its header");
        check(memcmp(store, source, sizeof source) == 0 && store[70] == 0 && store[127] == 0, "its segments");
        check(mahuixen_receive(&state, &report, wire + whole, aborted, store, sizeof store) == MAHUIXEN_DROPPED,
              "an aborted sealed frame");
        check(report.taken == aborted && store[0] == 0 && store[49] == 0, "what is left of it");
    }
    state = ours;
    check(mahuixen_receive(&state, &report, wire, whole, store, 127) == MAHUIXEN_REFUSED, "a store too short");
    check(report.refusal.number == 10 && report.refusal.first == 128 && report.taken == 96, "a store too short: 10");
    wire[100] ^= 1;
    state = ours;
    check(mahuixen_receive(&state, &report, wire, whole, store, sizeof store) == MAHUIXEN_REFUSED, "a damaged part");
    check(report.refusal.number == 17 && report.taken == 96 + 32 && store[0] == 0, "a damaged part: 17");
    check(mahuixen_receive(&state, &report, wire, whole, NULL, 0) == MAHUIXEN_REFUSED && report.refusal.number == 17 &&
              report.taken == 0,
          "17 again");
    check(state.sealed.key[0] == 0 && state.sealed.key[1] == 0, "no key is kept");
}

/* A sealed ack: nothing is released before its last byte, nor where a bit of it is changed. */
static void sealed_ack(void)
{
    static const mahuixen_header header = {MAHUIXEN_TAG_ACK, 1, {{8, 0}, {0, 0}, {0, 0}, {0, 0}}};
    static const uint8_t number[8] = {1};
    static mahuixen_state ours;
    static mahuixen_state theirs;
    static mahuixen_state state;
    mahuixen_sending unused;
    mahuixen_sending sending;
    mahuixen_session before;
    mahuixen_session session;
    mahuixen_answer effect;
    mahuixen_message message;
    mahuixen_report report;
    uint8_t store[48];
    uint8_t wire[96];
    size_t cut;

    mahuixen_session_start(&before);
    (void)mahuixen_session_accept(&before, 700, &effect);
    (void)mahuixen_session_accept(&before, 701, &effect);
    switched(&ours, of_the_peer, of_us, &unused);
    switched(&theirs, of_us, of_the_peer, &sending);
    check(mahuixen_build_sealed(wire, sizeof wire, 0, &sending, &header, number, 8, &refusal) == 96, "a sealed ack");
    for (cut = 0; cut < sizeof wire; cut++) {
        state = ours;
        session = before;
        check(mahuixen_deliver(&state, &session, &report, &effect, wire, cut, store, sizeof store) == MAHUIXEN_MORE &&
                  effect.kind == MAHUIXEN_EFFECT_NOTHING && memcmp(&session, &before, sizeof session) == 0,
              "nothing before a sealed ack's last byte");
        check(mahuixen_deliver(&state, &session, &report, &effect, wire + cut, sizeof wire - cut, store, sizeof store) ==
                      MAHUIXEN_FRAME &&
                  effect.kind == MAHUIXEN_SESSION_DONE && report.header.tag == MAHUIXEN_TAG_ACK,
              "a sealed ack is delivered");
        check(session.released == 1 && session.handles[session.released % MAHUIXEN_SESSION_PLACES] == 700, "what it releases");
        check(mahuixen_session_held(&session, 0, &message) == 1 && message.number == 2 && message.handle == 701,
              "what is held behind it");
        wire[cut] ^= 1;
        state = ours;
        session = before;
        check(mahuixen_deliver(&state, &session, &report, &effect, wire, sizeof wire, store, sizeof store) ==
                      MAHUIXEN_REFUSED &&
                  report.refusal.number == 17 && effect.kind == MAHUIXEN_EFFECT_NOTHING &&
                  memcmp(&session, &before, sizeof session) == 0,
              "a changed sealed ack releases nothing");
        wire[cut] ^= 1;
    }
}

/* ---- the handshake */

static void handshake(void)
{
    static const uint64_t came[] = {MAHUIXEN_TAG_HELLO, MAHUIXEN_TAG_AUTH_DONE, MAHUIXEN_TAG_AUTH_SIGNATURE,
                                    MAHUIXEN_TAG_SERVER_IDENT, MAHUIXEN_TAG_MESSAGE};
    static const uint32_t preferred[] = {3, 2, 1};
    static const uint32_t allowed[] = {1, 2};
    mahuixen_verdict verdict = {MAHUIXEN_AUTH_MORE, 1, 1, 0};
    uint64_t state = MAHUIXEN_HANDSHAKE_HELLO;
    size_t i;

    for (i = 0; i < sizeof came / sizeof came[0]; i++) {
        state = mahuixen_client_step(state, came[i], &verdict, &refusal);
        refused(0, 0, "a client's step");
    }
    check(state == MAHUIXEN_HANDSHAKE_READY, "a client is ready");
    check(mahuixen_client_step(state, 1, &verdict, &refusal) == MAHUIXEN_HANDSHAKE_CLOSED, "a second hello");
    refused(21, 1, "a second hello");
    state = mahuixen_server_step(MAHUIXEN_HANDSHAKE_AUTH, MAHUIXEN_TAG_AUTH_REQUEST, &verdict, &refusal);
    check(state == MAHUIXEN_HANDSHAKE_MORE, "a server that wants more");
    state = mahuixen_server_step(MAHUIXEN_HANDSHAKE_SESSION, MAHUIXEN_TAG_SESSION_RECONNECT, &verdict, &refusal);
    check(state == MAHUIXEN_HANDSHAKE_SESSION, "a reconnect that is turned down");
    verdict.auth = 4;
    check(mahuixen_server_step(3, 7, &verdict, &refusal) == 3, "beyond its field");
    refused(26, 0, "a verdict beyond its field");
    check(mahuixen_pick_mode(preferred, 3, allowed, 2) == 2, "the mode");
    check(mahuixen_pick_mode(preferred, 1, allowed, 2) == MAHUIXEN_NO_MODE, "no mode");
    check(mahuixen_pick_mode(NULL, 0, NULL, 0) == MAHUIXEN_NO_MODE, "no mode of none");
}

/* ---- bodies: an auth_bad_method and an ident, written and read back */

static void bodies(void)
{
    static const uint32_t methods[] = {2, 1};
    static const uint32_t modes[] = {0xFFFFFFFF};
    static const uint8_t bad[] = {2, 0, 0, 0, 0xa1, 0xff, 0xff, 0xff, 2, 0,    0,    0,    2,   0,
                                  0, 0, 1, 0, 0,    0,    1,    0,    0, 0,    0xff, 0xff, 0xff, 0xff};
    static const uint8_t block[] = {9, 8, 7};
    mahuixen_body body;
    mahuixen_body read;
    uint8_t out[80];
    uint64_t i;

    memset(&body, 0, sizeof body);
    body.kind = MAHUIXEN_BODY_BAD_METHOD;
    body.numbers[MAHUIXEN_BAD_METHOD_METHOD] = 2;
    body.numbers[MAHUIXEN_BAD_METHOD_ERROR] = (uint32_t)-95;
    memset(out, 0xAA, sizeof out);
    check(mahuixen_write_body(out, sizeof out, MAHUIXEN_TAG_AUTH_BAD_METHOD, &body, methods, 2, modes, 1, NULL, 0,
                              &refusal) == sizeof bad,
          "the length of a body");
    refused(0, 0, "a body is written");
    check(memcmp(out, bad, sizeof bad) == 0 && out[sizeof bad] == 0xAA, "a body's bytes");
    check(mahuixen_read_body(MAHUIXEN_TAG_AUTH_BAD_METHOD, out, sizeof bad, &read) == MAHUIXEN_BODY_BAD_METHOD, "its kind");
    check(read.numbers[MAHUIXEN_BAD_METHOD_METHOD] == 2 &&
              (int32_t)(uint32_t)read.numbers[MAHUIXEN_BAD_METHOD_ERROR] == -95,
          "its numbers");
    check(read.first.count == 2 && mahuixen_list_number(out, &read.first, 1) == 1, "its first list");
    check(read.second.count == 1 && mahuixen_list_number(out, &read.second, 0) == 0xFFFFFFFF, "its second list");
    check(mahuixen_read_body(MAHUIXEN_TAG_AUTH_BAD_METHOD, out, sizeof bad - 1, &read) == MAHUIXEN_BODY_REFUSED, "cut off");
    check(read.refusal.number == 20 && read.refusal.first == 24, "where it is cut off");

    body.kind = MAHUIXEN_BODY_IDENT;
    for (i = 0; i < 7; i++)
        body.numbers[i] = 100 + i;
    check(mahuixen_write_body(out, sizeof out, MAHUIXEN_TAG_SERVER_IDENT, &body, NULL, 0, NULL, 0, block, 3, &refusal) == 55,
          "the length of an ident");
    check(mahuixen_read_body(MAHUIXEN_TAG_SERVER_IDENT, out, 55, &read) == MAHUIXEN_BODY_IDENT, "an ident");
    check(out[0] == 100 && out[7] == 101 && read.numbers[MAHUIXEN_IDENT_ADDRESSES] == 100, "an ident's addresses count");
    check(out[47] == 106 && read.numbers[MAHUIXEN_IDENT_COOKIE] == 106, "an ident's cookie");
    check(memcmp(read.numbers, body.numbers, sizeof body.numbers) == 0, "an ident's numbers");
    check(read.bytes.len == 3 && memcmp(out + read.bytes.at, block, 3) == 0, "an ident's addresses");
    check(mahuixen_write_body(out, 54, MAHUIXEN_TAG_SERVER_IDENT, &body, NULL, 0, NULL, 0, block, 3, &refusal) == 0, "14");
    refused(14, 55, "no room for an ident");
    body.numbers[0] = UINT64_C(1) << 32;
    check(mahuixen_write_body(out, 80, MAHUIXEN_TAG_SERVER_IDENT, &body, NULL, 0, NULL, 0, block, 3, &refusal) == 0, "26");
    refused(26, 0, "a number beyond its field");
}

/* ---- the version and the texts: each number has one of its own */

static void texts(const char *(*text)(uint64_t), uint64_t first, uint64_t last)
{
    uint64_t i;
    uint64_t j;
    for (i = first; i <= last; i++) {
        check(strcmp(text(i), "unknown") != 0, "a number without a text");
        for (j = first; j < i; j++)
            check(strcmp(text(i), text(j)) != 0, "two numbers with one text");
    }
    check(strcmp(text(last + 1), "unknown") == 0 && strcmp(text(UINT64_MAX), "unknown") == 0, "a text beyond the last");
}

static void version(void)
{
    char text[32];
    uint64_t v = mahuixen_version();
    snprintf(text, sizeof text, "%u.%u.%u", (unsigned)(v / 1000000), (unsigned)(v / 1000 % 1000), (unsigned)(v % 1000));
    check(v == MAHUIXEN_VERSION, "the library's version is the header's");
    check(strcmp(text, MAHUIXEN_VERSION_TEXT) == 0, "the version's text");
    texts(mahuixen_refusal_text, 0, 27);
    texts(mahuixen_tag_text, 1, 20);
    texts(mahuixen_report_text, 0, 5);
}

int main(void)
{
    version();
    sealing();
    sealed_builds();
    sessions();
    deliveries();
    sealed_frames();
    sealed_ack();
    handshake();
    bodies();
    if (failures == 0)
        printf("families: all as known\n");
    return failures != 0;
}
