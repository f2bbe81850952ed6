/*
 * Prints how many bytes of stack each exported call uses, a line each: NAME: BYTES.
 * A thread makes the call on a stack that was filled with one byte, below room that
 * the thread itself does not come to, and what was changed there is counted, less
 * what a call of nothing changes. Each call is made with inputs that take all its
 * ways, with the longest lengths; the greatest use counts.
 */
#define _POSIX_C_SOURCE 200809L
#include "mahuixen.h"

#include <pthread.h>
#include <stdint.h>
#include <stdio.h>
#include <stdlib.h>
#include <string.h>

enum { STACK = 1 << 20, ROOM = 1 << 16, FILL = 0xA5, SEGMENT = 1 << 20, WIRE = 2 * SEGMENT + 176 };

static uint8_t source[2 * SEGMENT];
static uint8_t store[MAHUIXEN_STORE_LIMIT];
static uint8_t wire[WIRE];
static mahuixen_refusal refusal;

/* Two segments at their limit. */
static const mahuixen_header longest = {17, 2, {{SEGMENT, 0}, {SEGMENT, 0}, {0, 0}, {0, 0}}};

static void nothing(void)
{
}

/* ---- links: a banner and frames, of which those that speak to a session are last */

enum { SPEAKING = 6, FRAMES = 4 + SPEAKING, PLAIN = 4096 };

static const mahuixen_header frames[FRAMES] = {
    {17, 2, {{PLAIN, 0}, {PLAIN, 0}, {0, 0}, {0, 0}}}, {17, 4, {{0, 0}, {1, 0}, {PLAIN, 0}, {3, 0}}},
    {17, 1, {{PLAIN, 0}, {0, 0}, {0, 0}, {0, 0}}},     {16, 1, {{0, 0}, {0, 0}, {0, 0}, {0, 0}}},
    {20, 1, {{8, 0}, {0, 0}, {0, 0}, {0, 0}}},         {15, 1, {{8, 0}, {0, 0}, {0, 0}, {0, 0}}},
    {20, 1, {{9, 0}, {0, 0}, {0, 0}, {0, 0}}},         {20, 2, {{8, 0}, {1, 0}, {0, 0}, {0, 0}}},
    {12, 1, {{1, 0}, {0, 0}, {0, 0}, {0, 0}}},         {17, 2, {{PLAIN, 0}, {PLAIN, 0}, {0, 0}, {0, 0}}},
};

/* msgr2.0, msgr2.1 and what comes behind a switch; the frame last but one is aborted, and a bit of the last is damaged. */
enum { SEALED = 2, LINKS = 3 };
static uint8_t sent[LINKS][1 << 16];
static size_t length[LINKS];
static mahuixen_state switched;

static uint64_t total(const mahuixen_header *header)
{
    uint64_t sum = 0;
    for (int i = 0; i < 4; i++)
        sum += header->segments[i].len;
    return sum;
}

static void add(int link, mahuixen_sending *sending, const mahuixen_header *header, int aborted)
{
    uint8_t *out = sent[link];
    uint64_t at = length[link];
    uint64_t all = total(header);
    uint64_t n;
    if (link == SEALED)
        n = (aborted ? mahuixen_abort_sealed : mahuixen_build_sealed)(out, sizeof sent[0], at, sending, header, source, all,
                                                                    &refusal);
    else
        n = (aborted ? mahuixen_abort_frame : mahuixen_build_frame)(out, sizeof sent[0], at, (uint64_t)link, header, source,
                                                                  all, &refusal);
    if (n == 0)
        exit(1);
    length[link] += (size_t)n;
}

static const uint8_t key[16] = {1};
static const uint8_t nonce[12] = {2};

/* A receiver behind its first frame. */
static mahuixen_state behind_a_frame(void)
{
    mahuixen_state state;
    mahuixen_report report;
    size_t at = 0;
    (void)mahuixen_start(&state, 1, 0);
    do {
        (void)mahuixen_receive(&state, &report, sent[1] + at, length[1] - at, store, sizeof store);
        at += (size_t)report.taken;
    } while (report.kind != MAHUIXEN_FRAME);
    return state;
}

/* One that has a banner, a preamble and two bytes of segment 1. */
static mahuixen_state within_a_frame(void)
{
    mahuixen_state state;
    mahuixen_report report;
    (void)mahuixen_start(&state, 1, 0);
    (void)mahuixen_receive(&state, &report, sent[1], MAHUIXEN_BANNER_LENGTH, store, sizeof store);
    (void)mahuixen_receive(&state, &report, sent[1] + MAHUIXEN_BANNER_LENGTH, 34, store, sizeof store);
    return state;
}

static void links(void)
{
    static mahuixen_sending sending;
    for (size_t i = 0; i < sizeof source; i++)
        source[i] = (uint8_t)(i * 7);
    for (int link = 0; link < LINKS; link++) {
        if (link == SEALED) {
            switched = behind_a_frame();
            if (mahuixen_switch(&switched, key, nonce, nonce, &sending) != 0)
                exit(1);
        } else {
            length[link] = (size_t)mahuixen_build_banner(sent[link], sizeof sent[0], 0, (uint64_t)link, 0, &refusal);
        }
        for (int i = 0; i < FRAMES; i++)
            add(link, &sending, &frames[i], 0);
        add(link, &sending, &frames[0], 1);
        add(link, &sending, &frames[0], 0);
        sent[link][length[link] - 60] ^= 1;
    }
}

/* ---- receiving: whole and in pieces of 1, 90 and 1,460 bytes, by receive or by deliver; then refused, and a bad state */

static mahuixen_session session;
static mahuixen_answer answer;

static uint64_t call(int delivers, mahuixen_state *state, mahuixen_report *report, const uint8_t *piece, uint64_t len)
{
    return delivers ? mahuixen_deliver(state, &session, report, &answer, piece, len, store, sizeof store)
                    : mahuixen_receive(state, report, piece, len, store, sizeof store);
}

static void receive_link(int delivers, int link)
{
    static const size_t pieces[] = {1, 90, 1460, sizeof sent[0]};
    static mahuixen_state state;
    static mahuixen_report report;
    for (size_t k = 0; k < sizeof pieces / sizeof pieces[0]; k++) {
        size_t at = 0;
        if (link == SEALED)
            state = switched;
        else
            (void)mahuixen_start(&state, 1, 0);
        mahuixen_session_start(&session);
        session.last = 9;
        do {
            size_t n = length[link] - at < pieces[k] ? length[link] - at : pieces[k];
            (void)call(delivers, &state, &report, sent[link] + at, n);
            at += (size_t)report.taken;
        } while (report.kind != MAHUIXEN_REFUSED);
        if (at < length[link] - 2 * PLAIN)
            exit(1);
        (void)call(delivers, &state, &report, sent[link], length[link]);
        state.ready = 2;
        (void)call(delivers, &state, &report, sent[link], length[link]);
    }
}

static void receive_crc(void)
{
    receive_link(0, 0);
    receive_link(0, 1);
}

static void receive_sealed(void)
{
    receive_link(0, SEALED);
}

static void deliver_crc(void)
{
    receive_link(1, 0);
    receive_link(1, 1);
}

static void deliver_sealed(void)
{
    receive_link(1, SEALED);
}

static void start(void)
{
    static mahuixen_state state;
    (void)mahuixen_start(&state, 1, 0);
    (void)mahuixen_start(&state, 2, 0);
}

static mahuixen_state framed, midway;

static void switch_to_secure(void)
{
    static mahuixen_sending sending;
    static mahuixen_state state;
    state = framed;
    (void)mahuixen_switch(&state, key, nonce, nonce, &sending);
    (void)mahuixen_switch(&state, key, nonce, nonce, &sending);
    state.mode = 2;
    (void)mahuixen_switch(&state, key, nonce, nonce, &sending);
    state = midway;
    (void)mahuixen_switch(&state, key, nonce, nonce, &sending);
}

/* ---- building: the longest frame, and one that is refused */

static void build_banner(void)
{
    (void)mahuixen_build_banner(wire, sizeof wire, 0, 1, 0, &refusal);
    (void)mahuixen_build_banner(wire, sizeof wire, 0, 2, 0, &refusal);
}

static void build_frame(void)
{
    for (uint64_t revision = 0; revision < 2; revision++) {
        (void)mahuixen_build_frame(wire, sizeof wire, 0, revision, &longest, source, sizeof source, &refusal);
        (void)mahuixen_build_frame(wire, sizeof wire, 0, revision, &frames[1], source, total(&frames[1]), &refusal);
        (void)mahuixen_build_frame(wire, 9, 0, revision, &longest, source, sizeof source, &refusal);
    }
}

static void abort_frame(void)
{
    for (uint64_t revision = 0; revision < 2; revision++) {
        (void)mahuixen_abort_frame(wire, sizeof wire, 0, revision, &longest, source, sizeof source, &refusal);
        (void)mahuixen_abort_frame(wire, sizeof wire, 0, revision, &frames[1], source, total(&frames[1]), &refusal);
        (void)mahuixen_abort_frame(wire, 9, 0, revision, &longest, source, sizeof source, &refusal);
    }
}

/* Segments that are no multiples of 16, so that each is padded. */
static const mahuixen_header padded = {19, 4, {{31, 0}, {300, 0}, {44, 0}, {300, 0}}};

static void build_sealed(void)
{
    static mahuixen_sending sending;
    (void)mahuixen_build_sealed(wire, sizeof wire, 0, &sending, &padded, source, total(&padded), &refusal);
    (void)mahuixen_build_sealed(wire, sizeof wire, 0, &sending, &longest, source, sizeof source, &refusal);
    (void)mahuixen_build_sealed(wire, sizeof wire, 0, &sending, &frames[1], source, total(&frames[1]), &refusal);
    (void)mahuixen_build_sealed(wire, 9, 0, &sending, &longest, source, sizeof source, &refusal);
}

static void abort_sealed(void)
{
    static mahuixen_sending sending;
    (void)mahuixen_abort_sealed(wire, sizeof wire, 0, &sending, &padded, source, total(&padded), &refusal);
    (void)mahuixen_abort_sealed(wire, sizeof wire, 0, &sending, &longest, source, sizeof source, &refusal);
    (void)mahuixen_abort_sealed(wire, sizeof wire, 0, &sending, &frames[1], source, total(&frames[1]), &refusal);
    (void)mahuixen_abort_sealed(wire, 9, 0, &sending, &longest, source, sizeof source, &refusal);
}

static uint8_t sealed[PLAIN + 16];

static void seal(void)
{
    (void)mahuixen_seal(key, nonce, source, PLAIN, sealed, sizeof sealed, &refusal);
    (void)mahuixen_seal(key, nonce, source, PLAIN - 3, sealed, sizeof sealed, &refusal);
    (void)mahuixen_seal(key, nonce, source, PLAIN, sealed, 9, &refusal);
}

/* Good, damaged and cut off. */
static void open_sealed(void)
{
    seal();
    (void)mahuixen_open(key, nonce, sealed, PLAIN - 3 + 16, store, sizeof store, &refusal);
    if (refusal.number != 0)
        exit(1);
    (void)mahuixen_open(key, nonce, sealed, sizeof sealed, store, sizeof store, &refusal);
    (void)mahuixen_open(key, nonce, sealed, 9, store, sizeof store, &refusal);
}

/* ---- sessions: done and refused */

static void session_start(void)
{
    mahuixen_session_start(&session);
}

static void session_accept(void)
{
    for (uint64_t i = 0; i < 65; i++)
        (void)mahuixen_session_accept(&session, i, &answer);
}

static void session_ack(void)
{
    (void)mahuixen_session_ack(&session, 9, &answer);
    (void)mahuixen_session_ack(&session, 999, &answer);
}

static void session_reconnect(void)
{
    (void)mahuixen_session_reconnect(&session, 12, &answer);
    (void)mahuixen_session_reconnect(&session, 999, &answer);
}

static void session_reset(void)
{
    (void)mahuixen_session_reset(&session, 0, &answer);
    (void)mahuixen_session_reset(&session, 1, &answer);
}

static void session_held(void)
{
    static mahuixen_message message;
    session.released = 0;
    session.last = 64;
    (void)mahuixen_session_held(&session, 3, &message);
    (void)mahuixen_session_held(&session, 99, &message);
    session.released = 999;
    (void)mahuixen_session_held(&session, 3, &message);
}

/* ---- the handshake: every state and tag, every kind written by every tag and read back by it */

static void client_step(void)
{
    static const mahuixen_verdict verdict = {1, 1, 1, 1};
    for (uint64_t state = 0; state < 10; state++)
        for (uint64_t tag = 0; tag < 22; tag++)
            (void)mahuixen_client_step(state, tag, &verdict, &refusal);
}

static void server_step(void)
{
    static const mahuixen_verdict verdict = {1, 1, 1, 1};
    for (uint64_t state = 0; state < 10; state++)
        for (uint64_t tag = 0; tag < 22; tag++)
            (void)mahuixen_server_step(state, tag, &verdict, &refusal);
}

static void pick_mode(void)
{
    static const uint32_t modes[64] = {1, 2, 3, 4};
    (void)mahuixen_pick_mode(modes + 4, 60, modes + 1, 3);
    (void)mahuixen_pick_mode(modes, 64, modes + 3, 1);
}

static uint64_t write_one(uint64_t tag, uint64_t kind)
{
    static const uint32_t list[] = {1, 2, 3};
    static mahuixen_body body;
    memset(&body, 0, sizeof body);
    body.kind = kind;
    body.numbers[1] = 0xFFFFFFFF;
    return mahuixen_write_body(store, sizeof store, tag, &body, list, 3, list, 3, source, 8, &refusal);
}

static void write_body(void)
{
    for (uint64_t tag = 0; tag < 22; tag++)
        for (uint64_t kind = 0; kind < 12; kind++)
            (void)write_one(tag, kind);
}

/* What write_body wrote last of each tag. */
static struct {
    uint8_t bytes[128];
    uint64_t length;
} written[22];

static void write_each(void)
{
    for (uint64_t tag = 0; tag < 22; tag++)
        for (uint64_t kind = 0; kind < 12; kind++) {
            uint64_t n = write_one(tag, kind);
            if (n == 0)
                continue;
            written[tag].length = n;
            memcpy(written[tag].bytes, store, (size_t)n);
        }
}

static void read_body(void)
{
    static mahuixen_body body;
    for (uint64_t tag = 0; tag < 22; tag++) {
        (void)mahuixen_read_body(tag, written[tag].bytes, written[tag].length, &body);
        (void)mahuixen_read_body(tag, written[tag].bytes, written[tag].length / 2, &body);
    }
}

static void checksum(void)
{
    (void)mahuixen_checksum(MAHUIXEN_SEGMENT_START, source, sizeof source);
    (void)mahuixen_checksum(MAHUIXEN_SEGMENT_START, source, 27);
}

static void version(void)
{
    (void)mahuixen_version();
}

/* ---- measuring */

static void *run(void *given)
{
    volatile uint8_t room[ROOM];
    void (*f)(void);
    room[0] = FILL;
    room[ROOM - 1] = FILL;
    memcpy(&f, given, sizeof f);
    f();
    return room[0] == FILL ? NULL : given;
}

static size_t used(void (*f)(void))
{
    void *memory = NULL;
    uint8_t *stack;
    pthread_attr_t attributes;
    pthread_t thread;
    size_t untouched = 0;
    if (posix_memalign(&memory, 65536, STACK) != 0)
        exit(1);
    stack = memory;
    memset(stack, FILL, STACK);
    if (pthread_attr_init(&attributes) != 0 || pthread_attr_setstack(&attributes, stack, STACK) != 0 ||
        pthread_create(&thread, &attributes, run, &f) != 0 || pthread_join(thread, NULL) != 0)
        exit(1);
    while (untouched < STACK && stack[untouched] == FILL)
        untouched++;
    free(stack);
    return STACK - untouched;
}

int main(void)
{
    static const struct {
        const char *name;
        void (*call)(void);
    } calls[] = {
        {"mahuixen_start", start},
        {"mahuixen_receive, crc frames", receive_crc},
        {"mahuixen_receive, sealed frames", receive_sealed},
        {"mahuixen_deliver, crc frames", deliver_crc},
        {"mahuixen_deliver, sealed frames", deliver_sealed},
        {"mahuixen_switch", switch_to_secure},
        {"mahuixen_build_banner", build_banner},
        {"mahuixen_build_frame", build_frame},
        {"mahuixen_abort_frame", abort_frame},
        {"mahuixen_build_sealed", build_sealed},
        {"mahuixen_abort_sealed", abort_sealed},
        {"mahuixen_seal", seal},
        {"mahuixen_open", open_sealed},
        {"mahuixen_session_start", session_start},
        {"mahuixen_session_accept", session_accept},
        {"mahuixen_session_ack", session_ack},
        {"mahuixen_session_reconnect", session_reconnect},
        {"mahuixen_session_reset", session_reset},
        {"mahuixen_session_held", session_held},
        {"mahuixen_client_step", client_step},
        {"mahuixen_server_step", server_step},
        {"mahuixen_pick_mode", pick_mode},
        {"mahuixen_read_body", read_body},
        {"mahuixen_write_body", write_body},
        {"mahuixen_checksum", checksum},
        {"mahuixen_version", version},
    };
    size_t base = used(nothing);
    links();
    write_each();
    framed = behind_a_frame();
    midway = within_a_frame();
    for (size_t i = 0; i < sizeof calls / sizeof calls[0]; i++) {
        /* Once before it is measured: the first call of a function of the C library looks it up, on the stack. */
        calls[i].call();
        printf("%s: %zu\n", calls[i].name, used(calls[i].call) - base);
    }
    return 0;
}
