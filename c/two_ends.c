/*
 * Two ends of a link over TCP on this machine. One end sends a banner and a
 * list of frames, one of them aborted and the last one damaged on its way; the
 * other end prints what its receiver reports, which in msgr2.1 is segment 1 of
 * a longer frame before the rest of it. Writes and reads are cut at random. The
 * exit status is 0 only if every report came as planned.
 *
 *     two_ends [SEED]
 */
#define _POSIX_C_SOURCE 200809L

#include <arpa/inet.h>
#include <inttypes.h>
#include <netinet/in.h>
#include <netinet/tcp.h>
#include <stdio.h>
#include <stdlib.h>
#include <string.h>
#include <sys/socket.h>
#include <sys/wait.h>
#include <unistd.h>

#include "mahuixen.h"

/* ---- what is sent */

typedef struct planned {
    mahuixen_header header;
    int aborted;
    int damaged;
} planned;

static const planned frames[] = {
    {{MAHUIXEN_TAG_HELLO, 1, {{24, 8}}}, 0, 0},
    {{MAHUIXEN_TAG_MESSAGE, 4, {{20, 8}, {70, 8}, {0, 8}, {350, 4096}}}, 0, 0},
    {{MAHUIXEN_TAG_MESSAGE, 3, {{41, 8}, {16, 8}, {5000, 4096}}}, 1, 0},
    {{MAHUIXEN_TAG_KEEPALIVE2, 1, {{16, 8}}}, 0, 0},
    {{MAHUIXEN_TAG_MESSAGE, 2, {{MAHUIXEN_SEGMENT_LIMIT, 8}, {MAHUIXEN_SEGMENT_LIMIT, 4096}}}, 0, 0},
    {{MAHUIXEN_TAG_WAIT, 1, {{0, 8}}}, 0, 0},
    {{MAHUIXEN_TAG_ACK, 1, {{8, 8}}}, 0, 0},
    {{MAHUIXEN_TAG_MESSAGE, 2, {{64, 8}, {900, 8}}}, 0, 1},
};

enum { FRAMES = sizeof frames / sizeof frames[0] };

/* A byte of a planned frame's segments. */
static uint8_t content(size_t frame, size_t at)
{
    return (uint8_t)(frame * 37 + at * 11 + at / 251);
}

static size_t total(const mahuixen_header *h)
{
    uint64_t sum = 0;
    for (int i = 0; i < 4; i++) {
        sum += h->segments[i].len;
    }
    return (size_t)sum;
}

/* ---- chance and failure */

static uint32_t chance = 2463534242u;

/* From 1 to limit. */
static size_t draw(size_t limit)
{
    chance ^= chance << 13;
    chance ^= chance >> 17;
    chance ^= chance << 5;
    return 1 + chance % limit;
}

static int failures = 0;

static void check(int ok, const char *what)
{
    if (!ok) {
        printf("  NOT AS PLANNED: %s\n", what);
        failures++;
    }
}

static void stop(const char *what)
{
    perror(what);
    exit(1);
}

/* ---- an end of the link */

/* Too large for a stack; every one is static. */
typedef struct end {
    int fd;
    mahuixen_state state;
    uint8_t store[MAHUIXEN_FRAME_LIMIT];
    uint8_t held[4096]; /* bytes that came; those from `from` up to `until` were not taken yet */
    size_t from;
    size_t until;
} end;

static void send_in_pieces(int fd, const uint8_t *bytes, size_t count)
{
    size_t sent = 0;
    while (sent < count) {
        size_t piece = draw(draw(4000));
        if (piece > count - sent) {
            piece = count - sent;
        }
        ssize_t n = write(fd, bytes + sent, piece);
        if (n < 0) {
            stop("write");
        }
        sent += (size_t)n;
    }
}

/* The next report other than more wanted. */
static mahuixen_report next_report(end *e)
{
    for (;;) {
        mahuixen_report r;
        uint64_t kind =
            mahuixen_receive(&e->state, &r, e->held + e->from, e->until - e->from, e->store, sizeof e->store);
        check(kind == r.kind, "the kind that a call answers");
        e->from += (size_t)r.taken;
        if (kind != MAHUIXEN_MORE) {
            return r;
        }
        ssize_t n = read(e->fd, e->held, draw(draw(sizeof e->held)));
        if (n <= 0) {
            stop("the stream ended");
        }
        e->from = 0;
        e->until = (size_t)n;
    }
}

/* Both ends send their banner and wait for the other's. */
static mahuixen_report greet(end *e, uint64_t supported)
{
    uint8_t banner[MAHUIXEN_BANNER_LENGTH];
    mahuixen_refusal refusal;
    check(mahuixen_start(&e->state, supported, 0) == MAHUIXEN_REFUSAL_NONE, "a start with our features");
    check(mahuixen_build_banner(banner, sizeof banner, 0, supported, 0, &refusal) == sizeof banner, "a banner with them");
    check(refusal.number == MAHUIXEN_REFUSAL_NONE, "and no refusal");
    send_in_pieces(e->fd, banner, sizeof banner);
    return next_report(e);
}

/* ---- the sending end */

/* Builds a frame behind what is queued, and says how many bytes are then queued. */
static size_t enqueue(uint8_t *queue, size_t room, size_t queued, uint64_t revision, size_t number)
{
    static uint8_t source[MAHUIXEN_FRAME_LIMIT];
    const planned *p = &frames[number];
    size_t length = total(&p->header);
    for (size_t i = 0; i < length; i++) {
        source[i] = content(number, i);
    }
    mahuixen_refusal refusal;
    uint64_t written =
        p->aborted ? mahuixen_abort_frame(queue, room, queued, revision, &p->header, source, length, &refusal)
                   : mahuixen_build_frame(queue, room, queued, revision, &p->header, source, length, &refusal);
    check(written > 0 && refusal.number == MAHUIXEN_REFUSAL_NONE, "a frame of the list is built");
    if (p->damaged) {
        /* A byte in the middle of its last segment, whichever the revision. */
        queue[queued + written - 200] ^= 0x10;
    }
    return queued + (size_t)written;
}

static int send_frames(end *e, uint64_t supported)
{
    static uint8_t queue[FRAMES * MAHUIXEN_FRAME_OVERHEAD + 2 * MAHUIXEN_FRAME_LIMIT];
    mahuixen_report banner = greet(e, supported);
    check(banner.kind == MAHUIXEN_BANNER, "the other end's banner");
    size_t queued = 0;
    for (size_t i = 0; i < FRAMES; i++) {
        queued = enqueue(queue, sizeof queue, queued, banner.revision, i);
    }
    send_in_pieces(e->fd, queue, queued);
    return failures;
}

/* ---- the receiving end */

static void print_header(const char *word, const mahuixen_header *h)
{
    printf("  %s: %s, segments of", word, mahuixen_tag_text(h->tag));
    for (uint64_t i = 0; i < h->count; i++) {
        printf("%s %" PRIu64, i == 0 ? "" : ",", h->segments[i].len);
    }
    printf(" bytes\n");
}

static void print_refusal(const mahuixen_refusal *r)
{
    if (r->number == MAHUIXEN_REFUSAL_SEGMENT_CHECKSUM) {
        printf("  refused: the checksum of segment %" PRIu64 " differs\n", r->first);
    } else {
        printf("  refused: number %" PRIu64 ", details %" PRIu64 " %" PRIu64 " %" PRIu64 "\n", r->number, r->first,
               r->second, r->third);
    }
}

static void print_report(const mahuixen_report *r)
{
    switch (r->kind) {
    case MAHUIXEN_BANNER:
        printf("  banner: msgr2.%" PRIu64 ", the peer supports %" PRIx64 " and requires %" PRIx64 "\n", r->revision,
               r->peer.supported, r->peer.required);
        break;
    case MAHUIXEN_FRAME:
        print_header("frame", &r->header);
        break;
    case MAHUIXEN_DROPPED:
        print_header("dropped", &r->header);
        break;
    case MAHUIXEN_FIRST:
        print_header("segment 1 of a frame", &r->header);
        break;
    case MAHUIXEN_REFUSED:
        print_refusal(&r->refusal);
        break;
    default:
        printf("  kind %" PRIu64 "\n", r->kind);
    }
}

static int same_header(const mahuixen_header *a, const mahuixen_header *b)
{
    int same = a->tag == b->tag && a->count == b->count;
    for (int i = 0; i < 4; i++) {
        same = same && a->segments[i].len == b->segments[i].len && a->segments[i].align == b->segments[i].align;
    }
    return same;
}

/* So many bytes at the store's front are the frame's, or zeros. */
static int stored(const end *e, size_t number, size_t length, int zeros)
{
    int same = 1;
    for (size_t i = 0; i < length; i++) {
        same = same && e->store[i] == (zeros ? 0 : content(number, i));
    }
    return same;
}

/* In msgr2.1 segment 1 is reported by itself, where it is not empty and others follow. */
static void expect_first(end *e, size_t number, uint64_t revision)
{
    const mahuixen_header *h = &frames[number].header;
    if (revision == MAHUIXEN_MSGR20 || h->segments[0].len == 0 || h->count == 1) {
        return;
    }
    mahuixen_report r = next_report(e);
    print_report(&r);
    check(r.kind == MAHUIXEN_FIRST, "a report of segment 1");
    check(same_header(&r.header, h), "the header with segment 1");
    check(stored(e, number, (size_t)h->segments[0].len, 0), "segment 1 in the store");
}

static void expect_frame(end *e, size_t number)
{
    const planned *p = &frames[number];
    mahuixen_report r = next_report(e);
    print_report(&r);
    check(r.kind == (uint64_t)(p->aborted ? MAHUIXEN_DROPPED : MAHUIXEN_FRAME), "the kind of the report");
    check(same_header(&r.header, &p->header), "the header");
    check(stored(e, number, total(&p->header), p->aborted), "the segments in the store");
}

static void expect_refusal(end *e, uint64_t number, uint64_t detail)
{
    mahuixen_report r = next_report(e);
    print_report(&r);
    check(r.kind == MAHUIXEN_REFUSED && r.refusal.number == number && r.refusal.first == detail, "the refusal");
    /* From now on every call repeats it and takes nothing. */
    (void)mahuixen_receive(&e->state, &r, e->held, sizeof e->held, e->store, sizeof e->store);
    check(r.taken == 0 && r.refusal.number == number, "the refusal, once more");
    (void)mahuixen_receive(&e->state, &r, NULL, 0, NULL, 0);
    check(r.taken == 0 && r.refusal.number == number, "the refusal, with nothing lent");
}

static void receive_frames(end *e, uint64_t supported, uint64_t peer, uint64_t revision)
{
    mahuixen_report banner = greet(e, supported);
    print_report(&banner);
    check(banner.kind == MAHUIXEN_BANNER && banner.revision == revision, "the banner");
    check(banner.peer.supported == peer && banner.peer.required == 0, "the peer's features");
    for (size_t i = 0; i < FRAMES; i++) {
        expect_first(e, i, revision);
        if (frames[i].damaged) {
            expect_refusal(e, MAHUIXEN_REFUSAL_SEGMENT_CHECKSUM, frames[i].header.count);
        } else {
            expect_frame(e, i);
        }
    }
}

/* ---- the link */

static int listen_here(struct sockaddr_in *at)
{
    socklen_t length = sizeof *at;
    int fd = socket(AF_INET, SOCK_STREAM, 0);
    memset(at, 0, sizeof *at);
    at->sin_family = AF_INET;
    at->sin_addr.s_addr = htonl(INADDR_LOOPBACK);
    if (fd < 0 || bind(fd, (struct sockaddr *)at, sizeof *at) != 0 || listen(fd, 1) != 0 ||
        getsockname(fd, (struct sockaddr *)at, &length) != 0) {
        stop("a socket that listens");
    }
    return fd;
}

static int connect_to(const struct sockaddr_in *at)
{
    int on = 1;
    int fd = socket(AF_INET, SOCK_STREAM, 0);
    /* So that a short write goes out as it is. */
    if (fd < 0 || connect(fd, (const struct sockaddr *)at, sizeof *at) != 0 ||
        setsockopt(fd, IPPROTO_TCP, TCP_NODELAY, &on, sizeof on) != 0) {
        stop("a connection");
    }
    return fd;
}

static void run_link(uint64_t sender, uint64_t receiver, uint64_t revision)
{
    static end e;
    struct sockaddr_in at;
    int listening = listen_here(&at);
    int status = 1;
    memset(&e, 0, sizeof e);
    printf("a sender that supports %d, a receiver that supports %d\n", (int)sender, (int)receiver);
    fflush(stdout);
    pid_t child = fork();
    if (child < 0) {
        stop("fork");
    }
    if (child == 0) {
        draw(1);
        e.fd = connect_to(&at);
        exit(send_frames(&e, sender) == 0 ? 0 : 1);
    }
    e.fd = accept(listening, NULL, NULL);
    if (e.fd < 0) {
        stop("accept");
    }
    receive_frames(&e, receiver, sender, revision);
    close(e.fd);
    close(listening);
    check(waitpid(child, &status, 0) == child && status == 0, "the sender's end");
}

/* ---- what needs no link */

/* Where nothing is lent a pointer may be NULL. */
static void lend_nothing(void)
{
    mahuixen_header empty = {MAHUIXEN_TAG_WAIT, 1, {{0, 8}, {0, 0}, {0, 0}, {0, 0}}};
    uint8_t buf[32];
    mahuixen_state state;
    mahuixen_report r;
    mahuixen_refusal n;
    (void)mahuixen_start(&state, MAHUIXEN_FEATURE_REVISION_1, 0);
    check(mahuixen_receive(&state, &r, NULL, 0, NULL, 0) == MAHUIXEN_MORE && r.taken == 0, "no piece and no store");
    check(mahuixen_build_banner(NULL, 0, 0, MAHUIXEN_FEATURE_REVISION_1, 0, &n) == 0, "a banner into nothing");
    check(n.number == MAHUIXEN_REFUSAL_NO_ROOM && n.first == 26, "and why");
    check(mahuixen_build_frame(NULL, 0, 0, MAHUIXEN_MSGR21, &empty, NULL, 0, &n) == 0, "a frame into nothing");
    check(n.number == MAHUIXEN_REFUSAL_NO_ROOM && n.first == 32, "and why");
    check(mahuixen_build_frame(buf, sizeof buf, 0, MAHUIXEN_MSGR21, &empty, NULL, 0, &n) == sizeof buf, "a frame of nothing");
    check(n.number == MAHUIXEN_REFUSAL_NONE, "and no refusal");
    check(mahuixen_checksum(MAHUIXEN_SEGMENT_START, NULL, 0) == MAHUIXEN_SEGMENT_START, "the checksum of nothing");
}

/* A state that no receiver can be in comes back as it was. */
static void refuse_state(mahuixen_state made_up, const char *what)
{
    mahuixen_state before = made_up;
    mahuixen_report r;
    uint8_t piece[3] = {1, 2, 3};
    check(mahuixen_receive(&made_up, &r, piece, sizeof piece, NULL, 0) == MAHUIXEN_REFUSED, what);
    check(r.taken == 0 && r.refusal.number == MAHUIXEN_REFUSAL_STATE_CONTRADICTS, "26, and nothing taken");
    check(memcmp(&made_up, &before, sizeof before) == 0, "the state as it was");
}

static void make_up_a_state(void)
{
    mahuixen_state fresh;
    mahuixen_state made_up;
    (void)mahuixen_start(&fresh, 0, 0);
    made_up = fresh;
    made_up.crc.stage = 10;
    made_up.crc.got = 7;
    made_up.crc.block[3] = 9;
    refuse_state(made_up, "a stage that there is not");
    made_up = fresh;
    made_up.crc.first = 1;
    refuse_state(made_up, "a mark without its segment");
    made_up = fresh;
    made_up.crc.header.segments[3].align = UINT64_C(1) << 63;
    refuse_state(made_up, "a number beyond its field");
    made_up = fresh;
    made_up.mode = 2;
    refuse_state(made_up, "a mode that there is not");
    made_up = fresh;
    made_up.ready = 1;
    refuse_state(made_up, "a frame that was not reported");
    made_up = fresh;
    made_up.mode = 1;
    made_up.sealed.stage = 4;
    refuse_state(made_up, "a part that there is not");
}

/* A header with a number beyond its field is not built, and nothing is written. */
static void build_beyond_a_field(void)
{
    mahuixen_header header = {MAHUIXEN_TAG_ACK + 256, 1, {{0, 8}, {0, 0}, {0, 0}, {0, 0}}};
    mahuixen_refusal n;
    uint8_t buf[64] = {7};
    check(mahuixen_build_frame(buf, sizeof buf, 0, MAHUIXEN_MSGR21, &header, NULL, 0, &n) == 0, "a tag of nine bits");
    check(n.number == MAHUIXEN_REFUSAL_STATE_CONTRADICTS && buf[0] == 7, "26, and nothing written");
}

/* A msgr2.0 frame of one byte, in whose epilogue something stands at a place that we do not write there. */
static void spell_in_another_way(size_t at, uint8_t byte, uint64_t detail)
{
    mahuixen_header header = {MAHUIXEN_TAG_ACK, 1, {{1, 8}, {0, 0}, {0, 0}, {0, 0}}};
    mahuixen_state state;
    mahuixen_report r;
    mahuixen_refusal n;
    uint8_t bytes[MAHUIXEN_BANNER_LENGTH + 1 + MAHUIXEN_FRAME_OVERHEAD];
    uint8_t source = 7;
    uint8_t store[2] = {9, 9};
    uint64_t banner = mahuixen_build_banner(bytes, sizeof bytes, 0, 0, 0, &n);
    uint64_t frame = mahuixen_build_frame(bytes, sizeof bytes, banner, MAHUIXEN_MSGR20, &header, &source, 1, &n);
    bytes[banner + at] = byte;
    (void)mahuixen_start(&state, 0, 0);
    (void)mahuixen_receive(&state, &r, bytes, sizeof bytes, store, sizeof store);
    check(r.kind == MAHUIXEN_BANNER && r.taken == banner, "a banner with a frame behind it");
    (void)mahuixen_receive(&state, &r, bytes + banner, frame, store, sizeof store);
    check(r.refusal.number == MAHUIXEN_REFUSAL_NON_CANONICAL && r.refusal.first == detail, "24");
    check(r.taken == frame && store[0] == 0 && store[1] == 9, "the whole frame taken, and its byte zeroed");
}

/* A switch behind a frame and nowhere else; from then on a part that the key does not open is refused. */
static void switch_to_secure(void)
{
    static const uint8_t key[16] = {1, 2, 3};
    static const uint8_t nonces[2][12] = {{4}, {5}};
    mahuixen_header header = {MAHUIXEN_TAG_AUTH_SIGNATURE, 1, {{1, 8}, {0, 0}, {0, 0}, {0, 0}}};
    mahuixen_state state;
    mahuixen_state before;
    mahuixen_sending sending;
    mahuixen_report r;
    mahuixen_refusal n;
    uint8_t bytes[MAHUIXEN_BANNER_LENGTH + 1 + MAHUIXEN_FRAME_OVERHEAD];
    uint8_t part[97] = {6};
    uint8_t source = 7;
    uint8_t store[64];
    uint64_t banner = mahuixen_build_banner(bytes, sizeof bytes, 0, 1, 0, &n);
    uint64_t frame = mahuixen_build_frame(bytes, sizeof bytes, banner, MAHUIXEN_MSGR21, &header, &source, 1, &n);
    (void)mahuixen_start(&state, 1, 0);
    (void)mahuixen_receive(&state, &r, bytes, banner, store, sizeof store);
    before = state;
    check(mahuixen_switch(&state, key, nonces[0], nonces[1], &sending) == MAHUIXEN_REFUSAL_SWITCH_REFUSED, "no frame yet");
    check(memcmp(&state, &before, sizeof before) == 0 && sending.refused == 1 && sending.key[0] == 0, "nothing changed");
    check(mahuixen_receive(&state, &r, bytes + banner, frame, store, sizeof store) == MAHUIXEN_FRAME, "a frame");
    before = state;
    before.mode = 2;
    check(mahuixen_switch(&before, key, nonces[0], nonces[1], &sending) == MAHUIXEN_REFUSAL_STATE_CONTRADICTS, "no such mode");
    check(mahuixen_switch(&state, key, nonces[0], nonces[1], &sending) == 0 && state.mode == 1, "a switch");
    check(sending.refused == 0 && sending.spent == 0 && memcmp(sending.key, key, 16) == 0, "what frames are built with");
    check(memcmp(sending.nonce, nonces[1], 12) == 0 && memcmp(state.sealed.nonce, nonces[0], 12) == 0, "a nonce each");
    check(mahuixen_switch(&state, key, nonces[0], nonces[1], &sending) == MAHUIXEN_REFUSAL_SWITCH_REFUSED, "a second switch");
    check(mahuixen_receive(&state, &r, part, 95, store, sizeof store) == MAHUIXEN_MORE && r.taken == 95, "most of a part");
    check(mahuixen_receive(&state, &r, part, 2, store, sizeof store) == MAHUIXEN_REFUSED && r.taken == 1, "its last byte");
    check(r.refusal.number == MAHUIXEN_REFUSAL_AUTH_TAG && state.sealed.key[0] == 0, "17, and no key is kept");
}

int main(int argc, char **argv)
{
    if (argc > 1) {
        chance = (uint32_t)strtoul(argv[1], NULL, 10) * 2654435761u | 1;
    }
    run_link(1, 1, MAHUIXEN_MSGR21);
    run_link(1, 0, MAHUIXEN_MSGR20);
    lend_nothing();
    make_up_a_state();
    build_beyond_a_field();
    spell_in_another_way(33, 2, 0); /* late flags */
    spell_in_another_way(49, 1, 4); /* the last byte of segment 4's field */
    switch_to_secure();
    printf("%s\n", failures == 0 ? "all as planned" : "not as planned");
    return failures == 0 ? 0 : 1;
}
