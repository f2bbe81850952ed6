/*
 * Prints a recorded direction of a link as the receiver reports it: a line for
 * each report, with the byte of the stream that completes it and the checksum of
 * what then stands in the store, and a line for the state at the end. The lines
 * are the same on every processor.
 *
 *     recording FILE CUTS [SUPPORTED [BIT]]
 *
 * FILE is the bytes of the direction. CUTS is the size of the pieces that the
 * receiver is offered, 0 for all that is left, or a file with one size to a line.
 * SUPPORTED is 1 where it is not given, or 0 for a receiver that speaks msgr2.0
 * only. BIT is the number of a bit of FILE that is damaged.
 */
#include <inttypes.h>
#include <stdio.h>
#include <stdlib.h>

#include "mahuixen.h"

static uint8_t bytes[16777216];
static uint8_t store[MAHUIXEN_FRAME_LIMIT];

static void fail(const char *what, const char *of)
{
    fprintf(stderr, "recording: %s: %s\n", of, what);
    exit(2);
}

/* ---- cuts */

typedef struct cuts {
    FILE *file; /* NULL where every piece has the same size */
    size_t size;
} cuts;

static cuts cuts_of(const char *word)
{
    cuts c = {NULL, 0};
    char *end;
    c.size = (size_t)strtoul(word, &end, 10);
    if (end == word || *end != 0) {
        c.file = fopen(word, "r");
        if (c.file == NULL) {
            fail("neither a number nor a file that can be read", word);
        }
    }
    return c;
}

/* The size of the next piece, at most what is left. */
static size_t next_cut(cuts *c, size_t left)
{
    unsigned long size = (unsigned long)c->size;
    if (c->file != NULL && fscanf(c->file, "%lu", &size) != 1) {
        return left;
    }
    return size == 0 || size > left ? left : (size_t)size;
}

/* ---- lines */

static uint64_t total(const mahuixen_header *h)
{
    uint64_t sum = 0;
    for (int i = 0; i < 4; i++) {
        sum += h->segments[i].len;
    }
    return sum;
}

static void print_header(const char *word, const mahuixen_header *h, uint64_t stored)
{
    printf("%s, tag %" PRIu64 ", %" PRIu64 " segments", word, h->tag, h->count);
    for (int i = 0; i < 4; i++) {
        printf(", %" PRIu64 " by %" PRIu64, h->segments[i].len, h->segments[i].align);
    }
    printf(", checksum %08" PRIx64 "\n", mahuixen_checksum(MAHUIXEN_SEGMENT_START, store, stored));
}

static void print_report(uint64_t at, const mahuixen_report *r)
{
    printf("%" PRIu64 " ", at);
    switch (r->kind) {
    case MAHUIXEN_BANNER:
        printf("banner, supported %" PRIu64 ", required %" PRIu64 ", msgr2.%" PRIu64 "\n", r->peer.supported,
               r->peer.required, r->revision);
        break;
    case MAHUIXEN_FIRST:
        print_header("segment 1 of a frame", &r->header, r->header.segments[0].len);
        break;
    case MAHUIXEN_FRAME:
        print_header("frame", &r->header, total(&r->header));
        break;
    case MAHUIXEN_DROPPED:
        print_header("dropped", &r->header, total(&r->header));
        break;
    default:
        printf("refused with %" PRIu64 ", details %" PRIu64 " %" PRIu64 " %" PRIu64 "\n", r->refusal.number,
               r->refusal.first, r->refusal.second, r->refusal.third);
    }
}

/* The checksums of the state and of the store. */
static void print_end(uint64_t at, const mahuixen_state *state)
{
    printf("%" PRIu64 " end, state %08" PRIx64 ", store %08" PRIx64 "\n", at,
           mahuixen_checksum(MAHUIXEN_SEGMENT_START, (const uint8_t *)state, sizeof *state),
           mahuixen_checksum(MAHUIXEN_SEGMENT_START, store, sizeof store));
}

/* ---- the receiver */

/* Offers a piece until all of it is taken, and answers whether the stream goes on. */
static int offer(mahuixen_state *state, size_t at, size_t end)
{
    while (at < end) {
        mahuixen_report r;
        uint64_t kind = mahuixen_receive(state, &r, bytes + at, end - at, store, sizeof store);
        at += (size_t)r.taken;
        if (kind != MAHUIXEN_MORE) {
            print_report(at, &r);
        }
        if (kind == MAHUIXEN_REFUSED) {
            print_end(at, state);
            return 0;
        }
    }
    return 1;
}

static void receive_all(mahuixen_state *state, cuts *c, size_t length)
{
    size_t at = 0;
    while (at < length) {
        size_t end = at + next_cut(c, length - at);
        if (!offer(state, at, end)) {
            return;
        }
        at = end;
    }
    print_end(at, state);
}

static size_t read_file(const char *name)
{
    FILE *file = fopen(name, "rb");
    if (file == NULL) {
        fail("cannot be read", name);
    }
    return fread(bytes, 1, sizeof bytes, file);
}

int main(int argc, char **argv)
{
    static mahuixen_state state;
    if (argc < 3 || argc > 5) {
        fail("usage: recording FILE CUTS [SUPPORTED [BIT]]", "words");
    }
    size_t length = read_file(argv[1]);
    cuts c = cuts_of(argv[2]);
    uint64_t supported = argc > 3 ? strtoull(argv[3], NULL, 10) : MAHUIXEN_FEATURE_REVISION_1;
    if (mahuixen_start(&state, supported, 0) != MAHUIXEN_REFUSAL_NONE) {
        fail("not a feature that there is", argv[3]);
    }
    if (argc > 4) {
        unsigned long bit = strtoul(argv[4], NULL, 10);
        if (bit / 8 >= length) {
            fail("no bit of the file", argv[4]);
        }
        bytes[bit / 8] ^= (uint8_t)(1u << bit % 8);
    }
    receive_all(&state, &c, length);
    return 0;
}
