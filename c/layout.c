/*
 * Prints where C has each struct of mahuixen.h and its fields, in the header's
 * order, for a comparison with declarations in another language:
 *     STRUCT SIZE ALIGNMENT
 *     STRUCT.FIELD OFFSET SIZE
 */
#include <stddef.h>
#include <stdio.h>

#include "mahuixen.h"

/* C99 has no _Alignof: behind one char a struct stands at its alignment. */
#define AFTER_A_CHAR(name)   \
    struct after_a_##name {  \
        char c;              \
        mahuixen_##name at;  \
    }

AFTER_A_CHAR(features);
AFTER_A_CHAR(segment);
AFTER_A_CHAR(header);
AFTER_A_CHAR(refusal);
AFTER_A_CHAR(crc);
AFTER_A_CHAR(sealed);
AFTER_A_CHAR(state);
AFTER_A_CHAR(report);
AFTER_A_CHAR(sending);
AFTER_A_CHAR(session);
AFTER_A_CHAR(answer);
AFTER_A_CHAR(message);
AFTER_A_CHAR(verdict);
AFTER_A_CHAR(list);
AFTER_A_CHAR(span);
AFTER_A_CHAR(body);

#define STRUCT(name) printf(#name " %zu %zu\n", sizeof(mahuixen_##name), offsetof(struct after_a_##name, at))
#define FIELD(name, field) \
    printf(#name "." #field " %zu %zu\n", offsetof(mahuixen_##name, field), sizeof(((mahuixen_##name *)0)->field))

static void parts(void)
{
    STRUCT(features);
    FIELD(features, supported);
    FIELD(features, required);
    STRUCT(segment);
    FIELD(segment, len);
    FIELD(segment, align);
    STRUCT(header);
    FIELD(header, tag);
    FIELD(header, count);
    FIELD(header, segments);
    STRUCT(refusal);
    FIELD(refusal, number);
    FIELD(refusal, first);
    FIELD(refusal, second);
    FIELD(refusal, third);
}

static void state(void)
{
    STRUCT(crc);
    FIELD(crc, stage);
    FIELD(crc, revision);
    FIELD(crc, first);
    FIELD(crc, payload);
    FIELD(crc, header);
    FIELD(crc, refusal);
    FIELD(crc, got);
    FIELD(crc, own);
    FIELD(crc, peer);
    FIELD(crc, block);
    STRUCT(sealed);
    FIELD(sealed, stage);
    FIELD(sealed, exhausted);
    FIELD(sealed, header);
    FIELD(sealed, refusal);
    FIELD(sealed, got);
    FIELD(sealed, opened);
    FIELD(sealed, first);
    FIELD(sealed, key);
    FIELD(sealed, nonce);
    STRUCT(state);
    FIELD(state, mode);
    FIELD(state, ready);
    FIELD(state, crc);
    FIELD(state, sealed);
}

static void report(void)
{
    STRUCT(report);
    FIELD(report, kind);
    FIELD(report, taken);
    FIELD(report, revision);
    FIELD(report, peer);
    FIELD(report, header);
    FIELD(report, refusal);
}

static void sessions(void)
{
    STRUCT(sending);
    FIELD(sending, exhausted);
    FIELD(sending, refused);
    FIELD(sending, spent);
    FIELD(sending, key);
    FIELD(sending, nonce);
    STRUCT(session);
    FIELD(session, released);
    FIELD(session, last);
    FIELD(session, handles);
    STRUCT(answer);
    FIELD(answer, kind);
    FIELD(answer, number);
    FIELD(answer, refusal);
    STRUCT(message);
    FIELD(message, number);
    FIELD(message, handle);
}

static void handshake(void)
{
    STRUCT(verdict);
    FIELD(verdict, auth);
    FIELD(verdict, signature);
    FIELD(verdict, features);
    FIELD(verdict, reconnect);
    STRUCT(list);
    FIELD(list, at);
    FIELD(list, count);
    STRUCT(span);
    FIELD(span, at);
    FIELD(span, len);
    STRUCT(body);
    FIELD(body, kind);
    FIELD(body, numbers);
    FIELD(body, first);
    FIELD(body, second);
    FIELD(body, bytes);
    FIELD(body, refusal);
}

int main(void)
{
    parts();
    state();
    report();
    sessions();
    handshake();
    return 0;
}
