/*
 * A desk's receiving side: it reads what the peer, a Ceph store, sends on standard
 * input, and frees a take when an acknowledgement has the session no longer hold
 * its message. What a full reset has it no longer hold was not acknowledged: that
 * take is kept, to be sent as a new message.
 *
 * usage: desk [MESSAGES]    so many messages were sent before, 8 where not given
 */
#include <inttypes.h>
#include <stdio.h>
#include <stdlib.h>
#include <unistd.h>

#include "mahuixen.h"

static void free_take(uint64_t message)
{
    printf("the take of message %" PRIu64 " is freed\n", message);
}

static void send_anew(uint64_t message)
{
    printf("the take of message %" PRIu64 " is to be sent as a new message\n", message);
}

/* One connection. The session outlives it, and so does what it holds. */
static void listen_on(int link, mahuixen_session *session)
{
    static uint8_t store[MAHUIXEN_STORE_LIMIT], bytes[65536];
    mahuixen_state state;
    mahuixen_report report;
    mahuixen_answer effect;
    ssize_t n;
    uint64_t freed = session->released;
    mahuixen_start(&state, MAHUIXEN_FEATURE_REVISION_1, 0);
    while ((n = read(link, bytes, sizeof bytes)) > 0)
        for (uint64_t at = 0; at < (uint64_t)n; at += report.taken) {
            if (mahuixen_deliver(&state, session, &report, &effect, bytes + at, (uint64_t)n - at, store,
                                 sizeof store) == MAHUIXEN_REFUSED) {
                printf("refused: %s\n", mahuixen_refusal_text(report.refusal.number));
                return;
            }
            if (effect.kind == MAHUIXEN_SESSION_REFUSED || effect.kind == MAHUIXEN_EFFECT_MALFORMED) {
                printf("nothing was done: %s\n", mahuixen_refusal_text(effect.refusal.number));
                return;
            }
            while (freed++ < session->released)
                if (report.header.tag == MAHUIXEN_TAG_SESSION_RESET)
                    send_anew(freed); /* dropped, and not acknowledged */
                else
                    free_take(freed);
            freed = session->released;
        }
}

int main(int argc, char **argv)
{
    mahuixen_session session;
    mahuixen_answer answer;
    mahuixen_message message;
    uint64_t sent = argc > 1 ? strtoull(argv[1], NULL, 10) : 8;
    mahuixen_session_start(&session);
    for (uint64_t take = 1; take <= sent; take++)
        if (mahuixen_session_accept(&session, take, &answer) == MAHUIXEN_SESSION_REFUSED)
            break;
    listen_on(STDIN_FILENO, &session);
    for (uint64_t i = 0; mahuixen_session_held(&session, i, &message) == 1; i++)
        printf("message %" PRIu64 " is held\n", message.number);
    return 0;
}
