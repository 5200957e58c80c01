#include "partner.h"

#include <sys/socket.h>
#include <unistd.h>

int failures;
bool deaf;

void expect(bool good, const char *name, const char *what, const struct child *child)
{
    if (good)
        return;
    failures++;
    fprintf(stderr, "partner: %s: %s\n  status %d\n  printed %s\n  said %s\n", name, what, child->status, child->out, child->err);
}

int started(struct child *child, child_program *program, const struct options *options)
{
    int sockets[2];
    if (socketpair(AF_UNIX, SOCK_STREAM, 0, sockets) < 0)
        cannot("socketpair");
    child_start(child, program, sockets[0], &sockets[1], 1, options);
    (void)close(sockets[0]);
    return sockets[1];
}

void pace(struct session *session)
{
    if (lu62_end_send_pacing_response(&session->end) == LU62_ACCEPTED)
        (void)line_put(&session->line, NORMAL, session->end.unit, session->end.answer.unit);
    line_send(&session->line);
}

/* Drops the unit that has been taken, and puts on the line what was made of it. False if there is no room. */
static bool answered(struct session *session, enum flow flow)
{
    line_drop(&session->line, flow);
    return session->end.answer.unit == 0 || line_put(&session->line, flow, session->end.unit, session->end.answer.unit);
}

bool take_what_comes(struct session *session, int64_t most_ms, size_t *taken)
{
    size_t length;
    const uint8_t *unit;
    bool here = line_front(&session->line, NORMAL, &length) != NULL || (!deaf && line_front(&session->line, EXPEDITED, &length) != NULL);
    if (!here && !line_wait(&session->line, most_ms))
        return false;
    (void)line_receive(&session->line);
    while (!deaf && (unit = line_front(&session->line, EXPEDITED, &length)) != NULL) {
        (void)lu62_end_receive_expedited(&session->end, unit, length);
        session->told += session->end.answer.signalled;
        if (!answered(session, EXPEDITED))
            return false;
    }
    while ((unit = line_front(&session->line, NORMAL, &length)) != NULL) {
        if (lu62_end_receive_unit(&session->end, unit, length) == LU62_UNREAD_MARK)
            break;
        *taken += unit[2] != 0x83 || unit[3] != 0x01;
        if (!answered(session, NORMAL))
            return false;
    }
    line_send(&session->line);
    return !session->line.closed;
}

bool exchange_once(struct session *session)
{
    size_t taken = 0;
    pace(session);
    return take_what_comes(session, PATIENCE_MS, &taken);
}

/* Takes what comes, reads it and confirms where that is asked for. */
static bool read_what_comes(struct session *session)
{
    if (!exchange_once(session))
        return false;
    while (session_read(session) != READ_NOTHING)
        ;
    if (lu62_end_state(&session->end) == LU62_CONFIRM_OWED)
        (void)session_confirmed(session);
    return true;
}

bool come_to_send(struct session *session, bool revision)
{
    if (revision)
        return session_allocate(session) == LU62_ACCEPTED;
    while (lu62_end_state(&session->end) != LU62_SEND)
        if (!read_what_comes(session))
            return false;
    return true;
}

bool come_to_ask(struct session *session)
{
    while (lu62_end_state(&session->end) != LU62_SEND) {
        if (lu62_end_state(&session->end) == LU62_RESET && !lu62_end_bid_pending(&session->end))
            (void)session_allocate(session);
        if (!read_what_comes(session))
            return false;
    }
    return true;
}

bool come_to_owe(struct session *session)
{
    while (lu62_end_state(&session->end) != LU62_CONFIRM_OWED) {
        if (!exchange_once(session))
            return false;
        while (lu62_end_state(&session->end) != LU62_CONFIRM_OWED && session_read(session) != READ_NOTHING)
            ;
    }
    return true;
}

bool give(struct session *session, const struct odd *odd)
{
    static struct outgoing record;
    struct text text = text_of(odd->text);
    if (odd->length > 0)
        text.length = odd->length;
    if (!session_set(session, &record, odd->kind == WRONG_CHECK ? RECORD_ROW : odd->kind, text, odd->more))
        return false;
    if (odd->kind == WRONG_CHECK)
        record.bytes[RECORD_TEXT_AT]++;
    while (!session_give(session, &record))
        if (!exchange_once(session))
            return false;
    return true;
}

bool flushed(struct session *session)
{
    uint32_t refusal;
    while ((refusal = session_flush(session)) == LU62_NO_CREDIT)
        if (!exchange_once(session))
            return false;
    line_send(&session->line);
    return refusal == LU62_ACCEPTED;
}
