#include "session.h"

#include "clock.h"

#include <errno.h>
#include <inttypes.h>
#include <stdarg.h>
#include <stdio.h>
#include <string.h>

/* The text of a message is made first and written in one piece: both programs write to one standard error. */
static void tell(const struct session *session, const char *what)
{
    fprintf(stderr, "%s: conversation with the %s ended: %s\n", session->name, session->partner, what);
}

void session_fail(struct session *session, const char *format, ...)
{
    char what[256];
    va_list values;
    if (session->failed)
        return;
    session->failed = true;
    va_start(values, format);
    int length = vsnprintf(what, sizeof what, format, values);
    va_end(values);
    /* Where the text cannot be made, its format says most of it. No text is longer than the room for it; if one were, it would be
     * cut. */
    tell(session, length < 0 ? format : what);
}

bool session_print(struct session *session, const char *format, ...)
{
    va_list values;
    va_start(values, format);
    bool good = vprintf(format, values) >= 0;
    va_end(values);
    if (!good || fflush(stdout) != 0)
        session_fail(session, "standard output cannot be written: %s", strerror(errno));
    return !session->failed;
}

void session_refused(struct session *session, const char *what, const struct lu62_answer *answer)
{
    char rule[24] = "";
    if (answer->rule != 0)
        (void)snprintf(rule, sizeof rule, ", rule H%" PRIu32, answer->rule);
    session_fail(session, "%s: refusal %" PRIu32 " (%s), sense %08" PRIX32 "%s", what, answer->refusal,
                 lu62_refusal_text(answer->refusal), answer->sense, rule);
}

/* One of the two programs: its name, its partner's, the length of its inbox, and how it opens the session. */
struct program {
    const char *name, *partner;
    size_t inbox_length;
    uint32_t (*open)(struct lu62_end *end);
};

/* The laboratory's network people hold only the session's bytes. */
static uint32_t open_by_bytes(struct lu62_end *end)
{
    static const struct lu62_session_bytes bytes = {LU62_FIRST_SPEAKER, LABORATORY_WINDOW, BLENDER_WINDOW, LABORATORY_SIZE_BYTE,
                                                    BLENDER_SIZE_BYTE};
    return lu62_end_open_bind(end, &bytes);
}

static uint32_t open_by_numbers(struct lu62_end *end)
{
    static const struct lu62_session numbers = {LU62_BIDDER, BLENDER_WINDOW, LABORATORY_WINDOW, BLENDER_MAXIMUM, LABORATORY_MAXIMUM};
    return lu62_end_open(end, &numbers);
}

static bool open_session(struct session *session, int socket, const struct options *options, const struct program *program)
{
    memset(session, 0, sizeof *session);
    session->name = program->name;
    session->partner = program->partner;
    session->limit_ms = options->limit_ms;
    session->pause_ms = options->pause_ms;
    session->moved_at = clock_ms();
    lu62_end_lend(&session->end, session->send, sizeof session->send, session->unit, sizeof session->unit, session->inbox,
                  program->inbox_length);
    if (!line_open(&session->line, socket))
        session_fail(session, "the line cannot be used");
    else if (program->open(&session->end) != LU62_ACCEPTED)
        session_refused(session, "the session cannot be opened", &session->end.answer);
    return !session->failed;
}

bool session_open_laboratory(struct session *session, int socket, const struct options *options)
{
    static const struct program laboratory = {"laboratory", "blender", LU62_INBOX(BLENDER_WINDOW, BLENDER_MAXIMUM), open_by_bytes};
    return open_session(session, socket, options, &laboratory);
}

bool session_open_blender(struct session *session, int socket, const struct options *options)
{
    static const struct program blender = {"blender", "laboratory", LU62_INBOX(LABORATORY_WINDOW, LABORATORY_MAXIMUM),
                                           open_by_numbers};
    return open_session(session, socket, options, &blender);
}

/* Notes that the conversation got on: bytes were given or read, or the turn or the end was given or read. Bids, their refusals,
 * signals and pacing responses are not that, nor is a confirmation asked for or refused again and again: they could go round for ever.
 * Nor is a turn that is only prepared: nothing of it has gone. */
static void got_on(struct session *session)
{
    session->moved_at = clock_ms();
    session->bids_in_vain = 0;
}

/* Puts the unit that the last call made, if any, on the line of its flow. */
static void put_unit(struct session *session, enum flow flow)
{
    if (session->end.answer.unit == 0)
        return;
    session->units_made++;
    if (!line_put(&session->line, flow, session->end.unit, session->end.answer.unit))
        session_fail(session, "the line takes no more units");
}

/* The same after a call that may be refused. A refusal that no waiting mends ends the conversation, with a message that says what the
 * call was to do. */
static uint32_t carried_on(struct session *session, enum flow flow, const char *purpose, uint32_t refusal)
{
    char what[96];
    if (refusal == LU62_NO_CREDIT)
        session->waits_for_credit++;
    if (refusal != LU62_ACCEPTED && refusal != LU62_WRONG_STATE && refusal != LU62_NO_CREDIT) {
        (void)snprintf(what, sizeof what, "the %s's own call to %s was refused", session->name, purpose);
        session_refused(session, what, &session->end.answer);
    }
    put_unit(session, flow);
    return refusal;
}

static uint32_t carried(struct session *session, const char *purpose, uint32_t refusal)
{
    return carried_on(session, NORMAL, purpose, refusal);
}

/* The same for a call that moves the conversation on. */
static uint32_t moved_on(struct session *session, const char *purpose, uint32_t refusal)
{
    if (refusal == LU62_ACCEPTED)
        got_on(session);
    return carried(session, purpose, refusal);
}

uint32_t session_allocate(struct session *session)
{
    if (clock_ms() < session->bid_from)
        return LU62_WRONG_STATE;
    return carried(session, "begin the conversation", lu62_end_allocate(&session->end));
}

/* A call that sends what was given, and by which a turn that is prepared goes too. Only the turn moves the conversation on. */
static uint32_t sent(struct session *session, const char *purpose, uint32_t call(struct lu62_end *end))
{
    bool turn = lu62_end_state(&session->end) == LU62_DEFER_TURN;
    uint32_t refusal = call(&session->end);
    return turn ? moved_on(session, "give the turn", refusal) : carried(session, purpose, refusal);
}

uint32_t session_flush(struct session *session)
{
    return sent(session, lu62_end_error_due(&session->end) ? "send the error header" : "send what was given", lu62_end_flush);
}

uint32_t session_confirm(struct session *session)
{
    return sent(session, "have what was given confirmed", lu62_end_confirm);
}

uint32_t session_prepare_turn(struct session *session)
{
    return carried(session, "prepare the turn", lu62_end_defer_turn(&session->end));
}

uint32_t session_end(struct session *session, bool confirm)
{
    return moved_on(session, "end the conversation", lu62_end_deallocate(&session->end, confirm));
}

uint32_t session_confirmed(struct session *session)
{
    return carried(session, "confirm", lu62_end_confirmed(&session->end));
}

uint32_t session_deny(struct session *session)
{
    return carried(session, "refuse a confirmation", lu62_end_send_error(&session->end));
}

uint32_t session_request_turn(struct session *session)
{
    return carried_on(session, EXPEDITED, "request the turn", lu62_end_request_to_send(&session->end));
}

uint32_t session_turn(struct session *session)
{
    return moved_on(session, "give the turn", lu62_end_prepare_to_receive(&session->end, false));
}

/* Kind and text, which stand between LL and the check. */
static uint32_t check_of(const uint8_t *bytes, size_t length)
{
    struct text checked = {bytes + RECORD_TEXT_AT - 1, length - (RECORD_TEXT_AT - 1) - RECORD_CHECK_DIGITS};
    return text_crc(checked);
}

bool session_set(struct session *session, struct outgoing *record, char kind, struct text text, bool more)
{
    char check[RECORD_CHECK_DIGITS + 1];
    if (text.length > sizeof record->bytes - RECORD_TEXT_AT - RECORD_CHECK_DIGITS) {
        session_fail(session, "a record for it is too long");
        return false;
    }
    record->length = RECORD_TEXT_AT + text.length + RECORD_CHECK_DIGITS;
    record->given = 0;
    size_t ll = record->length + (more ? LU62_MORE_FOLLOWS : 0);
    record->bytes[0] = (uint8_t)(ll / 256);
    record->bytes[1] = (uint8_t)(ll % 256);
    record->bytes[2] = (uint8_t)kind;
    memcpy(record->bytes + RECORD_TEXT_AT, text.bytes, text.length);
    (void)snprintf(check, sizeof check, "%08" PRIX32, check_of(record->bytes, record->length));
    memcpy(record->bytes + RECORD_TEXT_AT + text.length, check, RECORD_CHECK_DIGITS);
    return true;
}

static bool check_fits(const struct record *record)
{
    char check[RECORD_CHECK_DIGITS + 1];
    if (record->length < RECORD_TEXT_AT + RECORD_CHECK_DIGITS)
        return false;
    (void)snprintf(check, sizeof check, "%08" PRIX32, check_of(record->bytes, record->length));
    return memcmp(record->bytes + record->length - RECORD_CHECK_DIGITS, check, RECORD_CHECK_DIGITS) == 0;
}

bool session_give(struct session *session, struct outgoing *record)
{
    while (record->given < record->length) {
        /* Pieces of many lengths, so that records, pieces and units end in different places. */
        size_t piece = 1 + session->pieces * 7 % SMALLEST_MAXIMUM;
        if (piece > record->length - record->given)
            piece = record->length - record->given;
        uint32_t refusal = lu62_end_send_data(&session->end, record->bytes + record->given, piece);
        if (moved_on(session, "give a piece of a record", refusal) != LU62_ACCEPTED)
            return false;
        record->given += piece;
        session->pieces++;
    }
    return true;
}

/* Puts the bytes just read behind those of the record read before. */
static enum reading joined(struct session *session, const uint8_t *piece, size_t copied)
{
    struct record *record = &session->record;
    /* No record is longer than the buffer; the test keeps that true even if this program has a fault. */
    if (copied > sizeof record->bytes - record->length) {
        session_fail(session, "a record is too long");
        return READ_NOTHING;
    }
    memcpy(record->bytes + record->length, piece, copied);
    record->length += copied;
    record->more = session->end.answer.more != 0;
    session->record_whole = session->end.answer.complete != 0;
    if (session->record_whole && !check_fits(record)) {
        session_fail(session, "it sends a record whose check does not fit it");
        return READ_NOTHING;
    }
    return session->record_whole ? READ_RECORD : READ_PIECE;
}

enum reading session_read(struct session *session)
{
    uint8_t piece[17];
    if (session->record_whole) {
        session->record.length = 0;
        session->record_whole = false;
    }
    uint32_t refusal = lu62_end_receive(&session->end, piece, sizeof piece);
    if (refusal == LU62_NOTHING_TO_READ)
        return READ_NOTHING;
    if (refusal != LU62_ACCEPTED) {
        session_refused(session, "a read was refused", &session->end.answer);
        return READ_NOTHING;
    }
    if (session->end.answer.mark != LU62_MARK_CONFIRM && session->end.answer.mark != LU62_MARK_ERROR)
        got_on(session);
    return session->end.answer.mark != LU62_MARK_NONE ? READ_MARK : joined(session, piece, session->end.answer.copied);
}

uint8_t record_kind(const struct record *record)
{
    return record->bytes[RECORD_TEXT_AT - 1];
}

struct text record_text(const struct record *record)
{
    struct text text = {record->bytes + RECORD_TEXT_AT, record->length - RECORD_TEXT_AT - RECORD_CHECK_DIGITS};
    return text;
}

static bool is_confirmation(const uint8_t *unit, size_t length)
{
    return length == LU62_UNIT(0) && unit[2] == 0x83 && unit[3] == 0x20;
}

/* Whether a unit that has been taken refuses to confirm: no other has this byte. */
static bool is_refusal_to_confirm(const uint8_t *unit)
{
    return unit[2] == 0x87;
}

/* What the unit just taken says of bids: it may hold a bid that this end refuses, or the refusal of this end's own, which leaves the
 * state as it was: also Send, where this end has refused a confirmation before the refusal of its bid came. */
static void note_bids(struct session *session, bool bid_before, uint32_t state_before)
{
    /* The only units that a take makes are answers to a bid; a bid refused has the longer one. */
    if (session->end.answer.unit > LU62_UNIT(1))
        session->bids_refused++;
    if (bid_before && !lu62_end_bid_pending(&session->end) && lu62_end_state(&session->end) == state_before) {
        session->bids_in_vain++;
        session->bid_from = clock_ms() + session->pause_ms;
    }
}

/* A unit that breaks the protocol ends the conversation, when all that came before it has been read. */
static void note_breach(struct session *session, enum flow flow)
{
    session->breach = true;
    session->breach_flow = flow;
    session->breach_answer = session->end.answer;
}

/* Takes the oldest normal unit. False if there is none, or if it must stay on the line. */
static bool take_unit(struct session *session)
{
    size_t length;
    const uint8_t *unit = line_front(&session->line, NORMAL, &length);
    if (unit == NULL)
        return false;
    if (session->lose_confirmation && is_confirmation(unit, length)) {
        session->lose_confirmation = false;
        line_drop(&session->line, NORMAL);
        return true;
    }
    bool bid_before = lu62_end_bid_pending(&session->end);
    uint32_t state_before = lu62_end_state(&session->end);
    uint32_t refusal = lu62_end_receive_unit(&session->end, unit, length);
    /* The unit waits on the line until the mark before it has been read. */
    if (refusal == LU62_UNREAD_MARK)
        return false;
    if (refusal != LU62_ACCEPTED) {
        note_breach(session, NORMAL);
        return false;
    }
    session->units_taken++;
    note_bids(session, bid_before, state_before);
    session->unconfirmed |= is_refusal_to_confirm(unit);
    line_drop(&session->line, NORMAL);
    put_unit(session, NORMAL);
    return true;
}

/* Takes the oldest expedited unit, and answers it if it is a signal. No state and no mark holds it up. False if there is none. */
static bool take_expedited(struct session *session)
{
    size_t length;
    const uint8_t *unit = line_front(&session->line, EXPEDITED, &length);
    if (unit == NULL)
        return false;
    if (lu62_end_receive_expedited(&session->end, unit, length) != LU62_ACCEPTED) {
        note_breach(session, EXPEDITED);
        return false;
    }
    session->units_taken++;
    session->told += session->end.answer.signalled;
    session->signals_taken += session->end.answer.signalled;
    line_drop(&session->line, EXPEDITED);
    put_unit(session, EXPEDITED);
    return true;
}

static bool take_next(struct session *session)
{
    return take_expedited(session) || (!session->breach && take_unit(session));
}

/* Takes every unit that has come and may be taken, the expedited ones first, and makes a pacing response if one is due. True if anything
 * was done. */
static bool exchange(struct session *session)
{
    if (session->breach)
        return false;
    bool moved = line_receive(&session->line);
    while (!session->failed && !session->breach && take_next(session))
        moved = true;
    if (session->failed || session->breach)
        return true;
    if (lu62_end_send_pacing_response(&session->end) == LU62_ACCEPTED) {
        session->pacing_responses++;
        put_unit(session, NORMAL);
        moved = true;
    }
    return moved;
}

/* The partner has gone. Whether that is a fault depends on what it left unfinished. */
static void partner_gone(struct session *session)
{
    if (session->record.length > 0 && !session->record_whole)
        session_fail(session, "it has gone in the middle of a record, which is dropped");
    else if (session->line.in_held > 0)
        session_fail(session, "it has gone in the middle of a unit, which is dropped");
    else if (lu62_end_signal_unanswered(&session->end))
        session_fail(session, "it has gone, and has not answered the request for the turn");
    else if (lu62_end_state(&session->end) != LU62_RESET)
        session_fail(session, "it has gone in the middle of the conversation");
}

/* The conversation has stood still for the time limit: says what there was of it last. */
static void out_of_time(struct session *session)
{
    const char *state = lu62_state_name(lu62_end_state(&session->end));
    size_t length;
    if (session->line.in_held > 0 && line_front(&session->line, NORMAL, &length) == NULL)
        session_fail(session, "time limit: only part of a unit has come, and nothing got on for %" PRId64 " ms", session->limit_ms);
    else if (session->bids_in_vain > 0)
        session_fail(session, "time limit: it has refused %lu bids, and nothing got on for %" PRId64 " ms", session->bids_in_vain,
                     session->limit_ms);
    else if (line_unsent(&session->line))
        session_fail(session, "time limit: it takes nothing of what is sent, and nothing got on for %" PRId64 " ms",
                     session->limit_ms);
    else if (lu62_end_signal_unanswered(&session->end))
        session_fail(session, "time limit: it has not answered the request for the turn, and nothing got on for %" PRId64 " ms",
                     session->limit_ms);
    else
        session_fail(session, "time limit: nothing got on for %" PRId64 " ms, in state %s", session->limit_ms, state);
}

/* Waits for the line, at longest until the next bid may be made or the time limit is over. */
static void wait_for_line(struct session *session)
{
    int64_t now = clock_ms();
    int64_t until = session->moved_at + session->limit_ms;
    if (session->bid_from > now && session->bid_from < until)
        until = session->bid_from;
    if (!line_wait(&session->line, until - now))
        session_fail(session, "the line cannot be waited for");
}

/* One round of a program: units taken, the program's step, units sent. True if anything was done. */
static bool run_once(struct session *session, session_step *step, void *program)
{
    bool moved = exchange(session);
    if (!session->failed)
        moved |= step(program);
    line_send(&session->line);
    /* By now the program has read all that came before the unit at fault. */
    if (session->breach)
        session_refused(session, session->breach_flow == NORMAL ? "a unit from it was refused" : "an expedited unit from it was refused",
                        &session->breach_answer);
    return moved;
}

bool session_run(struct session *session, session_step *step, void *program, const bool *done)
{
    got_on(session);
    while (!session->failed) {
        bool moved = run_once(session, step, program);
        if (session->failed)
            break;
        if (*done && (!line_unsent(&session->line) || session->line.closed))
            return true;
        if (clock_ms() - session->moved_at >= session->limit_ms) {
            out_of_time(session);
        } else if (!moved && session->line.closed) {
            partner_gone(session);
            return !session->failed;
        } else if (!moved) {
            wait_for_line(session);
        }
    }
    return false;
}

void session_print_counts(const struct session *session)
{
    fprintf(stderr,
            "%s: units made %lu, taken %lu; bids refused here %lu; waits for credit %lu; pacing responses %lu; signals taken %lu\n",
            session->name, session->units_made, session->units_taken, session->bids_refused, session->waits_for_credit,
            session->pacing_responses, session->signals_taken);
}
