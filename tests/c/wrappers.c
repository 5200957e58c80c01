/* lu62_end.h: calls with buffers that overlap, or are null, end the program at an assertion, and calls with buffers that lie apart do
 * not. And why: without the assertion a call with send == unit is accepted, and its unit carries wrong bytes. */
#include "lu62_end.h"

#include <signal.h>
#include <stdio.h>
#include <stdlib.h>
#include <string.h>
#include <sys/wait.h>
#include <unistd.h>

enum {
    MAXIMUM = 8,
    WINDOW = 2,
    SEND = MAXIMUM,
    UNIT = LU62_UNIT(MAXIMUM),
    INBOX = LU62_INBOX(WINDOW, MAXIMUM),
    BUFFER = 8,
    /* Places that are not in the block. */
    NULL_POINTER = -1,
    IN_IMAGE = -2
};

/* An end, and a block in which its buffers are placed. */
struct room {
    struct lu62_end end;
    uint8_t block[256];
};

static const struct lu62_session session = {LU62_FIRST_SPEAKER, WINDOW, WINDOW, MAXIMUM, MAXIMUM};
static const uint8_t record[] = {0x00, 0x04, 0x41, 0x42};

/* What the partner sends: a bid, and the record with the end of the conversation, to be confirmed. */
static const uint8_t bid[] = {0x00, 0x01, 0x4B, 0x81, 0x80, 0x04, 0x00, 0x06, 0x00, 0x00};
static const uint8_t data[] = {0x00, 0x02, 0x03, 0x20, 0x01, 0x00, 0x04, 0x41, 0x42};

/* On the expedited line: a signal, and the answer to one. */
static const uint8_t signal_unit[] = {0x00, 0x01, 0x4B, 0x80, 0x00, 0xC9, 0x00, 0x01, 0x00, 0x00};
static const uint8_t signal_answer[] = {0x00, 0x01, 0xCB, 0x80, 0x00, 0xC9};

/* Where the buffers of a case lie: those of the end, the bytes given, the units taken, and what is read into; whether the calls are
 * to be stopped. */
static const struct placed {
    const char *name;
    int send, unit, inbox, bytes, taken, buffer;
    int stopped;
} cases[] = {
    {"one right behind the other", 0, 8, 21, 37, 41, 51, 0},
    {"in another order", 51, 38, 22, 18, 8, 0, 0},
    {"send is unit", 0, 0, 100, 200, 210, 230, 1},
    {"unit begins in send", 0, SEND - 1, 100, 200, 210, 230, 1},
    {"inbox begins in unit", 0, 20, 20 + UNIT - 1, 200, 210, 230, 1},
    {"send ends in inbox", 100, 0, 100 + SEND - 1, 200, 210, 230, 1},
    {"the bytes given lie in send", 0, 20, 100, SEND - 1, 210, 230, 1},
    {"the bytes given lie in unit", 0, 20, 100, 20 + UNIT - 1, 210, 230, 1},
    {"the unit taken lies in unit", 0, 20, 100, 200, 20 + UNIT - 1, 230, 1},
    {"the unit taken lies in inbox", 0, 20, 100, 200, 100 + INBOX - 1, 230, 1},
    {"the buffer read into lies in inbox", 0, 20, 100, 200, 210, 100 + INBOX - 1, 1},
    {"the buffer read into ends in inbox", 0, 20, 100, 200, 210, 100 - BUFFER + 1, 1},
    {"the buffer read into lies in the struct", 0, 20, 100, 200, 210, IN_IMAGE, 1},
    {"send lies in the struct", IN_IMAGE, 20, 100, 200, 210, 230, 1},
    {"send is null", NULL_POINTER, 20, 100, 200, 210, 230, 1},
    {"the buffer read into is null", 0, 20, 100, 200, 210, NULL_POINTER, 1},
};

static uint8_t *at(struct room *room, int place)
{
    return place == NULL_POINTER ? NULL : place == IN_IMAGE ? room->end.image : room->block + place;
}

/* Sends the record, after an end and a turn that are prepared and withdrawn. True if the unit carries it, behind number and header. */
static int sends(struct room *room, const struct placed *the)
{
    struct lu62_end *end = &room->end;
    uint8_t *bytes = at(room, the->bytes);
    memcpy(bytes, record, sizeof record);
    return lu62_end_open(end, &session) == LU62_ACCEPTED && lu62_end_allocate(end) == LU62_ACCEPTED &&
           lu62_end_send_data(end, bytes, sizeof record) == LU62_ACCEPTED && lu62_end_defer_end(end) == LU62_ACCEPTED &&
           lu62_end_withdraw(end) == LU62_ACCEPTED && lu62_end_defer_turn(end) == LU62_ACCEPTED &&
           lu62_end_withdraw(end) == LU62_ACCEPTED && lu62_end_deallocate(end, 0) == LU62_ACCEPTED &&
           end->answer.unit == LU62_UNIT(sizeof record) && memcmp(end->unit + LU62_UNIT(0), record, sizeof record) == 0;
}

static int takes(struct room *room, const struct placed *the, const uint8_t *unit, size_t length)
{
    uint8_t *taken = at(room, the->taken);
    memcpy(taken, unit, length);
    return lu62_end_receive_unit(&room->end, taken, length) == LU62_ACCEPTED;
}

/* True if the record is read as it was sent. */
static int reads(struct room *room, const struct placed *the)
{
    uint8_t *buffer = at(room, the->buffer);
    return lu62_end_receive(&room->end, buffer, BUFFER) == LU62_ACCEPTED && room->end.answer.complete == 1 &&
           room->end.answer.more == 0 && room->end.answer.copied == sizeof record && memcmp(buffer, record, sizeof record) == 0;
}

/* True if a signal is made, and one of the partner and the answer to this end's own are taken. */
static int signals(struct room *room, const struct placed *the)
{
    struct lu62_end *end = &room->end;
    uint8_t *taken = at(room, the->taken);
    if (lu62_end_request_to_send(end) != LU62_ACCEPTED || memcmp(end->unit, signal_unit, sizeof signal_unit) != 0)
        return 0;
    memcpy(taken, signal_unit, sizeof signal_unit);
    if (lu62_end_receive_expedited(end, taken, sizeof signal_unit) != LU62_ACCEPTED || end->answer.signalled != 1 ||
        memcmp(end->unit, signal_answer, sizeof signal_answer) != 0)
        return 0;
    memcpy(taken, signal_answer, sizeof signal_answer);
    return lu62_end_signal_unanswered(end) == 1 && lu62_end_receive_expedited(end, taken, sizeof signal_answer) == LU62_ACCEPTED &&
           lu62_end_signal_unanswered(end) == 0;
}

/* True if the confirmation is refused, and the error header sent behind that. */
static int refuses(struct room *room, const struct placed *the)
{
    struct lu62_end *end = &room->end;
    return lu62_end_receive(end, at(room, the->buffer), BUFFER) == LU62_ACCEPTED && end->answer.mark == LU62_MARK_CONFIRM_END &&
           lu62_end_send_error(end) == LU62_ACCEPTED && lu62_end_error_due(end) == 1 && lu62_end_flush(end) == LU62_ACCEPTED &&
           end->answer.unit == LU62_UNIT(7) && lu62_end_error_due(end) == 0;
}

static void make_calls(const struct placed *the)
{
    struct room room;
    memset(&room, 0, sizeof room);
    lu62_end_lend(&room.end, at(&room, the->send), SEND, at(&room, the->unit), UNIT, at(&room, the->inbox), INBOX);
    if (!sends(&room, the))
        _exit(2);
    if (!takes(&room, the, bid, sizeof bid) || !takes(&room, the, data, sizeof data))
        _exit(3);
    if (!reads(&room, the))
        _exit(4);
    if (!signals(&room, the))
        _exit(7);
    _exit(refuses(&room, the) ? 0 : 6);
}

/* Makes the calls in a process of their own. True if they end as the case says. */
static int as_said(const struct placed *the)
{
    int status;
    if (fflush(NULL) != 0)
        return 0;
    pid_t process = fork();
    if (process == 0) {
        /* What assert has to say is not wanted here. */
        if (freopen("/dev/null", "w", stderr) == NULL)
            _exit(5);
        make_calls(the);
    }
    if (process < 0 || waitpid(process, &status, 0) != process)
        return 0;
    return the->stopped ? WIFSIGNALED(status) && WTERMSIG(status) == SIGABRT : WIFEXITED(status) && WEXITSTATUS(status) == 0;
}

/* The calls of lu62.h with one buffer as send and unit. True if they are accepted and the unit is wrong. */
static int overlap_is_accepted(void)
{
    uint8_t image[LU62_IMAGE], both[UNIT];
    struct lu62_answer answer;
    uint32_t refused = lu62_open(session.role, WINDOW, WINDOW, MAXIMUM, MAXIMUM, sizeof both, sizeof both, INBOX, image,
                                 sizeof image, &answer);
    refused += lu62_allocate(image, sizeof image, both, sizeof both, &answer);
    refused += lu62_send_data(image, sizeof image, record, sizeof record, both, sizeof both, both, sizeof both, &answer);
    refused += lu62_deallocate(image, sizeof image, 0, both, sizeof both, both, sizeof both, &answer);
    return refused == 0 && memcmp(both + 5, record, sizeof record) != 0;
}

int main(void)
{
    size_t count = sizeof cases / sizeof cases[0];
    int failures = 0;
    for (size_t i = 0; i < count; i++)
        if (!as_said(&cases[i])) {
            failures++;
            fprintf(stderr, "wrappers: %s: not as expected\n", cases[i].name);
        }
    if (!overlap_is_accepted()) {
        failures++;
        fprintf(stderr, "wrappers: a call with send == unit is refused, or its unit is right: lu62.h says otherwise\n");
    }
    if (failures != 0)
        return EXIT_FAILURE;
    printf("wrappers: %zu placings of buffers; those that overlap end at an assertion\n", count);
    return EXIT_SUCCESS;
}
