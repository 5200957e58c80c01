/* Requests for the turn, at odd moments and from odd partners: the test is a laboratory that sends wrong batch numbers and makes of the
 * blender's signal what the case says, and then a blender that interrupts the laboratory. The figures printed are those sent for the
 * right batches, each signal is answered and told once, and whatever breaks the protocol of the expedited line ends in a message. First
 * the line by itself: expedited units overtake normal ones, and of either flow none is lost. Prints how many cases were tried, or what
 * differed. */
#include "partner.h"

#include "../../hosts/clock.h"

#include <stdlib.h>
#include <string.h>
#include <sys/socket.h>
#include <unistd.h>

/* What the test's partner does, one after another. */
enum act {
    NO_ACT,
    ASKED,        /* laboratory: reads until it may send; the last record that came is a query with this text */
    ASK,          /* blender: comes to send, asks with this query and gives the turn */
    GIVE,         /* gives a record */
    FLUSH,        /* sends what was given */
    TURN,         /* gives the turn, without confirmation and with it */
    TURN_CONFIRM,
    END,          /* ends the conversation */
    READ,         /* reads until a record has come of the kind that the text says */
    OWE,          /* reads until it owes a confirmation */
    CONFIRM,      /* confirms what it owes */
    NOTHING,      /* sees that no unit comes for a while, but pacing responses */
    NO_CREDIT,    /* takes units without a pacing response until no more come, one at least */
    REQUEST,      /* requests the turn */
    AGAIN,        /* the same, though its last signal may be unanswered */
    ANYWAY,       /* makes the first signal in a state in which no call makes one */
    ANSWERED,     /* waits, without a pacing response, until its signal has been answered */
    TURNED,       /* reads until the turn comes; the last record since the request is of the kind that the text says */
    DEAF,         /* leaves expedited units on the line from here on */
    SIGNALLED,    /* waits until one is there */
    TOLD,         /* takes them, and is told once that the turn is requested */
    EXPEDITE,     /* puts an expedited unit of these bytes on the line, which no call has made */
    RAW           /* sends these bytes as they are */
};

struct step {
    enum act act;
    struct odd record; /* of units and bytes, these and their number */
};

enum {
    MOST_STEPS = 24,
    /* How long it is listened until nothing more is thought to come. */
    QUIET_MS = 150,
    /* The flag in an image that says that a signal is unanswered, and the low byte of the last number of a signal. */
    UNANSWERED_AT = 43,
    NUMBER_AT = 44
};

#define DO(act) {act, {0, NULL, false, 0}}
#define HEAR(act, text) {act, {0, text, false, 0}}
#define SEND_LAST(kind, text) {GIVE, LAST(kind, text)}
#define SEND_PART(kind, text) {GIVE, PART(kind, text)}
#define UNIT(bytes) {EXPEDITE, {0, bytes, false, sizeof(bytes) - 1}}
#define BYTES(bytes) {RAW, {0, bytes, false, sizeof(bytes) - 1}}

struct signal_case {
    const char *name;
    struct step steps[MOST_STEPS];
    bool silent;           /* the line is left open */
    const char *out, *err; /* all that the program prints and says */
};

/* Expedited units: the first signal and its answer, and what differs from them in one thing. */
#define SIGNAL "\0\1\x4B\x80\0\xC9\0\1\0\0"
#define ANSWER "\0\1\xCB\x80\0\xC9"
#define REFUSED(number, text, sense) "an expedited unit from it was refused: refusal " number " (" text "), sense " sense
#define SHORT_UNIT REFUSED("20", "the unit is too short", "40050000")
#define BROKEN(rule) REFUSED("21", "the header breaks a rule", "00000000") ", rule " rule
#define BAD_RU REFUSED("22", "the RU does not fit", "10020000")
#define BAD_NUMBER REFUSED("23", "the sequence number is not the next", "20010000")
#define UNASKED REFUSED("28", "a response to nothing asked", "200E0000")

/* A table of three rows, up to its second, which has a wrong number; the rest of it; and what is asked for then. */
#define THREE_ROWS SEND_LAST('A', "MARINE-05 3"), SEND_PART('H', GOOD_COLUMNS)
#define ROW_1 SEND_PART('R', GOOD_ROW)
#define WRONG_2 SEND_PART('R', "   2  1 MA-0520 181.6   0.088   ")
#define ROW_3 SEND_LAST('R', "   3  1 MA-0503 176.9   0.097   ")
#define UP_TO_WRONG HEAR(ASKED, "MARINE-05"), THREE_ROWS, ROW_1, WRONG_2, DO(FLUSH)
#define MISSED HEAR(ASKED, "MARINE-05 MA-0502")
#define RIGHT_2 SEND_LAST('A', "MARINE-05 1"), SEND_PART('H', GOOD_COLUMNS), SEND_LAST('R', "   1  1 MA-0502 181.6   0.088   ")
#define WRONG_AGAIN \
    SEND_LAST('A', "MARINE-05 1"), SEND_PART('H', GOOD_COLUMNS), SEND_LAST('R', "   1  1 MA-0520 181.6   0.088   "), DO(FLUSH)
#define BROKEN_OFF SEND_LAST('B', "3 1")

#define REQUESTED "batch MA-0520 in the place of MA-0502: the turn is requested\n"
#define FRONT HEADINGS GOOD_LINE REQUESTED
#define LINE_2 "MA-0502         181.6      0.088\n"

static const struct signal_case blender_cases[] = {
    {"a table broken off", {UP_TO_WRONG, DO(TOLD), BROKEN_OFF, DO(TURN), MISSED, RIGHT_2, DO(END)}, false, FRONT LINE_2, ALL_CAME},
    {"a turn with confirmation", {UP_TO_WRONG, DO(TOLD), BROKEN_OFF, DO(TURN_CONFIRM), MISSED, RIGHT_2, DO(END)}, false, FRONT LINE_2,
     ALL_CAME},
    {"a turn behind the whole table", {UP_TO_WRONG, DO(TOLD), ROW_3, DO(TURN), MISSED, RIGHT_2, DO(END)}, false, FRONT LINE_2,
     ALL_CAME},
    {"a signal that comes too late", {DO(DEAF), UP_TO_WRONG, ROW_3, DO(END), DO(SIGNALLED), DO(TOLD), MISSED, RIGHT_2, DO(END)}, false,
     FRONT LINE_2, ALL_CAME},
    {"a request for the turn passed over", {UP_TO_WRONG, DO(TOLD), ROW_3, DO(END), MISSED, RIGHT_2, DO(END)}, false, FRONT LINE_2,
     ALL_CAME},
    {"the first batch missed",
     {HEAR(ASKED, "MARINE-05"), SEND_LAST('A', "MARINE-05 1"), SEND_PART('H', GOOD_COLUMNS),
      SEND_LAST('R', "   1  1 MA-0510 179.2   0.093   "), DO(FLUSH), DO(TOLD), DO(TURN), HEAR(ASKED, "MARINE-05 MA-0501"),
      SEND_LAST('A', "MARINE-05 1"), SEND_PART('H', GOOD_COLUMNS), SEND_LAST('R', GOOD_ROW), DO(END)},
     false, HEADINGS "batch MA-0510 in the place of MA-0501: the turn is requested\n" GOOD_LINE, ALL_CAME},
    {"a signal from the laboratory", {HEAR(ASKED, "MARINE-05"), DO(ANYWAY), DO(ANSWERED), THREE_ROWS, ROW_1, DO(FLUSH)}, false,
     HEADINGS GOOD_LINE, SAYS("it has gone in the middle of the conversation")},

    {"a wrong number three times",
     {UP_TO_WRONG, DO(TOLD), ROW_3, DO(TURN), MISSED, WRONG_AGAIN, DO(TOLD), DO(TURN), MISSED, WRONG_AGAIN}, false, FRONT REQUESTED,
     SAYS("it sends batch MA-0520 in the place of MA-0502, and its table has been interrupted 2 times")},
    {"a table broken off unasked", {HEAR(ASKED, "MARINE-05"), THREE_ROWS, ROW_1, SEND_LAST('B', "2 1"), DO(FLUSH)}, false,
     HEADINGS GOOD_LINE, SAYS("it breaks its table off, and the turn was not requested")},
    {"a table broken off before its columns", {HEAR(ASKED, "MARINE-05"), SEND_LAST('B', "1 1"), DO(FLUSH)}, false, "",
     SAYS("it sends a record that is not expected here")},
    {"a part lost before the table is broken off", {UP_TO_WRONG, DO(TOLD), SEND_LAST('B', "4 1"), DO(TURN)}, false, FRONT,
     SAYS("it breaks its table off elsewhere than before part 1 of row 3, which is due")},
    {"a table broken off without numbers", {UP_TO_WRONG, DO(TOLD), SEND_LAST('B', ""), DO(TURN)}, false, FRONT,
     SAYS("it breaks its table off elsewhere than before part 1 of row 3, which is due")},
    {"a table that goes on after it was broken off", {UP_TO_WRONG, DO(TOLD), SEND_PART('B', "3 1"), DO(FLUSH)}, false, FRONT,
     SAYS("its table goes on after it was broken off")},
    {"a record after the table was broken off", {UP_TO_WRONG, DO(TOLD), BROKEN_OFF, SEND_LAST('R', GOOD_ROW), DO(FLUSH)}, false, FRONT,
     SAYS("it sends a record after the last part of its table")},
    {"a turn unasked", {HEAR(ASKED, "MARINE-05"), SEND_LAST('A', "MARINE-05 1"), DO(TURN)}, false, "",
     SAYS("it sends the mark turn, which is not expected here")},
    {"a turn with confirmation unasked", {HEAR(ASKED, "MARINE-05"), SEND_LAST('A', "MARINE-05 1"), DO(TURN_CONFIRM)}, false, "",
     SAYS("it sends the mark confirm-turn, which is not expected here")},

    {"a request for the turn unanswered", {DO(DEAF), UP_TO_WRONG, ROW_3, DO(END), DO(SIGNALLED), DO(NOTHING)}, true, FRONT,
     SAYS("time limit: it has not answered the request for the turn, and nothing got on for 400 ms")},
    {"the turn, and the request for it unanswered", {DO(DEAF), UP_TO_WRONG, BROKEN_OFF, DO(TURN), DO(SIGNALLED), DO(NOTHING)}, true, FRONT,
     SAYS("time limit: it has not answered the request for the turn, and nothing got on for 400 ms")},
    {"a laboratory told that sends nothing more", {UP_TO_WRONG, DO(TOLD)}, true, FRONT,
     SAYS("time limit: nothing got on for 400 ms, in state Receive")},
    {"a laboratory that goes unheard", {DO(DEAF), UP_TO_WRONG, DO(SIGNALLED)}, false, FRONT,
     SAYS("it has gone, and has not answered the request for the turn")},
    {"a laboratory that goes when it is told", {UP_TO_WRONG, DO(TOLD)}, false, FRONT,
     SAYS("it has gone in the middle of the conversation")},

    {"an answer to no signal", {UNIT(ANSWER)}, true, "", SAYS(UNASKED)},
    {"an answer with another number", {DO(DEAF), UP_TO_WRONG, DO(SIGNALLED), UNIT("\0\2\xCB\x80\0\xC9")}, true, FRONT, SAYS(UNASKED)},
    {"two answers", {UP_TO_WRONG, DO(TOLD), UNIT(ANSWER)}, true, FRONT, SAYS(UNASKED)},
    {"an expedited unit of no byte", {UNIT("")}, true, "", SAYS(SHORT_UNIT)},
    {"an expedited unit of four bytes", {UNIT("\0\1\x4B\x80")}, true, "", SAYS(SHORT_UNIT)},
    {"data on the expedited line", {UNIT("\0\1\3\x91\x81\0\5\x41\x42\x43")}, true, "", SAYS(BROKEN("H1"))},
    {"a bid on the expedited line", {UNIT("\0\1\x4B\x81\x80\4\0\6\0\0")}, true, "", SAYS(BROKEN("H2"))},
    {"a grant on the expedited line", {UNIT("\0\1\xCB\x80\0\4")}, true, "", SAYS(BAD_RU)},
    {"half an expedited unit", {HEAR(ASKED, "MARINE-05"), BYTES("\x80\x0A\0\1")}, true, "", SAYS("time limit: " HALF)},
};

#define REQUESTS "laboratory: the blender requests the turn\n"
#define THIRD_ASKED "laboratory: asked for MARINE-05 from MA-0503 on\n"
#define GONE LABORATORY_SAYS("it has gone in the middle of the conversation")

/* The blender asks for the first table and owes the confirmation of its announcement; it lets the table come until there is no credit for
 * more; it interrupts the table; it asks anew. */
#define ASK_TABLE HEAR(ASK, "MARINE-05"), DO(OWE)
#define ASK_WITHOUT_CREDIT ASK_TABLE, DO(CONFIRM), DO(NO_CREDIT)
#define INTERRUPT ASK_TABLE, DO(CONFIRM), HEAR(READ, "R"), DO(REQUEST), HEAR(TURNED, "B")
#define ASK_THIRD HEAR(ASK, "MARINE-05 MA-0503"), DO(OWE)

static const struct signal_case laboratory_cases[] = {
    {"a table interrupted", {INTERRUPT, ASK_THIRD}, false, REQUESTS THIRD_ASKED, GONE},
    {"a table interrupted while the laboratory waits for credit",
     {ASK_WITHOUT_CREDIT, DO(REQUEST), DO(ANSWERED), HEAR(TURNED, "B"), ASK_THIRD}, false, REQUESTS THIRD_ASKED, GONE},
    {"the turn requested within the last part",
     {HEAR(ASK, "MARINE-05 MA-0505"), DO(OWE), DO(CONFIRM), DO(NO_CREDIT), DO(REQUEST), DO(ANSWERED), HEAR(TURNED, "R"), ASK_THIRD},
     false, "laboratory: asked for MARINE-05 from MA-0505 on\n" REQUESTS THIRD_ASKED, GONE},
    {"the turn requested before the table", {ASK_TABLE, DO(REQUEST), DO(ANSWERED), DO(CONFIRM), HEAR(TURNED, ""), ASK_THIRD}, false,
     REQUESTS THIRD_ASKED, GONE},
    {"the turn requested twice for one table",
     {ASK_WITHOUT_CREDIT, DO(REQUEST), DO(ANSWERED), DO(REQUEST), DO(ANSWERED), HEAR(TURNED, "B"), ASK_THIRD}, false,
     REQUESTS REQUESTS THIRD_ASKED, GONE},
    {"a second signal before the first is answered",
     {ASK_TABLE, DO(REQUEST), DO(AGAIN), DO(ANSWERED), DO(CONFIRM), HEAR(TURNED, ""), ASK_THIRD}, false, REQUESTS REQUESTS THIRD_ASKED,
     GONE},
    {"the turn requested where a card is sent",
     {DO(OWE), DO(REQUEST), DO(ANSWERED), DO(CONFIRM), ASK_TABLE, DO(CONFIRM), HEAR(READ, "R")}, false, REQUESTS, GONE},
    {"a table interrupted by one that then goes", {ASK_WITHOUT_CREDIT, DO(REQUEST), DO(ANSWERED)}, false, REQUESTS, GONE},

    {"the turn given back and nothing asked", {INTERRUPT, DO(TURN)}, false, REQUESTS,
     LABORATORY_SAYS("it has given the turn and asked nothing")},
    {"the end in place of a query", {INTERRUPT, DO(END)}, false, REQUESTS,
     LABORATORY_SAYS("it sends the mark end where it should give the turn")},
    {"silence after the turn", {INTERRUPT}, true, REQUESTS,
     LABORATORY_SAYS("time limit: nothing got on for 400 ms, in state Receive")},
    {"a query for no batch", {HEAR(ASK, "MARINE-05 MA-0520")}, false, "",
     LABORATORY_SAYS("it asks for a batch that campaign MARINE-05 has not")},
    {"a query for the batch of another campaign", {HEAR(ASK, "MARINE-05 FU-3801")}, false, "",
     LABORATORY_SAYS("it asks for a batch that campaign MARINE-05 has not")},
    {"a query for two batches", {HEAR(ASK, "MARINE-05 MA-0501 MA-0502")}, false, "",
     LABORATORY_SAYS("its query goes on after the number of a batch")},
    {"a query of no word", {HEAR(ASK, "")}, false, "", LABORATORY_SAYS("it asks for a campaign that is not here")},

    {"a signal sent twice under its number", {ASK_TABLE, DO(REQUEST), UNIT(SIGNAL)}, true, REQUESTS, LABORATORY_SAYS(BAD_NUMBER)},
    {"a signal with number 0", {UNIT("\0\0\x4B\x80\0\xC9\0\1\0\0")}, true, "", LABORATORY_SAYS(BAD_NUMBER)},
    {"a signal with the manual's RU", {UNIT("\0\1\x4B\x80\0\xC9\0\1\0\1")}, true, "", LABORATORY_SAYS(BAD_RU)},
    {"a signal that is cut", {UNIT("\0\1\x4B\x80\0\xC9\0\1\0")}, true, "", LABORATORY_SAYS(BAD_RU)},
    {"an answer to the laboratory, which asked nothing", {UNIT(ANSWER)}, true, "", LABORATORY_SAYS(UNASKED)},
    {"a refused bid on the expedited line", {UNIT("\0\1\xCF\x90\0\x08\x13\0\0\4")}, true, "", LABORATORY_SAYS(BROKEN("H1"))},
};

/* The partner's end, the last record that has come, and whether one has come since the turn was requested. */
struct partner {
    struct session session;
    struct {
        char kind; /* 0 for none */
        char text[64];
    } last;
};

static void read_all(struct partner *partner)
{
    struct session *session = &partner->session;
    enum reading found;
    while (lu62_end_state(&session->end) != LU62_CONFIRM_OWED && (found = session_read(session)) != READ_NOTHING)
        if (found == READ_RECORD) {
            struct text text = record_text(&session->record);
            size_t length = text.length < sizeof partner->last.text ? text.length : sizeof partner->last.text - 1;
            partner->last.kind = (char)record_kind(&session->record);
            memcpy(partner->last.text, text.bytes, length);
            partner->last.text[length] = '\0';
        }
}

/* Exchanges units and reads until the end is in this state. */
static bool comes_to(struct partner *partner, uint32_t state)
{
    while (lu62_end_state(&partner->session.end) != state) {
        if (!exchange_once(&partner->session))
            return false;
        read_all(partner);
    }
    return true;
}

static bool asked(struct partner *partner, const char *query)
{
    return comes_to(partner, LU62_SEND) && partner->last.kind == RECORD_QUERY && strcmp(partner->last.text, query) == 0;
}

/* Gives the turn when there is credit. */
static bool turned(struct partner *partner, bool confirm)
{
    struct session *session = &partner->session;
    if (session_prepare_turn(session) != LU62_ACCEPTED)
        return false;
    while ((confirm ? session_confirm(session) : session_flush(session)) == LU62_NO_CREDIT)
        if (!exchange_once(session))
            return false;
    line_send(&session->line);
    return true;
}

static bool ended(struct partner *partner)
{
    while (session_end(&partner->session, false) == LU62_NO_CREDIT)
        if (!exchange_once(&partner->session))
            return false;
    line_send(&partner->session.line);
    return true;
}

static bool has_read(struct partner *partner, char kind)
{
    while (partner->last.kind != kind) {
        if (!exchange_once(&partner->session))
            return false;
        read_all(partner);
    }
    return true;
}

/* Listens without a pacing response until a unit has come, and then until none has come for a while. */
static bool out_of_credit(struct partner *partner)
{
    int64_t until = clock_ms() + PATIENCE_MS;
    size_t all = 0;
    while (clock_ms() < until) {
        size_t taken = 0;
        if (!take_what_comes(&partner->session, until - clock_ms(), &taken))
            return false;
        read_all(partner);
        all += taken;
        if (taken > 0)
            until = clock_ms() + QUIET_MS;
    }
    return all > 0;
}

static bool nothing_comes(struct partner *partner)
{
    int64_t until = clock_ms() + QUIET_MS;
    size_t taken = 0;
    while (taken == 0 && clock_ms() < until)
        if (!take_what_comes(&partner->session, until - clock_ms(), &taken))
            return false;
    return taken == 0;
}

static bool confirmed(struct partner *partner)
{
    bool good = session_confirmed(&partner->session) == LU62_ACCEPTED;
    line_send(&partner->session.line);
    return good;
}

static bool requested(struct partner *partner)
{
    partner->last.kind = 0;
    bool good = session_request_turn(&partner->session) == LU62_ACCEPTED;
    line_send(&partner->session.line);
    return good;
}

static bool expedited(struct partner *partner, const char *bytes, size_t length)
{
    bool good = line_put(&partner->session.line, EXPEDITED, (const uint8_t *)bytes, length);
    line_send(&partner->session.line);
    return good;
}

/* Waits for the answer to the partner's signal. */
static bool answered(struct partner *partner)
{
    size_t taken;
    while (lu62_end_signal_unanswered(&partner->session.end)) {
        if (!take_what_comes(&partner->session, PATIENCE_MS, &taken))
            return false;
        read_all(partner);
    }
    return true;
}

static bool signalled(struct partner *partner)
{
    size_t length;
    while (line_front(&partner->session.line, EXPEDITED, &length) == NULL)
        if (!exchange_once(&partner->session))
            return false;
    return true;
}

static bool told(struct partner *partner)
{
    deaf = false;
    while (partner->session.told == 0)
        if (!exchange_once(&partner->session))
            return false;
    partner->session.told--;
    return true;
}

static bool acted(struct partner *partner, const struct step *step)
{
    struct session *session = &partner->session;
    const char *text = step->record.text;
    struct odd query = {RECORD_QUERY, text, false, 0};
    switch (step->act) {
    case NO_ACT: return true;
    case ASKED: return asked(partner, text);
    case ASK: return come_to_ask(session) && give(session, &query) && turned(partner, false);
    case GIVE: return give(session, &step->record);
    case FLUSH: return flushed(session);
    case TURN: return turned(partner, false);
    case TURN_CONFIRM: return turned(partner, true);
    case END: return ended(partner);
    case READ: return has_read(partner, *text);
    case OWE: return comes_to(partner, LU62_CONFIRM_OWED);
    case CONFIRM: return confirmed(partner);
    case NOTHING: return nothing_comes(partner);
    case NO_CREDIT: return out_of_credit(partner);
    case REQUEST: return requested(partner);
    case AGAIN: session->end.image[UNANSWERED_AT] = 0; return requested(partner);
    case ANYWAY: session->end.image[UNANSWERED_AT] = session->end.image[NUMBER_AT] = 1; return expedited(partner, SIGNAL, 10);
    case ANSWERED: return answered(partner);
    case TURNED: return comes_to(partner, LU62_SEND) && partner->last.kind == *text;
    case DEAF: return deaf = true;
    case SIGNALLED: return signalled(partner);
    case TOLD: return told(partner);
    case EXPEDITE: return expedited(partner, text, step->record.length);
    case RAW: return send(session->line.socket, text, step->record.length, MSG_NOSIGNAL) == (ssize_t)step->record.length;
    }
    return false;
}

typedef bool session_open(struct session *session, int socket, const struct options *options);

/* Runs the program with a partner that does what the case says. */
static void run_case(const struct signal_case *the, child_program *program, session_open *open)
{
    static struct partner partner;
    static struct child child;
    struct options options = {.limit_ms = the->silent ? LIMIT_MS : LONG_LIMIT_MS, .pause_ms = DEFAULT_PAUSE_MS};
    int line = started(&child, program, &options);
    memset(&partner.last, 0, sizeof partner.last);
    deaf = false;
    if (!open(&partner.session, line, &options))
        exit(EXIT_FAILURE);
    bool good = true;
    for (size_t i = 0; good && i < MOST_STEPS; i++)
        good = acted(&partner, &the->steps[i]);
    line_send(&partner.session.line);
    if (!the->silent)
        (void)shutdown(line, SHUT_WR);
    child_wait(&child, PATIENCE_MS);
    (void)close(line);
    expect(good, the->name, "the partner could not act so", &child);
    expect(partner.session.told == 0, the->name, "a signal more than one for a wrong number", &child);
    expect(child.status == EXIT_FAILURE && strcmp(child.out, the->out) == 0, the->name, "the exit status is not 1, or other lines",
           &child);
    expect(strcmp(child.err, the->err) == 0, the->name, "another message", &child);
}

/* The two ends of a line. */
static struct line from, to;

static void open_line(void)
{
    int sockets[2];
    if (socketpair(AF_UNIX, SOCK_STREAM, 0, sockets) < 0 || !line_open(&from, sockets[0]) || !line_open(&to, sockets[1]))
        cannot("socketpair");
}

static void close_line(void)
{
    (void)close(from.socket);
    (void)close(to.socket);
}

static void line_expect(bool good, const char *what)
{
    if (good)
        return;
    failures++;
    fprintf(stderr, "signals: the line: %s\n", what);
}

/* A unit that has come and is left there does not hold up an expedited one behind it. */
static void taken_past_normal_units(void)
{
    size_t length = 0;
    open_line();
    bool put = line_put(&from, NORMAL, (const uint8_t *)"one", 3) && line_put(&from, NORMAL, (const uint8_t *)"two", 3);
    line_send(&from);
    put = put && line_put(&from, EXPEDITED, (const uint8_t *)"expedited", 9);
    line_send(&from);
    (void)line_receive(&to);
    const uint8_t *unit = line_front(&to, EXPEDITED, &length);
    line_expect(put && unit != NULL && length == 9 && memcmp(unit, "expedited", 9) == 0, "an expedited unit waits behind normal ones");
    line_drop(&to, EXPEDITED);
    line_expect(line_front(&to, EXPEDITED, &length) == NULL, "an expedited unit stays though it was dropped");
    for (size_t i = 0; i < 2; i++) {
        unit = line_front(&to, NORMAL, &length);
        line_expect(unit != NULL && length == 3 && memcmp(unit, i == 0 ? "one" : "two", 3) == 0, "a normal unit is not as it was sent");
        line_drop(&to, NORMAL);
    }
    line_expect(to.in_held == 0, "something is left");
    close_line();
}

/* Units longer than the socket takes at once, so that one is under way when it takes no more. */
enum { LONG_UNIT = 5000, WAITING = 2, SOCKET_ROOM = 4096 };

/* Puts the next normal unit on the line, which begins with its number. */
static bool put_numbered(size_t *number)
{
    uint8_t unit[LONG_UNIT] = {(uint8_t)(*number / 256), (uint8_t)(*number % 256)};
    bool put = line_put(&from, NORMAL, unit, sizeof unit);
    (*number)++;
    line_send(&from);
    return put;
}

/* Takes what has come, in the order in which it came. `number` counts the normal units, which must come in theirs, and `expedited_at` is
 * how many of them came before the expedited one. */
static bool take_in_order(size_t *number, size_t *expedited_at)
{
    size_t length, expedited_length;
    const uint8_t *unit, *expedited;
    bool good = true;
    while ((unit = line_front(&to, NORMAL, &length)) != NULL) {
        expedited = line_front(&to, EXPEDITED, &expedited_length);
        if (expedited != NULL && expedited < unit) {
            *expedited_at = *number;
            line_drop(&to, EXPEDITED);
            continue;
        }
        good = good && length == LONG_UNIT && unit[0] * 256u + unit[1] == *number;
        (*number)++;
        line_drop(&to, NORMAL);
    }
    return good;
}

/* Where the socket takes no more, an expedited unit goes right behind the unit under way, before those that wait. */
static void sent_past_normal_units(void)
{
    size_t sent = 0, taken = 0, expedited_at = SIZE_MAX;
    bool good = true;
    open_line();
    int room = SOCKET_ROOM;
    if (setsockopt(from.socket, SOL_SOCKET, SO_SNDBUF, &room, sizeof room) < 0)
        cannot("setsockopt");
    while (good && from.out[NORMAL].held < WAITING * LONG_UNIT)
        good = put_numbered(&sent);
    line_expect(from.out[NORMAL].rest > 0, "no unit is under way");
    size_t unsent = from.out[NORMAL].held / (LINE_LENGTH_BYTES + LONG_UNIT);
    good = good && line_put(&from, EXPEDITED, (const uint8_t *)"expedited", 9);
    while (good && taken < sent) {
        line_send(&from);
        good = (line_receive(&to) || line_unsent(&from)) && take_in_order(&taken, &expedited_at);
    }
    line_expect(good && taken == sent, "normal units are lost or come in another order");
    line_expect(expedited_at == sent - unsent, "an expedited unit waits behind normal ones that are still to be sent");
    close_line();
}

int main(void)
{
    size_t blenders = sizeof blender_cases / sizeof blender_cases[0];
    size_t laboratories = sizeof laboratory_cases / sizeof laboratory_cases[0];
    taken_past_normal_units();
    sent_past_normal_units();
    for (size_t i = 0; i < blenders; i++)
        run_case(&blender_cases[i], blender, session_open_laboratory);
    for (size_t i = 0; i < laboratories; i++)
        run_case(&laboratory_cases[i], laboratory, session_open_blender);
    if (failures != 0) {
        fprintf(stderr, "signals: %d differences\n", failures);
        return EXIT_FAILURE;
    }
    printf("signals: %zu odd partners; each signal was answered and told once, and what no partner may send ended in a message\n",
           blenders + laboratories);
    return EXIT_SUCCESS;
}
