/* What the blender prints is what was sent, or nothing: the test is a laboratory that keeps the protocol and sends odd records, or
 * stops in the middle of a unit, and looks at what the blender prints, says and answers. Then a laboratory without a pacing response,
 * on which the turn of the blender waits, and the error header. Cards that the blender confirms, and cards that it does not. At the end
 * the laboratory with a silent blender, and with blenders that do not confirm its cards. Prints how many cases were tried, or what
 * differed. */
#include "partner.h"

#include "../../hosts/clock.h"

#include <stdlib.h>
#include <string.h>
#include <sys/socket.h>
#include <unistd.h>

enum { MOST_RECORDS = 6, LONG = 600 };

/* How long it is listened for more units than are due. */
enum { QUIET_MS = 150 };

/* A table of one row, and one of two rows of three parts. */
#define ONE_ROW LAST('A', "MARINE-05 1")
#define COLUMNS PART('H', GOOD_COLUMNS)
#define ROW LAST('R', GOOD_ROW)
#define TWO_ROWS LAST('A', "MARINE-05 2")
#define WIDE_COLUMNS PART('H', "3 viscosity 3 8 8 batch 1 8 8 sulphur 2 9 8")
#define FIRST_PART PART('R', "   1  1 MA-0501 ")
#define SECOND_PART PART('R', "   1  2 -0.093   ")
#define THIRD_PART PART('R', "   1  3 179.2   ")

/* A card whose figure can be, and one whose figure cannot. */
#define RIGHT_CARD "FU-3803 sulphur 0.491"
#define WRONG_CARD "MA-0502 viscosity 1819"
#define NOT_CONFIRMED "card not confirmed: " WRONG_CARD " cannot be\n"

/* The flag in an image that says that an error is due. */
enum { ERROR_AT = 42 };

/* How the test's laboratory stops: by the end of the conversation, by closing the line, or with the line left open; or by the mark of
 * the end in a unit whose last part says that another follows, which no call would make; or by an error header, though it has refused
 * no confirmation. */
enum stop { STOP_END, STOP_CLOSE, STOP_SILENT, STOP_HALF_LENGTH, STOP_HALF_UNIT, STOP_FORGED_END, STOP_ERROR_HEADER };

struct record_case {
    const char *name;
    bool revision;  /* sent in a conversation that the laboratory begins; else as the table asked for */
    struct odd records[MOST_RECORDS];
    enum stop stop;
    const char *out; /* all that the blender prints */
    const char *err; /* part of what it says */
};

static char long_columns[LONG + 64];
static char long_revised[66];

#define LABORATORY_TOLD "laboratory: not confirmed by the blender: " RIGHT_CARD "; its error header says sense 08 89 00 00\n"
#define LABORATORY_SENT "laboratory: sent in its place: " RIGHT_CARD "\n"
#define CANNOT_PRINT SAYS("it sends a record with a byte that cannot be printed")
#define ALONE SAYS("a record that stands alone says that another part follows")

/* A blender that finds nothing wrong says only that the laboratory has gone before everything was answered. */
static const struct record_case cases[] = {
    {"a good table", false, {ONE_ROW, COLUMNS, ROW}, STOP_END, HEADINGS GOOD_LINE, ALL_CAME},
    {"a table without rows", false, {LAST('A', "MARINE-05 0"), LAST('H', GOOD_COLUMNS)}, STOP_END, HEADINGS, ALL_CAME},
    {"a column record of over 600 characters", false, {ONE_ROW, PART('H', long_columns), ROW}, STOP_END, HEADINGS GOOD_LINE,
     ALL_CAME},
    {"an offset 000024", false, {ONE_ROW, PART('H', "1 batch 1 8 8 viscosity 1 16 8 sulphur 1 000024 8"), ROW}, STOP_END,
     HEADINGS GOOD_LINE, ALL_CAME},

    {"the table of another campaign", false, {LAST('A', "FUEL-380 1")}, STOP_END, "",
     SAYS("it announces another table than that of campaign MARINE-05")},
    {"no number of rows", false, {LAST('A', "MARINE-05")}, STOP_END, "",
     SAYS("it announces a table and does not say how many rows it has, at most 9999")},
    {"a word behind the number of rows", false, {LAST('A', "MARINE-05 1 2")}, STOP_END, "",
     SAYS("it announces a table and does not say how many rows it has, at most 9999")},
    {"an announcement with another part to follow", false, {PART('A', "MARINE-05 1")}, STOP_CLOSE, "", ALONE},
    {"a table announced twice", false, {ONE_ROW, ONE_ROW}, STOP_END, "", SAYS("it announces one table twice")},
    {"no table behind the announcement", false, {ONE_ROW}, STOP_END, "",
     SAYS("it ends the conversation before its table is whole, after 0 rows of 1")},
    {"a conversation ended without an answer", false, {{0, NULL, false, 0}}, STOP_END, "",
     SAYS("it ends the conversation before its table is whole, after 0 rows of 0")},

    {"columns without an announcement", false, {COLUMNS}, STOP_CLOSE, "",
     SAYS("it names the columns of a table that it has not announced")},
    {"no number of parts", false, {ONE_ROW, PART('H', "batch 1 8 8 viscosity 1 16 8 sulphur 1 24 8")}, STOP_CLOSE, "",
     SAYS("its table does not say how many parts a row has, 1 to 99")},
    {"rows of no part", false, {ONE_ROW, PART('H', "0 batch 1 8 8 viscosity 1 16 8 sulphur 1 24 8")}, STOP_CLOSE, "",
     SAYS("its table does not say how many parts a row has, 1 to 99")},
    {"a column in part 0", false, {ONE_ROW, PART('H', "1 batch 0 8 8 viscosity 1 16 8 sulphur 1 24 8")}, STOP_CLOSE, "",
     SAYS("its table has a column without part, offset and width")},
    {"a column in a part that rows have not", false, {ONE_ROW, PART('H', "1 batch 2 8 8 viscosity 1 16 8 sulphur 1 24 8")},
     STOP_CLOSE, "", SAYS("its table has a column without part, offset and width")},
    {"an offset 24x", false, {ONE_ROW, PART('H', "1 batch 1 8 8 viscosity 1 16 8 sulphur 1 24x 8")}, STOP_CLOSE, "",
     SAYS("its table has a column without part, offset and width")},
    {"an offset past any record", false, {ONE_ROW, PART('H', "1 batch 1 8 8 viscosity 1 16 8 sulphur 1 4294967320 8")}, STOP_CLOSE,
     "", SAYS("its table has a column without part, offset and width")},
    {"a column without width", false, {ONE_ROW, PART('H', "1 batch 1 8 8 viscosity 1 16 8 sulphur 1 24")}, STOP_CLOSE, "",
     SAYS("its table has a column without part, offset and width")},
    {"a column named twice", false, {ONE_ROW, PART('H', GOOD_COLUMNS " batch 1 16 8")}, STOP_CLOSE, "",
     SAYS("its table names the column batch twice")},
    {"no column for sulphur", false, {ONE_ROW, PART('H', "1 batch 1 8 8 viscosity 1 16 8")}, STOP_CLOSE, "",
     SAYS("its table has no column sulphur")},
    {"columns named twice", false, {ONE_ROW, COLUMNS, COLUMNS}, STOP_CLOSE, HEADINGS,
     SAYS("it names the columns of one table twice")},

    {"a row before its columns", false, {ONE_ROW, ROW}, STOP_END, "", SAYS("it sends a row before it has named the columns")},
    {"a row without its number", false, {ONE_ROW, COLUMNS, LAST('R', "MA-0501 179.2   0.093   ")}, STOP_END, HEADINGS,
     SAYS("it sends a part of a row without the numbers of row and part")},
    {"a row that is too short", false, {ONE_ROW, COLUMNS, LAST('R', "   1  1 MA-0501 179.2   0.093")}, STOP_END, HEADINGS,
     SAYS("a row of its table ends before the column sulphur")},
    {"a value of 11 characters", false,
     {ONE_ROW, PART('H', "1 batch 1 8 8 viscosity 1 16 8 sulphur 1 24 11"), LAST('R', "   1  1 MA-0501 179.2   0.093456789")},
     STOP_END, HEADINGS, SAYS("a row of its table has over 10 characters in the column sulphur")},
    {"two words in a value", false, {ONE_ROW, COLUMNS, LAST('R', "   1  1 MA-0501 179.2   0.0 93  ")}, STOP_END, HEADINGS,
     SAYS("a row of its table has not one word in the column sulphur")},
    {"no word in a value", false, {ONE_ROW, COLUMNS, LAST('R', "   1  1 MA-0501 179.2           ")}, STOP_END, HEADINGS,
     SAYS("a row of its table has not one word in the column sulphur")},
    {"a zero byte in a value", false, {ONE_ROW, COLUMNS, {'R', "   1  1 MA-0501 179\0002   0.093   ", false, 32}}, STOP_END, HEADINGS,
     CANNOT_PRINT},
    {"a newline in a value", false, {ONE_ROW, COLUMNS, LAST('R', "   1  1 MA-0501 1\nX 2   0.093   ")}, STOP_END, HEADINGS,
     CANNOT_PRINT},
    {"an escape in a value", false, {ONE_ROW, COLUMNS, LAST('R', "   1  1 MA-0501 \033[2J    0.093   ")}, STOP_END, HEADINGS,
     CANNOT_PRINT},
    {"a changed byte in a row", false, {ONE_ROW, COLUMNS, LAST(WRONG_CHECK, GOOD_ROW)}, STOP_END, HEADINGS,
     SAYS("it sends a record whose check does not fit it")},
    {"a record of no kind", false, {ONE_ROW, COLUMNS, LAST('X', "")}, STOP_END, HEADINGS,
     SAYS("it sends a record that is not expected here")},

    {"a row in three parts", false, {TWO_ROWS, WIDE_COLUMNS, FIRST_PART, SECOND_PART, THIRD_PART}, STOP_CLOSE, HEADINGS GOOD_LINE,
     SAYS("it has gone in the middle of the conversation")},
    {"a row whose last part does not come", false, {TWO_ROWS, WIDE_COLUMNS, FIRST_PART, SECOND_PART}, STOP_CLOSE, HEADINGS,
     SAYS("it has gone in the middle of the conversation")},
    {"a part of a row left out", false, {TWO_ROWS, WIDE_COLUMNS, FIRST_PART, THIRD_PART}, STOP_CLOSE, HEADINGS,
     SAYS("it sends part 3 of row 1 where part 2 of row 1 is due")},
    {"a part of a row sent twice", false, {TWO_ROWS, WIDE_COLUMNS, FIRST_PART, FIRST_PART}, STOP_CLOSE, HEADINGS,
     SAYS("it sends part 1 of row 1 where part 2 of row 1 is due")},
    {"a row left out", false, {TWO_ROWS, WIDE_COLUMNS, PART('R', "   2  1 MA-0502 ")}, STOP_CLOSE, HEADINGS,
     SAYS("it sends part 1 of row 2 where part 1 of row 1 is due")},
    {"a row sent twice", false, {TWO_ROWS, COLUMNS, PART('R', GOOD_ROW), PART('R', GOOD_ROW)}, STOP_CLOSE, HEADINGS GOOD_LINE,
     SAYS("it sends part 1 of row 1 where part 1 of row 2 is due")},
    {"a column in the part of another", false,
     {TWO_ROWS, PART('H', "3 viscosity 3 8 8 batch 1 8 8 sulphur 3 9 8"), FIRST_PART, SECOND_PART, THIRD_PART}, STOP_CLOSE, HEADINGS,
     SAYS("a row of its table ends before the column sulphur")},

    {"a table that ends with its columns", false, {ONE_ROW, LAST('H', GOOD_COLUMNS)}, STOP_END, "",
     SAYS("its table ends early: part 1 of row 1 has not come, and it announced 1 rows")},
    {"a table that ends within a row", false, {TWO_ROWS, WIDE_COLUMNS, LAST('R', "   1  1 MA-0501 ")}, STOP_END, HEADINGS,
     SAYS("its table ends early: part 2 of row 1 has not come, and it announced 2 rows")},
    {"a table that ends before its last row", false, {TWO_ROWS, COLUMNS, ROW}, STOP_END, HEADINGS,
     SAYS("its table ends early: part 1 of row 2 has not come, and it announced 2 rows")},
    {"a table that goes on after its last row", false, {ONE_ROW, COLUMNS, PART('R', GOOD_ROW)}, STOP_CLOSE, HEADINGS,
     SAYS("its table goes on after the last of the 1 rows that it announced")},
    {"a table without rows that goes on", false, {LAST('A', "MARINE-05 0"), COLUMNS}, STOP_CLOSE, "",
     SAYS("its table goes on after the last of the 0 rows that it announced")},
    {"a row after the table", false, {ONE_ROW, COLUMNS, ROW, LAST('R', "   2  1 MA-0502 181.6   0.088   ")}, STOP_END,
     HEADINGS GOOD_LINE, SAYS("it sends a record after the last part of its table")},
    {"the end behind a part that another follows", false, {TWO_ROWS, COLUMNS, PART('R', GOOD_ROW)}, STOP_FORGED_END, HEADINGS,
     SAYS("a unit from it was refused: refusal 29 (a bad record length, or a mark behind a record not whole or with another part to "
          "follow), sense 00000000")},

    {"a newline in a revised figure", true, {LAST('N', "FU-3803 sulphur\n0.491")}, STOP_END, "", CANNOT_PRINT},
    {"a revised figure of 65 characters", true, {LAST('N', long_revised)}, STOP_END, "",
     SAYS("it sends a revised figure of over 63 characters")},
    {"a revised figure with another part to follow", true, {PART('N', "FU-3803 sulphur 0.491")}, STOP_CLOSE, "", ALONE},
    {"two revised figures in one conversation", true, {LAST('N', RIGHT_CARD), LAST('N', RIGHT_CARD)}, STOP_END, "",
     SAYS("it sends a record that is not expected here")},
    {"two wrong cards in one conversation", true, {LAST('N', WRONG_CARD), LAST('N', WRONG_CARD)}, STOP_END, "",
     SAYS("it sends a record that is not expected here")},
    {"a wrong card that is not to be confirmed", true, {LAST('N', WRONG_CARD)}, STOP_END, "",
     SAYS("it sends the card " WRONG_CARD ", which cannot be, and does not ask for its confirmation")},
    {"an error header unasked", false, {TWO_ROWS, COLUMNS, PART('R', GOOD_ROW), LAST('R', "   2  1 MA-0502 181.6   0.088   ")},
     STOP_ERROR_HEADER, HEADINGS GOOD_LINE "MA-0502         181.6      0.088\n",
     SAYS("it sends the mark error, which is not expected here")},
    {"a conversation without a record", true, {{0, NULL, false, 0}}, STOP_END, "",
     SAYS("it ends a conversation in which it has sent nothing")},
    {"a wrong number of revised figures", true, {LAST('Z', "1")}, STOP_END, "",
     SAYS("its number of revised figures is not the 0 that came")},
    {"the last word on revised figures with another part to follow", true, {PART('Z', "0")}, STOP_CLOSE, "", ALONE},

    {"gone in the middle of the conversation", false, {TWO_ROWS, COLUMNS, PART('R', GOOD_ROW)}, STOP_CLOSE, HEADINGS GOOD_LINE,
     SAYS("it has gone in the middle of the conversation")},
    {"silence", false, {TWO_ROWS, COLUMNS, PART('R', GOOD_ROW)}, STOP_SILENT, HEADINGS GOOD_LINE,
     SAYS("time limit: nothing got on for 400 ms, in state Receive")},
    {"half a length", false, {TWO_ROWS, COLUMNS, PART('R', GOOD_ROW)}, STOP_HALF_LENGTH, HEADINGS GOOD_LINE,
     SAYS("time limit: " HALF)},
    {"half a unit", false, {TWO_ROWS, COLUMNS, PART('R', GOOD_ROW)}, STOP_HALF_UNIT, HEADINGS GOOD_LINE, SAYS("time limit: " HALF)},
};

/* Sends all that has been given, and then as the case says. */
static void stop_as(struct session *session, enum stop stop)
{
    /* The unit that flush makes is the last in its chain; weight 01 of its header's last byte says that the conversation ends. */
    size_t header_end = LINE_LENGTH_BYTES + LU62_UNIT(0) - 1;
    struct line_out *out = &session->line.out[NORMAL];
    size_t frame = out->held;
    while ((stop == STOP_END ? session_end(session, false) : session_flush(session)) == LU62_NO_CREDIT) {
        if (!exchange_once(session))
            return;
        frame = out->held;
    }
    if (stop == STOP_FORGED_END)
        out->bytes[frame + header_end] |= 0x01;
    if (stop == STOP_ERROR_HEADER) {
        session->end.image[ERROR_AT] = 1;
        (void)flushed(session);
    }
    line_send(&session->line);
    if (stop == STOP_HALF_LENGTH && send(session->line.socket, "\0", 1, MSG_NOSIGNAL) != 1)
        cannot("send");
    if (stop == STOP_HALF_UNIT && send(session->line.socket, "\0\020\0\1\2", 5, MSG_NOSIGNAL) != 5)
        cannot("send");
}

static void play_laboratory(struct session *session, const struct record_case *the)
{
    if (!come_to_send(session, the->revision))
        return;
    for (size_t i = 0; i < MOST_RECORDS && the->records[i].text != NULL; i++)
        if (!give(session, &the->records[i]))
            return;
    stop_as(session, the->stop);
}

/* What the blender sends meanwhile is left on the line. A laboratory that is not to stay silent closes it. */
static void run_case(const struct record_case *the)
{
    static struct session session;
    static struct child child;
    bool closes = the->stop == STOP_END || the->stop == STOP_CLOSE || the->stop == STOP_FORGED_END || the->stop == STOP_ERROR_HEADER;
    struct options options = {.limit_ms = closes ? LONG_LIMIT_MS : LIMIT_MS, .pause_ms = DEFAULT_PAUSE_MS};
    int line = started(&child, blender, &options);
    if (!session_open_laboratory(&session, line, &options))
        exit(EXIT_FAILURE);
    play_laboratory(&session, the);
    if (closes)
        (void)close(line);
    child_wait(&child, PATIENCE_MS);
    if (!closes)
        (void)close(line);
    expect(child.status == EXIT_FAILURE, the->name, "the exit status is not 1", &child);
    expect(strcmp(child.out, the->out) == 0, the->name, "other figures than those sent", &child);
    expect(strcmp(child.err, the->err) == 0, the->name, "another message", &child);
}

/* What a laboratory hears until nothing more comes. */
struct heard {
    size_t units, records, turns, errors;
    bool query; /* the last record was the query for the first campaign */
};

/* Takes and reads what comes without a pacing response: so many units are due, and then nothing for QUIET_MS. */
static struct heard listen_for(struct session *session, size_t due)
{
    struct heard heard = {0, 0, 0, 0, false};
    enum reading found;
    int64_t until = clock_ms() + PATIENCE_MS;
    while (clock_ms() < until) {
        size_t before = heard.units;
        if (!take_what_comes(session, until - clock_ms(), &heard.units))
            break;
        while ((found = session_read(session)) != READ_NOTHING)
            if (found == READ_RECORD) {
                heard.records++;
                heard.query =
                    record_kind(&session->record) == RECORD_QUERY && text_is(record_text(&session->record), "MARINE-05");
            } else if (found == READ_MARK && session->end.answer.mark == LU62_MARK_TURN)
                heard.turns++;
            else if (found == READ_MARK && session->end.answer.mark == LU62_MARK_ERROR)
                heard.errors++;
        if (before < due && heard.units >= due)
            until = clock_ms() + QUIET_MS;
    }
    return heard;
}

/* Whether so many units come and no more, with this many records, all queries, and turns in them. */
static bool hears(struct session *session, size_t units, size_t records, size_t turns)
{
    struct heard heard = listen_for(session, units);
    return heard.units == units && heard.records == records && heard.turns == turns && heard.query == (records > 0);
}

/* The blender with a laboratory that makes no pacing response. Its window is used up by the bid and the front of the query: the turn
 * stays prepared. Then the pacing response comes, and the turn goes once with the rest of the query; or it does not come in time. */
static void the_turn_waits(bool paced)
{
    static struct session session;
    static struct child child;
    const char *name = paced ? "a late pacing response" : "no pacing response";
    struct options options = {.limit_ms = paced ? LONG_LIMIT_MS : LIMIT_MS, .pause_ms = DEFAULT_PAUSE_MS};
    int line = started(&child, blender, &options);
    if (!session_open_laboratory(&session, line, &options))
        exit(EXIT_FAILURE);
    bool waited = hears(&session, BLENDER_WINDOW, 0, 0), went = !paced;
    if (paced) {
        pace(&session);
        went = hears(&session, 1, 1, 1) && lu62_end_state(&session.end) == LU62_SEND;
        (void)close(line);
    }
    child_wait(&child, PATIENCE_MS);
    if (!paced)
        (void)close(line);
    expect(waited, name, "the turn did not wait for it", &child);
    expect(went, name, "the turn did not go with the query, or not once", &child);
    expect(child.status == EXIT_FAILURE && child.out[0] == '\0', name, "the exit status is not 1, or something was printed", &child);
    expect(strcmp(child.err, paced ? SAYS("it has gone in the middle of the conversation")
                                   : SAYS("time limit: nothing got on for 400 ms, in state DeferTurn")) == 0,
           name, "another message", &child);
}

/* Begins a conversation, if none is under way, with this card in it, and asks for the end with confirmation. */
static void send_card(struct session *session, const char *card)
{
    struct odd record = LAST('N', NULL);
    record.text = card;
    (void)session_allocate(session);
    if (!give(session, &record))
        return;
    while (session_end(session, true) == LU62_NO_CREDIT)
        if (!exchange_once(session))
            return;
    line_send(&session->line);
}

/* Whether the confirmation of a card has come, or its refusal with the error header and the turn, and nothing else. */
static bool answered(struct session *session, bool confirmed)
{
    size_t errors = 0, others = 0;
    enum reading found;
    uint32_t end = confirmed ? LU62_RESET : LU62_SEND;
    while (lu62_end_state(&session->end) != end && exchange_once(session))
        while ((found = session_read(session)) != READ_NOTHING)
            if (found == READ_MARK && session->end.answer.mark == LU62_MARK_ERROR)
                errors++;
            else if (found != READ_MARK || session->end.answer.mark != LU62_MARK_TURN)
                others++;
    return lu62_end_state(&session->end) == end && errors == (confirmed ? 0 : 1) && others == 0;
}

/* Cards at the bounds of what a figure can be, and cards that are none. */
static const struct card_case {
    const char *card;
    bool confirmed;
} cards[] = {
    {"FU-3803 viscosity 1", true},    {"FU-3803 viscosity 1000", true},  {"FU-3803 sulphur 0", true},
    {"FU-3803 sulphur 5.000", true},  {"FU-3803 viscosity 0.999", false}, {"FU-3803 viscosity 1000.1", false},
    {"FU-3803 sulphur 5.001", false}, {"FU-3803 sulphur -0.1", false},   {"FU-3803 sulphur 1e0", false},
    {"FU-3803 sulphur 0.4.9", false}, {"FU-3803 sulphur .", false},      {"FU-3803 sulphur 00000000001", false},
    {"FU-3803 density 0.9", false},   {"FU-3803 sulphur", false},        {"FU-3803 sulphur 0.491 0.492", false},
    {"", false},
};

/* The blender with a laboratory that sends this card. One that is not confirmed is followed by one that is. */
static void blender_answers(const struct card_case *the)
{
    static struct session session;
    static struct child child;
    char out[128] = "";
    struct options options = {.limit_ms = LONG_LIMIT_MS, .pause_ms = DEFAULT_PAUSE_MS};
    int line = started(&child, blender, &options);
    if (!session_open_laboratory(&session, line, &options))
        exit(EXIT_FAILURE);
    send_card(&session, the->card);
    bool good = answered(&session, the->confirmed);
    if (good && !the->confirmed) {
        send_card(&session, RIGHT_CARD);
        good = answered(&session, true);
        (void)snprintf(out, sizeof out, "card not confirmed: %s cannot be\n", the->card);
    }
    (void)close(line);
    child_wait(&child, PATIENCE_MS);
    expect(good, the->card, "another answer", &child);
    expect(child.status == EXIT_FAILURE && strcmp(child.out, out) == 0, the->card, "the exit status is not 1, or other lines", &child);
    expect(strcmp(child.err, ALL_CAME) == 0, the->card, "another message", &child);
}

/* The blender with a laboratory that sends nothing but wrong cards: two of them in one conversation are answered. */
static void wrong_cards_only(void)
{
    static struct session session;
    static struct child child;
    const char *name = "wrong cards only";
    struct options options = {.limit_ms = LONG_LIMIT_MS, .pause_ms = DEFAULT_PAUSE_MS};
    int line = started(&child, blender, &options);
    if (!session_open_laboratory(&session, line, &options))
        exit(EXIT_FAILURE);
    bool good = true;
    for (int i = 0; good && i < 2; i++) {
        send_card(&session, WRONG_CARD);
        good = answered(&session, false);
    }
    send_card(&session, WRONG_CARD);
    child_wait(&child, PATIENCE_MS);
    (void)close(line);
    expect(good, name, "one of the first two is answered otherwise", &child);
    expect(child.status == EXIT_FAILURE && strcmp(child.out, NOT_CONFIRMED NOT_CONFIRMED) == 0, name, "other lines", &child);
    expect(strcmp(child.err, SAYS("it sends the card " WRONG_CARD ", which cannot be, after 2 others in one conversation")) == 0, name,
           "another message", &child);
}

/* Whether so many units come and no more, with so many error headers and turns in them. */
static bool hears_errors(struct session *session, size_t units, size_t errors, size_t turns)
{
    struct heard heard = listen_for(session, units);
    return heard.units == units && heard.records == 0 && heard.errors == errors && heard.turns == turns;
}

/* The blender with a laboratory that makes no pacing response. Its window is used up by two bids: the refusal of a confirmation goes,
 * the error header waits. Then the pacing response comes, and error header and turn go; or it does not come in time. */
static void the_error_header_waits(bool paced)
{
    static struct session session;
    static struct child child;
    const char *name = paced ? "a late pacing response for the error header" : "no pacing response for the error header";
    struct options options = {.limit_ms = paced ? LONG_LIMIT_MS : LIMIT_MS, .pause_ms = DEFAULT_PAUSE_MS};
    int line = started(&child, blender, &options);
    if (!session_open_laboratory(&session, line, &options))
        exit(EXIT_FAILURE);
    /* Each bid is refused, because the laboratory has begun itself. */
    (void)session_allocate(&session);
    bool bids = hears_errors(&session, BLENDER_WINDOW, 0, 0);
    send_card(&session, WRONG_CARD);
    bool waited = hears_errors(&session, 1, 0, 0) && lu62_end_state(&session.end) == LU62_RECEIVE, went = !paced;
    if (paced) {
        pace(&session);
        went = hears_errors(&session, 2, 1, 1) && lu62_end_state(&session.end) == LU62_SEND;
        (void)close(line);
    }
    child_wait(&child, PATIENCE_MS);
    if (!paced)
        (void)close(line);
    expect(bids && waited, name, "two bids and the refusal, and then nothing, did not come", &child);
    expect(went, name, "error header and turn did not go", &child);
    expect(child.status == EXIT_FAILURE && strcmp(child.out, NOT_CONFIRMED) == 0, name, "other lines", &child);
    expect(strcmp(child.err, paced ? SAYS("it has gone in the middle of the conversation")
                                   : SAYS("time limit: nothing got on for 400 ms, in state Send")) == 0,
           name, "another message", &child);
}

/* The laboratory with a blender that sends no more than these bytes. */
static void laboratory_waits(const char *name, const char *bytes, size_t length, const char *says)
{
    static struct child child;
    struct options options = {.limit_ms = LIMIT_MS, .pause_ms = DEFAULT_PAUSE_MS};
    int line = started(&child, laboratory, &options);
    if (length > 0 && send(line, bytes, length, MSG_NOSIGNAL) != (ssize_t)length)
        cannot("send");
    child_wait(&child, PATIENCE_MS);
    (void)close(line);
    expect(child.status == EXIT_FAILURE && child.out[0] == '\0', name, "the exit status is not 1, or something was printed", &child);
    expect(strcmp(child.err, says) == 0, name, "another message", &child);
}

/* What the laboratory says to a query. */
static const struct query_case {
    const char *name;
    struct odd query;
    const char *says;
} queries[] = {
    {"a query with another part to follow", PART('Q', "MARINE-05"),
     LABORATORY_SAYS("its query says that another part follows, and a query is one record alone")},
    {"a query for no campaign", LAST('Q', "MARINE"), LABORATORY_SAYS("it asks for a campaign that is not here")},
    {"a row in place of a query", LAST('R', GOOD_ROW), LABORATORY_SAYS("its record is no query")},
};

/* An error header, and the refusal to confirm unit 9, each with its length in front. */
#define ERROR_HEADER_UNASKED "\0\014\0\1\013\221\0\7\7\010\211\0\0\0"
#define REFUSAL_UNASKED "\0\011\0\011\207\060\0\010\106\0\0"

/* The laboratory with a blender that asks so, and sends the query without giving the turn. */
static void laboratory_answers(const struct query_case *the)
{
    static struct session session;
    static struct child child;
    struct options options = {.limit_ms = LONG_LIMIT_MS, .pause_ms = DEFAULT_PAUSE_MS};
    int line = started(&child, laboratory, &options);
    if (!session_open_blender(&session, line, &options))
        exit(EXIT_FAILURE);
    if (come_to_ask(&session) && give(&session, &the->query))
        stop_as(&session, STOP_CLOSE);
    child_wait(&child, PATIENCE_MS);
    (void)close(line);
    expect(child.status == EXIT_FAILURE && child.out[0] == '\0', the->name, "the exit status is not 1, or something was printed", &child);
    expect(strcmp(child.err, the->says) == 0, the->name, "another message", &child);
}

/* What the test's blender does: it refuses to confirm what the laboratory asks to have confirmed next, or confirms it; it sends the error
 * header, or forgets that it is due, or sends one more that is not; it gives a record, the turn, or the end. */
enum act { NO_ACT, REFUSE, CONFIRM, EXPLAIN, FORGET, EXPLAIN_MORE, RECORD, TURN, FINISH, ASK };

enum { MOST_ACTS = 8 };

static const struct act_case {
    const char *name;
    enum act acts[MOST_ACTS];
    bool silent; /* the line is left open */
    const char *out, *err;
} act_cases[] = {
    {"a card confirmed the second time", {REFUSE, EXPLAIN, TURN, CONFIRM}, false, LABORATORY_TOLD LABORATORY_SENT,
     LABORATORY_SAYS("it has gone before it had everything")},
    {"a card refused twice", {REFUSE, EXPLAIN, TURN, REFUSE, EXPLAIN}, false, LABORATORY_TOLD LABORATORY_SENT LABORATORY_TOLD,
     LABORATORY_SAYS("it does not confirm " RIGHT_CARD ", which was sent 2 times")},
    {"a card refused, and then nothing", {REFUSE}, true, "",
     LABORATORY_SAYS("time limit: nothing got on for 400 ms, in state Receive")},
    {"a card refused, and no turn", {REFUSE, EXPLAIN}, true, LABORATORY_TOLD,
     LABORATORY_SAYS("time limit: nothing got on for 400 ms, in state Receive")},
    {"a card refused by one that then goes", {REFUSE, EXPLAIN}, false, LABORATORY_TOLD,
     LABORATORY_SAYS("it has gone in the middle of the conversation")},
    {"a record in place of the error header", {REFUSE, FORGET, RECORD}, false, "",
     LABORATORY_SAYS("it does not confirm, and sends a record where it should say why")},
    {"a turn in place of the error header", {REFUSE, FORGET, TURN}, false, "",
     LABORATORY_SAYS("it sends the mark turn where it should say why it does not confirm")},
    {"an end in place of the error header", {REFUSE, FORGET, FINISH}, false, "",
     LABORATORY_SAYS("it sends the mark end where it should say why it does not confirm")},
    {"a record in place of the turn", {REFUSE, EXPLAIN, RECORD}, false, LABORATORY_TOLD,
     LABORATORY_SAYS("it does not confirm, and sends a record where it should give the turn")},
    {"an end in place of the turn", {REFUSE, EXPLAIN, FINISH}, false, LABORATORY_TOLD,
     LABORATORY_SAYS("it sends the mark end where it should give the turn")},
    {"two error headers", {REFUSE, EXPLAIN, EXPLAIN_MORE}, false, LABORATORY_TOLD,
     LABORATORY_SAYS("it sends the mark error where it should give the turn")},
    {"an error header in place of a query", {ASK, EXPLAIN_MORE}, false, "",
     LABORATORY_SAYS("it sends the mark error where it should give the turn")},
    {"an announcement refused", {ASK, RECORD, TURN, REFUSE, EXPLAIN}, false, "",
     LABORATORY_SAYS("it does not confirm that its table was announced")},
};

static bool acted(struct session *session, enum act act)
{
    static const struct odd query = LAST('Q', "MARINE-05");
    switch (act) {
    case NO_ACT: return true;
    case ASK: return come_to_ask(session);
    case REFUSE: return come_to_owe(session) && session_deny(session) == LU62_ACCEPTED;
    case CONFIRM: return come_to_owe(session) && session_confirmed(session) == LU62_ACCEPTED;
    case EXPLAIN: return flushed(session);
    case FORGET: session->end.image[ERROR_AT] = 0; return true;
    case EXPLAIN_MORE: session->end.image[ERROR_AT] = 1; return flushed(session);
    case RECORD: return give(session, &query) && flushed(session);
    case TURN: return session_prepare_turn(session) == LU62_ACCEPTED && flushed(session);
    case FINISH: return lu62_end_defer_end(&session->end) == LU62_ACCEPTED && flushed(session);
    }
    return false;
}

/* The laboratory with a blender that acts so. */
static void laboratory_copes(const struct act_case *the)
{
    static struct session session;
    static struct child child;
    struct options options = {.limit_ms = the->silent ? LIMIT_MS : LONG_LIMIT_MS, .pause_ms = DEFAULT_PAUSE_MS};
    int line = started(&child, laboratory, &options);
    if (!session_open_blender(&session, line, &options))
        exit(EXIT_FAILURE);
    bool good = true;
    for (size_t i = 0; good && i < MOST_ACTS; i++)
        good = acted(&session, the->acts[i]);
    line_send(&session.line);
    if (!the->silent)
        (void)shutdown(line, SHUT_WR);
    child_wait(&child, PATIENCE_MS);
    (void)close(line);
    expect(good, the->name, "the partner could not act so", &child);
    expect(child.status == EXIT_FAILURE && strcmp(child.out, the->out) == 0, the->name, "the exit status is not 1, or other lines",
           &child);
    expect(strcmp(child.err, the->err) == 0, the->name, "another message", &child);
}

int main(void)
{
    size_t count = sizeof cases / sizeof cases[0];
    size_t queries_count = sizeof queries / sizeof queries[0], acts_count = sizeof act_cases / sizeof act_cases[0];
    size_t cards_count = sizeof cards / sizeof cards[0];
    (void)snprintf(long_columns, sizeof long_columns, "1 %0*d 1 0 8 batch 1 8 8 viscosity 1 16 8 sulphur 1 24 8", LONG, 0);
    (void)snprintf(long_revised, sizeof long_revised, "%-60s0.491", "FU-3803 sulphur");
    for (size_t i = 0; i < count; i++)
        run_case(&cases[i]);
    the_turn_waits(true);
    the_turn_waits(false);
    for (size_t i = 0; i < cards_count; i++)
        blender_answers(&cards[i]);
    wrong_cards_only();
    the_error_header_waits(true);
    the_error_header_waits(false);
    laboratory_waits("a silent blender", "", 0, LABORATORY_SAYS("time limit: nothing got on for 400 ms, in state ConfirmAwaited"));
    laboratory_waits("a blender that sends half a length", "\0", 1, LABORATORY_SAYS("time limit: " HALF));
    laboratory_waits("a blender that sends half a unit", "\0\020\0\1\2", 5, LABORATORY_SAYS("time limit: " HALF));
    laboratory_waits("a blender that sends an error header unasked", ERROR_HEADER_UNASKED, sizeof ERROR_HEADER_UNASKED - 1,
                     LABORATORY_SAYS("a unit from it was refused: refusal 26 (data or an error header came where this end does not "
                                     "receive), sense 20040000"));
    laboratory_waits("a blender that refuses what it was not asked", REFUSAL_UNASKED, sizeof REFUSAL_UNASKED - 1,
                     LABORATORY_SAYS("a unit from it was refused: refusal 28 (a response to nothing asked), sense 200E0000"));
    for (size_t i = 0; i < queries_count; i++)
        laboratory_answers(&queries[i]);
    for (size_t i = 0; i < acts_count; i++)
        laboratory_copes(&act_cases[i]);
    if (failures != 0) {
        fprintf(stderr, "records: %d differences\n", failures);
        return EXIT_FAILURE;
    }
    count += 10 + queries_count + acts_count + cards_count;
    printf("records: %zu odd partners; the program printed what was sent or nothing, and said why it stopped\n", count);
    return EXIT_SUCCESS;
}
