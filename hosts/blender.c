/* The blender: asks for the tables of its campaigns and prints the figures that it blends by. It is the bidder. A figure is printed
 * only from records that have been read to their end, as they have it. It is found by the column that the table names: by the part of
 * the row and the place in that part's record, never by what has come before it on the line. Where a row has another batch number than the
 * one due, the blender interrupts the laboratory: it requests the turn and asks again, from the batch that it missed. A batch card, which
 * revises a figure, is confirmed only if its figure can be; else the confirmation is refused, and the laboratory sends the card again. */
#include "session.h"

#include <stdio.h>
#include <stdlib.h>
#include <string.h>

/* A campaign, and what the number of each of its batches begins with; the place of the batch, in two digits, follows. */
static const struct campaign {
    const char *name, *batches;
} campaigns[] = {{"MARINE-05", "MA-05"}, {"FUEL-380", "FU-38"}, {"DIESEL-10", "DI-10"}};

static const char *const column_names[] = {"batch", "viscosity", "sulphur"};

enum {
    CAMPAIGNS = sizeof campaigns / sizeof campaigns[0],
    COLUMNS = sizeof column_names / sizeof column_names[0],
    BATCH_COLUMN = 0,
    LONGEST_VALUE = 10,
    LONGEST_NAME = 31, /* of a campaign, and the longest number of a batch */
    MOST_REVISED = 8,
    LONGEST_REVISED = 63,
    /* How many cards may be refused in one conversation. */
    MOST_REFUSED = 2,
    /* How many wrong batch numbers of one campaign the turn is requested for. */
    MOST_INTERRUPTED = 2
};

/* What a figure can be, by the column in which it stands. */
static const struct figure {
    const char *column;
    double least, most;
} figures[] = {{"viscosity", 1, 1000}, {"sulphur", 0, 5}};

enum { FIGURES = sizeof figures / sizeof figures[0] };

/* Where a column stands: in which part of a row, counted from 1, and where in the text of that part. */
struct column {
    bool known;
    size_t part;
    size_t offset;
    size_t width;
};

/* How much of a table has come. */
enum progress {
    NOT_ASKED,
    ASKED,     /* the query has been given */
    ANNOUNCED, /* the number of rows is known */
    ROWS,      /* the columns are known, and parts of rows are to come */
    WHOLE      /* the last part has come, and says that none follows */
};

struct table {
    enum progress progress;
    size_t rows_announced, row_parts; /* how many rows there are to be, and how many parts each has */
    size_t rows, parts;               /* how many whole rows have come, and how many parts of the next */
    struct column columns[COLUMNS];
    char values[COLUMNS][LONGEST_VALUE + 1]; /* of the row that is coming */
    size_t missed; /* the place in the campaign, counted from 1, of the batch for which another came; 0 for none */
};

struct blender {
    struct session session;
    struct outgoing query;
    size_t campaign; /* the one asked for, or to be asked for next */
    size_t from;        /* the place in it of the batch with which the table is to begin, if one was missed; 0 for the whole table */
    size_t interrupted; /* how often its table has been interrupted */
    struct table table;
    char revised[MOST_REVISED][LONGEST_REVISED + 1];
    size_t revised_count;
    bool revision_here;  /* this conversation of the laboratory's has brought its record */
    bool card_wrong;     /* that record is a card that cannot be confirmed */
    bool explaining;     /* its confirmation has been refused: the error header is to go, and then the turn */
    size_t refused;      /* how many cards have been refused in this conversation */
    bool no_more_revised;
    bool done;
};

/* A record that stands alone must not say that another part follows it. */
static bool stands_alone(struct blender *blender)
{
    if (blender->session.record.more)
        session_fail(&blender->session, "a record that stands alone says that another part follows");
    return !blender->session.failed;
}

/* Whether the part that has come, already counted, says rightly that another follows, or that the table ends with it. */
static bool goes_on_rightly(struct blender *blender)
{
    struct table *table = &blender->table;
    bool more = blender->session.record.more, last = table->rows == table->rows_announced;
    if (more && last)
        session_fail(&blender->session, "its table goes on after the last of the %zu rows that it announced", table->rows_announced);
    else if (!more && !last)
        session_fail(&blender->session, "its table ends early: part %zu of row %zu has not come, and it announced %zu rows",
                     table->parts + 1, table->rows + 1, table->rows_announced);
    else
        table->progress = last ? WHOLE : ROWS;
    return !blender->session.failed;
}

static void take_announcement(struct blender *blender)
{
    struct text rest = record_text(&blender->session.record), name, none;
    if (!stands_alone(blender))
        return;
    if (!text_word(&rest, &name) || !text_is(name, campaigns[blender->campaign].name)) {
        session_fail(&blender->session, "it announces another table than that of campaign %s", campaigns[blender->campaign].name);
        return;
    }
    if (!text_next_number(&rest, MOST_ROWS, &blender->table.rows_announced) || text_word(&rest, &none)) {
        session_fail(&blender->session, "it announces a table and does not say how many rows it has, at most %d", MOST_ROWS);
        return;
    }
    blender->table.progress = ANNOUNCED;
}

/* One column of the part that names them: part, offset and width follow the name. */
static bool take_column(struct blender *blender, struct text name, struct text *rest)
{
    struct column column = {.known = true};
    if (!text_next_number(rest, blender->table.row_parts, &column.part) || column.part == 0 ||
        !text_next_number(rest, LU62_RECORD_MOST, &column.offset) || !text_next_number(rest, LU62_RECORD_MOST, &column.width)) {
        session_fail(&blender->session, "its table has a column without part, offset and width");
        return false;
    }
    for (size_t i = 0; i < COLUMNS; i++) {
        if (!text_is(name, column_names[i]))
            continue;
        if (blender->table.columns[i].known) {
            session_fail(&blender->session, "its table names the column %s twice", column_names[i]);
            return false;
        }
        blender->table.columns[i] = column;
    }
    return true;
}

static void take_columns(struct blender *blender)
{
    struct table *table = &blender->table;
    struct text rest = record_text(&blender->session.record), name;
    if (!text_next_number(&rest, MOST_PARTS, &table->row_parts) || table->row_parts == 0) {
        session_fail(&blender->session, "its table does not say how many parts a row has, 1 to %d", MOST_PARTS);
        return;
    }
    while (text_word(&rest, &name))
        if (!take_column(blender, name, &rest))
            return;
    for (size_t i = 0; i < COLUMNS; i++)
        if (!table->columns[i].known) {
            session_fail(&blender->session, "its table has no column %s", column_names[i]);
            return;
        }
    if (goes_on_rightly(blender) && blender->from == 0)
        (void)session_print(&blender->session, "campaign %s\n%-10s %10s %10s\n", campaigns[blender->campaign].name, "batch",
                            "viscosity", "sulphur");
}

/* One value out of the part that has come: a single word and the blanks that fill its column. */
static bool take_value(struct blender *blender, size_t column)
{
    struct text row = record_text(&blender->session.record), word, none;
    size_t offset = blender->table.columns[column].offset, width = blender->table.columns[column].width;
    char *value = blender->table.values[column];
    if (offset > row.length || width > row.length - offset) {
        session_fail(&blender->session, "a row of its table ends before the column %s", column_names[column]);
        return false;
    }
    struct text rest = {row.bytes + offset, width};
    if (!text_word(&rest, &word) || text_word(&rest, &none)) {
        session_fail(&blender->session, "a row of its table has not one word in the column %s", column_names[column]);
        return false;
    }
    if (word.length > LONGEST_VALUE) {
        session_fail(&blender->session, "a row of its table has over %d characters in the column %s", LONGEST_VALUE,
                     column_names[column]);
        return false;
    }
    memcpy(value, word.bytes, word.length);
    value[word.length] = '\0';
    return true;
}

/* Counts the part that has come, which must call itself the one that is due. `row_whole` says whether its row ends with it. */
static bool count_part(struct blender *blender, size_t *row, size_t *part, bool *row_whole)
{
    struct table *table = &blender->table;
    struct text rest = record_text(&blender->session.record);
    if (!text_next_number(&rest, MOST_ROWS, row) || !text_next_number(&rest, MOST_PARTS, part)) {
        session_fail(&blender->session, "it sends a part of a row without the numbers of row and part");
        return false;
    }
    if (*row != table->rows + 1 || *part != table->parts + 1) {
        session_fail(&blender->session, "it sends part %zu of row %zu where part %zu of row %zu is due", *part, *row, table->parts + 1,
                     table->rows + 1);
        return false;
    }
    table->parts++;
    *row_whole = table->parts == table->row_parts;
    if (*row_whole) {
        table->rows++;
        table->parts = 0;
    }
    return true;
}

/* Puts the number of the batch at this place of the campaign, counted from 1, into the room for it. */
static const char *batch_number(const struct blender *blender, size_t place, char number[LONGEST_NAME + 1])
{
    (void)snprintf(number, LONGEST_NAME + 1, "%s%02zu", campaigns[blender->campaign].batches, place);
    return number;
}

/* Interrupts the laboratory, which has sent another batch than the one at this place. No figure of the table is taken from here on. */
static void interrupt(struct blender *blender, size_t place)
{
    struct session *session = &blender->session;
    const char *came = blender->table.values[BATCH_COLUMN];
    char due[LONGEST_NAME + 1];
    (void)batch_number(blender, place, due);
    if (blender->interrupted == MOST_INTERRUPTED) {
        session_fail(session, "it sends batch %s in the place of %s, and its table has been interrupted %d times", came, due,
                     MOST_INTERRUPTED);
        return;
    }
    blender->interrupted++;
    blender->table.missed = place;
    if (session_print(session, "batch %s in the place of %s: the turn is requested\n", came, due))
        (void)session_request_turn(session);
}

/* Whether the number that has come is that of the batch at this place. */
static bool batch_is(const struct blender *blender, size_t place)
{
    char due[LONGEST_NAME + 1];
    return strcmp(batch_number(blender, place, due), blender->table.values[BATCH_COLUMN]) == 0;
}

/* A row is printed when its last part has come, if all its parts are right. */
static void take_part(struct blender *blender)
{
    struct table *table = &blender->table;
    size_t row, part;
    bool row_whole;
    if (!count_part(blender, &row, &part, &row_whole) || !goes_on_rightly(blender) || table->missed != 0)
        return;
    for (size_t i = 0; i < COLUMNS; i++)
        if (table->columns[i].part == part && !take_value(blender, i))
            return;
    size_t place = blender->from == 0 ? row : blender->from + row - 1;
    if (table->columns[BATCH_COLUMN].part == part && !batch_is(blender, place))
        interrupt(blender, place);
    else if (row_whole)
        (void)session_print(&blender->session, "%-10s %10s %10s\n", table->values[0], table->values[1], table->values[2]);
}

/* The part that ends a table early, which only a blender that has requested the turn is sent. It says what would have come next, so that
 * a part lost before it is noticed. */
static void take_broken_off(struct blender *blender)
{
    struct table *table = &blender->table;
    struct text rest = record_text(&blender->session.record), none;
    size_t row, part;
    if (table->missed == 0)
        session_fail(&blender->session, "it breaks its table off, and the turn was not requested");
    else if (blender->session.record.more)
        session_fail(&blender->session, "its table goes on after it was broken off");
    else if (!text_next_number(&rest, MOST_ROWS, &row) || !text_next_number(&rest, MOST_PARTS, &part) || text_word(&rest, &none) ||
             row != table->rows + 1 || part != table->parts + 1)
        session_fail(&blender->session, "it breaks its table off elsewhere than before part %zu of row %zu, which is due",
                     table->parts + 1, table->rows + 1);
    else
        table->progress = WHOLE;
}

/* A record of the answer to a query: the announcement, the part that names the columns, the parts of the rows. */
static void take_answer(struct blender *blender, uint8_t kind)
{
    enum progress progress = blender->table.progress;
    if (progress == WHOLE)
        session_fail(&blender->session, "it sends a record after the last part of its table");
    else if (kind == RECORD_ANNOUNCEMENT && progress == ASKED)
        take_announcement(blender);
    else if (kind == RECORD_COLUMNS && progress == ANNOUNCED)
        take_columns(blender);
    else if (kind == RECORD_ROW && progress == ROWS)
        take_part(blender);
    else if (kind == RECORD_BROKEN_OFF && progress == ROWS)
        take_broken_off(blender);
    else if (kind == RECORD_ANNOUNCEMENT)
        session_fail(&blender->session, "it announces one table twice");
    else if (kind == RECORD_COLUMNS && progress == ASKED)
        session_fail(&blender->session, "it names the columns of a table that it has not announced");
    else if (kind == RECORD_COLUMNS)
        session_fail(&blender->session, "it names the columns of one table twice");
    else if (kind == RECORD_ROW)
        session_fail(&blender->session, "it sends a row before it has named the columns");
    else
        session_fail(&blender->session, "it sends a record that is not expected here");
}

/* A figure in decimal digits, with a point or without. */
static bool figure_number(struct text word, double *number)
{
    char digits[LONGEST_VALUE + 1];
    char *end;
    if (word.length == 0 || word.length > LONGEST_VALUE)
        return false;
    memcpy(digits, word.bytes, word.length);
    digits[word.length] = '\0';
    if (strspn(digits, "0123456789.") != word.length)
        return false;
    *number = strtod(digits, &end);
    return *end == '\0' && end != digits;
}

/* Whether a card is a batch, a column and a figure that this column can have. */
static bool card_can_be(struct text card)
{
    struct text batch, column, word, none;
    double number;
    if (!text_word(&card, &batch) || !text_word(&card, &column) || !text_word(&card, &word) || text_word(&card, &none))
        return false;
    for (size_t i = 0; i < FIGURES; i++)
        if (text_is(column, figures[i].column))
            return figure_number(word, &number) && number >= figures[i].least && number <= figures[i].most;
    return false;
}

static void take_revised(struct blender *blender)
{
    struct text text = record_text(&blender->session.record);
    if (text.length > LONGEST_REVISED) {
        session_fail(&blender->session, "it sends a revised figure of over %d characters", LONGEST_REVISED);
        return;
    }
    if (blender->revised_count == MOST_REVISED) {
        session_fail(&blender->session, "it sends more than %d revised figures", MOST_REVISED);
        return;
    }
    /* A card that is wrong is kept only to be named: the place is that of the next. */
    memcpy(blender->revised[blender->revised_count], text.bytes, text.length);
    blender->revised[blender->revised_count][text.length] = '\0';
    blender->card_wrong = !card_can_be(text);
    if (!blender->card_wrong)
        blender->revised_count++;
}

static void take_last_revised(struct blender *blender)
{
    struct text rest = record_text(&blender->session.record), none;
    size_t count;
    if (!text_next_number(&rest, MOST_REVISED, &count) || text_word(&rest, &none) || count != blender->revised_count) {
        session_fail(&blender->session, "its number of revised figures is not the %zu that came", blender->revised_count);
        return;
    }
    blender->no_more_revised = true;
}

/* The one record of a conversation that the laboratory began. */
static void take_revision(struct blender *blender, uint8_t kind)
{
    bool expected = (kind == RECORD_REVISED || kind == RECORD_LAST_REVISED) && !blender->revision_here && !blender->no_more_revised;
    blender->revision_here = expected;
    if (!expected)
        session_fail(&blender->session, "it sends a record that is not expected here");
    else if (!stands_alone(blender))
        return;
    else if (kind == RECORD_REVISED)
        take_revised(blender);
    else
        take_last_revised(blender);
}

static void take_record(struct blender *blender)
{
    uint8_t kind = record_kind(&blender->session.record);
    if (!text_printable(record_text(&blender->session.record)))
        session_fail(&blender->session, "it sends a record with a byte that cannot be printed");
    else if (blender->table.progress == NOT_ASKED)
        take_revision(blender, kind);
    else
        take_answer(blender, kind);
}

/* The end of the blender's own conversation, or the turn that it has requested: the table must have come whole, or broken off. Where a
 * batch was missed, the rest of the campaign is asked for again: at once if the turn is here, else in another conversation. */
static void end_table(struct blender *blender)
{
    struct table *table = &blender->table;
    if (table->progress != WHOLE) {
        session_fail(&blender->session, "it ends the conversation before its table is whole, after %zu rows of %zu", table->rows,
                     table->rows_announced);
        return;
    }
    if (table->missed == 0) {
        blender->campaign++;
        blender->interrupted = 0;
    }
    blender->from = table->missed;
    memset(table, 0, sizeof *table);
}

/* The end of a conversation that the laboratory began: it must have brought a revised figure, or the word that there is none. */
static void end_revision(struct blender *blender)
{
    if (!blender->revision_here)
        session_fail(&blender->session, "it ends a conversation in which it has sent nothing");
    blender->revision_here = false;
    blender->refused = 0;
}

/* The mark behind a card that is wrong: the confirmation that it asks for is refused. The conversation then goes on, whatever the mark
 * says, and another card may come in it. */
static void refuse_card(struct blender *blender, uint32_t mark)
{
    struct session *session = &blender->session;
    const char *card = blender->revised[blender->revised_count];
    if (mark == LU62_MARK_END) {
        session_fail(session, "it sends the card %s, which cannot be, and does not ask for its confirmation", card);
        return;
    }
    if (blender->refused == MOST_REFUSED) {
        session_fail(session, "it sends the card %s, which cannot be, after %d others in one conversation", card, MOST_REFUSED);
        return;
    }
    if (!session_print(session, "card not confirmed: %s cannot be\n", card) || session_deny(session) != LU62_ACCEPTED)
        return;
    blender->refused++;
    blender->card_wrong = false;
    blender->revision_here = false;
    blender->explaining = true;
}

static void take_mark(struct blender *blender)
{
    uint32_t mark = blender->session.end.answer.mark;
    bool turn = mark == LU62_MARK_TURN || mark == LU62_MARK_CONFIRM_TURN;
    if (mark == LU62_MARK_ERROR || (turn && blender->table.missed == 0)) {
        session_fail(&blender->session, "it sends the mark %s, which is not expected here", lu62_mark_name(mark));
        return;
    }
    if (blender->card_wrong) {
        refuse_card(blender, mark);
        return;
    }
    /* The conversation that ends is the blender's own if its query has been given, else one with a revised figure. */
    if (mark != LU62_MARK_CONFIRM && blender->table.progress != NOT_ASKED)
        end_table(blender);
    else if (mark != LU62_MARK_CONFIRM)
        end_revision(blender);
    if (mark != LU62_MARK_TURN && mark != LU62_MARK_END && !blender->session.failed)
        (void)session_confirmed(&blender->session);
}

/* Where a batch was missed, the query names it: the table is to begin with it. */
static bool set_query(struct blender *blender)
{
    const char *campaign = campaigns[blender->campaign].name;
    char text[2 * LONGEST_NAME + 2], batch[LONGEST_NAME + 1];
    if (blender->from == 0)
        return session_set(&blender->session, &blender->query, RECORD_QUERY, text_of(campaign), false);
    (void)snprintf(text, sizeof text, "%s %s", campaign, batch_number(blender, blender->from, batch));
    return session_set(&blender->session, &blender->query, RECORD_QUERY, text_of(text), false);
}

/* Gives the turn that is prepared: every second query is to be confirmed. Without credit it stays prepared until the next step. */
static bool give_turn(struct blender *blender)
{
    bool confirm = blender->campaign % 2 == 1;
    if ((confirm ? session_confirm(&blender->session) : session_flush(&blender->session)) != LU62_ACCEPTED)
        return false;
    blender->query.length = 0;
    blender->table.progress = ASKED;
    return true;
}

/* After a confirmation has been refused: the error header goes, and then the turn, so that the laboratory can send the card again. Both
 * go by flush, each when there is credit. */
static bool explain(struct blender *blender)
{
    struct session *session = &blender->session;
    bool turn_prepared = lu62_end_state(&session->end) == LU62_DEFER_TURN;
    if (!turn_prepared && !lu62_end_error_due(&session->end))
        return session_prepare_turn(session) == LU62_ACCEPTED;
    if (session_flush(session) != LU62_ACCEPTED)
        return false;
    blender->explaining = !turn_prepared;
    return true;
}

/* Asks for the next campaign, or for the rest of one whose table was interrupted. Outside Send it bids; the bid may be refused by a
 * laboratory that has begun itself, and is made again when that conversation is over and the pause has passed. With the query given the
 * turn is prepared. Whether it goes with a confirmation is asked when it goes, in a step of its own, after what has come meanwhile.
 * Nothing is asked for while a signal is unanswered: taken late, it would interrupt the answer to this query. */
static bool ask(struct blender *blender)
{
    struct session *session = &blender->session;
    uint32_t state = lu62_end_state(&session->end);
    if (blender->table.progress != NOT_ASKED || blender->campaign == CAMPAIGNS || lu62_end_signal_unanswered(&session->end))
        return false;
    if (state == LU62_DEFER_TURN)
        return give_turn(blender);
    if (state != LU62_SEND)
        return session_allocate(session) == LU62_ACCEPTED;
    if (blender->query.length == 0 && !set_query(blender))
        return false;
    return session_give(session, &blender->query) && session_prepare_turn(session) == LU62_ACCEPTED;
}

static bool step(void *program)
{
    struct blender *blender = program;
    bool moved = false;
    enum reading found;
    while (!blender->session.failed && (found = session_read(&blender->session)) != READ_NOTHING) {
        moved = true;
        if (found == READ_RECORD)
            take_record(blender);
        else if (found == READ_MARK)
            take_mark(blender);
    }
    if (blender->session.failed)
        return moved;
    moved |= blender->explaining ? explain(blender) : ask(blender);
    blender->done =
        blender->campaign == CAMPAIGNS && blender->no_more_revised && lu62_end_state(&blender->session.end) == LU62_RESET;
    return moved;
}

static bool print_revised(struct blender *blender)
{
    bool good = session_print(&blender->session, "revised since\n");
    for (size_t i = 0; good && i < blender->revised_count; i++)
        good = session_print(&blender->session, "%s\n", blender->revised[i]);
    return good;
}

int blender(int socket, const struct options *options)
{
    struct blender blender = {0};
    if (!session_open_blender(&blender.session, socket, options))
        return EXIT_FAILURE;
    /* The blender bids before it looks at the line. */
    (void)ask(&blender);
    bool good = session_run(&blender.session, step, &blender, &blender.done);
    if (good && !blender.done) {
        session_fail(&blender.session, "it has gone before everything was answered");
        good = false;
    }
    good = good && print_revised(&blender);
    if (options->counts)
        session_print_counts(&blender.session);
    return good ? EXIT_SUCCESS : EXIT_FAILURE;
}
