/* The laboratory: answers queries with tables of batches, and sends revised figures, each on a batch card, when it has them. It is the
 * first speaker. A table is broken off, and the turn given, when the blender requests it; a batch that the blender then asks for by its
 * number is sent under that number. A card that the blender does not confirm is sent again, once, corrected where it was miswritten. */
#include "session.h"

#include <stdio.h>
#include <stdlib.h>
#include <string.h>

enum {
    MOST_COLUMNS = 6,
    LONGEST_TEXT = 512,
    /* Where the values of a part begin: behind the row's number, the part's, and a blank after each. */
    VALUES_AT = 8,
    /* The table in which a fault is shown, and its part: the second of the third row. */
    MISBEHAVING_TABLE = 1,
    MISBEHAVING_PART = 6,
    /* How often a card is sent at most. */
    MOST_SENDINGS = 2
};

/* A column, and in which part of a row it stands, counted from 1. The columns of a part follow one another. */
struct column {
    const char *name;
    size_t part;
    size_t width;
};

/* A batch: its number, its figures, and how its number is written at first, where that is wrong. */
struct batch {
    const char *name;
    const char *viscosity;
    const char *sulphur;
    const char *miswritten;
};

struct table {
    const char *campaign;
    size_t row_parts; /* how many parts a row has */
    struct column columns[MOST_COLUMNS];
    const struct batch *batches;
    size_t batch_count;
};

static const struct batch marine[] = {
    {"MA-0501", "179.2", "0.093", NULL}, {"MA-0502", "181.6", "0.088", NULL}, {"MA-0503", "176.9", "0.097", NULL},
    {"MA-0504", "180.3", "0.091", NULL}, {"MA-0505", "178.8", "0.094", NULL},
};

static const struct batch fuel[] = {
    {"FU-3801", "372.4", "0.482", NULL}, {"FU-3802", "377.0", "0.479", NULL}, {"FU-3803", "369.8", "0.495", NULL},
    {"FU-3804", "380.1", "0.466", NULL}, {"FU-3805", "374.5", "0.471", NULL}, {"FU-3806", "371.3", "0.488", NULL},
};

static const struct batch diesel[] = {
    {"DI-1001", "2.84", "0.00091", NULL},
    {"DI-1002", "2.91", "0.00087", "DI-1020"}, /* the digits are exchanged */
    {"DI-1003", "2.79", "0.00095", NULL},
};

/* The layouts differ, so that a reader must find its columns by the part that names them. */
static const struct table tables[] = {
    {"MARINE-05",
     1,
     {{"remarks", 1, 130}, {"sulphur", 1, 8}, {"viscosity", 1, 8}, {"batch", 1, 8}},
     marine,
     sizeof marine / sizeof marine[0]},
    {"FUEL-380",
     2,
     {{"batch", 1, 8}, {"method", 1, 40}, {"viscosity", 1, 8}, {"sulphur", 2, 8}, {"remarks", 2, 203}},
     fuel,
     sizeof fuel / sizeof fuel[0]},
    {"DIESEL-10",
     3,
     {{"method", 1, 150}, {"sulphur", 1, 8}, {"batch", 2, 8}, {"remarks", 3, 250}, {"viscosity", 3, 8}},
     diesel,
     sizeof diesel / sizeof diesel[0]},
};

/* A card with a revised figure, and how it is written first, where that is wrong. */
static const struct card {
    const char *text;
    const char *miswritten;
} cards[] = {
    {"FU-3803 sulphur 0.491", NULL},
    {"MA-0502 viscosity 181.9", "MA-0502 viscosity 1819"}, /* the point is missing */
    {"DI-1001 sulphur 0.00090", NULL},
};

enum { REVISED = sizeof cards / sizeof cards[0] };

/* From ANNOUNCING to TABLE a table is being given. */
enum stage {
    IDLE,
    REVISION,       /* a revised figure is being given */
    REVISION_ENDED, /* the end has been asked for, with confirmation */
    REFUSED,        /* the confirmation has been refused, and the error header is to come */
    EXPLAINED,      /* the error header has come, and the turn is to come, to send the card again */
    ANNOUNCING,     /* the table's announcement is being given */
    ANNOUNCED,      /* its confirmation is awaited */
    PARTS,          /* the table's parts are being given */
    BREAKING_OFF,   /* the part is being given that breaks the table off */
    INTERRUPTED,    /* the table is broken off or whole, and the turn is to go to the blender, which has requested it */
    LEAVING,        /* the front of a part is being given, and then the laboratory goes away */
    TABLE,          /* all parts have been given */
    TABLE_ENDED
};

struct laboratory {
    struct session session;
    struct outgoing record;
    enum fault fault;
    enum stage stage;
    const struct table *table;
    size_t first;     /* the batch with which the table begins, counted from 0 */
    bool named;       /* the blender has asked for that batch by its number */
    bool turn_wanted; /* the blender has requested the turn since the table was asked for */
    unsigned long broken_off; /* how many tables have been broken off, for --counts */
    size_t part; /* the table's part being given: 0 names the columns, then come the parts of the rows */
    size_t revisions_due; /* how many may have been sent by now, the last record included */
    size_t revisions_confirmed;
    size_t sendings; /* how often the next has been sent */
    bool done;
};

/* The text of the card that is next, as it is written this time: rightly where it has been sent before. */
static const char *card_text(const struct laboratory *lab)
{
    const struct card *card = &cards[lab->revisions_confirmed];
    return lab->sendings == 0 && card->miswritten != NULL ? card->miswritten : card->text;
}

static bool set_revision(struct laboratory *lab)
{
    char count[16];
    if (lab->revisions_confirmed < REVISED)
        return session_set(&lab->session, &lab->record, RECORD_REVISED, text_of(card_text(lab)), false);
    (void)snprintf(count, sizeof count, "%d", (int)REVISED);
    return session_set(&lab->session, &lab->record, RECORD_LAST_REVISED, text_of(count), false);
}

/* How many rows the table has as it was asked for. */
static size_t rows_of(const struct laboratory *lab)
{
    return lab->table->batch_count - lab->first;
}

static bool set_announcement(struct laboratory *lab)
{
    char text[64];
    int length = snprintf(text, sizeof text, "%s %zu", lab->table->campaign, rows_of(lab));
    if (length < 0 || (size_t)length >= sizeof text) {
        session_fail(&lab->session, "the announcement of a table does not fit");
        return false;
    }
    return session_set(&lab->session, &lab->record, RECORD_ANNOUNCEMENT, text_of(text), false);
}

/* How many parts the table has: the one that names the columns, and those of its rows. */
static size_t parts_of(const struct laboratory *lab)
{
    return 1 + rows_of(lab) * lab->table->row_parts;
}

/* The row of the part at hand, counted from 0, and which of its parts this is, counted from 1. */
static size_t row_at(const struct laboratory *lab)
{
    return (lab->part - 1) / lab->table->row_parts;
}

static size_t row_part_at(const struct laboratory *lab)
{
    return 1 + (lab->part - 1) % lab->table->row_parts;
}

static bool misbehaves_now(const struct laboratory *lab, enum fault fault)
{
    return lab->fault == fault && lab->table == &tables[MISBEHAVING_TABLE] && lab->part == MISBEHAVING_PART;
}

/* What the part at hand says: every part but the last, that another follows. */
static bool more_follows(const struct laboratory *lab)
{
    bool last = lab->part + 1 == parts_of(lab);
    if (misbehaves_now(lab, FAULT_EARLY))
        return false;
    return !last || (lab->fault == FAULT_FOREVER && lab->table == &tables[MISBEHAVING_TABLE]);
}

/* Where a column stands in the text of its part: behind the columns of the part that are named before it. */
static size_t offset_of(const struct table *table, size_t column)
{
    size_t offset = VALUES_AT;
    for (size_t i = 0; i < column; i++)
        if (table->columns[i].part == table->columns[column].part)
            offset += table->columns[i].width;
    return offset;
}

static bool set_columns(struct laboratory *lab)
{
    char text[LONGEST_TEXT];
    int length = snprintf(text, sizeof text, "%zu", lab->table->row_parts);
    for (size_t i = 0; i < MOST_COLUMNS && lab->table->columns[i].name != NULL; i++) {
        const struct column *column = &lab->table->columns[i];
        size_t room = sizeof text - (size_t)length;
        int written = snprintf(text + length, room, " %s %zu %zu %zu", column->name, column->part, offset_of(lab->table, i),
                               column->width);
        if (written < 0 || (size_t)written >= room) {
            session_fail(&lab->session, "the columns of a table do not fit");
            return false;
        }
        length += written;
    }
    return session_set(&lab->session, &lab->record, RECORD_COLUMNS, text_of(text), more_follows(lab));
}

/* The value of a column that the blender asks for, or NULL for one of those that it does not. The number of a batch is written rightly
 * where the blender has named it. */
static const char *value_of(const struct laboratory *lab, const struct batch *batch, const char *column)
{
    if (strcmp(column, "batch") == 0)
        return batch->miswritten != NULL && !lab->named ? batch->miswritten : batch->name;
    if (strcmp(column, "viscosity") == 0)
        return batch->viscosity;
    if (strcmp(column, "sulphur") == 0)
        return batch->sulphur;
    return NULL;
}

/* Fills a column of remarks with as much of the laboratory's usual words as it has room for. */
static void fill_remarks(char *place, size_t width)
{
    static const char words[] = "sample drawn at the loading arm, two flasks, kept for ninety days; method as agreed with the "
                                "blending line; bath checked against the reference oil before and after; no water seen; ";
    for (size_t i = 0; i < width; i++)
        place[i] = words[i % (sizeof words - 1)];
}

/* Puts a batch's value at the front of its column, which is blank. A figure that does not fit is not cut. */
static bool put_value(struct laboratory *lab, char *place, const struct column *column, const struct batch *batch)
{
    const char *value = value_of(lab, batch, column->name);
    if (value == NULL) {
        fill_remarks(place, column->width);
        return true;
    }
    if (strlen(value) > column->width) {
        session_fail(&lab->session, "a figure for it does not fit its column");
        return false;
    }
    memcpy(place, value, strlen(value));
    return true;
}

/* One part of a row: the numbers of both, counted from 1, and the values of the columns that stand in this part. */
static bool set_row_part(struct laboratory *lab)
{
    char text[LONGEST_TEXT];
    const struct table *table = lab->table;
    size_t row = row_at(lab), part = row_part_at(lab);
    size_t end = VALUES_AT;
    if (snprintf(text, sizeof text, "%4zu %2zu ", row + 1, part) != VALUES_AT) {
        session_fail(&lab->session, "the numbers of a row and its part do not fit");
        return false;
    }
    memset(text + VALUES_AT, ' ', sizeof text - VALUES_AT);
    for (size_t i = 0; i < MOST_COLUMNS && table->columns[i].name != NULL; i++) {
        const struct column *column = &table->columns[i];
        size_t offset = offset_of(table, i);
        if (column->part != part)
            continue;
        end = offset + column->width;
        if (end >= sizeof text) {
            session_fail(&lab->session, "a part of a row for it does not fit");
            return false;
        }
        if (!put_value(lab, text + offset, column, &table->batches[lab->first + row]))
            return false;
    }
    text[end] = '\0';
    return session_set(&lab->session, &lab->record, RECORD_ROW, text_of(text), more_follows(lab));
}

static bool set_part(struct laboratory *lab)
{
    return lab->part == 0 ? set_columns(lab) : set_row_part(lab);
}

/* Puts bytes on the line that no call has made, after all parts given so far, and leaves. */
static bool send_nonsense(struct laboratory *lab, const char *bytes, size_t length)
{
    if (session_flush(&lab->session) != LU62_ACCEPTED)
        return false;
    if (!line_put(&lab->session.line, NORMAL, (const uint8_t *)bytes, length))
        session_fail(&lab->session, "the line takes no more units");
    lab->done = true;
    return true;
}

/* Finds the batch that a query names, with which the table is to begin; without one it begins with the first. */
static void find_batch(struct laboratory *lab, struct text rest)
{
    struct text number, none;
    lab->first = 0;
    lab->named = text_word(&rest, &number);
    if (!lab->named)
        return;
    if (text_word(&rest, &none)) {
        session_fail(&lab->session, "its query goes on after the number of a batch");
        return;
    }
    while (lab->first < lab->table->batch_count && !text_is(number, lab->table->batches[lab->first].name))
        lab->first++;
    if (lab->first == lab->table->batch_count)
        session_fail(&lab->session, "it asks for a batch that campaign %s has not", lab->table->campaign);
    else
        (void)session_print(&lab->session, "laboratory: asked for %s from %s on\n", lab->table->campaign,
                            lab->table->batches[lab->first].name);
}

static void find_table(struct laboratory *lab, struct text rest)
{
    struct text campaign;
    bool any = text_word(&rest, &campaign);
    for (size_t i = 0; any && i < sizeof tables / sizeof tables[0]; i++)
        if (text_is(campaign, tables[i].campaign)) {
            lab->table = &tables[i];
            find_batch(lab, rest);
            return;
        }
    session_fail(&lab->session, "it asks for a campaign that is not here");
}

static void take_query(struct laboratory *lab)
{
    if (lab->stage == REFUSED || lab->stage == EXPLAINED)
        session_fail(&lab->session, "it does not confirm, and sends a record where it should %s",
                     lab->stage == REFUSED ? "say why" : "give the turn");
    else if (record_kind(&lab->session.record) != RECORD_QUERY)
        session_fail(&lab->session, "its record is no query");
    else if (lab->session.record.more)
        session_fail(&lab->session, "its query says that another part follows, and a query is one record alone");
    else if (lab->table != NULL)
        session_fail(&lab->session, "it asks twice in one conversation");
    else
        find_table(lab, record_text(&lab->session.record));
}

/* The text of the record that is being given or was given last, for a message. */
static int given_text(const struct laboratory *lab, const char **text)
{
    *text = (const char *)lab->record.bytes + RECORD_TEXT_AT;
    return (int)(lab->record.length - RECORD_TEXT_AT - RECORD_CHECK_DIGITS);
}

/* The mark behind a confirmation that has been refused must be that of the error header. It says that the partner's program has found
 * something wrong, and no more: what is wrong the laboratory sees when it looks at the card. */
static void take_cause(struct laboratory *lab, uint32_t mark)
{
    const char *text;
    int length = given_text(lab, &text);
    if (mark != LU62_MARK_ERROR) {
        session_fail(&lab->session, "it sends the mark %s where it should say why it does not confirm", lu62_mark_name(mark));
        return;
    }
    if (!session_print(&lab->session, "laboratory: not confirmed by the blender: %.*s; its error header says sense 08 89 00 00\n", length,
                       text))
        return;
    if (lab->sendings == MOST_SENDINGS)
        session_fail(&lab->session, "it does not confirm %.*s, which was sent %d times", length, text, MOST_SENDINGS);
    lab->stage = EXPLAINED;
}

/* The turn has come back: the card goes once more. */
static void send_again(struct laboratory *lab)
{
    const char *text;
    if (!set_revision(lab))
        return;
    int length = given_text(lab, &text);
    if (session_print(&lab->session, "laboratory: sent in its place: %.*s\n", length, text))
        lab->stage = REVISION;
}

/* The blender gives the turn after its query, or after it has said why it does not confirm a card. */
static void take_mark(struct laboratory *lab)
{
    uint32_t mark = lab->session.end.answer.mark;
    if (lab->stage == REFUSED) {
        take_cause(lab, mark);
        return;
    }
    if (mark == LU62_MARK_CONFIRM_TURN)
        (void)session_confirmed(&lab->session);
    else if (mark != LU62_MARK_TURN) {
        session_fail(&lab->session, "it sends the mark %s where it should give the turn", lu62_mark_name(mark));
        return;
    }
    if (lab->stage == EXPLAINED) {
        send_again(lab);
        return;
    }
    if (lab->table == NULL) {
        session_fail(&lab->session, "it has given the turn and asked nothing");
        return;
    }
    if (set_announcement(lab))
        lab->stage = ANNOUNCING;
}

static bool begin_revision(struct laboratory *lab)
{
    if (lab->revisions_confirmed >= lab->revisions_due || session_allocate(&lab->session) != LU62_ACCEPTED)
        return false;
    lab->stage = REVISION;
    return set_revision(lab);
}

/* The table begins when its announcement has been confirmed. */
static bool begin_parts(struct laboratory *lab)
{
    if (lu62_end_state(&lab->session.end) != LU62_SEND)
        return false;
    lab->part = 0;
    lab->stage = PARTS;
    return set_part(lab);
}

/* Gives the part at hand; true when it has been given whole and the next is to come. */
static bool give_part(struct laboratory *lab)
{
    if (misbehaves_now(lab, FAULT_GARBAGE))
        return send_nonsense(lab, "garbage", 7);
    if (misbehaves_now(lab, FAULT_SHORT))
        return send_nonsense(lab, "\0\1\3", 3);
    if (misbehaves_now(lab, FAULT_SILENT)) {
        /* The parts before are sent when credit allows; no byte more is given. */
        (void)session_flush(&lab->session);
        return false;
    }
    if (misbehaves_now(lab, FAULT_GONE)) {
        /* By then all figures of this row have been given; the record goes on after them. */
        lab->record.length = 100;
        lab->stage = LEAVING;
        return true;
    }
    if (!session_give(&lab->session, &lab->record))
        return false;
    lab->part++;
    /* Some parts go out at once, others wait for more bytes: a unit may end anywhere. */
    if (lab->part % 2 == 0)
        (void)session_flush(&lab->session);
    if (lab->part < parts_of(lab))
        return set_part(lab);
    lab->stage = TABLE;
    return true;
}

/* Breaks the table off between two parts, so that the turn can be given: the last part of a table says that no other follows. If no part
 * has been given, there is no table to be broken off. */
static bool break_off(struct laboratory *lab)
{
    char text[48];
    lab->stage = lab->part == 0 ? INTERRUPTED : BREAKING_OFF;
    if (lab->part == 0)
        return true;
    lab->broken_off++;
    (void)snprintf(text, sizeof text, "%zu %zu", row_at(lab) + 1, row_part_at(lab));
    return session_set(&lab->session, &lab->record, RECORD_BROKEN_OFF, text_of(text), false);
}

static bool give_broken_off(struct laboratory *lab)
{
    if (!session_give(&lab->session, &lab->record))
        return false;
    lab->stage = INTERRUPTED;
    return true;
}

/* Gives the turn that the blender has requested. What it asks for then is a query of its own. */
static bool give_turn(struct laboratory *lab)
{
    if (session_turn(&lab->session) != LU62_ACCEPTED)
        return false;
    lab->turn_wanted = false;
    lab->table = NULL;
    lab->stage = IDLE;
    return true;
}

static bool leave(struct laboratory *lab)
{
    if (!session_give(&lab->session, &lab->record) || session_flush(&lab->session) != LU62_ACCEPTED)
        return false;
    /* Besides, the last thing on the line is the front of a unit whose rest never comes. */
    if (line_put(&lab->session.line, NORMAL, (const uint8_t *)"never whole", 11))
        lab->session.line.out[NORMAL].held -= 5;
    lab->done = true;
    return true;
}

/* A confirmation has been refused. What was to follow it does not. A card may be sent again; a table and its announcement are as the
 * laboratory has them. */
static bool take_refusal(struct laboratory *lab)
{
    lab->session.unconfirmed = false;
    if (lab->stage == ANNOUNCED || lab->stage == TABLE_ENDED)
        session_fail(&lab->session, "it does not confirm %s", lab->stage == ANNOUNCED ? "that its table was announced" : "its table");
    lab->stage = REFUSED;
    return true;
}

/* Leaves a conversation that is over. The state tells that the confirmation has come; it may already be that of the next
 * conversation, since confirmation and bid can be taken together. */
static bool settle(struct laboratory *lab)
{
    bool ended = lab->stage == REVISION_ENDED || lab->stage == TABLE_ENDED;
    if (lab->session.unconfirmed)
        return take_refusal(lab);
    if (!ended || lu62_end_state(&lab->session.end) == LU62_CONFIRM_AWAITED)
        return false;
    /* A table may be asked for again, and then brings no card more than there are. */
    if (lab->stage == TABLE_ENDED && lab->revisions_due <= REVISED)
        lab->revisions_due++;
    if (lab->stage == REVISION_ENDED)
        lab->revisions_confirmed++;
    lab->sendings = 0;
    lab->table = NULL;
    lab->stage = IDLE;
    return true;
}

/* The second table is confirmed when it ends. */
static bool end_table(struct laboratory *lab)
{
    bool confirm = lab->table == &tables[MISBEHAVING_TABLE];
    /* The end will be refused; before that the blender is to get the part that says another follows. */
    if (confirm && lab->fault == FAULT_FOREVER && session_flush(&lab->session) != LU62_ACCEPTED)
        return false;
    if (session_end(&lab->session, confirm) != LU62_ACCEPTED)
        return false;
    lab->session.lose_confirmation = confirm && lab->fault == FAULT_DROPPED;
    lab->stage = TABLE_ENDED;
    return settle(lab);
}

static bool speak(struct laboratory *lab)
{
    struct session *session = &lab->session;
    switch (lab->stage) {
    case IDLE:
        return begin_revision(lab);
    case REVISION:
        if (!session_give(session, &lab->record) || session_end(session, true) != LU62_ACCEPTED)
            return false;
        lab->sendings++;
        lab->stage = REVISION_ENDED;
        return true;
    case ANNOUNCING:
        if (!session_give(session, &lab->record) || session_confirm(session) != LU62_ACCEPTED)
            return false;
        lab->stage = ANNOUNCED;
        return true;
    case ANNOUNCED:
        return begin_parts(lab);
    case PARTS:
        return lab->turn_wanted && lab->record.given == 0 ? break_off(lab) : give_part(lab);
    case BREAKING_OFF:
        return give_broken_off(lab);
    case INTERRUPTED:
        return give_turn(lab);
    case LEAVING:
        return leave(lab);
    case TABLE:
        return lab->turn_wanted ? give_turn(lab) : end_table(lab);
    case REVISION_ENDED:
    case REFUSED:
    case EXPLAINED:
    case TABLE_ENDED:
        return false;
    }
    return false;
}

/* Whether a table is being given, and the turn with it: only then is there one to be given to a blender that requests it. */
static bool has_turn_to_give(const struct laboratory *lab)
{
    return lab->stage >= ANNOUNCING && lab->stage <= TABLE;
}

/* Hears every request for the turn once. One that comes when the table is over comes too late: the blender has the turn by then, or can
 * begin a conversation. */
static void hear_requests(struct laboratory *lab)
{
    for (; lab->session.told > 0 && !lab->session.failed; lab->session.told--) {
        (void)session_print(&lab->session, "laboratory: the blender requests the turn\n");
        lab->turn_wanted = has_turn_to_give(lab);
    }
}

static bool step(void *program)
{
    struct laboratory *lab = program;
    /* Before reading: what is read may belong to the next conversation. */
    bool moved = settle(lab);
    hear_requests(lab);
    enum reading found;
    while (!lab->session.failed && (found = session_read(&lab->session)) != READ_NOTHING) {
        moved = true;
        if (found == READ_RECORD)
            take_query(lab);
        else if (found == READ_MARK)
            take_mark(lab);
    }
    while (!lab->session.failed && !lab->done && speak(lab))
        moved = true;
    return moved;
}

/* A laboratory that shows a fault by which nothing gets on waits twice as long as the blender, so that the blender is seen to give
 * the conversation up. */
static bool open_laboratory(struct laboratory *lab, int socket, const struct options *options)
{
    struct options own = *options;
    if (own.fault == FAULT_SILENT || own.fault == FAULT_DROPPED)
        own.limit_ms *= 2;
    lab->fault = own.fault;
    lab->revisions_due = 1;
    return session_open_laboratory(&lab->session, socket, &own);
}

int laboratory(int socket, const struct options *options)
{
    struct laboratory lab = {0};
    if (!open_laboratory(&lab, socket, options))
        return EXIT_FAILURE;
    /* A revised figure is there from the start. The laboratory begins before it looks at the line, so the blender's bid, already
     * under way, crosses its first unit. */
    (void)begin_revision(&lab);
    bool good = session_run(&lab.session, step, &lab, &lab.done);
    if (good && lab.fault == FAULT_NONE && lab.revisions_confirmed <= REVISED) {
        session_fail(&lab.session, "it has gone before it had everything");
        good = false;
    }
    if (options->counts) {
        session_print_counts(&lab.session);
        fprintf(stderr, "laboratory: tables broken off %lu\n", lab.broken_off);
    }
    return good ? EXIT_SUCCESS : EXIT_FAILURE;
}
