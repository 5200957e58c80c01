/* Laboratory and blender with one fault on the line between them, run after run: a byte of a number, header or length is changed, or
 * a unit is dropped, doubled, cut, exchanged with the next or held back. The blender must print a correct front part of its table
 * and stop with a message, or print the whole table; never a wrong figure, and never later than its time limit allows: MOST_MS has
 * room for a unit held back, for both programs' limits one after the other, and for a machine that does other work. (Units carry no
 * checksum; that a changed byte of data is found too, the ninth kind of fault, is the records' own. So it is with the tenth, the top
 * bit of an LL turned over, by which a table would end early or go on.) Four kinds are those of an expedited unit, which is the signal
 * that interrupts a table, or its answer. One that is late comes when the table may be over, and the figures must be the same.
 *
 *   fuzz EXPECTED SEED RUNS     EXPECTED is the file with the whole table, and what the laboratory says; RUNS for each kind of fault
 *
 * Prints what the runs came to, or the run that went wrong. */
#include "child.h"

#include "../../hosts/clock.h"
#include "../../hosts/line.h"
#include "lu62.h"

#include <inttypes.h>
#include <poll.h>
#include <stdlib.h>
#include <string.h>
#include <sys/socket.h>
#include <unistd.h>

enum {
    LIMIT_MS = 250,
    /* The limit of the run without a fault, which must not reach it. */
    LONG_LIMIT_MS = 5000,
    /* A unit held back comes before the time limit, or after it. */
    SHORT_HOLD_MS = 50,
    LONG_HOLD_MS = 2 * LIMIT_MS,
    SLACK_MS = 1000,
    MOST_MS = LONG_HOLD_MS + 2 * LIMIT_MS + SLACK_MS,
    HEADER_AT = 2,
    RU_AT = 5
};

enum kind {
    NUMBER_BYTE,
    HEADER_BYTE,
    LENGTH_BYTE,
    DROPPED,
    DOUBLED,
    CUT,
    EXCHANGED,
    HELD_BACK,
    DATA_BYTE,
    TOP_BIT,
    EXPEDITED_BYTE,
    EXPEDITED_DROPPED,
    EXPEDITED_DOUBLED,
    EXPEDITED_LATE,
    KINDS,
    NO_FAULT = KINDS
};

static const char *const kind_names[] = {"a number byte changed",      "a header byte changed",     "a length byte changed",
                                         "a unit dropped",             "a unit doubled",            "a unit cut",
                                         "two units exchanged",        "a unit held back",          "a data byte changed",
                                         "a top bit turned over",      "an expedited byte changed", "an expedited unit dropped",
                                         "an expedited unit doubled", "an expedited unit late",    "no fault"};

struct line_fault {
    enum kind kind;
    size_t direction; /* 0 to the blender, 1 to the laboratory */
    size_t unit;      /* how many units go before it that way */
    uint64_t choice;  /* what else there is to choose */
};

/* The way of units in one direction: off one line, on to the other. */
struct way {
    struct line *from, *to;
    size_t units;       /* passed so far */
    int64_t held_until; /* nothing is passed before */
    uint8_t kept[LINE_IN];
    size_t kept_length; /* a unit that lets the next pass; 0 for none */
    bool shut;
    /* Where the records passed on have come to: bytes left of the last, and its first LL byte if the second is to come. */
    size_t left;
    bool after_first;
    uint8_t first;
    bool turned; /* a top bit has been turned over */
    int64_t expedited_until; /* no expedited unit is passed before */
};

/* The generator SplitMix64. */
static uint64_t next_random(uint64_t *state)
{
    uint64_t z = *state += UINT64_C(0x9E3779B97F4A7C15);
    z = (z ^ (z >> 30)) * UINT64_C(0xBF58476D1CE4E5B9);
    z = (z ^ (z >> 27)) * UINT64_C(0x94D049BB133111EB);
    return z ^ (z >> 31);
}

static void put(struct way *way, enum flow flow, const uint8_t *unit, size_t length)
{
    if (!line_put(way->to, flow, unit, length)) {
        fprintf(stderr, "fuzz: the line takes no more units\n");
        exit(EXIT_FAILURE);
    }
}

/* Changes one byte, mostly by one bit, so that some changed headers are good ones. */
static void change(uint8_t *byte, uint64_t choice)
{
    uint8_t by = (uint8_t)(choice >> 8);
    *byte ^= choice % 4 != 0 ? (uint8_t)(1u << (choice >> 8) % 8) : by != 0 ? by : 1;
}

/* Goes over the records in a unit. Gives where in the unit the first record begins that does, else the unit's length. */
static size_t first_record(struct way *way, const uint8_t *unit, size_t length)
{
    size_t begins = length;
    bool data = length > RU_AT && unit[HEADER_AT] <= 3;
    for (size_t i = RU_AT; data && i < length; i++) {
        if (way->left > 0) {
            way->left--;
        } else if (way->after_first) {
            way->left = (way->first * 256u + unit[i]) % LU62_MORE_FOLLOWS - LU62_RECORD_LEAST;
            way->after_first = false;
        } else {
            way->first = unit[i];
            way->after_first = true;
            if (begins == length)
                begins = i;
        }
    }
    return begins;
}

/* Whether the fault is shown at this unit: at the one chosen, or, for a top bit, at the first from there on in which a record begins. */
static bool shown_here(const struct way *way, const struct line_fault *fault, size_t direction, bool record_begins)
{
    if (fault->direction != direction)
        return false;
    return fault->kind == TOP_BIT ? !way->turned && record_begins && way->units >= fault->unit : way->units == fault->unit;
}

/* Passes a unit on with the fault. `record` is where the first record begins in it. */
static void pass_faulty(struct way *way, const struct line_fault *fault, const uint8_t *unit, size_t length, size_t record)
{
    uint8_t copy[LINE_IN];
    struct line_out *out = &way->to->out[NORMAL];
    size_t frame = out->held;
    memcpy(copy, unit, length);
    switch (fault->kind) {
    case NUMBER_BYTE: change(&copy[fault->choice >> 32 & 1], fault->choice); break;
    case HEADER_BYTE: change(&copy[HEADER_AT + (fault->choice >> 32) % 3], fault->choice); break;
    case DATA_BYTE: change(&copy[length > RU_AT ? RU_AT + (fault->choice >> 32) % (length - RU_AT) : HEADER_AT], fault->choice); break;
    case TOP_BIT:
        copy[record] ^= 0x80;
        way->turned = true;
        break;
    case DROPPED: return;
    case DOUBLED: put(way, NORMAL, copy, length); break;
    case CUT: length = length > RU_AT && fault->choice % 4 != 0 ? RU_AT + (fault->choice >> 8) % (length - RU_AT)
                                                                : (fault->choice >> 8) % length; break;
    case EXCHANGED:
        memcpy(way->kept, copy, length);
        way->kept_length = length;
        return;
    default: break;
    }
    put(way, NORMAL, copy, length);
    if (fault->kind == LENGTH_BYTE)
        change(&out->bytes[frame + (fault->choice >> 32 & 1)], fault->choice);
}

/* Passes an expedited unit on with the fault. A late one has waited long enough when it comes here. */
static void pass_expedited_faulty(struct way *way, const struct line_fault *fault, const uint8_t *unit, size_t length)
{
    uint8_t copy[LINE_IN];
    memcpy(copy, unit, length);
    if (fault->kind == EXPEDITED_DROPPED)
        return;
    if (fault->kind == EXPEDITED_BYTE)
        change(&copy[(fault->choice >> 32) % length], fault->choice);
    if (fault->kind == EXPEDITED_DOUBLED)
        put(way, EXPEDITED, copy, length);
    put(way, EXPEDITED, copy, length);
}

/* Passes on the expedited units that have come, with the fault if it is one of theirs. Nothing of the other flow holds them up. */
static void pass_expedited(struct way *way, const struct line_fault *fault, size_t direction)
{
    size_t length;
    const uint8_t *unit;
    bool here = fault->direction == direction && fault->kind >= EXPEDITED_BYTE && fault->kind <= EXPEDITED_LATE;
    while (clock_ms() >= way->expedited_until && (unit = line_front(way->from, EXPEDITED, &length)) != NULL) {
        if (here && fault->kind == EXPEDITED_LATE && way->expedited_until == 0) {
            way->expedited_until = clock_ms() + (fault->choice % 2 == 0 ? SHORT_HOLD_MS : LONG_HOLD_MS);
            break;
        }
        if (here)
            pass_expedited_faulty(way, fault, unit, length);
        else
            put(way, EXPEDITED, unit, length);
        line_drop(way->from, EXPEDITED);
    }
}

/* Passes on what has come. */
static void pass(struct way *way, const struct line_fault *fault, size_t direction)
{
    size_t length;
    const uint8_t *unit;
    pass_expedited(way, fault, direction);
    while (clock_ms() >= way->held_until && (unit = line_front(way->from, NORMAL, &length)) != NULL) {
        size_t record = fault->kind == TOP_BIT ? first_record(way, unit, length) : length;
        bool here = shown_here(way, fault, direction, record < length);
        if (here && fault->kind == HELD_BACK && way->held_until == 0) {
            way->held_until = clock_ms() + (fault->choice % 2 == 0 ? SHORT_HOLD_MS : LONG_HOLD_MS);
            break;
        }
        if (here)
            pass_faulty(way, fault, unit, length, record);
        else
            put(way, NORMAL, unit, length);
        if (!here && way->kept_length > 0) {
            put(way, NORMAL, way->kept, way->kept_length);
            way->kept_length = 0;
        }
        way->units++;
        line_drop(way->from, NORMAL);
    }
    line_send(way->to);
    if (way->from->closed && !way->shut && clock_ms() >= way->held_until && clock_ms() >= way->expedited_until) {
        way->shut = true;
        (void)shutdown(way->to->socket, SHUT_WR);
    }
}

/* Carries units both ways until both programs have closed their ends, but not for longer than a run may take. */
static void relay(struct way *ways, const struct line_fault *fault)
{
    int64_t until = clock_ms() + MOST_MS;
    while (!(ways[0].shut && ways[1].shut) && clock_ms() < until) {
        struct pollfd both[2];
        for (size_t i = 0; i < 2; i++) {
            (void)line_receive(ways[i].from);
            both[i] = (struct pollfd){.fd = ways[i].from->closed ? -1 : ways[i].from->socket, .events = POLLIN};
        }
        for (size_t i = 0; i < 2; i++)
            pass(&ways[i], fault, i);
        (void)poll(both, 2, 5);
    }
}

/* What went over the line in one run: how many units each way, and whether a top bit was turned over. */
struct passage {
    size_t units[2];
    bool turned;
};

static void run(const struct line_fault *fault, struct child *lab, struct child *blend, struct passage *passage)
{
    static struct line lines[2];
    static struct way ways[2];
    struct options options = {.limit_ms = fault->kind == NO_FAULT ? LONG_LIMIT_MS : LIMIT_MS, .pause_ms = 10};
    int one[2], two[2];
    memset(ways, 0, sizeof ways);
    if (socketpair(AF_UNIX, SOCK_STREAM, 0, one) < 0 || socketpair(AF_UNIX, SOCK_STREAM, 0, two) < 0)
        cannot("socketpair");
    child_start(lab, laboratory, one[0], (int[]){one[1], two[0], two[1]}, 3, &options);
    child_start(blend, blender, two[0], (int[]){two[1], one[0], one[1]}, 3, &options);
    (void)close(one[0]);
    (void)close(two[0]);
    if (!line_open(&lines[0], one[1]) || !line_open(&lines[1], two[1]))
        cannot("fcntl");
    for (size_t i = 0; i < 2; i++) {
        ways[i].from = &lines[i];
        ways[i].to = &lines[1 - i];
    }
    relay(ways, fault);
    for (size_t i = 0; i < 2; i++)
        passage->units[i] = ways[i].units;
    passage->turned = ways[0].turned || ways[1].turned;
    (void)close(one[1]);
    (void)close(two[1]);
    child_wait(blend, MOST_MS);
    child_wait(lab, MOST_MS);
}

static bool one_message(const char *said, const char *front)
{
    const char *end = strchr(said, '\n');
    return strncmp(said, front, strlen(front)) == 0 && end != NULL && end[1] == '\0';
}

/* What each program prints where there is no fault. */
struct expected {
    char blender[CHILD_TEXT], laboratory[CHILD_TEXT];
};

/* Parts what both print to one file: the laboratory's lines have its name in front. */
static void read_expected(const char *path, struct expected *expected)
{
    static const char name[] = "laboratory: ";
    char whole[CHILD_TEXT];
    read_file(path, whole, sizeof whole);
    expected->blender[0] = expected->laboratory[0] = '\0';
    for (const char *line = whole, *end; (end = strchr(line, '\n')) != NULL; line = end + 1)
        (void)strncat(strncmp(line, name, strlen(name)) == 0 ? expected->laboratory : expected->blender, line, (size_t)(end + 1 - line));
}

/* Whether what was printed is a front part, in whole lines, of what is expected. */
static bool is_front(const char *printed, const char *expected)
{
    size_t length = strlen(printed);
    return strncmp(printed, expected, length) == 0 && (length == 0 || printed[length - 1] == '\n');
}

/* What is wrong with a run, or NULL. */
static const char *wrong(const struct child *lab, const struct child *blend, const struct expected *expected)
{
    if (blend->status == EXIT_SUCCESS && (strcmp(blend->out, expected->blender) != 0 || blend->err[0] != '\0'))
        return "status 0 without the whole table";
    if (blend->status == EXIT_SUCCESS && strcmp(lab->out, expected->laboratory) != 0)
        return "status 0 without all that the laboratory has to say of its cards";
    if (blend->status != EXIT_SUCCESS && blend->status != EXIT_FAILURE)
        return "the blender did not end by itself";
    if (!is_front(blend->out, expected->blender))
        return "a wrong figure";
    if (!is_front(lab->out, expected->laboratory))
        return "the laboratory says something wrong of a card";
    if (blend->status == EXIT_FAILURE && !one_message(blend->err, "blender: conversation with the laboratory ended: "))
        return "the blender stopped without its message";
    if (lab->status != EXIT_SUCCESS && !one_message(lab->err, "laboratory: conversation with the blender ended: "))
        return "the laboratory stopped without its message";
    return NULL;
}

/* What the runs of one kind of fault came to. */
struct tally {
    unsigned long whole, refused, timed_out, stopped;
};

static void count_run(struct tally *tally, const struct child *blend)
{
    if (blend->status == EXIT_SUCCESS)
        tally->whole++;
    else if (strstr(blend->err, "time limit") != NULL)
        tally->timed_out++;
    else if (strstr(blend->err, "refusal") != NULL)
        tally->refused++;
    else
        tally->stopped++;
}

/* Runs once and exits if something is wrong with it. */
static void try_fault(const struct line_fault *fault, const struct expected *expected, struct tally *tally, struct passage *passage)
{
    static struct child lab, blend;
    int64_t start = clock_ms();
    run(fault, &lab, &blend, passage);
    int64_t took = clock_ms() - start;
    const char *what = wrong(&lab, &blend, expected);
    if (what == NULL && took >= MOST_MS)
        what = "it took too long";
    if (what == NULL && fault->kind == NO_FAULT && blend.status != EXIT_SUCCESS)
        what = "it stopped though there was no fault";
    /* Of every record it is known what its top bit must be. */
    if (what == NULL && passage->turned && blend.status == EXIT_SUCCESS)
        what = "a top bit turned over was not noticed";
    count_run(tally, &blend);
    if (what == NULL)
        return;
    fprintf(stderr, "fuzz: %s, way %zu, unit %zu, choice %" PRIx64 ": %s after %" PRId64 " ms\n  printed\n%s\n  said\n%s%s\n",
            kind_names[fault->kind], fault->direction, fault->unit, fault->choice, what, took, blend.out, blend.err, lab.err);
    exit(EXIT_FAILURE);
}

int main(int count, char **arguments)
{
    static struct expected expected;
    struct tally tallies[KINDS + 1] = {{0, 0, 0, 0}};
    struct passage whole, passage;
    if (count != 4) {
        fprintf(stderr, "usage: fuzz EXPECTED SEED RUNS\n");
        return 2;
    }
    read_expected(arguments[1], &expected);
    uint64_t random = strtoull(arguments[2], NULL, 10);
    unsigned long runs = strtoul(arguments[3], NULL, 10);
    try_fault(&(struct line_fault){.kind = NO_FAULT}, &expected, &tallies[NO_FAULT], &whole);
    for (unsigned long i = 0; i < runs; i++)
        for (enum kind kind = 0; kind < KINDS; kind++) {
            struct line_fault fault = {kind, next_random(&random) % 3 == 0, 0, next_random(&random)};
            fault.unit = next_random(&random) % whole.units[fault.direction];
            try_fault(&fault, &expected, &tallies[kind], &passage);
        }
    for (enum kind kind = 0; kind < KINDS; kind++)
        printf("fuzz: %s: %lu runs printed the whole table, %lu stopped at a refusal, %lu at the time limit, %lu otherwise\n",
               kind_names[kind], tallies[kind].whole, tallies[kind].refused, tallies[kind].timed_out, tallies[kind].stopped);
    return fflush(stdout) == 0 ? EXIT_SUCCESS : EXIT_FAILURE;
}
