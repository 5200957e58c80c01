/* Examples byte for byte through the C interface: every row of document 01's table, each under the row's own words (`row`), and some
 * of our own beside them (`ours`), those of tables in several parts, of a turn or an end prepared, of a confirmation refused and of
 * the turn requested among them. Prints how many there were of each, or what differed. */
#include "lu62_end.h"

#include <stdbool.h>
#include <stdio.h>
#include <stdlib.h>
#include <string.h>

/* Bytes of the image that a test sets to reach an example's starting point, or looks at. */
enum {
    STATE_AT = 2,
    FOLLOW_AT = 3,
    OUT_NUMBER_AT = 16,
    GIVEN_AT = 18,
    OWED_NUMBER_AT = 40,
    ERROR_AT = 42,
    UNANSWERED_AT = 43,
    EXPEDITED_SENT_AT = 44,
    EXPEDITED_TAKEN_AT = 46
};

enum { LARGEST = 64, WIDEST = 3 };

/* An end with the buffers that it is lent. */
struct host {
    struct lu62_end end;
    uint8_t send[LARGEST];
    uint8_t unit[LU62_UNIT(LARGEST)];
    uint8_t inbox[LU62_INBOX(WIDEST, LARGEST)];
};

static const char *example;
static int rows, own, failures;

static void row(const char *words)
{
    example = words;
    rows++;
}

static void ours(const char *words)
{
    example = words;
    own++;
}

static void print_bytes(const char *what, const uint8_t *bytes, size_t length)
{
    fprintf(stderr, "  %s", what);
    for (size_t i = 0; i < length; i++)
        fprintf(stderr, " %02X", bytes[i]);
    fprintf(stderr, "\n");
}

static void expect_bytes(const char *what, const uint8_t *got, size_t got_length, const uint8_t *expected, size_t length)
{
    if (got_length == length && memcmp(got, expected, length) == 0)
        return;
    failures++;
    fprintf(stderr, "%s: %s:\n", example, what);
    print_bytes("expected", expected, length);
    print_bytes("found   ", got, got_length);
}

static void expect_number(const char *what, uint32_t got, uint32_t expected)
{
    if (got == expected)
        return;
    failures++;
    fprintf(stderr, "%s: %s: expected %u, found %u\n", example, what, (unsigned)expected, (unsigned)got);
}

static void expect_refusal(const struct host *host, uint32_t expected)
{
    if (host->end.answer.refusal == expected)
        return;
    failures++;
    fprintf(stderr, "%s: expected refusal %u (%s), found %u (%s)\n", example, (unsigned)expected, lu62_refusal_text(expected),
            (unsigned)host->end.answer.refusal, lu62_refusal_text(host->end.answer.refusal));
}

static void expect_state(const struct host *host, uint32_t expected)
{
    uint32_t state = lu62_end_state(&host->end);
    if (state == expected)
        return;
    failures++;
    fprintf(stderr, "%s: expected state %s, found %s\n", example, lu62_state_name(expected), lu62_state_name(state));
}

/* The unit that the last call made. */
static void expect_unit(const struct host *host, const uint8_t *expected, size_t length)
{
    const struct lu62_answer *answer = &host->end.answer;
    expect_refusal(host, LU62_ACCEPTED);
    expect_bytes("unit", host->unit, answer->unit, expected, length);
    expect_number("copied, complete, more and mark", answer->copied + answer->complete + answer->more + answer->mark, 0);
}

static void expect_no_unit(const struct host *host)
{
    expect_unit(host, host->unit, 0);
}

#define UNIT(host, ...) \
    do { \
        static const uint8_t expected_[] = {__VA_ARGS__}; \
        expect_unit(host, expected_, sizeof expected_); \
    } while (0)

#define SEND(host, ...) \
    do { \
        static const uint8_t bytes_[] = {__VA_ARGS__}; \
        (void)lu62_end_send_data(&(host)->end, bytes_, sizeof bytes_); \
    } while (0)

#define TAKE(host, ...) \
    do { \
        static const uint8_t bytes_[] = {__VA_ARGS__}; \
        (void)lu62_end_receive_unit(&(host)->end, bytes_, sizeof bytes_); \
    } while (0)

/* A take on the expedited line. */
#define TAKE_EXPEDITED(host, ...) \
    do { \
        static const uint8_t bytes_[] = {__VA_ARGS__}; \
        (void)lu62_end_receive_expedited(&(host)->end, bytes_, sizeof bytes_); \
    } while (0)

static void open_host(struct host *host, uint8_t role, uint8_t window, uint32_t max)
{
    struct lu62_session session = {role, window, window, max, max};
    memset(host, 0xEE, sizeof *host);
    lu62_end_lend(&host->end, host->send, sizeof host->send, host->unit, sizeof host->unit, host->inbox,
                  LU62_INBOX((size_t)window, max));
    (void)lu62_end_open(&host->end, &session);
    expect_refusal(host, LU62_ACCEPTED);
    expect_state(host, LU62_RESET);
    expect_number("format", host->end.image[0], LU62_FORMAT);
}

/* An opened first speaker that has allocated. */
static void open_sender(struct host *host, uint8_t window, uint32_t max)
{
    open_host(host, LU62_FIRST_SPEAKER, window, max);
    (void)lu62_end_allocate(&host->end);
    expect_refusal(host, LU62_ACCEPTED);
    expect_number("a first speaker's allocate makes no unit", host->end.answer.unit, 0);
}

static void bids(void)
{
    struct host bidder, first, sending;
    row("fresh bidder allocates");
    open_host(&bidder, LU62_BIDDER, 3, 64);
    (void)lu62_end_allocate(&bidder.end);
    UNIT(&bidder, 0x00, 0x01, 0x4B, 0x81, 0x80, 0x04, 0x00, 0x06, 0x00, 0x00);
    expect_number("bid pending", lu62_end_bid_pending(&bidder.end), 1);

    row("fresh first speaker takes it");
    open_host(&first, LU62_FIRST_SPEAKER, 3, 64);
    (void)lu62_end_receive_unit(&first.end, bidder.unit, bidder.end.answer.unit);
    UNIT(&first, 0x00, 0x01, 0xCB, 0x80, 0x00, 0x04);
    expect_state(&first, LU62_RECEIVE);

    row("the same, already in Send");
    open_sender(&sending, 3, 64);
    (void)lu62_end_receive_unit(&sending.end, bidder.unit, bidder.end.answer.unit);
    UNIT(&sending, 0x00, 0x01, 0xCF, 0x90, 0x00, 0x08, 0x13, 0x00, 0x00, 0x04);
    expect_state(&sending, LU62_SEND);
}

static void a_confirmation(void)
{
    struct host host;
    row("confirmed, number owed 7");
    open_host(&host, LU62_BIDDER, 3, 64);
    host.end.image[STATE_AT] = LU62_CONFIRM_OWED;
    host.end.image[OWED_NUMBER_AT] = 7;
    (void)lu62_end_confirmed(&host.end);
    UNIT(&host, 0x00, 0x07, 0x83, 0x20, 0x00);
    expect_state(&host, LU62_RECEIVE);
}

static void data(void)
{
    struct host host, little;
    row("first speaker allocates, gives 00 05 41 42 43, ends");
    open_sender(&host, 3, 64);
    SEND(&host, 0x00, 0x05, 0x41, 0x42, 0x43);
    expect_number("bytes kept make no unit", host.end.answer.unit, 0);
    expect_number("bytes kept", lu62_end_send_held(&host.end), 5);
    (void)lu62_end_deallocate(&host.end, 0);
    UNIT(&host, 0x00, 0x01, 0x03, 0x91, 0x81, 0x00, 0x05, 0x41, 0x42, 0x43);
    expect_state(&host, LU62_RESET);

    row("M 8: gives 00 0A 31 to 36, then 37 38");
    open_sender(&little, 3, 8);
    SEND(&little, 0x00, 0x0A, 0x31, 0x32, 0x33, 0x34, 0x35, 0x36);
    expect_number("M bytes are kept", little.end.answer.unit, 0);
    SEND(&little, 0x37, 0x38);
    UNIT(&little, 0x00, 0x01, 0x02, 0x91, 0x80, 0x00, 0x0A, 0x31, 0x32, 0x33, 0x34, 0x35, 0x36);
    row("then confirm");
    (void)lu62_end_confirm(&little.end);
    UNIT(&little, 0x00, 0x02, 0x01, 0x20, 0x00, 0x37, 0x38);
    expect_state(&little, LU62_CONFIRM_AWAITED);
}

/* A bidder that has taken a unit with the pacing bit, so that the next has byte 1 as in the table. */
static void open_receiver(struct host *host)
{
    open_host(host, LU62_BIDDER, 3, 64);
    TAKE(host, 0x00, 0x01, 0x03, 0x91, 0x80, 0x00, 0x02);
    expect_refusal(host, LU62_ACCEPTED);
}

static void headers(void)
{
    struct host host;
    uint8_t image[LU62_IMAGE], inbox[sizeof host.inbox];
    row("header 03 90 20");
    open_receiver(&host);
    TAKE(&host, 0x00, 0x02, 0x03, 0x90, 0x20);
    expect_refusal(&host, LU62_ACCEPTED);

    row("header 03 90 21");
    open_receiver(&host);
    memcpy(image, host.end.image, sizeof image);
    memcpy(inbox, host.inbox, sizeof inbox);
    TAKE(&host, 0x00, 0x02, 0x03, 0x90, 0x21);
    expect_refusal(&host, LU62_BAD_HEADER);
    expect_number("sense", host.end.answer.sense, 0);
    expect_number("rule", host.end.answer.rule, 5);
    expect_bytes("image", host.end.image, sizeof host.end.image, image, sizeof image);
    expect_bytes("inbox", host.inbox, sizeof host.inbox, inbox, sizeof inbox);
}

static void record_lengths(void)
{
    struct host host, other;
    row("LL 00 02 given");
    open_sender(&host, 3, 64);
    SEND(&host, 0x00, 0x02);
    expect_refusal(&host, LU62_ACCEPTED);
    expect_number("record place", host.end.image[GIVEN_AT], 0);
    (void)lu62_end_deallocate(&host.end, 0);
    UNIT(&host, 0x00, 0x01, 0x03, 0x91, 0x81, 0x00, 0x02);

    row("LL 00 01 given");
    open_sender(&other, 3, 64);
    SEND(&other, 0x00, 0x01);
    expect_refusal(&other, LU62_BAD_LL);
}

static void credit(void)
{
    struct host host;
    row("W 2: third unit before a pacing answer");
    open_sender(&host, 2, 64);
    for (int i = 0; i < 2; i++) {
        SEND(&host, 0x00, 0x02);
        (void)lu62_end_flush(&host.end);
        expect_refusal(&host, LU62_ACCEPTED);
        expect_number("length of the first and the second unit", host.end.answer.unit, 7);
    }
    SEND(&host, 0x00, 0x02);
    (void)lu62_end_flush(&host.end);
    expect_refusal(&host, LU62_NO_CREDIT);

    ours("the third unit after a pacing answer");
    TAKE(&host, 0x00, 0x00, 0x83, 0x01, 0x00);
    expect_refusal(&host, LU62_ACCEPTED);
    (void)lu62_end_flush(&host.end);
    expect_refusal(&host, LU62_ACCEPTED);
}

/* A read of at most four bytes. What it says of the record: `INSIDE` it, at its `END`, or at the end of a part that another follows. */
enum ends { INSIDE, END, PART_END };

static void expect_read(struct host *host, const uint8_t *bytes, size_t length, enum ends ends)
{
    uint8_t buffer[4];
    memset(buffer, 0xEE, sizeof buffer);
    (void)lu62_end_receive(&host->end, buffer, sizeof buffer);
    expect_refusal(host, LU62_ACCEPTED);
    expect_bytes("bytes read", buffer, host->end.answer.copied, bytes, length);
    expect_number("complete", host->end.answer.complete, ends != INSIDE);
    expect_number("more", host->end.answer.more, ends == PART_END);
    expect_number("mark", host->end.answer.mark, LU62_MARK_NONE);
    for (size_t i = length; i < sizeof buffer; i++)
        expect_number("a cell past the bytes read", buffer[i], 0xEE);
}

static void reading(void)
{
    struct host host;
    uint8_t buffer[4];
    row("inbox 00 05 41 42 43 00, read 4, 4, 4");
    open_host(&host, LU62_BIDDER, 3, 64);
    TAKE(&host, 0x00, 0x01, 0x03, 0x91, 0x80, 0x00, 0x05, 0x41, 0x42, 0x43, 0x00);
    expect_refusal(&host, LU62_ACCEPTED);
    expect_number("bytes in the inbox", lu62_end_inbox_held(&host.end), 6);
    expect_read(&host, (const uint8_t[]){0x00, 0x05, 0x41, 0x42}, 4, INSIDE);
    expect_read(&host, (const uint8_t[]){0x43}, 1, END);
    expect_read(&host, (const uint8_t[]){0x00}, 1, INSIDE);

    ours("a read with nothing held");
    (void)lu62_end_receive(&host.end, buffer, sizeof buffer);
    expect_refusal(&host, LU62_NOTHING_TO_READ);
}

static void numbers(void)
{
    struct host host;
    ours("request 65,535, then request 0");
    open_sender(&host, 3, 64);
    host.end.image[OUT_NUMBER_AT] = 0xFE;
    host.end.image[OUT_NUMBER_AT + 1] = 0xFF;
    SEND(&host, 0x00, 0x02);
    (void)lu62_end_flush(&host.end);
    UNIT(&host, 0xFF, 0xFF, 0x03, 0x91, 0x80, 0x00, 0x02);
    SEND(&host, 0x00, 0x02);
    (void)lu62_end_flush(&host.end);
    UNIT(&host, 0x00, 0x00, 0x03, 0x90, 0x00, 0x00, 0x02);
}

/* A first LL byte is accepted whatever it is, and some second byte after it: what lu62.h says at send data. */
static void a_first_byte_alone(void)
{
    struct host host;
    ours("each first LL byte alone, and each second byte after it");
    for (unsigned ll = 0; ll < 65536; ll++) {
        uint8_t first = (uint8_t)(ll / 256), second = (uint8_t)(ll % 256);
        open_sender(&host, 3, 64);
        (void)lu62_end_send_data(&host.end, &first, 1);
        expect_refusal(&host, LU62_ACCEPTED);
        (void)lu62_end_send_data(&host.end, &second, 1);
        expect_refusal(&host, ll % LU62_MORE_FOLLOWS < LU62_RECORD_LEAST ? LU62_BAD_LL : LU62_ACCEPTED);
    }
}

/* The record place in an image: its kind, and a number of two bytes, low byte first. */
static void expect_place(const struct host *host, uint8_t kind, uint16_t number)
{
    const uint8_t place[] = {kind, (uint8_t)(number % 256), (uint8_t)(number / 256)};
    expect_bytes("record place", host->end.image + GIVEN_AT, sizeof place, place, sizeof place);
}

/* Nothing that ends what is given is accepted, and nothing is changed by it. */
static void expect_unfinished(struct host *host)
{
    uint8_t image[LU62_IMAGE];
    memcpy(image, host->end.image, sizeof image);
    (void)lu62_end_confirm(&host->end);
    expect_refusal(host, LU62_UNFINISHED_RECORD);
    for (int confirm = 0; confirm < 2; confirm++) {
        (void)lu62_end_prepare_to_receive(&host->end, confirm);
        expect_refusal(host, LU62_UNFINISHED_RECORD);
        (void)lu62_end_deallocate(&host->end, confirm);
        expect_refusal(host, LU62_UNFINISHED_RECORD);
    }
    (void)lu62_end_defer_turn(&host->end);
    expect_refusal(host, LU62_UNFINISHED_RECORD);
    (void)lu62_end_defer_end(&host->end);
    expect_refusal(host, LU62_UNFINISHED_RECORD);
    expect_bytes("image", host->end.image, sizeof host->end.image, image, sizeof image);
}

static void parts_given(void)
{
    struct host host;
    ours("LL 80 00 and LL 80 01 given");
    open_sender(&host, 3, 64);
    SEND(&host, 0x80, 0x00);
    expect_refusal(&host, LU62_BAD_LL);
    SEND(&host, 0x80, 0x01);
    expect_refusal(&host, LU62_BAD_LL);
    expect_place(&host, 0, 0);

    ours("LL 80 02 given, then a turn, an end, a confirm, a turn and an end prepared");
    SEND(&host, 0x80, 0x02);
    expect_refusal(&host, LU62_ACCEPTED);
    expect_place(&host, 1, 0);
    expect_unfinished(&host);

    ours("LL 80 02 sent by flush, then a turn, an end, a confirm, a turn and an end prepared");
    (void)lu62_end_flush(&host.end);
    UNIT(&host, 0x00, 0x01, 0x03, 0x91, 0x80, 0x80, 0x02);
    expect_unfinished(&host);

    ours("the last part, then a turn");
    SEND(&host, 0x00, 0x03, 0x41);
    expect_place(&host, 0, 0);
    (void)lu62_end_prepare_to_receive(&host.end, 0);
    UNIT(&host, 0x00, 0x02, 0x03, 0x90, 0x20, 0x00, 0x03, 0x41);
}

static void long_parts_given(void)
{
    struct host host;
    ours("LL FF FF and LL 7F FF given");
    open_sender(&host, 3, 64);
    SEND(&host, 0xFF, 0xFF, 0x41);
    expect_refusal(&host, LU62_ACCEPTED);
    expect_place(&host, 3, LU62_RECORD_MOST - 3);
    expect_unfinished(&host);
    open_sender(&host, 3, 64);
    SEND(&host, 0x7F, 0xFF, 0x41);
    expect_place(&host, 2, LU62_RECORD_MOST - 3);
    expect_unfinished(&host);
}

static void parts_read(void)
{
    struct host host;
    uint8_t buffer[4];
    ours("LL 80 02 alone is read");
    open_host(&host, LU62_BIDDER, 3, 64);
    TAKE(&host, 0x00, 0x01, 0x03, 0x91, 0x80, 0x80, 0x02);
    expect_refusal(&host, LU62_ACCEPTED);
    expect_read(&host, (const uint8_t[]){0x80, 0x02}, 2, PART_END);
    (void)lu62_end_receive(&host.end, buffer, sizeof buffer);
    expect_refusal(&host, LU62_NOTHING_TO_READ);
    expect_number("complete and more of a refusal", host.end.answer.complete + host.end.answer.more, 0);

    ours("a mark is read after the last part, and says nothing of parts");
    TAKE(&host, 0x00, 0x02, 0x03, 0x90, 0x20, 0x80, 0x03, 0x41, 0x00, 0x02);
    expect_refusal(&host, LU62_ACCEPTED);
    expect_read(&host, (const uint8_t[]){0x80, 0x03, 0x41}, 3, PART_END);
    expect_read(&host, (const uint8_t[]){0x00, 0x02}, 2, END);
    (void)lu62_end_receive(&host.end, buffer, sizeof buffer);
    expect_refusal(&host, LU62_ACCEPTED);
    expect_number("mark", host.end.answer.mark, LU62_MARK_TURN);
    expect_number("complete and more of a mark", host.end.answer.complete + host.end.answer.more, 0);
}

/* A mark behind a part that another follows, in one unit with it or in the next, breaks the protocol. */
static void parts_taken_with_a_mark(void)
{
    static const uint8_t marks[][2] = {{0x90, 0x20}, {0x90, 0x01}, {0x20, 0x00}, {0x20, 0x20}, {0x20, 0x01}};
    struct host host;
    uint8_t image[LU62_IMAGE];
    ours("each mark behind a part that another follows");
    for (size_t i = 0; i < sizeof marks / sizeof marks[0]; i++)
        for (uint8_t top = 0; top < 2; top++) {
            /* The part ends in this unit, or has ended in the one before; with the bit off the same units are good. */
            const uint8_t ll = top != 0 ? 0x80 : 0x00;
            const uint8_t at_once[] = {0x00, 0x02, 0x03, marks[i][0], marks[i][1], 0x80, 0x02, ll, 0x03, 0x41};
            const uint8_t before[] = {0x00, 0x02, 0x02, 0x90, 0x00, ll, 0x02};
            const uint8_t behind[] = {0x00, 0x03, 0x01, marks[i][0], marks[i][1]};
            uint32_t expected = top != 0 ? LU62_BAD_RECORDS : LU62_ACCEPTED;
            open_receiver(&host);
            memcpy(image, host.end.image, sizeof image);
            (void)lu62_end_receive_unit(&host.end, at_once, sizeof at_once);
            expect_refusal(&host, expected);
            expect_number("sense", host.end.answer.sense, 0);
            if (top != 0)
                expect_bytes("image", host.end.image, sizeof host.end.image, image, sizeof image);
            open_receiver(&host);
            (void)lu62_end_receive_unit(&host.end, before, sizeof before);
            expect_refusal(&host, LU62_ACCEPTED);
            (void)lu62_end_receive_unit(&host.end, behind, sizeof behind);
            expect_refusal(&host, expected);
        }
}

/* Three parts in two units: the third part's LL is cut between them. */
static void a_table_cut_over_units(void)
{
    struct host laboratory, blender;
    ours("a table of three parts cut over units");
    open_sender(&laboratory, 3, 8);
    open_host(&blender, LU62_BIDDER, 3, 8);
    SEND(&laboratory, 0x80, 0x05, 0x41, 0x42, 0x43);
    SEND(&laboratory, 0x80, 0x02);
    SEND(&laboratory, 0x00, 0x04, 0x44, 0x45);
    UNIT(&laboratory, 0x00, 0x01, 0x02, 0x91, 0x80, 0x80, 0x05, 0x41, 0x42, 0x43, 0x80, 0x02, 0x00);
    (void)lu62_end_receive_unit(&blender.end, laboratory.unit, laboratory.end.answer.unit);
    expect_refusal(&blender, LU62_ACCEPTED);
    expect_read(&blender, (const uint8_t[]){0x80, 0x05, 0x41, 0x42}, 4, INSIDE);
    expect_read(&blender, (const uint8_t[]){0x43}, 1, PART_END);
    expect_read(&blender, (const uint8_t[]){0x80, 0x02}, 2, PART_END);
    expect_read(&blender, (const uint8_t[]){0x00}, 1, INSIDE);
    (void)lu62_end_deallocate(&laboratory.end, 0);
    UNIT(&laboratory, 0x00, 0x02, 0x01, 0x90, 0x01, 0x04, 0x44, 0x45);
    (void)lu62_end_receive_unit(&blender.end, laboratory.unit, laboratory.end.answer.unit);
    expect_refusal(&blender, LU62_ACCEPTED);
    expect_read(&blender, (const uint8_t[]){0x04, 0x44, 0x45}, 3, END);
}

/* The kinds of a record place in an image, and a number that the kind does not have. */
static void places_in_an_image(void)
{
    struct host host;
    ours("record places in an image, by kind");
    open_sender(&host, 3, 64);
    for (unsigned kind = 0; kind < 256; kind++)
        for (uint8_t number = 0; number < 2; number++) {
            bool good = number == 0 ? kind == 0 || kind == 1 || kind == 4 : kind == 2 || kind == 3 || kind == 4;
            host.end.image[GIVEN_AT] = (uint8_t)kind;
            host.end.image[GIVEN_AT + 1] = number;
            (void)lu62_end_confirmed(&host.end);
            expect_refusal(&host, good ? LU62_WRONG_STATE : LU62_BAD_RECORD);
        }
}

/* What can be prepared: the call, the state that it leaves, the call that does it at once, and byte 2 of the header. */
static const struct prepared {
    uint32_t (*defer)(struct lu62_end *end);
    uint32_t (*at_once)(struct lu62_end *end, int confirm);
    uint32_t state, state_after;
    uint8_t byte_2;
} prepared[] = {
    {lu62_end_defer_turn, lu62_end_prepare_to_receive, LU62_DEFER_TURN, LU62_RECEIVE, 0x20},
    {lu62_end_defer_end, lu62_end_deallocate, LU62_DEFER_END, LU62_RESET, 0x01},
};

enum { PREPARED = sizeof prepared / sizeof prepared[0] };

/* The last call, which prepared something or withdrew it, made no unit and left this state in this image. */
static void expect_noted(const struct host *host, const uint8_t *image, uint32_t state)
{
    uint8_t noted[LU62_IMAGE];
    memcpy(noted, image, sizeof noted);
    noted[STATE_AT] = (uint8_t)state;
    expect_no_unit(host);
    expect_bytes("image", host->end.image, sizeof host->end.image, noted, sizeof noted);
}

/* Image and buffers are as they were. */
static void expect_kept(const struct host *host, const struct host *before)
{
    expect_bytes("image", host->end.image, sizeof host->end.image, before->end.image, sizeof before->end.image);
    expect_bytes("send", host->send, sizeof host->send, before->send, sizeof before->send);
    expect_bytes("unit buffer", host->unit, sizeof host->unit, before->unit, sizeof before->unit);
}

/* The last call was refused so and changed nothing. */
static void expect_untouched(const struct host *host, const struct host *before, uint32_t refusal)
{
    expect_refusal(host, refusal);
    expect_number("sense, rule and length of a unit", host->end.answer.sense + host->end.answer.rule + host->end.answer.unit, 0);
    expect_kept(host, before);
}

/* Carries out what is prepared: by flush, or by confirm. */
static void carry_out(struct host *host, int confirm)
{
    (void)(confirm != 0 ? lu62_end_confirm(&host->end) : lu62_end_flush(&host->end));
}

/* The turn or end goes with the bytes kept, or with none, as it would have at once. */
static void prepared_and_carried_out(void)
{
    struct host host, other;
    ours("a turn or an end prepared, then flush or confirm, with five bytes kept and with none");
    for (size_t i = 0; i < PREPARED; i++)
        for (int confirm = 0; confirm < 2; confirm++)
            for (size_t kept = 0; kept <= 5; kept += 5) {
                const uint8_t byte_1 = confirm != 0 ? 0x21 : 0x91, byte_2 = prepared[i].byte_2 | 0x80;
                const uint8_t unit[] = {0x00, 0x01, 0x03, byte_1, byte_2, 0x00, 0x05, 0x41, 0x42, 0x43};
                open_sender(&host, 3, 64);
                if (kept > 0)
                    SEND(&host, 0x00, 0x05, 0x41, 0x42, 0x43);
                memcpy(&other, &host, sizeof other);
                (void)prepared[i].defer(&host.end);
                expect_noted(&host, other.end.image, prepared[i].state);
                carry_out(&host, confirm);
                expect_unit(&host, unit, LU62_UNIT(kept));
                expect_state(&host, confirm != 0 ? (uint32_t)LU62_CONFIRM_AWAITED : prepared[i].state_after);
                lu62_end_lend(&other.end, other.send, sizeof other.send, other.unit, sizeof other.unit, other.inbox,
                              host.end.inbox_length);
                (void)prepared[i].at_once(&other.end, confirm);
                expect_unit(&other, unit, LU62_UNIT(kept));
                expect_bytes("image", host.end.image, sizeof host.end.image, other.end.image, sizeof other.end.image);
            }
}

/* The chain stays open in Defer, and ends with what is carried out. */
static void prepared_in_a_chain(void)
{
    struct host host;
    ours("M 8: a record of ten bytes, the turn prepared when its first unit has gone, then flush");
    open_sender(&host, 3, 8);
    SEND(&host, 0x00, 0x0A, 0x31, 0x32, 0x33, 0x34, 0x35, 0x36);
    SEND(&host, 0x37, 0x38);
    UNIT(&host, 0x00, 0x01, 0x02, 0x91, 0x80, 0x00, 0x0A, 0x31, 0x32, 0x33, 0x34, 0x35, 0x36);
    (void)lu62_end_defer_turn(&host.end);
    expect_no_unit(&host);
    expect_number("bytes kept", lu62_end_send_held(&host.end), 2);
    (void)lu62_end_flush(&host.end);
    UNIT(&host, 0x00, 0x02, 0x01, 0x90, 0x20, 0x37, 0x38);
    expect_state(&host, LU62_RECEIVE);
}

static void prepared_and_withdrawn(void)
{
    struct host host;
    uint8_t image[LU62_IMAGE];
    for (size_t i = 0; i < PREPARED; i++) {
        ours(i == 0 ? "a turn prepared, withdrawn, and more is sent" : "an end prepared, withdrawn, and more is sent");
        open_sender(&host, 3, 64);
        SEND(&host, 0x00, 0x03, 0x41);
        memcpy(image, host.end.image, sizeof image);
        (void)prepared[i].defer(&host.end);
        expect_noted(&host, image, prepared[i].state);
        (void)lu62_end_withdraw(&host.end);
        expect_noted(&host, image, LU62_SEND);
        SEND(&host, 0x00, 0x03, 0x42);
        expect_refusal(&host, LU62_ACCEPTED);
        (void)lu62_end_flush(&host.end);
        UNIT(&host, 0x00, 0x01, 0x03, 0x91, 0x80, 0x00, 0x03, 0x41, 0x00, 0x03, 0x42);
        expect_state(&host, LU62_SEND);
    }
}

/* W 2, both units gone: what is prepared waits in Defer for a pacing response. */
static void prepared_without_credit(void)
{
    struct host host, before;
    ours("a turn or an end prepared without credit, a pacing answer taken, then flush or confirm");
    for (size_t i = 0; i < PREPARED; i++)
        for (int confirm = 0; confirm < 2; confirm++) {
            const uint8_t byte_1 = confirm != 0 ? 0x21 : 0x91;
            const uint8_t unit[] = {0x00, 0x03, 0x03, byte_1, prepared[i].byte_2, 0x00, 0x03, 0x41};
            open_sender(&host, 2, 64);
            for (int sent = 0; sent < 2; sent++) {
                SEND(&host, 0x00, 0x02);
                (void)lu62_end_flush(&host.end);
                expect_refusal(&host, LU62_ACCEPTED);
            }
            SEND(&host, 0x00, 0x03, 0x41);
            (void)prepared[i].defer(&host.end);
            expect_refusal(&host, LU62_ACCEPTED);
            memcpy(&before, &host, sizeof before);
            carry_out(&host, confirm);
            expect_untouched(&host, &before, LU62_NO_CREDIT);
            TAKE(&host, 0x00, 0x00, 0x83, 0x01, 0x00);
            expect_no_unit(&host);
            expect_state(&host, prepared[i].state);
            carry_out(&host, confirm);
            expect_unit(&host, unit, sizeof unit);
        }
}

/* Document 02: a bid that is taken in Defer is refused, as in Send; what is prepared stays, and goes. */
static void a_bid_against_defer(void)
{
    struct host host;
    ours("a bid taken where a turn or an end is prepared");
    for (size_t i = 0; i < PREPARED; i++) {
        const uint8_t unit[] = {0x00, 0x01, 0x03, 0x91, prepared[i].byte_2 | 0x80};
        open_sender(&host, 3, 64);
        (void)prepared[i].defer(&host.end);
        TAKE(&host, 0x00, 0x01, 0x4B, 0x81, 0x80, 0x04, 0x00, 0x06, 0x00, 0x00);
        UNIT(&host, 0x00, 0x01, 0xCF, 0x90, 0x00, 0x08, 0x13, 0x00, 0x00, 0x04);
        expect_state(&host, prepared[i].state);
        (void)lu62_end_flush(&host.end);
        expect_unit(&host, unit, sizeof unit);
    }
}

/* A read and a pacing response go in Defer as in Send. */
static void reading_and_pacing_in_defer(void)
{
    struct host host, before;
    uint8_t buffer[4];
    ours("a bidder reads the turn, prepares an end, reads on, makes a pacing answer and sends the end");
    open_host(&host, LU62_BIDDER, 1, 64);
    TAKE(&host, 0x00, 0x01, 0x03, 0x91, 0xA0, 0x00, 0x04, 0x41, 0x42);
    expect_read(&host, (const uint8_t[]){0x00, 0x04, 0x41, 0x42}, 4, END);
    (void)lu62_end_receive(&host.end, buffer, sizeof buffer);
    expect_number("mark", host.end.answer.mark, LU62_MARK_TURN);
    (void)lu62_end_defer_end(&host.end);
    expect_refusal(&host, LU62_ACCEPTED);
    memcpy(&before, &host, sizeof before);
    (void)lu62_end_receive(&host.end, buffer, sizeof buffer);
    expect_untouched(&host, &before, LU62_NOTHING_TO_READ);
    (void)lu62_end_send_pacing_response(&host.end);
    UNIT(&host, 0x00, 0x00, 0x83, 0x01, 0x00);
    expect_state(&host, LU62_DEFER_END);
    (void)lu62_end_flush(&host.end);
    UNIT(&host, 0x00, 0x01, 0x03, 0x91, 0x01);
    expect_state(&host, LU62_RESET);
}

/* In Defer send data, turn, end, prepare, allocate and confirmed are refused with 7, if nothing asked before refuses them. */
static void refused_in_defer(void)
{
    struct host host, before;
    ours("every call that Defer does not allow");
    for (size_t i = 0; i < PREPARED; i++) {
        open_sender(&host, 3, 64);
        SEND(&host, 0x00, 0x03, 0x41);
        (void)prepared[i].defer(&host.end);
        expect_refusal(&host, LU62_ACCEPTED);
        memcpy(&before, &host, sizeof before);
        SEND(&host, 0x00, 0x02);
        expect_untouched(&host, &before, LU62_WRONG_STATE);
        (void)lu62_end_send_data(&host.end, before.send, 0);
        expect_untouched(&host, &before, LU62_BAD_LENGTH);
        (void)lu62_end_allocate(&host.end);
        expect_untouched(&host, &before, LU62_WRONG_STATE);
        (void)lu62_end_confirmed(&host.end);
        expect_untouched(&host, &before, LU62_WRONG_STATE);
        for (size_t j = 0; j < PREPARED; j++) {
            (void)prepared[j].defer(&host.end);
            expect_untouched(&host, &before, LU62_WRONG_STATE);
            for (int confirm = 0; confirm < 2; confirm++) {
                (void)prepared[j].at_once(&host.end, confirm);
                expect_untouched(&host, &before, LU62_WRONG_STATE);
            }
        }
    }
}

/* Every state's own answer to preparing and withdrawing; a state that is none; a Defer that no calls lead to. */
static void states_in_an_image(void)
{
    struct host host, before;
    ours("each state in an image, then a turn or an end prepared or withdrawn");
    for (unsigned state = 0; state < 256; state++)
        for (size_t call = 0; call <= PREPARED; call++) {
            bool defer = state == LU62_DEFER_TURN || state == LU62_DEFER_END;
            bool allowed = call < PREPARED ? state == LU62_SEND : defer;
            open_host(&host, LU62_FIRST_SPEAKER, 3, 64);
            host.end.image[STATE_AT] = (uint8_t)state;
            memcpy(&before, &host, sizeof before);
            (void)(call < PREPARED ? prepared[call].defer(&host.end) : lu62_end_withdraw(&host.end));
            if (allowed)
                expect_noted(&host, before.end.image, call < PREPARED ? prepared[call].state : LU62_SEND);
            else
                expect_untouched(&host, &before, state > LU62_DEFER_END ? LU62_BAD_RECORD : LU62_WRONG_STATE);
        }

    ours("Defer in an image behind a part that another follows, then flush or confirm");
    for (size_t i = 0; i < PREPARED; i++)
        for (int confirm = 0; confirm < 2; confirm++) {
            open_sender(&host, 3, 64);
            SEND(&host, 0x80, 0x02);
            host.end.image[STATE_AT] = (uint8_t)prepared[i].state;
            memcpy(&before, &host, sizeof before);
            carry_out(&host, confirm);
            expect_untouched(&host, &before, LU62_UNFINISHED_RECORD);
        }
}

/* An image of a wrong length is refused by 4, though these calls are lent nothing. */
static void wrong_lengths_of_an_image(void)
{
    struct host host;
    ours("images of other lengths, then a turn or an end prepared or withdrawn");
    open_sender(&host, 3, 64);
    for (size_t length = 0; length <= LU62_IMAGE; length++) {
        uint32_t expected = length == LU62_IMAGE ? LU62_ACCEPTED : LU62_BAD_BUFFER;
        expect_number("a turn prepared", lu62_defer_turn(host.end.image, length, &host.end.answer), expected);
        expect_number("withdrawn", lu62_withdraw(host.end.image, length, &host.end.answer), expected);
        expect_number("an end prepared", lu62_defer_end(host.end.image, length, &host.end.answer), expected);
        expect_state(&host, length == LU62_IMAGE ? LU62_DEFER_END : LU62_SEND);
    }
}

/* An end that owes the confirmation of unit 7, with this to follow it: 0 stay, 1 turn, 2 end. */
static void open_owing(struct host *host, uint8_t follows)
{
    open_host(host, LU62_BIDDER, 3, 64);
    host->end.image[STATE_AT] = LU62_CONFIRM_OWED;
    host->end.image[FOLLOW_AT] = follows;
    host->end.image[OWED_NUMBER_AT] = 7;
}

/* Document 02: the negative response, and flush makes the error header; between them only the state and the flag have changed. */
static void a_confirmation_refused(void)
{
    struct host host;
    uint8_t image[LU62_IMAGE];
    ours("a confirmation refused, number owed 7, whatever was to follow, then flush twice");
    for (uint8_t follows = 0; follows < 3; follows++) {
        open_owing(&host, follows);
        memcpy(image, host.end.image, sizeof image);
        expect_number("error due before", lu62_end_error_due(&host.end), 0);
        (void)lu62_end_send_error(&host.end);
        UNIT(&host, 0x00, 0x07, 0x87, 0x30, 0x00, 0x08, 0x46, 0x00, 0x00);
        image[STATE_AT] = LU62_SEND;
        image[ERROR_AT] = 1;
        expect_bytes("image", host.end.image, sizeof host.end.image, image, sizeof image);
        expect_number("error due", lu62_end_error_due(&host.end), 1);
        (void)lu62_end_flush(&host.end);
        UNIT(&host, 0x00, 0x01, 0x0B, 0x91, 0x00, 0x07, 0x07, 0x08, 0x89, 0x00, 0x00, 0x00);
        expect_state(&host, LU62_SEND);
        expect_number("error due after", lu62_end_error_due(&host.end), 0);
        (void)lu62_end_flush(&host.end);
        expect_no_unit(&host);
        SEND(&host, 0x00, 0x02);
        (void)lu62_end_flush(&host.end);
        UNIT(&host, 0x00, 0x02, 0x03, 0x90, 0x00, 0x00, 0x02);
    }
}

static void refused_before_the_error_header(void)
{
    struct host host, before;
    uint8_t buffer[4];
    ours("every call that is not allowed before the error header has gone");
    open_owing(&host, 0);
    (void)lu62_end_send_error(&host.end);
    memcpy(&before, &host, sizeof before);
    SEND(&host, 0x00, 0x02);
    expect_untouched(&host, &before, LU62_WRONG_STATE);
    (void)lu62_end_send_data(&host.end, before.send, 0);
    expect_untouched(&host, &before, LU62_BAD_LENGTH);
    (void)lu62_end_confirm(&host.end);
    expect_untouched(&host, &before, LU62_WRONG_STATE);
    for (size_t i = 0; i < PREPARED; i++) {
        (void)prepared[i].defer(&host.end);
        expect_untouched(&host, &before, LU62_WRONG_STATE);
        for (int confirm = 0; confirm < 2; confirm++) {
            (void)prepared[i].at_once(&host.end, confirm);
            expect_untouched(&host, &before, LU62_WRONG_STATE);
        }
    }
    (void)lu62_end_allocate(&host.end);
    expect_untouched(&host, &before, LU62_WRONG_STATE);
    (void)lu62_end_confirmed(&host.end);
    expect_untouched(&host, &before, LU62_WRONG_STATE);
    (void)lu62_end_send_error(&host.end);
    expect_untouched(&host, &before, LU62_WRONG_STATE);
    (void)lu62_end_withdraw(&host.end);
    expect_untouched(&host, &before, LU62_WRONG_STATE);
    (void)lu62_end_receive(&host.end, buffer, sizeof buffer);
    expect_untouched(&host, &before, LU62_NOTHING_TO_READ);
}

/* W 1, its unit gone with the turn: the error header waits for a pacing response, the refusal before it does not. */
static void the_error_header_without_credit(void)
{
    struct host host, before;
    uint8_t buffer[4];
    ours("W 1: a confirmation refused without credit, a pacing answer taken, then flush");
    open_sender(&host, 1, 64);
    (void)lu62_end_prepare_to_receive(&host.end, 0);
    UNIT(&host, 0x00, 0x01, 0x03, 0x91, 0xA0);
    TAKE(&host, 0x00, 0x01, 0x03, 0x21, 0x20);
    (void)lu62_end_receive(&host.end, buffer, sizeof buffer);
    expect_number("mark", host.end.answer.mark, LU62_MARK_CONFIRM_TURN);
    (void)lu62_end_send_error(&host.end);
    UNIT(&host, 0x00, 0x01, 0x87, 0x30, 0x00, 0x08, 0x46, 0x00, 0x00);
    memcpy(&before, &host, sizeof before);
    (void)lu62_end_flush(&host.end);
    expect_untouched(&host, &before, LU62_NO_CREDIT);
    TAKE(&host, 0x00, 0x00, 0x83, 0x01, 0x00);
    expect_no_unit(&host);
    expect_number("error due", lu62_end_error_due(&host.end), 1);
    (void)lu62_end_flush(&host.end);
    UNIT(&host, 0x00, 0x02, 0x0B, 0x91, 0x00, 0x07, 0x07, 0x08, 0x89, 0x00, 0x00, 0x00);
}

/* The end that waits: the refusal gives Receive, and the error header is a mark, with no byte of it in the inbox. */
static void a_refused_confirmation_taken(void)
{
    struct host host;
    uint8_t buffer[4];
    ours("a refused confirmation taken, then its error header, its mark read, and the turn");
    open_sender(&host, 3, 64);
    SEND(&host, 0x00, 0x02);
    (void)lu62_end_deallocate(&host.end, 1);
    UNIT(&host, 0x00, 0x01, 0x03, 0x21, 0x81, 0x00, 0x02);
    TAKE(&host, 0x00, 0x02, 0x87, 0x30, 0x00, 0x08, 0x46, 0x00, 0x00);
    expect_refusal(&host, LU62_BAD_RESPONSE);
    TAKE(&host, 0x00, 0x01, 0x87, 0x30, 0x00, 0x08, 0x13, 0x00, 0x00);
    expect_refusal(&host, LU62_BAD_RU);
    TAKE(&host, 0x00, 0x01, 0x87, 0x30, 0x00, 0x08, 0x46, 0x00, 0x00);
    expect_no_unit(&host);
    expect_state(&host, LU62_RECEIVE);
    (void)lu62_end_receive(&host.end, buffer, sizeof buffer);
    expect_refusal(&host, LU62_NOTHING_TO_READ);
    TAKE(&host, 0x00, 0x01, 0x0B, 0x91, 0x00, 0x07, 0x07, 0x08, 0x89, 0x00, 0x00, 0x00);
    expect_no_unit(&host);
    expect_number("bytes in the inbox", lu62_end_inbox_held(&host.end), 0);
    TAKE(&host, 0x00, 0x02, 0x03, 0x90, 0x20);
    expect_refusal(&host, LU62_UNREAD_MARK);
    (void)lu62_end_receive(&host.end, buffer, sizeof buffer);
    expect_refusal(&host, LU62_ACCEPTED);
    expect_number("mark", host.end.answer.mark, LU62_MARK_ERROR);
    expect_number("copied, complete and more of a mark", host.end.answer.copied + host.end.answer.complete + host.end.answer.more, 0);
    expect_state(&host, LU62_RECEIVE);
    TAKE(&host, 0x00, 0x02, 0x03, 0x90, 0x20);
    (void)lu62_end_receive(&host.end, buffer, sizeof buffer);
    expect_number("mark", host.end.answer.mark, LU62_MARK_TURN);
    expect_state(&host, LU62_SEND);
}

/* An error header that comes where it may not: in Send, within a chain, within a record, to a bidder in Reset, and with another RU. */
static void error_headers_that_break_rules(void)
{
    struct host host;
    ours("error headers that break the protocol");
    open_sender(&host, 3, 64);
    TAKE(&host, 0x00, 0x01, 0x0B, 0x91, 0x00, 0x07, 0x07, 0x08, 0x89, 0x00, 0x00, 0x00);
    expect_refusal(&host, LU62_BAD_STATE);
    expect_number("sense", host.end.answer.sense, 0x20040000);
    open_host(&host, LU62_BIDDER, 3, 64);
    TAKE(&host, 0x00, 0x01, 0x0B, 0x91, 0x00, 0x07, 0x07, 0x08, 0x89, 0x00, 0x00, 0x00);
    expect_refusal(&host, LU62_BAD_BRACKET);
    TAKE(&host, 0x00, 0x01, 0x0B, 0x91, 0x80, 0x07, 0x07, 0x08, 0x89, 0x00, 0x00, 0x00);
    expect_refusal(&host, LU62_BAD_HEADER);
    expect_number("rule", host.end.answer.rule, 2);
    open_receiver(&host);
    TAKE(&host, 0x00, 0x02, 0x0B, 0x90, 0x00, 0x07, 0x07, 0x08, 0x89, 0x00, 0x00);
    expect_refusal(&host, LU62_BAD_RU);
    TAKE(&host, 0x00, 0x02, 0x0B, 0x91, 0x00, 0x07, 0x07, 0x08, 0x89, 0x00, 0x00, 0x00);
    expect_refusal(&host, LU62_BAD_PACING);
    TAKE(&host, 0x00, 0x03, 0x0B, 0x90, 0x00, 0x07, 0x07, 0x08, 0x89, 0x00, 0x00, 0x00);
    expect_refusal(&host, LU62_BAD_NUMBER);
    TAKE(&host, 0x00, 0x02, 0x02, 0x90, 0x00, 0x00, 0x02);
    TAKE(&host, 0x00, 0x03, 0x0B, 0x90, 0x00, 0x07, 0x07, 0x08, 0x89, 0x00, 0x00, 0x00);
    expect_refusal(&host, LU62_BAD_CHAIN);
    open_receiver(&host);
    TAKE(&host, 0x00, 0x02, 0x03, 0x90, 0x00, 0x80, 0x02);
    TAKE(&host, 0x00, 0x03, 0x0B, 0x90, 0x00, 0x07, 0x07, 0x08, 0x89, 0x00, 0x00, 0x00);
    expect_refusal(&host, LU62_BAD_RECORDS);
}

/* Refusing a confirmation is itself refused: with 4 for a unit buffer of M+4 bytes and an image of a wrong length, 5 and 7. */
static void refusing_refused(void)
{
    struct host host, before;
    ours("a confirmation refused with a wrong buffer, with each state and each value of the error flag in an image");
    open_owing(&host, 0);
    (void)lu62_send_error(host.end.image, LU62_IMAGE, host.unit, LU62_UNIT(64) - 1, &host.end.answer);
    expect_refusal(&host, LU62_BAD_BUFFER);
    (void)lu62_send_error(host.end.image, LU62_IMAGE - 1, host.unit, LU62_UNIT(64), &host.end.answer);
    expect_refusal(&host, LU62_BAD_BUFFER);
    for (unsigned state = 0; state < 256; state++)
        for (unsigned error = 0; error < 256; error++) {
            bool record = state <= LU62_DEFER_END && (error == 0 || (error == 1 && state == LU62_SEND));
            open_owing(&host, 0);
            host.end.image[STATE_AT] = (uint8_t)state;
            host.end.image[ERROR_AT] = (uint8_t)error;
            memcpy(&before, &host, sizeof before);
            (void)lu62_end_send_error(&host.end);
            if (record && state == LU62_CONFIRM_OWED)
                UNIT(&host, 0x00, 0x07, 0x87, 0x30, 0x00, 0x08, 0x46, 0x00, 0x00);
            else
                expect_untouched(&host, &before, record ? LU62_WRONG_STATE : LU62_BAD_RECORD);
        }
}

/* An error due with bytes kept, or with BB due, is no record that calls can leave. */
static void errors_due_in_an_image(void)
{
    struct host host, before;
    ours("an error due in an image with BB due, and with a byte kept");
    open_sender(&host, 3, 64);
    host.end.image[ERROR_AT] = 1;
    memcpy(&before, &host, sizeof before);
    (void)lu62_end_flush(&host.end);
    expect_untouched(&host, &before, LU62_BAD_RECORD);
    open_owing(&host, 0);
    (void)lu62_end_send_error(&host.end);
    (void)lu62_end_flush(&host.end);
    SEND(&host, 0x00);
    host.end.image[ERROR_AT] = 1;
    memcpy(&before, &host, sizeof before);
    (void)lu62_end_flush(&host.end);
    expect_untouched(&host, &before, LU62_BAD_RECORD);
}

static void confirmations_refused(void)
{
    a_confirmation_refused();
    refused_before_the_error_header();
    the_error_header_without_credit();
    a_refused_confirmation_taken();
    error_headers_that_break_rules();
    refusing_refused();
    errors_due_in_an_image();
}

/* Document 02: a signal, its answer, and what each end keeps of them; no state changes. */
static void a_signal_and_its_answer(void)
{
    struct host host, partner;
    ours("the turn requested, the signal taken in Send, its answer taken, and requested again");
    open_receiver(&host);
    open_sender(&partner, 3, 64);
    (void)lu62_end_request_to_send(&host.end);
    UNIT(&host, 0x00, 0x01, 0x4B, 0x80, 0x00, 0xC9, 0x00, 0x01, 0x00, 0x00);
    expect_number("signalled at the end that signals", host.end.answer.signalled, 0);
    expect_number("signal unanswered", lu62_end_signal_unanswered(&host.end), 1);
    expect_number("last expedited number sent", host.end.image[EXPEDITED_SENT_AT], 1);
    expect_state(&host, LU62_RECEIVE);
    (void)lu62_end_receive_expedited(&partner.end, host.unit, host.end.answer.unit);
    UNIT(&partner, 0x00, 0x01, 0xCB, 0x80, 0x00, 0xC9);
    expect_number("signalled", partner.end.answer.signalled, 1);
    expect_number("last expedited number taken", partner.end.image[EXPEDITED_TAKEN_AT], 1);
    expect_number("signal unanswered at the partner", lu62_end_signal_unanswered(&partner.end), 0);
    expect_state(&partner, LU62_SEND);
    (void)lu62_end_receive_expedited(&host.end, partner.unit, partner.end.answer.unit);
    expect_no_unit(&host);
    expect_number("signalled by an answer", host.end.answer.signalled, 0);
    expect_number("signal unanswered after the answer", lu62_end_signal_unanswered(&host.end), 0);
    (void)lu62_end_request_to_send(&host.end);
    UNIT(&host, 0x00, 0x02, 0x4B, 0x80, 0x00, 0xC9, 0x00, 0x01, 0x00, 0x00);

    ours("the signal behind number 65,535, which is 0, and its answer");
    open_receiver(&host);
    memset(host.end.image + EXPEDITED_SENT_AT, 0xFF, 4);
    (void)lu62_end_request_to_send(&host.end);
    UNIT(&host, 0x00, 0x00, 0x4B, 0x80, 0x00, 0xC9, 0x00, 0x01, 0x00, 0x00);
    TAKE_EXPEDITED(&host, 0x00, 0x00, 0x4B, 0x80, 0x00, 0xC9, 0x00, 0x01, 0x00, 0x00);
    UNIT(&host, 0x00, 0x00, 0xCB, 0x80, 0x00, 0xC9);
    TAKE_EXPEDITED(&host, 0x00, 0x00, 0xCB, 0x80, 0x00, 0xC9);
    expect_no_unit(&host);
}

/* In each state, with each value of the flag in the image. */
static void signals_refused(void)
{
    struct host host, before;
    ours("the turn requested with a wrong buffer, in each state and with each value of the flag in an image");
    open_receiver(&host);
    memcpy(&before, &host, sizeof before);
    (void)lu62_request_to_send(host.end.image, LU62_IMAGE, host.unit, LU62_UNIT(64) - 1, &host.end.answer);
    expect_untouched(&host, &before, LU62_BAD_BUFFER);
    (void)lu62_request_to_send(host.end.image, LU62_IMAGE - 1, host.unit, LU62_UNIT(64), &host.end.answer);
    expect_untouched(&host, &before, LU62_BAD_BUFFER);
    for (unsigned state = 0; state < 256; state++)
        for (unsigned flag = 0; flag < 256; flag++) {
            bool may = state == LU62_RECEIVE || state == LU62_CONFIRM_OWED;
            open_host(&host, LU62_BIDDER, 3, 64);
            host.end.image[STATE_AT] = (uint8_t)state;
            host.end.image[UNANSWERED_AT] = (uint8_t)flag;
            memcpy(&before, &host, sizeof before);
            (void)lu62_end_request_to_send(&host.end);
            if (state > LU62_DEFER_END || flag > 1)
                expect_untouched(&host, &before, LU62_BAD_RECORD);
            else if (!may)
                expect_untouched(&host, &before, LU62_WRONG_STATE);
            else if (flag == 1)
                expect_untouched(&host, &before, LU62_SIGNAL_UNANSWERED);
            else
                UNIT(&host, 0x00, 0x01, 0x4B, 0x80, 0x00, 0xC9, 0x00, 0x01, 0x00, 0x00);
        }
}

/* A unit that the expedited line refuses: nothing changes, and the sense is the refusal's. */
static void expect_breach(struct host *host, const uint8_t *unit, size_t length, uint32_t refusal, uint32_t sense, uint32_t rule)
{
    struct host before;
    memcpy(&before, host, sizeof before);
    (void)lu62_end_receive_expedited(&host->end, unit, length);
    expect_refusal(host, refusal);
    expect_number("sense", host->end.answer.sense, sense);
    expect_number("rule", host->end.answer.rule, rule);
    expect_number("length of a unit, and signalled", host->end.answer.unit + host->end.answer.signalled, 0);
    expect_kept(host, &before);
}

#define BREACH(host, refusal, sense, rule, ...) \
    do { \
        static const uint8_t bytes_[] = {__VA_ARGS__}; \
        expect_breach(host, bytes_, sizeof bytes_, refusal, sense, rule); \
    } while (0)

static void expedited_units_that_break_rules(void)
{
    struct host host;
    ours("expedited units that break the protocol");
    open_receiver(&host);
    BREACH(&host, LU62_SHORT_UNIT, 0x40050000, 0, 0x00, 0x01, 0x4B, 0x80);
    BREACH(&host, LU62_BAD_HEADER, 0, 1, 0x00, 0x01, 0x03, 0x90, 0x00, 0x00, 0x02);
    BREACH(&host, LU62_BAD_HEADER, 0, 1, 0x00, 0x01, 0xCF, 0x90, 0x00, 0x08, 0x13, 0x00, 0x00, 0x04);
    BREACH(&host, LU62_BAD_HEADER, 0, 2, 0x00, 0x01, 0x4B, 0x80, 0x80, 0x04, 0x00, 0x06, 0x00, 0x00);
    BREACH(&host, LU62_BAD_HEADER, 0, 2, 0x00, 0x01, 0xCB, 0x90, 0x00, 0xC9);
    BREACH(&host, LU62_BAD_RU, 0x10020000, 0, 0x00, 0x01, 0x4B, 0x80, 0x00, 0xC9, 0x00, 0x01, 0x00, 0x01);
    BREACH(&host, LU62_BAD_RU, 0x10020000, 0, 0x00, 0x01, 0x4B, 0x80, 0x00, 0xC9);
    BREACH(&host, LU62_BAD_RU, 0x10020000, 0, 0x00, 0x01, 0xCB, 0x80, 0x00, 0x04);
    BREACH(&host, LU62_BAD_NUMBER, 0x20010000, 0, 0x00, 0x02, 0x4B, 0x80, 0x00, 0xC9, 0x00, 0x01, 0x00, 0x00);
    BREACH(&host, LU62_BAD_RESPONSE, 0x200E0000, 0, 0x00, 0x00, 0xCB, 0x80, 0x00, 0xC9);
    (void)lu62_end_request_to_send(&host.end);
    BREACH(&host, LU62_BAD_RESPONSE, 0x200E0000, 0, 0x00, 0x02, 0xCB, 0x80, 0x00, 0xC9);

    ours("a signal on the normal line");
    TAKE(&host, 0x00, 0x02, 0x4B, 0x80, 0x00, 0xC9, 0x00, 0x01, 0x00, 0x00);
    expect_refusal(&host, LU62_BAD_HEADER);
    expect_number("rule", host.end.answer.rule, 2);
}

/* Expedited units overtake: a signal is taken under an unread mark, and its answer before the turn that was made earlier. */
static void signals_overtake(void)
{
    struct host host;
    uint8_t buffer[4];
    ours("the turn requested under its own mark, and a signal and an answer taken before the mark is read");
    open_receiver(&host);
    TAKE(&host, 0x00, 0x02, 0x03, 0x90, 0x20);
    (void)lu62_end_request_to_send(&host.end);
    UNIT(&host, 0x00, 0x01, 0x4B, 0x80, 0x00, 0xC9, 0x00, 0x01, 0x00, 0x00);
    TAKE_EXPEDITED(&host, 0x00, 0x01, 0x4B, 0x80, 0x00, 0xC9, 0x00, 0x01, 0x00, 0x00);
    expect_number("signalled", host.end.answer.signalled, 1);
    expect_number("bytes in the inbox", lu62_end_inbox_held(&host.end), 2);
    (void)lu62_end_receive(&host.end, buffer, sizeof buffer);
    (void)lu62_end_receive(&host.end, buffer, sizeof buffer);
    expect_number("mark", host.end.answer.mark, LU62_MARK_TURN);
    expect_number("signalled by a read", host.end.answer.signalled, 0);
    expect_state(&host, LU62_SEND);
    TAKE_EXPEDITED(&host, 0x00, 0x01, 0xCB, 0x80, 0x00, 0xC9);
    expect_no_unit(&host);
    expect_state(&host, LU62_SEND);
}

static void signals(void)
{
    a_signal_and_its_answer();
    signals_refused();
    expedited_units_that_break_rules();
    signals_overtake();
}

static void refused_openings(void)
{
    static const struct {
        struct lu62_session session;
        uint32_t refusal;
        size_t inbox;
    } cases[] = {
        {{2, 3, 3, 64, 64}, LU62_BAD_ROLE, 192},        {{0, 64, 64, 64, 64}, LU62_BAD_WINDOW, 4096},
        {{0, 3, 3, 7, 7}, LU62_BAD_MAXIMUM, 192},       {{0, 3, 3, 64, 64}, LU62_BAD_BUFFER, 191},
        {{0, 3, 3, 64, 64}, LU62_BAD_BUFFER, 65536},
    };
    static const uint8_t left[LU62_IMAGE] = {LU62_FORMAT};
    ours("refused openings");
    for (size_t i = 0; i < sizeof cases / sizeof cases[0]; i++) {
        const struct lu62_session *s = &cases[i].session;
        uint8_t image[LU62_IMAGE];
        struct lu62_answer answer;
        memset(image, 0xEE, sizeof image);
        uint32_t returned = lu62_open(s->role, s->out_window, s->in_window, s->out_max, s->in_max, 1024, LU62_UNIT(1024),
                                      cases[i].inbox, image, sizeof image, &answer);
        expect_number("number returned", returned, cases[i].refusal);
        expect_number("refusal in the answer", answer.refusal, cases[i].refusal);
        expect_bytes("image", image, sizeof image, left, sizeof left);
    }
}

/* Document 02's examples of the bytes of a session: opened by them, the image is that of the numbers. */
static void openings_by_bytes(void)
{
    static const struct {
        struct lu62_session_bytes bytes;
        struct lu62_session numbers;
        uint32_t refusal;
    } cases[] = {
        {{0, 0xC7, 0x03, 0x85, 0x80}, {0, 7, 3, 256, 8}, LU62_ACCEPTED},
        {{1, 0x01, 0xFF, 0x87, 0xF6}, {1, 1, 63, 1024, 960}, LU62_ACCEPTED},
        {{2, 0x40, 0x00, 0x75, 0x97}, {2, 0, 0, 0, 1152}, LU62_BAD_ROLE},
        {{0, 0x40, 0x03, 0x75, 0x97}, {0, 0, 3, 0, 1152}, LU62_BAD_WINDOW},
        {{0, 0x03, 0x80, 0x85, 0x85}, {0, 3, 0, 256, 256}, LU62_BAD_WINDOW},
        {{0, 0x07, 0x07, 0x97, 0x85}, {0, 7, 7, 1152, 256}, LU62_BAD_MAXIMUM},
        {{0, 0x07, 0x07, 0x85, 0x75}, {0, 7, 7, 256, 0}, LU62_BAD_MAXIMUM},
        {{0, 0x07, 0x3F, 0x87, 0x87}, {0, 7, 63, 1024, 1024}, LU62_BAD_BUFFER},
    };
    ours("openings by the bytes of a session");
    for (size_t i = 0; i < sizeof cases / sizeof cases[0]; i++) {
        const struct lu62_session_bytes *b = &cases[i].bytes;
        const struct lu62_session *s = &cases[i].numbers;
        uint8_t by_bytes[LU62_IMAGE], by_numbers[LU62_IMAGE];
        struct lu62_answer answer;
        memset(by_bytes, 0xEE, sizeof by_bytes);
        uint32_t returned = lu62_open_bind(b->role, b->out_window, b->in_window, b->out_size, b->in_size, 1024, LU62_UNIT(1024),
                                           LU62_INBOX(63, 960), by_bytes, sizeof by_bytes, &answer);
        expect_number("number returned", returned, cases[i].refusal);
        expect_number("refusal in the answer", answer.refusal, cases[i].refusal);
        (void)lu62_open(s->role, s->out_window, s->in_window, s->out_max, s->in_max, 1024, LU62_UNIT(1024), LU62_INBOX(63, 960),
                        by_numbers, sizeof by_numbers, &answer);
        expect_number("refusal of the numbers", answer.refusal, cases[i].refusal);
        expect_bytes("image", by_bytes, sizeof by_bytes, by_numbers, sizeof by_numbers);
    }
}

static void bytes_of_sizes(void)
{
    static const struct {
        uint32_t max;
        uint32_t refusal;
        uint8_t byte;
    } cases[] = {
        {256, LU62_ACCEPTED, 0x85},   {1024, LU62_ACCEPTED, 0x87},    {8, LU62_ACCEPTED, 0x80},  {384, LU62_ACCEPTED, 0xC5},
        {1023, LU62_NO_SIZE_BYTE, 0}, {17, LU62_NO_SIZE_BYTE, 0},     {7, LU62_BAD_MAXIMUM, 0},  {1025, LU62_BAD_MAXIMUM, 0},
        {1152, LU62_BAD_MAXIMUM, 0},  {UINT32_MAX, LU62_BAD_MAXIMUM, 0},
    };
    ours("bytes of sizes");
    for (size_t i = 0; i < sizeof cases / sizeof cases[0]; i++) {
        uint8_t byte = 0xEE;
        expect_number("number returned", lu62_size_byte(cases[i].max, &byte), cases[i].refusal);
        expect_number("byte", byte, cases[i].byte);
    }
}

/* An image of another format, and one as older libraries left it, which had no byte for the format. */
static void other_formats(void)
{
    struct host host;
    ours("images of other formats");
    open_host(&host, LU62_BIDDER, 3, 64);
    /* An image of format 3 had 42 bytes, one of format 4 had 43. */
    for (uint8_t format = 3; format < 5; format++) {
        host.end.image[0] = format;
        (void)lu62_allocate(host.end.image, 39u + format, host.unit, sizeof host.unit, &host.end.answer);
        expect_refusal(&host, LU62_BAD_BUFFER);
    }
    for (unsigned format = 0; format < 256; format++) {
        host.end.image[0] = (uint8_t)format;
        (void)lu62_end_confirmed(&host.end);
        expect_refusal(&host, format == LU62_FORMAT ? LU62_WRONG_STATE : LU62_BAD_RECORD);
    }
    host.end.image[0] = LU62_FORMAT;
    (void)lu62_allocate(host.end.image + 1, LU62_IMAGE - 1, host.unit, sizeof host.unit, &host.end.answer);
    expect_refusal(&host, LU62_BAD_BUFFER);
}

int main(void)
{
    _Static_assert(sizeof(struct lu62_answer) == 9 * sizeof(uint32_t), "an answer is nine numbers of 32 bits");
    _Static_assert(offsetof(struct lu62_answer, more) == 6 * sizeof(uint32_t), "more stands between complete and mark");
    _Static_assert(offsetof(struct lu62_answer, signalled) == 8 * sizeof(uint32_t), "signalled stands last");
    bids();
    a_confirmation();
    data();
    headers();
    record_lengths();
    credit();
    reading();
    numbers();
    a_first_byte_alone();
    parts_given();
    long_parts_given();
    parts_read();
    parts_taken_with_a_mark();
    a_table_cut_over_units();
    places_in_an_image();
    prepared_and_carried_out();
    prepared_in_a_chain();
    prepared_and_withdrawn();
    prepared_without_credit();
    a_bid_against_defer();
    reading_and_pacing_in_defer();
    refused_in_defer();
    states_in_an_image();
    wrong_lengths_of_an_image();
    confirmations_refused();
    signals();
    refused_openings();
    openings_by_bytes();
    bytes_of_sizes();
    other_formats();
    if (failures != 0) {
        fprintf(stderr, "table: %d differences\n", failures);
        return EXIT_FAILURE;
    }
    printf("table: the %d cases of document 01's table, and %d of our own\n", rows, own);
    return EXIT_SUCCESS;
}
