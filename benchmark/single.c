/* Makes a known row of calls through the C interface, for callgrind to count those of one function: M is 1,024, W 16.
 *
 *   single SENDS READS
 *
 * Gives SENDS pieces of 512 bytes, takes each unit made at once, then makes READS reads of at most 1,024 bytes. */
#include "lu62.h"

#include <stdio.h>
#include <stdlib.h>

enum { PIECE = 512, RECORD = 1024, MAXIMUM = 1024, WINDOW = 16 };

static uint8_t record[RECORD];
static uint8_t sent_image[LU62_IMAGE], read_image[LU62_IMAGE];
static uint8_t sent_send[MAXIMUM];
static uint8_t sent_unit[LU62_UNIT(MAXIMUM)], read_unit[LU62_UNIT(MAXIMUM)];
static uint8_t inbox[LU62_INBOX(WINDOW, MAXIMUM)];
static uint8_t buffer[RECORD];

static void require(uint32_t refusal)
{
    if (refusal != LU62_ACCEPTED) {
        fprintf(stderr, "single: refusal %u: %s\n", (unsigned)refusal, lu62_refusal_text(refusal));
        exit(EXIT_FAILURE);
    }
}

static void open_end(uint8_t role, uint8_t *image)
{
    struct lu62_answer answer;
    require(lu62_open(role, WINDOW, WINDOW, MAXIMUM, MAXIMUM, sizeof sent_send, sizeof sent_unit, sizeof inbox, image, LU62_IMAGE,
                      &answer));
}

static void give(unsigned long sends)
{
    struct lu62_answer answer;
    for (unsigned long i = 0; i < sends; i++) {
        require(lu62_send_data(sent_image, sizeof sent_image, record + i % 2 * PIECE, PIECE, sent_send, sizeof sent_send, sent_unit,
                               sizeof sent_unit, &answer));
        if (answer.unit > 0)
            require(lu62_receive_unit(read_image, sizeof read_image, sent_unit, answer.unit, inbox, sizeof inbox, read_unit,
                                      sizeof read_unit, &answer));
    }
}

int main(int count, char **arguments)
{
    struct lu62_answer answer;
    if (count != 3) {
        fprintf(stderr, "usage: single SENDS READS\n");
        return 2;
    }
    record[0] = RECORD / 256;
    record[1] = RECORD % 256;
    open_end(LU62_FIRST_SPEAKER, sent_image);
    open_end(LU62_BIDDER, read_image);
    require(lu62_allocate(sent_image, sizeof sent_image, sent_unit, sizeof sent_unit, &answer));
    give(strtoul(arguments[1], NULL, 10));
    for (unsigned long i = strtoul(arguments[2], NULL, 10); i > 0; i--)
        require(lu62_receive(read_image, sizeof read_image, inbox, sizeof inbox, buffer, sizeof buffer, &answer));
    return EXIT_SUCCESS;
}
