/* Carries records of 1,024 bytes from one end to the other in one process: sent, taken and read.
 *
 *   through library M W RECORDS ROUNDS   through the C interface
 *   through memcpy M W RECORDS ROUNDS    only the four moves that every byte makes: to send buffer, unit, inbox, reader
 *
 * The work is done ROUNDS times. Prints the payload bytes of one round and the seconds of the fastest, since other work on the
 * machine can only make a round slower. */
#include "lu62.h"

#include <stdbool.h>
#include <stdio.h>
#include <stdlib.h>
#include <string.h>
#include <time.h>

enum { RECORD = 1024 };

static uint8_t record[RECORD];
static uint8_t sent_image[LU62_IMAGE], read_image[LU62_IMAGE];
static uint8_t sent_send[LU62_MAXIMUM_MOST], read_send[LU62_MAXIMUM_MOST];
static uint8_t sent_unit[LU62_UNIT(LU62_MAXIMUM_MOST)], read_unit[LU62_UNIT(LU62_MAXIMUM_MOST)];
static uint8_t sent_inbox[LU62_INBOX_MOST], read_inbox[LU62_INBOX_MOST];
static uint8_t buffer[RECORD];

static void require(uint32_t refusal)
{
    if (refusal != LU62_ACCEPTED) {
        fprintf(stderr, "through: refusal %u: %s\n", (unsigned)refusal, lu62_refusal_text(refusal));
        exit(EXIT_FAILURE);
    }
}

/* The unit is taken and its bytes are read at once; after each window the reader makes a pacing response. */
static size_t carry(size_t unit_length, size_t inbox_length, unsigned window, unsigned *place)
{
    struct lu62_answer answer;
    size_t copied = 0;
    require(lu62_receive_unit(read_image, sizeof read_image, sent_unit, unit_length, read_inbox, inbox_length,
                              read_unit, sizeof read_unit, &answer));
    while (copied < unit_length - 5) {
        require(lu62_receive(read_image, sizeof read_image, read_inbox, inbox_length, buffer, sizeof buffer, &answer));
        copied += answer.copied;
    }
    if (++*place == window) {
        *place = 0;
        require(lu62_send_pacing_response(read_image, sizeof read_image, read_unit, sizeof read_unit, &answer));
        require(lu62_receive_unit(sent_image, sizeof sent_image, read_unit, answer.unit, sent_inbox, inbox_length,
                                  sent_unit, sizeof sent_unit, &answer));
    }
    return copied;
}

static size_t by_library(uint32_t max, uint8_t window, size_t records)
{
    struct lu62_answer answer;
    size_t inbox_length = LU62_INBOX((size_t)window, max);
    size_t carried = 0;
    unsigned place = 0;
    require(lu62_open(LU62_FIRST_SPEAKER, window, window, max, max, sizeof sent_send, sizeof sent_unit, inbox_length,
                      sent_image, sizeof sent_image, &answer));
    require(lu62_open(LU62_BIDDER, window, window, max, max, sizeof read_send, sizeof read_unit, inbox_length,
                      read_image, sizeof read_image, &answer));
    require(lu62_allocate(sent_image, sizeof sent_image, sent_unit, sizeof sent_unit, &answer));
    for (size_t i = 0; i < records; i++)
        for (size_t at = 0; at < RECORD; at += max) {
            size_t piece = RECORD - at < max ? RECORD - at : max;
            require(lu62_send_data(sent_image, sizeof sent_image, record + at, piece, sent_send, sizeof sent_send,
                                   sent_unit, sizeof sent_unit, &answer));
            if (answer.unit > 0)
                carried += carry(answer.unit, inbox_length, window, &place);
        }
    require(lu62_deallocate(sent_image, sizeof sent_image, 0, sent_send, sizeof sent_send, sent_unit, sizeof sent_unit, &answer));
    return carried + carry(answer.unit, inbox_length, window, &place);
}

/* Tells the compiler that memory may have been read, so that no move is left out. */
static void keep(void)
{
    __asm__ volatile("" ::: "memory");
}

static size_t by_memcpy(uint32_t max, size_t records)
{
    size_t carried = 0;
    for (size_t i = 0; i < records; i++)
        for (size_t at = 0; at < RECORD; at += max) {
            size_t piece = RECORD - at < max ? RECORD - at : max;
            memcpy(sent_send, record + at, piece);
            keep();
            memcpy(sent_unit + 5, sent_send, piece);
            keep();
            memcpy(read_inbox, sent_unit + 5, piece);
            keep();
            memcpy(buffer, read_inbox, piece);
            keep();
            carried += piece;
        }
    return carried;
}

static double now(void)
{
    struct timespec time;
    clock_gettime(CLOCK_MONOTONIC, &time);
    return (double)time.tv_sec + (double)time.tv_nsec / 1e9;
}

int main(int count, char **arguments)
{
    if (count != 6) {
        fprintf(stderr, "usage: through library|memcpy M W RECORDS ROUNDS\n");
        return 2;
    }
    bool moves_only = strcmp(arguments[1], "memcpy") == 0;
    uint32_t max = (uint32_t)strtoul(arguments[2], NULL, 10);
    uint8_t window = (uint8_t)strtoul(arguments[3], NULL, 10);
    size_t records = strtoul(arguments[4], NULL, 10);
    unsigned long rounds = strtoul(arguments[5], NULL, 10);
    for (size_t i = 0; i < RECORD; i++)
        record[i] = (uint8_t)(i * 7);
    record[0] = RECORD / 256;
    record[1] = RECORD % 256;
    double best = 1e9;
    for (unsigned long round = 0; round < rounds; round++) {
        double start = now();
        size_t carried = moves_only ? by_memcpy(max, records) : by_library(max, window, records);
        double seconds = now() - start;
        if (seconds < best)
            best = seconds;
        size_t last = max < RECORD ? max : RECORD;
        /* The last bytes read must be the last of the record. */
        if (carried != records * RECORD || memcmp(buffer, record + RECORD - last, last) != 0) {
            fprintf(stderr, "through: what was read is not what was given\n");
            return EXIT_FAILURE;
        }
    }
    printf("%zu %.9f\n", records * RECORD, best);
    return EXIT_SUCCESS;
}
