/* The text of a record: bytes with a length, taken apart in place and never cut. */
#ifndef TEXT_H
#define TEXT_H

#include <stdbool.h>
#include <stddef.h>
#include <stdint.h>

struct text {
    const uint8_t *bytes;
    size_t length;
};

/* Whether every byte is a printable character of ASCII or a blank. */
bool text_printable(struct text text);

struct text text_of(const char *string);

bool text_is(struct text text, const char *word);

/* Takes the next word, up to a blank or the end, off the front of `rest`, with the blanks before it. False if there is none. */
bool text_word(struct text *rest, struct text *word);

/* The whole word as a decimal number of at most `most`. False if it is none. */
bool text_number(struct text word, size_t most, size_t *number);

/* The number that is the next word of `rest`. */
bool text_next_number(struct text *rest, size_t most, size_t *number);

/* The CRC-32 of the bytes, as Ethernet has it. */
uint32_t text_crc(struct text text);

#endif
