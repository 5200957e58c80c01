#include "text.h"

#include <string.h>

bool text_printable(struct text text)
{
    for (size_t i = 0; i < text.length; i++)
        if (text.bytes[i] < ' ' || text.bytes[i] > '~')
            return false;
    return true;
}

struct text text_of(const char *string)
{
    struct text text = {(const uint8_t *)string, strlen(string)};
    return text;
}

bool text_is(struct text text, const char *word)
{
    return strlen(word) == text.length && memcmp(text.bytes, word, text.length) == 0;
}

bool text_word(struct text *rest, struct text *word)
{
    size_t from = 0;
    while (from < rest->length && rest->bytes[from] == ' ')
        from++;
    size_t to = from;
    while (to < rest->length && rest->bytes[to] != ' ')
        to++;
    word->bytes = rest->bytes + from;
    word->length = to - from;
    rest->bytes += to;
    rest->length -= to;
    return word->length > 0;
}

bool text_number(struct text word, size_t most, size_t *number)
{
    size_t value = 0;
    if (word.length == 0)
        return false;
    for (size_t i = 0; i < word.length; i++) {
        if (word.bytes[i] < '0' || word.bytes[i] > '9')
            return false;
        size_t digit = (size_t)(word.bytes[i] - '0');
        if (digit > most || value > (most - digit) / 10)
            return false;
        value = value * 10 + digit;
    }
    *number = value;
    return true;
}

bool text_next_number(struct text *rest, size_t most, size_t *number)
{
    struct text word;
    return text_word(rest, &word) && text_number(word, most, number);
}

uint32_t text_crc(struct text text)
{
    uint32_t rest = UINT32_MAX;
    for (size_t i = 0; i < text.length; i++) {
        rest ^= text.bytes[i];
        for (int bit = 0; bit < 8; bit++)
            rest = rest >> 1 ^ (rest % 2 != 0 ? UINT32_C(0xEDB88320) : 0);
    }
    return ~rest;
}
