/* Units of both flows over one stream socket. Each unit has its length in front, two bytes, high byte first; the top bit of the length
 * says that the unit is expedited, as a bit of SNA's transmission header does, for the unit's own bytes do not say it. The flows are two
 * lines: within each the units keep their order, and an expedited unit waits neither behind normal ones that are still to be sent nor
 * behind those that have come and cannot be taken yet. Only line_wait waits. */
#ifndef LINE_H
#define LINE_H

#include <stdbool.h>
#include <stddef.h>
#include <stdint.h>

enum flow { NORMAL, EXPEDITED, FLOWS };

enum {
    LINE_LENGTH_BYTES = 2,
    LINE_EXPEDITED_BIT = 0x80, /* in the first byte of the length */
    LINE_LONGEST = 0x7FFF,
    /* Room for the longest unit that a length in front can announce, so that any frame can be received whole. */
    LINE_IN = LINE_LENGTH_BYTES + LINE_LONGEST,
    /* Room for what pacing lets an end have under way, several times over. */
    LINE_OUT = 16384
};

/* The units of one flow that wait to be sent. */
struct line_out {
    uint8_t bytes[LINE_OUT];
    size_t held;
    size_t rest; /* bytes still to go of a unit whose front has gone, 0 for none */
};

struct line {
    int socket;
    bool closed; /* the partner has closed its side, or the socket failed */
    uint8_t in[LINE_IN];
    size_t in_held;
    struct line_out out[FLOWS];
};

/* False if the socket cannot be used. */
bool line_open(struct line *line, int socket);

/* Receives what has come. True if anything has. */
bool line_receive(struct line *line);

/* The oldest unit of this flow that has come whole, or NULL. It stays until line_drop. */
const uint8_t *line_front(const struct line *line, enum flow flow, size_t *length);
void line_drop(struct line *line, enum flow flow);

/* Puts a unit behind those of its flow that wait to be sent. False if there is no room. */
bool line_put(struct line *line, enum flow flow, const uint8_t *unit, size_t length);

/* Whether anything waits to be sent. */
bool line_unsent(const struct line *line);

/* Sends what the socket takes now. */
void line_send(struct line *line);

/* Waits until something has come, until the socket takes what waits to be sent, or until so many milliseconds have passed. False
 * if the socket cannot be waited for. */
bool line_wait(struct line *line, int64_t milliseconds);

#endif
