/* The two programs, and the records that they exchange. Every record is LL, one byte that says its kind, text of printable ASCII
 * characters, and the CRC-32 of kind and text as eight hexadecimal digits; what does not fit is refused, never cut.
 *
 *   Q  blender: asks for the table of a campaign; the text is its name and, if the table is not to begin with its first batch, the
 *      number of the batch with which it is to begin
 *   A  laboratory: announces the table; the text is the campaign's name and the number of rows
 *   H  laboratory, the first part of a table: how many parts a row has, then the columns: name, part of the row (counted from 1),
 *      offset in that part's text, and width of each
 *   R  laboratory, the other parts of a table: one part of a row; the text is the row's number and the part's, both counted from 1,
 *      and the values of that part, each in its column
 *   B  laboratory, the last part of a table that is broken off because the blender requests the turn; the text is the numbers of the
 *      row and the part that would have come next
 *   N  laboratory: a batch card, which revises a figure; the text is the batch, the column and the figure
 *   Z  laboratory: there will be no more revised figures; the text is how many there were
 *
 * The laboratory asks for the confirmation of each N and Z. The blender does not confirm a card whose figure cannot be: it refuses, sends
 * the error header and gives the turn, and the laboratory sends the card again, corrected.
 *
 * The numbers of a campaign's batches are known beforehand: the campaign's letters and digits, and the place of the batch. A blender
 * that finds another number in a row requests the turn while the laboratory still sends, and drops what follows of the table. The
 * laboratory, told of it, finishes the part that it has begun, breaks the table off with B and gives the turn, and the blender asks again,
 * from the batch that it missed. If the table was given to its end meanwhile, the laboratory gives the turn behind it; and if the
 * conversation was over by then, nothing is left to be given, and the blender asks in one of its own. It asks for nothing before its
 * signal has been answered, so no signal reaches the laboratory in a later table than that for which it was made.
 *
 * A table is one H and, row by row, all parts of its rows, or a front of them and B. Each part but the last has the top bit of LL on; the
 * last has it off. Every other record stands alone and has it off. So of each record it is known what the bit must be, and no check
 * needs to cover it.
 *
 * Numbers are decimal; words are parted by blanks. CRC, counts and the numbers of row and part are there because units carry none of
 * them: a unit that is cut on the line may join the front of one record to the back of another, or leave out a record as a whole, and
 * one taken for the last of its conversation may leave fewer records than were sent. */
#ifndef PROGRAMS_H
#define PROGRAMS_H

#include <stdbool.h>
#include <stdint.h>

enum {
    RECORD_QUERY = 'Q',
    RECORD_ANNOUNCEMENT = 'A',
    RECORD_COLUMNS = 'H',
    RECORD_ROW = 'R',
    RECORD_BROKEN_OFF = 'B',
    RECORD_REVISED = 'N',
    RECORD_LAST_REVISED = 'Z',
    /* LL and the kind. */
    RECORD_TEXT_AT = 3,
    RECORD_CHECK_DIGITS = 8
};

/* What the numbers in the records may be at most. */
enum { MOST_ROWS = 9999, MOST_PARTS = 99 };

/* How the laboratory misbehaves, in the middle of its second table; `--forever` and `--dropped` at its end. */
enum fault {
    FAULT_NONE,
    FAULT_GARBAGE, /* it sends bytes that are no unit */
    FAULT_SHORT,   /* it sends a unit of three bytes */
    FAULT_GONE,    /* it goes away in the middle of a record */
    FAULT_SILENT,  /* it stays, and says nothing more */
    FAULT_EARLY,   /* a part says that no other follows, and others do */
    FAULT_FOREVER, /* the last part says that another follows, and none does */
    FAULT_DROPPED  /* the blender's confirmation of the table is lost on the line */
};

enum { DEFAULT_LIMIT_MS = 10000, DEFAULT_PAUSE_MS = 20, LONGEST_MS = 86400000 };

struct options {
    enum fault fault;
    bool counts;      /* print what was counted to standard error */
    int64_t limit_ms; /* how long a conversation may stand still before it is given up */
    int64_t pause_ms; /* how long after a refused bid no other is made */
};

/* Each runs on its side of the socket pair, and gives the exit status. */
int laboratory(int socket, const struct options *options);
int blender(int socket, const struct options *options);

#endif
