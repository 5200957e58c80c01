/* One end of a basic conversation of LU type 6.2, for hosts in C and C++.
 *
 * Platform   x86-64 Linux, gcc or clang; the archive liblu62.a needs nothing else, not even the C library.
 * Compile    gcc -std=c11 -Iinclude program.c target/staticlib/liblu62.a
 *            (from an unpacked package: gcc -std=c11 -Iinclude program.c lib/liblu62.a, or what pkg-config says of lu62)
 * Threads    the library keeps nothing between calls and has no memory of its own. Calls on different images may be made at the
 *            same time by different threads; calls on one image, or that are lent one buffer, must come one after the other.
 *            Nothing is allocated and no call waits.
 *
 * The end's record lies in an image of LU62_IMAGE bytes that the host keeps. Every call reads the image, does its work and
 * writes the new record back. The host also lends the buffers that the call uses:
 *
 *   send    bytes given and not yet sent: at least the sending maximum M
 *   unit    where a call writes the unit it makes: at least LU62_UNIT(M), with the sending M
 *   inbox   bytes taken and not yet read: exactly as long as at opening, at least LU62_INBOX(W, M) of the receiving side and
 *           at most LU62_INBOX_MOST
 *
 * Between calls nobody else may write to image, send or inbox. The unit buffer is free as soon as its unit has been copied away.
 *
 * Every pointer must point to as many bytes as the length after it says, and must not be null, even where the length is 0.
 * No two buffers of one call may overlap, and none may overlap `answer`: a call with send == unit, say, is accepted, and its
 * unit carries wrong bytes. lu62_end.h has an end with its buffers in one struct, calls with one argument, and assertions that
 * the buffers lie apart.
 *
 * A call returns its refusal number, LU62_ACCEPTED or one of the numbers below, and writes the whole answer to `answer`.
 * A refused call changes nothing but `answer`; the two openings, lu62_open and lu62_open_bind, alone write an image when they refuse,
 * if it is LU62_IMAGE bytes long: LU62_FORMAT and zeros, which every call refuses. If several refusals fit, the answer is the first in
 * the order in which they are listed at the call. Every call on an image but the openings also refuses, before all else, one of a wrong
 * length (LU62_BAD_BUFFER), then one of another format or with a code or flag that no record has (LU62_BAD_RECORD).
 *
 * If `answer->unit` is not 0, a unit of that many bytes stands at the front of the unit buffer. The host must carry it to the
 * partner, on one of two lines:
 *
 *   expedited  units made by lu62_request_to_send and lu62_receive_expedited, to the partner's lu62_receive_expedited
 *   normal     units made by all other calls, to the partner's lu62_receive_unit
 *
 * On each line a unit is carried after all that were made before it and before all made later. The two lines keep no order between
 * them: expedited units may overtake normal ones, and should, since the partner is to hear of them while it sends. No expedited unit
 * costs or waits for credit, and each is taken in any state. The bytes do not say which line a unit belongs to: CB 80 00 is a header on
 * both. So a host with one connection must say it of each unit that it carries. */
#ifndef LU62_H
#define LU62_H

#include <stddef.h>
#include <stdint.h>

#ifdef __cplusplus
extern "C" {
#endif

/* The version of this interface, and of archive and crate that belong to it; and an image's first byte, which is raised with each
 * change of what an image holds. An image kept by a library of another format is refused, and not misread: with BAD_BUFFER if
 * its length is another too, else with BAD_RECORD. Version 0.4.0 has two states more and the format of 0.3.0: it takes up the images
 * of 0.3.0, which refuses an image in one of the new states with BAD_RECORD. Version 0.5.0 has format 4, whose images are a
 * byte longer, and version 0.6.0 format 5, whose images are five bytes longer again: each refuses an image of an older library with
 * BAD_BUFFER, by its length, and so the other way round. Version 0.7.0 has the format of 0.6.0. */
#define LU62_VERSION "0.7.0"
#define LU62_FORMAT 5

/* Sizes, in bytes. W is a window, 1 to 63; M is a maximum RU, 8 to 1,024. */
#define LU62_IMAGE 48
#define LU62_UNIT(m) ((m) + 5)
#define LU62_INBOX(w, m) ((w) * (m))
#define LU62_INBOX_MOST 65535

/* Limits of a session's windows and maximum RUs. */
#define LU62_WINDOW_LEAST 1
#define LU62_WINDOW_MOST 63
#define LU62_MAXIMUM_LEAST 8
#define LU62_MAXIMUM_MOST 1024

/* A logical record begins with LL, two bytes, high byte first. The top bit of LL says that another part follows: a table may be sent
 * as several logical records, its parts, each but the last with this bit on. The other 15 bits are the record's length, LL counted. */
#define LU62_RECORD_LEAST 2
#define LU62_RECORD_MOST 32767
#define LU62_MORE_FOLLOWS 0x8000

/* Roles. One end of a session is the first speaker, the other is the bidder. */
#define LU62_FIRST_SPEAKER 0
#define LU62_BIDDER 1

/* Refusals of a call by this host's own doing, or because it is not yet the time for the call. */
#define LU62_ACCEPTED 0
#define LU62_BAD_ROLE 1           /* the role is neither of the two */
#define LU62_BAD_WINDOW 2         /* a window is out of range */
#define LU62_BAD_MAXIMUM 3        /* a maximum RU is out of range */
#define LU62_BAD_BUFFER 4         /* image, send, unit or inbox has a wrong length */
#define LU62_BAD_RECORD 5         /* the image holds no record that calls can leave */
#define LU62_BAD_LENGTH 6         /* no bytes or more than M given; an empty buffer to read into */
#define LU62_WRONG_STATE 7        /* the state, a bid under way or an error due does not allow the call */
#define LU62_BAD_LL 8             /* a logical record's length, LL without its top bit, is under 2 */
#define LU62_UNFINISHED_RECORD 9  /* the last record given is not whole, or says that another part follows */
#define LU62_NO_CREDIT 10         /* a request must go and the partner has not made room for it */
#define LU62_NOTHING_TO_PACE 11   /* no pacing response is owed, or the inbox has no room for a window yet */
#define LU62_NOTHING_TO_READ 12   /* no byte is held and no mark stands */
#define LU62_UNREAD_MARK 13       /* a mark stands: read up to it before the next unit is taken */

/* Refusals of lu62_receive_unit and lu62_receive_expedited: the partner's unit breaks the protocol. */
#define LU62_SHORT_UNIT 20        /* under 5 bytes */
#define LU62_BAD_HEADER 21        /* the header breaks rules of H1 to H6 below, by its line; `rule` is the lowest of them */
#define LU62_BAD_RU 22            /* the RU does not fit the header, or is too long */
#define LU62_BAD_NUMBER 23        /* not the next sequence number of its line */
#define LU62_BAD_CHAIN 24         /* first in chain, or an error header, where a chain is open; or the reverse */
#define LU62_BAD_BRACKET 25       /* begin bracket where none may begin, or missing where one must; a bid to a bidder */
#define LU62_BAD_STATE 26         /* data, or an error header, where this end does not receive */
#define LU62_BAD_PACING 27        /* more requests than the window allows, a wrong pacing bit, a pacing response unasked */
#define LU62_BAD_RESPONSE 28      /* a response, a confirmation's refusal too, to nothing that this end has asked */
#define LU62_BAD_RECORDS 29       /* a bad LL; or, at a mark, also error, a record that is not whole or says that another part follows */

/* A refusal number from the first to the last of these is a breach of protocol by the partner. */
#define LU62_FIRST_BREACH LU62_SHORT_UNIT
#define LU62_LAST_BREACH LU62_BAD_RECORDS

/* Refusal of lu62_request_to_send; no breach. */
#define LU62_SIGNAL_UNANSWERED 30 /* the partner has not answered the signal that this end made last */

/* Refusal of lu62_size_byte; no breach. */
#define LU62_NO_SIZE_BYTE 31      /* the maximum RU is in range, and no size byte means it */

/* The rules of a header, the three bytes behind the number. Bytes are in hexadecimal; data has a byte 0 of 00 to 03. Of a normal unit:
 *   H1  byte 0 is 00, 01 (last in chain), 02 (first), 03 (first and last), 0B, 4B, 83, 87, CB or CF
 *   H2  not data: the header is 0B 90 00, 0B 91 00, 4B 80 80, 4B 81 80, 83 01 00, 83 20 00, 87 30 00, CB 80 00 or CF 90 00
 *   H3  data: byte 1 is 90 or 91, or 20 or 21, which request a confirmation
 *   H4  data: only the last in a chain requests a confirmation
 *   H5  data: byte 2 is 00, 01, 20, 80, 81 or A0
 *   H6  data: weight 80 of byte 2 only on the first in a chain, weights 20 and 01 only on the last
 * Of an expedited unit, a signal or the answer to one:
 *   H1  byte 0 is 4B or CB
 *   H2  the header is 4B 80 00 or CB 80 00 */

/* Marks: what a unit says after its bytes. lu62_receive answers the mark when all bytes before it have been read. Where lu62_confirmed
 * is due, lu62_send_error refuses to confirm. */
#define LU62_MARK_NONE 0
#define LU62_MARK_TURN 1          /* this end sends now */
#define LU62_MARK_END 2           /* the conversation is over */
#define LU62_MARK_CONFIRM 3       /* lu62_confirmed is due; then this end receives on */
#define LU62_MARK_CONFIRM_TURN 4  /* lu62_confirmed is due; then this end sends */
#define LU62_MARK_CONFIRM_END 5   /* lu62_confirmed is due; then the conversation is over */
#define LU62_MARK_ERROR 6         /* the partner has refused the confirmation that this end asked for; this end receives on */

/* States, as lu62_state gives them. */
#define LU62_RESET 0              /* no conversation */
#define LU62_SEND 1               /* this end sends; first the error header, if it is due */
#define LU62_RECEIVE 2            /* this end receives */
#define LU62_CONFIRM_OWED 3       /* this end must call lu62_confirmed, or lu62_send_error where it cannot confirm */
#define LU62_CONFIRM_AWAITED 4    /* this end waits for the partner's confirmation, or its refusal */
#define LU62_DEFER_TURN 5         /* Defer: a turn is prepared, to be carried out or withdrawn */
#define LU62_DEFER_END 6          /* Defer: an end is prepared, to be carried out or withdrawn */

/* What a call answers. A refusal has zeros in the last six fields. */
struct lu62_answer {
    uint32_t refusal;   /* LU62_ACCEPTED, or the number of the refusal */
    uint32_t sense;     /* sense data of the refusal, 0 where it has none */
    uint32_t rule;      /* 1 to 6 for H1 to H6 with LU62_BAD_HEADER, else 0 */
    uint32_t unit;      /* length of the unit made, 0 for none */
    uint32_t copied;    /* lu62_receive: bytes copied to the caller's buffer */
    uint32_t complete;  /* lu62_receive: 1 if the last byte copied ends a logical record, else 0 */
    uint32_t more;      /* lu62_receive: 1 if that record is a part that another part follows, else 0; 0 unless complete */
    uint32_t mark;      /* lu62_receive: the mark answered, LU62_MARK_NONE for none */
    uint32_t signalled; /* lu62_receive_expedited: 1 if the partner requests the turn, else 0 */
};

/* Opens a session: writes the record of an end in LU62_RESET to `image`, whatever it held. `out_window` and `out_max` are W and M
 * of what this end sends, `in_window` and `in_max` of what it receives; the partner must be opened with these exchanged and with
 * the other role. The three lengths are those of the buffers that later calls will be lent; no buffer is touched here.
 * Refusals: BAD_BUFFER for the image (which is then left as it was), BAD_ROLE, BAD_WINDOW, BAD_MAXIMUM, BAD_BUFFER. */
uint32_t lu62_open(uint8_t role, uint8_t out_window, uint8_t in_window, uint32_t out_max, uint32_t in_max,
                   size_t send_length, size_t unit_length, size_t inbox_length,
                   uint8_t *image, size_t image_length, struct lu62_answer *answer);

/* Opens a session as lu62_open does, by the bytes with which it starts, as they stand in BIND: a window byte and a size byte for each
 * direction. W is the low six bits of a window byte; its two high bits are ignored. A size byte has a mantissa a, its high four bits, 8 to
 * 15, and an exponent b, its low four, and means an M of a times 2 to the power of b: 0x85 is 256 and 0x87 is 1,024. Opened either way
 * with equal numbers it is the same end, and the image has the same bytes.
 * In BIND a window of 0 asks for no pacing; here it is refused, as is a size byte whose mantissa is below 8.
 * Refusals: BAD_BUFFER for the image (which is then left as it was), BAD_ROLE, BAD_WINDOW, BAD_MAXIMUM, BAD_BUFFER. */
uint32_t lu62_open_bind(uint8_t role, uint8_t out_window, uint8_t in_window, uint8_t out_size, uint8_t in_size,
                        size_t send_length, size_t unit_length, size_t inbox_length,
                        uint8_t *image, size_t image_length, struct lu62_answer *answer);

/* The size byte of a maximum RU, to `*byte`. Of the maxima from 8 to 1,024 only 57 have one. Refused, `*byte` is 0, which means no size.
 * It is no call on an end: it has no image and no `answer`. Refusals: BAD_MAXIMUM, NO_SIZE_BYTE. */
uint32_t lu62_size_byte(uint32_t max, uint8_t *byte);

/* Begins a conversation. A first speaker is in LU62_SEND at once and no unit is made. A bidder makes a bid and must wait: the
 * partner's answer puts it in LU62_SEND, or leaves it where it is, and then it may ask again.
 * Lent: unit. Refusals: BAD_BUFFER, BAD_RECORD, WRONG_STATE, NO_CREDIT (bidder only). */
uint32_t lu62_allocate(uint8_t *image, size_t image_length, uint8_t *unit, size_t unit_length, struct lu62_answer *answer);

/* Gives 1 to M bytes of logical records to be sent. They need not begin or end where a record does. They are kept in `send` until
 * it is over-full; then one unit of M bytes is made.
 * A record's length is asked when its second byte is given. A first LL byte alone is accepted, whatever it is, and some second byte
 * can follow it: the record under way can always be completed.
 * Lent: the bytes (only read), send, unit. Refusals: BAD_BUFFER, BAD_RECORD, BAD_LENGTH, WRONG_STATE, BAD_LL, NO_CREDIT (only
 * where a unit must go; give the same bytes again when a pacing response has been taken). */
uint32_t lu62_send_data(uint8_t *image, size_t image_length, const uint8_t *bytes, size_t bytes_length,
                        uint8_t *send, size_t send_length, uint8_t *unit, size_t unit_length, struct lu62_answer *answer);

/* Sends the bytes kept in `send`, if any, without waiting for more. The record need not be whole, and another part may follow it.
 * In Defer it carries out the turn or end that is prepared, as lu62_prepare_to_receive or lu62_deallocate with `confirm` 0 would: a
 * unit always goes.
 * While an error is due it makes the error header, a request as data is, and no error is due then; see lu62_send_error.
 * Lent: send (only read), unit. Refusals: BAD_BUFFER, BAD_RECORD, WRONG_STATE, UNFINISHED_RECORD (only in Defer, with an image that
 * calls cannot leave), NO_CREDIT (only if bytes are kept, in Defer, or with an error due). */
uint32_t lu62_flush(uint8_t *image, size_t image_length, const uint8_t *send, size_t send_length,
                    uint8_t *unit, size_t unit_length, struct lu62_answer *answer);

/* Sends the bytes kept and asks the partner to confirm that it has read everything. This end is then in LU62_CONFIRM_AWAITED, and
 * in LU62_SEND again when the confirmation has been taken. The partner may refuse to confirm, here and wherever a confirmation is
 * asked for: when the refusal has been taken this end is in LU62_RECEIVE, whatever was to follow, the partner sends, and what it
 * sends first is the error header, of which lu62_receive answers LU62_MARK_ERROR.
 * In Defer it carries out the turn or end that is prepared, as lu62_prepare_to_receive or lu62_deallocate with `confirm` 1 would.
 * Lent: send (only read), unit. Refusals: BAD_BUFFER, BAD_RECORD, WRONG_STATE, UNFINISHED_RECORD, NO_CREDIT. */
uint32_t lu62_confirm(uint8_t *image, size_t image_length, const uint8_t *send, size_t send_length,
                      uint8_t *unit, size_t unit_length, struct lu62_answer *answer);

/* Sends the bytes kept and gives the turn to the partner: this end receives, at once if `confirm` is 0, else when the partner's
 * confirmation has been taken.
 * Lent: send (only read), unit. Refusals: BAD_BUFFER, BAD_RECORD, WRONG_STATE, UNFINISHED_RECORD, NO_CREDIT. */
uint32_t lu62_prepare_to_receive(uint8_t *image, size_t image_length, uint8_t confirm, const uint8_t *send, size_t send_length,
                                 uint8_t *unit, size_t unit_length, struct lu62_answer *answer);

/* Sends the bytes kept and ends the conversation, at once if `confirm` is 0, else when the partner's confirmation has been taken.
 * Lent: send (only read), unit. Refusals: BAD_BUFFER, BAD_RECORD, WRONG_STATE, UNFINISHED_RECORD, NO_CREDIT. */
uint32_t lu62_deallocate(uint8_t *image, size_t image_length, uint8_t confirm, const uint8_t *send, size_t send_length,
                         uint8_t *unit, size_t unit_length, struct lu62_answer *answer);

/* Prepares a turn, or an end, where it is not yet known whether it is to go with a confirmation: in LU62_SEND, with the last record
 * whole. It is only noted: no unit is made, and the bytes kept stay kept. This end is then in Defer, LU62_DEFER_TURN or
 * LU62_DEFER_END, until lu62_flush or lu62_confirm carries the turn or end out, or lu62_withdraw drops it. Refused with NO_CREDIT,
 * flush and confirm leave this end in Defer: take a pacing response and make the call again. Units of both lines are taken, bytes read
 * and pacing responses made in Defer as in LU62_SEND; of the other calls none but the openings is accepted there (WRONG_STATE).
 * Lent: nothing. Refusals: BAD_RECORD, WRONG_STATE, UNFINISHED_RECORD. */
uint32_t lu62_defer_turn(uint8_t *image, size_t image_length, struct lu62_answer *answer);
uint32_t lu62_defer_end(uint8_t *image, size_t image_length, struct lu62_answer *answer);

/* Withdraws the turn or end that is prepared: this end is in LU62_SEND again, with nothing else changed. No unit is made.
 * Lent: nothing. Refusals: BAD_RECORD, WRONG_STATE (nothing is prepared). */
uint32_t lu62_withdraw(uint8_t *image, size_t image_length, struct lu62_answer *answer);

/* Makes the confirmation that the mark last read asks for. What the mark said besides then holds: receive on, send, or the end.
 * Lent: unit. Refusals: BAD_BUFFER, BAD_RECORD, WRONG_STATE. */
uint32_t lu62_confirmed(uint8_t *image, size_t image_length, uint8_t *unit, size_t unit_length, struct lu62_answer *answer);

/* Refuses the confirmation that the mark last read asks for: makes a negative response to the unit that asked for it. This end is
 * then in LU62_SEND, whatever the mark said to follow, the partner in LU62_RECEIVE when it has taken the unit, and an error is due:
 * the next request must be the error header, which says the cause to the partner, and lu62_flush makes it. So lu62_flush must
 * follow; refused with NO_CREDIT it leaves the error due: take a pacing response and make the call again. Until it is accepted,
 * lu62_send_data, lu62_confirm, lu62_prepare_to_receive, lu62_deallocate, lu62_defer_turn and lu62_defer_end are WRONG_STATE. Units
 * are taken, bytes read and pacing responses made as before. lu62_error_due says whether an error is due.
 * Lent: unit. Refusals: BAD_BUFFER, BAD_RECORD, WRONG_STATE. */
uint32_t lu62_send_error(uint8_t *image, size_t image_length, uint8_t *unit, size_t unit_length, struct lu62_answer *answer);

/* Requests the turn from the partner while this end receives, or owes a confirmation: makes a signal, an expedited unit. No state
 * changes at either end; the partner's program is told by `signalled`, once for each signal, and may give the turn or not. The next
 * signal can be made when the answer to this one has been taken by lu62_receive_expedited; until then lu62_signal_unanswered gives 1.
 * Lent: unit. Refusals: BAD_BUFFER, BAD_RECORD, WRONG_STATE, SIGNAL_UNANSWERED. */
uint32_t lu62_request_to_send(uint8_t *image, size_t image_length, uint8_t *unit, size_t unit_length, struct lu62_answer *answer);

/* Makes a pacing response: the partner may send one window more. Without it the partner runs out of credit, so a host calls this
 * whenever it has read; NOTHING_TO_PACE then only says that it is not yet due.
 * Lent: unit. Refusals: BAD_BUFFER, BAD_RECORD, NOTHING_TO_PACE. */
uint32_t lu62_send_pacing_response(uint8_t *image, size_t image_length, uint8_t *unit, size_t unit_length,
                                   struct lu62_answer *answer);

/* Takes one normal unit that the partner made: the oldest that has not been taken. `taken` may hold any bytes. The data in it joins the
 * inbox; the answer to a bid is made as a unit. Of an error header nothing joins the inbox: it leaves LU62_MARK_ERROR.
 * Lent: the unit taken (only read), inbox, unit. Refusals: BAD_BUFFER, BAD_RECORD, UNREAD_MARK (keep the unit, read, take it
 * again), SHORT_UNIT, BAD_HEADER, BAD_RU, BAD_PACING, BAD_NUMBER, BAD_CHAIN, BAD_BRACKET, BAD_STATE, BAD_RECORDS, BAD_RESPONSE. */
uint32_t lu62_receive_unit(uint8_t *image, size_t image_length, const uint8_t *taken, size_t taken_length,
                           uint8_t *inbox, size_t inbox_length, uint8_t *unit, size_t unit_length, struct lu62_answer *answer);

/* Takes one expedited unit that the partner made: the oldest of its line that has not been taken. `taken` may hold any bytes. Of a signal
 * it makes the answer, an expedited unit too, and `signalled` is 1: the partner requests the turn. The answer to this end's own signal
 * makes no unit; the next signal may then be made. It is accepted in every state and under an unread mark, and leaves both.
 * Lent: the unit taken (only read), unit. Refusals: BAD_BUFFER, BAD_RECORD, SHORT_UNIT, BAD_HEADER, BAD_RU, BAD_NUMBER (a signal),
 * BAD_RESPONSE (an answer). */
uint32_t lu62_receive_expedited(uint8_t *image, size_t image_length, const uint8_t *taken, size_t taken_length,
                                uint8_t *unit, size_t unit_length, struct lu62_answer *answer);

/* Reads bytes of the current logical record, its LL included, never past its end, as many as are held and fit `buffer`; or, with
 * all bytes read, the mark. It makes no unit. With `complete` a record, or a part of a table, has been read to its end; `more` says
 * then whether another part follows. A table is whole with the part that is complete and has no `more`; no mark comes before.
 * Lent: inbox, buffer (1 byte or more). Refusals: BAD_BUFFER, BAD_RECORD, BAD_LENGTH, BAD_LL (only if somebody has written to the
 * inbox), NOTHING_TO_READ. */
uint32_t lu62_receive(uint8_t *image, size_t image_length, uint8_t *inbox, size_t inbox_length,
                      uint8_t *buffer, size_t buffer_length, struct lu62_answer *answer);

/* What may be asked of an image that an accepted call has left. */

/* The state, LU62_RESET to LU62_DEFER_END. */
static inline uint32_t lu62_state(const uint8_t *image)
{
    return image[2];
}

/* 1 while a bid of this end, always a bidder, has not been answered, else 0. */
static inline uint32_t lu62_bid_pending(const uint8_t *image)
{
    return image[6];
}

/* 1 while an error is due, from lu62_send_error to the lu62_flush that makes the error header, else 0. */
static inline uint32_t lu62_error_due(const uint8_t *image)
{
    return image[42];
}

/* 1 while a signal of this end has not been answered, from lu62_request_to_send to the take of the answer, else 0. */
static inline uint32_t lu62_signal_unanswered(const uint8_t *image)
{
    return image[43];
}

/* How many bytes the send buffer holds: given, and not yet in a unit. */
static inline uint32_t lu62_send_held(const uint8_t *image)
{
    return image[14] + 256u * image[15];
}

/* How many bytes the inbox holds: taken, and not yet read. */
static inline uint32_t lu62_inbox_held(const uint8_t *image)
{
    return image[28] + 256u * image[29];
}

/* Refusals, states and marks in words, the one table of them for programs and messages. */

static inline const char *lu62_refusal_text(uint32_t refusal)
{
    switch (refusal) {
    case LU62_ACCEPTED: return "accepted";
    case LU62_BAD_ROLE: return "the role is neither first speaker nor bidder";
    case LU62_BAD_WINDOW: return "a window is out of range";
    case LU62_BAD_MAXIMUM: return "a maximum RU is out of range";
    case LU62_BAD_BUFFER: return "a buffer has a wrong length";
    case LU62_BAD_RECORD: return "the end's record is not one that calls can leave";
    case LU62_BAD_LENGTH: return "no bytes, or too many";
    case LU62_WRONG_STATE: return "the state does not allow the call";
    case LU62_BAD_LL: return "a logical record's length is under 2";
    case LU62_UNFINISHED_RECORD: return "the last record given is not whole, or says that another part follows";
    case LU62_NO_CREDIT: return "no credit for a request";
    case LU62_NOTHING_TO_PACE: return "no pacing response is due";
    case LU62_NOTHING_TO_READ: return "nothing to read";
    case LU62_UNREAD_MARK: return "a mark has not been read";
    case LU62_SHORT_UNIT: return "the unit is too short";
    case LU62_BAD_HEADER: return "the header breaks a rule";
    case LU62_BAD_RU: return "the RU does not fit";
    case LU62_BAD_NUMBER: return "the sequence number is not the next";
    case LU62_BAD_CHAIN: return "the unit does not fit the chain";
    case LU62_BAD_BRACKET: return "the unit does not fit the bracket";
    case LU62_BAD_STATE: return "data or an error header came where this end does not receive";
    case LU62_BAD_PACING: return "the unit does not fit the pacing window";
    case LU62_BAD_RESPONSE: return "a response to nothing asked";
    case LU62_BAD_RECORDS: return "a bad record length, or a mark behind a record not whole or with another part to follow";
    case LU62_SIGNAL_UNANSWERED: return "a signal has not been answered";
    case LU62_NO_SIZE_BYTE: return "no size byte means this maximum RU";
    default: return "no refusal has this number";
    }
}

static inline const char *lu62_state_name(uint32_t state)
{
    switch (state) {
    case LU62_RESET: return "Reset";
    case LU62_SEND: return "Send";
    case LU62_RECEIVE: return "Receive";
    case LU62_CONFIRM_OWED: return "ConfirmOwed";
    case LU62_CONFIRM_AWAITED: return "ConfirmAwaited";
    case LU62_DEFER_TURN: return "DeferTurn";
    case LU62_DEFER_END: return "DeferEnd";
    default: return "no state has this number";
    }
}

static inline const char *lu62_mark_name(uint32_t mark)
{
    switch (mark) {
    case LU62_MARK_NONE: return "none";
    case LU62_MARK_TURN: return "turn";
    case LU62_MARK_END: return "end";
    case LU62_MARK_CONFIRM: return "confirm";
    case LU62_MARK_CONFIRM_TURN: return "confirm-turn";
    case LU62_MARK_CONFIRM_END: return "confirm-end";
    case LU62_MARK_ERROR: return "error";
    default: return "no mark has this number";
    }
}

#ifdef __cplusplus
}
#endif

#endif
