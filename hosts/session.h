/* One end of the session with the buffers lent to it, its line and its time limit: what laboratory and blender have in common. */
#ifndef SESSION_H
#define SESSION_H

#include "line.h"
#include "lu62_end.h"
#include "programs.h"
#include "text.h"

enum {
    /* What the laboratory sends: little units, so that most records are cut. The byte says 12 times 2 to the power of 2. */
    LABORATORY_WINDOW = 3,
    LABORATORY_MAXIMUM = 48,
    LABORATORY_SIZE_BYTE = 0xC2,
    /* What the blender sends. The byte says 8 times 2 to the power of 1. */
    BLENDER_WINDOW = 2,
    BLENDER_MAXIMUM = 16,
    BLENDER_SIZE_BYTE = 0x81,
    LARGEST_MAXIMUM = 48,
    SMALLEST_MAXIMUM = 16,
    LARGEST_INBOX = LU62_INBOX(3, 48)
};

/* A record being read. Its bytes begin with LL. */
struct record {
    uint8_t bytes[LU62_RECORD_MOST];
    size_t length;
    bool more; /* of a whole record: it is a part that another part follows */
};

/* A record being given, piece by piece as credit allows. */
struct outgoing {
    uint8_t bytes[LU62_RECORD_MOST];
    size_t length;
    size_t given;
};

/* What one read found. */
enum reading { READ_NOTHING, READ_PIECE, READ_RECORD, READ_MARK };

struct session {
    const char *name;    /* this program, for messages */
    const char *partner; /* the other one */
    bool failed;         /* the conversation was ended for a fault, and a message said so */
    bool breach;         /* a unit was refused; the records before it are still to be read */
    enum flow breach_flow;
    struct lu62_answer breach_answer;
    struct line line;
    struct record record;
    bool record_whole; /* the record has been read to its end */
    size_t pieces;     /* pieces given so far; makes the lengths of pieces differ */
    int64_t limit_ms, pause_ms;
    int64_t moved_at;          /* when the conversation last got on */
    int64_t bid_from;          /* when the next bid may be made */
    unsigned long bids_in_vain; /* bids of this end refused since the conversation last got on */
    bool lose_confirmation;    /* a fault to be shown: the next confirmation is lost on the line */
    bool unconfirmed;          /* the partner has refused to confirm; the program that asked puts it off again */
    unsigned long told;        /* how often the partner has requested the turn; the program that gives it takes them off again */
    /* Counts for --counts. */
    unsigned long units_made, units_taken, bids_refused, waits_for_credit, pacing_responses, signals_taken;
    struct lu62_end end;
    uint8_t send[LARGEST_MAXIMUM];
    uint8_t unit[LU62_UNIT(LARGEST_MAXIMUM)];
    uint8_t inbox[LARGEST_INBOX];
};

/* Opens the session of one program on its side of the socket pair. False, with a message, if that fails. */
bool session_open_laboratory(struct session *session, int socket, const struct options *options);
bool session_open_blender(struct session *session, int socket, const struct options *options);

/* The calls that make units. Each puts its unit on the line and gives the refusal number. WRONG_STATE and NO_CREDIT mean 'not
 * now'; for any other refusal the conversation is ended with a message. An allocate within the pause after a refused bid is
 * answered WRONG_STATE without a call. */
uint32_t session_allocate(struct session *session);
uint32_t session_flush(struct session *session);
uint32_t session_confirm(struct session *session);
uint32_t session_end(struct session *session, bool confirm);
uint32_t session_confirmed(struct session *session);

/* Refuses the confirmation that is owed, document 02's way to say that a batch card is wrong. Flush must then send the error header. */
uint32_t session_deny(struct session *session);

/* Requests the turn from a partner that sends. The signal overtakes what is on the line, and no state changes; what the partner sends
 * until it gives the turn is still to be read. Until the signal has been answered no other may be made. */
uint32_t session_request_turn(struct session *session);

/* Gives the turn at once, without confirmation. */
uint32_t session_turn(struct session *session);

/* Prepares the turn: nothing goes yet. Flush or confirm then gives it, without or with confirmation. Refused as the calls above. */
uint32_t session_prepare_turn(struct session *session);

/* Begins a record of this kind and text, with LL before and the check behind them; `more` if it is a part that another part follows.
 * False, with a message, if the text does not fit. */
bool session_set(struct session *session, struct outgoing *record, char kind, struct text text, bool more);

/* Gives as much of the record as credit allows. True if all of it has been given. */
bool session_give(struct session *session, struct outgoing *record);

/* Reads once. With READ_RECORD, session->record holds a whole record with a check that fits, and the next read begins another; with
 * READ_MARK, session->end.answer.mark is the mark. */
enum reading session_read(struct session *session);

/* The kind of the record that has been read, and its text. */
uint8_t record_kind(const struct record *record);
struct text record_text(const struct record *record);

/* What a program does when it has its turn to run. True if it did anything: then it is run again before the line is waited for. */
typedef bool session_step(void *program);

/* Runs a program until `*done`, until a fault, until the partner closes the line, or until nothing has got on for the time limit.
 * True if there was no fault. */
bool session_run(struct session *session, session_step *step, void *program, const bool *done);

/* Prints to standard output, and sees that it has been written; if not, the conversation is ended with a message. */
__attribute__((format(printf, 2, 3))) bool session_print(struct session *session, const char *format, ...);

/* Ends the conversation for a fault and says what it was. Only the first fault of a session is told. */
__attribute__((format(printf, 2, 3))) void session_fail(struct session *session, const char *format, ...);

/* The same for a call that was refused: with its refusal number, its sense and, for a header, the rule. */
void session_refused(struct session *session, const char *what, const struct lu62_answer *answer);

void session_print_counts(const struct session *session);

#endif
