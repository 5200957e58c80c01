/* The test as partner of laboratory or blender, which runs in a process of its own: what both its roles do alike. */
#ifndef PARTNER_H
#define PARTNER_H

#include "../../hosts/session.h"
#include "child.h"

/* The time limit where it is to be reached, and where it is not, on a machine that does other work too. */
enum { LIMIT_MS = 400, LONG_LIMIT_MS = 5000, PATIENCE_MS = 10000 };

#define HALF "only part of a unit has come, and nothing got on for 400 ms"
#define LABORATORY_SAYS(what) "laboratory: conversation with the blender ended: " what "\n"
#define SAYS(what) "blender: conversation with the laboratory ended: " what "\n"
#define ALL_CAME SAYS("it has gone before everything was answered")

#define HEADINGS "campaign MARINE-05\nbatch       viscosity    sulphur\n"
#define GOOD_COLUMNS "1 batch 1 8 8 viscosity 1 16 8 sulphur 1 24 8"
#define GOOD_ROW "   1  1 MA-0501 179.2   0.093   "
#define GOOD_LINE "MA-0501         179.2      0.093\n"

/* A record to be sent: its kind and text, whether it says that another part follows, and the text's length where it has a zero byte in
 * it. A kind of WRONG_CHECK is sent as a row whose check does not fit. */
enum { WRONG_CHECK = 1 };

struct odd {
    char kind;
    const char *text;
    bool more;
    size_t length;
};

/* A record that stands alone or ends its table, and a part that another follows. */
#define LAST(kind, text) {kind, text, false, 0}
#define PART(kind, text) {kind, text, true, 0}

/* Counts a difference and tells of it, if this is not good. */
extern int failures;
void expect(bool good, const char *name, const char *what, const struct child *child);

/* Starts a program at one end of a line of its own, and hands back the other end. */
int started(struct child *child, child_program *program, const struct options *options);

/* Makes a pacing response if one is due. */
void pace(struct session *session);

/* Whether expedited units are left on the line. Else each is taken as soon as it has come, and answered if it is a signal. */
extern bool deaf;

/* Waits at most so long, if no unit is there that a mark held back, receives what comes and takes what may be taken. `taken` counts the
 * normal units but pacing responses. False if the line is at its end. */
bool take_what_comes(struct session *session, int64_t most_ms, size_t *taken);

/* Sends what waits and receives what comes, once. False if the line is at its end. */
bool exchange_once(struct session *session);

/* Reads whatever has come until this end may send: for a table, the blender's query and its turn. */
bool come_to_send(struct session *session, bool revision);

/* Reads the laboratory's first revised figure, confirms it, and bids until the laboratory lets this end send. */
bool come_to_ask(struct session *session);

/* Reads until this end owes a confirmation. */
bool come_to_owe(struct session *session);

/* Gives a record, as credit allows. False if the line is at its end before. */
bool give(struct session *session, const struct odd *odd);

/* Flushes when there is credit. False if the line is at its end before. */
bool flushed(struct session *session);

#endif
