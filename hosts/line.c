#include "line.h"

#include <errno.h>
#include <fcntl.h>
#include <limits.h>
#include <poll.h>
#include <string.h>
#include <sys/socket.h>

bool line_open(struct line *line, int socket)
{
    int flags = fcntl(socket, F_GETFL);
    line->socket = socket;
    line->closed = false;
    line->in_held = 0;
    for (size_t i = 0; i < FLOWS; i++)
        line->out[i].held = line->out[i].rest = 0;
    return flags >= 0 && fcntl(socket, F_SETFL, flags | O_NONBLOCK) >= 0;
}

static bool not_now(void)
{
    return errno == EAGAIN || errno == EWOULDBLOCK || errno == EINTR;
}

bool line_receive(struct line *line)
{
    size_t room = sizeof line->in - line->in_held;
    if (line->closed || room == 0)
        return false;
    ssize_t came = recv(line->socket, line->in + line->in_held, room, 0);
    if (came > 0) {
        line->in_held += (size_t)came;
        return true;
    }
    if (came == 0 || !not_now()) {
        line->closed = true;
        return true;
    }
    return false;
}

/* The length of the unit that a length in front announces. */
static size_t announced(const uint8_t *frame)
{
    return (frame[0] % (size_t)LINE_EXPEDITED_BIT) * 256 + frame[1];
}

static enum flow flow_of(const uint8_t *frame)
{
    return frame[0] >= LINE_EXPEDITED_BIT ? EXPEDITED : NORMAL;
}

/* Where the oldest whole frame of this flow begins in what has come. False if there is none. */
static bool find(const struct line *line, enum flow flow, size_t *at)
{
    for (*at = 0; line->in_held - *at >= LINE_LENGTH_BYTES; *at += LINE_LENGTH_BYTES + announced(line->in + *at)) {
        if (line->in_held - *at - LINE_LENGTH_BYTES < announced(line->in + *at))
            return false;
        if (flow_of(line->in + *at) == flow)
            return true;
    }
    return false;
}

const uint8_t *line_front(const struct line *line, enum flow flow, size_t *length)
{
    size_t at;
    if (!find(line, flow, &at))
        return NULL;
    *length = announced(line->in + at);
    return line->in + at + LINE_LENGTH_BYTES;
}

void line_drop(struct line *line, enum flow flow)
{
    size_t at;
    if (!find(line, flow, &at))
        return;
    size_t frame = LINE_LENGTH_BYTES + announced(line->in + at);
    line->in_held -= frame;
    memmove(line->in + at, line->in + at + frame, line->in_held - at);
}

bool line_put(struct line *line, enum flow flow, const uint8_t *unit, size_t length)
{
    struct line_out *out = &line->out[flow];
    if (length > LINE_LONGEST || sizeof out->bytes - out->held < LINE_LENGTH_BYTES + length)
        return false;
    uint8_t *frame = out->bytes + out->held;
    frame[0] = (uint8_t)(length / 256 + (flow == EXPEDITED ? LINE_EXPEDITED_BIT : 0));
    frame[1] = (uint8_t)(length % 256);
    memcpy(frame + LINE_LENGTH_BYTES, unit, length);
    out->held += LINE_LENGTH_BYTES + length;
    return true;
}

bool line_unsent(const struct line *line)
{
    return line->out[NORMAL].held > 0 || line->out[EXPEDITED].held > 0;
}

/* The flow whose turn it is to be sent: that of a unit whose front has gone, then the expedited one. */
static struct line_out *next_out(struct line *line)
{
    if (line->out[NORMAL].rest > 0 || line->out[EXPEDITED].held == 0)
        return &line->out[NORMAL];
    return &line->out[EXPEDITED];
}

/* Nothing more goes to a partner that has gone. */
static void give_up(struct line *line)
{
    for (size_t i = 0; i < FLOWS; i++)
        line->out[i].held = line->out[i].rest = 0;
}

/* Sends unit by unit, so that an expedited unit overtakes all but the one under way. */
void line_send(struct line *line)
{
    while (line_unsent(line)) {
        struct line_out *out = next_out(line);
        size_t frame = out->rest > 0 ? out->rest : LINE_LENGTH_BYTES + announced(out->bytes);
        /* A unit may be there only in part, to show what a partner makes of that. */
        if (frame > out->held)
            frame = out->held;
        /* Without MSG_NOSIGNAL a partner that has gone would end this process before it can say so. */
        ssize_t gone = send(line->socket, out->bytes, frame, MSG_NOSIGNAL);
        if (gone < 0) {
            /* What the partner sent before it went can still be received, so `closed` is left to line_receive. */
            if (!not_now())
                give_up(line);
            return;
        }
        out->held -= (size_t)gone;
        out->rest = frame - (size_t)gone;
        memmove(out->bytes, out->bytes + gone, out->held);
    }
}

bool line_wait(struct line *line, int64_t milliseconds)
{
    struct pollfd one = {.fd = line->socket, .events = POLLIN, .revents = 0};
    if (line_unsent(line))
        one.events |= POLLOUT;
    int most = milliseconds < 0 ? 0 : milliseconds > INT_MAX ? INT_MAX : (int)milliseconds;
    /* An interrupted wait is no fault: the caller looks at the line again. */
    return poll(&one, 1, most) >= 0 || errno == EINTR;
}
