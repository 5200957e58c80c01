/* An end with its buffers in one struct, and lu62.h's calls on it: one argument where lu62.h has three to nine. Optional, and
 * inline: it adds nothing to the archive.
 *
 *   struct lu62_end end;
 *   lu62_end_lend(&end, send, sizeof send, unit, sizeof unit, inbox, sizeof inbox);
 *   if (lu62_end_open(&end, &session) != LU62_ACCEPTED)
 *       ..
 *   if (lu62_end_allocate(&end) == LU62_ACCEPTED && end.answer.unit > 0)
 *       carry end.unit, end.answer.unit bytes, to the partner, on the line that lu62.h says
 *
 * Every call asserts that none of its buffers is null and no two overlap; such a call would be accepted and its unit carry wrong
 * bytes. Define LU62_ASSERT(condition) before this header to have another answer to it than assert. With NDEBUG defined, assert
 * does nothing and such a call is made. */
#ifndef LU62_END_H
#define LU62_END_H

#include "lu62.h"

#ifndef LU62_ASSERT
#include <assert.h>
#define LU62_ASSERT(condition) assert(condition)
#endif

#ifdef __cplusplus
extern "C" {
#endif

/* What lu62_open is told of a session. The partner has the other role, and windows and maximum RUs exchanged. */
struct lu62_session {
    uint8_t role;
    uint8_t out_window, in_window;
    uint32_t out_max, in_max;
};

/* The same by the bytes of BIND, for lu62_open_bind: windows and sizes of both directions. */
struct lu62_session_bytes {
    uint8_t role;
    uint8_t out_window, in_window;
    uint8_t out_size, in_size;
};

struct lu62_end {
    uint8_t image[LU62_IMAGE];
    uint8_t *send;
    size_t send_length;
    uint8_t *unit;
    size_t unit_length;
    uint8_t *inbox;
    size_t inbox_length;
    struct lu62_answer answer; /* of the last call */
};

/* Whether two buffers share no byte. */
static inline int lu62_apart(const void *one, size_t one_length, const void *two, size_t two_length)
{
    uintptr_t a = (uintptr_t)one, b = (uintptr_t)two;
    return one_length == 0 || two_length == 0 || (a < b ? b - a >= one_length : a - b >= two_length);
}

/* Whether these bytes, lent for one call, are no part of the end and of its three buffers. */
static inline int lu62_end_apart(const struct lu62_end *end, const void *bytes, size_t length)
{
    return bytes != NULL && lu62_apart(end, sizeof *end, bytes, length) && lu62_apart(end->send, end->send_length, bytes, length) &&
           lu62_apart(end->unit, end->unit_length, bytes, length) && lu62_apart(end->inbox, end->inbox_length, bytes, length);
}

/* Whether the end and its three buffers lie apart. */
static inline int lu62_end_sound(const struct lu62_end *end)
{
    return end->send != NULL && end->unit != NULL && end->inbox != NULL &&
           lu62_apart(end, sizeof *end, end->send, end->send_length) && lu62_apart(end, sizeof *end, end->unit, end->unit_length) &&
           lu62_apart(end, sizeof *end, end->inbox, end->inbox_length) &&
           lu62_apart(end->send, end->send_length, end->unit, end->unit_length) &&
           lu62_apart(end->send, end->send_length, end->inbox, end->inbox_length) &&
           lu62_apart(end->unit, end->unit_length, end->inbox, end->inbox_length);
}

/* Says which buffers the end's calls are lent. They are those of the whole session. */
static inline void lu62_end_lend(struct lu62_end *end, uint8_t *send, size_t send_length, uint8_t *unit, size_t unit_length,
                                 uint8_t *inbox, size_t inbox_length)
{
    end->send = send;
    end->send_length = send_length;
    end->unit = unit;
    end->unit_length = unit_length;
    end->inbox = inbox;
    end->inbox_length = inbox_length;
    LU62_ASSERT(lu62_end_sound(end));
}

static inline uint32_t lu62_end_open(struct lu62_end *end, const struct lu62_session *session)
{
    LU62_ASSERT(lu62_end_sound(end));
    return lu62_open(session->role, session->out_window, session->in_window, session->out_max, session->in_max, end->send_length,
                     end->unit_length, end->inbox_length, end->image, sizeof end->image, &end->answer);
}

static inline uint32_t lu62_end_open_bind(struct lu62_end *end, const struct lu62_session_bytes *bytes)
{
    LU62_ASSERT(lu62_end_sound(end));
    return lu62_open_bind(bytes->role, bytes->out_window, bytes->in_window, bytes->out_size, bytes->in_size, end->send_length,
                          end->unit_length, end->inbox_length, end->image, sizeof end->image, &end->answer);
}

static inline uint32_t lu62_end_allocate(struct lu62_end *end)
{
    LU62_ASSERT(lu62_end_sound(end));
    return lu62_allocate(end->image, sizeof end->image, end->unit, end->unit_length, &end->answer);
}

static inline uint32_t lu62_end_send_data(struct lu62_end *end, const uint8_t *bytes, size_t length)
{
    LU62_ASSERT(lu62_end_sound(end) && lu62_end_apart(end, bytes, length));
    return lu62_send_data(end->image, sizeof end->image, bytes, length, end->send, end->send_length, end->unit, end->unit_length,
                          &end->answer);
}

static inline uint32_t lu62_end_flush(struct lu62_end *end)
{
    LU62_ASSERT(lu62_end_sound(end));
    return lu62_flush(end->image, sizeof end->image, end->send, end->send_length, end->unit, end->unit_length, &end->answer);
}

static inline uint32_t lu62_end_confirm(struct lu62_end *end)
{
    LU62_ASSERT(lu62_end_sound(end));
    return lu62_confirm(end->image, sizeof end->image, end->send, end->send_length, end->unit, end->unit_length, &end->answer);
}

static inline uint32_t lu62_end_prepare_to_receive(struct lu62_end *end, int confirm)
{
    LU62_ASSERT(lu62_end_sound(end));
    return lu62_prepare_to_receive(end->image, sizeof end->image, confirm != 0, end->send, end->send_length, end->unit,
                                   end->unit_length, &end->answer);
}

static inline uint32_t lu62_end_deallocate(struct lu62_end *end, int confirm)
{
    LU62_ASSERT(lu62_end_sound(end));
    return lu62_deallocate(end->image, sizeof end->image, confirm != 0, end->send, end->send_length, end->unit, end->unit_length,
                           &end->answer);
}

static inline uint32_t lu62_end_defer_turn(struct lu62_end *end)
{
    LU62_ASSERT(lu62_end_sound(end));
    return lu62_defer_turn(end->image, sizeof end->image, &end->answer);
}

static inline uint32_t lu62_end_defer_end(struct lu62_end *end)
{
    LU62_ASSERT(lu62_end_sound(end));
    return lu62_defer_end(end->image, sizeof end->image, &end->answer);
}

static inline uint32_t lu62_end_withdraw(struct lu62_end *end)
{
    LU62_ASSERT(lu62_end_sound(end));
    return lu62_withdraw(end->image, sizeof end->image, &end->answer);
}

static inline uint32_t lu62_end_confirmed(struct lu62_end *end)
{
    LU62_ASSERT(lu62_end_sound(end));
    return lu62_confirmed(end->image, sizeof end->image, end->unit, end->unit_length, &end->answer);
}

static inline uint32_t lu62_end_send_error(struct lu62_end *end)
{
    LU62_ASSERT(lu62_end_sound(end));
    return lu62_send_error(end->image, sizeof end->image, end->unit, end->unit_length, &end->answer);
}

static inline uint32_t lu62_end_request_to_send(struct lu62_end *end)
{
    LU62_ASSERT(lu62_end_sound(end));
    return lu62_request_to_send(end->image, sizeof end->image, end->unit, end->unit_length, &end->answer);
}

static inline uint32_t lu62_end_send_pacing_response(struct lu62_end *end)
{
    LU62_ASSERT(lu62_end_sound(end));
    return lu62_send_pacing_response(end->image, sizeof end->image, end->unit, end->unit_length, &end->answer);
}

static inline uint32_t lu62_end_receive_unit(struct lu62_end *end, const uint8_t *taken, size_t length)
{
    LU62_ASSERT(lu62_end_sound(end) && lu62_end_apart(end, taken, length));
    return lu62_receive_unit(end->image, sizeof end->image, taken, length, end->inbox, end->inbox_length, end->unit,
                             end->unit_length, &end->answer);
}

static inline uint32_t lu62_end_receive_expedited(struct lu62_end *end, const uint8_t *taken, size_t length)
{
    LU62_ASSERT(lu62_end_sound(end) && lu62_end_apart(end, taken, length));
    return lu62_receive_expedited(end->image, sizeof end->image, taken, length, end->unit, end->unit_length, &end->answer);
}

static inline uint32_t lu62_end_receive(struct lu62_end *end, uint8_t *buffer, size_t length)
{
    LU62_ASSERT(lu62_end_sound(end) && lu62_end_apart(end, buffer, length));
    return lu62_receive(end->image, sizeof end->image, end->inbox, end->inbox_length, buffer, length, &end->answer);
}

/* What may be asked of the end: see lu62.h. */
static inline uint32_t lu62_end_state(const struct lu62_end *end)
{
    return lu62_state(end->image);
}

static inline uint32_t lu62_end_bid_pending(const struct lu62_end *end)
{
    return lu62_bid_pending(end->image);
}

static inline uint32_t lu62_end_error_due(const struct lu62_end *end)
{
    return lu62_error_due(end->image);
}

static inline uint32_t lu62_end_signal_unanswered(const struct lu62_end *end)
{
    return lu62_signal_unanswered(end->image);
}

static inline uint32_t lu62_end_send_held(const struct lu62_end *end)
{
    return lu62_send_held(end->image);
}

static inline uint32_t lu62_end_inbox_held(const struct lu62_end *end)
{
    return lu62_inbox_held(end->image);
}

#ifdef __cplusplus
}
#endif

#endif
