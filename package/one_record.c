/* One record from one end to the other, in one process: where a host would send a unit over its line, it is handed on. */
#include <lu62_end.h>

#include <stdio.h>
#include <stdlib.h>
#include <string.h>

enum { WINDOW = 3, MAXIMUM = 64 };

/* An end with the buffers that its calls are lent. */
struct host {
    struct lu62_end end;
    uint8_t send[MAXIMUM];
    uint8_t unit[LU62_UNIT(MAXIMUM)];
    uint8_t inbox[LU62_INBOX(WINDOW, MAXIMUM)];
};

/* Ends the program with the refusal in words if a call was refused. */
static void require(const char *call, uint32_t refusal)
{
    if (refusal == LU62_ACCEPTED)
        return;
    fprintf(stderr, "%s: refusal %u: %s\n", call, (unsigned)refusal, lu62_refusal_text(refusal));
    exit(EXIT_FAILURE);
}

static void open_host(struct host *host, uint8_t role)
{
    const struct lu62_session session = {role, WINDOW, WINDOW, MAXIMUM, MAXIMUM};
    lu62_end_lend(&host->end, host->send, sizeof host->send, host->unit, sizeof host->unit, host->inbox, sizeof host->inbox);
    require("open", lu62_end_open(&host->end, &session));
}

int main(void)
{
    /* Two bytes for the record's length, themselves counted, and five of data. Their top bit is off: no other part follows. */
    static const uint8_t record[] = {0x00, 0x07, 'V', '4', '6', '.', '1'};
    struct host laboratory, blender;
    uint8_t buffer[100];

    open_host(&laboratory, LU62_FIRST_SPEAKER);
    open_host(&blender, LU62_BIDDER);
    require("allocate", lu62_end_allocate(&laboratory.end));
    require("send_data", lu62_end_send_data(&laboratory.end, record, sizeof record));
    require("deallocate", lu62_end_deallocate(&laboratory.end, 0));

    require("receive_unit", lu62_end_receive_unit(&blender.end, laboratory.unit, laboratory.end.answer.unit));
    require("receive", lu62_end_receive(&blender.end, buffer, sizeof buffer));
    int length = (int)blender.end.answer.copied;
    printf("record of %d bytes, %s: %.*s\n", length, blender.end.answer.complete ? "whole" : "not whole", length - 2,
           (const char *)buffer + 2);
    require("receive", lu62_end_receive(&blender.end, buffer, sizeof buffer));
    printf("mark: %s; state: %s\n", lu62_mark_name(blender.end.answer.mark), lu62_state_name(lu62_end_state(&blender.end)));
    return fflush(stdout) == 0 ? EXIT_SUCCESS : EXIT_FAILURE;
}
