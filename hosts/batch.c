/* Laboratory and blender as two processes over a socket pair. The blender's table goes to standard output, and what either says of a
 * turn that is requested and of a card that is not confirmed. */
#include "programs.h"

#include <errno.h>
#include <stdio.h>
#include <stdlib.h>
#include <string.h>
#include <sys/socket.h>
#include <sys/wait.h>
#include <unistd.h>

static const struct {
    const char *name;
    enum fault fault;
} faults[] = {
    {"--garbage", FAULT_GARBAGE}, {"--short", FAULT_SHORT},     {"--gone", FAULT_GONE},       {"--silent", FAULT_SILENT},
    {"--early", FAULT_EARLY},     {"--forever", FAULT_FOREVER}, {"--dropped", FAULT_DROPPED},
};

static int usage(void)
{
    fprintf(stderr,
            "usage: batch [--counts] [--limit MS] [--pause MS]\n"
            "             [--garbage | --short | --gone | --silent | --early | --forever | --dropped]\n"
            "  --counts     print what was counted to standard error\n"
            "  --limit MS   give a conversation up that has stood still for so many milliseconds (default %d)\n"
            "  --pause MS   wait so long after a refused bid before the next (default %d)\n"
            "  the others   the fault that the laboratory shows in its second table\n",
            DEFAULT_LIMIT_MS, DEFAULT_PAUSE_MS);
    return 2;
}

static bool milliseconds(const char *text, int64_t least, int64_t *value)
{
    char *end;
    if (text == NULL || *text < '0' || *text > '9')
        return false;
    errno = 0;
    long long number = strtoll(text, &end, 10);
    if (errno != 0 || *end != '\0' || number < least || number > LONGEST_MS)
        return false;
    *value = number;
    return true;
}

static bool set_fault(struct options *options, const char *argument)
{
    for (size_t i = 0; i < sizeof faults / sizeof faults[0]; i++)
        if (strcmp(argument, faults[i].name) == 0) {
            options->fault = faults[i].fault;
            return true;
        }
    return false;
}

/* Null follows the last argument, so an option whose value is missing is found out by `milliseconds`. */
static bool read_options(struct options *options, char **arguments)
{
    for (char **next = arguments + 1; *next != NULL; next++) {
        bool good;
        if (strcmp(*next, "--counts") == 0)
            good = options->counts = true;
        else if (strcmp(*next, "--limit") == 0)
            good = milliseconds(*++next, 1, &options->limit_ms);
        else if (strcmp(*next, "--pause") == 0)
            good = milliseconds(*++next, 0, &options->pause_ms);
        else
            good = set_fault(options, *next);
        if (!good)
            return false;
    }
    return true;
}

/* Closed before the wait, so that a laboratory that still expects something learns that nothing will come. */
static bool partner_ended_well(int socket, pid_t child)
{
    int status;
    if (close(socket) != 0)
        perror("batch: close");
    if (waitpid(child, &status, 0) != child) {
        perror("batch: waitpid");
        return false;
    }
    if (WIFSIGNALED(status))
        fprintf(stderr, "batch: the laboratory was ended by signal %d\n", WTERMSIG(status));
    return WIFEXITED(status) && WEXITSTATUS(status) == EXIT_SUCCESS;
}

int main(int count, char **arguments)
{
    (void)count;
    struct options options = {.limit_ms = DEFAULT_LIMIT_MS, .pause_ms = DEFAULT_PAUSE_MS};
    int sockets[2];
    if (!read_options(&options, arguments))
        return usage();
    if (socketpair(AF_UNIX, SOCK_STREAM, 0, sockets) < 0) {
        perror("batch: socketpair");
        return EXIT_FAILURE;
    }
    pid_t child = fork();
    if (child < 0) {
        perror("batch: fork");
        return EXIT_FAILURE;
    }
    int own = sockets[child == 0 ? 1 : 0], other = sockets[child == 0 ? 0 : 1];
    if (close(other) != 0)
        perror("batch: close");
    if (child == 0)
        return laboratory(own, &options);
    int status = blender(own, &options);
    return partner_ended_well(own, child) ? status : EXIT_FAILURE;
}
