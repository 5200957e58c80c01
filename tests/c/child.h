/* Runs laboratory or blender in a process of its own, with what it prints kept in files, while the test is its partner. */
#ifndef CHILD_H
#define CHILD_H

#include "../../hosts/programs.h"

#include <stdio.h>
#include <sys/types.h>

enum { CHILD_TEXT = 8192 };

typedef int child_program(int socket, const struct options *options);

struct child {
    pid_t process;
    FILE *out_file, *err_file;
    /* After child_wait: what it printed, and its exit status, or -1 if it ended in another way or had to be ended. */
    char out[CHILD_TEXT], err[CHILD_TEXT];
    int status;
};

/* Starts the program on `socket`, which the caller closes on its own side. Every other descriptor in `others` is closed in the
 * child. Exits with a message if that fails. */
void child_start(struct child *child, child_program *program, int socket, const int *others, size_t count,
                 const struct options *options);

/* Waits until the program ends, for at most so many milliseconds; then it is ended by force. */
void child_wait(struct child *child, int64_t most_ms);

/* A file of the repository as a string. Exits with a message if it cannot be read. */
void read_file(const char *path, char *text, size_t room);

/* Exits with a message that names what failed, errno with it. */
_Noreturn void cannot(const char *what);

#endif
