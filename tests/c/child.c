#include "child.h"

#include "../../hosts/clock.h"

#include <errno.h>
#include <signal.h>
#include <stdlib.h>
#include <string.h>
#include <sys/wait.h>
#include <unistd.h>

void cannot(const char *what)
{
    fprintf(stderr, "test: %s: %s\n", what, strerror(errno));
    exit(EXIT_FAILURE);
}

static FILE *printed_file(void)
{
    FILE *file = tmpfile();
    if (file == NULL)
        cannot("tmpfile");
    return file;
}

void child_start(struct child *child, child_program *program, int socket, const int *others, size_t count,
                 const struct options *options)
{
    memset(child, 0, sizeof *child);
    child->out_file = printed_file();
    child->err_file = printed_file();
    if (fflush(NULL) != 0)
        cannot("fflush");
    child->process = fork();
    if (child->process < 0)
        cannot("fork");
    if (child->process > 0)
        return;
    for (size_t i = 0; i < count; i++)
        (void)close(others[i]);
    if (dup2(fileno(child->out_file), STDOUT_FILENO) < 0 || dup2(fileno(child->err_file), STDERR_FILENO) < 0)
        _exit(EXIT_FAILURE);
    int status = program(socket, options);
    if (fflush(NULL) != 0)
        status = EXIT_FAILURE;
    _exit(status);
}

static void read_all(FILE *file, char *text, size_t room)
{
    rewind(file);
    size_t length = fread(text, 1, room - 1, file);
    if (ferror(file) || length == room - 1)
        cannot("a file could not be read whole");
    text[length] = '\0';
    if (fclose(file) != 0)
        cannot("fclose");
}

void child_wait(struct child *child, int64_t most_ms)
{
    static const struct timespec moment = {0, 1000000};
    int64_t until = clock_ms() + most_ms;
    int status = 0;
    pid_t ended;
    while ((ended = waitpid(child->process, &status, WNOHANG)) == 0 && clock_ms() < until)
        (void)nanosleep(&moment, NULL);
    if (ended == 0) {
        (void)kill(child->process, SIGKILL);
        ended = waitpid(child->process, &status, 0);
    }
    if (ended != child->process)
        cannot("waitpid");
    child->status = WIFEXITED(status) ? WEXITSTATUS(status) : -1;
    read_all(child->out_file, child->out, sizeof child->out);
    read_all(child->err_file, child->err, sizeof child->err);
}

void read_file(const char *path, char *text, size_t room)
{
    FILE *file = fopen(path, "rb");
    if (file == NULL)
        cannot(path);
    read_all(file, text, room);
}
