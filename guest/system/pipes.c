/*
 * Pipes. There is one process, so a program reads what it has written itself. Where it would wait for ever, for bytes that nobody else writes or for
 * room that nobody else makes, the answer is EDEADLK, or with O_NONBLOCK EAGAIN.
 */
#include "pipes.h"
#include "call.h"

#include <errno.h>
#include <fcntl.h>
#include <poll.h>
#include <signal.h>
#include <stdlib.h>
#include <string.h>
#include <unistd.h>

enum { READS, WRITES };

#define PIPES (DESCRIPTORS / 2)
#define PIPE_BYTES 65536u

static struct pipe {
    unsigned char *bytes;
    size_t held;
    unsigned ends[2];                   /* the descriptors of each end */
    int flags[2];
} pipes[PIPES];

static struct pipe *pipe_of(unsigned end)
{
    return &pipes[end / 2];
}

static long refuse(int error)
{
    errno = error;
    return -1;
}

static long would_wait(const struct pipe *pipe, int side)
{
    return refuse((pipe->flags[side] & O_NONBLOCK) != 0 ? EAGAIN : EDEADLK);
}

static long read_end(unsigned end, void *into, size_t bytes)
{
    struct pipe *pipe = pipe_of(end);
    if (end % 2 != READS)
        return refuse(EBADF);
    if (bytes == 0)
        return 0;
    if (pipe->held == 0)
        return pipe->ends[WRITES] == 0 ? 0 : would_wait(pipe, READS);
    if (bytes > pipe->held)
        bytes = pipe->held;
    memcpy(into, pipe->bytes, bytes);
    pipe->held -= bytes;
    memmove(pipe->bytes, pipe->bytes + bytes, pipe->held);
    return (long)bytes;
}

/* What PIPE_BUF bytes can hold is written whole or not at all. */
static long write_end(unsigned end, const void *from, size_t bytes)
{
    struct pipe *pipe = pipe_of(end);
    size_t room = PIPE_BYTES - pipe->held;
    unsigned char *larger;
    if (end % 2 != WRITES)
        return refuse(EBADF);
    if (pipe->ends[READS] == 0) {
        raise(SIGPIPE);
        return refuse(EPIPE);
    }
    if (bytes == 0)
        return 0;
    if (room == 0 || (room < bytes && bytes <= PIPE_BUF))
        return would_wait(pipe, WRITES);
    if (bytes > room)
        bytes = room;
    larger = realloc(pipe->bytes, pipe->held + bytes);
    if (larger == 0)
        return refuse(ENOMEM);
    pipe->bytes = larger;
    memcpy(larger + pipe->held, from, bytes);
    pipe->held += bytes;
    return (long)bytes;
}

static void share_end(unsigned end)
{
    pipe_of(end)->ends[end % 2]++;
}

static void leave_end(unsigned end)
{
    struct pipe *pipe = pipe_of(end);
    pipe->ends[end % 2]--;
    if (pipe->ends[READS] == 0 && pipe->ends[WRITES] == 0) {
        free(pipe->bytes);
        *pipe = (struct pipe){ 0, 0, { 0, 0 }, { 0, 0 } };
    }
}

static int ready_end(unsigned end)
{
    const struct pipe *pipe = pipe_of(end);
    if (end % 2 == READS)
        return (pipe->held != 0 ? POLLIN : 0) | (pipe->ends[WRITES] == 0 ? POLLHUP : 0);
    return pipe->ends[READS] == 0 ? POLLERR | POLLOUT : PIPE_BYTES - pipe->held >= PIPE_BUF ? POLLOUT : 0;
}

static int *flags_of(unsigned end)
{
    return &pipe_of(end)->flags[end % 2];
}

static const struct nested_pipes own = { read_end, write_end, share_end, leave_end, ready_end, flags_of };

int pipe2(int into[2], int flags)
{
    unsigned number = 0;
    int reader, writer;
    if ((flags & ~(O_CLOEXEC | O_NONBLOCK)) != 0)
        return (int)refuse(EINVAL);
    while (number < PIPES && (pipes[number].ends[READS] != 0 || pipes[number].ends[WRITES] != 0))
        number++;
    if (number == PIPES)
        return (int)refuse(EMFILE);
    nested_pipes = &own;
    reader = nested_open_end(2 * number + READS);
    writer = reader < 0 ? -1 : nested_open_end(2 * number + WRITES);
    if (writer < 0) {
        if (reader >= 0)
            close(reader);
        return -1;
    }
    pipes[number].flags[READS] = pipes[number].flags[WRITES] = flags & O_NONBLOCK;
    into[0] = reader;
    into[1] = writer;
    return 0;
}

int pipe(int into[2])
{
    return pipe2(into, 0);
}
