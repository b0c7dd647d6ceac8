/* Pipes, which a program has with itself. They are linked where a program calls pipe: what serves descriptors finds them here. */
#ifndef NESTED_PIPES_H
#define NESTED_PIPES_H

#include <stddef.h>

/* An end is known by a number, which is odd for the end that is written. */
struct nested_pipes {
    long (*read)(unsigned end, void *into, size_t bytes);
    long (*write)(unsigned end, const void *from, size_t bytes);
    void (*share)(unsigned end);                        /* a descriptor more stands for it */
    void (*leave)(unsigned end);                        /* one less */
    int (*ready)(unsigned end);                         /* what poll answers: POLLIN, POLLOUT, POLLHUP, POLLERR */
    int *(*flags)(unsigned end);                        /* O_NONBLOCK or 0 */
};

/* The pipes, once there has been one. */
extern const struct nested_pipes *nested_pipes;

/* Opens a descriptor for an end: its number, or -1 with errno. */
int nested_open_end(unsigned end);

#endif
