/*
 * Threads of one thread. pthread_create gives EAGAIN, and a lock is a count of how often it was taken: what would wait for ever gives EDEADLK.
 * A mutex is a word: newlib's initializer, which stands for a fresh one, those of pthread.h, or its kind and count.
 */
#include "call.h"

#include <errno.h>
#include <limits.h>
#include <pthread.h>
#include <sched.h>
#include <stdlib.h>
#include <string.h>

#pragma GCC diagnostic ignored "-Wunused-parameter"

#define SELF ((pthread_t)1)

/* ---- mutexes */

#define KIND_BITS 28
#define COUNT(mutex) ((mutex) & ((1u << KIND_BITS) - 1))
#define KIND(mutex) ((int)((mutex) >> KIND_BITS))
#define FRESH(kind) ((pthread_mutex_t)(kind) << KIND_BITS)

/* A mutex that was made by an initializer becomes one with a kind and a count. */
static void settle(pthread_mutex_t *mutex)
{
    if (*mutex == PTHREAD_MUTEX_INITIALIZER)
        *mutex = FRESH(PTHREAD_MUTEX_DEFAULT);
    else if (*mutex == PTHREAD_RECURSIVE_MUTEX_INITIALIZER_NP)
        *mutex = FRESH(PTHREAD_MUTEX_RECURSIVE);
    else if (*mutex == PTHREAD_ERRORCHECK_MUTEX_INITIALIZER_NP)
        *mutex = FRESH(PTHREAD_MUTEX_ERRORCHECK);
}

int pthread_mutexattr_init(pthread_mutexattr_t *attributes)
{
    memset(attributes, 0, sizeof *attributes);
    attributes->is_initialized = 1;
    attributes->type = PTHREAD_MUTEX_DEFAULT;
    return 0;
}

int pthread_mutexattr_destroy(pthread_mutexattr_t *attributes)
{
    attributes->is_initialized = 0;
    return 0;
}

int pthread_mutexattr_getpshared(const pthread_mutexattr_t *attributes, int *into)
{
    *into = attributes->process_shared;
    return 0;
}

int pthread_mutexattr_setpshared(pthread_mutexattr_t *attributes, int shared)
{
    attributes->process_shared = shared;
    return 0;
}

int pthread_mutexattr_gettype(const pthread_mutexattr_t *attributes, int *into)
{
    *into = attributes->type;
    return 0;
}

int pthread_mutexattr_settype(pthread_mutexattr_t *attributes, int type)
{
    if (type < PTHREAD_MUTEX_NORMAL || type > PTHREAD_MUTEX_DEFAULT)
        return EINVAL;
    attributes->type = type;
    return 0;
}

int pthread_mutex_init(pthread_mutex_t *mutex, const pthread_mutexattr_t *attributes)
{
    *mutex = FRESH(attributes != 0 ? attributes->type : PTHREAD_MUTEX_DEFAULT);
    return 0;
}

int pthread_mutex_destroy(pthread_mutex_t *mutex)
{
    settle(mutex);
    return COUNT(*mutex) > 0 ? EBUSY : 0;
}

int pthread_mutex_trylock(pthread_mutex_t *mutex)
{
    settle(mutex);
    if (COUNT(*mutex) > 0 && KIND(*mutex) != PTHREAD_MUTEX_RECURSIVE)
        return EBUSY;
    ++*mutex;
    return 0;
}

int pthread_mutex_lock(pthread_mutex_t *mutex)
{
    return pthread_mutex_trylock(mutex) == 0 ? 0 : EDEADLK;
}

int pthread_mutex_timedlock(pthread_mutex_t *mutex, const struct timespec *until)
{
    return pthread_mutex_trylock(mutex) == 0 ? 0 : ETIMEDOUT;
}

int pthread_mutex_unlock(pthread_mutex_t *mutex)
{
    settle(mutex);
    if (COUNT(*mutex) == 0)
        return EPERM;
    --*mutex;
    return 0;
}

int pthread_mutex_clocklock(pthread_mutex_t *mutex, clockid_t clock, const struct timespec *until)
{
    return pthread_mutex_timedlock(mutex, until);
}

int pthread_mutex_consistent(pthread_mutex_t *mutex)
{
    return EINVAL;
}

int pthread_mutexattr_getprotocol(const pthread_mutexattr_t *attributes, int *into)
{
    *into = PTHREAD_PRIO_NONE;
    return 0;
}

int pthread_mutexattr_setprotocol(pthread_mutexattr_t *attributes, int protocol)
{
    return protocol == PTHREAD_PRIO_NONE ? 0 : ENOTSUP;
}

int pthread_mutexattr_getrobust(const pthread_mutexattr_t *attributes, int *into)
{
    *into = PTHREAD_MUTEX_STALLED;
    return 0;
}

int pthread_mutexattr_setrobust(pthread_mutexattr_t *attributes, int robust)
{
    return 0;
}

/* ---- condition variables: nobody else could signal, so to wait would never end. A program that tests its condition first never waits */

int pthread_condattr_init(pthread_condattr_t *attributes)
{
    memset(attributes, 0, sizeof *attributes);
    attributes->is_initialized = 1;
    attributes->clock = CLOCK_REALTIME;
    return 0;
}

int pthread_condattr_destroy(pthread_condattr_t *attributes)
{
    attributes->is_initialized = 0;
    return 0;
}

int pthread_condattr_getclock(const pthread_condattr_t *attributes, clockid_t *into)
{
    *into = attributes->clock;
    return 0;
}

int pthread_condattr_setclock(pthread_condattr_t *attributes, clockid_t clock)
{
    attributes->clock = clock;
    return 0;
}

int pthread_condattr_getpshared(const pthread_condattr_t *attributes, int *into)
{
    *into = attributes->process_shared;
    return 0;
}

int pthread_condattr_setpshared(pthread_condattr_t *attributes, int shared)
{
    attributes->process_shared = shared;
    return 0;
}

int pthread_cond_init(pthread_cond_t *condition, const pthread_condattr_t *attributes)
{
    *condition = PTHREAD_COND_INITIALIZER;
    return 0;
}

int pthread_cond_destroy(pthread_cond_t *condition)
{
    return 0;
}

int pthread_cond_signal(pthread_cond_t *condition)
{
    return 0;
}

int pthread_cond_broadcast(pthread_cond_t *condition)
{
    return 0;
}

int pthread_cond_wait(pthread_cond_t *condition, pthread_mutex_t *mutex)
{
    return EDEADLK;
}

int pthread_cond_timedwait(pthread_cond_t *condition, pthread_mutex_t *mutex, const struct timespec *until)
{
    return ETIMEDOUT;
}

int pthread_cond_clockwait(pthread_cond_t *condition, pthread_mutex_t *mutex, clockid_t clock, const struct timespec *until)
{
    return ETIMEDOUT;
}

/* ---- locks of readers and writers: 0, the readers, or the writer */

#define WRITER 0x80000000u

static void settle_rwlock(pthread_rwlock_t *lock)
{
    if (*lock == PTHREAD_RWLOCK_INITIALIZER)
        *lock = 0;
}

int pthread_rwlockattr_init(pthread_rwlockattr_t *attributes)
{
    memset(attributes, 0, sizeof *attributes);
    attributes->is_initialized = 1;
    return 0;
}

int pthread_rwlockattr_destroy(pthread_rwlockattr_t *attributes)
{
    attributes->is_initialized = 0;
    return 0;
}

int pthread_rwlockattr_getpshared(const pthread_rwlockattr_t *attributes, int *into)
{
    *into = attributes->process_shared;
    return 0;
}

int pthread_rwlockattr_setpshared(pthread_rwlockattr_t *attributes, int shared)
{
    attributes->process_shared = shared;
    return 0;
}

int pthread_rwlock_init(pthread_rwlock_t *lock, const pthread_rwlockattr_t *attributes)
{
    *lock = 0;
    return 0;
}

int pthread_rwlock_destroy(pthread_rwlock_t *lock)
{
    settle_rwlock(lock);
    return *lock != 0 ? EBUSY : 0;
}

int pthread_rwlock_tryrdlock(pthread_rwlock_t *lock)
{
    settle_rwlock(lock);
    if (*lock == WRITER)
        return EBUSY;
    ++*lock;
    return 0;
}

int pthread_rwlock_rdlock(pthread_rwlock_t *lock)
{
    return pthread_rwlock_tryrdlock(lock) == 0 ? 0 : EDEADLK;
}

int pthread_rwlock_timedrdlock(pthread_rwlock_t *lock, const struct timespec *until)
{
    return pthread_rwlock_tryrdlock(lock) == 0 ? 0 : ETIMEDOUT;
}

int pthread_rwlock_trywrlock(pthread_rwlock_t *lock)
{
    settle_rwlock(lock);
    if (*lock != 0)
        return EBUSY;
    *lock = WRITER;
    return 0;
}

int pthread_rwlock_wrlock(pthread_rwlock_t *lock)
{
    return pthread_rwlock_trywrlock(lock) == 0 ? 0 : EDEADLK;
}

int pthread_rwlock_timedwrlock(pthread_rwlock_t *lock, const struct timespec *until)
{
    return pthread_rwlock_trywrlock(lock) == 0 ? 0 : ETIMEDOUT;
}

int pthread_rwlock_clockrdlock(pthread_rwlock_t *lock, clockid_t clock, const struct timespec *until)
{
    return pthread_rwlock_timedrdlock(lock, until);
}

int pthread_rwlock_clockwrlock(pthread_rwlock_t *lock, clockid_t clock, const struct timespec *until)
{
    return pthread_rwlock_timedwrlock(lock, until);
}

int pthread_rwlock_unlock(pthread_rwlock_t *lock)
{
    settle_rwlock(lock);
    if (*lock == 0)
        return EPERM;
    *lock = *lock == WRITER ? 0 : *lock - 1;
    return 0;
}

/* ---- spin locks and barriers */

int pthread_spin_init(pthread_spinlock_t *lock, int shared)
{
    *lock = 0;
    return 0;
}

int pthread_spin_destroy(pthread_spinlock_t *lock)
{
    return 0;
}

int pthread_spin_trylock(pthread_spinlock_t *lock)
{
    if (*lock != 0)
        return EBUSY;
    *lock = 1;
    return 0;
}

int pthread_spin_lock(pthread_spinlock_t *lock)
{
    return pthread_spin_trylock(lock) == 0 ? 0 : EDEADLK;
}

int pthread_spin_unlock(pthread_spinlock_t *lock)
{
    *lock = 0;
    return 0;
}

int pthread_barrierattr_init(pthread_barrierattr_t *attributes)
{
    memset(attributes, 0, sizeof *attributes);
    attributes->is_initialized = 1;
    return 0;
}

int pthread_barrierattr_destroy(pthread_barrierattr_t *attributes)
{
    attributes->is_initialized = 0;
    return 0;
}

int pthread_barrierattr_getpshared(const pthread_barrierattr_t *attributes, int *into)
{
    *into = attributes->process_shared;
    return 0;
}

int pthread_barrierattr_setpshared(pthread_barrierattr_t *attributes, int shared)
{
    attributes->process_shared = shared;
    return 0;
}

/* A barrier for more than one thread would never open. */
int pthread_barrier_init(pthread_barrier_t *barrier, const pthread_barrierattr_t *attributes, unsigned count)
{
    *barrier = count;
    return count == 0 ? EINVAL : count > 1 ? EAGAIN : 0;
}

int pthread_barrier_destroy(pthread_barrier_t *barrier)
{
    return 0;
}

int pthread_barrier_wait(pthread_barrier_t *barrier)
{
    return *barrier == 1 ? PTHREAD_BARRIER_SERIAL_THREAD : EINVAL;
}

/* ---- once, and keys */

int pthread_once(pthread_once_t *once, void (*routine)(void))
{
    if (!once->init_executed) {
        once->init_executed = 1;
        routine();
    }
    return 0;
}

#define KEYS 128

static struct {
    int is_used;
    void *value;
    void (*destructor)(void *);
} keys[KEYS];

int pthread_key_create(pthread_key_t *into, void (*destructor)(void *))
{
    for (pthread_key_t key = 0; key < KEYS; key++) {
        if (!keys[key].is_used) {
            keys[key].is_used = 1;
            keys[key].value = 0;
            keys[key].destructor = destructor;
            *into = key;
            return 0;
        }
    }
    return EAGAIN;
}

int pthread_key_delete(pthread_key_t key)
{
    if (key >= KEYS || !keys[key].is_used)
        return EINVAL;
    keys[key].is_used = 0;
    return 0;
}

int pthread_setspecific(pthread_key_t key, const void *value)
{
    if (key >= KEYS || !keys[key].is_used)
        return EINVAL;
    keys[key].value = (void *)value;
    return 0;
}

void *pthread_getspecific(pthread_key_t key)
{
    return key < KEYS && keys[key].is_used ? keys[key].value : 0;
}

/* Values are destroyed where the thread ends by itself, and not where the program does. */
static void destroy_values(void)
{
    for (int round = 0, left = 1; round < 4 && left; round++) {
        left = 0;
        for (pthread_key_t key = 0; key < KEYS; key++) {
            void *value = keys[key].value;
            if (keys[key].is_used && value != 0 && keys[key].destructor != 0) {
                keys[key].value = 0;
                keys[key].destructor(value);
                left = 1;
            }
        }
    }
}

/* ---- threads */

int pthread_create(pthread_t *into, const pthread_attr_t *attributes, void *(*routine)(void *), void *word)
{
    return EAGAIN;
}

int pthread_join(pthread_t thread, void **into)
{
    return thread == SELF ? EDEADLK : ESRCH;
}

int pthread_detach(pthread_t thread)
{
    return thread == SELF ? 0 : ESRCH;
}

static struct _pthread_cleanup_context *cleanup;

/* The last thread's end is the program's. */
void pthread_exit(void *result)
{
    while (cleanup != 0)
        _pthread_cleanup_pop(cleanup, 1);
    destroy_values();
    exit(0);
}

pthread_t pthread_self(void)
{
    return SELF;
}

int pthread_equal(pthread_t one, pthread_t other)
{
    return one == other;
}

void pthread_yield(void)
{
}

int pthread_atfork(void (*prepare)(void), void (*parent)(void), void (*child)(void))
{
    return 0;
}

int pthread_getcpuclockid(pthread_t thread, clockid_t *into)
{
    *into = CLOCK_THREAD_CPUTIME_ID;
    return 0;
}

int pthread_setconcurrency(int level)
{
    return 0;
}

int pthread_getconcurrency(void)
{
    return 0;
}

int pthread_getname_np(pthread_t thread, char *into, size_t bytes)
{
    if (bytes == 0)
        return ERANGE;
    *into = 0;
    return 0;
}

int pthread_setname_np(pthread_t thread, const char *name)
{
    return 0;
}

/* ---- cancelling: the thread may cancel itself, and does so at pthread_testcancel */

static int cancel_state = PTHREAD_CANCEL_ENABLE, cancel_type = PTHREAD_CANCEL_DEFERRED, is_cancelled;

int pthread_cancel(pthread_t thread)
{
    if (thread != SELF)
        return ESRCH;
    is_cancelled = 1;
    return 0;
}

int pthread_setcancelstate(int state, int *before)
{
    if (before != 0)
        *before = cancel_state;
    cancel_state = state;
    return 0;
}

int pthread_setcanceltype(int type, int *before)
{
    if (before != 0)
        *before = cancel_type;
    cancel_type = type;
    return 0;
}

void pthread_testcancel(void)
{
    if (is_cancelled && cancel_state == PTHREAD_CANCEL_ENABLE)
        pthread_exit(PTHREAD_CANCELED);
}

void _pthread_cleanup_push(struct _pthread_cleanup_context *context, void (*routine)(void *), void *word)
{
    context->_routine = routine;
    context->_arg = word;
    context->_canceltype = cancel_type;
    context->_previous = cleanup;
    cleanup = context;
}

void _pthread_cleanup_pop(struct _pthread_cleanup_context *context, int runs)
{
    cleanup = context->_previous;
    if (runs)
        context->_routine(context->_arg);
}

void _pthread_cleanup_push_defer(struct _pthread_cleanup_context *context, void (*routine)(void *), void *word)
{
    _pthread_cleanup_push(context, routine, word);
    cancel_type = PTHREAD_CANCEL_DEFERRED;
}

void _pthread_cleanup_pop_restore(struct _pthread_cleanup_context *context, int runs)
{
    cancel_type = context->_canceltype;
    _pthread_cleanup_pop(context, runs);
}

/* ---- attributes of threads, which nothing looks at */

int pthread_attr_init(pthread_attr_t *attributes)
{
    memset(attributes, 0, sizeof *attributes);
    attributes->is_initialized = 1;
    attributes->stacksize = 262144;
    attributes->detachstate = PTHREAD_CREATE_JOINABLE;
    return 0;
}

int pthread_attr_destroy(pthread_attr_t *attributes)
{
    attributes->is_initialized = 0;
    return 0;
}

int pthread_attr_setstack(pthread_attr_t *attributes, void *address, size_t bytes)
{
    attributes->stackaddr = address;
    attributes->stacksize = (int)bytes;
    return 0;
}

int pthread_attr_getstack(const pthread_attr_t *attributes, void **address, size_t *bytes)
{
    *address = attributes->stackaddr;
    *bytes = (size_t)attributes->stacksize;
    return 0;
}

int pthread_attr_setstacksize(pthread_attr_t *attributes, size_t bytes)
{
    attributes->stacksize = (int)bytes;
    return 0;
}

int pthread_attr_getstacksize(const pthread_attr_t *attributes, size_t *into)
{
    *into = (size_t)attributes->stacksize;
    return 0;
}

int pthread_attr_setstackaddr(pthread_attr_t *attributes, void *address)
{
    attributes->stackaddr = address;
    return 0;
}

int pthread_attr_getstackaddr(const pthread_attr_t *attributes, void **into)
{
    *into = attributes->stackaddr;
    return 0;
}

int pthread_attr_setguardsize(pthread_attr_t *attributes, size_t bytes)
{
    return 0;
}

int pthread_attr_getguardsize(const pthread_attr_t *attributes, size_t *into)
{
    *into = 0;
    return 0;
}

int pthread_attr_setdetachstate(pthread_attr_t *attributes, int state)
{
    attributes->detachstate = state;
    return 0;
}

int pthread_attr_getdetachstate(const pthread_attr_t *attributes, int *into)
{
    *into = attributes->detachstate;
    return 0;
}

int pthread_attr_setscope(pthread_attr_t *attributes, int scope)
{
    attributes->contentionscope = scope;
    return 0;
}

int pthread_attr_getscope(const pthread_attr_t *attributes, int *into)
{
    *into = attributes->contentionscope;
    return 0;
}

int pthread_attr_setinheritsched(pthread_attr_t *attributes, int inherits)
{
    attributes->inheritsched = inherits;
    return 0;
}

int pthread_attr_getinheritsched(const pthread_attr_t *attributes, int *into)
{
    *into = attributes->inheritsched;
    return 0;
}

int pthread_attr_setschedpolicy(pthread_attr_t *attributes, int policy)
{
    attributes->schedpolicy = policy;
    return 0;
}

int pthread_attr_getschedpolicy(const pthread_attr_t *attributes, int *into)
{
    *into = attributes->schedpolicy;
    return 0;
}

int pthread_attr_setschedparam(pthread_attr_t *attributes, const struct sched_param *from)
{
    attributes->schedparam = *from;
    return 0;
}

int pthread_attr_getschedparam(const pthread_attr_t *attributes, struct sched_param *into)
{
    *into = attributes->schedparam;
    return 0;
}

/* ---- scheduling: there is one policy and one priority */

int pthread_getschedparam(pthread_t thread, int *policy, struct sched_param *into)
{
    *policy = SCHED_OTHER;
    into->sched_priority = 0;
    return 0;
}

int pthread_setschedparam(pthread_t thread, int policy, const struct sched_param *from)
{
    return 0;
}

int pthread_setschedprio(pthread_t thread, int priority)
{
    return 0;
}

int sched_yield(void)
{
    return 0;
}

int sched_getcpu(void)
{
    return 0;
}

int sched_getparam(pid_t process, struct sched_param *into)
{
    into->sched_priority = 0;
    return 0;
}

int sched_setparam(pid_t process, const struct sched_param *from)
{
    return 0;
}

int sched_getscheduler(pid_t process)
{
    return SCHED_OTHER;
}

int sched_setscheduler(pid_t process, int policy, const struct sched_param *from)
{
    return 0;
}

int sched_get_priority_max(int policy)
{
    return 0;
}

int sched_get_priority_min(int policy)
{
    return 0;
}

int sched_rr_get_interval(pid_t process, struct timespec *into)
{
    memset(into, 0, sizeof *into);
    return 0;
}
