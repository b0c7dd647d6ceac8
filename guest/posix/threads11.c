/* Threads of C11 and semaphores, over those of POSIX. */
#include "call.h"

#include <errno.h>
#include <semaphore.h>
#include <threads.h>

#pragma GCC diagnostic ignored "-Wunused-parameter"

static int result_of(int error)
{
    switch (error) {
    case 0:
        return thrd_success;
    case EBUSY:
        return thrd_busy;
    case ETIMEDOUT:
        return thrd_timedout;
    case ENOMEM:
    case EAGAIN:
        return thrd_nomem;
    default:
        return thrd_error;
    }
}

void call_once(once_flag *flag, void (*function)(void))
{
    pthread_once(flag, function);
}

int mtx_init(mtx_t *mutex, int kind)
{
    pthread_mutexattr_t attributes;
    pthread_mutexattr_init(&attributes);
    pthread_mutexattr_settype(&attributes, kind & mtx_recursive ? PTHREAD_MUTEX_RECURSIVE : PTHREAD_MUTEX_NORMAL);
    return result_of(pthread_mutex_init(mutex, &attributes));
}

void mtx_destroy(mtx_t *mutex)
{
    pthread_mutex_destroy(mutex);
}

int mtx_lock(mtx_t *mutex)
{
    return result_of(pthread_mutex_lock(mutex));
}

int mtx_timedlock(mtx_t *mutex, const struct timespec *until)
{
    return result_of(pthread_mutex_timedlock(mutex, until));
}

int mtx_trylock(mtx_t *mutex)
{
    return result_of(pthread_mutex_trylock(mutex));
}

int mtx_unlock(mtx_t *mutex)
{
    return result_of(pthread_mutex_unlock(mutex));
}

int cnd_init(cnd_t *condition)
{
    return result_of(pthread_cond_init(condition, 0));
}

void cnd_destroy(cnd_t *condition)
{
    pthread_cond_destroy(condition);
}

int cnd_signal(cnd_t *condition)
{
    return result_of(pthread_cond_signal(condition));
}

int cnd_broadcast(cnd_t *condition)
{
    return result_of(pthread_cond_broadcast(condition));
}

int cnd_wait(cnd_t *condition, mtx_t *mutex)
{
    return result_of(pthread_cond_wait(condition, mutex));
}

int cnd_timedwait(cnd_t *condition, mtx_t *mutex, const struct timespec *until)
{
    return result_of(pthread_cond_timedwait(condition, mutex, until));
}

int thrd_create(thrd_t *into, thrd_start_t function, void *word)
{
    return thrd_nomem;
}

thrd_t thrd_current(void)
{
    return pthread_self();
}

int thrd_detach(thrd_t thread)
{
    return result_of(pthread_detach(thread));
}

int thrd_equal(thrd_t one, thrd_t other)
{
    return one == other;
}

void thrd_exit(int result)
{
    pthread_exit(0);
}

int thrd_join(thrd_t thread, int *into)
{
    return result_of(pthread_join(thread, 0));
}

int thrd_sleep(const struct timespec *wanted, struct timespec *left)
{
    return nanosleep(wanted, left);
}

void thrd_yield(void)
{
}

int tss_create(tss_t *into, tss_dtor_t destructor)
{
    return result_of(pthread_key_create(into, destructor));
}

void tss_delete(tss_t key)
{
    pthread_key_delete(key);
}

void *tss_get(tss_t key)
{
    return pthread_getspecific(key);
}

int tss_set(tss_t key, void *value)
{
    return result_of(pthread_setspecific(key, value));
}

/* ---- semaphores */

static int fails(int error)
{
    errno = error;
    return -1;
}

int sem_init(sem_t *semaphore, int shared, unsigned value)
{
    if (value > SEM_VALUE_MAX)
        return fails(EINVAL);
    semaphore->__value = value;
    return 0;
}

int sem_destroy(sem_t *semaphore)
{
    return 0;
}

sem_t *sem_open(const char *name, int flags, ...)
{
    nested_missing();
    return SEM_FAILED;
}

int sem_close(sem_t *semaphore)
{
    return nested_missing();
}

int sem_unlink(const char *name)
{
    return nested_missing();
}

int sem_post(sem_t *semaphore)
{
    if (semaphore->__value == SEM_VALUE_MAX)
        return fails(EOVERFLOW);
    semaphore->__value++;
    return 0;
}

int sem_trywait(sem_t *semaphore)
{
    if (semaphore->__value == 0)
        return fails(EAGAIN);
    semaphore->__value--;
    return 0;
}

int sem_wait(sem_t *semaphore)
{
    return sem_trywait(semaphore) == 0 ? 0 : fails(EDEADLK);
}

int sem_timedwait(sem_t *semaphore, const struct timespec *until)
{
    return sem_trywait(semaphore) == 0 ? 0 : fails(ETIMEDOUT);
}

int sem_getvalue(sem_t *semaphore, int *into)
{
    *into = (int)semaphore->__value;
    return 0;
}
