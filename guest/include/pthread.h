/* newlib's own, for threads of one thread. */
#include_next <pthread.h>

#ifndef NESTED_PTHREAD_H
#define NESTED_PTHREAD_H

#define PTHREAD_RECURSIVE_MUTEX_INITIALIZER_NP ((pthread_mutex_t)0xFFFFFFFE)
#define PTHREAD_ERRORCHECK_MUTEX_INITIALIZER_NP ((pthread_mutex_t)0xFFFFFFFD)

#define PTHREAD_PRIO_NONE 0
#define PTHREAD_PRIO_INHERIT 1
#define PTHREAD_PRIO_PROTECT 2
#define PTHREAD_MUTEX_STALLED 0
#define PTHREAD_MUTEX_ROBUST 1

#ifdef __cplusplus
extern "C" {
#endif

int pthread_cond_clockwait(pthread_cond_t *condition, pthread_mutex_t *mutex, clockid_t clock, const struct timespec *until);
int pthread_mutex_clocklock(pthread_mutex_t *mutex, clockid_t clock, const struct timespec *until);
int pthread_mutex_consistent(pthread_mutex_t *mutex);
int pthread_mutexattr_getprotocol(const pthread_mutexattr_t *attributes, int *into);
int pthread_mutexattr_setprotocol(pthread_mutexattr_t *attributes, int protocol);
int pthread_mutexattr_getrobust(const pthread_mutexattr_t *attributes, int *into);
int pthread_mutexattr_setrobust(pthread_mutexattr_t *attributes, int robust);
int pthread_rwlock_clockrdlock(pthread_rwlock_t *lock, clockid_t clock, const struct timespec *until);
int pthread_rwlock_clockwrlock(pthread_rwlock_t *lock, clockid_t clock, const struct timespec *until);

#ifdef __cplusplus
}
#endif

#endif
