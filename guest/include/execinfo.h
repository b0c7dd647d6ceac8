/* Calls that are under way: none is told. */
#ifndef NESTED_EXECINFO_H
#define NESTED_EXECINFO_H

#ifdef __cplusplus
extern "C" {
#endif

int backtrace(void **into, int most);
char **backtrace_symbols(void *const *addresses, int count);
void backtrace_symbols_fd(void *const *addresses, int count, int fd);

#ifdef __cplusplus
}
#endif

#endif
