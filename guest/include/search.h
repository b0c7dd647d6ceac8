/* newlib's own, and searches in lists and arrays. */
#include_next <search.h>

#ifndef NESTED_SEARCH_H
#define NESTED_SEARCH_H

#include <stddef.h>

#ifdef __cplusplus
extern "C" {
#endif

void *lfind(const void *key, const void *array, size_t *count, size_t bytes, int (*compare)(const void *, const void *));
void *lsearch(const void *key, void *array, size_t *count, size_t bytes, int (*compare)(const void *, const void *));
void insque(void *element, void *before);
void remque(void *element);

#ifdef __cplusplus
}
#endif

#endif
