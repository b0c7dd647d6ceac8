/* newlib's own, which C++ could not link. */
#ifndef NESTED_ENVZ_H
#define NESTED_ENVZ_H

#ifdef __cplusplus
extern "C" {
#endif

#include_next <envz.h>

#ifdef __cplusplus
}
#endif

#endif
