/* Programs that stay, and whose functions Java calls (docs/LIBC.md). nested-library writes all of this itself; a program with a main or a
 * table of its own includes this header. */
#ifndef NESTED_RESIDENT_H
#define NESTED_RESIDENT_H

#ifdef __cplusplus
extern "C" {
#endif

/* A function that Java finds by its name. An entry without a name ends a table of them. */
struct nested_function {
    const char *name;
    const void *function;
};

#define NESTED_FUNCTION(function) { #function, (const void *)(function) }
#define NESTED_END { 0, 0 }

/* Hands the table to the host, and stays: main goes no further. It returns where the program was not started by Java's Call.library, and gives
 * the status with which main is to end. */
int nested_library(const struct nested_function *table);

/* The table that nested-library has made of the names behind --functions. */
extern const struct nested_function nested_functions[];

#ifdef __cplusplus
}
#endif

#endif
