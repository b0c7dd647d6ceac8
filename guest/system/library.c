/* A program whose functions Java calls, and which is no command. */
#include <nested/resident.h>

#include <unistd.h>

/* It comes back where the host calls no functions (resident.S). */
void nested_resident(const struct nested_function *table);

int nested_library(const struct nested_function *table)
{
    static const char text[] = "this program is a library: Java calls its functions by Call.library\n";

    nested_resident(table);
    write(2, text, sizeof text - 1);
    return 1;
}
