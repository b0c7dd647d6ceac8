/* Says hello, with a double. */
#include <stdio.h>

int main(int argc, char **argv)
{
    printf("hello, %s: %.3f\n", argc > 1 ? argv[1] : "guest", 22.0 / 7);
    return 0;
}
