/* Reads numbers from input, and says how they are spread. Its word is how many digits stand behind the point; its status, how many were read. */
#include <math.h>
#include <stdio.h>
#include <stdlib.h>
#include <string.h>

struct numbers {
    double *all;
    size_t count, room;
};

static void add(struct numbers *numbers, double number)
{
    if (numbers->count == numbers->room) {
        numbers->room = numbers->room * 2 + 4;
        numbers->all = realloc(numbers->all, numbers->room * sizeof *numbers->all);
        if (numbers->all == 0)
            abort();
    }
    numbers->all[numbers->count++] = number;
}

/* Adds the numbers of a line; what is none is passed over and told of. */
static void add_line(struct numbers *numbers, char *line)
{
    for (char *word = strtok(line, " \t\n"); word != 0; word = strtok(0, " \t\n")) {
        char *end;
        double number = strtod(word, &end);
        if (*end == 0)
            add(numbers, number);
        else
            printf("%s is no number\n", word);
    }
}

static int by_value(const void *a, const void *b)
{
    double x = *(const double *)a, y = *(const double *)b;
    return (x > y) - (x < y);
}

static void say(const struct numbers *numbers, int digits)
{
    double sum = 0, squares = 0, mean;
    for (size_t i = 0; i < numbers->count; i++)
        sum += numbers->all[i];
    mean = sum / (double)numbers->count;
    for (size_t i = 0; i < numbers->count; i++)
        squares += (numbers->all[i] - mean) * (numbers->all[i] - mean);
    printf("%zu numbers from %g to %g\n", numbers->count, numbers->all[0], numbers->all[numbers->count - 1]);
    printf("mean      %12.*f\n", digits, mean);
    printf("median    %12.*f\n", digits, numbers->all[numbers->count / 2]);
    printf("deviation %12.*f\n", digits, sqrt(squares / (double)numbers->count));
}

int main(int argc, char **argv)
{
    static char line[256];
    struct numbers numbers = { 0, 0, 0 };
    while (fgets(line, sizeof line, stdin))
        add_line(&numbers, line);
    if (numbers.count > 0) {
        qsort(numbers.all, numbers.count, sizeof *numbers.all, by_value);
        say(&numbers, argc > 1 ? atoi(argv[1]) : 2);
    }
    return (int)numbers.count;
}
