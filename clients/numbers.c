/* Prints a table of the functions on numbers: for each line of standard input, a function's name and the bits of its arguments in hex, the same with the answer's bits.
 * What else stands in a line is not read, so a table that was printed can be given again. A NaN is printed as 7FF8000000000000, or 7FC00000 for a float. */
#include <inttypes.h>
#include <stdio.h>
#include <stdlib.h>
#include <string.h>

#include "../include/numbers.h"

static double number(uint64_t bits) {
    double x;
    memcpy(&x, &bits, sizeof x);
    return x;
}

static uint64_t bits(double x) {
    uint64_t b;
    memcpy(&b, &x, sizeof b);
    return x == x ? b : UINT64_C(0x7FF8000000000000);
}

static uint32_t root32(uint32_t b) {
    float x;
    memcpy(&x, &b, sizeof x);
    x = numbers_root32(x);
    memcpy(&b, &x, sizeof b);
    return x == x ? b : UINT32_C(0x7FC00000);
}

static const struct { const char *name; double (*of)(double); } of_one[] = {
    {"log", numbers_log}, {"two", numbers_two}, {"exp", numbers_exp}, {"log10", numbers_log10}, {"root64", numbers_root64},
};

static const struct { const char *name; double (*of)(double, double); } of_two[] = {
    {"power", numbers_power}, {"angle", numbers_angle},
};

/* Prints one row; whether there is such a function with as many arguments. */
static int row(const char *name, int count, uint64_t a, uint64_t b) {
    if (count >= 1 && !strcmp(name, "root32"))
        return printf("%s %08" PRIX64 " %08" PRIX32 "\n", name, a, root32((uint32_t)a)) > 0;
    for (size_t i = 0; count >= 1 && i < sizeof of_one / sizeof *of_one; i++)
        if (!strcmp(name, of_one[i].name))
            return printf("%s %016" PRIX64 " %016" PRIX64 "\n", name, a, bits(of_one[i].of(number(a)))) > 0;
    for (size_t i = 0; count >= 2 && i < sizeof of_two / sizeof *of_two; i++)
        if (!strcmp(name, of_two[i].name))
            return printf("%s %016" PRIX64 " %016" PRIX64 " %016" PRIX64 "\n", name, a, b, bits(of_two[i].of(number(a), number(b)))) > 0;
    return 0;
}

int main(void) {
    char line[128], name[16];
    while (fgets(line, sizeof line, stdin)) {
        uint64_t a = 0, b = 0;
        int count = sscanf(line, "%15s %" SCNx64 " %" SCNx64, name, &a, &b);
        if (!row(name, count - 1, a, b)) {
            fprintf(stderr, "no function and arguments: %s", line);
            return EXIT_FAILURE;
        }
    }
    return 0;
}
