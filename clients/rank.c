/* Lays charts one behind the other in a pack and ranks them: prints the offsets in order, the higher chart first, or why they are not ranked. Then both halves are
 * ranked alone and joined, which prints the same.
 *
 *     rank CHART..
 */
#include <stdio.h>
#include <stdlib.h>
#include <string.h>

#include "../include/station_guarded.h"

enum { PACK = 1 << 20 };

static uint8_t pack[PACK];
static double records[DIFFICULTY_RECORD * DIFFICULTY_MOST], values[DIFFICULTY_VALUES * DIFFICULTY_MOST];
static double scratch[4][DIFFICULTY_SCRATCH];
static const double numbers[DIFFICULTY_NUMBERS] = {9.5, 8, 1.14, 0, 0};

static uint64_t join(size_t used, uint64_t *list, size_t length, size_t first) {
    return difficulty_guarded_join(pack, used, list, length, first, DIFFICULTY_HIDDEN, 0, numbers, DIFFICULTY_NUMBERS, records, sizeof records / sizeof *records,
                                   values, sizeof values / sizeof *values, scratch[0], DIFFICULTY_SCRATCH, scratch[1], DIFFICULTY_SCRATCH,
                                   scratch[2], DIFFICULTY_SCRATCH, scratch[3], DIFFICULTY_SCRATCH);
}

static void print_answer(uint64_t answer, const uint64_t *list, size_t length) {
    if (answer != 0) {
        printf("refused %u %u\n", (unsigned)(answer >> 32), (unsigned)(answer & 0xFFFFFFFF));
        return;
    }
    printf("listing");
    for (size_t i = 0; i < length; i++) printf(" %llu", (unsigned long long)list[i]);
    printf("\n");
}

int main(int argc, char **argv) {
    uint64_t list[DIFFICULTY_LISTED], parts[DIFFICULTY_LISTED];
    size_t used = 0, length = 0;
    for (int i = 1; i < argc && length < DIFFICULTY_LISTED; i++) {
        FILE *file = fopen(argv[i], "rb");
        if (file == NULL) {
            perror(argv[i]);
            return EXIT_FAILURE;
        }
        list[length++] = used;
        used += fread(pack + used, 1, PACK - used, file);
        fclose(file);
    }
    memcpy(parts, list, sizeof list);
    print_answer(join(used, list, length, 0), list, length);
    size_t half = length / 2;
    join(used, parts, half, 0);
    join(used, parts + half, length - half, 0);
    print_answer(join(used, parts, length, half), parts, length);
    return EXIT_SUCCESS;
}
