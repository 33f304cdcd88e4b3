/* Opens a chart, drags one of its objects a thousand times, puts one in and takes two out, and prints what a station would show; then edits it for two players, the second at
 * double and at half speed. client.rs does the same.
 * Every call is guarded: it gives the same bits whatever rounding, flushing or traps a host has set. */
#include <inttypes.h>
#include <math.h>
#include <stdio.h>
#include <stdlib.h>
#include <string.h>

#include "../include/station_guarded.h"

struct station {
    uint8_t *chart;
    size_t length, objects, object_size;
    double *records, *values, *scratch[4];
    size_t records_length, values_length;
};

static void *claim(size_t count, size_t size) {
    void *p = calloc(count + 1, size);
    if (!p) { fputs("out of memory\n", stderr); exit(1); }
    return p;
}

/* The file, in a buffer with room for one object more, and the bytes of an object. */
static uint8_t *read_file(const char *name, size_t *length, size_t *object_size) {
    FILE *f = fopen(name, "rb");
    if (!f) { perror(name); exit(1); }
    fseek(f, 0, SEEK_END);
    *length = (size_t)ftell(f);
    rewind(f);
    uint8_t *bytes = claim(*length + DIFFICULTY_STATED_OBJECT, 1);
    if (fread(bytes, 1, *length, f) != *length) { perror(name); exit(1); }
    fclose(f);
    *object_size = difficulty_object_size(bytes, *length);
    *length += *object_size;
    return bytes;
}

static void print_answer(const char *what, uint64_t answer) {
    if (answer == 0) printf("%s: carried out\n", what);
    else printf("%s: refused %u %" PRIu32 "\n", what, difficulty_number(answer), difficulty_place(answer));
}

static void print_numbers(const char *what, const double *numbers, size_t count) {
    printf("%s", what);
    for (size_t i = 0; i < count; i++) {
        uint64_t bits;
        memcpy(&bits, &numbers[i], 8);
        printf(" %016" PRIX64, bits);
    }
    printf("\n");
}

static uint64_t replace(struct station *s, size_t place, const uint8_t *object, size_t length) {
    return difficulty_guarded_replace(s->chart, s->length, place, object, length, s->records, s->records_length, s->values, s->values_length);
}

static uint64_t insert(struct station *s, size_t place, const uint8_t *object) {
    return difficulty_guarded_insert(s->chart, s->length, place, object, s->object_size, s->records, s->records_length, s->values, s->values_length);
}

static uint64_t take_out(struct station *s, size_t place) {
    return difficulty_guarded_remove(s->chart, s->length, place, s->records, s->records_length, s->values, s->values_length);
}

/* A figure's numbers, or its refusal. */
static void print_figure(const char *what, uint64_t answer, const double *numbers, size_t count) {
    if (answer == 0) print_numbers(what, numbers, count);
    else print_answer(what, answer);
}

/* What each figure is lent: the chart with its values, and scratch. */
#define OPENED(s) (s)->chart, (s)->length, (s)->values, (s)->values_length
#define SCRATCH(s) (s)->scratch[0], DIFFICULTY_SCRATCH, (s)->scratch[1], DIFFICULTY_SCRATCH, (s)->scratch[2], DIFFICULTY_SCRATCH, (s)->scratch[3], DIFFICULTY_SCRATCH

static size_t count_of(const struct station *s) {
    return s->chart[0] | (uint32_t)s->chart[1] << 8 | (uint32_t)s->chart[2] << 16 | (uint32_t)s->chart[3] << 24;
}

static void show(struct station *s, size_t place) {
    double out[DIFFICULTY_AIM];
    if (difficulty_guarded_read_values(s->chart, s->length, s->values, s->values_length, place, out, DIFFICULTY_VALUES) == 0)
        print_numbers("values", out, DIFFICULTY_VALUES);
    if (difficulty_guarded_read_record(s->chart, s->length, s->records, s->records_length, place, out, DIFFICULTY_RECORD) == 0)
        print_numbers("record", out, DIFFICULTY_RECORD);
    if (difficulty_guarded_read_aim_parts(s->chart, s->length, s->records, s->records_length, place, out, DIFFICULTY_AIM) == 0)
        print_numbers("parts", out, DIFFICULTY_AIM);
    if (difficulty_guarded_read_rhythm(s->chart, s->length, s->records, s->records_length, place, out, DIFFICULTY_RHYTHM) == 0)
        print_numbers("rhythm", out, DIFFICULTY_RHYTHM);
    print_figure("totals", difficulty_guarded_totals(OPENED(s), SCRATCH(s), out, DIFFICULTY_TOTALS), out, DIFFICULTY_TOTALS);
    print_figure("counts", difficulty_guarded_counts(OPENED(s), SCRATCH(s), out, DIFFICULTY_COUNTS), out, DIFFICULTY_COUNTS);
    print_figure("prefix", difficulty_guarded_totals_to(OPENED(s), place, SCRATCH(s), out, DIFFICULTY_TOTALS), out, DIFFICULTY_TOTALS);
    const double numbers[DIFFICULTY_NUMBERS] = {9.5, 8.0, 1.14, INFINITY, 2.0}; /* attraction strength is not given, and not read */
    uint32_t mods = DIFFICULTY_HIDDEN | DIFFICULTY_FLASHLIGHT;
    uint64_t answer = difficulty_guarded_ratings(OPENED(s), mods, DIFFICULTY_START_SCALE, numbers, DIFFICULTY_NUMBERS, SCRATCH(s), out, DIFFICULTY_RATINGS);
    print_figure("ratings", answer, out, DIFFICULTY_RATINGS);
}

/* The totals while playing, for all numbers of objects; then a list one entry short (7), one object too many (8) and a base multiplier that is not finite (10). */
static void show_playing(struct station *s) {
    double *list = claim(DIFFICULTY_TOTALS * (s->objects + 2), sizeof(double)), out[DIFFICULTY_TOTALS];
    size_t n = count_of(s), length = DIFFICULTY_TOTALS * (n + 1);
    print_figure("prefixes", difficulty_guarded_totals_while_playing(OPENED(s), list, length, SCRATCH(s)), list, length);
    print_figure("prefixes", difficulty_guarded_totals_while_playing(OPENED(s), list, length - 1, SCRATCH(s)), list, length);
    print_figure("prefix", difficulty_guarded_totals_to(OPENED(s), n + 1, SCRATCH(s), out, DIFFICULTY_TOTALS), out, DIFFICULTY_TOTALS);
    const double numbers[DIFFICULTY_NUMBERS] = {9.5, 8.0, INFINITY, 0.0, 0.0};
    uint64_t answer = difficulty_guarded_ratings(OPENED(s), 0, 0, numbers, DIFFICULTY_NUMBERS, SCRATCH(s), out, DIFFICULTY_RATINGS);
    print_figure("ratings", answer, out, DIFFICULTY_RATINGS);
    free(list);
}

/* Moves the object to and fro. Every tenth step drops it outside the field (3), every seventeenth past the last place (8), every
 * twenty-third is cut short (3 at its place). */
static void drag(struct station *s, size_t place) {
    uint8_t object[DIFFICULTY_STATED_OBJECT];
    unsigned answers[10] = {0};
    memcpy(object, s->chart + 80 + s->object_size * place, s->object_size);
    for (int step = 0; step < 1000; step++) {
        float x = step % 10 == 9 ? 200000.0f : 100.0f + (float)(step % 40 < 20 ? step % 20 : 20 - step % 20);
        memcpy(object + 16, &x, 4);
        uint64_t answer = replace(s, step % 17 == 16 ? s->objects : place, object, step % 23 == 22 ? 40 : s->object_size);
        answers[difficulty_number(answer)]++;
        if (step % 250 == 0) show(s, place);
    }
    for (unsigned n = 0; n < 10; n++)
        if (answers[n] && n) printf("refused %u: %u times\n", n, answers[n]);
        else if (answers[n]) printf("carried out: %u times\n", answers[n]);
}

/* Puts a copy of the object in before it; a second finds no room for another (9). Then the first object of the chart goes out, the copy, and one past the last (8). */
static void put_in_and_take_out(struct station *s, size_t place) {
    uint8_t object[DIFFICULTY_STATED_OBJECT];
    memcpy(object, s->chart + 80 + s->object_size * place, s->object_size);
    print_answer("insertion", insert(s, place, object));
    show(s, place);
    print_answer("insertion", insert(s, place, object));
    print_answer("removal", take_out(s, 0));
    show(s, place);
    print_answer("removal", take_out(s, place - 1));
    print_answer("removal", take_out(s, s->objects - 1));
    show(s, place - 1);
}

/* The second player: settings and tables of that player's own, as long as the first player's. */
struct player {
    uint8_t settings[DIFFICULTY_SETTINGS];
    double *records, *values;
};

/* What each call for the second player is lent first, and the four tables of an edit for both. */
#define SECOND(s, p) (s)->chart, (s)->length, (p)->settings, DIFFICULTY_SETTINGS
#define TABLES(s, p) (s)->records, (s)->records_length, (s)->values, (s)->values_length, (p)->records, (s)->records_length, (p)->values, (s)->values_length

/* The header's settings with its clock rate times a power of two. */
static void set_speed(const struct station *s, struct player *p, double speed) {
    double clock;
    memcpy(p->settings, s->chart + 32, DIFFICULTY_SETTINGS);
    memcpy(&clock, p->settings, 8);
    clock *= speed;
    memcpy(p->settings, &clock, 8);
}

static void open_second(struct station *s, struct player *p, size_t length) {
    uint64_t answer = difficulty_guarded_open_as(s->chart, s->length, p->settings, length, p->records, s->records_length, p->values, s->values_length);
    print_answer("opening", answer);
}

static void show_second(struct station *s, struct player *p, size_t place) {
    double out[DIFFICULTY_AIM];
    if (difficulty_guarded_read_values_as(SECOND(s, p), p->values, s->values_length, place, out, DIFFICULTY_VALUES) == 0)
        print_numbers("values", out, DIFFICULTY_VALUES);
    if (difficulty_guarded_read_record_as(SECOND(s, p), p->records, s->records_length, place, out, DIFFICULTY_RECORD) == 0)
        print_numbers("record", out, DIFFICULTY_RECORD);
    if (difficulty_guarded_read_aim_parts_as(SECOND(s, p), p->records, s->records_length, place, out, DIFFICULTY_AIM) == 0)
        print_numbers("parts", out, DIFFICULTY_AIM);
    if (difficulty_guarded_read_rhythm_as(SECOND(s, p), p->records, s->records_length, place, out, DIFFICULTY_RHYTHM) == 0)
        print_numbers("rhythm", out, DIFFICULTY_RHYTHM);
    uint64_t answer = difficulty_guarded_totals_as(SECOND(s, p), p->values, s->values_length, SCRATCH(s), out, DIFFICULTY_TOTALS);
    print_figure("totals", answer, out, DIFFICULTY_TOTALS);
    answer = difficulty_guarded_counts_as(SECOND(s, p), p->values, s->values_length, SCRATCH(s), out, DIFFICULTY_COUNTS);
    print_figure("counts", answer, out, DIFFICULTY_COUNTS);
    answer = difficulty_guarded_totals_to_as(SECOND(s, p), p->values, s->values_length, place, SCRATCH(s), out, DIFFICULTY_TOTALS);
    print_figure("prefix", answer, out, DIFFICULTY_TOTALS);
    const double numbers[DIFFICULTY_NUMBERS] = {9.5, 8.0, 1.14, INFINITY, 2.0};
    answer = difficulty_guarded_ratings_as(SECOND(s, p), p->values, s->values_length, DIFFICULTY_HIDDEN | DIFFICULTY_FLASHLIGHT, DIFFICULTY_START_SCALE,
                                           numbers, DIFFICULTY_NUMBERS, SCRATCH(s), out, DIFFICULTY_RATINGS);
    print_figure("ratings", answer, out, DIFFICULTY_RATINGS);
}

/* The second player's totals while playing. */
static void show_second_playing(struct station *s, struct player *p) {
    size_t length = DIFFICULTY_TOTALS * (count_of(s) + 1);
    double *list = claim(length, sizeof(double));
    uint64_t answer = difficulty_guarded_totals_while_playing_as(SECOND(s, p), p->values, s->values_length, list, length, SCRATCH(s));
    print_figure("prefixes", answer, list, length);
    free(list);
}

/* Puts a circle at the last place for both players that starts so many milliseconds in, as the first player plays. */
static void put_late(struct station *s, struct player *p, double milliseconds) {
    uint8_t object[DIFFICULTY_STATED_OBJECT] = {0};
    double clock, time;
    memcpy(&clock, s->chart + 32, 8);
    time = milliseconds * clock;
    memcpy(object, &time, 8);
    memcpy(object + 8, &time, 8);
    print_answer("replacement", difficulty_guarded_replace_both(SECOND(s, p), count_of(s) - 1, object, s->object_size, TABLES(s, p)));
}

/* Opens for a second player, whose settings of 47 bytes are refused (2), and edits for both: an object moved, a copy of it put in, the first object taken out. A circle
 * 4,000 seconds in is too late at normal speed alone (6), and one 2,000 seconds in at half speed alone, for which the second player is opened anew. */
static void two_players(struct station *s, struct player *p, size_t place) {
    uint8_t object[DIFFICULTY_STATED_OBJECT];
    const float x = 300.0f;
    puts("second player at double speed");
    set_speed(s, p, 2.0);
    open_second(s, p, DIFFICULTY_SETTINGS - 1);
    open_second(s, p, DIFFICULTY_SETTINGS);
    show_second(s, p, place);
    memcpy(object, s->chart + 80 + s->object_size * place, s->object_size);
    memcpy(object + 16, &x, 4);
    print_answer("replacement", difficulty_guarded_replace_both(SECOND(s, p), place, object, s->object_size, TABLES(s, p)));
    print_answer("insertion", difficulty_guarded_insert_both(SECOND(s, p), place, object, s->object_size, TABLES(s, p)));
    print_answer("removal", difficulty_guarded_remove_both(SECOND(s, p), 0, TABLES(s, p)));
    put_late(s, p, 4e6);
    show(s, place);
    show_second(s, p, place);
    puts("second player at half speed");
    set_speed(s, p, 0.5);
    open_second(s, p, DIFFICULTY_SETTINGS);
    put_late(s, p, 2e6);
    show(s, place);
    show_second(s, p, place);
    show_second_playing(s, p);
}

int main(int count, char **arguments) {
    if (count != 2) { fputs("usage: client CHART\n", stderr); return 2; }
    struct station s = {0};
    struct player second = {0};
    s.chart = read_file(arguments[1], &s.length, &s.object_size);
    size_t n = s.length >= 4 ? count_of(&s) : 0;
    s.objects = n <= DIFFICULTY_MOST ? n : 0;
    s.records_length = DIFFICULTY_RECORD * (s.objects + 2);
    s.values_length = DIFFICULTY_VALUES * (s.objects + 2);
    s.records = claim(s.records_length, sizeof(double));
    s.values = claim(s.values_length, sizeof(double));
    second.records = claim(s.records_length, sizeof(double));
    second.values = claim(s.values_length, sizeof(double));
    for (int i = 0; i < 4; i++) s.scratch[i] = claim(DIFFICULTY_SCRATCH, sizeof(double));
    printf("objects %zu\n", s.objects);
    uint64_t answer = difficulty_guarded_open(s.chart, s.length, s.records, s.records_length, s.values, s.values_length);
    print_answer("opening", answer);
    if (answer == 0 && s.objects > 1) {
        show(&s, s.objects / 2);
        show_playing(&s);
        drag(&s, s.objects / 2);
        show(&s, s.objects / 2);
        put_in_and_take_out(&s, s.objects / 2);
        show_playing(&s);
        two_players(&s, &second, (s.objects - 1) / 2);
    }
    for (int i = 0; i < 4; i++) free(s.scratch[i]);
    free(second.values);
    free(second.records);
    free(s.values);
    free(s.records);
    free(s.chart);
    return 0;
}
