/* Chart difficulty for an editing station: thirteen calls on a chart and its two tables, thirteen for a second player over
 * the same chart, and two on a pack of charts.
 *
 * Lent by the caller, kept by the caller: no call allocates, keeps a pointer after it has returned, prints, or stops the program.
 *   chart    a buffer whose first bytes are the chart (docs/FORMAT.md), as many as the chart's own length field says; N is its count of objects.
 *            chart_length is the length of the buffer, which may be longer: objects are put in where it has room. Bytes behind the chart are not read
 *   records  the table of records, DIFFICULTY_RECORD numbers an entry: at least 16 * N numbers
 *   values   the table of values, DIFFICULTY_VALUES numbers an entry: at least 5 * N numbers
 *   scratch  four slices of at least DIFFICULTY_SCRATCH numbers, for the totals and what is worked out from them
 *   list     DIFFICULTY_TOTALS numbers an entry: at least 4 * (N + 1) numbers, for the totals while playing
 *   numbers  the DIFFICULTY_NUMBERS numbers that come with a call for ratings
 *   out      room for the numbers that a call answers
 *   settings  the second player's settings, DIFFICULTY_SETTINGS bytes; "Two players over one chart" below says what they are
 * Entry j of a table belongs to place j, from 1 to N - 1. Entry 0 and entries from N on, as N is after the call, are never written; nor are bytes of the
 * buffer behind the length that the chart has after the call.
 *
 * Every call answers 0 where it is carried out. Else it answers the refusal's number times 2^32 plus its place, and changes nothing:
 * chart, tables, scratch, list and out stay as they were. The first of these that is met is answered:
 *   1 header wrong, or a length field above the buffer's length   6 the chart is too long in time
 *   2 a setting outside its range                                 7 a table, scratch, list, numbers or out is too short
 *   3 an object's own fields wrong                                8 no such place
 *   4 a slider's nested entries or points wrong                   9 no room for another object: the buffer has fewer bytes behind the chart than
 *   5 an object that starts before the one before it                an object has, or N is 16,384
 *                                                                10 a number that comes with the call is not finite
 * 3, 4 and 5 have the lowest offending place, the others place 0.
 *
 * What is proved begins behind this header. Trusted of the caller, as of any caller in C:
 *   - these prototypes, unchanged, and a stack with room (under 4 KB were measured);
 *   - each pointer is not null (also where its length is 0), is aligned for its type and points to as many elements as the length says, all of them
 *     readable and initialised; what a call may write overlaps nothing else that it is lent;
 *   - no other thread writes what is lent, or reads what may be written, before the call has returned;
 *   - the thread is in C's default floating-point environment: rounding to nearest, subnormal numbers kept, no exception trapped. In another one (fesetround,
 *     feenableexcept, or FTZ and DAZ, which linking with -ffast-math can set for the whole program) a call works out other values, or an exception
 *     stops the program. station_guarded.h has the same calls for a host that cannot be sure of this.
 * Nothing is assumed of the contents or of the lengths. Two threads may call at once on slices of their own. A call may raise floating-point flags.
 *
 * Lengths count elements: bytes for chart, object and settings, numbers for all else.
 */
#ifndef STATION_H
#define STATION_H

#include <stddef.h>
#include <stdint.h>

#ifdef __cplusplus
extern "C" {
#endif

enum {
    DIFFICULTY_OBJECT = 56,         /* bytes of an object in a chart without stated lengths, whose word at 28 is 0 */
    DIFFICULTY_STATED_OBJECT = 64,  /* bytes of an object in a chart with stated lengths, whose word at 28 is 1 */
    DIFFICULTY_MOST = 16384,        /* objects of a chart at most */
    DIFFICULTY_SETTINGS = 48,       /* bytes of a player's settings; the first player's begin at byte 32 of the chart */
    DIFFICULTY_RECORD = 16,         /* numbers of a record */
    DIFFICULTY_VALUES = 5,          /* values of a place */
    DIFFICULTY_AIM = 18,            /* numbers of aim with its parts */
    DIFFICULTY_RHYTHM = 2,          /* numbers of a rhythm value with its comparisons */
    DIFFICULTY_TOTALS = 4,          /* totals of a chart, and numbers of an entry of the list of totals while playing */
    DIFFICULTY_COUNTS = 7,          /* counts of a chart */
    DIFFICULTY_RATINGS = 4,         /* ratings of a chart, the stars among them */
    DIFFICULTY_NUMBERS = 5,         /* numbers that come with a call for ratings */
    DIFFICULTY_LISTED = 256,        /* offsets of a list into a pack at most */
    DIFFICULTY_SCRATCH = 8192       /* numbers of scratch for each total */
};

/* The rule that answered aim at a place, as numbers 8 and 17 of difficulty_read_aim_parts. */
enum {
    DIFFICULTY_TOO_FEW = 0,    /* fewer than two records before: all parts are 0 */
    DIFFICULTY_SPINNER = 1,    /* the object or the one before it is a spinner: all parts are 0 */
    DIFFICULTY_ACUTE = 2,      /* the acute side of the last max, which answers on equal values too */
    DIFFICULTY_WIDE = 3        /* its wide side */
};

/* Bits of the word of mods that comes with a call for ratings. Hidden and autopilot of the chart's header are other ones: those steer the evaluators. */
enum {
    DIFFICULTY_AUTOPILOT = 1,
    DIFFICULTY_RELAX = 2,
    DIFFICULTY_TOUCH_DEVICE = 4,
    DIFFICULTY_HIDDEN = 8,
    DIFFICULTY_FLASHLIGHT = 16,
    DIFFICULTY_TRACEABLE = 32,
    DIFFICULTY_FADE_ONLY = 64
};

/* Bits of the word that says which numbers are given with it. */
enum {
    DIFFICULTY_ATTRACTION = 1,      /* attraction strength */
    DIFFICULTY_START_SCALE = 2      /* start scale */
};

/* The number (1 to 10) and the place of a refusal; the number of 0 is 0. */
static inline unsigned difficulty_number(uint64_t answer) { return (unsigned)(answer >> 32); }
static inline uint32_t difficulty_place(uint64_t answer) { return (uint32_t)answer; }

/* Bytes of an object of this chart, by its word at 28; no edit changes that. Where the word is neither 0 nor 1, or the buffer has no header, every call
 * refuses the chart (1). */
static inline size_t difficulty_object_size(const uint8_t *chart, size_t chart_length) {
    int stated = chart_length >= 32 && chart[28] == 1 && !chart[29] && !chart[30] && !chart[31];
    return stated ? DIFFICULTY_STATED_OBJECT : DIFFICULTY_OBJECT;
}

/* Checks a chart and fills its tables.
 * Conditions 1 to 7. Writes entries 1 to N - 1 of records and values. */
uint64_t difficulty_open(const uint8_t *chart, size_t chart_length,
                         double *records, size_t records_length,
                         double *values, size_t values_length);

/* Puts an object of difficulty_object_size bytes at a place (0 to N - 1) of the chart, and brings up to date the entries that it can change.
 * Conditions 1 to 7 for the chart as it is, 8, then 3 to 6 for the chart as it would become; an object of another length is 3 at that place.
 * Writes the bytes of that object in the chart, records place to place + 2 and values place - 1 to place + 33, as far as they lie in 1 to N - 1.
 * The tables must be those that difficulty_open filled for this chart, or they hold afterwards what follows from what they held. */
uint64_t difficulty_replace(uint8_t *chart, size_t chart_length, size_t place,
                            const uint8_t *object, size_t object_length,
                            double *records, size_t records_length,
                            double *values, size_t values_length);

/* Puts an object of difficulty_object_size bytes in before the object at a place, or behind the last for place N: objects from there on, nested entries and
 * points move up by as many bytes in the buffer, and count, offsets and length in the header follow. A slider uses nested entries and points that are there already.
 * Conditions 1 to 6 for the chart as it is, 7 where a table has fewer than N + 1 entries, 8 where the place is above N, 9; an object of another length is 3 at
 * that place; then 3 to 6 for the chart as it would become, with the places of that chart.
 * Writes the header's counts, offsets and length and the chart from that object on; in the tables the entries of objects behind it, which move one place up,
 * records place to place + 2 (to 3 for place 0) and values place - 1 to place + 33, as far as they lie in 1 to N, the places of the new chart.
 * The tables must be those of this chart, as for difficulty_replace. */
uint64_t difficulty_insert(uint8_t *chart, size_t chart_length, size_t place,
                           const uint8_t *object, size_t object_length,
                           double *records, size_t records_length,
                           double *values, size_t values_length);

/* Takes the object at a place (0 to N - 1) out: what lies behind it in the chart moves down by the bytes of an object, and count, offsets and length follow.
 * The last bytes of the old chart, as many, then lie behind the new one, as they were.
 * Conditions 1 to 7, 8; 3 to 6 for the chart as it would become are never met.
 * Writes the header's counts, offsets and length and the chart from that place on; in the tables the entries of objects behind it, which move one place down,
 * records place to place + 1 (to 2 for place 0) and values place - 1 to place + 32, as far as they lie in 1 to N - 2, the places of the new chart. Entry N - 1
 * keeps what it held.
 * The tables must be those of this chart, as for difficulty_replace. */
uint64_t difficulty_remove(uint8_t *chart, size_t chart_length, size_t place,
                           double *records, size_t records_length,
                           double *values, size_t values_length);

/* Writes the record of a place (1 to N - 1) to the first 16 numbers of out.
 * Conditions 1, 7, 8; 7 where out has fewer than 16 numbers, whatever N, or records fewer than N entries. In this order:
 *   0 start time, 1 delta time, 2 adjusted delta time, 3 lazy jump distance, 4 minimum jump distance, 5 minimum jump time,
 *   6 travel distance, 7 travel time, 8 and 9 lazy end x and y, 10 lazy travel distance, 11 lazy travel time, 12 angle,
 *   13 small circle bonus, 14 whether there is a lazy end (1 or 0), 15 whether there is an angle (1 or 0). */
uint64_t difficulty_read_record(const uint8_t *chart, size_t chart_length,
                                const double *records, size_t records_length, size_t place,
                                double *out, size_t out_length);

/* Writes the values of a place (1 to N - 1) to the first 5 numbers of out: aim, aim without sliders, speed, rhythm, flashlight.
 * Conditions 1, 7, 8; 7 where out has fewer than 5 numbers, whatever N, or values fewer than N entries. */
uint64_t difficulty_read_values(const uint8_t *chart, size_t chart_length,
                                const double *values, size_t values_length, size_t place,
                                double *out, size_t out_length);

/* Writes aim at a place (1 to N - 1) with its parts, worked out from the records, to the first 18 numbers of out.
 * Conditions 1, 7, 8; 7 where out has fewer than 18 numbers, whatever N, or records fewer than N entries. In this order:
 *   0 the value, 1 this velocity and 2 the one before, as they stand before the velocity change works them out again,
 *   3 wide, 4 acute, 5 wiggle, 6 velocity-change and 7 slider bonus, each without its multiplier, 8 the rule that answered (DIFFICULTY_TOO_FEW and so on);
 *   9 to 17 the same without sliders: their value does not take in the slider bonus, which 16 gives all the same.
 * For the tables of difficulty_open, after any edits, 0 and 9 are the first two numbers of difficulty_read_values. */
uint64_t difficulty_read_aim_parts(const uint8_t *chart, size_t chart_length,
                                   const double *records, size_t records_length, size_t place,
                                   double *out, size_t out_length);

/* Writes the rhythm value of a place (1 to N - 1), worked out from the records, to out, and behind it how often an island was compared with a kept one
 * for it: a whole number from 0 to 406.
 * Conditions 1, 7, 8; 7 where out has fewer than 2 numbers, whatever N, or records fewer than N entries.
 * For the tables of difficulty_open, after any edits, the value is number 3 of difficulty_read_values. */
uint64_t difficulty_read_rhythm(const uint8_t *chart, size_t chart_length,
                                const double *records, size_t records_length, size_t place,
                                double *out, size_t out_length);

/* Writes the totals over all values to the first 4 numbers of out: aim, aim without sliders, speed, flashlight.
 * Conditions 1 to 7; 7 where values has fewer than N entries, a slice of scratch fewer than 8,192 numbers, or out fewer than 4.
 * Carried out, all numbers of the four slices of scratch are 0. */
uint64_t difficulty_totals(const uint8_t *chart, size_t chart_length,
                           const double *values, size_t values_length,
                           double *aim, size_t aim_length,
                           double *aim_no_sliders, size_t aim_no_sliders_length,
                           double *speed, size_t speed_length,
                           double *flashlight, size_t flashlight_length,
                           double *out, size_t out_length);

/* Writes how many objects carry the chart, worked out from all values, to the first 7 numbers of out: weighted strains for aim, aim without sliders and speed,
 * weighted sliders for aim without sliders and speed, difficult sliders for aim, the relevant notes for speed.
 * Conditions and scratch are those of difficulty_totals; 7 where out has fewer than 7 numbers. */
uint64_t difficulty_counts(const uint8_t *chart, size_t chart_length,
                           const double *values, size_t values_length,
                           double *aim, size_t aim_length,
                           double *aim_no_sliders, size_t aim_no_sliders_length,
                           double *speed, size_t speed_length,
                           double *flashlight, size_t flashlight_length,
                           double *out, size_t out_length);

/* Writes the totals reached after the first m objects (0 to N), those over places 1 to m - 1, to the first 4 numbers of out: aim, aim without sliders, speed,
 * flashlight. Place m - 1 still sees the object behind it. For m = N they are those of difficulty_totals.
 * Conditions and scratch are those of difficulty_totals, then 8 where m is above N. */
uint64_t difficulty_totals_to(const uint8_t *chart, size_t chart_length,
                              const double *values, size_t values_length,
                              size_t m,
                              double *aim, size_t aim_length,
                              double *aim_no_sliders, size_t aim_no_sliders_length,
                              double *speed, size_t speed_length,
                              double *flashlight, size_t flashlight_length,
                              double *out, size_t out_length);

/* Writes the totals reached after every number of objects: entry m of the list, from 0 to N, gets what difficulty_totals_to answers for m. One walk fills it.
 * Entries behind N keep what they held.
 * Conditions and scratch are those of difficulty_totals; 7 too where the list has fewer than N + 1 entries. */
uint64_t difficulty_totals_while_playing(const uint8_t *chart, size_t chart_length,
                                         const double *values, size_t values_length,
                                         double *list, size_t list_length,
                                         double *aim, size_t aim_length,
                                         double *aim_no_sliders, size_t aim_no_sliders_length,
                                         double *speed, size_t speed_length,
                                         double *flashlight, size_t flashlight_length);

/* Writes the aim, speed and flashlight ratings and the stars to the first 4 numbers of out, under a word of mods (DIFFICULTY_HIDDEN and so on; other bits
 * are not read) and with five numbers: 0 approach rate, 1 overall difficulty, 2 base multiplier, and, where their bits of `given` are set (DIFFICULTY_ATTRACTION,
 * DIFFICULTY_START_SCALE; other bits are not read), 3 attraction strength and 4 start scale. One that is not given is not read; it has its place all the same.
 * Approach rate and overall difficulty are used as they come, not divided by the clock rate. A rating may be NaN.
 * Conditions and scratch are those of difficulty_totals; 7 too where numbers has fewer than 5; then 10 where a number that is given is not finite, also
 * where no rating reads it. */
uint64_t difficulty_ratings(const uint8_t *chart, size_t chart_length,
                            const double *values, size_t values_length,
                            uint32_t mods, uint32_t given, const double *numbers, size_t numbers_length,
                            double *aim, size_t aim_length,
                            double *aim_no_sliders, size_t aim_no_sliders_length,
                            double *speed, size_t speed_length,
                            double *flashlight, size_t flashlight_length,
                            double *out, size_t out_length);

/* Two players over one chart, say at normal and at double speed: both play the same objects, each with settings and tables of their own.
 *
 * The first player's settings are the header's, bytes 32 to 79 of the chart, and the calls above are that player's. The second player's are 48 bytes of the same
 * form that come with each call: five doubles, the factor and the flags, as docs/FORMAT.md has them from offset 32 on. For double speed they are a copy of the
 * header's with twice its clock rate. No call writes to them.
 *
 * A call whose name ends in _as takes and answers what the call without it does, as if these bytes stood in the header, with the second player's tables; the
 * header's own settings are not read. Settings of any other length are 2, right after 1, in every call; 1 is then that of the rest of the header. A reserved
 * bit set in their flags is 1. An `out` that is too short is 7, tried behind both.
 *
 * An edit whose name ends in _both brings the tables of both players up to date. One that is refused under either player's settings is refused for both and
 * changes nothing; the answer is the first player's refusal, and the second's where the first has none. An edit by a call for the first player alone leaves
 * the second player's tables behind the chart, until difficulty_open_as makes them anew.
 *
 * A player whose settings have changed is opened anew: difficulty_open writes nothing of the second player's tables, difficulty_open_as nothing of the first's.
 * All other calls need settings as that player's last opening had them; with others they answer, and edits leave, what follows from what the tables hold. */

/* Checks a chart under the second player's settings and fills that player's tables.
 * Conditions 1, 2 for settings of another length, then 2 to 7. Writes entries 1 to N - 1 of records and values. */
uint64_t difficulty_open_as(const uint8_t *chart, size_t chart_length, const uint8_t *settings, size_t settings_length,
                            double *records, size_t records_length,
                            double *values, size_t values_length);

/* The edits for both players. Each tries the conditions of the edit for one player, all of the first player's before the second's, with each player's
 * settings and tables. It writes to the chart, and to the tables of each player, what the edit for one player writes.
 * The tables must be those of this chart, each player's under that player's settings. */
uint64_t difficulty_replace_both(uint8_t *chart, size_t chart_length, const uint8_t *settings, size_t settings_length, size_t place,
                                 const uint8_t *object, size_t object_length,
                                 double *records, size_t records_length,
                                 double *values, size_t values_length,
                                 double *second_records, size_t second_records_length,
                                 double *second_values, size_t second_values_length);

uint64_t difficulty_insert_both(uint8_t *chart, size_t chart_length, const uint8_t *settings, size_t settings_length, size_t place,
                                const uint8_t *object, size_t object_length,
                                double *records, size_t records_length,
                                double *values, size_t values_length,
                                double *second_records, size_t second_records_length,
                                double *second_values, size_t second_values_length);

uint64_t difficulty_remove_both(uint8_t *chart, size_t chart_length, const uint8_t *settings, size_t settings_length, size_t place,
                                double *records, size_t records_length,
                                double *values, size_t values_length,
                                double *second_records, size_t second_records_length,
                                double *second_values, size_t second_values_length);

/* The readings for the second player: conditions 1, 2 for settings of another length, 7, 8. */
uint64_t difficulty_read_record_as(const uint8_t *chart, size_t chart_length, const uint8_t *settings, size_t settings_length,
                                   const double *records, size_t records_length, size_t place,
                                   double *out, size_t out_length);

uint64_t difficulty_read_values_as(const uint8_t *chart, size_t chart_length, const uint8_t *settings, size_t settings_length,
                                   const double *values, size_t values_length, size_t place,
                                   double *out, size_t out_length);

uint64_t difficulty_read_aim_parts_as(const uint8_t *chart, size_t chart_length, const uint8_t *settings, size_t settings_length,
                                      const double *records, size_t records_length, size_t place,
                                      double *out, size_t out_length);

uint64_t difficulty_read_rhythm_as(const uint8_t *chart, size_t chart_length, const uint8_t *settings, size_t settings_length,
                                   const double *records, size_t records_length, size_t place,
                                   double *out, size_t out_length);

/* What is worked out over all values, for the second player: conditions 1, 2 for settings of another length, then as in the call without _as. */
uint64_t difficulty_totals_as(const uint8_t *chart, size_t chart_length, const uint8_t *settings, size_t settings_length,
                              const double *values, size_t values_length,
                              double *aim, size_t aim_length,
                              double *aim_no_sliders, size_t aim_no_sliders_length,
                              double *speed, size_t speed_length,
                              double *flashlight, size_t flashlight_length,
                              double *out, size_t out_length);

uint64_t difficulty_counts_as(const uint8_t *chart, size_t chart_length, const uint8_t *settings, size_t settings_length,
                              const double *values, size_t values_length,
                              double *aim, size_t aim_length,
                              double *aim_no_sliders, size_t aim_no_sliders_length,
                              double *speed, size_t speed_length,
                              double *flashlight, size_t flashlight_length,
                              double *out, size_t out_length);

uint64_t difficulty_totals_to_as(const uint8_t *chart, size_t chart_length, const uint8_t *settings, size_t settings_length,
                                 const double *values, size_t values_length,
                                 size_t m,
                                 double *aim, size_t aim_length,
                                 double *aim_no_sliders, size_t aim_no_sliders_length,
                                 double *speed, size_t speed_length,
                                 double *flashlight, size_t flashlight_length,
                                 double *out, size_t out_length);

uint64_t difficulty_totals_while_playing_as(const uint8_t *chart, size_t chart_length, const uint8_t *settings, size_t settings_length,
                                            const double *values, size_t values_length,
                                            double *list, size_t list_length,
                                            double *aim, size_t aim_length,
                                            double *aim_no_sliders, size_t aim_no_sliders_length,
                                            double *speed, size_t speed_length,
                                            double *flashlight, size_t flashlight_length);

uint64_t difficulty_ratings_as(const uint8_t *chart, size_t chart_length, const uint8_t *settings, size_t settings_length,
                               const double *values, size_t values_length,
                               uint32_t mods, uint32_t given, const double *numbers, size_t numbers_length,
                               double *aim, size_t aim_length,
                               double *aim_no_sliders, size_t aim_no_sliders_length,
                               double *speed, size_t speed_length,
                               double *flashlight, size_t flashlight_length,
                               double *out, size_t out_length);

/* Puts a list of offsets into a pack in order, in its place. A pack is a buffer in which charts lie, anywhere; the chart at an offset has as many bytes as its
 * length field says. The order: by stars, then the aim, speed and flashlight totals, then the length, then the bytes from the front as unsigned numbers, the
 * higher chart first; a NaN is below every number, NaNs are alike, and so are both zeros. Charts of equal bytes stand by offset, the lower first. An offset may
 * be listed more than once. Mods, given and numbers are those of difficulty_ratings, the same for all charts.
 * Carried out, the tables stand as difficulty_open on the charts in the lent order leaves them, and all scratch is 0.
 * Conditions: 8 where the list has more than DIFFICULTY_LISTED offsets. Then each chart in the list's order, and nothing is written before all are tried: 1 where
 * it runs past the pack, 1 to 7 with both tables, scratch and numbers as lent, and 10. The first that meets one answers its number and place. With an empty
 * list no chart is tried. */
uint64_t difficulty_rank(const uint8_t *pack, size_t pack_length,
                         uint64_t *list, size_t list_length,
                         uint32_t mods, uint32_t given, const double *numbers, size_t numbers_length,
                         double *records, size_t records_length,
                         double *values, size_t values_length,
                         double *aim, size_t aim_length,
                         double *aim_no_sliders, size_t aim_no_sliders_length,
                         double *speed, size_t speed_length,
                         double *flashlight, size_t flashlight_length);

/* The same for two lists that lie one behind the other, the first of them `first` long: they are put in order as one, whether or not they were ranked. Where
 * both were, they are merged. A first above list_length counts as list_length. */
uint64_t difficulty_join(const uint8_t *pack, size_t pack_length,
                         uint64_t *list, size_t list_length, size_t first,
                         uint32_t mods, uint32_t given, const double *numbers, size_t numbers_length,
                         double *records, size_t records_length,
                         double *values, size_t values_length,
                         double *aim, size_t aim_length,
                         double *aim_no_sliders, size_t aim_no_sliders_length,
                         double *speed, size_t speed_length,
                         double *flashlight, size_t flashlight_length);

#ifdef __cplusplus
}
#endif

#endif
