/* The calls of station.h for a host that changes the floating-point environment of its threads.
 *
 * difficulty_guarded_NAME takes and answers what difficulty_NAME does. Before the call it saves the thread's environment and sets the default one (rounding
 * to nearest, subnormal numbers kept, no exception trapped, no flag raised); afterwards the environment is the host's again, its raised flags among it.
 * It uses <fenv.h>: link with -lm. It was measured to add 0.2 microseconds to a call.
 *
 * Each is a function of its own that is never inlined: a compiler which thinks that arithmetic does not depend on the environment could else move
 * arithmetic of the host to between the two calls that change it. Here there is none to move, and calls of external functions keep their order.
 */
#ifndef STATION_GUARDED_H
#define STATION_GUARDED_H

#include <fenv.h>

#include "station.h"

#if !defined(__GNUC__)
#error "station_guarded.h needs a compiler with __attribute__((noinline)), as gcc and clang"
#endif
#define DIFFICULTY_GUARDED __attribute__((noinline, unused)) static uint64_t

/* Neither can fail on x86-64, where the library runs. */
__attribute__((unused)) static inline void difficulty_enter(fenv_t *host) {
    fegetenv(host);
    fesetenv(FE_DFL_ENV);
}

__attribute__((unused)) static inline uint64_t difficulty_leave(const fenv_t *host, uint64_t answer) {
    fesetenv(host);
    return answer;
}

DIFFICULTY_GUARDED difficulty_guarded_open(const uint8_t *chart, size_t chart_length,
                                           double *records, size_t records_length,
                                           double *values, size_t values_length) {
    fenv_t host;
    difficulty_enter(&host);
    return difficulty_leave(&host, difficulty_open(chart, chart_length, records, records_length, values, values_length));
}

DIFFICULTY_GUARDED difficulty_guarded_replace(uint8_t *chart, size_t chart_length, size_t place,
                                              const uint8_t *object, size_t object_length,
                                              double *records, size_t records_length,
                                              double *values, size_t values_length) {
    fenv_t host;
    difficulty_enter(&host);
    return difficulty_leave(&host, difficulty_replace(chart, chart_length, place, object, object_length, records, records_length, values, values_length));
}

DIFFICULTY_GUARDED difficulty_guarded_insert(uint8_t *chart, size_t chart_length, size_t place,
                                             const uint8_t *object, size_t object_length,
                                             double *records, size_t records_length,
                                             double *values, size_t values_length) {
    fenv_t host;
    difficulty_enter(&host);
    return difficulty_leave(&host, difficulty_insert(chart, chart_length, place, object, object_length, records, records_length, values, values_length));
}

DIFFICULTY_GUARDED difficulty_guarded_remove(uint8_t *chart, size_t chart_length, size_t place,
                                             double *records, size_t records_length,
                                             double *values, size_t values_length) {
    fenv_t host;
    difficulty_enter(&host);
    return difficulty_leave(&host, difficulty_remove(chart, chart_length, place, records, records_length, values, values_length));
}

DIFFICULTY_GUARDED difficulty_guarded_read_record(const uint8_t *chart, size_t chart_length,
                                                  const double *records, size_t records_length, size_t place,
                                                  double *out, size_t out_length) {
    fenv_t host;
    difficulty_enter(&host);
    return difficulty_leave(&host, difficulty_read_record(chart, chart_length, records, records_length, place, out, out_length));
}

DIFFICULTY_GUARDED difficulty_guarded_read_values(const uint8_t *chart, size_t chart_length,
                                                  const double *values, size_t values_length, size_t place,
                                                  double *out, size_t out_length) {
    fenv_t host;
    difficulty_enter(&host);
    return difficulty_leave(&host, difficulty_read_values(chart, chart_length, values, values_length, place, out, out_length));
}

DIFFICULTY_GUARDED difficulty_guarded_read_aim_parts(const uint8_t *chart, size_t chart_length,
                                                     const double *records, size_t records_length, size_t place,
                                                     double *out, size_t out_length) {
    fenv_t host;
    difficulty_enter(&host);
    return difficulty_leave(&host, difficulty_read_aim_parts(chart, chart_length, records, records_length, place, out, out_length));
}

DIFFICULTY_GUARDED difficulty_guarded_read_rhythm(const uint8_t *chart, size_t chart_length,
                                                  const double *records, size_t records_length, size_t place,
                                                  double *out, size_t out_length) {
    fenv_t host;
    difficulty_enter(&host);
    return difficulty_leave(&host, difficulty_read_rhythm(chart, chart_length, records, records_length, place, out, out_length));
}

DIFFICULTY_GUARDED difficulty_guarded_totals(const uint8_t *chart, size_t chart_length,
                                             const double *values, size_t values_length,
                                             double *aim, size_t aim_length,
                                             double *aim_no_sliders, size_t aim_no_sliders_length,
                                             double *speed, size_t speed_length,
                                             double *flashlight, size_t flashlight_length,
                                             double *out, size_t out_length) {
    fenv_t host;
    difficulty_enter(&host);
    return difficulty_leave(&host, difficulty_totals(chart, chart_length, values, values_length, aim, aim_length, aim_no_sliders, aim_no_sliders_length,
                                                     speed, speed_length, flashlight, flashlight_length, out, out_length));
}

DIFFICULTY_GUARDED difficulty_guarded_counts(const uint8_t *chart, size_t chart_length,
                                             const double *values, size_t values_length,
                                             double *aim, size_t aim_length,
                                             double *aim_no_sliders, size_t aim_no_sliders_length,
                                             double *speed, size_t speed_length,
                                             double *flashlight, size_t flashlight_length,
                                             double *out, size_t out_length) {
    fenv_t host;
    difficulty_enter(&host);
    return difficulty_leave(&host, difficulty_counts(chart, chart_length, values, values_length, aim, aim_length,
                                                     aim_no_sliders, aim_no_sliders_length, speed, speed_length,
                                                     flashlight, flashlight_length, out, out_length));
}

DIFFICULTY_GUARDED difficulty_guarded_totals_to(const uint8_t *chart, size_t chart_length,
                                                const double *values, size_t values_length,
                                                size_t m,
                                                double *aim, size_t aim_length,
                                                double *aim_no_sliders, size_t aim_no_sliders_length,
                                                double *speed, size_t speed_length,
                                                double *flashlight, size_t flashlight_length,
                                                double *out, size_t out_length) {
    fenv_t host;
    difficulty_enter(&host);
    return difficulty_leave(&host, difficulty_totals_to(chart, chart_length, values, values_length, m, aim, aim_length,
                                                        aim_no_sliders, aim_no_sliders_length, speed, speed_length,
                                                        flashlight, flashlight_length, out, out_length));
}

DIFFICULTY_GUARDED difficulty_guarded_totals_while_playing(const uint8_t *chart, size_t chart_length,
                                                           const double *values, size_t values_length,
                                                           double *list, size_t list_length,
                                                           double *aim, size_t aim_length,
                                                           double *aim_no_sliders, size_t aim_no_sliders_length,
                                                           double *speed, size_t speed_length,
                                                           double *flashlight, size_t flashlight_length) {
    fenv_t host;
    difficulty_enter(&host);
    return difficulty_leave(&host, difficulty_totals_while_playing(chart, chart_length, values, values_length, list, list_length, aim, aim_length,
                                                                   aim_no_sliders, aim_no_sliders_length, speed, speed_length,
                                                                   flashlight, flashlight_length));
}

DIFFICULTY_GUARDED difficulty_guarded_ratings(const uint8_t *chart, size_t chart_length,
                                              const double *values, size_t values_length,
                                              uint32_t mods, uint32_t given, const double *numbers, size_t numbers_length,
                                              double *aim, size_t aim_length,
                                              double *aim_no_sliders, size_t aim_no_sliders_length,
                                              double *speed, size_t speed_length,
                                              double *flashlight, size_t flashlight_length,
                                              double *out, size_t out_length) {
    fenv_t host;
    difficulty_enter(&host);
    return difficulty_leave(&host, difficulty_ratings(chart, chart_length, values, values_length, mods, given, numbers, numbers_length, aim, aim_length,
                                                      aim_no_sliders, aim_no_sliders_length, speed, speed_length,
                                                      flashlight, flashlight_length, out, out_length));
}

DIFFICULTY_GUARDED difficulty_guarded_open_as(const uint8_t *chart, size_t chart_length, const uint8_t *settings, size_t settings_length,
                                              double *records, size_t records_length,
                                              double *values, size_t values_length) {
    fenv_t host;
    difficulty_enter(&host);
    return difficulty_leave(&host, difficulty_open_as(chart, chart_length, settings, settings_length, records, records_length, values, values_length));
}

DIFFICULTY_GUARDED difficulty_guarded_replace_both(uint8_t *chart, size_t chart_length, const uint8_t *settings, size_t settings_length, size_t place,
                                                   const uint8_t *object, size_t object_length,
                                                   double *records, size_t records_length,
                                                   double *values, size_t values_length,
                                                   double *second_records, size_t second_records_length,
                                                   double *second_values, size_t second_values_length) {
    fenv_t host;
    difficulty_enter(&host);
    return difficulty_leave(&host, difficulty_replace_both(chart, chart_length, settings, settings_length, place, object, object_length, records,
                                                           records_length, values, values_length, second_records, second_records_length, second_values,
                                                           second_values_length));
}

DIFFICULTY_GUARDED difficulty_guarded_insert_both(uint8_t *chart, size_t chart_length, const uint8_t *settings, size_t settings_length, size_t place,
                                                  const uint8_t *object, size_t object_length,
                                                  double *records, size_t records_length,
                                                  double *values, size_t values_length,
                                                  double *second_records, size_t second_records_length,
                                                  double *second_values, size_t second_values_length) {
    fenv_t host;
    difficulty_enter(&host);
    return difficulty_leave(&host, difficulty_insert_both(chart, chart_length, settings, settings_length, place, object, object_length, records,
                                                          records_length, values, values_length, second_records, second_records_length, second_values,
                                                          second_values_length));
}

DIFFICULTY_GUARDED difficulty_guarded_remove_both(uint8_t *chart, size_t chart_length, const uint8_t *settings, size_t settings_length, size_t place,
                                                  double *records, size_t records_length,
                                                  double *values, size_t values_length,
                                                  double *second_records, size_t second_records_length,
                                                  double *second_values, size_t second_values_length) {
    fenv_t host;
    difficulty_enter(&host);
    return difficulty_leave(&host, difficulty_remove_both(chart, chart_length, settings, settings_length, place, records, records_length, values,
                                                          values_length, second_records, second_records_length, second_values, second_values_length));
}

DIFFICULTY_GUARDED difficulty_guarded_read_record_as(const uint8_t *chart, size_t chart_length, const uint8_t *settings, size_t settings_length,
                                                     const double *records, size_t records_length, size_t place,
                                                     double *out, size_t out_length) {
    fenv_t host;
    difficulty_enter(&host);
    return difficulty_leave(&host, difficulty_read_record_as(chart, chart_length, settings, settings_length, records, records_length, place, out, out_length));
}

DIFFICULTY_GUARDED difficulty_guarded_read_values_as(const uint8_t *chart, size_t chart_length, const uint8_t *settings, size_t settings_length,
                                                     const double *values, size_t values_length, size_t place,
                                                     double *out, size_t out_length) {
    fenv_t host;
    difficulty_enter(&host);
    return difficulty_leave(&host, difficulty_read_values_as(chart, chart_length, settings, settings_length, values, values_length, place, out, out_length));
}

DIFFICULTY_GUARDED difficulty_guarded_read_aim_parts_as(const uint8_t *chart, size_t chart_length, const uint8_t *settings, size_t settings_length,
                                                        const double *records, size_t records_length, size_t place,
                                                        double *out, size_t out_length) {
    fenv_t host;
    difficulty_enter(&host);
    return difficulty_leave(&host, difficulty_read_aim_parts_as(chart, chart_length, settings, settings_length, records, records_length, place, out,
                                                                out_length));
}

DIFFICULTY_GUARDED difficulty_guarded_read_rhythm_as(const uint8_t *chart, size_t chart_length, const uint8_t *settings, size_t settings_length,
                                                     const double *records, size_t records_length, size_t place,
                                                     double *out, size_t out_length) {
    fenv_t host;
    difficulty_enter(&host);
    return difficulty_leave(&host, difficulty_read_rhythm_as(chart, chart_length, settings, settings_length, records, records_length, place, out, out_length));
}

DIFFICULTY_GUARDED difficulty_guarded_totals_as(const uint8_t *chart, size_t chart_length, const uint8_t *settings, size_t settings_length,
                                                const double *values, size_t values_length,
                                                double *aim, size_t aim_length,
                                                double *aim_no_sliders, size_t aim_no_sliders_length,
                                                double *speed, size_t speed_length,
                                                double *flashlight, size_t flashlight_length,
                                                double *out, size_t out_length) {
    fenv_t host;
    difficulty_enter(&host);
    return difficulty_leave(&host, difficulty_totals_as(chart, chart_length, settings, settings_length, values, values_length, aim, aim_length, aim_no_sliders,
                                                        aim_no_sliders_length, speed, speed_length, flashlight, flashlight_length, out, out_length));
}

DIFFICULTY_GUARDED difficulty_guarded_counts_as(const uint8_t *chart, size_t chart_length, const uint8_t *settings, size_t settings_length,
                                                const double *values, size_t values_length,
                                                double *aim, size_t aim_length,
                                                double *aim_no_sliders, size_t aim_no_sliders_length,
                                                double *speed, size_t speed_length,
                                                double *flashlight, size_t flashlight_length,
                                                double *out, size_t out_length) {
    fenv_t host;
    difficulty_enter(&host);
    return difficulty_leave(&host, difficulty_counts_as(chart, chart_length, settings, settings_length, values, values_length, aim, aim_length, aim_no_sliders,
                                                        aim_no_sliders_length, speed, speed_length, flashlight, flashlight_length, out, out_length));
}

DIFFICULTY_GUARDED difficulty_guarded_totals_to_as(const uint8_t *chart, size_t chart_length, const uint8_t *settings, size_t settings_length,
                                                   const double *values, size_t values_length,
                                                   size_t m,
                                                   double *aim, size_t aim_length,
                                                   double *aim_no_sliders, size_t aim_no_sliders_length,
                                                   double *speed, size_t speed_length,
                                                   double *flashlight, size_t flashlight_length,
                                                   double *out, size_t out_length) {
    fenv_t host;
    difficulty_enter(&host);
    return difficulty_leave(&host, difficulty_totals_to_as(chart, chart_length, settings, settings_length, values, values_length, m, aim, aim_length,
                                                           aim_no_sliders, aim_no_sliders_length, speed, speed_length, flashlight, flashlight_length, out,
                                                           out_length));
}

DIFFICULTY_GUARDED difficulty_guarded_totals_while_playing_as(const uint8_t *chart, size_t chart_length, const uint8_t *settings, size_t settings_length,
                                                              const double *values, size_t values_length,
                                                              double *list, size_t list_length,
                                                              double *aim, size_t aim_length,
                                                              double *aim_no_sliders, size_t aim_no_sliders_length,
                                                              double *speed, size_t speed_length,
                                                              double *flashlight, size_t flashlight_length) {
    fenv_t host;
    difficulty_enter(&host);
    return difficulty_leave(&host, difficulty_totals_while_playing_as(chart, chart_length, settings, settings_length, values, values_length, list, list_length,
                                                                      aim, aim_length, aim_no_sliders, aim_no_sliders_length, speed, speed_length, flashlight,
                                                                      flashlight_length));
}

DIFFICULTY_GUARDED difficulty_guarded_ratings_as(const uint8_t *chart, size_t chart_length, const uint8_t *settings, size_t settings_length,
                                                 const double *values, size_t values_length,
                                                 uint32_t mods, uint32_t given, const double *numbers, size_t numbers_length,
                                                 double *aim, size_t aim_length,
                                                 double *aim_no_sliders, size_t aim_no_sliders_length,
                                                 double *speed, size_t speed_length,
                                                 double *flashlight, size_t flashlight_length,
                                                 double *out, size_t out_length) {
    fenv_t host;
    difficulty_enter(&host);
    return difficulty_leave(&host, difficulty_ratings_as(chart, chart_length, settings, settings_length, values, values_length, mods, given, numbers,
                                                         numbers_length, aim, aim_length, aim_no_sliders, aim_no_sliders_length, speed, speed_length,
                                                         flashlight, flashlight_length, out, out_length));
}

DIFFICULTY_GUARDED difficulty_guarded_rank(const uint8_t *pack, size_t pack_length,
                                           uint64_t *list, size_t list_length,
                                           uint32_t mods, uint32_t given, const double *numbers, size_t numbers_length,
                                           double *records, size_t records_length,
                                           double *values, size_t values_length,
                                           double *aim, size_t aim_length,
                                           double *aim_no_sliders, size_t aim_no_sliders_length,
                                           double *speed, size_t speed_length,
                                           double *flashlight, size_t flashlight_length) {
    fenv_t host;
    difficulty_enter(&host);
    return difficulty_leave(&host, difficulty_rank(pack, pack_length, list, list_length, mods, given, numbers, numbers_length, records, records_length,
                                                   values, values_length, aim, aim_length, aim_no_sliders, aim_no_sliders_length, speed, speed_length,
                                                   flashlight, flashlight_length));
}

DIFFICULTY_GUARDED difficulty_guarded_join(const uint8_t *pack, size_t pack_length,
                                           uint64_t *list, size_t list_length, size_t first,
                                           uint32_t mods, uint32_t given, const double *numbers, size_t numbers_length,
                                           double *records, size_t records_length,
                                           double *values, size_t values_length,
                                           double *aim, size_t aim_length,
                                           double *aim_no_sliders, size_t aim_no_sliders_length,
                                           double *speed, size_t speed_length,
                                           double *flashlight, size_t flashlight_length) {
    fenv_t host;
    difficulty_enter(&host);
    return difficulty_leave(&host, difficulty_join(pack, pack_length, list, list_length, first, mods, given, numbers, numbers_length, records, records_length,
                                                   values, values_length, aim, aim_length, aim_no_sliders, aim_no_sliders_length, speed, speed_length,
                                                   flashlight, flashlight_length));
}

#endif
