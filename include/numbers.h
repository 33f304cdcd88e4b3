/* The ranking rules' functions on numbers, bit for bit the same on every machine: logarithm, power of two, power, exp, log10, angle and roots.
 *
 * Every function answers for every argument, ends, allocates nothing, keeps no state and calls nothing of the C library. Each is proved equal to a definition over whole
 * numbers; that they are near the functions of mathematics which they are named for is proved of the roots (the nearest value) and of numbers_log (docs/LOG.md).
 * A NaN that is answered may have any sign and payload, and so may one that is passed. Zeros of both signs count as 0 where nothing else is said.
 *
 * What is proved begins behind this header. Trusted of the caller, as of any caller in C: these prototypes, unchanged, and the thread in C's default floating-point
 * environment: rounding to nearest, subnormal numbers kept, no exception trapped. In another one (fesetround, feenableexcept, or FTZ and DAZ, which linking with
 * -ffast-math can set for the whole program) a function may answer otherwise, or an exception stops the program; station_guarded.h shows how a call is guarded.
 * Threads may call at once. A call may raise floating-point flags.
 *
 * double is IEEE 754's binary64 and float its binary32.
 */
#ifndef NUMBERS_H
#define NUMBERS_H

#ifdef __cplusplus
extern "C" {
#endif

/* Log: L, a whole number of a size below 2^53, with L / 2^40 <= log2(b) < (L + 2) / 2^40. For b = 2^k it is k * 2^40.
 * NaN where b is not finite or not above zero. Subnormal numbers are answered like others. */
double numbers_log(double b);

/* Two: 2^(p / 2^40), of the whole part of p (downward).
 * 0 for p below -1022 * 2^40, infinity for p from 1024 * 2^40 on, infinite p among them; NaN for NaN. No subnormal number is answered. */
double numbers_two(double p);

/* Power: b raised to e. First, for any b: b * b for e = 2, b * b * b for e = 3, the root of b for e = 0.5. Else NaN where b or e is not finite, or b is below zero;
 * for b = 0: 1 for e = 0, 0 for e above zero, infinity below; and for b above zero numbers_two(e * numbers_log(b)). */
double numbers_power(double b, double e);

/* exp: e raised to x, by numbers_two(x * 1.4426950408889634 * 2^40), multiplied from left to right. NaN where x is not finite. */
double numbers_exp(double x);

/* log10: the logarithm to the base 10, by numbers_log(b) / 2^40 * 0.3010299956639812. NaN where b is not finite or not above zero. */
double numbers_log10(double b);

/* Angle: the angle between the direction (dot, det) and (1, 0), from 0 to PI, the sign of det left out; 28 bits of it are worked out.
 * Where det is 0, or too small beside dot: 0, or PI where dot has its sign bit (-0 among them). NaN where an argument is not finite. */
double numbers_angle(double dot, double det);

/* The square root, the nearest value. A zero stays as it is, sign and all; infinity for infinity; NaN for NaN and for what is below zero. */
double numbers_root64(double x);
float numbers_root32(float x);

#ifdef __cplusplus
}
#endif

#endif
