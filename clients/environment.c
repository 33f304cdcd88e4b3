/* Preloaded before a client (LD_PRELOAD): puts it into the floating-point environment that FENV names before its main begins, and looks at its end
 * whether it is in the same one, raised flags among it: status 3 where it is not. */
#define _GNU_SOURCE
#include <fenv.h>
#include <stdint.h>
#include <stdio.h>
#include <stdlib.h>
#include <string.h>
#include <unistd.h>
#include <xmmintrin.h>

enum { FLUSH = 0x8000, SUBNORMALS_ARE_ZERO = 0x0040, MASKS = 0x1F80 }; /* of MXCSR */

struct environment {
    uint32_t mxcsr;
    uint16_t control, status; /* of the x87 */
};

static struct environment begun;

static struct environment current(void) {
    struct environment e = {.mxcsr = _mm_getcsr()};
    __asm__ volatile("fnstcw %0" : "=m"(e.control));
    __asm__ volatile("fnstsw %0" : "=m"(e.status));
    return e;
}

static int is(const char *host, const char *part) { return strstr(host, part) != NULL; }

__attribute__((constructor)) static void begin(void) {
    const char *host = getenv("FENV");
    if (!host) host = "";
    if (is(host, "upward")) fesetround(FE_UPWARD);
    if (is(host, "downward")) fesetround(FE_DOWNWARD);
    if (is(host, "zero")) fesetround(FE_TOWARDZERO);
    if (is(host, "flush")) _mm_setcsr(_mm_getcsr() | FLUSH | SUBNORMALS_ARE_ZERO);
    if (is(host, "flags")) feraiseexcept(FE_INVALID | FE_DIVBYZERO);
    if (is(host, "trap")) {
        feenableexcept(FE_ALL_EXCEPT);
        _mm_setcsr(_mm_getcsr() & ~MASKS); /* that of subnormal operands too, which has no name in C */
    }
    begun = current();
}

__attribute__((destructor)) static void end(void) {
    struct environment now = current();
    if (now.mxcsr == begun.mxcsr && now.control == begun.control && now.status == begun.status) return;
    fprintf(stderr, "the environment was MXCSR %04X, x87 %04X %04X and is MXCSR %04X, x87 %04X %04X\n", begun.mxcsr, begun.control, begun.status,
            now.mxcsr, now.control, now.status);
    fflush(NULL);
    _exit(3);
}
