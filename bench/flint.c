/* The roots of the polynomial of crates/rootbench by FLINT: a yardstick for its time. */
#include <flint/flint.h>
#include <flint/nmod_poly.h>
#include <flint/nmod_poly_factor.h>
#include <stdint.h>
#include <stdio.h>
#include <time.h>

enum { DEGREE = 255, ROUNDS = 21 };
static const mp_limb_t Q = 469762049;

/* The product of x - r, where the r follow a fixed linear congruence. */
static void fill(nmod_poly_t f) {
    nmod_poly_t line;
    uint32_t code = 1;
    nmod_poly_init(line, Q);
    nmod_poly_one(f);
    for (int i = 0; i < DEGREE; i++) {
        code = code * 1103515245u + 12345u;
        nmod_poly_zero(line);
        nmod_poly_set_coeff_ui(line, 0, (Q - code % Q) % Q);
        nmod_poly_set_coeff_ui(line, 1, 1);
        nmod_poly_mul(f, f, line);
    }
    nmod_poly_clear(line);
}

int main(void) {
    nmod_poly_t f;
    nmod_poly_factor_t roots;
    struct timespec from, to;
    nmod_poly_init(f, Q);
    nmod_poly_factor_init(roots);
    fill(f);
    clock_gettime(CLOCK_MONOTONIC, &from);
    for (int i = 0; i < ROUNDS; i++)
        nmod_poly_roots(roots, f, 1);
    clock_gettime(CLOCK_MONOTONIC, &to);
    unsigned long sum = 0;
    for (slong i = 0; i < roots->num; i++)
        sum += (Q - nmod_poly_get_coeff_ui(roots->p + i, 0)) % Q;
    printf("%ld roots, sum of their codes: %lu\n", (long)roots->num, sum);
    long nanos = (to.tv_sec - from.tv_sec) * 1000000000L + (to.tv_nsec - from.tv_nsec);
    fprintf(stderr, "%ld microseconds a list of roots\n", nanos / 1000 / ROUNDS);
    nmod_poly_factor_clear(roots);
    nmod_poly_clear(f);
    return 0;
}
