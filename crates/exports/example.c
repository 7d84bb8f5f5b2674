/* A fit through the library, prepared and solved: prints the listing of the fit to the targets 3 and 1, as ./tile does, and then that of targets with a
   NaN. Then the position of the first of three alphas whose fit to 3 and 1 has one nonzero weight at most, and that there is none without any. */
#include <inttypes.h>
#include <math.h>
#include <stdio.h>
#include <string.h>

#include "koyramutey.h"

enum { N = 2, P = 2 };

static void print_bits(double x)
{
    uint64_t bits;
    memcpy(&bits, &x, sizeof bits);
    printf("%016" PRIx64 "\n", bits);
}

static void print_numbers(const char *name, const double *xs, size_t count)
{
    for (size_t i = 0; i < count; i++) {
        printf("%s %zu ", name, i);
        print_bits(xs[i]);
    }
}

/* Whether there was one; it is printed. */
static int is_refused(uint32_t refusal, size_t place)
{
    if (refusal != 0)
        printf("refused %" PRIu32 " at %zu\n", refusal, place);
    return refusal != 0;
}

static const double values[N * P] = {2, 0, 0, 2}; /* row by row */

static void print_fit(const double *y)
{
    double prepared[2 * P], w[P], fit[N], scratch[P], violation;
    uint32_t indices[P], status, refusal;
    size_t sets, passes, accepted, place;
    refusal = koyramutey_prepare_dense(N, P, values, N * P, y, N, prepared, 2 * P, &place);
    if (is_refused(refusal, place))
        return;
    /* The numbers serve further solves of these values and targets, with other settings. */
    refusal = koyramutey_solve_dense(
        N, P, values, N * P, y, N, prepared, 2 * P,
        0, 1, 0, 0,     /* L1, alpha 1, no second number, tolerance 0 */
        1, 5, 20, 0, 0, /* start 1, 5 iterations, 20 epochs, no extrapolation, no depth */
        w, P, fit, N, indices, P, scratch, P,
        &status, &violation, &sets, &passes, &accepted, &place);
    if (is_refused(refusal, place))
        return;
    printf("status %" PRIu32 "\nviolation ", status);
    print_bits(violation);
    printf("iterations %zu\nepochs %zu\nextrapolations %zu\n", sets, passes, accepted);
    print_numbers("w", w, P);
    print_numbers("fit", fit, N);
}

static void print_position(const double *y, size_t most)
{
    const double alphas[] = {2, 1, 0.5};
    double prepared[2 * P], w[P], fit[N], scratch[P], violation;
    uint32_t indices[P], status, refusal;
    size_t sets, passes, accepted, position, place;
    refusal = koyramutey_walk_dense(
        N, P, values, N * P, y, N, alphas, 3, prepared, 2 * P,
        0, 0, 0,        /* L1, no second number, tolerance 0 */
        1, 5, 20, 0, 0, /* start 1, 5 iterations, 20 epochs, no extrapolation, no depth */
        most,
        w, P, fit, N, indices, P, scratch, P,
        &status, &violation, &sets, &passes, &accepted, &position, &place);
    if (!is_refused(refusal, place))
        printf("position %zu\n", position);
}

int main(void)
{
    const double targets[N] = {3, 1}, broken[N] = {3, NAN};
    print_fit(targets);
    print_fit(broken);
    print_position(targets, 1);
    print_position(targets, 0);
    return 0;
}
