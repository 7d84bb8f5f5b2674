/* Koyramutey for C and for whatever calls C.

   To build: tools/library proves and compiles the library, for x86-64 and Linux, and its last line is the folder of libexports.a.

       cc prog.c -I crates/exports -L "$(tools/library | tail -n 1)" -lexports

   (`rt lib` in crates/exports writes crates/exports/out/libexports.a.) example.c, beside this file, is such a program.

   Arguments. A slice is a pointer and then its length in elements; a null pointer with length 0 is an empty slice. Slices do not overlap, and each
   pointer to a number points to one of its own. Numbers are taken whole: 2^32 + 5 iterations are refused, not 5 run. A lent buffer may be longer
   than its room; what lies beyond the room is unchanged.

   Answers. Each call but the last two, which answer a double and refuse nothing, answers the refusal's number, 0 where there is none, and leaves its
   place in *place, 0 where there is none. Refusals are tested in the order of their list, and of several faults of one kind the place is the first. A
   refusal leaves every other number that a pointer points to as it was; none but 7 and 11 changes a buffer.

   Limits of every design: n samples, 1 to 65,536; p features, 1 to 8,192; stored values, 16,777,216 at most. */
#ifndef KOYRAMUTEY_H
#define KOYRAMUTEY_H

#include <stddef.h>
#include <stdint.h>

#ifdef __cplusplus
extern "C" {
#endif

/* The preparation of a dense design, n·p values row by row, with n targets y: checks both, and fills in the numbers that every solve of them uses. One
   preparation serves any number of solves, whatever their settings.

   Lent buffer, and its room:
     prepared     2·p: only written, with the p Lipschitz constants, then the p entries of X'y; what it held does not matter

   Refusals:
     1 at 0       n, p or values_len outside its limits, values_len not n·p, y_len not n
     3 at 0       prepared shorter than its room
     6 at i       target i is NaN or infinite
     6 at n + k   no target is, but value k
     7 at 0       a Lipschitz constant, the inverse of a nonzero one or an entry of X'y is NaN or infinite: the room of prepared is left +0 */
uint32_t koyramutey_prepare_dense(
    size_t n, size_t p,
    const double *values, size_t values_len,
    const double *y, size_t y_len,
    double *prepared, size_t prepared_len,
    size_t *place);

/* The same of a CSC design: column j has the stored values from starts[j] to before starts[j + 1], and rows[k] is the sample of value k, from 0 on.

   Refusals:
     1 at 0       n, p or values_len outside its limits, starts_len not p + 1, rows_len not values_len, y_len not n
     3            as above
     4 at i       starts[i] is the first and not 0, is below the start before it, is above values_len, or is the last and not values_len
     5 at k       rows[k] is at or above n, or not above the row before it in its column
     6, 7         as above */
uint32_t koyramutey_prepare_csc(
    size_t n, size_t p,
    const uint32_t *starts, size_t starts_len,
    const uint32_t *rows, size_t rows_len,
    const double *values, size_t values_len,
    const double *y, size_t y_len,
    double *prepared, size_t prepared_len,
    size_t *place);

/* The solve of a dense design with its targets and its prepared numbers: the whole fit. The numbers are used as they are handed over, whatever they were
   prepared from; for a fit they are those of this design with these targets.

   Prepared numbers, which are only read:
     prepared     2·p: p Lipschitz constants, then the p entries of X'y; a column whose constant is 0, or -0.0, is not visited

   Settings:
     penalty      0 L1, 1 L1PlusL2, 2 MCP
     alpha        finite and at least 0; -0.0 passes, as it does for the ratio and for the tolerance
     second       L1: not looked at; L1PlusL2: its ratio, 0 to 1; MCP: its gamma, finite and above 0
     tolerance    finite and at least 0
     start        1 to 8,192: the least size of a working set; above p it counts as p
     iterations   0 to 1,000: working sets at most
     epochs       0 to 100,000: passes over one working set at most
     extrapolate  0 off, any other on
     depth        with extrapolation 1 to 10; without, not looked at

   Lent buffers, and their room:
     w            p: only written, with the weights; what they held does not matter
     fit          n: only written, with the fit of the weights; what it held does not matter
     indices      p: used, and 0 at the end
     scratch      p, or (2·depth + 3)·p + n with extrapolation: used, and +0 at the end

   Report:
     *status      1 met: the violation is at most the tolerance; 2 spent
     *violation   the largest violation at the weights returned
     *sets, *passes, *accepted   working sets built, passes begun, extrapolations accepted

   Refusals:
     1 at 0       n, p or values_len outside its limits, values_len not n·p, y_len not n
     2 at k       setting k is the first outside its range: 0 iterations, 1 epochs, 2 start, 3 depth, 4 tolerance, 5 alpha, 6 second; an unknown penalty
                  has no second number in range
     3 at 0       prepared or a lent buffer shorter than its room
     6 at i       target i is NaN or infinite
     6 at n + k   no target is, but value k
     10 at j      column j is the first whose constant or entry of X'y is NaN or infinite, or whose constant is below 0, or nonzero with an infinite
                  inverse
     7 at 0       in the run, a gradient, a violation, a new weight or a changed fit entry is NaN or infinite: the room of w, fit and scratch is left
                  +0, and that of indices 0 */
uint32_t koyramutey_solve_dense(
    size_t n, size_t p,
    const double *values, size_t values_len,
    const double *y, size_t y_len,
    const double *prepared, size_t prepared_len,
    uint32_t penalty, double alpha, double second, double tolerance,
    size_t start, size_t iterations, size_t epochs, uint32_t extrapolate, size_t depth,
    double *w, size_t w_len,
    double *fit, size_t fit_len,
    uint32_t *indices, size_t indices_len,
    double *scratch, size_t scratch_len,
    uint32_t *status, double *violation, size_t *sets, size_t *passes, size_t *accepted,
    size_t *place);

/* The same of a CSC design. Prepared numbers, settings, buffers and report are those above.

   Refusals:
     1            as in the preparation of a CSC design
     2, 3         as above
     4, 5         as in that preparation
     6, 10, 7     as above */
uint32_t koyramutey_solve_csc(
    size_t n, size_t p,
    const uint32_t *starts, size_t starts_len,
    const uint32_t *rows, size_t rows_len,
    const double *values, size_t values_len,
    const double *y, size_t y_len,
    const double *prepared, size_t prepared_len,
    uint32_t penalty, double alpha, double second, double tolerance,
    size_t start, size_t iterations, size_t epochs, uint32_t extrapolate, size_t depth,
    double *w, size_t w_len,
    double *fit, size_t fit_len,
    uint32_t *indices, size_t indices_len,
    double *scratch, size_t scratch_len,
    uint32_t *status, double *violation, size_t *sets, size_t *passes, size_t *accepted,
    size_t *place);

/* The walk over a list of falling alphas, of a dense design with its targets: the first of them, and so the largest, whose fit has status 1 and at most
   `most` nonzero weights. It checks and prepares once, and every fit begins from zero weights; what it answers is what a preparation and a solve with that
   alpha alone answer and leave, bit for bit.

   alphas         1 to 64, each finite and at least 0, each below the one before it; 0.0 and then -0.0 does not fall
   most           any number; -0.0 is no nonzero weight
   settings       those of a solve, but for alpha

   Lent buffers, and their room:
     prepared     2·p: used, and +0 at the end; what it held does not matter
     w, fit, indices, scratch   as in a solve

   Answer:
     *position    the place of the alpha in the list, from 0
     *status, *violation, *sets, *passes, *accepted   the report of its fit: *status is 1

   Refusals:
     1 at 0       as in a solve
     2 at k       setting k of a solve is the first outside its range, but for 5: alpha is not looked at
     2 at 7       no setting is, but the list: empty, longer than 64, an alpha that is NaN, infinite or below 0, or one that is not below its predecessor
     3 at 0       prepared or a lent buffer shorter than its room
     6            as in a solve
     11 at 0      no alpha is usable: each fit has status 2 or more than `most` nonzero weights or would be refused with 7, as all would where the
                  preparation is: the room of w, fit, scratch and prepared is left +0, and that of indices 0 */
uint32_t koyramutey_walk_dense(
    size_t n, size_t p,
    const double *values, size_t values_len,
    const double *y, size_t y_len,
    const double *alphas, size_t alphas_len,
    double *prepared, size_t prepared_len,
    uint32_t penalty, double second, double tolerance,
    size_t start, size_t iterations, size_t epochs, uint32_t extrapolate, size_t depth,
    size_t most,
    double *w, size_t w_len,
    double *fit, size_t fit_len,
    uint32_t *indices, size_t indices_len,
    double *scratch, size_t scratch_len,
    uint32_t *status, double *violation, size_t *sets, size_t *passes, size_t *accepted,
    size_t *position,
    size_t *place);

/* The same of a CSC design.

   Refusals:
     1            as in the preparation of a CSC design
     2, 3         as above
     4, 5         as in that preparation
     6, 11        as above */
uint32_t koyramutey_walk_csc(
    size_t n, size_t p,
    const uint32_t *starts, size_t starts_len,
    const uint32_t *rows, size_t rows_len,
    const double *values, size_t values_len,
    const double *y, size_t y_len,
    const double *alphas, size_t alphas_len,
    double *prepared, size_t prepared_len,
    uint32_t penalty, double second, double tolerance,
    size_t start, size_t iterations, size_t epochs, uint32_t extrapolate, size_t depth,
    size_t most,
    double *w, size_t w_len,
    double *fit, size_t fit_len,
    uint32_t *indices, size_t indices_len,
    double *scratch, size_t scratch_len,
    uint32_t *status, double *violation, size_t *sets, size_t *passes, size_t *accepted,
    size_t *position,
    size_t *place);

/* The gradients of all features of a dense design at a fit: the product of the column and the fit, less the feature's entry of X'y, divided by n.

   prepared       2·p: p Lipschitz constants, which are not looked at, then the p entries of X'y; any doubles
   fit            n: any doubles
   grad           p: only written; what it held does not matter

   Refusals:
     1 at 0       n, p or values_len outside its limits, values_len not n·p
     3 at 0       prepared, fit or grad shorter than its room
     6 at n + k   value k is NaN or infinite */
uint32_t koyramutey_full_grad_dense(
    size_t n, size_t p,
    const double *values, size_t values_len,
    const double *prepared, size_t prepared_len,
    const double *fit, size_t fit_len,
    double *grad, size_t grad_len,
    size_t *place);

/* The working set of p = w_len weights and their violations: all features with nonzero weight (a NaN too) in index order, then the others by falling
   violation, equal ones by lower index, cut at *size = max(start, min(2·nonzero, p)), where nonzero counts the nonzero weights.

   indices        p: only written, with the set, then 0; what they held does not matter

   Refusals:
     1 at 0       p outside its limits, violations_len not w_len
     2 at 2       start, which is setting 2 of a solve, outside 1 to p
     3 at 0       indices shorter than p
     8 at j       weight j is zero and its violation NaN, infinite or negative (-0.0 is not); violations of nonzero weights are not looked at */
uint32_t koyramutey_working_set(
    const double *violations, size_t violations_len,
    const double *w, size_t w_len,
    size_t start,
    uint32_t *indices, size_t indices_len,
    size_t *size,
    size_t *place);

/* The value of a penalty over w_len weights, any doubles; penalty, alpha and second as in the settings of a solve.
     0 L1         alpha·sum|w|
     1 L1PlusL2   alpha·(second·sum|w| + (0.5·(1 - second))·sum w^2)
     2 MCP        the sum of alpha·|w| - w^2/(2·second) if |w| < second·alpha, else (second·alpha^2)/2

   Refusals:
     1 at 0       w_len outside 1 to 8,192
     2 at 5       alpha is not finite or below 0
     2 at 6       second is outside its range, or the penalty is unknown */
uint32_t koyramutey_penalty_value(
    uint32_t penalty, double alpha, double second,
    const double *w, size_t w_len,
    double *value,
    size_t *place);

/* The violation of one feature with weight w at a gradient, any doubles.
     where w is zero   |gradient| less alpha (L1PlusL2: alpha·second) if that is above 0, else +0.0
     0 L1              |-gradient - sign·alpha|
     1 L1PlusL2        |-gradient - alpha·(sign·second + (1 - second)·w)|
     2 MCP             |gradient + alpha·sign - w/second| if |w| < alpha·second, else |gradient|

   Refusals:
     2 at 5, 2 at 6    as above */
uint32_t koyramutey_penalty_violation(
    uint32_t penalty, double alpha, double second,
    double w, double gradient,
    double *violation,
    size_t *place);

/* The soft threshold of any two doubles: NaN where x or t is NaN; else x - t if x > t, x + t if x < -t, else +0.0. */
double koyramutey_soft_threshold(double x, double t);

/* The weight that a step from v leads to, the prox of a penalty; penalty, alpha and second as in the settings of a solve, but any doubles are answered.
     0 L1         soft(v, alpha·step)
     1 L1PlusL2   soft(v, (second·alpha)·step) / (1 + (step·(1 - second))·alpha)
     2 MCP        with tau = alpha·step and g = second/step: +0.0 if |v| <= tau; v if |v| > g·tau; else (sign·(|v| - tau)) / (1 - 1/g)
     any other    NaN
   soft is the soft threshold above; each operation is rounded, in the order written. */
double koyramutey_prox(uint32_t penalty, double alpha, double second, double v, double step);

#ifdef __cplusplus
}
#endif

#endif
