/* Zegrafult: the certificate's arithmetic, proved. Link libexports.a (built by: tools/library).
 *
 * A slice is passed as a pointer and a length, in numbers (f64 or size_t), not cells. A complex cell is two
 * adjacent doubles, real part first. Lent slices must not overlap. An empty slice may have any pointer, NULL too; no other
 * pointer may be NULL: what is stored by reference (place, count, rank, quiet ..) is stored on every answer.
 *
 * Above each call stand its arguments: [in] is read, [out] is written, [in,out] both. "slice N" is the number that answer 6
 * stores as its place. zegrafult_sizes.h has the function in brackets behind a length.
 *
 * Every call ends on every input. The calls that refuse return the answer's number and store its place:
 *
 *    0 done                                     5 a cut's list names every qubit
 *    1 a size is broken                         6 a length is wrong: place = which slice, as numbered below
 *    2 a listed qubit is n or more: place       7 a component is not finite or above 2^200: place = cell
 *    3 a listed qubit stood earlier: place      8 nothing is left above a floor, or a trace is zero
 *    4 the list is empty                        9 a result is not finite
 *
 * in that order. 10 is the program's (a malformed file). 11 to 16 belong to single calls: 11 a component off the grid
 * (place = cell), 12 a qubit not listed, 13 a site number not held, or held, 14 no free run, 15 sixty-four sites held,
 * 16 a broken lot. 1 to 7 change nothing lent. On 8 and 9 the needed output is +0.0 (trace scaling leaves its
 * matrix as it was). Needed scratch is +0.0 after 0, 8 and 9. What is longer than needed is never touched past
 * the need. On any refusal a returned count, rank or base is 0 and a returned yes or no is no.
 *
 * The six calls that sweep (SVD, both of eigenvalues, both of Schmidt values, the entropy) also store how many sweeps were begun, the
 * quiet one included, whether the last was quiet, that is turned no pair, and how many pairs were turned in all. No means that
 * the work was given up at its cap of 100 sweeps (60 in zg_hermitian_eigenvalues and zg_schmidt_values_from_density); the results
 * are what the sweeps left. A single column gives 1 and yes; a quiet last sweep at the cap gives the cap and yes; a refusal 0, no
 * and 0. With k the smaller side no more than (sweeps - 1)*k*(k-1)/2 pairs are turned where the last sweep was quiet, and never
 * more than the cap's times k*(k-1)/2: 201,600 at k = 64.
 *
 * n is 1 to 12. The cap used is the smaller of cap and 13: a cut needs n + 1 at most the cap, a density over k
 * qubits 2k at most the cap. side is the smaller of k and n - k.
 *
 * Qubit q is bit q of a state's index. That and the rest of what all calls share (rows and columns, NULL, overlap, threads, stack,
 * the floating-point environment and the test of it in zegrafult_environment.h) is in docs/CONVENTIONS.md. The answers by name and the
 * length of every lent slice are in zegrafult_sizes.h, the version in zegrafult_version.h. */
#ifndef ZEGRAFULT_H
#define ZEGRAFULT_H

#include <stdbool.h>
#include <stddef.h>
#include <stdint.h>

#ifdef __cplusplus
extern "C" {
#endif

/* ---- the version */

/* The version of the library, 10000*major + 100*minor + patch: ZEGRAFULT_VERSION_NUMBER of zegrafult_version.h where the headers
 * are the library's. */
uint32_t zg_version(void);

/* ---- numbers: nothing is refused */

/* The float nearest to the exact root; +-0 and +infinity give themselves; negative or NaN gives NaN.
 *   x  [in]      any number */
double zg_sqrt(double x);
/* The same on bit patterns; a NaN is 7FF8000000000000.
 *   b  [in]      the 64 bits of a number */
uint64_t zg_sqrt_bits(uint64_t b);
/* The root of zg_sqrt, and whether it came out even: whether its square, as real numbers, is x. Both zeros yes; an infinity, a NaN
 * and a negative x no.
 *   x      [in]      any number
 *   exact  [out]     whether it came out even */
double zg_sqrt_marked(double x, bool *exact);
/* The modulus of re + i*im: both parts scaled by the power of two that brings the larger to at least 1 and under 2, the root of the
 * sum of their squares, and that scaled back, each step rounded once. Two zeros give +0.0; with a part that is not finite it is the
 * root of the sum of the squares unscaled.
 *   re  [in]      the real part
 *   im  [in]      the imaginary part */
double zg_modulus(double re, double im);
/* The sign cleared, that of -0 too.
 *   x  [in]      any number */
double zg_magnitude(double x);
/* 1 for +0.0 and above, -1 for -0.0 and below, NaN for NaN.
 *   x  [in]      any number */
double zg_sign(double x);
/* Whether x is neither infinite nor a NaN.
 *   x  [in]      any number */
bool zg_is_finite(double x);
/* Whether x is finite and of magnitude at most 2^200.
 *   x  [in]      any number */
bool zg_component_allowed(double x);
/* Whether x is below y in the total order: -0 is below +0, a NaN above all else.
 *   x  [in]      any number
 *   y  [in]      any number */
bool zg_total_less(double x, double y);
/* 0 x below y, 1 equal, 2 above; -0 is below +0, a NaN above all else.
 *   x  [in]      any number
 *   y  [in]      any number */
uint32_t zg_total_order(double x, double y);

/* ---- lists of qubits */

/* Whether the list names distinct qubits of the register, and at least one.
 *   list   [in]      slice 0: the listed qubits, in any order; list_len is k
 *   n      [in]      qubits of the register, 1 to 12
 *   place  [out]     the answer's place
 * Refused by 1 to 4. */
uint32_t zg_validate_qubit_set(const size_t *list, size_t list_len, size_t n, size_t *place);
/* Whether the list names a part of the register that can be cut off.
 *   list   [in]      slice 0: the listed qubits, in any order; list_len is k
 *   n      [in]      qubits of the register, 1 to 12
 *   place  [out]     the answer's place
 * Refused by 1 to 5. */
uint32_t zg_validate_subsystem(const size_t *list, size_t list_len, size_t n, size_t *place);
/* For each t below 2^k the index that has bit i of t on listed qubit i.
 *   list   [in]      slice 0: the listed qubits, in any order; list_len is k
 *   n      [in]      qubits of the register, 1 to 12
 *   cap    [in]      the cap; more than 13 (ZG_CAP) counts as 13
 *   out    [out]     slice 1: the offsets; out_len at least 2^k (zg_row_offsets_out_len)
 *   place  [out]     the answer's place
 * Refused by 1 to 4 and 6. */
uint32_t zg_row_offsets(const size_t *list, size_t list_len, size_t n, size_t cap, size_t *out, size_t out_len,
                        size_t *place);
/* e spread over the qubits that are not listed, lowest first.
 *   e      [in]      the bits to spread, below 2^(n-k), else 1
 *   list   [in]      slice 0: the listed qubits, in any order; list_len is k
 *   n      [in]      qubits of the register, 1 to 12
 *   cap    [in]      the cap; more than 13 (ZG_CAP) counts as 13
 *   place  [out]     the answer's place
 *   base   [out]     the index; 0 on a refusal
 * Refused by 1 to 4. */
uint32_t zg_traced_base(size_t e, const size_t *list, size_t list_len, size_t n, size_t cap, size_t *place,
                        size_t *base);

/* The qubits of the cut's smaller side. Where n - k is below k, the others are written in rising order and are the smaller side;
 * else the list is, and nothing is written.
 *   list    [in]      slice 0: the listed qubits, in any order; list_len is k
 *   n       [in]      qubits of the register, 1 to 12
 *   cap     [in]      the cap; more than 13 (ZG_CAP) counts as 13
 *   others  [out]     slice 1: the n - k others; others_len at least n - k where that is below k, else any
 *                     (zg_smaller_side_others_len)
 *   place   [out]     the answer's place
 * Refused by 1 to 6, as a cut. */
uint32_t zg_smaller_side(const size_t *list, size_t list_len, size_t n, size_t cap, size_t *others, size_t others_len,
                         size_t *place);

/* ---- the cut */

/* The cut matrix: rows 2^side, columns 2^(n-side), column-major.
 *   state  [in]      slice 0: the amplitudes; state_len exactly 2*2^n (zg_state_len)
 *   n      [in]      qubits of the register, 1 to 12
 *   list   [in]      slice 1: the listed qubits, in any order; list_len is k
 *   cap    [in]      the cap; more than 13 (ZG_CAP) counts as 13
 *   out    [out]     slice 2: the matrix; out_len at least 2*2^n (zg_cut_matrix_out_len)
 *   place  [out]     the answer's place
 * Refused by 1 to 7. */
uint32_t zg_cut_matrix(const double *state, size_t state_len, size_t n, const size_t *list, size_t list_len, size_t cap,
                       double *out, size_t out_len, size_t *place);

/* ---- densities */

/* The unscaled reduced density matrix of the listed qubits, row-major; a zero state and the whole register are accepted.
 *   state    [in]      slice 0: the amplitudes; state_len exactly 2*2^n (zg_state_len)
 *   n        [in]      qubits of the register, 1 to 12
 *   list     [in]      slice 1: the listed qubits, in any order; list_len is k
 *   cap      [in]      the cap; more than 13 (ZG_CAP) counts as 13
 *   out      [out]     slice 2: the matrix, 2^k by 2^k; out_len at least 2*4^k (zg_dense_reduced_density_out_len)
 *   scratch  [out]     slice 3: room to work in; scratch_len at least 2*2^k (zg_dense_reduced_density_scratch_len)
 *   place    [out]     the answer's place
 * Refused by 1 to 4, 6, 7. */
uint32_t zg_dense_reduced_density(const double *state, size_t state_len, size_t n, const size_t *list, size_t list_len,
                                  size_t cap, double *out, size_t out_len, double *scratch, size_t scratch_len,
                                  size_t *place);
/* The same density matrix, bit for bit, from the cut matrix alone.
 *   matrix  [in]      slice 0: what zg_cut_matrix gave; matrix_len exactly 2*2^n (zg_state_len)
 *   n       [in]      qubits of the register, 1 to 12
 *   list    [in]      slice 1: the list that it was cut by; list_len is k
 *   cap     [in]      the cap; more than 13 (ZG_CAP) counts as 13
 *   out     [out]     slice 2: the matrix, 2^k by 2^k, row-major; out_len at least 2*4^k (zg_density_from_cut_out_len)
 *   place   [out]     the answer's place
 * Refused by 1 (as a cut and as a density) to 7. */
uint32_t zg_density_from_cut(const double *matrix, size_t matrix_len, size_t n, const size_t *list, size_t list_len,
                             size_t cap, double *out, size_t out_len, size_t *place);
/* Whether the two densities above have the same bits: always yes where the answer is 0.
 *   state  [in]      slice 0: the amplitudes; state_len exactly 2*2^n (zg_state_len)
 *   n      [in]      qubits of the register, 1 to 12
 *   list   [in]      slice 1: the listed qubits, in any order; list_len is k
 *   cap    [in]      the cap; more than 13 (ZG_CAP) counts as 13
 *   place  [out]     the answer's place
 *   yes    [out]     whether they have; no on a refusal
 * Refused by 1 (as a cut and as a density) to 7. */
uint32_t zg_pages_agree(const double *state, size_t state_len, size_t n, const size_t *list, size_t list_len, size_t cap,
                        size_t *place, bool *yes);
/* The upper half becomes the conjugate of the lower, the diagonal stays.
 *   rho    [in,out]  slice 0: the matrix, row-major; rho_len exactly 2*dim*dim (zg_square_len)
 *   dim    [in]      its side, 1 to 64
 *   place  [out]     the answer's place
 * Refused by 1, 6, 7. */
uint32_t zg_mirror_lower_triangle(double *rho, size_t rho_len, size_t dim, size_t *place);

/* Each cell times 1/trace.
 *   rho    [in,out]  slice 0: the matrix, row-major; rho_len exactly 2*dim*dim (zg_square_len)
 *   dim    [in]      its side, 1 to 64
 *   place  [out]     the answer's place
 * Refused by 1, 6, 7, 8 (zero trace), 9; then rho is as it was. */
uint32_t zg_normalize_trace(double *rho, size_t rho_len, size_t dim, size_t *place);
/* Each cell of rho times the factor's cell at the bits of its row and column that stand at the positions.
 *   rho        [in,out]  slice 0: the matrix, row-major; rho_len exactly 2*dim*dim (zg_square_len)
 *   dim        [in]      its side, a power of two up to 64, else 1
 *   positions  [in]      slice 1: one to six distinct bits below log2 dim, else 1; positions_len of them
 *   factor     [in]      slice 2: the factor, row-major; factor_len exactly 2*side*side (zg_square_len)
 *   side       [in]      its side, 2^positions_len, else 1
 *   place      [out]     the answer's place
 * Refused by 1, 6, 7. */
uint32_t zg_multiply_block_factor(double *rho, size_t rho_len, size_t dim, const size_t *positions,
                                  size_t positions_len, const double *factor, size_t factor_len, size_t side,
                                  size_t *place);

/* ---- factors */

/* a = u s vt by one-sided Jacobi, 100 sweeps at most; k is the smaller of m and n.
 *   a        [in]      slice 0: the matrix, column-major; a_len exactly 2*m*n (zg_matrix_len)
 *   m        [in]      its rows
 *   n        [in]      its columns; m*n is 1 to 4096
 *   u        [out]     slice 1: m by k, column-major; u_len at least 2*m*k (zg_svd_jacobi_u_len)
 *   s        [out]     slice 2: the singular values, falling; s_len at least k (zg_svd_jacobi_s_len)
 *   vt       [out]     slice 3: k by n, row-major; vt_len at least 2*k*n (zg_svd_jacobi_vt_len)
 *   scratch  [out]     slice 4: room to work in; scratch_len at least 6*m*n + 2*k (zg_svd_jacobi_scratch_len)
 *   place    [out]     the answer's place
 *   sweeps   [out]     how many sweeps were begun, the quiet one included
 *   quiet    [out]     whether the last sweep turned no pair
 *   turned   [out]     how many pairs were turned in all
 * Refused by 1, 6, 7, 9. */
uint32_t zg_svd_jacobi(const double *a, size_t a_len, size_t m, size_t n, double *u, size_t u_len, double *s,
                       size_t s_len, double *vt, size_t vt_len, double *scratch, size_t scratch_len, size_t *place,
                       size_t *sweeps, bool *quiet, size_t *turned);

/* a = q r by modified Gram-Schmidt; k is the smaller of rows and cols. Columns of q and rows of r past the rank are +0.0.
 *   a        [in]      slice 0: the matrix, column-major; a_len exactly 2*rows*cols (zg_matrix_len)
 *   rows     [in]      its rows
 *   cols     [in]      its columns; rows*cols is 1 to 4096
 *   q        [out]     slice 1: rows by k, column-major; q_len at least 2*rows*k (zg_factorize_gram_schmidt_q_len)
 *   r        [out]     slice 2: k by cols, row-major; r_len at least 2*k*cols (zg_factorize_gram_schmidt_r_len)
 *   scratch  [out]     slice 3: room to work in; scratch_len at least 2*rows (zg_factorize_gram_schmidt_scratch_len)
 *   place    [out]     the answer's place
 *   rank     [out]     how many columns are independent; 0 on a refusal
 * Refused by 1, 6, 7, 9. */
uint32_t zg_factorize_gram_schmidt(const double *a, size_t a_len, size_t rows, size_t cols, double *q, size_t q_len,
                                   double *r, size_t r_len, double *scratch, size_t scratch_len, size_t *place,
                                   size_t *rank);

/* The verdict on someone else's factors: whether a is u s vt, u and vt are orthonormal and s falls, each within the tolerance. k is
 * the smaller of m and n, at most 16; m*n is at most 4096. Every number is a whole number of 2^-18 of magnitude at most 1, else 11;
 * the place of 7 and of 11 is the cell within its own argument, a value of s being one cell. All sums are exact. Nothing is lent
 * for writing.
 *   a          [in]      slice 0: the matrix, column-major; a_len exactly 2*m*n (zg_matrix_len)
 *   m          [in]      its rows
 *   n          [in]      its columns
 *   u          [in]      slice 1: m by k, column-major; u_len exactly 2*m*k (zg_svd_jacobi_u_len)
 *   s          [in]      slice 2: the values; s_len exactly k
 *   vt         [in]      slice 3: k by n, row-major; vt_len exactly 2*k*n (zg_svd_jacobi_vt_len)
 *   tolerance  [in]      in whole numbers of 2^-54
 *   place      [out]     the answer's place
 *   yes        [out]     whether all holds; no on a refusal
 *   test       [out]     which test fails first: 1 product, 2 U, 3 V-dagger, 4 S; 0 where yes or refused
 *   cell       [out]     its first failing cell: of a, of U-dagger U (k by k), of V-dagger V (k by k), or the value's index; 0
 *                        where yes or refused
 * Refused by 1, 6, 7, 11. */
uint32_t zg_countersign(const double *a, size_t a_len, size_t m, size_t n, const double *u, size_t u_len,
                        const double *s, size_t s_len, const double *vt, size_t vt_len, uint64_t tolerance,
                        size_t *place, bool *yes, size_t *test, size_t *cell);

/* ---- spectra */

/* Sorted downward, cut at the first value at or below 1e-14 times the first, each times 1/sqrt(sum of squares); out past the count
 * is +0.0.
 *   values  [in]      slice 0: the values; values_len 0 to 64
 *   out     [out]     slice 1: the values left; out_len at least values_len (zg_finish_schmidt_values_out_len)
 *   place   [out]     the answer's place
 *   count   [out]     how many values are left
 * Refused by 1, 6 to 9. */
uint32_t zg_finish_schmidt_values(const double *values, size_t values_len, double *out, size_t out_len,
                                  size_t *place, size_t *count);

/* The diagonal that cyclic Jacobi sweeps leave, 60 at most.
 *   a        [in]      slice 0: a Hermitian matrix, row-major; a_len exactly 2*dim*dim (zg_square_len)
 *   dim      [in]      its side, 1 to 64
 *   out      [out]     slice 1: the eigenvalues; out_len at least dim (zg_hermitian_eigenvalues_out_len)
 *   scratch  [out]     slice 2: room to work in; scratch_len at least 2*dim*dim (zg_hermitian_eigenvalues_scratch_len)
 *   place    [out]     the answer's place
 *   sweeps   [out]     how many sweeps were begun, the quiet one included
 *   quiet    [out]     whether the last sweep turned no pair
 *   turned   [out]     how many pairs were turned in all
 * Refused by 1, 6, 7, 9. */
uint32_t zg_hermitian_eigenvalues(const double *a, size_t a_len, size_t dim, double *out, size_t out_len,
                                  double *scratch, size_t scratch_len, size_t *place, size_t *sweeps, bool *quiet, size_t *turned);

/* Eigenvalues above the floor, their roots, then the finish; the sweeps are those of the eigenvalues.
 *   rho      [in]      slice 0: a density matrix, row-major; rho_len exactly 2*dim*dim (zg_square_len)
 *   dim      [in]      its side, 1 to 64
 *   out      [out]     slice 1: the values left, falling; out_len at least dim (zg_schmidt_values_from_density_out_len)
 *   scratch  [out]     slice 2: room to work in; scratch_len at least 2*dim*dim (zg_schmidt_values_from_density_scratch_len)
 *   place    [out]     the answer's place
 *   count    [out]     how many values are left
 *   sweeps   [out]     how many sweeps were begun, the quiet one included
 *   quiet    [out]     whether the last sweep turned no pair
 *   turned   [out]     how many pairs were turned in all
 * Refused by 1, 6 to 9. */
uint32_t zg_schmidt_values_from_density(const double *rho, size_t rho_len, size_t dim, double *out, size_t out_len,
                                        double *scratch, size_t scratch_len, size_t *place, size_t *count,
                                        size_t *sweeps, bool *quiet, size_t *turned);

/* Eigenvalues and eigenvectors: the singular values and U of the matrix with peak*dim + 1 on its diagonal, peak the largest
 * modulus, that shift taken off the values again. The sweeps are those of the SVD.
 *   matrix   [in]      slice 0: a Hermitian matrix, column-major; matrix_len exactly 2*dim*dim (zg_square_len)
 *   dim      [in]      its side, 1 to 64
 *   values   [out]     slice 1: the eigenvalues, rising; values_len at least dim (zg_hermitian_eigen_values_len)
 *   vectors  [out]     slice 2: the eigenvectors, one to a column, column-major; vectors_len at least 2*dim*dim
 *                      (zg_hermitian_eigen_vectors_len)
 *   scratch  [out]     slice 3: room to work in; scratch_len at least 6*dim*dim + 2*dim (zg_hermitian_eigen_scratch_len)
 *   place    [out]     the answer's place
 *   sweeps   [out]     how many sweeps were begun, the quiet one included
 *   quiet    [out]     whether the last sweep turned no pair
 *   turned   [out]     how many pairs were turned in all
 * Refused by 1, 6, 7, 9. */
uint32_t zg_hermitian_eigen(const double *matrix, size_t matrix_len, size_t dim, double *values, size_t values_len,
                            double *vectors, size_t vectors_len, double *scratch, size_t scratch_len, size_t *place,
                            size_t *sweeps, bool *quiet, size_t *turned);

/* The Schmidt values of the cut: the singular values of its matrix, 9 where one is not finite, then the finish. The sweeps are
 * those of the SVD.
 *   state    [in]      slice 0: the amplitudes; state_len exactly 2*2^n (zg_state_len)
 *   n        [in]      qubits of the register, 1 to 12
 *   list     [in]      slice 1: the listed qubits, in any order; list_len is k
 *   cap      [in]      the cap; more than 13 (ZG_CAP) counts as 13
 *   out      [out]     slice 2: the values left, falling; out_len at least 2^side (zg_dense_schmidt_values_out_len)
 *   scratch  [out]     slice 3: room to work in; scratch_len at least 8*2^n + 2*2^side (zg_dense_schmidt_values_scratch_len)
 *   place    [out]     the answer's place
 *   count    [out]     how many values are left
 *   sweeps   [out]     how many sweeps were begun, the quiet one included
 *   quiet    [out]     whether the last sweep turned no pair
 *   turned   [out]     how many pairs were turned in all
 *   exact    [out]     whether the root of every column's norm after the sweeps, of those that the floor drops too, and the root of
 *                      the final scale came out even as zg_sqrt_marked has it; no on a refusal
 * Refused by 1 to 5, as a cut, then by 6 to 9. */
uint32_t zg_dense_schmidt_values(const double *state, size_t state_len, size_t n, const size_t *list, size_t list_len,
                                 size_t cap, double *out, size_t out_len, double *scratch, size_t scratch_len,
                                 size_t *place, size_t *count, size_t *sweeps, bool *quiet, size_t *turned, bool *exact);

/* All cuts of a chain on one page: cut j is the list 0..j, for j from 0 to n-2. An entry reads the same as the cut asked for alone.
 * On 8 and 9 everything needed is zero.
 *   state    [in]      slice 0: the amplitudes; state_len exactly 2*2^n (zg_state_len)
 *   n        [in]      qubits of the register, 1 to 12
 *   cap      [in]      the cap; more than 13 (ZG_CAP) counts as 13
 *   header   [out]     slice 1: of cut j its count at 2j and the offset of its values at 2j+1; header_len at least 2*(n-1)
 *                      (zg_cut_profile_header_len)
 *   values   [out]     slice 2: the values, packed, +0.0 past the last; values_len at least the sum over j < n-1 of 2^min(j+1,
 *                      n-1-j) (zg_cut_profile_values_len)
 *   largest  [out]     slice 3: each cut's first value; largest_len at least n-1 (zg_cut_profile_largest_len)
 *   ranks    [out]     slice 4: each cut's count; ranks_len at least n-1 (zg_cut_profile_ranks_len)
 *   marks    [out]     slice 5: from 4j of cut j the sweeps begun, 1 where the last was quiet else 0, the turned pairs, 1 where
 *                      every root was exact else 0; marks_len at least 4*(n-1) (zg_cut_profile_marks_len)
 *   scratch  [out]     slice 6: room to work in; scratch_len at least 8*2^n + 2*2^floor(n/2) (zg_cut_profile_scratch_len)
 *   place    [out]     the answer's place
 * Refused by 1, 5 (n of 1), 6, 7, then 8 or 9 of the lowest j. */
uint32_t zg_cut_profile(const double *state, size_t state_len, size_t n, size_t cap, size_t *header, size_t header_len,
                        double *values, size_t values_len, double *largest, size_t largest_len, size_t *ranks,
                        size_t ranks_len, size_t *marks, size_t marks_len, double *scratch, size_t scratch_len,
                        size_t *place);
/* The entropy of the cut's Schmidt values as whole numbers. A weight is the floor of a Schmidt value's exact square times 2^24, W
 * their sum, and 2^lo * w^4096 <= W^4096 <= 2^hi * w^4096: the entropy of the weights in bits lies from low / whole to high /
 * whole.
 *   state    [in]      slice 0: the amplitudes; state_len exactly 2*2^n (zg_state_len)
 *   n        [in]      qubits of the register, 1 to 12
 *   list     [in]      slice 1: the listed qubits, in any order; list_len is k
 *   cap      [in]      the cap; more than 13 (ZG_CAP) counts as 13
 *   bands    [out]     slice 2: w, lo, hi of each weight left, falling, zeros past the count; bands_len at least 3*2^side
 *                      (zg_entropy_band_bands_len)
 *   scratch  [out]     slice 3: room to work in; scratch_len at least 8*2^n + 2*2^side (zg_entropy_band_scratch_len)
 *   place    [out]     the answer's place
 *   count    [out]     how many weights are left
 *   low      [out]     the sum of w*lo
 *   high     [out]     the sum of w*hi
 *   whole    [out]     4096*W
 *   sweeps   [out]     how many sweeps were begun, the quiet one included
 *   quiet    [out]     whether the last sweep turned no pair
 *   turned   [out]     how many pairs were turned in all
 * Refused by what zg_dense_schmidt_values is, and by 8 where no weight is left. */
uint32_t zg_entropy_band(const double *state, size_t state_len, size_t n, const size_t *list, size_t list_len, size_t cap,
                         size_t *bands, size_t bands_len, double *scratch, size_t scratch_len, size_t *place, size_t *count,
                         uint64_t *low, uint64_t *high, uint64_t *whole, size_t *sweeps, bool *quiet, size_t *turned);

/* ---- ranks and sites */

/* How many values are above epsilon times the first, at least 1, at most max_bond_dim. Any bits; the answer is 0.
 *   values        [in]      the values, falling; values_len of them
 *   epsilon       [in]      the threshold
 *   max_bond_dim  [in]      the most that are kept
 *   place         [out]     the answer's place
 *   rank          [out]     how many */
uint32_t zg_truncated_svd_rank(const double *values, size_t values_len, double epsilon, size_t max_bond_dim,
                               size_t *place, size_t *rank);
/* Whether keeping chi values drops one above 2^-50 times the first. Any bits; the answer is 0.
 *   values  [in]      the values, falling; values_len of them
 *   chi     [in]      how many are kept
 *   place   [out]     the answer's place
 *   yes     [out]     whether one is dropped */
uint32_t zg_discards_resolvable_weight(const double *values, size_t values_len, size_t chi, size_t *place, bool *yes);
/* The rank of the cut between two sites.
 *   bond_left   [in]      the bond left of both, 0 to 4096
 *   bond_mid    [in]      the one between them, 0 to 4096
 *   bond_right  [in]      the one right of both, 0 to 4096
 *   place       [out]     the answer's place
 *   rank        [out]     the rank; 0 on a refusal
 * Refused by 1. */
uint32_t zg_cut_rank(size_t bond_left, size_t bond_mid, size_t bond_right, size_t *place, uint64_t *rank);
/* The widest cut inside a block of sites.
 *   bond_left   [in]      the bond left of the block, 0 to 4096
 *   bond_right  [in]      the one right of it, 0 to 4096
 *   n           [in]      how many sites, 1 to 16
 *   place       [out]     the answer's place
 *   rank        [out]     its rank; 0 on a refusal
 * Refused by 1. */
uint32_t zg_widest_block_cut(size_t bond_left, size_t bond_right, size_t n, size_t *place, uint64_t *rank);
/* The four fills write a site's cells; lengths below are in cells. Bonds, chi, physical_dim, stride and row_len are 0 to
 * 4096, a site has at most 4096 cells, a stride is at least 2*bond_left, a row length at least physical_dim*bond_right,
 * else 1. Inputs hold at least chi columns (chi*stride), rows (chi*row_len) or values (chi); a gap is neither read nor
 * checked. Refused by 1, 6, 7. */
/* A site from the columns of an isometry.
 *   columns    [in]      slice 0: columns_len at least 2*chi*stride
 *   stride     [in]      the cells from one column to the next
 *   bond_left  [in]      the site's left bond
 *   chi        [in]      how many columns: its right bond
 *   out        [out]     slice 1: the site; out_len at least 4*bond_left*chi (zg_fill_isometry_site_data_out_len)
 *   place      [out]     the answer's place
 * Refused by 1, 6, 7. */
uint32_t zg_fill_isometry_site_data(const double *columns, size_t columns_len, size_t stride, size_t bond_left,
                                    size_t chi, double *out, size_t out_len, size_t *place);
/* A site from the columns of U, each times its singular value.
 *   u          [in]      slice 0: u_len at least 2*chi*stride
 *   s          [in]      slice 1: s_len at least chi
 *   stride     [in]      the cells from one column to the next
 *   bond_left  [in]      the site's left bond
 *   chi        [in]      how many columns: its right bond
 *   out        [out]     slice 2: the site; out_len at least 4*bond_left*chi (zg_fill_scaled_u_site_data_out_len)
 *   place      [out]     the answer's place
 * Refused by 1, 6, 7. */
uint32_t zg_fill_scaled_u_site_data(const double *u, size_t u_len, const double *s, size_t s_len, size_t stride,
                                    size_t bond_left, size_t chi, double *out, size_t out_len, size_t *place);
/* A site from the rows of V-dagger.
 *   vt            [in]      slice 0: vt_len at least 2*chi*row_len
 *   row_len       [in]      the cells from one row to the next
 *   chi           [in]      how many rows: the site's left bond
 *   physical_dim  [in]      its physical dimension
 *   bond_right    [in]      its right bond
 *   out           [out]     slice 1: the site; out_len at least 2*chi*physical_dim*bond_right (zg_fill_vt_site_data_out_len)
 *   place         [out]     the answer's place
 * Refused by 1, 6, 7. */
uint32_t zg_fill_vt_site_data(const double *vt, size_t vt_len, size_t row_len, size_t chi, size_t physical_dim,
                              size_t bond_right, double *out, size_t out_len, size_t *place);
/* A site from the rows of V-dagger, each times its singular value.
 *   s             [in]      slice 0: s_len at least chi
 *   vt            [in]      slice 1: vt_len at least 2*chi*row_len
 *   row_len       [in]      the cells from one row to the next
 *   chi           [in]      how many rows: the site's left bond
 *   physical_dim  [in]      its physical dimension
 *   bond_right    [in]      its right bond
 *   out           [out]     slice 2: the site; out_len at least 2*chi*physical_dim*bond_right (zg_fill_scaled_vt_data_out_len)
 *   place         [out]     the answer's place
 * Refused by 1, 6, 7. */
uint32_t zg_fill_scaled_vt_data(const double *s, size_t s_len, const double *vt, size_t vt_len, size_t row_len,
                                size_t chi, size_t physical_dim, size_t bond_right, double *out, size_t out_len,
                                size_t *place);

/* ---- the chain of sites */

/* The state taken apart from the left, qubit 0 first. Site j has shape (bonds[j], 2, bonds[j+1]) and stands at cells starts[j] ..
 * starts[j+1] of sites; cell (alpha, i, beta) is cell alpha*2*bonds[j+1] + i*bonds[j+1] + beta of it. bonds[j+1] is the kept rank
 * of cut j (0 <= j < n-1). B(0) = B(n) = 1, B(j) = min(limit, 2^j, 2^(n-j)).
 *   state    [in]      slice 0: the amplitudes, at most 2^190 in magnitude; state_len exactly 2*2^n (zg_state_len)
 *   n        [in]      qubits of the register, 1 to 12
 *   epsilon  [in]      values above epsilon times a cut's first are kept
 *   limit    [in]      at most so many are kept; 0 is refused by 1
 *   sites    [out]     slice 1: the sites, +0.0 past starts[n]; sites_len at least 2 * the sum over j < n of 2*B(j)*B(j+1)
 *                      (zg_chain_of_sites_sites_len)
 *   bonds    [out]     slice 2: the bonds; bonds_len at least n+1 (zg_chain_of_sites_bonds_len)
 *   starts   [out]     slice 3: where each site begins, in cells; starts_len at least n+1 (zg_chain_of_sites_starts_len)
 *   marks    [out]     slice 4: from 3j of cut j's SVD the sweeps begun, 1 where the last was quiet else 0, the turned pairs;
 *                      marks_len at least 3*(n-1) (zg_chain_of_sites_marks_len)
 *   matrix   [out]     slice 5: room to work in; matrix_len at least 2*2^n (zg_chain_of_sites_matrix_len)
 *   u        [out]     slice 6: room to work in; u_len at least 2*2^n (zg_chain_of_sites_u_len)
 *   vt       [out]     slice 7: room to work in; vt_len at least 2*2^n (zg_chain_of_sites_vt_len)
 *   scratch  [out]     slice 8: room to work in; scratch_len at least 6*2^n + 2*2^floor(n/2) (zg_chain_of_sites_scratch_len)
 *   place    [out]     the answer's place
 *   dropped  [out]     how many cuts dropped a resolvable value
 * Refused by 1 (limit 0, then n), 6, 7 (above 2^190), 8 (every component zero), 9. */
uint32_t zg_chain_of_sites(const double *state, size_t state_len, size_t n, double epsilon, size_t limit, double *sites,
                           size_t sites_len, size_t *bonds, size_t bonds_len, size_t *starts, size_t starts_len,
                           size_t *marks, size_t marks_len, double *matrix, size_t matrix_len, double *u, size_t u_len,
                           double *vt, size_t vt_len, double *scratch, size_t scratch_len, size_t *place,
                           size_t *dropped);

/* ---- sites in one slab */

/* A slab is 8,192 numbers (4,096 cells) and an index of 193 numbers: how many sites are held, then three for each: site
 * number, first cell, count of cells. All zero is the empty slab. Entries behind the count are not looked at. Numbers of
 * cells are read and moved as their 64 bits, so any bits are kept; a free cell is +0.0. Refused by 1 for a slab with more
 * than 64 sites, with two sites that share a number or a cell, with a site that is empty or leaves the slab, or with a free
 * cell that is not +0.0, then by 1 for data of no cells, of an odd count of numbers or above 4,096 cells, then by 13, 14,
 * 15. A refused call changes nothing. The place is 0. */
/* The data stand in the lowest run of free cells that fits; the site is the index's last.
 *   cells  [in,out]  the cells of the slab
 *   index  [in,out]  its index
 *   site   [in]      its number, any that is not held
 *   data   [in]      the site's cells; data_len is twice as many
 *   place  [out]     the answer's place
 * Refused by 1, 13 (the number is held), 14 (no run of that length is free), 15 (sixty-four sites are held). */
uint32_t zg_slab_put(double cells[8192], uint32_t index[193], uint32_t site, const double *data, size_t data_len,
                     size_t *place);
/* The site's cells turn to +0.0, the entries behind its own move down, and the last is zeros.
 *   cells  [in,out]  the cells of the slab
 *   index  [in,out]  its index
 *   site   [in]      its number
 *   place  [out]     the answer's place
 * Refused by 1, 13 (it is not held). */
uint32_t zg_slab_drop(double cells[8192], uint32_t index[193], uint32_t site, size_t *place);
/* The site has new data, judged and placed as if its old cells were free, and keeps its entry; old cells that the data do not take
 * turn to +0.0.
 *   cells  [in,out]  the cells of the slab
 *   index  [in,out]  its index
 *   site   [in]      its number
 *   data   [in]      the site's cells; data_len is twice as many
 *   place  [out]     the answer's place
 * Refused by 1, 13 (it is not held), 14. */
uint32_t zg_slab_replace(double cells[8192], uint32_t index[193], uint32_t site, const double *data, size_t data_len,
                         size_t *place);

/* ---- the night batch: the sheet of a lot of cut files */

/* A lot is a u32 count of files, each one's u32 length, then the files, all little-endian; a file cut short is read as far as it
 * goes, a file's first 8,480 bytes decide, and bytes behind the last file are not looked at. A refused file is counted and the lot
 * goes on.
 *   lot    [in]      the bytes; lot_len of them
 *   sheet  [out]     how many files gave each answer from 0 to 10, how many kept each rank from 1 to 16, the smallest rank, its
 *                    first file, the largest rank, its first file (files count from 1; four zeros where none was accepted), the sum
 *                    of the ranks
 *   place  [out]     the answer's place
 * Refused by 16 (the count is over 1,000 or the header is cut short; then the sheet is as it was). */
uint32_t zg_lot_sheet(const uint8_t *lot, size_t lot_len, size_t sheet[32], size_t *place);

/* ---- a plan of a cut */

/* A cut kept: 30 whole numbers, no padding. The first k of named are the named list in its order, the first min(k, n-k) of
 * smaller the smaller side's list: the named one in its order where k is at most n-k, else the others rising. Every other place
 * is 0. */
typedef struct zg_plan {
    size_t n, k;                   /* the register, the length of the named list */
    size_t row_mask, column_mask;  /* which qubits are the rows', which the columns' */
    size_t rows, columns;          /* 2^side, 2^(n-side) */
    size_t named[12], smaller[12];
} zg_plan;

/* A plan of the list.
 *   list   [in]      slice 0: the listed qubits, in any order; list_len is k
 *   n      [in]      qubits of the register, 1 to 12
 *   cap    [in]      the cap; more than 13 (ZG_CAP) counts as 13
 *   plan   [out]     the plan; on a refusal it is as it was
 *   place  [out]     the answer's place
 * Refused by 1 to 5, as a cut without its state. */
uint32_t zg_cut_plan(const size_t *list, size_t list_len, size_t n, size_t cap, zg_plan *plan, size_t *place);
/* Every call below: 1 before all others where no list makes the plan under cap 13. After it *plan is what zg_cut_plan makes of the
 * changed list; a refused change leaves it as it was. */
/* The qubit at the list's end.
 *   plan   [in,out]  the plan
 *   qubit  [in]      the qubit
 *   place  [out]     the answer's place
 * Refused by 1, 2 and 3, placed at k, 5. */
uint32_t zg_plan_add(zg_plan *plan, size_t qubit, size_t *place);
/* Without the qubit, the gap closed.
 *   plan   [in,out]  the plan
 *   qubit  [in]      the qubit
 *   place  [out]     the answer's place
 * Refused by 1, 12 (it is not listed; place 0), 4. */
uint32_t zg_plan_drop(zg_plan *plan, size_t qubit, size_t *place);
/* The other side named, rising.
 *   plan   [in,out]  the plan
 *   place  [out]     the answer's place
 * Refused by 1 alone. */
uint32_t zg_plan_switch(zg_plan *plan, size_t *place);

/* The calls of the plan's list under cap 13: 1 before all others where no list makes the plan, then the same numbers, places, cells,
 * counts and marks. The plan stands where the list stood and has its number: state 0 (exactly 2*2^n numbers), plan 1, out 2,
 * scratch 3. */
/* As zg_cut_matrix.
 *   state  [in]      slice 0: the amplitudes; state_len exactly 2*2^n (zg_state_len)
 *   plan   [in]      in place of slice 1: the plan
 *   out    [out]     slice 2: the matrix; out_len at least 2*2^n (zg_planned_cut_matrix_out_len)
 *   place  [out]     the answer's place
 * Refused by 1, 6, 7. */
uint32_t zg_planned_cut_matrix(const double *state, size_t state_len, const zg_plan *plan, double *out, size_t out_len,
                               size_t *place);
/* As zg_dense_schmidt_values.
 *   state    [in]      slice 0: the amplitudes; state_len exactly 2*2^n (zg_state_len)
 *   plan     [in]      in place of slice 1: the plan
 *   out      [out]     slice 2: the values left, falling; out_len at least 2^side (zg_planned_schmidt_values_out_len)
 *   scratch  [out]     slice 3: room to work in; scratch_len at least 8*2^n + 2*2^side (zg_planned_schmidt_values_scratch_len)
 *   place    [out]     the answer's place
 *   count    [out]     how many values are left
 *   sweeps   [out]     how many sweeps were begun, the quiet one included
 *   quiet    [out]     whether the last sweep turned no pair
 *   turned   [out]     how many pairs were turned in all
 *   exact    [out]     whether every root came out even, as zg_dense_schmidt_values has it
 * Refused by 1, 6 to 9. */
uint32_t zg_planned_schmidt_values(const double *state, size_t state_len, const zg_plan *plan, double *out, size_t out_len,
                                   double *scratch, size_t scratch_len, size_t *place, size_t *count, size_t *sweeps,
                                   bool *quiet, size_t *turned, bool *exact);
/* As zg_dense_reduced_density.
 *   state    [in]      slice 0: the amplitudes; state_len exactly 2*2^n (zg_state_len)
 *   plan     [in]      in place of slice 1: the plan, of six named qubits at most, else 1
 *   out      [out]     slice 2: the matrix, 2^k by 2^k; out_len at least 2*4^k (zg_planned_reduced_density_out_len)
 *   scratch  [out]     slice 3: room to work in; scratch_len at least 2*2^k (zg_planned_reduced_density_scratch_len)
 *   place    [out]     the answer's place
 * Refused by 1, 6, 7. */
uint32_t zg_planned_reduced_density(const double *state, size_t state_len, const zg_plan *plan, double *out, size_t out_len,
                                    double *scratch, size_t scratch_len, size_t *place);

/* ---- the certificate of a cut file as text, with no folder and no process: what cutprint and pageprint print, byte for byte */

/* Page one. The printout is ASCII with \n at the end of each line and no zero byte behind it; the rest of text stays as it was. The answer
 * and *place are the file's: 0, 1 to 5, 7 to 9 or 10; where it is refused, the printout is the one line `refused ANSWER PLACE`.
 *   file    [in]      slice 0: the bytes of a cut file, file_len of them, any number (docs/CONVENTIONS.md has its layout)
 *   text    [out]     slice 1: its front becomes the printout; text_len at least 2,048 (zg_certificate_text_len)
 *   place   [out]     the file's place
 *   length  [out]     the printout's length; 0 on 6
 * 6 with place 1: text has less room. Then text is as it was and *length is 0. */
uint32_t zg_certificate(const uint8_t *file, size_t file_len, uint8_t *text, size_t text_len, size_t *place, size_t *length);

/* Both pages: page one with a digest and a mark, then the reduced density matrix of the named qubits (docs/CONVENTIONS.md has the lines).
 * The answer and *place are page one's. By 8 and 9 page one alone is refused, and the printout has both pages; where page two alone is
 * refused, for more than five named qubits, the answer is 0 and the printout says so in its lines. By any other answer the file is refused
 * as a whole, in one line.
 *   file    [in]      slice 0: the bytes of a cut file, file_len of them, any number (docs/CONVENTIONS.md has its layout)
 *   text    [out]     slice 1: its front becomes the printout; text_len at least 102,400 (zg_certificate_pages_text_len)
 *   place   [out]     the file's place
 *   length  [out]     the printout's length; 0 on 6
 * 6 with place 1: text has less room. Then text is as it was and *length is 0. */
uint32_t zg_certificate_pages(const uint8_t *file, size_t file_len, uint8_t *text, size_t text_len, size_t *place, size_t *length);

#ifdef __cplusplus
}
#endif
#endif
