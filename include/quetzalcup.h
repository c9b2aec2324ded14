/* quetzalcup.h: pressures in voxel casts of airways, by a proved solver.
 *
 *     ./build-library
 *     cc examples/solve.c $(PKG_CONFIG_PATH=target/library pkg-config --cflags --libs quetzalcup) -o solve
 *     ./solve examples/example.session
 *
 * or, without pkg-config:  cc -Itarget/library examples/solve.c target/library/libquetzalcup.a -o solve
 *
 * A cast is a box of cells with sides nx, ny, nz of 1 to 32; cell (i, j, k) has number i + nx * (j + ny * k). Each cell has
 * a label, 0 air, 1 opening, 2 wall, and a value: an opening's level (-1,000,000 to 1,000,000), an air cell's source
 * (-1,000 to 1,000), 0 at a wall. At an air cell d * p minus the sum of p over its d non-wall face neighbours is the source.
 *
 * WHAT EVERY CALL ASKS
 * - A slice is a pointer and the number of its elements. It may be NULL where that number is 0. Slices handed to one call
 *   must not overlap, and must hold what is said of them (a pointer aligned for its type, elements that may be read,
 *   and written where the call writes). Nothing else is asked: any sides, settings, labels, values and lengths get an
 *   answer, and a refusal says why.
 * - The rounding mode is the default one, to nearest, ties to even, and subnormal numbers are kept (not the mode that some
 *   compilers' fast-math option sets at the start of a program). Every bit of the answer rests on it.
 * - No call keeps anything: no global data, no allocation, no lock, no errno. Calls on different slices may run at the same
 *   time in different threads.
 * - A call needs less than 64 KiB of stack.
 */
#ifndef QUETZALCUP_H
#define QUETZALCUP_H

#include <stddef.h>
#include <stdint.h>

#ifdef __cplusplus
extern "C" {
#endif

typedef struct { uint32_t nx, ny, nz; } quetz_sides;

/* tolerance 0 to 1,000,000 (how large a residual may be at any cell); levels 1 to 6 (of the grid); rounds 0 to 1,000 (limit) */
typedef struct { uint32_t tolerance, levels, rounds; } quetz_settings;

typedef struct { quetz_sides sides; quetz_settings settings; } quetz_task;

/* number  given when                                            also set
 *  0      accepted (or read, or written)                        all but number and place (by the solver)
 *  1      a side is not 1 to 32
 *  2      a slice has the wrong length or a room is short
 *  3      a setting is out of range (or the writer's order)
 *  4      a label above 2                                       place: the first such cell
 *  5      a value out of its label's range                      place: the first such cell
 *  6      no air cell
 *  7      an air cell has no walk through air to an opening     place: the first such cell
 *  8      the limit of rounds was reached, not accepted         rounds, interior, depth
 *  9      stalled: no further round can be made                 rounds, interior, depth
 * 10      a header line is not of the form                      place: its line, 1 to 7, the first such
 * 11      the body is not 5 bytes a cell (of the old form, 3)
 * 13      a value cannot be written in that unit                 place: the first such cell
 *
 * worst is the greatest absolute residual of the pressures handed back, worstcell the first air cell that has it,
 * worstvalue the residual there with its sign, interior the number of air cells, depth the greatest
 * over air cells of the least number of face steps through air to an opening. Fields not named are 0. 8 and 9 do not say
 * that there is no solution. Of an accepted answer it is proved: where the exact solution is y, at each air cell
 * |pressure - y| <= worst * interior * depth. */
typedef struct { uint32_t number, place, rounds, worst, worstcell; int32_t worstvalue; uint32_t interior, depth; } quetz_answer;

/* What is read of a session. order is 0 for big, 1 for little. The labels are the cells' bytes at session + start. On a
 * refusal every field but answer is 0. */
typedef struct { quetz_answer answer; quetz_sides sides; uint32_t order; quetz_settings settings; size_t start; } quetz_session;

/* What is read of a session of the old form: its unit in place of order and settings; the labels stand behind the values. */
typedef struct { quetz_answer answer; quetz_sides sides; uint32_t unit; size_t start; } quetz_old_session;

/* count: how many bytes of the output were written, 0 on a refusal */
typedef struct { quetz_answer answer; size_t count; } quetz_written;

/* Solves a cast. labels, values and pressures have exactly one element a cell; the three rooms at least what the functions below
 * say, and what they hold at the call does not matter. Checks 1 to 7 in that order.
 * On 0 the pressures are written: openings have their level, walls 0, air whole ticks. On any other answer they stay as
 * they were. Answers 1 to 6 change nothing. 0, 7, 8 and 9 leave the needed part of each room zero, and the rest as it was. */
quetz_answer quetz_solve(quetz_task task,
                         const uint8_t *labels, size_t labels_length,
                         const int32_t *values, size_t values_length,
                         int64_t *pressures, size_t pressures_length,
                         uint8_t *bytes, size_t bytes_length,
                         double *floats, size_t floats_length,
                         uint32_t *words, size_t words_length);

/* How many signed 64-bit numbers an answer has as its fields: number, place, rounds, worst, worstcell, worstvalue,
 * interior, depth, in this order. */
#define QUETZ_FIELDS 8

/* Solves one cast with many sets of values, 1 to 64, laid end to end: set s has the cells' values from values + s * cells on, its
 * pressures from pressures + s * cells on, and its answer's fields from answers + s * QUETZ_FIELDS on. The labels are checked
 * and prepared once. values and pressures have exactly sets * cells elements, answers exactly sets * QUETZ_FIELDS; the rooms
 * are those of one set. Checks 1, 2, 3 (also the number of sets), 4, 6, 7 in that order for the whole call; then no answer
 * and no pressure is changed, and the rooms are left as by quetz_solve. Past 7 the answer is 0 with its other fields 0, and
 * each set has exactly what quetz_solve would give it: 5, 8 or 9 with its pressures as they were, or 0. Look at each set's
 * own number. */
quetz_answer quetz_solve_many(quetz_task task, uint32_t sets,
                              const uint8_t *labels, size_t labels_length,
                              const int32_t *values, size_t values_length,
                              int64_t *pressures, size_t pressures_length,
                              int64_t *answers, size_t answers_length,
                              uint8_t *bytes, size_t bytes_length,
                              double *floats, size_t floats_length,
                              uint32_t *words, size_t words_length);

/* Reads a session: header and label part are handed back, the values stored in the lent slice, which is at least as long as
 * there are cells; beyond them it stays as it was. Checks 10, 1, 11, 2, 3, 4, 5. A refusal stores nothing. */
quetz_session quetz_read(const uint8_t *session, size_t session_length,
                         int32_t *values, size_t values_length);

/* Writes a session at the front of the output, in the order 0 big or 1 little; any other order is answer 3. labels and values have
 * exactly one element a cell. Checks 1, 3, 2, 4, 5. Beyond the bytes written the output stays as it was; a refusal
 * writes nothing. A session has at most 94 + 5 * nx * ny * nz bytes. */
quetz_written quetz_write(quetz_task task, uint32_t order,
                          const uint8_t *labels, size_t labels_length,
                          const int32_t *values, size_t values_length,
                          uint8_t *output, size_t output_length);

/* The old form, which names neither order nor settings: a line `size=AxBxC`, a line `unit=U`, then a 16-bit value a cell, the
 * most significant byte first, then the labels. A tick value is the stored number times the unit, 1 to 1,000.
 * Reading checks 10 (place 1 or 2), 1, 11, 2, 3 (the unit, or a setting that the caller passes), 4, 5 (the product). */
quetz_old_session quetz_old_read(quetz_settings settings,
                                 const uint8_t *session, size_t session_length,
                                 int32_t *values, size_t values_length);

/* Writing checks 1, 3 (the unit), 2, 4, 5, then 13: a value that is no multiple of the unit, or whose quotient does not fit 16 bits. */
quetz_written quetz_old_write(quetz_sides sides, uint32_t unit,
                              const uint8_t *labels, size_t labels_length,
                              const int32_t *values, size_t values_length,
                              uint8_t *output, size_t output_length);

/* How many elements each room of quetz_solve needs for a cast of these sides; 0 where a side is not 1 to 32. */
size_t quetz_byte_need(quetz_sides sides);
size_t quetz_float_need(quetz_sides sides);
size_t quetz_word_need(quetz_sides sides);

#ifdef __cplusplus
}
#endif

#endif
