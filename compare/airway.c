/*
 * The separate implementation: document 01's program with the requests of
 * document 02 that have landed, written from the documents alone, to be
 * compared with the project's own.
 *
 *   airway [--room N]            one session on standard input
 *   airway [--room N] --frames   many sessions, each behind a line bytes=N
 *   airway --piece NAME          one part of the method, see README.md
 *   airway --reread              reader, writer and walks by themselves, see README.md
 *   airway --onecycle            the cycle on many casts, as often as each asks, see README.md
 *   airway --replay              many sessions with room for the greatest cast, see README.md
 *   airway --edges               direct calls of the solver, with any lengths lent, see README.md
 *
 * Build with -ffp-contract=off: each operation rounds once.
 */
#include <float.h>
#include <inttypes.h>
#include <math.h>
#include <stdbool.h>
#include <stdint.h>
#include <stdio.h>
#include <stdlib.h>
#include <string.h>

_Static_assert(FLT_EVAL_METHOD == 0, "a double operation must round to binary64");
_Static_assert(DBL_MANT_DIG == 53 && sizeof(double) == 8, "double must be binary64");

enum { AIR = 0, OPENING = 1, WALL = 2 };

enum {
    MAX_SIDE = 32,
    MAX_CELLS = MAX_SIDE * MAX_SIDE * MAX_SIDE,
    MAX_LEVELS = 6,
    OUTSIDE = MAX_CELLS,        /* the number of every place outside the box */
    MAX_HEADER = 94,            /* the longest seven lines of the form */
    MAX_DIGITS = 7,
    PROGRAM_ROOM = 1000,        /* the program has rooms for 1,000 cells */
    MAX_TOLERANCE = 1000000,
    MAX_ROUNDS = 1000,
    MAX_OPENING_LEVEL = 1000000,
    MAX_SOURCE = 1000,
    COARSEST_SWEEPS = 8
};

#define RESTRICTION_DIVISOR 512.0
#define PROLONGATION_DIVISOR 16.0    /* document 02, wish 4 */
#define GREATEST_TICK 2199023255552.0   /* 2^41 */

/* ------------------------------------------------------------------ */
/* What comes back                                                    */

typedef struct {
    int number;
    long place, rounds;
    int64_t worst;
    long worst_cell;        /* document 02, wish 5 */
    int64_t worst_value;
    long interior, depth;
} Answer;

/* "Fields not named below are 0." */
static Answer refusal(int number, long place)
{
    Answer answer = {0};
    answer.number = number;
    answer.place = place;
    return answer;
}

/* ------------------------------------------------------------------ */
/* The cast, and the levels of the grid                               */

typedef struct {
    int nx, ny, nz, cells;
    unsigned char label[MAX_CELLS + 1]; /* label[OUTSIDE] is wall */
    int neighbour[MAX_CELLS][6];        /* -x, +x, -y, +y, -z, +z */
    int degree[MAX_CELLS];              /* d: the non-wall face neighbours */
    bool band[MAX_CELLS];
    double b[MAX_CELLS], u[MAX_CELLS], scratch[MAX_CELLS];
} Level;

static Level level[MAX_LEVELS];

/* "Cell (i, j, k) has number i + nx*(j + ny*k)" */
static int cell_at(const Level *l, int i, int j, int k)
{
    if (i < 0 || i >= l->nx || j < 0 || j >= l->ny || k < 0 || k >= l->nz)
        return OUTSIDE;
    return i + l->nx * (j + l->ny * k);
}

static void set_sides(Level *l, int nx, int ny, int nz)
{
    l->nx = nx;
    l->ny = ny;
    l->nz = nz;
    l->cells = nx * ny * nz;
    l->label[OUTSIDE] = WALL;   /* "outside the box is wall" */
}

static void find_neighbours(Level *l)
{
    for (int cell = 0; cell < l->cells; cell++) {
        int i = cell % l->nx, j = cell / l->nx % l->ny, k = cell / l->nx / l->ny;
        int *n = l->neighbour[cell];
        n[0] = cell_at(l, i - 1, j, k);
        n[1] = cell_at(l, i + 1, j, k);
        n[2] = cell_at(l, i, j - 1, k);
        n[3] = cell_at(l, i, j + 1, k);
        n[4] = cell_at(l, i, j, k - 1);
        n[5] = cell_at(l, i, j, k + 1);
    }
}

/* "d counts the non-wall face neighbours (0 to 6)" */
static void count_degrees(Level *l)
{
    for (int cell = 0; cell < l->cells; cell++) {
        l->degree[cell] = 0;
        for (int n = 0; n < 6; n++)
            if (l->label[l->neighbour[cell][n]] != WALL)
                l->degree[cell]++;
    }
}

static void make_level(Level *l, int nx, int ny, int nz, const unsigned char *labels)
{
    set_sides(l, nx, ny, nz);
    memcpy(l->label, labels, (size_t)l->cells);
    find_neighbours(l);
    count_degrees(l);
}

/* The children are (2I+a, 2J+b, 2K+c), a, b, c each 0 or 1: child 0 to 7. */
static int child_of(const Level *fine, int I, int J, int K, int child)
{
    return cell_at(fine, 2 * I + (child & 1), 2 * J + (child >> 1 & 1), 2 * K + (child >> 2));
}

/* "opening if any child is, else air if any child is, else wall" */
static unsigned char coarse_label(const Level *fine, int I, int J, int K)
{
    bool opening = false, air = false;
    for (int child = 0; child < 8; child++) {
        unsigned char label = fine->label[child_of(fine, I, J, K, child)];
        opening = opening || label == OPENING;
        air = air || label == AIR;
    }
    return opening ? OPENING : air ? AIR : WALL;
}

/* "Each side of the next level is half, rounded up." */
static void coarsen(const Level *fine, Level *coarse)
{
    set_sides(coarse, (fine->nx + 1) / 2, (fine->ny + 1) / 2, (fine->nz + 1) / 2);
    int cell = 0;
    for (int K = 0; K < coarse->nz; K++)
        for (int J = 0; J < coarse->ny; J++)
            for (int I = 0; I < coarse->nx; I++)
                coarse->label[cell++] = coarse_label(fine, I, J, K);
    find_neighbours(coarse);
    count_degrees(coarse);
}

/* ------------------------------------------------------------------ */
/* Transfers                                                          */

/* Weights 1, 3, 3, 1 along each axis; the product is exact. */
static double product_weight(int a, int b, int c)
{
    static const int axis_weight[4] = {1, 3, 3, 1};
    return axis_weight[a] * axis_weight[b] * axis_weight[c];
}

/* Coarse cell I draws along each axis from fine 2I-1, 2I, 2I+1, 2I+2. */
static double restricted(const Level *fine, const double *u, int I, int J, int K)
{
    double sum = 0.0;
    for (int c = 0; c < 4; c++)
        for (int b = 0; b < 4; b++)
            for (int a = 0; a < 4; a++) {
                int cell = cell_at(fine, 2 * I - 1 + a, 2 * J - 1 + b, 2 * K - 1 + c);
                if (fine->label[cell] == AIR)
                    sum += product_weight(a, b, c) * u[cell];
            }
    return sum / RESTRICTION_DIVISOR;
}

/* "Into air cells only" */
static void restrict_field(const Level *fine, const double *u, const Level *coarse, double *w)
{
    int cell = 0;
    for (int K = 0; K < coarse->nz; K++)
        for (int J = 0; J < coarse->ny; J++)
            for (int I = 0; I < coarse->nx; I++, cell++)
                w[cell] = coarse->label[cell] == AIR ? restricted(fine, u, I, J, K) : 0.0;
}

/* Along an axis fine place i is drawn on by this coarse place and the next. */
static int first_coarse(int i)
{
    return (i + 1) / 2 - 1;
}

/* "the same weights from coarse to fine", the coarse cells in ascending number */
static double prolongated(const Level *coarse, const double *w, int i, int j, int k)
{
    int I0 = first_coarse(i), J0 = first_coarse(j), K0 = first_coarse(k);
    double sum = 0.0;
    for (int K = K0; K <= K0 + 1; K++)
        for (int J = J0; J <= J0 + 1; J++)
            for (int I = I0; I <= I0 + 1; I++) {
                int cell = cell_at(coarse, I, J, K);
                if (coarse->label[cell] == AIR)
                    sum += product_weight(i - (2 * I - 1), j - (2 * J - 1), k - (2 * K - 1)) * w[cell];
            }
    return sum / PROLONGATION_DIVISOR;
}

static void prolongate_field(const Level *coarse, const double *w, const Level *fine, double *u)
{
    int cell = 0;
    for (int k = 0; k < fine->nz; k++)
        for (int j = 0; j < fine->ny; j++)
            for (int i = 0; i < fine->nx; i++, cell++)
                u[cell] = fine->label[cell] == AIR ? prolongated(coarse, w, i, j, k) : 0.0;
}

/* ------------------------------------------------------------------ */
/* The band                                                           */

/* "Coarse places outside the box count as having one"; a child outside is wall. */
static bool has_child_not_air(const Level *fine, const Level *coarse, int I, int J, int K)
{
    if (cell_at(coarse, I, J, K) == OUTSIDE)
        return true;
    for (int child = 0; child < 8; child++)
        if (fine->label[child_of(fine, I, J, K, child)] != AIR)
            return true;
    return false;
}

/* "any of the up to 8 coarse cells that prolongate to it has a child that isn't air" */
static bool near_not_air(const Level *fine, const Level *coarse, int i, int j, int k)
{
    int I0 = first_coarse(i), J0 = first_coarse(j), K0 = first_coarse(k);
    for (int K = K0; K <= K0 + 1; K++)
        for (int J = J0; J <= J0 + 1; J++)
            for (int I = I0; I <= I0 + 1; I++)
                if (has_child_not_air(fine, coarse, I, J, K))
                    return true;
    return false;
}

static void mark_band(Level *fine, const Level *coarse)
{
    int cell = 0;
    for (int k = 0; k < fine->nz; k++)
        for (int j = 0; j < fine->ny; j++)
            for (int i = 0; i < fine->nx; i++, cell++)
                fine->band[cell] = fine->label[cell] == AIR && near_not_air(fine, coarse, i, j, k);
}

/* ------------------------------------------------------------------ */
/* The cycle in binary64                                              */

/* "A u = d*u minus the sum of air neighbours": openings count as zero here. */
static double operator_at(const Level *l, const double *u, int cell)
{
    double sum = 0.0;
    for (int n = 0; n < 6; n++) {
        int other = l->neighbour[cell][n];
        if (l->label[other] == AIR)
            sum += u[other];
    }
    return (double)l->degree[cell] * u[cell] - sum;
}

static double residual_at(const Level *l, const double *b, const double *u, int cell)
{
    return b[cell] - operator_at(l, u, cell);
}

static void residual_field(const Level *l, const double *b, const double *u, double *residual)
{
    for (int cell = 0; cell < l->cells; cell++)
        residual[cell] = l->label[cell] == AIR ? residual_at(l, b, u, cell) : 0.0;
}

static void operator_field(const Level *l, const double *u, double *au)
{
    for (int cell = 0; cell < l->cells; cell++)
        au[cell] = l->label[cell] == AIR ? operator_at(l, u, cell) : 0.0;
}

static void copy_field(const Level *l, const double *from, double *to)
{
    memcpy(to, from, (size_t)l->cells * sizeof *to);
}

static void zero_field(const Level *l, double *u)
{
    for (int cell = 0; cell < l->cells; cell++)
        u[cell] = 0.0;
}

/* "all changes from the old u, then u + (2/3)*((b - A u)/d)" */
static void jacobi(Level *l, const double *b, double *u)
{
    const double two_thirds = 2.0 / 3.0;
    for (int cell = 0; cell < l->cells; cell++) {
        double changed = 0.0;
        if (l->label[cell] == AIR)
            changed = u[cell] + two_thirds * (residual_at(l, b, u, cell) / (double)l->degree[cell]);
        l->scratch[cell] = changed;
    }
    copy_field(l, l->scratch, u);
}

typedef enum { ASCENDING, DESCENDING } Direction;
typedef enum { ALL_AIR, BAND_ONLY } Extent;

/* "u becomes u + (b - A u)/d, one cell after another" */
static void gauss_seidel(const Level *l, Extent extent, Direction direction, const double *b, double *u)
{
    for (int step = 0; step < l->cells; step++) {
        int cell = direction == ASCENDING ? step : l->cells - 1 - step;
        if (l->label[cell] != AIR || (extent == BAND_ONLY && !l->band[cell]))
            continue;
        u[cell] = u[cell] + residual_at(l, b, u, cell) / (double)l->degree[cell];
    }
}

static void sweeps(const Level *l, Extent extent, Direction direction, int count, const double *b, double *u)
{
    for (int sweep = 0; sweep < count; sweep++)
        gauss_seidel(l, extent, direction, b, u);
}

static void cycle(int number, int levels);

/* The residual goes down, the coarser level's result is prolongated and added. */
static void coarse_correction(int number, int levels)
{
    Level *fine = &level[number], *coarse = &level[number + 1];
    residual_field(fine, fine->b, fine->u, fine->scratch);
    restrict_field(fine, fine->scratch, coarse, coarse->b);
    cycle(number + 1, levels);
    prolongate_field(coarse, coarse->u, fine, fine->scratch);
    for (int cell = 0; cell < fine->cells; cell++)
        if (fine->label[cell] == AIR)
            fine->u[cell] = fine->u[cell] + fine->scratch[cell];
}

/* The cycle of level `number`: from its b to its u. */
static void cycle(int number, int levels)
{
    Level *l = &level[number];
    zero_field(l, l->u);
    if (number == levels - 1) {
        sweeps(l, ALL_AIR, ASCENDING, COARSEST_SWEEPS, l->b, l->u);
        sweeps(l, ALL_AIR, DESCENDING, COARSEST_SWEEPS, l->b, l->u);
        return;
    }
    int band_sweeps = 2 << number;      /* 2^(l+1) */
    jacobi(l, l->b, l->u);
    sweeps(l, BAND_ONLY, ASCENDING, band_sweeps, l->b, l->u);
    coarse_correction(number, levels);
    sweeps(l, BAND_ONLY, DESCENDING, band_sweeps, l->b, l->u);
    jacobi(l, l->b, l->u);
}

/* Level 0 stands; the levels below it and the bands are made from it. */
static void make_coarser_levels(int levels)
{
    for (int number = 0; number + 1 < levels; number++) {
        coarsen(&level[number], &level[number + 1]);
        mark_band(&level[number], &level[number + 1]);
    }
}

/* ------------------------------------------------------------------ */
/* Walks and depth                                                    */

typedef struct {
    long depth;     /* 0 where there is no air */
    int sealed;     /* the first air cell without a walk, or OUTSIDE */
} Walks;

/* Steps to an opening through air, from the openings outward; -1: no walk. */
static void count_steps(const Level *l, int *steps)
{
    static int queue[MAX_CELLS];
    int head = 0, tail = 0;
    for (int cell = 0; cell < l->cells; cell++) {
        steps[cell] = l->label[cell] == OPENING ? 0 : -1;
        if (l->label[cell] == OPENING)
            queue[tail++] = cell;
    }
    while (head < tail) {
        int cell = queue[head++];
        for (int n = 0; n < 6; n++) {
            int other = l->neighbour[cell][n];
            if (l->label[other] == AIR && steps[other] < 0) {
                steps[other] = steps[cell] + 1;
                queue[tail++] = other;
            }
        }
    }
}

/* "the greatest, over air cells, of the least number of face steps" */
static Walks walk_the_air(const Level *l)
{
    static int steps[MAX_CELLS];
    Walks walks = {0, OUTSIDE};
    count_steps(l, steps);
    for (int cell = l->cells - 1; cell >= 0; cell--) {
        if (l->label[cell] != AIR)
            continue;
        if (steps[cell] < 0)
            walks.sealed = cell;
        else if (steps[cell] > walks.depth)
            walks.depth = steps[cell];
    }
    return walks;
}

static long count_air(const Level *l)
{
    long air = 0;
    for (int cell = 0; cell < l->cells; cell++)
        air += l->label[cell] == AIR;
    return air;
}

/* ------------------------------------------------------------------ */
/* Whole ticks and the exact residual                                 */

/* "nearest whole tick", and document 02, wish 3: "a tie goes to the even tick"; false: not finite or out of range.
 * The whole part, and what is left of x without it, are exact. */
static bool whole_tick(double x, int64_t *tick)
{
    double size = fabs(x);
    if (!(size < 2.0 * GREATEST_TICK))
        return false;
    int64_t low = (int64_t)size;
    double left = size - (double)low;
    if (left > 0.5 || (left == 0.5 && low % 2 != 0))
        low++;
    if ((double)low > GREATEST_TICK)
        return false;
    *tick = x < 0.0 ? -low : low;
    return true;
}

/* "Residual = source + that sum - d*p", "p at an opening is its level" */
static int64_t exact_residual(const Level *l, const int64_t *values, const int64_t *pressures, int cell)
{
    int64_t sum = 0;
    for (int n = 0; n < 6; n++) {
        int other = l->neighbour[cell][n];
        if (l->label[other] == AIR)
            sum += pressures[other];
        else if (l->label[other] == OPENING)
            sum += values[other];
    }
    return values[cell] + sum - l->degree[cell] * pressures[cell];
}

/* "opening levels, 0 at walls, whole ticks in air" */
static bool round_pressures(const Level *l, const int64_t *values, const double *x, int64_t *pressures)
{
    for (int cell = 0; cell < l->cells; cell++) {
        pressures[cell] = l->label[cell] == OPENING ? values[cell] : 0;
        if (l->label[cell] == AIR && !whole_tick(x[cell], &pressures[cell]))
            return false;
    }
    return true;
}

/* "worst (greatest absolute residual)" */
static int64_t worst_residual(const Level *l, const int64_t *values, const int64_t *pressures)
{
    int64_t worst = 0;
    for (int cell = 0; cell < l->cells; cell++) {
        if (l->label[cell] != AIR)
            continue;
        int64_t residual = exact_residual(l, values, pressures, cell);
        int64_t size = residual < 0 ? -residual : residual;
        if (size > worst)
            worst = size;
    }
    return worst;
}

/* ------------------------------------------------------------------ */
/* The session form                                                   */

typedef struct {
    int nx, ny, nz, cells;
    bool big;
    long tolerance, levels, rounds;
    const unsigned char *labels;    /* a part of the session bytes */
    int64_t values[MAX_CELLS];
} Session;

typedef struct {
    const unsigned char *bytes;
    size_t length, at;
} Input;

/* Takes the word if the input goes on with it. */
static bool take_word(Input *in, const char *word)
{
    size_t size = strlen(word);
    if (in->length - in->at < size || memcmp(in->bytes + in->at, word, size) != 0)
        return false;
    in->at += size;
    return true;
}

/* "1 to 7 decimal digits with no sign and no leading zero, except 0 itself" */
static bool take_number(Input *in, long *number)
{
    size_t start = in->at;
    *number = 0;
    while (in->at < in->length && in->at - start <= MAX_DIGITS
           && in->bytes[in->at] >= '0' && in->bytes[in->at] <= '9')
        *number = 10 * *number + (in->bytes[in->at++] - '0');
    size_t digits = in->at - start;
    return digits >= 1 && digits <= MAX_DIGITS && (digits == 1 || in->bytes[start] != '0');
}

static bool take_number_line(Input *in, const char *key, long *number)
{
    return take_word(in, key) && take_number(in, number) && take_word(in, "\n");
}

static bool take_order_line(Input *in, bool *big)
{
    if (!take_word(in, "order="))
        return false;
    *big = take_word(in, "big\n");
    return *big || take_word(in, "little\n");
}

typedef struct {
    long nx, ny, nz, tolerance, levels, rounds;
    bool big;
} Header;

/* The number of the first line not of the form, or 0. */
static int take_header(Input *in, Header *header)
{
    if (!take_number_line(in, "nx=", &header->nx)) return 1;
    if (!take_number_line(in, "ny=", &header->ny)) return 2;
    if (!take_number_line(in, "nz=", &header->nz)) return 3;
    if (!take_order_line(in, &header->big)) return 4;
    if (!take_number_line(in, "tolerance=", &header->tolerance)) return 5;
    if (!take_number_line(in, "levels=", &header->levels)) return 6;
    if (!take_number_line(in, "rounds=", &header->rounds)) return 7;
    return 0;
}

static bool side_in_range(long side)
{
    return side >= 1 && side <= MAX_SIDE;
}

static bool settings_in_range(const Header *header)
{
    return header->tolerance <= MAX_TOLERANCE
        && header->levels >= 1 && header->levels <= MAX_LEVELS
        && header->rounds <= MAX_ROUNDS;
}

/* "one four-byte two's complement value per cell in the named order" */
static int64_t value_of_bytes(const unsigned char *four, bool big)
{
    int64_t value = 0;
    for (int n = 0; n < 4; n++)
        value = value * 256 + four[big ? n : 3 - n];
    return value >= INT64_C(2147483648) ? value - INT64_C(4294967296) : value;
}

static bool value_in_range(unsigned char label, int64_t value)
{
    int64_t most = label == OPENING ? MAX_OPENING_LEVEL : label == AIR ? MAX_SOURCE : 0;
    return value >= -most && value <= most;
}

/* Answers 4 and 5, "each over the whole cast before the next" */
static Answer take_body(const unsigned char *body, Session *session)
{
    session->labels = body;
    for (int cell = 0; cell < session->cells; cell++)
        if (body[cell] > WALL)
            return refusal(4, cell);
    const unsigned char *values = body + session->cells;
    for (int cell = 0; cell < session->cells; cell++) {
        session->values[cell] = value_of_bytes(values + 4 * cell, session->big);
        if (!value_in_range(body[cell], session->values[cell]))
            return refusal(5, cell);
    }
    return refusal(0, 0);
}

static void keep_header(const Header *header, Session *session)
{
    session->nx = (int)header->nx;
    session->ny = (int)header->ny;
    session->nz = (int)header->nz;
    session->cells = session->nx * session->ny * session->nz;
    session->big = header->big;
    session->tolerance = header->tolerance;
    session->levels = header->levels;
    session->rounds = header->rounds;
}

/* Answers 10 and 1, with which every reading begins. */
static Answer take_head(Input *in, Header *header, Session *session)
{
    int line = take_header(in, header);
    if (line != 0)
        return refusal(10, line);
    if (!side_in_range(header->nx) || !side_in_range(header->ny) || !side_in_range(header->nz))
        return refusal(1, 0);
    keep_header(header, session);
    return refusal(0, 0);
}

static bool body_fits(const Input *in, const Session *session)
{
    return in->length - in->at == 5 * (size_t)session->cells;
}

/* Answers 3, 4 and 5, with which every reading ends. */
static Answer take_rest(const Input *in, const Header *header, Session *session)
{
    if (!settings_in_range(header))
        return refusal(3, 0);
    return take_body(in->bytes + in->at, session);
}

/* The program's reading: more cells than it has room for is 2, before 11. */
static Answer read_session(Input in, long room, Session *session)
{
    Header header = {0};
    Answer answer = take_head(&in, &header, session);
    if (answer.number != 0)
        return answer;
    if (session->cells > room)
        return refusal(2, 0);
    if (!body_fits(&in, session))
        return refusal(11, 0);
    return take_rest(&in, &header, session);
}

/* "Reading checks 10, 1, 11, 2, 3, 4, 5": 2 where fewer values are lent than cells. */
static Answer read_lent(Input in, long lent, Session *session)
{
    Header header = {0};
    Answer answer = take_head(&in, &header, session);
    if (answer.number != 0)
        return answer;
    if (!body_fits(&in, session))
        return refusal(11, 0);
    if (session->cells > lent)
        return refusal(2, 0);
    return take_rest(&in, &header, session);
}

/* ------------------------------------------------------------------ */
/* Writing                                                            */

/* What a writer is handed: labels and values with their own counts, and an output. */
typedef struct {
    Header header;
    const unsigned char *labels;
    size_t label_count;
    const int64_t *values;
    size_t value_count;
    unsigned char *output;
    size_t output_size;
} Writing;

static size_t header_text(const Header *h, char text[MAX_HEADER + 1])
{
    return (size_t)snprintf(text, MAX_HEADER + 1,
        "nx=%ld\nny=%ld\nnz=%ld\norder=%s\ntolerance=%ld\nlevels=%ld\nrounds=%ld\n",
        h->nx, h->ny, h->nz, h->big ? "big" : "little", h->tolerance, h->levels, h->rounds);
}

static void put_value(unsigned char *four, int64_t value, bool big)
{
    uint32_t word = (uint32_t)(value < 0 ? value + INT64_C(4294967296) : value);
    for (int n = 0; n < 4; n++)
        four[big ? 3 - n : n] = (unsigned char)(word >> (8 * n) & 255);
}

/* Answers 4 and 5 of what is to be written. */
static Answer check_content(const Writing *w, size_t cells)
{
    for (size_t cell = 0; cell < cells; cell++)
        if (w->labels[cell] > WALL)
            return refusal(4, (long)cell);
    for (size_t cell = 0; cell < cells; cell++)
        if (!value_in_range(w->labels[cell], w->values[cell]))
            return refusal(5, (long)cell);
    return refusal(0, 0);
}

/* "Writing checks 1, 3, 2, 4, 5"; count is the bytes written, 0 on a refusal. */
static Answer write_session(const Writing *w, size_t *count)
{
    char text[MAX_HEADER + 1];
    const Header *h = &w->header;
    *count = 0;
    if (!side_in_range(h->nx) || !side_in_range(h->ny) || !side_in_range(h->nz))
        return refusal(1, 0);
    if (!settings_in_range(h))
        return refusal(3, 0);
    size_t cells = (size_t)(h->nx * h->ny * h->nz), head = header_text(h, text);
    if (w->label_count != cells || w->value_count != cells || w->output_size < head + 5 * cells)
        return refusal(2, 0);
    Answer answer = check_content(w, cells);
    if (answer.number != 0)
        return answer;
    memcpy(w->output, text, head);
    memcpy(w->output + head, w->labels, cells);
    for (size_t cell = 0; cell < cells; cell++)
        put_value(w->output + head + cells + 4 * cell, w->values[cell], h->big);
    *count = head + 5 * cells;
    return answer;
}

/* ------------------------------------------------------------------ */
/* The rounds                                                         */

typedef struct {
    double rho, sigma, alpha, beta;
} Scalars;

static double x[MAX_CELLS], r[MAX_CELLS], p[MAX_CELLS], ap[MAX_CELLS];
static int64_t pressures[MAX_CELLS];

/* "source plus neighbouring opening levels", in whole numbers, converted once */
static double right_side(const Level *l, const int64_t *values, int cell)
{
    int64_t sum = values[cell];
    for (int n = 0; n < 6; n++) {
        int other = l->neighbour[cell][n];
        if (l->label[other] == OPENING)
            sum += values[other];
    }
    return (double)sum;
}

/* "x = 0, r = b" */
static void start_rounds(const Level *cast, const int64_t *values)
{
    zero_field(cast, x);
    for (int cell = 0; cell < cast->cells; cell++)
        r[cell] = cast->label[cell] == AIR ? right_side(cast, values, cell) : 0.0;
}

/* "pass if all are finite, within range, and every exact residual is within tolerance" */
static bool test(const Level *cast, const Session *session, int64_t *worst)
{
    if (!round_pressures(cast, session->values, x, pressures))
        return false;
    *worst = worst_residual(cast, session->values, pressures);
    return *worst <= session->tolerance;
}

static double dot_product(const Level *l, const double *v, const double *w)
{
    double sum = 0.0;
    for (int cell = 0; cell < l->cells; cell++)
        if (l->label[cell] == AIR)
            sum += v[cell] * w[cell];
    return sum;
}

static bool finite_above_zero(double scalar)
{
    return isfinite(scalar) && scalar > 0.0;
}

/* "In the first round p = z, later p = z + beta*p" */
static void new_direction(const Level *l, const double *z, bool first, double beta)
{
    for (int cell = 0; cell < l->cells; cell++)
        if (first || l->label[cell] != AIR)
            p[cell] = z[cell];
        else
            p[cell] = z[cell] + beta * p[cell];
}

/* One step up to alpha; false where a scalar stalls it. */
static bool step(Level *cast, int levels, bool first, Scalars *scalars)
{
    copy_field(cast, r, cast->b);
    cycle(0, levels);
    double old_rho = scalars->rho;
    scalars->rho = dot_product(cast, cast->u, r);
    if (!finite_above_zero(scalars->rho))
        return false;
    scalars->beta = first ? 0.0 : scalars->rho / old_rho;
    new_direction(cast, cast->u, first, scalars->beta);
    operator_field(cast, p, ap);
    scalars->sigma = dot_product(cast, p, ap);
    if (!finite_above_zero(scalars->sigma))
        return false;
    scalars->alpha = scalars->rho / scalars->sigma;
    return isfinite(scalars->alpha);
}

/* "Then x + alpha*p, r - alpha*A p" */
static void update(const Level *l, double alpha)
{
    for (int cell = 0; cell < l->cells; cell++) {
        if (l->label[cell] != AIR)
            continue;
        x[cell] = x[cell] + alpha * p[cell];
        r[cell] = r[cell] - alpha * ap[cell];
    }
}

/* Document 02, wish 5: "the first air cell with the greatest absolute residual and that residual with its sign". */
static void find_worst(const Level *cast, const int64_t *values, Answer *answer)
{
    for (int cell = cast->cells - 1; cell >= 0; cell--) {
        if (cast->label[cell] != AIR)
            continue;
        int64_t residual = exact_residual(cast, values, pressures, cell);
        if (residual == answer->worst || residual == -answer->worst) {
            answer->worst_cell = cell;
            answer->worst_value = residual;
        }
    }
}

/* From the first test to answer 0, 8 or 9. */
static Answer run_rounds(const Session *session, long interior, long depth)
{
    Level *cast = &level[0];
    Answer answer = {.interior = interior, .depth = depth};
    Scalars scalars = {0};
    int64_t worst = 0;
    start_rounds(cast, session->values);
    while (!test(cast, session, &worst)) {
        if (answer.rounds == session->rounds) {
            answer.number = 8;
            return answer;
        }
        if (!step(cast, (int)session->levels, answer.rounds == 0, &scalars)) {
            answer.number = 9;
            return answer;
        }
        update(cast, scalars.alpha);
        answer.rounds++;
    }
    answer.worst = worst;
    find_worst(cast, session->values, &answer);
    return answer;
}

/* Answers 6 and 7; what the reader let through has no 1 to 5. */
static Answer solve(const Session *session)
{
    Level *cast = &level[0];
    make_level(cast, session->nx, session->ny, session->nz, session->labels);
    long interior = count_air(cast);
    if (interior == 0)
        return refusal(6, 0);
    Walks walks = walk_the_air(cast);
    if (walks.sealed != OUTSIDE)
        return refusal(7, walks.sealed);
    make_coarser_levels((int)session->levels);
    return run_rounds(session, interior, walks.depth);
}

/* ------------------------------------------------------------------ */
/* The program                                                        */

/* One byte more than the longest session shows every longer one to be too long. */
enum { MAX_SESSION = MAX_HEADER + 5 * MAX_CELLS + 1 };

static unsigned char session_bytes[MAX_SESSION];

static void print_answer(const Answer *answer)
{
    printf("answer=%d\n", answer->number);
    printf("place=%ld\n", answer->place);
    printf("rounds=%ld\n", answer->rounds);
    printf("worst=%" PRId64 "\n", answer->worst);
    printf("worstcell=%ld\n", answer->worst_cell);
    printf("worstvalue=%" PRId64 "\n", answer->worst_value);
    printf("interior=%ld\n", answer->interior);
    printf("depth=%ld\n", answer->depth);
}

/* "the reader's answer if it refuses, else the solver's" */
static void answer_session(size_t length, long room)
{
    static Session session;
    Input in = {session_bytes, length, 0};
    Answer answer = read_session(in, room, &session);
    if (answer.number != 0) {
        print_answer(&answer);
        return;
    }
    answer = solve(&session);
    print_answer(&answer);
    if (answer.number != 0)
        return;
    for (int cell = 0; cell < session.cells; cell++)
        printf("cell=%" PRId64 "\n", pressures[cell]);
}

static int run_session(long room)
{
    size_t length = fread(session_bytes, 1, MAX_SESSION, stdin);
    answer_session(length, room);
    return 0;
}

typedef enum { NO_FRAME, A_FRAME, BAD_FRAME } Frame;

/* A line bytes=N; NO_FRAME where the input is at its end. */
static Frame read_frame_line(long *size)
{
    unsigned char line[6 + MAX_DIGITS + 1];
    size_t length = 0;
    int byte = getchar();
    if (byte == EOF)
        return NO_FRAME;
    while (byte != EOF) {
        line[length++] = (unsigned char)byte;
        if (byte == '\n' || length == sizeof line)
            break;
        byte = getchar();
    }
    Input in = {line, length, 0};
    return take_number_line(&in, "bytes=", size) ? A_FRAME : BAD_FRAME;
}

/* Keeps as much of the frame as decides the answer; false if the input ends in it. */
static bool read_frame(long size, size_t *length)
{
    size_t kept = size < MAX_SESSION ? (size_t)size : (size_t)MAX_SESSION;
    *length = fread(session_bytes, 1, kept, stdin);
    if (*length != kept)
        return false;
    for (long rest = size - (long)kept; rest > 0; rest--)
        if (getchar() == EOF)
            return false;
    return true;
}

/* Answers every frame; false where one is bad. `rooms`: as the test program that also looks at what was lent. */
static bool answer_frames(long room, bool rooms)
{
    for (long number = 0;; number++) {
        long size = 0;
        size_t length = 0;
        Frame frame = read_frame_line(&size);
        if (frame == NO_FRAME)
            return true;
        if (frame == BAD_FRAME || !read_frame(size, &length)) {
            puts("frame=bad");
            return false;
        }
        printf("session=%ld\n", number);
        answer_session(length, room);
        if (rooms)
            puts("rooms=kept");
    }
}

static int run_frames(long room)
{
    return answer_frames(room, false) ? 0 : 1;
}

/* Nothing is lent here: what document 01 says of rooms holds. */
static int run_replay(void)
{
    answer_frames(MAX_CELLS, true);
    return 0;
}

/* ------------------------------------------------------------------ */
/* Reader, writer and walks by themselves, for comparing              */

static unsigned char written_bytes[MAX_SESSION];

static void print_hex(const char *key, const unsigned char *bytes, size_t count)
{
    printf("%s=", key);
    for (size_t n = 0; n < count; n++)
        printf("%02x", bytes[n]);
    putchar('\n');
}

/* What is handed back with the reader's answer: zeros, big and nothing on a refusal. */
static void print_header(const Session *s)
{
    printf("nx=%d\nny=%d\nnz=%d\norder=%s\n", s->nx, s->ny, s->nz, s->big ? "big" : "little");
    printf("tolerance=%ld\nlevels=%ld\nrounds=%ld\n", s->tolerance, s->levels, s->rounds);
    printf("labels=%d\n", s->cells);
}

static void print_written(const char *key, const Session *s, bool big)
{
    Writing w = {{s->nx, s->ny, s->nz, s->tolerance, s->levels, s->rounds, big},
                 s->labels, (size_t)s->cells, s->values, (size_t)s->cells, written_bytes, MAX_SESSION};
    size_t count = 0;
    write_session(&w, &count);
    print_hex(key, written_bytes, count);
}

static void print_walks(const Session *s)
{
    make_level(&level[0], s->nx, s->ny, s->nz, s->labels);
    Walks walks = walk_the_air(&level[0]);
    if (walks.sealed != OUTSIDE)
        printf("sealed=%d\n", walks.sealed);
    else
        printf("depth=%ld\n", walks.depth);
}

static void reread_session(size_t length)
{
    static Session session;
    Input in = {session_bytes, length, 0};
    Answer answer = read_lent(in, MAX_CELLS, &session);
    printf("answer=%d\nplace=%ld\n", answer.number, answer.place);
    if (answer.number != 0) {
        Session none = {.big = true};
        print_header(&none);
        return;
    }
    print_header(&session);
    for (int cell = 0; cell < session.cells; cell++)
        printf("label=%d\n", session.labels[cell]);
    for (int cell = 0; cell < session.cells; cell++)
        printf("value=%" PRId64 "\n", session.values[cell]);
    print_written("big", &session, true);
    print_written("little", &session, false);
    print_walks(&session);
}

/* Direct calls of the writer on a line of cells: nx, tolerance, the counts of labels, values and output, the label and the
   value of cell 1, and the order (0 big). */
static const long writer_calls[][8] = {
    {3, 4, 3, 3, 70, 0, 0, 0}, {3, 4, 3, 3, 69, 0, 0, 0}, {3, 4, 3, 3, 90, 0, 0, 0},
    {3, 4, 3, 3, 73, 0, 0, 1}, {3, 4, 3, 3, 72, 0, 0, 1}, {0, 4, 3, 3, 90, 0, 0, 0},
    {33, 4, 3, 3, 90, 0, 0, 0}, {3, 1000001, 3, 3, 90, 0, 0, 0}, {3, 4, 2, 3, 90, 0, 0, 0},
    {3, 4, 4, 3, 90, 0, 0, 0}, {3, 4, 3, 2, 90, 0, 0, 0}, {3, 4, 3, 4, 90, 0, 0, 0},
    {3, 4, 3, 3, 90, 7, 0, 0}, {3, 4, 3, 3, 90, 0, 1001, 0}, {3, 4, 3, 3, 90, 7, 1001, 0},
    {0, 1000001, 3, 3, 90, 0, 0, 0}, {3, 1000001, 2, 3, 90, 0, 0, 0}, {3, 4, 3, 3, 10, 7, 0, 0},
    {3, 4, 3, 3, 0, 0, 0, 0}, {4, 4, 3, 3, 90, 0, 0, 0}, {2, 4, 3, 3, 90, 0, 0, 0},
    {3, 4, 3, 3, 90, 2, 1, 0}, {3, 4, 3, 3, 90, 1, 1000001, 0}, {3, 4, 0, 0, 90, 0, 0, 0},
};

static void call_writer(const long *call)
{
    unsigned char labels[4] = {OPENING, (unsigned char)call[5], OPENING, WALL}, output[90];
    int64_t values[4] = {10, call[6], 20, 0};
    memset(output, 9, sizeof output);
    Writing w = {{call[0], 1, 1, call[1], 1, 5, call[7] == 0}, labels, (size_t)call[2], values, (size_t)call[3], output, (size_t)call[4]};
    size_t count = 0;
    Answer answer = write_session(&w, &count);
    printf("answer=%d\nplace=%ld\ncount=%zu\n", answer.number, answer.place, count);
    print_hex("output", output, (size_t)call[4]);
}

/* Direct calls of the reader on the first call's bytes, with 0 to 5 values lent, each 7 before. */
static void call_reader(long lent)
{
    static Session session;
    const unsigned char labels[3] = {OPENING, AIR, OPENING};
    const int64_t values[3] = {10, 0, 20};
    Writing w = {{3, 1, 1, 4, 1, 5, true}, labels, 3, values, 3, written_bytes, MAX_SESSION};
    size_t count = 0;
    write_session(&w, &count);
    Input in = {written_bytes, count, 0};
    Answer answer = read_lent(in, lent, &session);
    printf("answer=%d\nplace=%ld\n", answer.number, answer.place);
    for (long n = 0; n < lent; n++)
        printf("value=%" PRId64 "\n", answer.number == 0 && n < session.cells ? session.values[n] : INT64_C(7));
}

/* Frames here have a length of four bytes, most significant first; then the direct calls. */
static int run_reread(void)
{
    unsigned char four[4];
    for (long number = 0; fread(four, 1, 4, stdin) == 4; number++) {
        size_t size = (size_t)four[0] << 24 | (size_t)four[1] << 16 | (size_t)four[2] << 8 | four[3];
        if (size > MAX_SESSION || fread(session_bytes, 1, size, stdin) != size)
            return 1;
        printf("session=%ld\n", number);
        reread_session(size);
    }
    for (size_t n = 0; n < sizeof writer_calls / sizeof *writer_calls; n++) {
        printf("writer=%zu\n", n);
        call_writer(writer_calls[n]);
    }
    for (long lent = 0; lent < 6; lent++) {
        printf("reader=%ld\n", lent);
        call_reader(lent);
    }
    return 0;
}

/* ------------------------------------------------------------------ */
/* Direct calls of the solver, for comparing                          */

/* What stands at the head of a call: twelve numbers of four bytes, most significant first. The last six are the lengths lent. */
enum { NX, NY, NZ, TOLERANCE, LEVELS, ROUNDS, LABELS, VALUES, PRESSURES, BYTES, FLOATS, WORDS, CALL_HEAD };

/* One more than the greatest cast needs. */
static const size_t most_lent[CALL_HEAD] = {
    [LABELS] = MAX_CELLS + 1, [VALUES] = MAX_CELLS + 1, [PRESSURES] = MAX_CELLS + 1,
    [BYTES] = 2 * MAX_CELLS + 17, [FLOATS] = 8 * MAX_CELLS + 65, [WORDS] = 2 * MAX_CELLS + 1,
};

#define UNWRITTEN INT64_C(-9876543210123)   /* what pressures hold before a call */

static bool take_call(size_t call[CALL_HEAD], unsigned char *labels, int64_t *values)
{
    static unsigned char fours[MAX_CELLS + 1][4];
    for (int n = LABELS; n < CALL_HEAD; n++)
        if (call[n] > most_lent[n])
            return false;
    size_t given = call[LABELS] > call[VALUES] ? call[LABELS] : call[VALUES];
    if (fread(labels, 1, given, stdin) != given || fread(fours, 4, given, stdin) != given)
        return false;
    for (size_t n = 0; n < given; n++)
        values[n] = value_of_bytes(fours[n], true);
    return true;
}

/* "Labels, values and pressures handed in ... have exactly one element a cell"; "Rooms: bytes, 2*cells + 16; binary64, 8*cells + 64; u32, 2*cells" */
static bool lengths_fit(const size_t call[CALL_HEAD], size_t cells)
{
    return call[LABELS] == cells && call[VALUES] == cells && call[PRESSURES] == cells
        && call[BYTES] >= 2 * cells + 16 && call[FLOATS] >= 8 * cells + 64 && call[WORDS] >= 2 * cells;
}

/* "Solving checks 1 to 7 in that order, each over the whole cast before the next." */
static Answer call_solver(const size_t call[CALL_HEAD], const unsigned char *labels, const int64_t *values)
{
    static Session session;
    Header h = {(long)call[NX], (long)call[NY], (long)call[NZ], (long)call[TOLERANCE], (long)call[LEVELS], (long)call[ROUNDS], true};
    if (!side_in_range(h.nx) || !side_in_range(h.ny) || !side_in_range(h.nz))
        return refusal(1, 0);
    keep_header(&h, &session);
    size_t cells = (size_t)session.cells;
    if (!lengths_fit(call, cells))
        return refusal(2, 0);
    if (!settings_in_range(&h))
        return refusal(3, 0);
    for (size_t cell = 0; cell < cells; cell++)
        if (labels[cell] > WALL)
            return refusal(4, (long)cell);
    for (size_t cell = 0; cell < cells; cell++)
        if (!value_in_range(labels[cell], values[cell]))
            return refusal(5, (long)cell);
    session.labels = labels;
    memcpy(session.values, values, cells * sizeof *values);
    return solve(&session);
}

static int run_edges(void)
{
    static unsigned char labels[MAX_CELLS + 1], head[CALL_HEAD][4];
    static int64_t values[MAX_CELLS + 1];
    size_t call[CALL_HEAD], got;
    for (long number = 0; (got = fread(head, 1, sizeof head, stdin)) != 0; number++) {
        for (int n = 0; n < CALL_HEAD; n++)
            call[n] = (size_t)head[n][0] << 24 | (size_t)head[n][1] << 16 | (size_t)head[n][2] << 8 | head[n][3];
        if (got != sizeof head || !take_call(call, labels, values)) {
            puts("frame=bad");
            return 0;
        }
        Answer answer = call_solver(call, labels, values);
        printf("call=%ld\n", number);
        print_answer(&answer);
        for (size_t n = 0; n < call[PRESSURES]; n++)
            printf("pressure=%" PRId64 "\n", answer.number == 0 ? pressures[n] : UNWRITTEN);
        puts("rooms=kept");
    }
    return 0;
}

/* ------------------------------------------------------------------ */
/* One cast, many sources (document 02, wish 1), for comparing        */

/* What stands at the head of such a call: fourteen numbers of four bytes, most significant first. The last seven are the lengths lent. */
enum {
    M_NX, M_NY, M_NZ, M_TOLERANCE, M_LEVELS, M_ROUNDS, M_SETS,
    M_LABELS, M_VALUES, M_PRESSURES, M_ANSWERS, M_BYTES, M_FLOATS, M_WORDS, MANY_HEAD
};

enum { FIELDS = 8, MOST_SETS = 64, MOST_SET_CELLS = 65 * MAX_CELLS + 1 };

#define UNANSWERED INT64_C(-4567890123456)  /* what the answers hold before a call */

static const size_t most_many[MANY_HEAD] = {
    [M_LABELS] = MAX_CELLS + 1, [M_VALUES] = MOST_SET_CELLS, [M_PRESSURES] = MOST_SET_CELLS, [M_ANSWERS] = 1000,
    [M_BYTES] = 2 * MAX_CELLS + 17, [M_FLOATS] = 8 * MAX_CELLS + 65, [M_WORDS] = 2 * MAX_CELLS + 1,
};

/* "All fields of each set's answer, in 01's order" */
static void store_fields(const Answer *answer, int64_t fields[FIELDS])
{
    const int64_t all[FIELDS] = {answer->number, answer->place, answer->rounds, answer->worst, answer->worst_cell, answer->worst_value,
                                   answer->interior, answer->depth};
    memcpy(fields, all, sizeof all);
}

static bool many_lengths_fit(const size_t call[MANY_HEAD], size_t cells)
{
    return call[M_LABELS] == cells && call[M_VALUES] == call[M_SETS] * cells && call[M_PRESSURES] == call[M_SETS] * cells
        && call[M_ANSWERS] == call[M_SETS] * FIELDS
        && call[M_BYTES] >= 2 * cells + 16 && call[M_FLOATS] >= 8 * cells + 64 && call[M_WORDS] >= 2 * cells;
}

/* One set on the cast as it stands prepared: 5, 8, 9 "for one set, its pressures untouched", or 0. */
static Answer solve_set(const Session *session, long interior, long depth)
{
    for (int cell = 0; cell < session->cells; cell++)
        if (!value_in_range(session->labels[cell], session->values[cell]))
            return refusal(5, cell);
    return run_rounds(session, interior, depth);
}

/* "Refusals: 1, 2, 3 (also for the number of sets), 4, 6, 7 in that order for the whole call, no answer or pressure changed" */
static Answer call_many(const size_t call[MANY_HEAD], const unsigned char *labels, const int64_t *values, int64_t *all_pressures, int64_t *answers)
{
    static Session session;
    Header h = {(long)call[M_NX], (long)call[M_NY], (long)call[M_NZ], (long)call[M_TOLERANCE], (long)call[M_LEVELS], (long)call[M_ROUNDS], true};
    if (!side_in_range(h.nx) || !side_in_range(h.ny) || !side_in_range(h.nz))
        return refusal(1, 0);
    keep_header(&h, &session);
    size_t cells = (size_t)session.cells;
    if (!many_lengths_fit(call, cells))
        return refusal(2, 0);
    if (!settings_in_range(&h) || call[M_SETS] < 1 || call[M_SETS] > MOST_SETS)
        return refusal(3, 0);
    for (size_t cell = 0; cell < cells; cell++)
        if (labels[cell] > WALL)
            return refusal(4, (long)cell);
    session.labels = labels;
    Level *cast = &level[0];
    make_level(cast, session.nx, session.ny, session.nz, session.labels);
    long interior = count_air(cast);
    if (interior == 0)
        return refusal(6, 0);
    Walks walks = walk_the_air(cast);
    if (walks.sealed != OUTSIDE)
        return refusal(7, walks.sealed);
    make_coarser_levels((int)session.levels);
    for (size_t set = 0; set < call[M_SETS]; set++) {
        memcpy(session.values, values + set * cells, cells * sizeof *values);
        Answer answer = solve_set(&session, interior, walks.depth);
        store_fields(&answer, answers + set * FIELDS);
        if (answer.number == 0)
            memcpy(all_pressures + set * cells, pressures, cells * sizeof *pressures);
    }
    return refusal(0, 0);
}

/* Whether each set has what a single call gives it. */
static bool singles_agree(const size_t many[MANY_HEAD], const unsigned char *labels, const int64_t *values, const int64_t *all_pressures, const int64_t *answers)
{
    size_t cells = many[M_LABELS];
    for (size_t set = 0; set < many[M_SETS]; set++) {
        const size_t call[CALL_HEAD] = {many[M_NX], many[M_NY], many[M_NZ], many[M_TOLERANCE], many[M_LEVELS], many[M_ROUNDS],
                                        cells, cells, cells, many[M_BYTES], many[M_FLOATS], many[M_WORDS]};
        Answer answer = call_solver(call, labels, values + set * cells);
        int64_t fields[FIELDS];
        store_fields(&answer, fields);
        if (memcmp(fields, answers + set * FIELDS, sizeof fields) != 0)
            return false;
        for (size_t cell = 0; cell < cells; cell++)
            if (all_pressures[set * cells + cell] != (answer.number == 0 ? pressures[cell] : UNWRITTEN))
                return false;
    }
    return true;
}

static bool take_many(size_t call[MANY_HEAD], unsigned char *labels, int64_t *values)
{
    unsigned char four[4];
    for (int n = M_LABELS; n < MANY_HEAD; n++)
        if (call[n] > most_many[n])
            return false;
    if (fread(labels, 1, call[M_LABELS], stdin) != call[M_LABELS])
        return false;
    for (size_t n = 0; n < call[M_VALUES]; n++) {
        if (fread(four, 1, 4, stdin) != 4)
            return false;
        values[n] = value_of_bytes(four, true);
    }
    return true;
}

static int run_many(void)
{
    static unsigned char labels[MAX_CELLS + 1], head[MANY_HEAD][4];
    static int64_t values[MOST_SET_CELLS], all_pressures[MOST_SET_CELLS], answers[1000];
    size_t call[MANY_HEAD], got;
    for (long number = 0; (got = fread(head, 1, sizeof head, stdin)) != 0; number++) {
        for (int n = 0; n < MANY_HEAD; n++)
            call[n] = (size_t)head[n][0] << 24 | (size_t)head[n][1] << 16 | (size_t)head[n][2] << 8 | head[n][3];
        if (got != sizeof head || !take_many(call, labels, values)) {
            puts("frame=bad");
            return 0;
        }
        for (size_t n = 0; n < call[M_PRESSURES]; n++)
            all_pressures[n] = UNWRITTEN;
        for (size_t n = 0; n < call[M_ANSWERS]; n++)
            answers[n] = UNANSWERED;
        Answer answer = call_many(call, labels, values, all_pressures, answers);
        printf("call=%ld\n", number);
        print_answer(&answer);
        for (size_t n = 0; n < call[M_ANSWERS]; n++)
            printf("field=%" PRId64 "\n", answers[n]);
        for (size_t n = 0; n < call[M_PRESSURES]; n++)
            printf("pressure=%" PRId64 "\n", all_pressures[n]);
        if (answer.number == 0)
            puts(singles_agree(call, labels, values, all_pressures, answers) ? "singles=agree" : "singles=differ");
        puts("rooms=kept");
    }
    return 0;
}

/* ------------------------------------------------------------------ */
/* Pieces: parts of the method by themselves, for comparing           */

static void bad_piece(void)
{
    puts("piece=bad");
    fflush(stdout);
    exit(1);
}

static bool is_white(int byte)
{
    return byte == ' ' || (byte >= '\t' && byte <= '\r');
}

/* The next token, or false at the end of input. */
static bool next_token(char token[32])
{
    int byte = getchar();
    while (is_white(byte))
        byte = getchar();
    if (byte == EOF)
        return false;
    size_t length = 0;
    while (byte != EOF && !is_white(byte)) {
        if (length == 31 || byte == 0)
            bad_piece();
        token[length++] = (char)byte;
        byte = getchar();
    }
    token[length] = '\0';
    return true;
}

static int64_t whole_of_token(const char *token)
{
    const int64_t most = INT64_C(1) << 59;  /* so that no exact residual overflows */
    bool negative = *token == '-';
    if (negative)
        token++;
    size_t digits = strlen(token);
    if (digits < 1 || digits > 18 || strspn(token, "0123456789") != digits)
        bad_piece();
    int64_t whole = strtoll(token, NULL, 10);
    if (whole > most)
        bad_piece();
    return negative ? -whole : whole;
}

static double float_of_token(const char *token)
{
    if (strlen(token) != 16 || strspn(token, "0123456789abcdef") != 16)
        bad_piece();
    uint64_t bits = strtoull(token, NULL, 16);
    double element;
    memcpy(&element, &bits, sizeof element);
    return element;
}

static int64_t read_whole(int64_t least, int64_t most)
{
    char token[32];
    if (!next_token(token))
        bad_piece();
    int64_t whole = whole_of_token(token);
    if (whole < least || whole > most)
        bad_piece();
    return whole;
}

/* Elements outside air are +0.0 by definition, whatever is handed in. */
static void read_field(const Level *l, double *u)
{
    char token[32];
    for (int cell = 0; cell < l->cells; cell++) {
        if (!next_token(token))
            bad_piece();
        double element = float_of_token(token);
        u[cell] = l->label[cell] == AIR ? element : 0.0;
    }
}

static void read_whole_field(const Level *l, int64_t *wholes)
{
    for (int cell = 0; cell < l->cells; cell++)
        wholes[cell] = read_whole(-(INT64_C(1) << 59), INT64_C(1) << 59);
}

static void end_of_fields(void)
{
    char token[32];
    if (next_token(token))
        bad_piece();
}

static void read_cast(Level *l)
{
    static unsigned char labels[MAX_CELLS];
    int nx = (int)read_whole(1, MAX_SIDE);
    int ny = (int)read_whole(1, MAX_SIDE);
    int nz = (int)read_whole(1, MAX_SIDE);
    for (int cell = 0; cell < nx * ny * nz; cell++)
        labels[cell] = (unsigned char)read_whole(AIR, WALL);
    make_level(l, nx, ny, nz, labels);
}

static void print_field(const Level *l, const double *u)
{
    for (int cell = 0; cell < l->cells; cell++) {
        uint64_t bits;
        memcpy(&bits, &u[cell], sizeof bits);
        if (isnan(u[cell]))
            puts("nan");
        else
            printf("%016" PRIx64 "\n", bits);
    }
}

static void piece_coarse(void)
{
    end_of_fields();
    coarsen(&level[0], &level[1]);
    for (int cell = 0; cell < level[1].cells; cell++)
        printf("%d\n", level[1].label[cell]);
}

static void piece_band(void)
{
    end_of_fields();
    make_coarser_levels(2);
    for (int cell = 0; cell < level[0].cells; cell++)
        printf("%d\n", level[0].band[cell]);
}

static void piece_degree(void)
{
    end_of_fields();
    for (int cell = 0; cell < level[0].cells; cell++)
        printf("%d\n", level[0].degree[cell]);
}

static void piece_restrict(void)
{
    read_field(&level[0], level[0].u);
    end_of_fields();
    coarsen(&level[0], &level[1]);
    restrict_field(&level[0], level[0].u, &level[1], level[1].b);
    print_field(&level[1], level[1].b);
}

static void piece_prolong(void)
{
    coarsen(&level[0], &level[1]);
    read_field(&level[1], level[1].u);
    end_of_fields();
    prolongate_field(&level[1], level[1].u, &level[0], level[0].u);
    print_field(&level[0], level[0].u);
}

static void read_b_and_u(void)
{
    read_field(&level[0], level[0].b);
    read_field(&level[0], level[0].u);
    end_of_fields();
}

static void piece_sweep(Extent extent, Direction direction)
{
    read_b_and_u();
    make_coarser_levels(2);
    gauss_seidel(&level[0], extent, direction, level[0].b, level[0].u);
    print_field(&level[0], level[0].u);
}

static void piece_up(void) { piece_sweep(ALL_AIR, ASCENDING); }
static void piece_down(void) { piece_sweep(ALL_AIR, DESCENDING); }
static void piece_bandup(void) { piece_sweep(BAND_ONLY, ASCENDING); }
static void piece_banddown(void) { piece_sweep(BAND_ONLY, DESCENDING); }

static void piece_jacobi(void)
{
    read_b_and_u();
    jacobi(&level[0], level[0].b, level[0].u);
    print_field(&level[0], level[0].u);
}

static void piece_residual(void)
{
    read_b_and_u();
    residual_field(&level[0], level[0].b, level[0].u, level[0].scratch);
    print_field(&level[0], level[0].scratch);
}

static void piece_cycle(void)
{
    int levels = (int)read_whole(1, MAX_LEVELS);
    read_field(&level[0], level[0].b);
    end_of_fields();
    make_coarser_levels(levels);
    cycle(0, levels);
    print_field(&level[0], level[0].u);
}

static void piece_depth(void)
{
    end_of_fields();
    Walks walks = walk_the_air(&level[0]);
    if (walks.sealed == OUTSIDE)
        printf("depth %ld\n", walks.depth);
    else
        printf("sealed %d\n", walks.sealed);
}

static void piece_exact(void)
{
    static int64_t values[MAX_CELLS];
    const Level *l = &level[0];
    read_whole_field(l, values);
    read_whole_field(l, pressures);
    end_of_fields();
    for (int cell = 0; cell < l->cells; cell++) {
        int64_t residual = l->label[cell] == AIR ? exact_residual(l, values, pressures, cell) : 0;
        printf("%" PRId64 "\n", residual);
    }
}

static void piece_tick(void)
{
    char token[32];
    int64_t tick;
    while (next_token(token))
        if (whole_tick(float_of_token(token), &tick))
            printf("%" PRId64 "\n", tick);
        else
            puts("none");
}

typedef struct {
    const char *name;
    void (*run)(void);
} Piece;

static const Piece pieces[] = {
    {"coarse", piece_coarse}, {"band", piece_band}, {"degree", piece_degree},
    {"restrict", piece_restrict}, {"prolong", piece_prolong},
    {"up", piece_up}, {"down", piece_down},
    {"bandup", piece_bandup}, {"banddown", piece_banddown},
    {"jacobi", piece_jacobi}, {"residual", piece_residual},
    {"cycle", piece_cycle}, {"depth", piece_depth},
    {"exact", piece_exact}, {"tick", piece_tick},
};

static int run_piece(const Piece *piece)
{
    read_cast(&level[0]);
    piece->run();
    return 0;
}

/* ------------------------------------------------------------------ */
/* The cycle on many casts, each a frame                              */

enum { HEAD = 6 };          /* nx, ny, nz, levels, and two bytes: how often */

static uint64_t eight_bytes(const unsigned char *at)
{
    uint64_t whole = 0;
    for (int n = 0; n < 8; n++)
        whole = whole << 8 | at[n];
    return whole;
}

static bool head_fits(const unsigned char *head)
{
    for (int axis = 0; axis < 3; axis++)
        if (head[axis] < 1 || head[axis] > MAX_SIDE)
            return false;
    return head[3] >= 1 && head[3] <= MAX_LEVELS;
}

/* The labels and b of a frame whose head fits; false where they are cut off or a label is above 2. */
static bool take_cast(const unsigned char *head)
{
    static unsigned char labels[MAX_CELLS], bytes[MAX_CELLS][8];
    size_t cells = (size_t)head[0] * head[1] * head[2];
    if (fread(labels, 1, cells, stdin) != cells || fread(bytes, 8, cells, stdin) != cells)
        return false;
    for (size_t cell = 0; cell < cells; cell++)
        if (labels[cell] > WALL)
            return false;
    make_level(&level[0], head[0], head[1], head[2], labels);
    for (size_t cell = 0; cell < cells; cell++) {
        uint64_t bits = eight_bytes(bytes[cell]);
        memcpy(&level[0].b[cell], &bits, sizeof bits);
    }
    return true;
}

/* Every cycle starts from u = 0 and leaves b, so that all give the same; it is printed once. */
static int run_cycles(void)
{
    unsigned char head[HEAD];
    size_t got;
    while ((got = fread(head, 1, HEAD, stdin)) == HEAD && head_fits(head) && take_cast(head)) {
        int levels = head[3], times = head[4] << 8 | head[5];
        make_coarser_levels(levels);
        cycle(0, levels);
        for (int turn = 1; turn < times; turn++)
            cycle(0, levels);
        print_field(&level[0], level[0].u);
    }
    if (got != 0)
        puts("frame=bad");
    return 0;
}

/* ------------------------------------------------------------------ */
/* Arguments                                                          */

typedef struct {
    long room;
    bool frames, reread, cycles, replay, edges, many;
    const Piece *piece;
} Options;

static const Piece *piece_named(const char *name)
{
    for (size_t n = 0; n < sizeof pieces / sizeof *pieces; n++)
        if (strcmp(pieces[n].name, name) == 0)
            return &pieces[n];
    return NULL;
}

static bool whole_argument(const char *text, long *number)
{
    Input in = {(const unsigned char *)text, strlen(text), 0};
    return take_number(&in, number) && in.at == in.length;
}

static bool read_options(int count, char **argument, Options *options)
{
    for (int n = 1; n < count; n++) {
        if (strcmp(argument[n], "--frames") == 0) {
            options->frames = true;
        } else if (strcmp(argument[n], "--reread") == 0) {
            options->reread = true;
        } else if (strcmp(argument[n], "--onecycle") == 0) {
            options->cycles = true;
        } else if (strcmp(argument[n], "--replay") == 0) {
            options->replay = true;
        } else if (strcmp(argument[n], "--edges") == 0) {
            options->edges = true;
        } else if (strcmp(argument[n], "--many") == 0) {
            options->many = true;
        } else if (strcmp(argument[n], "--room") == 0 && n + 1 < count) {
            if (!whole_argument(argument[++n], &options->room))
                return false;
        } else if (strcmp(argument[n], "--piece") == 0 && n + 1 < count) {
            options->piece = piece_named(argument[++n]);
            if (options->piece == NULL)
                return false;
        } else {
            return false;
        }
    }
    return true;
}

int main(int count, char **argument)
{
    Options options = {.room = PROGRAM_ROOM};
    if (!read_options(count, argument, &options)) {
        fputs("usage: airway [--room N] [--frames] | --piece NAME | --reread | --onecycle | --replay | --edges | --many\n", stderr);
        return 2;
    }
    int status = options.piece != NULL ? run_piece(options.piece)
               : options.reread ? run_reread()
               : options.cycles ? run_cycles()
               : options.replay ? run_replay()
               : options.edges ? run_edges()
               : options.many ? run_many()
               : options.frames ? run_frames(options.room)
               : run_session(options.room);
    return fflush(stdout) == 0 && !ferror(stdout) ? status : 1;
}
