// Eigen's solvers on one cast: ICPCG, CG and LDLT, to the first accepted pressures, timed (processor time).
//
//   eigen RUNS SECONDS < CAST      CAST in words: nx ny nz tolerance, then a label for each cell, then a value for each cell
//
// Each method is run RUNS times, or as often as fits into SECONDS, at least once; printed is the median. A line for each: name, milliseconds of its own
// preparing (preconditioner or factors), milliseconds of its solve, iterations. First a line `matrix` with the milliseconds in which the matrix is made.
//
// Accepted means what it means for ours: every pressure rounded to a whole tick, and every exact residual within the tolerance. The first iteration whose x
// is accepted is searched beforehand, by the same loop with a test after every iteration; timed is Eigen's own call with just so many iterations, without any
// test. Ours makes its test in every round and is timed with it.
#include <Eigen/Sparse>
#include <algorithm>
#include <cmath>
#include <cstdio>
#include <cstdlib>
#include <ctime>
#include <string>
#include <vector>

using Vector = Eigen::VectorXd;
using Rows = Eigen::SparseMatrix<double, Eigen::RowMajor>;
using Columns = Eigen::SparseMatrix<double>;

enum { AIR = 0, OPENING = 1, WALL = 2 };

struct Cast {
    int nx, ny, nz;
    long tolerance;
    std::vector<int> label;
    std::vector<long> value;
    std::vector<int> unknown;   // the row of an air cell, -1 elsewhere
    int air = 0;

    int cells() const { return nx * ny * nz; }

    // The cell across face 0 to 5 (-x, +x, -y, +y, -z, +z), or -1 outside the box.
    int across(int cell, int face) const
    {
        int place[3] = {cell % nx, cell / nx % ny, cell / nx / ny};
        const int side[3] = {nx, ny, nz};
        int axis = face / 2;
        place[axis] += face % 2 ? 1 : -1;
        if (place[axis] < 0 || place[axis] >= side[axis])
            return -1;
        return place[0] + nx * (place[1] + ny * place[2]);
    }
};

static double now_ms()
{
    timespec t;
    clock_gettime(CLOCK_PROCESS_CPUTIME_ID, &t);
    return 1e3 * static_cast<double>(t.tv_sec) + 1e-6 * static_cast<double>(t.tv_nsec);
}

static long word()
{
    long number = 0;
    if (std::scanf("%ld", &number) != 1) {
        std::fprintf(stderr, "eigen: the cast ends too soon\n");
        std::exit(1);
    }
    return number;
}

static Cast read_cast()
{
    Cast c;
    c.nx = static_cast<int>(word());
    c.ny = static_cast<int>(word());
    c.nz = static_cast<int>(word());
    c.tolerance = word();
    for (int cell = 0; cell < c.cells(); cell++)
        c.label.push_back(static_cast<int>(word()));
    for (int cell = 0; cell < c.cells(); cell++)
        c.value.push_back(word());
    for (int cell = 0; cell < c.cells(); cell++)
        c.unknown.push_back(c.label[static_cast<size_t>(cell)] == AIR ? c.air++ : -1);
    return c;
}

// d p minus the sum over air neighbours = source plus the levels of neighbouring openings.
template <class Matrix>
static void assemble(const Cast &c, Matrix &matrix, Vector &b)
{
    matrix.resize(c.air, c.air);
    matrix.reserve(Eigen::VectorXi::Constant(c.air, 7));
    b.resize(c.air);
    for (int cell = 0; cell < c.cells(); cell++) {
        int row = c.unknown[cell], d = 0;
        if (row < 0)
            continue;
        long right = c.value[cell];
        for (int face = 0; face < 6; face++) {
            int other = c.across(cell, face);
            if (other < 0 || c.label[other] == WALL)
                continue;
            d++;
            if (c.label[other] == OPENING)
                right += c.value[other];
            else
                matrix.insert(row, c.unknown[other]) = -1.0;
        }
        matrix.insert(row, row) = d;
        b[row] = static_cast<double>(right);
    }
    matrix.makeCompressed();
}

// Whether the rounded pressures leave every exact residual within the tolerance.
static bool accepted(const Cast &c, const Vector &x)
{
    std::vector<long> p(static_cast<size_t>(c.cells()), 0);
    for (int cell = 0; cell < c.cells(); cell++) {
        if (c.label[cell] == OPENING)
            p[cell] = c.value[cell];
        if (c.label[cell] != AIR)
            continue;
        double tick = std::nearbyint(x[c.unknown[cell]]);
        if (!(std::fabs(tick) <= 2199023255552.0))
            return false;
        p[cell] = static_cast<long>(tick);
    }
    for (int cell = 0; cell < c.cells(); cell++) {
        if (c.label[cell] != AIR)
            continue;
        long residual = c.value[cell];
        for (int face = 0; face < 6; face++) {
            int other = c.across(cell, face);
            if (other >= 0 && c.label[other] != WALL)
                residual += p[other] - p[cell];
        }
        if (std::labs(residual) > c.tolerance)
            return false;
    }
    return true;
}

static double median(std::vector<double> times)
{
    std::sort(times.begin(), times.end());
    size_t n = times.size();
    return n % 2 ? times[n / 2] : (times[n / 2 - 1] + times[n / 2]) / 2;
}

struct Budget {
    int runs;
    double seconds;
};

struct Took {
    double prepare, solve;
    long iterations;
    bool reached;
};

// Eigen's loop of conjugate gradients (Eigen/src/IterativeLinearSolvers/ConjugateGradient.h, from x = 0), with a test after every iteration: the number of
// iterations after which x is accepted first, or -1 where that is not so within the limit.
template <class Matrix, class Preconditioner>
static long first_accepted(const Cast &c, const Matrix &matrix, const Vector &b, const Preconditioner &preconditioner, long limit)
{
    Vector x = Vector::Zero(b.size()), residual = b, p = preconditioner.solve(residual), z(b.size()), t(b.size());
    double rho = residual.dot(p);
    for (long done = 0;; done++) {
        if (accepted(c, x))
            return done;
        if (done == limit)
            return -1;
        t.noalias() = matrix * p;
        double alpha = rho / p.dot(t);
        x += alpha * p;
        residual -= alpha * t;
        z = preconditioner.solve(residual);
        double old = rho;
        rho = residual.dot(z);
        p = z + (rho / old) * p;
    }
}

// Conjugate gradients by Eigen's own call, with just so many iterations.
template <class Preconditioner>
static Took by_gradients(const Cast &c, const Rows &matrix, const Vector &b, Budget budget)
{
    Eigen::ConjugateGradient<Rows, Eigen::Lower | Eigen::Upper, Preconditioner> solver;
    solver.compute(matrix);
    long limit = 20L * c.air + 1000;
    long iterations = first_accepted(c, matrix, b, solver.preconditioner(), limit);
    if (iterations < 0)
        return {0, 0, limit, false};
    solver.setTolerance(0);
    Vector x;
    // The two loops may differ in a last bit; a few more iterations are given where Eigen's own call wants them.
    for (;; iterations++) {
        solver.setMaxIterations(iterations);
        x = iterations == 0 ? Vector::Zero(b.size()) : Vector(solver.solve(b));
        if (accepted(c, x))
            break;
        if (iterations == limit)
            return {0, 0, limit, false};
    }
    std::vector<double> prepare, solve;
    double from = now_ms();
    for (int run = 0; run < budget.runs && (run == 0 || now_ms() - from < 1e3 * budget.seconds); run++) {
        double t0 = now_ms();
        Eigen::ConjugateGradient<Rows, Eigen::Lower | Eigen::Upper, Preconditioner> again;
        again.compute(matrix);
        again.setTolerance(0);
        again.setMaxIterations(std::max(1L, iterations));
        double t1 = now_ms();
        x = again.solve(b);
        double t2 = now_ms();
        prepare.push_back(t1 - t0);
        solve.push_back(t2 - t1);
    }
    return {median(prepare), median(solve), iterations, true};
}

static Took by_factors(const Cast &c, const Columns &matrix, const Vector &b, Budget budget)
{
    std::vector<double> prepare, solve;
    bool reached = true;
    double from = now_ms();
    for (int run = 0; run < budget.runs && (run == 0 || now_ms() - from < 1e3 * budget.seconds); run++) {
        double t0 = now_ms();
        Eigen::SimplicialLDLT<Columns> solver(matrix);
        double t1 = now_ms();
        Vector x = solver.solve(b);
        double t2 = now_ms();
        prepare.push_back(t1 - t0);
        solve.push_back(t2 - t1);
        reached = reached && accepted(c, x);
    }
    return {median(prepare), median(solve), 1, reached};
}

static void print(const char *name, const Took &took)
{
    std::printf("%s %.6f %.6f %ld %s\n", name, took.prepare, took.solve, took.iterations, took.reached ? "accepted" : "missed");
}

template <class Matrix>
static double made_in(const Cast &c, int runs)
{
    std::vector<double> times;
    for (int run = 0; run < runs; run++) {
        double t0 = now_ms();
        Matrix matrix;
        Vector b;
        assemble(c, matrix, b);
        times.push_back(now_ms() - t0);
    }
    return median(times);
}

int main(int count, char **words)
{
    if (count != 3) {
        std::fprintf(stderr, "usage: eigen RUNS SECONDS < CAST\n");
        return 2;
    }
    Budget budget = {std::max(1, std::atoi(words[1])), std::atof(words[2])};
    Cast c = read_cast();
    Rows rows;
    Columns columns;
    Vector b;
    assemble(c, rows, b);
    assemble(c, columns, b);
    std::printf("matrix %.6f\n", std::min(made_in<Rows>(c, budget.runs), made_in<Columns>(c, budget.runs)));
    print("ICPCG/amd", by_gradients<Eigen::IncompleteCholesky<double>>(c, rows, b, budget));
    print("ICPCG/natural", by_gradients<Eigen::IncompleteCholesky<double, Eigen::Lower, Eigen::NaturalOrdering<int>>>(c, rows, b, budget));
    print("CG/diagonal", by_gradients<Eigen::DiagonalPreconditioner<double>>(c, rows, b, budget));
    print("CG/plain", by_gradients<Eigen::IdentityPreconditioner>(c, rows, b, budget));
    print("LDLT/amd", by_factors(c, columns, b, budget));
    return 0;
}
