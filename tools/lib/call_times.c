/* What calls from C take, in CPU time: the middle of a hundred calls each. It reads a square lattice
   of 32 by 32 as a text. */
#include <inttypes.h>
#include <stdio.h>
#include <stdlib.h>
#include <time.h>

#include "ising2d.h"

enum { SIDE = 32, SPINS = SIDE * SIDE, BONDS = 2 * SIDE * (SIDE - 1), LOOPS = 5 * BONDS / 2, ROOM = 12 * BONDS };
enum { CALLS = 100 };

static int64_t couplings[BONDS], weights[LOOPS];
static int8_t spins[SPINS];
static size_t starts[LOOPS + 1], dart_starts[SPINS + 1], written;
static uint32_t ends[2 * BONDS], darts[2 * BONDS], seam[1], bonds[ROOM];
static uint8_t line[128];
static struct ising2d_ground answer;
static struct ising2d_tables counts;

#define GRAPH SPINS, ends, 2 * BONDS, couplings, BONDS, dart_starts, SPINS + 1, darts, 2 * BONDS, seam, 0

static uint8_t lattice(void) {
    return ising2d_c_lattice(ISING2D_SQUARE, SIDE, SIDE, couplings, BONDS, ISING2D_MOST_SPINS, &counts, ends, 2 * BONDS,
                             dart_starts, SPINS + 1, darts, 2 * BONDS, seam, 1, line, sizeof line, &written);
}

static uint8_t ground(void) {
    return ising2d_c_ground(GRAPH, &answer, spins, SPINS, weights, LOOPS, starts, LOOPS + 1, bonds, ROOM, line,
                            sizeof line, &written);
}

/* A wall of a graph without a seam: it is refused when all else has been read and tested. */
static uint8_t fitness(void) {
    struct ising2d_wall wall;
    return ising2d_c_wall(GRAPH, &wall, line, sizeof line, &written);
}

static uint8_t check(void) {
    return ising2d_c_check(GRAPH, answer.energy, spins, SPINS, weights, answer.loop_count, starts,
                           answer.loop_count + 1, bonds, answer.bond_count, line, sizeof line, &written);
}

static double seconds(void) {
    struct timespec now;
    clock_gettime(CLOCK_PROCESS_CPUTIME_ID, &now);
    return (double)now.tv_sec + 1e-9 * (double)now.tv_nsec;
}

static int by_size(const void *one, const void *other) {
    double a = *(const double *)one, b = *(const double *)other;
    return (a > b) - (a < b);
}

static void measure(const char *name, uint8_t (*call)(void), uint8_t status) {
    double taken[CALLS];
    for (int i = 0; i < CALLS; i++) {
        double begun = seconds();
        if (call() != status) {
            printf("%s: another status than %d\n", name, status);
            exit(1);
        }
        taken[i] = seconds() - begun;
    }
    qsort(taken, CALLS, sizeof *taken, by_size);
    printf("%8.3f ms  %s\n", 1e3 * taken[CALLS / 2], name);
}

int main(void) {
    if (scanf("square,%*d,%*d") != 0) {
        return 1;
    }
    for (int k = 0; k < BONDS; k++) {
        if (scanf("%" SCNd64 "%*[,\n]", &couplings[k]) != 1) {
            return 1;
        }
    }
    measure("ising2d_c_lattice: the tables", lattice, ISING2D_DONE);
    measure("ising2d_c_ground, with its loops", ground, ISING2D_DONE);
    measure("the part of it that reads the numbers and tests that they are fit", fitness, ISING2D_REFUSED);
    measure("ising2d_c_check of that proof", check, ISING2D_DONE);
    return 0;
}
