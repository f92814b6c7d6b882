/* Nests at the largest size, a cylinder of 2048 by 2048 with couplings 1 and -1, and each other call that takes
   so many spins at a quarter of it, since loops and walls take long. No contract knows the stack, so this is run
   with the stack that systems give a program, 8 MiB. The last line is `N passed, M failed`. */
#include <inttypes.h>
#include <stdio.h>
#include <stdlib.h>

#include "ising2d.h"

#define SPINS_OF(side) ((side) * (side))
#define BONDS_OF(side) (2 * SPINS_OF(side) - (side))
#define FACES_OF(side) (SPINS_OF(side) - (side) + 2)
#define REGIONS_OF(side) (3 * FACES_OF(side) / 2)

enum {
    LARGEST = 2048,
    LARGE = 1024,
    LOOPS = 5 * BONDS_OF(LARGE) / 2,
    ROOM = 32 * BONDS_OF(LARGE)
};

static int64_t couplings[BONDS_OF(LARGEST)], weights[LOOPS];
static uint32_t ends[2 * BONDS_OF(LARGEST)], darts[2 * BONDS_OF(LARGEST)], seam[LARGEST], bonds[ROOM];
static uint32_t parents[REGIONS_OF(LARGEST)], regions[FACES_OF(LARGEST)];
static uint64_t radii[REGIONS_OF(LARGEST)], at_radii[FACES_OF(LARGEST)];
static size_t dart_starts[SPINS_OF(LARGEST) + 1], starts[LOOPS + 1], written;
static int8_t spins[SPINS_OF(LARGEST)];
static uint8_t line[128];
static int passed, failed;

#define GRAPH(side)                                                                                                  \
    SPINS_OF(side), ends, 2 * BONDS_OF(side), couplings, BONDS_OF(side), dart_starts, SPINS_OF(side) + 1, darts,      \
        2 * BONDS_OF(side), seam, side
#define LINE line, sizeof line, &written

static void judge(const char *what, int good) {
    passed += good;
    failed += !good;
    if (!good) {
        printf("WRONG: %s\n", what);
    }
}

/* Couplings by a generator of 64 bits (xorshift), always the same. */
static void draw(int side) {
    uint64_t state = 88172645463325252u;
    for (int k = 0; k < BONDS_OF(side); k++) {
        state ^= state << 13;
        state ^= state >> 7;
        state ^= state << 17;
        couplings[k] = state >> 63 ? 1 : -1;
    }
}

static int64_t energy_of_spins(int side) {
    int64_t energy = 0;
    for (int k = 0; k < BONDS_OF(side); k++) {
        energy -= couplings[k] * spins[ends[2 * k]] * spins[ends[2 * k + 1]];
    }
    return energy;
}

/* The tables of a cylinder, a ground state with its nest, and the judgement of it. */
static int64_t nested(int side) {
    struct ising2d_tables counts;
    struct ising2d_nest nest;
    draw(side);
    judge("the tables of a lattice",
          ising2d_c_lattice(ISING2D_CYLINDER, side, side, couplings, BONDS_OF(side), ISING2D_MOST_SPINS, &counts, ends,
                            2 * BONDS_OF(side), dart_starts, SPINS_OF(side) + 1, darts, 2 * BONDS_OF(side), seam, side,
                            LINE) == ISING2D_DONE &&
              counts.ends == (size_t)(2 * BONDS_OF(side)) && counts.seam == (size_t)side);
    judge("a ground state with a nest",
          ising2d_c_nest(GRAPH(side), &nest, spins, SPINS_OF(side), parents, REGIONS_OF(side), radii, REGIONS_OF(side),
                         regions, FACES_OF(side), at_radii, FACES_OF(side), LINE) == ISING2D_DONE &&
              nest.face_count == (size_t)FACES_OF(side) && nest.region_count <= (size_t)REGIONS_OF(side) &&
              nest.energy == energy_of_spins(side));
    judge("the judgement of that nest",
          ising2d_c_nest_check(GRAPH(side), nest.energy, spins, SPINS_OF(side), parents, nest.region_count, radii,
                               nest.region_count, regions, nest.face_count, at_radii, nest.face_count,
                               LINE) == ISING2D_DONE);
    return nest.energy;
}

int main(void) {
    struct ising2d_ground ground;
    struct ising2d_wall wall;
    int64_t energy;

    nested(LARGEST);
    energy = nested(LARGE);
    judge("a wall", ising2d_c_wall(GRAPH(LARGE), &wall, LINE) == ISING2D_DONE && wall.periodic == energy &&
                        wall.difference == wall.antiperiodic - wall.periodic);
    judge("a ground state with loops",
          ising2d_c_ground(GRAPH(LARGE), &ground, spins, SPINS_OF(LARGE), weights, LOOPS, starts, LOOPS + 1, bonds,
                           ROOM, LINE) == ISING2D_DONE &&
              ground.energy == energy && ground.loop_count <= LOOPS && ground.bond_count <= ROOM);
    judge("the judgement of these loops",
          ising2d_c_check(GRAPH(LARGE), ground.energy, spins, SPINS_OF(LARGE), weights, ground.loop_count, starts,
                          ground.loop_count + 1, bonds, ground.bond_count, LINE) == ISING2D_DONE);
    printf("%d passed, %d failed\n", passed, failed);
    return failed != 0;
}
