/* A ground state of four spins, and the judgement of its proof:
 *
 *     cc ground.c $(pkg-config --cflags --libs ising2d) && ./a.out
 */
#include <inttypes.h>
#include <ising2d.h>
#include <stdio.h>

enum { ROWS = 2, COLS = 2, SPINS = ROWS * COLS, BONDS = 4, LOOPS = 5 * BONDS / 2, ROOM = LOOPS * BONDS };

#define GRAPH SPINS, ends, 2 * BONDS, couplings, BONDS, dart_starts, SPINS + 1, darts, 2 * BONDS, seam, counts.seam
#define LINE line, sizeof line, &written

int main(void) {
    const int64_t couplings[BONDS] = {3, 4, 2, -5}; /* two to the east, two to the south */
    uint32_t ends[2 * BONDS], darts[2 * BONDS], seam[ROWS], bonds[ROOM];
    size_t dart_starts[SPINS + 1], starts[LOOPS + 1], written = 0;
    int64_t weights[LOOPS];
    int8_t spins[SPINS];
    uint8_t line[128];
    struct ising2d_tables counts;
    struct ising2d_ground found;

    uint8_t status = ising2d_c_lattice(ISING2D_SQUARE, ROWS, COLS, couplings, BONDS, ISING2D_MOST_SPINS, &counts,
                                       ends, 2 * BONDS, dart_starts, SPINS + 1, darts, 2 * BONDS, seam, ROWS, LINE);
    if (status == ISING2D_DONE)
        status = ising2d_c_ground(GRAPH, &found, spins, SPINS, weights, LOOPS, starts, LOOPS + 1, bonds, ROOM, LINE);
    if (status == ISING2D_DONE) {
        printf("energy %" PRId64 ", spins", found.energy);
        for (int i = 0; i < SPINS; i++)
            printf(" %d", spins[i]);
        status = ising2d_c_check(GRAPH, found.energy, spins, SPINS, weights, found.loop_count, starts,
                                 found.loop_count + 1, bonds, found.bond_count, LINE);
        printf("\nproof: ");
    }
    printf("%.*s", (int)written, (const char *)line);
    return status;
}
