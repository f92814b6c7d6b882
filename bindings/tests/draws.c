/* The draws of each law beside the couplings that the program prints. The last line is `N passed, M failed`. */
#include <inttypes.h>
#include <stdio.h>
#include <string.h>

#include "ising2d.h"

enum { ROWS = 7, COLS = 9, BONDS = ROWS * (COLS - 1) + (ROWS - 1) * COLS };

static int64_t couplings[BONDS];
static uint8_t out[1 << 16], line[128];
static size_t written, whole;

/* Whether the numbers of the text, each with one byte behind it, are the couplings. */
static int are_printed(const char *text) {
    for (size_t k = 0; k < BONDS; k++) {
        long long drawn;
        int read = 0;
        if (sscanf(text, "%lld%n", &drawn, &read) != 1 || drawn != couplings[k]) {
            return 0;
        }
        text += read + 1;
    }
    return 1;
}

/* The draws of a law, beside `gen` for a square lattice. */
static int try_draws(const char *name, uint8_t law, uint64_t seed) {
    const uint8_t none = 0;
    char words[64];
    size_t length = (size_t)sprintf(words, "gen%c%s%c%" PRIu64 "%csquare%c%d%c%d", 0, name, 0, seed, 0, 0, ROWS, 0, COLS);
    if (ising2d_c_run((uint8_t *)words, length + 1, &none, 0, out, sizeof out - 1, &written, &whole) != ISING2D_DONE) {
        return 0;
    }
    out[written] = 0;
    return ising2d_c_draws(law, seed, BONDS, couplings, BONDS, line, sizeof line, &written) == ISING2D_DONE &&
           are_printed((const char *)out + strlen("square,7,9\n"));
}

int main(void) {
    static const char *const names[] = {"one", "alternate", "pm", "uniform"};
    const uint64_t seeds[] = {0, 7, 42, UINT64_MAX};
    int passed = 0, failed = 0;
    for (uint8_t law = 0; law < 4; law++) {
        for (size_t k = 0; k < 4; k++) {
            if (try_draws(names[law], law, seeds[k])) {
                passed++;
            } else {
                failed++;
                printf("WRONG: draws of %s after %" PRIu64 "\n", names[law], seeds[k]);
            }
        }
    }
    printf("%d passed, %d failed\n", passed, failed);
    return failed != 0;
}
