/* Calls of the library from C, under AddressSanitizer: each array has exactly the room that is told. */
#include <inttypes.h>
#include <stdio.h>
#include <stdlib.h>
#include <string.h>

#include "ising2d.h"

static int failed = 0;

static void expect(int holds, const char *what) {
    if (!holds) {
        printf("wrong: %s\n", what);
        failed = 1;
    }
}

/* Room for so many bytes, and not one more; never NULL. */
static void *place(size_t bytes) {
    void *found = malloc(bytes ? bytes : 1);
    if (!found) {
        exit(6);
    }
    memset(found, 0x55, bytes);
    return found;
}

static void try_run(size_t room) {
    const char words[] = "ground";
    const char *input = "square,2,2\n3,4\n2,-5\nend\n";
    const char *wanted = "energy,-10\nspins,1,1,-1,-1\nloop,2,0,1,2,3\nloop,2,0,1,2,3\nend\n";
    uint8_t *out = place(room);
    size_t written = 9, whole = 9;
    uint8_t status = ising2d_c_run((const uint8_t *)words, sizeof words, (const uint8_t *)input,
                                   strlen(input), out, room, &written, &whole);
    size_t fits = room < strlen(wanted) ? room : strlen(wanted);
    expect(status == ISING2D_DONE, "the status of a run");
    expect(whole == strlen(wanted), "the length of the whole text");
    expect(written == fits, "the number of bytes written");
    expect(memcmp(out, wanted, fits) == 0, "the text");
    expect(fits == room || out[fits] == 0x55, "what lies behind the text stays");
    free(out);
}

static void try_unended(void) {
    uint8_t out[4] = {1, 2, 3, 4};
    size_t written = 9, whole = 9;
    uint8_t status = ising2d_c_run((const uint8_t *)"ground", 6, out, 0, out, 4, &written, &whole);
    expect(status == ISING2D_NO_WORDS, "a word without its end");
    expect(written == 0 && whole == 0 && out[0] == 1, "nothing is written beside it");
}

/* The tables of a lattice, each with exactly the room that it takes. */
struct tables {
    uint32_t n, *ends, *darts, *seam;
    size_t *starts;
    struct ising2d_tables counts;
};

/* They are asked for without room first, which is how a caller learns how many entries there are. */
static uint8_t take_tables(struct tables *found, uint8_t kind, uint32_t rows, uint32_t cols,
                           const int64_t *couplings, size_t count, uint32_t most, uint8_t *line,
                           size_t room, size_t *written) {
    struct ising2d_tables again;
    uint32_t none = 7;
    size_t no_start = 7;
    uint8_t status = ising2d_c_lattice(kind, rows, cols, couplings, count, most, &found->counts, &none, 0,
                                       &no_start, 0, &none, 0, &none, 0, line, room, written);
    expect(none == 7 && no_start == 7, "nothing is written where there is no room");
    if (status != ISING2D_DONE) {
        return status;
    }
    found->n = rows * cols;
    found->ends = place(found->counts.ends * sizeof *found->ends);
    found->starts = place(found->counts.starts * sizeof *found->starts);
    found->darts = place(found->counts.darts * sizeof *found->darts);
    found->seam = place(found->counts.seam * sizeof *found->seam);
    status = ising2d_c_lattice(kind, rows, cols, couplings, count, most, &again, found->ends, found->counts.ends,
                               found->starts, found->counts.starts, found->darts, found->counts.darts,
                               found->seam, found->counts.seam, line, room, written);
    expect(memcmp(&again, &found->counts, sizeof again) == 0, "the same numbers of entries");
    expect(found->counts.ends == 2 * count && found->counts.darts == 2 * count, "two ends and darts a bond");
    expect(found->counts.starts == (size_t)found->n + 1, "a start for each spin, and one more");
    return status;
}

static void drop_tables(struct tables *given) {
    free(given->ends), free(given->starts), free(given->darts), free(given->seam);
}

#define TABLES(t, couplings, count)                                                                  \
    (t).n, (t).ends, (t).counts.ends, couplings, count, (t).starts, (t).counts.starts, (t).darts,    \
        (t).counts.darts, (t).seam, (t).counts.seam

static void try_ground(size_t spins_room, size_t loops_room, size_t bonds_room) {
    const int64_t given[] = {3, 4, 2, -5};
    int64_t *couplings = place(sizeof given);
    int8_t *spins = place(spins_room);
    int64_t *weights = place(loops_room * sizeof *weights);
    size_t *starts = place((loops_room + 1) * sizeof *starts);
    uint32_t *bonds = place(bonds_room * sizeof *bonds);
    uint8_t *line = place(128);
    struct ising2d_ground answer = {0, 0, 0};
    struct tables square;
    size_t written = 0;
    const int8_t wanted[] = {1, 1, -1, -1};
    memcpy(couplings, given, sizeof given);
    uint8_t status = take_tables(&square, ISING2D_SQUARE, 2, 2, couplings, 4, ISING2D_MOST_SPINS, line, 128, &written);
    expect(status == ISING2D_DONE, "the tables of a square");
    status = ising2d_c_ground(TABLES(square, couplings, 4), &answer, spins, spins_room, weights, loops_room,
                              starts, loops_room + 1, bonds, bonds_room, line, 128, &written);
    size_t fits = spins_room < 4 ? spins_room : 4;
    expect(status == ISING2D_DONE && answer.energy == -10, "a ground state");
    expect(memcmp(spins, wanted, fits) == 0, "its spins");
    expect(answer.loop_count == 2 && answer.bond_count == 8, "the numbers of loops and of their bonds");
    if (loops_room >= 2 && bonds_room >= 8) {
        expect(starts[0] == 0 && starts[1] == 4 && starts[2] == 8, "the starts of the loops");
        expect(weights[0] == 2 && weights[1] == 2, "their weights");
        expect(bonds[0] == 0 && bonds[3] == 3 && bonds[7] == 3, "their bonds");
    }
    drop_tables(&square);
    free(couplings), free(spins), free(weights), free(starts), free(bonds), free(line);
}

/* A wall of a lattice: refused for its numbers, or for the graph of its tables. */
static void try_refusal(uint8_t kind, uint32_t rows, uint32_t cols, const int64_t *couplings,
                        size_t count, size_t room, const char *wanted) {
    struct ising2d_wall answer = {7, 7, 7};
    uint8_t *line = place(room);
    size_t written = 0;
    struct tables given;
    uint8_t status = take_tables(&given, kind, rows, cols, couplings, count, UINT32_MAX, line, room, &written);
    if (status == ISING2D_DONE) {
        status = ising2d_c_wall(TABLES(given, couplings, count), &answer, line, room, &written);
        drop_tables(&given);
    }
    size_t fits = room < strlen(wanted) ? room : strlen(wanted);
    expect(status == ISING2D_REFUSED && written == fits, wanted);
    expect(memcmp(line, wanted, fits) == 0, wanted);
    expect(answer.periodic == 7 && answer.antiperiodic == 7 && answer.difference == 7, "no wall beside a refusal");
    free(line);
}

static void try_cylinder(void) {
    const int64_t couplings[] = {5, 7, 2};
    struct ising2d_wall answer;
    struct tables ring;
    int64_t costs[3];
    uint32_t names[3];
    uint8_t line[128];
    size_t written;
    expect(take_tables(&ring, ISING2D_CYLINDER, 1, 3, couplings, 3, ISING2D_MOST_SPINS_OF_COSTS, line,
                       sizeof line, &written) == ISING2D_DONE, "the tables of a ring");
    expect(ring.counts.seam == 1 && ring.seam[0] == 2, "its seam");
    expect(ising2d_c_wall(TABLES(ring, couplings, 3), &answer, line, sizeof line, &written) == ISING2D_DONE, "a wall");
    expect(answer.periodic == -14 && answer.antiperiodic == -10 && answer.difference == 4, "its energies");
    expect(ising2d_c_bonds(TABLES(ring, couplings, 3), costs, 3, line, sizeof line, &written) == ISING2D_DONE, "costs");
    expect(costs[0] == 14 && costs[1] == 18 && costs[2] == 14, "the costs of a ring");
    expect(ising2d_c_clusters(TABLES(ring, couplings, 3), names, 3, line, sizeof line, &written) == ISING2D_DONE,
           "clusters");
    expect(names[0] == 0 && names[1] == 0 && names[2] == 0, "one cluster");
    drop_tables(&ring);
    /* Of costs to come the limit is the program's, in front of the number of couplings. */
    expect(take_tables(&ring, ISING2D_CYLINDER, 45, 46, couplings, 3, ISING2D_MOST_SPINS_OF_COSTS, line,
                       sizeof line, &written) == ISING2D_REFUSED, "the costs of 2070 spins");
    expect(written == 15 && memcmp(line, "refused,7,2070\n", 15) == 0, "their line");
    expect(take_tables(&ring, ISING2D_CYLINDER, 45, 46, couplings, 3, ISING2D_MOST_SPINS, line, sizeof line,
                       &written) == ISING2D_REFUSED, "2070 spins with three couplings");
    expect(written == 17 && memcmp(line, "refused,6,3,4094\n", 17) == 0, "their line");
}

/* A copy with room for its entries, and not one more. */
static void *copy(const void *given, size_t bytes) {
    void *found = place(bytes);
    memcpy(found, given, bytes);
    return found;
}

/* A proof of the square: its energy, spins, and loops, of which `cut` entries are left out of an array. */
static void try_check(int64_t energy, const int8_t *spins, size_t spins_len, size_t starts_len,
                      size_t bonds_len, size_t room, uint8_t wanted, const char *text) {
    const int64_t given[] = {3, 4, 2, -5}, heavy[] = {2, 2};
    const size_t begun[] = {0, 4, 8};
    const uint32_t through[] = {0, 1, 2, 3, 0, 1, 2, 3};
    int64_t *couplings = copy(given, sizeof given), *weights = copy(heavy, sizeof heavy);
    int8_t *values = copy(spins, spins_len);
    size_t *starts = copy(begun, starts_len * sizeof *starts), written = 99;
    uint32_t *bonds = copy(through, bonds_len * sizeof *bonds);
    uint8_t *line = place(room);
    struct tables square;
    expect(take_tables(&square, ISING2D_SQUARE, 2, 2, couplings, 4, ISING2D_MOST_SPINS, line, room, &written) ==
               ISING2D_DONE, "the tables of a square");
    uint8_t status = ising2d_c_check(TABLES(square, couplings, 4), energy, values, spins_len, weights, 2, starts,
                                     starts_len, bonds, bonds_len, line, room, &written);
    drop_tables(&square);
    size_t fits = room < strlen(text) ? room : strlen(text);
    expect(status == wanted && written == fits, text);
    expect(memcmp(line, text, fits) == 0, text);
    free(couplings), free(weights), free(values), free(starts), free(bonds), free(line);
}

static void try_checks(void) {
    const int8_t spins[] = {1, 1, -1, -1, 1}, wrong[] = {1, 1, 2, -1};
    for (size_t room = 0; room < 12; room++) {
        try_check(-10, spins, 4, 3, 8, room, ISING2D_DONE, "yes\n");
        try_check(-9, spins, 4, 3, 8, room, ISING2D_NO, "no,2,-10\n");
        try_check(-10, wrong, 4, 3, 8, room, ISING2D_REFUSED, "refused,19,10,2\n");
    }
    try_check(-10, spins, 3, 3, 8, 128, ISING2D_NO, "no,1,3\n");
    try_check(-10, spins, 5, 3, 8, 128, ISING2D_NO, "no,1,5\n");
    try_check(-10, spins, 0, 3, 8, 128, ISING2D_NO, "no,1,0\n");
    try_check(INT64_MIN, spins, 4, 3, 8, 128, ISING2D_NO, "no,2,-10\n");
    try_check(-10, spins, 4, 2, 8, 128, ISING2D_REFUSED, "refused,19,11,0\n");
    try_check(-10, spins, 4, 0, 8, 128, ISING2D_REFUSED, "refused,19,11,0\n");
    try_check(-10, spins, 4, 3, 7, 128, ISING2D_REFUSED, "refused,19,11,2\n");
    try_check(-10, spins, 4, 3, 0, 128, ISING2D_REFUSED, "refused,19,11,2\n");
}

/* The numbers of a graph, each array with a number of entries. */
struct graph {
    uint32_t n;
    uint32_t ends[8];
    size_t ends_len;
    int64_t couplings[4];
    size_t couplings_len;
    size_t starts[5];
    size_t starts_len;
    uint32_t darts[8];
    size_t darts_len;
    uint32_t seam[2];
    size_t seam_len;
};

/* The square of four spins; its seam is the bond 0. */
static struct graph square(void) {
    struct graph found = {
        4, {0, 1, 2, 3, 0, 2, 1, 3}, 8, {3, 4, 2, -5}, 4, {0, 2, 4, 6, 8}, 5, {0, 4, 1, 6, 2, 5, 3, 7}, 8, {0, 0}, 1,
    };
    return found;
}

/* Each call on a graph: what a wall call writes, and the same status from the others. */
static void try_graph(const struct graph *given, uint8_t wanted, const char *text) {
    uint32_t *ends = copy(given->ends, given->ends_len * sizeof *ends);
    int64_t *couplings = copy(given->couplings, given->couplings_len * sizeof *couplings);
    size_t *starts = copy(given->starts, given->starts_len * sizeof *starts);
    uint32_t *darts = copy(given->darts, given->darts_len * sizeof *darts);
    uint32_t *seam = copy(given->seam, given->seam_len * sizeof *seam);
    uint8_t *line = place(128);
    struct ising2d_wall wall = {7, 7, 7};
    struct ising2d_ground answer = {7, 7, 7};
    int64_t costs[4] = {7, 7, 7, 7}, weights[9];
    int8_t spins[4] = {7, 7, 7, 7};
    size_t loop_starts[10], written = 99;
    uint32_t names[4] = {7, 7, 7, 7}, bonds[40];
#define GIVEN                                                                                        \
    given->n, ends, given->ends_len, couplings, given->couplings_len, starts, given->starts_len, darts, \
        given->darts_len, seam, given->seam_len
    uint8_t status = ising2d_c_wall(GIVEN, &wall, line, 128, &written);
    expect(status == wanted, text);
    if (status == ISING2D_DONE) {
        expect(wall.periodic == -10 && wall.antiperiodic == -14 && wall.difference == -4, "the wall of a graph");
    } else {
        expect(written == strlen(text) && memcmp(line, text, written) == 0, text);
        expect(wall.periodic == 7 && wall.antiperiodic == 7 && wall.difference == 7, "no wall beside a refusal");
    }
    uint8_t others = strcmp(text, "refused,16\n") ? wanted : ISING2D_DONE;
    status = ising2d_c_ground(GIVEN, &answer, spins, 4, weights, 9, loop_starts, 10, bonds, 40, line, 128, &written);
    expect(status == others && answer.energy == (others ? 7 : -10), "a ground state of a graph");
    expect(spins[3] == (others ? 7 : -1), "its spins");
    status = ising2d_c_bonds(GIVEN, costs, 4, line, 128, &written);
    expect(status == others && costs[2] == (others ? 7 : 2), "the costs of a graph");
    status = ising2d_c_clusters(GIVEN, names, 4, line, 128, &written);
    expect(status == others && names[3] == (others ? 7 : 0), "the clusters of a graph");
    if (others == ISING2D_DONE) {
        status = ising2d_c_check(GIVEN, answer.energy, spins, 4, weights, answer.loop_count, loop_starts,
                                 answer.loop_count + 1, bonds, answer.bond_count, line, 128, &written);
        expect(status == ISING2D_DONE && written == 4, "a proof for a graph");
    }
    free(ends), free(couplings), free(starts), free(darts), free(seam), free(line);
}

#define WITH(change, wanted, text)                                                                     \
    do {                                                                                               \
        struct graph other = square();                                                                 \
        change;                                                                                        \
        try_graph(&other, wanted, text);                                                               \
    } while (0)

static void try_graphs(void) {
    WITH((void)0, ISING2D_DONE, "answered");
    WITH(other.seam_len = 0, ISING2D_REFUSED, "refused,16\n");
    WITH(other.n = 0, ISING2D_REFUSED, "refused,19,5,0\n");
    WITH(other.n = 4194305, ISING2D_REFUSED, "refused,7,4194305\n");
    WITH(other.n = UINT32_MAX, ISING2D_REFUSED, "refused,7,4294967295\n");
    WITH(other.ends_len = 7, ISING2D_REFUSED, "refused,19,7,0\n");
    WITH(other.ends_len = 0, ISING2D_REFUSED, "refused,19,7,0\n");
    WITH(other.couplings_len = 3, ISING2D_REFUSED, "refused,19,7,0\n");
    WITH(other.ends[5] = 4, ISING2D_REFUSED, "refused,19,7,2\n");
    WITH(other.ends[0] = UINT32_MAX, ISING2D_REFUSED, "refused,19,7,0\n");
    WITH(other.couplings[3] = INT64_MIN, ISING2D_REFUSED, "refused,19,7,3\n");
    WITH(other.starts_len = 4, ISING2D_REFUSED, "refused,19,8,0\n");
    WITH(other.starts_len = 0, ISING2D_REFUSED, "refused,19,8,0\n");
    WITH(other.starts[0] = 1, ISING2D_REFUSED, "refused,19,8,0\n");
    WITH(other.starts[2] = 1, ISING2D_REFUSED, "refused,19,8,2\n");
    WITH(other.starts[3] = SIZE_MAX, ISING2D_REFUSED, "refused,19,8,4\n");
    WITH(other.starts[4] = SIZE_MAX, ISING2D_REFUSED, "refused,19,8,4\n");
    WITH(other.darts_len = 7, ISING2D_REFUSED, "refused,19,8,4\n");
    WITH(other.ends[1] = 0, ISING2D_REFUSED, "refused,9,0\n");
    WITH(other.darts[3] = 7, ISING2D_REFUSED, "refused,10,1,7\n");
    WITH(other.darts[3] = UINT32_MAX, ISING2D_REFUSED, "refused,10,1,4294967295\n");
    WITH(other.seam[0] = 4, ISING2D_REFUSED, "refused,11,4\n");
    WITH(other.seam_len = 2, ISING2D_REFUSED, "refused,11,0\n");
    WITH(other.couplings[0] = INT64_MAX, ISING2D_REFUSED, "refused,13,9223372036854775818\n");
}

int main(void) {
    const int64_t couplings[] = {3, 4, 2, -5}, least[] = {3, 4, INT64_MIN, -5};
    const int64_t large[] = {INT64_MAX, 1, 1, 1};
    for (size_t room = 0; room < 80; room++) {
        try_run(room);
    }
    try_unended();
    for (size_t room = 0; room < 6; room++) {
        try_ground(room, 3, 9);
        try_ground(4, room, 2 * room);
    }
    try_refusal(4, 2, 2, couplings, 4, 128, "refused,19,1,0\n");
    try_refusal(0, 0, 2, couplings, 4, 128, "refused,19,3,0\n");
    try_refusal(0, 2, 0, couplings, 4, 128, "refused,19,4,0\n");
    try_refusal(3, 2, 2, couplings, 4, 3, "refused,19,4,0\n");
    try_refusal(0, 2048, 2049, couplings, 4, 128, "refused,7,4196352\n");
    try_refusal(0, UINT32_MAX, UINT32_MAX, couplings, 4, 128, "refused,7,18446744065119617025\n");
    try_refusal(0, 2, 2, couplings, 3, 128, "refused,6,3,4\n");
    try_refusal(0, 2, 2, couplings, 0, 0, "refused,6,0,4\n");
    try_refusal(0, 2, 2, least, 4, 128, "refused,19,6,2\n");
    try_refusal(0, 2, 2, large, 4, 128, "refused,13,9223372036854775810\n");
    try_refusal(0, 2, 2, couplings, 4, 128, "refused,16\n");
    try_cylinder();
    try_checks();
    try_graphs();
    puts(failed ? "the calls from C: wrong" : "the calls from C: right");
    return failed;
}
