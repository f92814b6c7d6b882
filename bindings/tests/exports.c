/* Each export of the library once with each status: what it answers, and every place of the caller
   before and after it. For status 6 each request for memory is refused in turn, with all behind it:
   the program is linked with --wrap for malloc and realloc, by which the library takes its memory. */
#include <stdio.h>
#include <string.h>

#include "ising2d.h"

/* How many requests for memory are granted before the first that is refused. */
static size_t granted = SIZE_MAX;

void *__real_malloc(size_t size);
void *__real_realloc(void *block, size_t size);
void *__wrap_malloc(size_t size);
void *__wrap_realloc(void *block, size_t size);

static int is_granted(void) {
    if (granted == 0) {
        return 0;
    }
    granted--;
    return 1;
}

void *__wrap_malloc(size_t size) { return is_granted() ? __real_malloc(size) : NULL; }

void *__wrap_realloc(void *block, size_t size) { return is_granted() ? __real_realloc(block, size) : NULL; }

/* Room for what is written of four spins and four bonds. */
enum { SPINS = 4, BONDS = 4, LOOPS = 10, LOOP_BONDS = 40, REGIONS = 4, FACES = 2, SEAM = 2, LINE = 124, NODES = 3 };

/* All places of a caller, for every export, with no byte between them. */
struct places {
    struct ising2d_ground ground;
    struct ising2d_nest nest;
    struct ising2d_wall wall;
    struct ising2d_tables tables;
    struct ising2d_join join;
    int64_t weights[LOOPS], costs[BONDS], low[BONDS], high[BONDS], draws[BONDS];
    uint64_t radii[REGIONS], at_radii[FACES], node_radii[NODES];
    size_t starts[LOOPS + 1], dart_starts[SPINS + 1], edge_count, written, whole;
    uint32_t ends[2 * BONDS], darts[2 * BONDS], seam[SEAM];
    uint32_t names[SPINS], bonds[LOOP_BONDS], parents[REGIONS], regions[FACES], node_regions[NODES];
    int8_t spins[SPINS];
    uint8_t line[LINE];
};

/* What a caller gives: a square as a lattice and as a graph, a proof, and words. */
struct given {
    uint8_t kind;
    uint32_t cols;
    uint32_t n;
    size_t couplings_len;
    int64_t energy;
    const char *words;
    size_t words_len;
};

static const int64_t couplings[] = {3, 4, 2, -5};
static const uint32_t ends[] = {0, 1, 2, 3, 0, 2, 1, 3}, darts[] = {0, 4, 1, 6, 2, 5, 7, 3}, seam[] = {0};
static const size_t dart_starts[] = {0, 2, 4, 6, 8};
static const uint32_t ring_ends[] = {0, 1, 1, 2, 2, 0}, ring_darts[] = {0, 5, 2, 1, 4, 3}, ring_seam[] = {2};
static const size_t ring_starts[] = {0, 2, 4, 6};
static const int64_t heavy[] = {4};
static const int8_t spins[] = {1, 1, -1, -1};
static const size_t begun[] = {0, 4};
static const uint32_t through[] = {0, 1, 2, 3};
static const uint32_t alone[] = {ISING2D_NONE, ISING2D_NONE}, taken[] = {0, 1};
static const uint64_t grown[] = {4, 4}, at[] = {0, 0};
/* Too few spins, one of them none; and a graph without a frustrated face, which a nest without a region proves. */
static const int8_t none_between[] = {1, 0, 1}, up[] = {1, 1, 1, 1};
static const int64_t even_couplings[] = {3, 4, 2, 5};
static const uint32_t untaken[] = {ISING2D_NONE, ISING2D_NONE};
/* A triangle with two terminals: its longest edge, as one list and as the first of two; a nest that proves it; and the
   two other edges. */
static const uint32_t web_ends[] = {0, 1, 1, 2, 0, 2}, web_terminals[] = {2, 0, 1, 0}, longest[] = {2}, others[] = {0, 1};
static const int64_t web_weights[] = {2, 3, 4};
static const size_t web_starts[] = {0, 2, 4};
/* Bonds whose costs are asked for, and bounds of them of which the last is wrong. */
static const uint32_t asked[] = {3, 0, 2, 1}, no_bond[] = {3, 4, 2, 1};
static const int64_t unbounded[] = {-1, -1, -1, -1}, crossed[] = {-1, -1, -1, 7}, six[] = {-1, -1, -1, 6};
static const uint32_t web_taken[] = {0, ISING2D_NONE, 1};
static const uint64_t web_grown[] = {8, 8}, web_at[] = {0, 0, 0};
static const char input[] = "square,2,2\n3,4\n2,-5\nend\nenergy,-9\nspins,1,1,-1,-1\nloop,4,0,1,2,3\nend\n";

#define GRAPH_OF(n) n, ends, 8, couplings, 4, dart_starts, 5, darts, 8, seam, 1
#define GRAPH GRAPH_OF(given->n)
#define LOOPS_OF(p) p->weights, LOOPS, p->starts, LOOPS + 1, p->bonds, LOOP_BONDS
#define PROOF given->energy, spins, 4, heavy, 1, begun, 2, through, 4
#define NEST_OF(p) p->parents, REGIONS, p->radii, REGIONS, p->regions, FACES, p->at_radii, FACES
#define NEST given->energy, spins, 4, alone, 2, grown, 2, taken, 2, at, 2
#define TABLES_OF(p) p->ends, 2 * BONDS, p->dart_starts, SPINS + 1, p->darts, 2 * BONDS, p->seam, SEAM
#define TOLD(p) p->line, LINE, &p->written

#define NETWORK (given->n == 0 ? 0 : NODES), web_ends, 6, web_weights, 3
#define WEB_NEST_OF(p) p->parents, REGIONS, p->radii, REGIONS, p->node_regions, NODES, p->node_radii, NODES
#define WEB_NEST alone, 2, web_grown, 2, web_taken, 3, web_at, 3

static uint8_t run(const struct given *given, struct places *p) {
    return ising2d_c_run((const uint8_t *)given->words, given->words_len, (const uint8_t *)input, strlen(input),
                         p->line, LINE, &p->written, &p->whole);
}

static uint8_t lattice(const struct given *given, struct places *p) {
    return ising2d_c_lattice(given->kind, given->kind == ISING2D_CYLINDER ? 1 : 2, given->cols, couplings,
                             given->couplings_len, ISING2D_MOST_SPINS, &p->tables, TABLES_OF(p), TOLD(p));
}

static uint8_t ground(const struct given *given, struct places *p) {
    return ising2d_c_ground(GRAPH, &p->ground, p->spins, SPINS, LOOPS_OF(p), TOLD(p));
}

static uint8_t nest(const struct given *given, struct places *p) {
    return ising2d_c_nest(GRAPH, &p->nest, p->spins, SPINS, NEST_OF(p), TOLD(p));
}

static uint8_t wall(const struct given *given, struct places *p) { return ising2d_c_wall(GRAPH, &p->wall, TOLD(p)); }

static uint8_t bonds(const struct given *given, struct places *p) {
    return ising2d_c_bonds(GRAPH, p->costs, BONDS, TOLD(p));
}

/* Bounds that are narrowed; where they were, once something is written. */
static uint8_t narrowed(const struct given *given, struct places *p, const uint32_t *chosen, const int64_t *below,
                        size_t count, const int64_t *above) {
    int64_t low[BONDS], high[BONDS];
    memcpy(low, below, sizeof low);
    memcpy(high, above, sizeof high);
    uint8_t ended = ising2d_c_bond_costs(GRAPH, chosen, 4, low, count, high, BONDS, TOLD(p));
    if (memcmp(low, below, sizeof low) != 0 || memcmp(high, above, sizeof high) != 0) {
        memcpy(p->low, low, sizeof low);
        memcpy(p->high, high, sizeof high);
    }
    return ended;
}

/* The same by ground states of weakened couplings. */
static uint8_t enclosed(const struct given *given, struct places *p, size_t count, const int64_t *above) {
    int64_t low[BONDS], high[BONDS];
    memcpy(low, unbounded, sizeof low);
    memcpy(high, above, sizeof high);
    uint8_t ended = ising2d_c_cost_bounds(GRAPH, 0, low, count, high, BONDS, TOLD(p));
    if (memcmp(low, unbounded, sizeof low) != 0 || memcmp(high, above, sizeof high) != 0) {
        memcpy(p->low, low, sizeof low);
        memcpy(p->high, high, sizeof high);
    }
    return ended;
}

static uint8_t cost_bounds(const struct given *given, struct places *p) {
    return enclosed(given, p, BONDS, unbounded);
}

static uint8_t too_few_enclosed(const struct given *given, struct places *p) {
    return enclosed(given, p, BONDS - 1, unbounded);
}

static uint8_t bond_costs(const struct given *given, struct places *p) {
    return narrowed(given, p, asked, unbounded, BONDS, unbounded);
}

static uint8_t costs_of_no_bond(const struct given *given, struct places *p) {
    return narrowed(given, p, no_bond, unbounded, BONDS, unbounded);
}

static uint8_t too_few_bounds(const struct given *given, struct places *p) {
    return narrowed(given, p, asked, unbounded, BONDS - 1, unbounded);
}

static uint8_t crossed_bounds(const struct given *given, struct places *p) {
    return narrowed(given, p, asked, crossed, BONDS, six);
}

/* The draws of a law, or of none where no spins are given. */
static uint8_t draws(const struct given *given, struct places *p) {
    return ising2d_c_draws(given->n == 0 ? 4 : ISING2D_PM, 42, BONDS, p->draws, BONDS, TOLD(p));
}

static uint8_t too_many_draws(const struct given *given, struct places *p) {
    (void)given;
    return ising2d_c_draws(ISING2D_ONE, 0, 12582913, p->draws, BONDS, TOLD(p));
}

static uint8_t clusters(const struct given *given, struct places *p) {
    return ising2d_c_clusters(GRAPH, p->names, SPINS, TOLD(p));
}

static uint8_t check(const struct given *given, struct places *p) { return ising2d_c_check(GRAPH, PROOF, TOLD(p)); }

static uint8_t nest_check(const struct given *given, struct places *p) {
    return ising2d_c_nest_check(GRAPH, NEST, TOLD(p));
}

static uint8_t check_none_between(const struct given *given, struct places *p) {
    return ising2d_c_check(GRAPH, given->energy, none_between, 3, heavy, 1, begun, 2, through, 4, TOLD(p));
}

static uint8_t nest_check_none_between(const struct given *given, struct places *p) {
    return ising2d_c_nest_check(GRAPH, given->energy, none_between, 3, alone, 2, grown, 2, taken, 2, at, 2, TOLD(p));
}

static uint8_t nest_check_untaken(const struct given *given, struct places *p) {
    return ising2d_c_nest_check(given->n, ends, 8, even_couplings, 4, dart_starts, 5, darts, 8, seam, 1, -14, up, 4,
                                alone, 0, grown, 0, untaken, 2, at, 2, TOLD(p));
}

static uint8_t join(const struct given *given, struct places *p) {
    return ising2d_c_join(NETWORK, web_terminals, 2, &p->join, p->bonds, LOOP_BONDS, WEB_NEST_OF(p), TOLD(p));
}

static uint8_t odd_join(const struct given *given, struct places *p) {
    return ising2d_c_join(NETWORK, web_terminals, 3, &p->join, p->bonds, LOOP_BONDS, WEB_NEST_OF(p), TOLD(p));
}

static uint8_t join_check(const struct given *given, struct places *p) {
    return ising2d_c_join_check(NETWORK, web_terminals, 2, longest, 1, WEB_NEST, TOLD(p));
}

static uint8_t join_check_others(const struct given *given, struct places *p) {
    return ising2d_c_join_check(NETWORK, web_terminals, 2, others, 2, WEB_NEST, TOLD(p));
}

static uint8_t joins(const struct given *given, struct places *p) {
    return ising2d_c_joins(NETWORK, web_starts, 3, web_terminals, 4, p->weights, LOOPS, p->starts, LOOPS + 1, p->bonds,
                           LOOP_BONDS, &p->edge_count, TOLD(p));
}

static uint8_t joins_wrong_start(const struct given *given, struct places *p) {
    return ising2d_c_joins(NETWORK, web_starts, 3, web_terminals, 3, p->weights, LOOPS, p->starts, LOOPS + 1, p->bonds,
                           LOOP_BONDS, &p->edge_count, TOLD(p));
}

/* What a call must leave: places that were as `blank` says, but for these. */
static void text(struct places *p, const char *line) {
    memcpy(p->line, line, strlen(line));
    p->written = strlen(line);
}

static void whole_text(struct places *p, const char *line) {
    text(p, line);
    p->whole = strlen(line);
}

static void least(struct places *p) {
    p->ground.energy = -10;
    memcpy(p->spins, spins, sizeof spins);
}

static void least_of_nest(struct places *p) {
    p->nest.energy = -10;
    memcpy(p->spins, spins, sizeof spins);
}

static void walls(struct places *p) { p->wall = (struct ising2d_wall){-10, -14, -4}; }

static void square(struct places *p) {
    p->tables = (struct ising2d_tables){8, 5, 8, 0};
    memcpy(p->ends, ends, sizeof ends);
    memcpy(p->dart_starts, dart_starts, sizeof dart_starts);
    memcpy(p->darts, darts, sizeof darts);
}

static void tube(struct places *p) {
    p->tables = (struct ising2d_tables){6, 4, 6, 1};
    memcpy(p->ends, ring_ends, sizeof ring_ends);
    memcpy(p->dart_starts, ring_starts, sizeof ring_starts);
    memcpy(p->darts, ring_darts, sizeof ring_darts);
    memcpy(p->seam, ring_seam, sizeof ring_seam);
}

static void turned(struct places *p) {
    const int64_t costs[] = {2, 4, 2, 6};
    memcpy(p->costs, costs, sizeof costs);
}

static void known(struct places *p) {
    const int64_t costs[] = {2, 4, 2, 6};
    memcpy(p->low, costs, sizeof costs);
    memcpy(p->high, costs, sizeof costs);
}

/* By flips of single spins: the ground state breaks the bond of the coupling 2. */
static void near(struct places *p) {
    const int64_t least[] = {2, 2, 2, 2}, most[] = {2, 4, 2, 16};
    memcpy(p->low, least, sizeof least);
    memcpy(p->high, most, sizeof most);
}

static void signs(struct places *p) {
    const int64_t list[] = {-1, -1, 1, -1};
    memcpy(p->draws, list, sizeof list);
}

static void least_join(struct places *p) {
    p->join.weight = 4;
    p->join.edge_count = 1;
    p->join.node_count = NODES;
    p->bonds[0] = 2;
}

static void least_joins(struct places *p) {
    const int64_t weights[] = {4, 2};
    const size_t starts[] = {0, 1, 2};
    const uint32_t edges[] = {2, 0};
    memcpy(p->weights, weights, sizeof weights);
    memcpy(p->starts, starts, sizeof starts);
    memcpy(p->bonds, edges, sizeof edges);
    p->edge_count = 2;
}

static void joined(struct places *p) { memset(p->names, 0, sizeof p->names); }

static const struct places *blank(void) {
    static struct places found;
    memset(&found, 0x55, sizeof found);
    return &found;
}

/* The loops may differ, so they are judged by the checker and then taken for right. */
static void take_loops(struct places *wanted, const struct places *found) {
    struct places judged = *blank();
    size_t count = found->ground.loop_count, all = found->ground.bond_count;
    if (count > LOOPS || all > LOOP_BONDS ||
        ising2d_c_check(GRAPH_OF(4), found->ground.energy, found->spins, 4, found->weights, count, found->starts,
                        count + 1, found->bonds, all, judged.line, LINE, &judged.written) != ISING2D_DONE) {
        return;
    }
    memcpy(wanted->weights, found->weights, count * sizeof *found->weights);
    memcpy(wanted->starts, found->starts, (count + 1) * sizeof *found->starts);
    memcpy(wanted->bonds, found->bonds, all * sizeof *found->bonds);
    wanted->ground.loop_count = count;
    wanted->ground.bond_count = all;
}

/* A nest may differ too. */
static void take_nest(struct places *wanted, const struct places *found) {
    struct places judged = *blank();
    size_t count = found->nest.region_count, faces = found->nest.face_count;
    if (count > REGIONS || faces != FACES ||
        ising2d_c_nest_check(GRAPH_OF(4), found->nest.energy, found->spins, 4, found->parents, count, found->radii,
                             count, found->regions, faces, found->at_radii, faces, judged.line, LINE,
                             &judged.written) != ISING2D_DONE) {
        return;
    }
    memcpy(wanted->parents, found->parents, count * sizeof *found->parents);
    memcpy(wanted->radii, found->radii, count * sizeof *found->radii);
    memcpy(wanted->regions, found->regions, sizeof found->regions);
    memcpy(wanted->at_radii, found->at_radii, sizeof found->at_radii);
    wanted->nest.region_count = count;
    wanted->nest.face_count = faces;
}

/* And a nest over nodes. */
static void take_web_nest(struct places *wanted, const struct places *found) {
    struct places judged = *blank();
    size_t count = found->join.region_count;
    if (count > REGIONS ||
        ising2d_c_join_check(NODES, web_ends, 6, web_weights, 3, web_terminals, 2, found->bonds, 1, found->parents, count,
                             found->radii, count, found->node_regions, NODES, found->node_radii, NODES, judged.line, LINE,
                             &judged.written) != ISING2D_DONE) {
        return;
    }
    memcpy(wanted->parents, found->parents, count * sizeof *found->parents);
    memcpy(wanted->radii, found->radii, count * sizeof *found->radii);
    memcpy(wanted->node_regions, found->node_regions, sizeof found->node_regions);
    memcpy(wanted->node_radii, found->node_radii, sizeof found->node_radii);
    wanted->join.region_count = count;
}

/* What of an answer may differ. */
enum proof { NONE, LOOP_PROOF, NEST_PROOF, WEB_NEST_PROOF };

static int passed = 0, failed = 0;

static void judge(int holds, const char *name, unsigned status) {
    if (holds) {
        passed++;
    } else {
        failed++;
        printf("WRONG: %s with status %u\n", name, status);
    }
}

typedef uint8_t call(const struct given *, struct places *);

/* One call, which must end so, and leave all places so. */
static void ends_with(const char *name, call *called, const struct given *given, uint8_t status,
                      const struct places *wanted, enum proof proof) {
    struct places found = *blank(), all = *wanted;
    uint8_t ended = called(given, &found);
    if (proof == LOOP_PROOF) {
        take_loops(&all, &found);
    }
    if (proof == NEST_PROOF) {
        take_nest(&all, &found);
    }
    if (proof == WEB_NEST_PROOF) {
        take_web_nest(&all, &found);
    }
    judge(ended == status && memcmp(&found, &all, sizeof all) == 0, name, status);
}

/* Calls with ever more memory, up to enough: until then each one ends with 6 and writes nothing. */
static void wants_memory(const char *name, call *called, const struct given *given, const struct places *silent) {
    int right = 1;
    size_t enough = 0;
    for (;; enough++) {
        struct places found = *blank();
        granted = enough;
        uint8_t ended = called(given, &found);
        granted = SIZE_MAX;
        if (ended != ISING2D_NO_MEMORY) {
            right = right && ended == ISING2D_DONE;
            break;
        }
        right = right && memcmp(&found, silent, sizeof found) == 0;
    }
    judge(right && enough > 0, name, ISING2D_NO_MEMORY);
}

/* An export: what it writes where it answers, and the line where it refuses. */
struct row {
    const char *name;
    call *called;
    struct given answered, refused;
    struct places wanted;
    const char *line;
    enum proof proof;
};

static void try_row(const struct row *row) {
    struct places told = *blank();
    text(&told, row->line);
    ends_with(row->name, row->called, &row->answered, ISING2D_DONE, &row->wanted, row->proof);
    ends_with(row->name, row->called, &row->refused, ISING2D_REFUSED, &told, NONE);
    wants_memory(row->name, row->called, &row->answered, blank());
}

static const struct given right = {ISING2D_SQUARE, 2, 4, 4, -10, "", 0}, ring = {ISING2D_CYLINDER, 3, 3, 3, 0, "", 0},
                          few = {ISING2D_SQUARE, 2, 0, 3, -10, "", 0}, raised = {ISING2D_SQUARE, 2, 4, 4, -9, "", 0};

static struct places with(void (*written)(struct places *)) {
    struct places found = *blank();
    written(&found);
    return found;
}

static void unsaid(struct places *p) { (void)p; }
static void yes(struct places *p) { text(p, "yes\n"); }
static void no(struct places *p) { text(p, "no,2,-10\n"); }
static void no_spin(struct places *p) { text(p, "refused,19,10,1\n"); }
static void unasked(struct places *p) { text(p, "refused,19,14,1\n"); }
static void few_low(struct places *p) { text(p, "refused,19,15,0\n"); }
static void low_high(struct places *p) { text(p, "refused,19,16,3\n"); }
static void many(struct places *p) { text(p, "refused,8,12582913\n"); }
static void odd_terminals(struct places *p) { text(p, "refused,21,3\n"); }
static void wrong_start(struct places *p) { text(p, "refused,19,19,2\n"); }

static void try_numbers(void) {
    const char *few_couplings = "refused,6,3,4\n", *no_spins = "refused,19,5,0\n", *no_nodes = "refused,19,17,0\n";
    const struct row rows[] = {
        {"ising2d_c_lattice", lattice, right, few, with(square), few_couplings, NONE},
        {"ising2d_c_lattice", lattice, ring, few, with(tube), few_couplings, NONE},
        {"ising2d_c_ground", ground, right, few, with(least), no_spins, LOOP_PROOF},
        {"ising2d_c_nest", nest, right, few, with(least_of_nest), no_spins, NEST_PROOF},
        {"ising2d_c_wall", wall, right, few, with(walls), no_spins, NONE},
        {"ising2d_c_bonds", bonds, right, few, with(turned), no_spins, NONE},
        {"ising2d_c_bond_costs", bond_costs, right, few, with(known), no_spins, NONE},
        {"ising2d_c_cost_bounds", cost_bounds, right, few, with(near), no_spins, NONE},
        {"ising2d_c_draws", draws, right, few, with(signs), "refused,17\n", NONE},
        {"ising2d_c_clusters", clusters, right, few, with(joined), no_spins, NONE},
        {"ising2d_c_check", check, right, few, with(yes), no_spins, NONE},
        {"ising2d_c_nest_check", nest_check, right, few, with(unsaid), no_spins, NONE},
        {"ising2d_c_join", join, right, few, with(least_join), no_nodes, WEB_NEST_PROOF},
        {"ising2d_c_join_check", join_check, right, few, with(unsaid), no_nodes, NONE},
        {"ising2d_c_joins", joins, right, few, with(least_joins), no_nodes, NONE},
    };
    const struct places failing = with(no), silent = with(unsaid), bad_value = with(no_spin), odd = with(odd_terminals),
                        bad_start = with(wrong_start), beyond = with(many), bad_bond = with(unasked), few_bounds = with(few_low),
                        bad_bound = with(low_high);
    for (size_t k = 0; k < sizeof rows / sizeof *rows; k++) {
        try_row(&rows[k]);
    }
    ends_with("ising2d_c_check", check, &raised, ISING2D_NO, &failing, NONE);
    ends_with("ising2d_c_nest_check", nest_check, &raised, ISING2D_NO, &silent, NONE);
    ends_with("ising2d_c_check", check_none_between, &right, ISING2D_REFUSED, &bad_value, NONE);
    ends_with("ising2d_c_nest_check", nest_check_none_between, &right, ISING2D_REFUSED, &bad_value, NONE);
    ends_with("ising2d_c_nest_check", nest_check_untaken, &right, ISING2D_DONE, &silent, NONE);
    ends_with("ising2d_c_draws", too_many_draws, &right, ISING2D_REFUSED, &beyond, NONE);
    ends_with("ising2d_c_bond_costs", costs_of_no_bond, &right, ISING2D_REFUSED, &bad_bond, NONE);
    ends_with("ising2d_c_bond_costs", too_few_bounds, &right, ISING2D_REFUSED, &few_bounds, NONE);
    ends_with("ising2d_c_cost_bounds", too_few_enclosed, &right, ISING2D_REFUSED, &few_bounds, NONE);
    ends_with("ising2d_c_bond_costs", crossed_bounds, &right, ISING2D_REFUSED, &bad_bound, NONE);
    ends_with("ising2d_c_join", odd_join, &right, ISING2D_REFUSED, &odd, NONE);
    ends_with("ising2d_c_join_check", join_check_others, &right, ISING2D_NO, &silent, NONE);
    ends_with("ising2d_c_joins", joins_wrong_start, &right, ISING2D_REFUSED, &bad_start, NONE);
}

/* Words, each ended by a byte 0; the last of them by the end of the string. */
#define WORDS(string) {0, 0, 0, 0, 0, string, sizeof string}

static void nothing(struct places *p) { p->written = p->whole = 0; }
static void drawn(struct places *p) { whole_text(p, "square,2,2\n-1,-1,1,-1\nend\n"); }
static void unknown(struct places *p) { whole_text(p, "refused,17\n"); }
static void trailing(struct places *p) { whole_text(p, "refused,12,4\n"); }
static void usage(struct places *p) { whole_text(p, "usage\n"); }
static void judged(struct places *p) { whole_text(p, "no,2,-10\n"); }

static void try_run(void) {
    const char *name = "ising2d_c_run";
    const struct given gen = WORDS("gen\0pm\00042\0square\0002\0002"), other = WORDS("gen\0none\00042\0square\0002\0002"),
                       energy = WORDS("energy"), none = {0, 0, 0, 0, 0, "", 0}, verdict = WORDS("check"),
                       unended = {0, 0, 0, 0, 0, "energy", 6};
    const struct places line = with(drawn), no_law = with(unknown), more = with(trailing), shape = with(usage),
                        fails = with(judged), silent = with(nothing);
    ends_with(name, run, &gen, ISING2D_DONE, &line, NONE);
    ends_with(name, run, &other, ISING2D_REFUSED, &no_law, NONE);
    ends_with(name, run, &energy, ISING2D_REFUSED, &more, NONE);
    ends_with(name, run, &none, ISING2D_USAGE, &shape, NONE);
    ends_with(name, run, &verdict, ISING2D_NO, &fails, NONE);
    ends_with(name, run, &unended, ISING2D_NO_WORDS, &silent, NONE);
    wants_memory(name, run, &gen, &silent);
}

int main(void) {
    try_run();
    try_numbers();
    printf("%d passed, %d failed\n", passed, failed);
    return failed != 0;
}
