/*
 * Ising2d: exact ground states of planar two-dimensional Ising spin glasses, for C and C++.
 *
 * The contracts of these functions are proved in the library (crate ising2d_c). This header says the same
 * in plain words; that it fits the library is tested.
 *
 * Memory. The caller owns every array, before and after a call; the library keeps no pointer and no
 * state. An array is a pointer to its first entry and the number of its entries. No pointer may be
 * NULL, even if the number is 0, and no array that is written may overlap another array. What does
 * not fit into an array is left out: the array gets the front of the list, and entries past the list
 * are unchanged.
 *
 * Threads. Calls may run at the same time in several threads, each with its own arrays. No call
 * may be made from a signal handler, or in the forked child of a process with threads.
 *
 * Status. 0: answered. 1: refused; `line` has the reason, as the program prints it: "refused,", the
 * number of the refusal and the numbers that show it, and a line feed. Its length is *line_written, and
 * 128 bytes are enough for every line. 3: a judged proof fails. 5: no proof was found within the
 * allowed memory; it comes from ising2d_c_ground, ising2d_c_nest, ising2d_c_wall, ising2d_c_bond_costs,
 * ising2d_c_cost_bounds, ising2d_c_clusters, ising2d_c_join and ising2d_c_joins alone, only on graphs of
 * more than 2048 spins (or nodes) or 6144 bonds, and was never seen. There the solver matches frustrated
 * faces (or terminals), and its tables take 12 k f + 8 k^2 bytes for k of them among the f faces of a
 * component (or among f nodes): more than 4 GiB. 6: out of memory. After 1, 5 and 6 no result is
 * written, and after 0, 5 and 6 no line, except that a check of loops writes one after 0 and 3.
 * docs/FORMATS.md explains each refusal; an array of numbers is refused as the JSON member of
 * its name. The checks on a lattice, in their order:
 *
 *   19,1,0  there is no such kind
 *   19,3,0  there are no rows
 *   19,4,0  too few columns
 *   7,n     more than 4194304 spins, or more than `most_spins`
 *   6,found,wanted  the number of couplings differs
 *   19,6,k  coupling k is -2^63
 *
 * on a graph; one made of the tables of a lattice passes all but the limits of ising2d_c_bonds:
 *
 *   19,5,0  there are no spins
 *   7,n     more than 4194304 spins; for ising2d_c_bonds more than 2048
 *   19,7,0  there are not two ends for each coupling
 *   19,7,k  an end of bond k is no spin, or its coupling is -2^63
 *   19,8,k  start k of the darts is wrong: the first is not 0, one is less than the one before it, or the
 *           last is not the number of darts; 19,8,0 if there are not n + 1
 *   8,12582913  more than 12582912 bonds; for ising2d_c_bonds 8,6145, more than 6144
 *   9,k     both ends of bond k are the same spin
 *   10,spin,dart  the darts of a spin are not those that leave it, each once
 *   11,bond  an entry of the seam does not exist, or is listed twice
 *
 * after these, but not for a check of loops:
 *
 *   13,sum  the couplings' sizes sum to more than 2^44
 *   15,euler  the graph is not drawn on a sphere
 *   16      a wall needs a seam, and the seam is empty
 *
 * of bounds of costs, after all of these:
 *
 *   19,14,k  entry k of the asked bonds is no bond
 *   19,15,0  there is not one lower bound for each bond
 *   19,15,k  lower bound k is below -1
 *   19,16,0  there is not one upper bound for each bond
 *   19,16,k  upper bound k is not -1, and below the lower one
 *
 * of draws:
 *
 *   17      no law has the number
 *   8,12582913  more than 12582912 draws
 *
 * and for a check, of the proof:
 *
 *   1,536870912  more spins than that
 *   19,10,k  the value of spin k is neither 1 nor -1
 *   1,536870912  more loops than that
 *   19,11,k  start k of the loops is wrong, as above
 *   19,12,0  of a nest, there are not as many radii as parents
 *   19,13,0  of a nest, there are not as many radii as regions for the faces
 *
 * The checks on a weighted graph with terminals, in their order:
 *
 *   19,17,0  there are no nodes
 *   7,n     more than 4194304 nodes
 *   19,18,0  there are not two ends for each weight
 *   19,18,k  an end of edge k is no node, or its weight is negative
 *   8,12582913  more than 12582912 edges
 *   19,19,k  start k of many lists is wrong, as above; 19,19,0 also if there is no start
 *   22,node  an entry of the terminals is no node, or is in the list twice
 *   21,count  a list has an odd number of terminals; of many lists, one after another is checked
 *   13,sum  the weights sum to more than 2^44
 *   23,node  no edges lead from node 0 to this node, the least such
 *   19,12,0 and 19,13,0  for a check, as above, with nodes instead of faces
 */
#ifndef ISING2D_H
#define ISING2D_H

#include <stddef.h>
#include <stdint.h>

#ifdef __cplusplus
extern "C" {
#endif

/* The version of this header. */
#define ISING2D_VERSION "0.5.3"

/* The kinds of lattice. The cylinder's last column is joined to its first. */
#define ISING2D_SQUARE 0
#define ISING2D_TRIANGULAR 1
#define ISING2D_HEXAGONAL 2
#define ISING2D_CYLINDER 3

/* The status of a call. USAGE and NO_WORDS come from ising2d_c_run alone, NO from it and from a check,
 * NO_PROOF from ising2d_c_ground, ising2d_c_nest, ising2d_c_wall, ising2d_c_bond_costs,
 * ising2d_c_cost_bounds, ising2d_c_clusters, ising2d_c_join and ising2d_c_joins. */
#define ISING2D_DONE 0
#define ISING2D_REFUSED 1
#define ISING2D_USAGE 2
#define ISING2D_NO 3
#define ISING2D_NO_PROOF 5
#define ISING2D_NO_MEMORY 6
#define ISING2D_NO_WORDS 7

/* The laws that couplings are drawn from: all 1; 1 and -1 by turns; 1 and -1 at random; and whole numbers from
 * -2^20 to 2^20 - 1. */
#define ISING2D_ONE 0
#define ISING2D_ALTERNATE 1
#define ISING2D_PM 2
#define ISING2D_UNIFORM 3

/* The most spins or nodes of a graph, and of one for ising2d_c_bonds. */
#define ISING2D_MOST_SPINS 4194304
#define ISING2D_MOST_SPINS_OF_COSTS 2048

/* No region, for example as the parent of an outermost region. */
#define ISING2D_NONE UINT32_MAX

/* The least energy; and how many loops prove it, with how many bonds together. */
struct ising2d_ground {
    int64_t energy;
    size_t loop_count, bond_count;
};

/* The least energy; and how many regions over how many faces prove it, both 0 if none were found. */
struct ising2d_nest {
    int64_t energy;
    size_t region_count, face_count;
};

/* The least energy, the least energy with the signs of the seam changed, and the second minus the first. */
struct ising2d_wall {
    int64_t periodic, antiperiodic, difference;
};

/* The weight of a minimum T-join and the number of its edges; the numbers of regions and nodes of the nest that proves
 * it, both 0 if no nest was found. */
struct ising2d_join {
    int64_t weight;
    size_t edge_count, region_count, node_count;
};

/* How many entries the tables of a lattice have. */
struct ising2d_tables {
    size_t ends, starts, darts, seam;
};

/*
 * Runs the program: words and an input in, a text out.
 *
 * words    the words after the program's name, each with a byte 0 at its end, such as "ground\0". Bytes
 *          that are not UTF-8 are replaced by U+FFFD.
 * input    what the program would read from its standard input.
 * written  the number of bytes written: the lesser of the room and the length of the text.
 * whole    the number of bytes of the whole text. If it exceeds `written`, call again with more room.
 *
 * Returns the exit status of the program, 6 if out of memory, and 7 if the last word has no byte 0 at its
 * end. After 6 and 7 nothing is written, and both numbers are 0.
 */
uint8_t ising2d_c_run(const uint8_t *words, size_t words_len, const uint8_t *input, size_t input_len,
                      uint8_t *out, size_t out_room, size_t *written, size_t *whole);

/* A line of a refusal or of a verdict: room for it, and its length. */
#define ISING2D_LINE uint8_t *line, size_t line_room, size_t *line_written

/*
 * Tests a lattice, and writes the tables by which it is a graph for the functions below: with these
 * tables, rows * cols spins and the same couplings they answer for the lattice.
 *
 * kind, rows, cols  the lattice. Spin (r, c) has the number r * cols + c; rows is 1 or more, cols 1 or
 *              more (hexagonal 2, cylinder 3).
 * couplings    the couplings in the order of the bonds: all to the east, row by row, then those to the
 *              south, then the diagonals. Whole numbers in any unit.
 * most_spins   the most spins of the function to be called next: ISING2D_MOST_SPINS (larger numbers mean
 *              the same) or ISING2D_MOST_SPINS_OF_COSTS.
 * ends, dart_starts, darts, seam  the tables. There are two ends and two darts for each coupling, and a
 *              start for each spin and one more. A cylinder's seam has a bond for each row, those from
 *              its last column to its first; the other kinds have none.
 */
uint8_t ising2d_c_lattice(uint8_t kind, uint32_t rows, uint32_t cols, const int64_t *couplings,
                          size_t couplings_len, uint32_t most_spins, struct ising2d_tables *counts,
                          uint32_t *ends, size_t ends_room, size_t *dart_starts,
                          size_t dart_starts_room, uint32_t *darts, size_t darts_room,
                          uint32_t *seam, size_t seam_room, ISING2D_LINE);

/*
 * Writes the first `count` draws of a law after a seed, at most 12582912: the couplings of a lattice of so many
 * bonds, in their order, as the program draws them with that seed. `law` is the number of the law.
 */
uint8_t ising2d_c_draws(uint8_t law, uint64_t seed, size_t count, int64_t *couplings,
                        size_t couplings_room, ISING2D_LINE);

/*
 * A graph, drawn on a sphere (for a check of loops, on any surface). The energy of an assignment is minus
 * the sum of coupling times both spins.
 *
 * n            the number of spins, 1 to 4194304 (for ising2d_c_bonds 2048), numbered from 0.
 * ends         two spins for each bond: bond k joins ends[2k] and ends[2k + 1]. At most
 *              12582912 bonds (for ising2d_c_bonds 6144).
 * couplings    one for each bond, in any unit.
 * dart_starts, darts  the drawing. Bond k has the dart 2k, which leaves its first end, and the dart
 *              2k + 1, which leaves its second. The darts that leave spin i, in cyclic order, are
 *              darts[dart_starts[i]] to darts[dart_starts[i + 1] - 1]; there are n + 1 starts.
 * seam         the bonds whose signs are changed for the wall, none of them twice; perhaps none.
 */
#define ISING2D_GRAPH                                                                                 \
    uint32_t n, const uint32_t *ends, size_t ends_len, const int64_t *couplings,                     \
        size_t couplings_len, const size_t *dart_starts, size_t dart_starts_len,                     \
        const uint32_t *darts, size_t darts_len, const uint32_t *seam, size_t seam_len

/*
 * Finds a ground state, and the loops that prove it.
 *
 * spins    n values, 1 or -1, that have the least energy. The least spin of each component is 1.
 * weights, starts, bonds  the frustrated loops that prove it. Loop i has the weight weights[i] and
 *          the bonds bonds[starts[i]] to bonds[starts[i + 1] - 1]. There is one start more than loops;
 *          there are at most 5 loops for each 2 bonds. Give no room (lengths 0) if you need none.
 */
uint8_t ising2d_c_ground(ISING2D_GRAPH, struct ising2d_ground *answer, int8_t *spins,
                         size_t spins_room, int64_t *weights, size_t weights_room, size_t *starts,
                         size_t starts_room, uint32_t *bonds, size_t bonds_room, ISING2D_LINE);

/*
 * Finds a ground state, and a nest of regions that proves it. The size of the proof is linear in the
 * graph, but loops may take ten times that and more: use this function for large graphs.
 *
 * The faces are numbered in the order of their least darts: the walk round a face leaves each dart by
 * the next one in the cyclic order at its end. After these, each spin without a bond has one face. A face
 * is frustrated if an odd number of its darts belong to negative couplings.
 *
 * parents, radii  for each region the (later) region that contains it, or ISING2D_NONE; and its
 *          radius, in quarters of the unit of the couplings.
 * regions, at_radii  for each face the region that took it, or ISING2D_NONE; and the radius at which
 *          that took it.
 *
 * The state is a ground state even if no nest was found. A connected graph has 2 + bonds - spins faces;
 * room for one and a half times as many regions has always been enough. docs/ALGORITHM.md says why a
 * nest proves the state.
 */
uint8_t ising2d_c_nest(ISING2D_GRAPH, struct ising2d_nest *answer, int8_t *spins, size_t spins_room,
                       uint32_t *parents, size_t parents_room, uint64_t *radii, size_t radii_room,
                       uint32_t *regions, size_t regions_room, uint64_t *at_radii,
                       size_t at_radii_room, ISING2D_LINE);

/* Finds the energies of the wall at the seam. Without a seam it is refused with 16. */
uint8_t ising2d_c_wall(ISING2D_GRAPH, struct ising2d_wall *answer, ISING2D_LINE);

/*
 * Finds the cost of flipping each bond: the absolute difference between the least energies with equal
 * and with opposite spins at its ends. There are as many costs as couplings. A bond is rigid if its cost
 * is positive.
 */
uint8_t ising2d_c_bonds(ISING2D_GRAPH, int64_t *costs, size_t costs_room, ISING2D_LINE);

/*
 * Finds the costs of chosen bonds, by bounds that the caller keeps from call to call, so that a search can be
 * stopped, continued, and divided among threads.
 *
 * asked        numbers of bonds. Afterwards both bounds of each of them are its cost.
 * low, high    a lower and an upper bound of each bond's cost, -1 if none is known. Read and written: if those
 *              that are passed hold, so do those that are written, and none is looser. Of two searches, keep
 *              the larger lower and the smaller upper bounds.
 *
 * A call finds a ground state first, so it should ask for several bonds.
 */
uint8_t ising2d_c_bond_costs(ISING2D_GRAPH, const uint32_t *asked, size_t asked_len, int64_t *low,
                             size_t low_len, int64_t *high, size_t high_len, ISING2D_LINE);

/*
 * Narrows bounds of the costs of all bonds at once, by ground states of graphs with weakened couplings.
 *
 * rounds       the number of these ground states. It is not promised that more of them give tighter bounds.
 * low, high    as for ising2d_c_bond_costs. If those that are passed hold, each bond has an upper bound
 *              afterwards, and the lower bound is at least 2 if the bond is rigid; else both are 0. How tight
 *              they are otherwise is not promised.
 *
 * A call takes as long as ising2d_c_clusters, unless the bounds that are passed tell which bonds are rigid, and
 * one ground state for each round.
 */
uint8_t ising2d_c_cost_bounds(ISING2D_GRAPH, uint32_t rounds, int64_t *low, size_t low_len, int64_t *high,
                              size_t high_len, ISING2D_LINE);

/* Finds for each spin the least spin of its rigid cluster: n names. */
uint8_t ising2d_c_clusters(ISING2D_GRAPH, uint32_t *names, size_t names_room, ISING2D_LINE);

/*
 * Judges a proof: whether the spins have the energy, and the loops, in the form of ising2d_c_ground, show
 * that no assignment has less. It trusts no solver, and requires nothing of the sum or the drawing. Its
 * line is that of the verdict, as the program's check prints it: "yes", or "no,", the number of the
 * first failed check, and the numbers that show it (docs/FORMATS.md, "Verdicts").
 *
 * Returns 0 if the proof holds, 3 if it fails, 1 or 6.
 */
uint8_t ising2d_c_check(ISING2D_GRAPH, int64_t energy, const int8_t *spins, size_t spins_len,
                        const int64_t *weights, size_t weights_len, const size_t *starts,
                        size_t starts_len, const uint32_t *bonds, size_t bonds_len, ISING2D_LINE);

/*
 * The same for a nest, in time linear in the graph, which must be fit as for ising2d_c_nest. After 0
 * and 3 it writes no line.
 */
uint8_t ising2d_c_nest_check(ISING2D_GRAPH, int64_t energy, const int8_t *spins, size_t spins_len,
                             const uint32_t *parents, size_t parents_len, const uint64_t *radii,
                             size_t radii_len, const uint32_t *regions, size_t regions_len,
                             const uint64_t *at_radii, size_t at_radii_len, ISING2D_LINE);

/*
 * A connected weighted graph, planar or not. A T-join of some nodes, the terminals, is a set of edges that meets a
 * node an odd number of times exactly if it is a terminal. A minimum T-join has the least weight.
 *
 * nodes        the number of nodes, 1 to 4194304, numbered from 0.
 * ends         two nodes for each edge: edge k connects ends[2k] and ends[2k + 1]. At most 12582912 edges, which may
 *              be parallel or connect a node to itself.
 * weights      one for each edge, 0 or more, in any unit.
 *
 * terminals    nodes, each once, in any order, an even number of them; there may be none.
 */
#define ISING2D_NETWORK                                                                                \
    uint32_t nodes, const uint32_t *ends, size_t ends_len, const int64_t *weights, size_t weights_len

/*
 * Finds a minimum T-join, and a nest of regions that proves it.
 *
 * edges        its edges by their numbers, rising.
 * parents, radii, regions, at_radii  the nest as for ising2d_c_nest, with nodes instead of faces. A region that
 *              is not around one terminal has three parts or more, so room for twice as many regions as terminals
 *              should be enough; the counts in `answer` say what is there.
 *
 * If no nest was found, which was never seen, the T-join is minimum nevertheless.
 */
uint8_t ising2d_c_join(ISING2D_NETWORK, const uint32_t *terminals, size_t terminals_len,
                       struct ising2d_join *answer, uint32_t *edges, size_t edges_room, uint32_t *parents,
                       size_t parents_room, uint64_t *radii, size_t radii_room, uint32_t *regions,
                       size_t regions_room, uint64_t *at_radii, size_t at_radii_room, ISING2D_LINE);

/*
 * Judges whether the edges are a minimum T-join of the terminals, proved by the nest, whoever found them. After 0
 * and 3 it writes no line.
 *
 * Returns 0 if the proof holds, 3 if it fails, 1 or 6.
 */
uint8_t ising2d_c_join_check(ISING2D_NETWORK, const uint32_t *terminals, size_t terminals_len,
                             const uint32_t *edges, size_t edges_len, const uint32_t *parents,
                             size_t parents_len, const uint64_t *radii, size_t radii_len,
                             const uint32_t *regions, size_t regions_len, const uint64_t *at_radii,
                             size_t at_radii_len, ISING2D_LINE);

/*
 * Finds a minimum T-join for each of many lists of terminals on one graph.
 *
 * starts, terminals  list i is terminals[starts[i]] to terminals[starts[i + 1] - 1]. There is one start more than
 *              lists; the first is 0 and the last the number of all terminals.
 * join_weights  the weight of the minimum T-join of each list.
 * edge_starts, edges  its edges, rising: edges[edge_starts[i]] to edges[edge_starts[i + 1] - 1]. There are as many
 *              edge_starts as starts.
 * edge_count   the number of all these edges. If it is above `edges_room`, call again with that room.
 */
uint8_t ising2d_c_joins(ISING2D_NETWORK, const size_t *starts, size_t starts_len, const uint32_t *terminals,
                        size_t terminals_len, int64_t *join_weights, size_t join_weights_room,
                        size_t *edge_starts, size_t edge_starts_room, uint32_t *edges, size_t edges_room,
                        size_t *edge_count, ISING2D_LINE);

#undef ISING2D_GRAPH
#undef ISING2D_NETWORK
#undef ISING2D_LINE

#ifdef __cplusplus
}
#endif

#endif
