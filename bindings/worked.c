/* Document 01's worked example from C, and what a C caller may lean on: lengths, and bytes that stay. It is compiled
 * once for each tree; in the octree, with AXES as 3, every z is what y is. */
#include <stdio.h>
#include <string.h>

#if AXES == 3
#include "octree.h"
#define CALL(name) octree_##name
#define OWN(name) OCTREE_##name
#define AT(x, y) x, y, y
#else
#include "quadtree.h"
#define CALL(name) quadtree_##name
#define OWN(name) QUADTREE_##name
#define AT(x, y) x, y
#endif

static uint8_t head[OWN(HEAD_BYTES)], nodes[OWN(NODES_BYTES)], links[OWN(LINKS_BYTES)], points[OWN(POINTS_BYTES)];
static uint8_t coords[3 * OWN(COORDS_BYTES)], payloads[3 * OWN(PAYLOAD_BYTES)];
static int wrong;

#define PIECES head, sizeof head, nodes, sizeof nodes, links, sizeof links, points, sizeof points
#define ANSWER coords, sizeof coords, payloads, sizeof payloads

static void want(const char *what, uint32_t given, uint32_t wanted) {
    if (given != wanted) {
        printf("%s gives %u and not %u\n", what, (unsigned)given, (unsigned)wanted);
        wrong = 1;
    }
}

int main(void) {
    const double wanted_coords[] = {AT(1, 1), AT(4, 1)};
    const uint32_t wanted_payloads[2] = {9, 7};
    uint32_t figure = 99;
    size_t stored = 99;
    want("len of no tree", CALL(len)(PIECES, &figure), OWN(UNSOUND));
    want("its count", figure, 0);
    want("create", CALL(create)(PIECES, AT(0, 0), AT(8, 8), 1), OWN(DONE));
    want("insert", CALL(insert)(PIECES, AT(4, 1), 7), OWN(DONE));
    want("insert", CALL(insert)(PIECES, AT(1, 1), 9), OWN(DONE));
    memset(coords, 0xa5, sizeof coords);
    want("range", CALL(range_search)(PIECES, AT(4, 1), 3, ANSWER, &figure), OWN(DONE));
    want("its count", figure, 2);
    want("the coordinates", (uint32_t)memcmp(coords, wanted_coords, sizeof wanted_coords), 0);
    want("the payloads", (uint32_t)memcmp(payloads, wanted_payloads, sizeof wanted_payloads), 0);
    want("the next byte", coords[2 * OWN(COORDS_BYTES)], 0xa5);
    want("bbox", CALL(range_search_bbox)(PIECES, AT(4, 0), AT(0, 8), ANSWER, &figure), OWN(DONE));
    want("its count", figure, 1);
    want("knn", CALL(knn_search)(PIECES, AT(0, 0), 512, ANSWER, &figure), OWN(DONE));
    want("its count", figure, 2);
    want("contains", CALL(contains)(PIECES, AT(4, 1), 7, &figure), OWN(DONE));
    want("its answer", figure, 1);
    want("delete", CALL(delete)(PIECES, AT(4, 1), 8), OWN(NOT_HELD));
    want("clear", CALL(clear)(PIECES), OWN(DONE));
    want("is_empty", CALL(is_empty)(PIECES, &figure), OWN(DONE));
    want("its answer", figure, 1);
    want("bulk", CALL(insert_bulk)(PIECES, ANSWER, &stored), OWN(DONE));
    want("how many were stored", (uint32_t)stored, 2);
    want("len", CALL(len)(PIECES, &figure), OWN(DONE));
    want("its count", figure, 2);
    return wrong;
}
