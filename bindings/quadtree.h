/* A quadtree over points in the plane, in memory that the caller lends. Link libquadtree.a. trees.h says how slices
 * are lent, what holds for every call, and what the reply numbers mean.
 *
 *     head     40 bytes   the boundary and the capacity
 *     nodes  5504 bytes   the nodes and the free ones, 341 at most
 *     links  2052 bytes   the order of the points and the free places
 *     points 12312 bytes  coordinates and payloads
 */
#ifndef QUADTREE_H
#define QUADTREE_H

#include "trees.h"

#ifdef __cplusplus
extern "C" {
#endif

/* Lengths of the pieces, and the most points that a tree holds. */
#define QUADTREE_HEAD_BYTES 40
#define QUADTREE_NODES_BYTES 5504
#define QUADTREE_LINKS_BYTES RALIKUDO_LINKS_BYTES
#define QUADTREE_POINTS_BYTES 12312
#define QUADTREE_MOST_POINTS RALIKUDO_MOST_POINTS

/* Bytes that a point takes in a slice of coordinates (x, then y) and in one of payloads. */
#define QUADTREE_COORDS_BYTES 16
#define QUADTREE_PAYLOAD_BYTES RALIKUDO_PAYLOAD_BYTES

/* The reply numbers by the quadtree's own names. */
#define QUADTREE_DONE RALIKUDO_DONE
#define QUADTREE_OUTSIDE RALIKUDO_OUTSIDE
#define QUADTREE_NOT_HELD RALIKUDO_NOT_HELD
#define QUADTREE_NO_CAPACITY RALIKUDO_NO_CAPACITY
#define QUADTREE_BAD_BOUNDARY RALIKUDO_BAD_BOUNDARY
#define QUADTREE_POINTS_FULL RALIKUDO_POINTS_FULL
#define QUADTREE_NODES_FULL RALIKUDO_NODES_FULL
#define QUADTREE_NO_ROOM RALIKUDO_NO_ROOM
#define QUADTREE_UNSOUND RALIKUDO_UNSOUND

/* Makes an empty tree in the pieces, whatever they hold. Points inside have x to x + width and y to y + height,
 * both ends counted. A node with more than `capacity` points is divided in four, down to depth 32.
 * Replies 0, 8 (only for a wrong length), 3, 4. */
uint32_t quadtree_create(uint8_t *head, size_t head_len, uint8_t *nodes, size_t nodes_len,
                         uint8_t *links, size_t links_len, const uint8_t *points, size_t points_len,
                         double x, double y, double width, double height, uint32_t capacity);

/* Stores a point. Equal points may be stored many times. Replies 0, 8, 1, 5, 6. */
uint32_t quadtree_insert(const uint8_t *head, size_t head_len, uint8_t *nodes, size_t nodes_len,
                         uint8_t *links, size_t links_len, uint8_t *points, size_t points_len,
                         double x, double y, uint32_t payload);

/* Stores points in order, as many as the shorter of the two slices has. Points outside the boundary are skipped.
 * It stops at the first point that gets 5 or 6, keeps those before, and gives that number. `stored` is how many
 * were stored. Replies 0, 8, 5, 6. */
uint32_t quadtree_insert_bulk(const uint8_t *head, size_t head_len, uint8_t *nodes, size_t nodes_len,
                              uint8_t *links, size_t links_len, uint8_t *points, size_t points_len,
                              const uint8_t *coords, size_t coords_len,
                              const uint8_t *payloads, size_t payloads_len, size_t *stored);

/* Takes out the first equal point of its node's list: equal coordinates, -0 being equal to 0, and an equal
 * payload. Replies 0, 8, 1, 2. */
uint32_t quadtree_delete(const uint8_t *head, size_t head_len, uint8_t *nodes, size_t nodes_len,
                         uint8_t *links, size_t links_len, const uint8_t *points, size_t points_len,
                         double x, double y, uint32_t payload);

/* Sets `yes` to 1 where an equal point is held, else to 0. Replies 0, 8. */
uint32_t quadtree_contains(const uint8_t *head, size_t head_len, const uint8_t *nodes, size_t nodes_len,
                           const uint8_t *links, size_t links_len, const uint8_t *points, size_t points_len,
                           double x, double y, uint32_t payload, uint32_t *yes);

/* Sets `count` to how many points are held. Replies 0, 8. */
uint32_t quadtree_len(const uint8_t *head, size_t head_len, const uint8_t *nodes, size_t nodes_len,
                      const uint8_t *links, size_t links_len, const uint8_t *points, size_t points_len,
                      uint32_t *count);

/* Sets `yes` to 1 where no point is held, else to 0. Replies 0, 8. */
uint32_t quadtree_is_empty(const uint8_t *head, size_t head_len, const uint8_t *nodes, size_t nodes_len,
                           const uint8_t *links, size_t links_len, const uint8_t *points, size_t points_len,
                           uint32_t *yes);

/* Takes out every point; boundary and capacity stay. Replies 0, 8. */
uint32_t quadtree_clear(const uint8_t *head, size_t head_len, uint8_t *nodes, size_t nodes_len,
                        uint8_t *links, size_t links_len, const uint8_t *points, size_t points_len);

/* The three searches write their answer to the front of `coords` and `payloads` and its length to `count`; bytes
 * after the last point stay as they were. The shorter of the two slices says how many points have room; slices
 * for 512 points have room for every answer. Replies 0, 8, 7. */

/* The points whose squared distance, as computed, is at most radius * radius, in the order of the tree. A radius
 * that is negative or NaN gives none. */
uint32_t quadtree_range_search(const uint8_t *head, size_t head_len, const uint8_t *nodes, size_t nodes_len,
                               const uint8_t *links, size_t links_len, const uint8_t *points, size_t points_len,
                               double x, double y, double radius, uint8_t *coords, size_t coords_len,
                               uint8_t *payloads, size_t payloads_len, uint32_t *count);

/* The points in a rectangle, its edges counted, in the order of the tree. */
uint32_t quadtree_range_search_bbox(const uint8_t *head, size_t head_len, const uint8_t *nodes, size_t nodes_len,
                                    const uint8_t *links, size_t links_len, const uint8_t *points, size_t points_len,
                                    double x, double y, double width, double height, uint8_t *coords, size_t coords_len,
                                    uint8_t *payloads, size_t payloads_len, uint32_t *count);

/* The k nearest points, the nearest first; of equally far ones the one that the search meets first. Above 512,
 * k acts as 512. With a NaN in the centre, k not 0 and more than k points held, the answer is the first k - 1 points
 * visited and the last. */
uint32_t quadtree_knn_search(const uint8_t *head, size_t head_len, const uint8_t *nodes, size_t nodes_len,
                             const uint8_t *links, size_t links_len, const uint8_t *points, size_t points_len,
                             double x, double y, uint32_t k, uint8_t *coords, size_t coords_len,
                             uint8_t *payloads, size_t payloads_len, uint32_t *count);

#ifdef __cplusplus
}
#endif

#endif
