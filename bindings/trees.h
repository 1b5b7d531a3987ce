/* What quadtree.h and octree.h share: how a tree is lent to a call, and the reply numbers.
 *
 * A tree lies in four pieces of bytes that the caller owns and moves as it likes:
 *
 *     head     the boundary and the capacity
 *     nodes    the nodes and the free ones
 *     links    the order of the points and the free places
 *     points   coordinates and payloads
 *
 * Their lengths are in the header of each tree. Every slice is a pointer and its length in bytes. A slice may stand at
 * any address, also an odd one; no pointer is null, not even with length 0. Slices of one call must not overlap. A
 * pointer to a number is aligned as its type asks and points into none of the slices. Numbers in slices stand low
 * byte first.
 *
 * Every function takes any bytes and any numbers, and always ends. It tests first whether the pieces hold a
 * sound tree and answers RALIKUDO_UNSOUND where they do not (creation asks only for their lengths). A refused call
 * changes no byte of any slice, but for a bulk insert, which keeps what it stored. Where a count or a yes or no is
 * handed over by a pointer, a refused call sets it to 0; a bulk that stops at 5 or 6 sets it to how many it stored.
 * Replies are listed with 0 first, then refusals in the order in which they are tested.
 */
#ifndef RALIKUDO_TREES_H
#define RALIKUDO_TREES_H

#include <stddef.h>
#include <stdint.h>

/* The most points that a tree holds, the length of the links, and the bytes of a payload in a slice of payloads. */
#define RALIKUDO_MOST_POINTS 512
#define RALIKUDO_LINKS_BYTES 2052
#define RALIKUDO_PAYLOAD_BYTES 4

/* Reply numbers. */
#define RALIKUDO_DONE 0
#define RALIKUDO_OUTSIDE 1      /* the point is outside the boundary; any NaN is outside */
#define RALIKUDO_NOT_HELD 2     /* no equal point is held */
#define RALIKUDO_NO_CAPACITY 3  /* the capacity is 0 */
#define RALIKUDO_BAD_BOUNDARY 4 /* a number is not finite or above 2^500 in magnitude, or an extent is negative */
#define RALIKUDO_POINTS_FULL 5  /* 512 points are held already */
#define RALIKUDO_NODES_FULL 6   /* storing the point would take more nodes than the tree may have */
#define RALIKUDO_NO_ROOM 7      /* there are more answers than the lent slices hold */
#define RALIKUDO_UNSOUND 8      /* the pieces hold no sound tree, or one of them has a wrong length */

#endif
