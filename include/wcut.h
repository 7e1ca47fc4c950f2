/*
 * The weakest-cut monitor: from a serialised network, the link sheet, to the lightest cut that crosses at most two links of some
 * listed spanning tree, and whether it is provably the lightest cut of the whole network (wcut_report); to every such cut of that weight
 * (wcut_list); to what runs between the corners of two cuts (wcut_corners); to the least weight of a link for a wanted weight of the
 * lightest cut (wcut_thickness); and to the weights of all pairs of a tree's links (wcut_pairs). docs/ENTRY.md has the layouts and the cost.
 *
 * Link with libmonitor.a, which is for x86-64 and its System V calling convention; it needs memset and memcpy. The entries keep no state,
 * allocate nothing, and take WCUT_STACK_BYTES, WCUT_LIST_STACK_BYTES, WCUT_CORNERS_STACK_BYTES, WCUT_THICKNESS_STACK_BYTES and
 * WCUT_PAIRS_STACK_BYTES of stack.
 */
#ifndef WCUT_H
#define WCUT_H

#include <stddef.h>
#include <stdint.h>

#ifdef __cplusplus
extern "C" {
#endif

/* Sizes. */
#define WCUT_SIDE_BYTES 32       /* a side, in the side area, in a list and in a side map: node k is bit k % 8 of byte k / 8 */
#define WCUT_REPORT_BYTES 24     /* the report area, laid out as below */
#define WCUT_LONGEST_SHEET 30853 /* a sheet of more bytes is refused */
#define WCUT_STACK_BYTES 47200   /* what a call takes of the stack: measured on longest sheets (tools/bench --stack), not proved */
#define WCUT_LIST_STACK_BYTES 59424 /* the same of wcut_list */
#define WCUT_CORNERS_STACK_BYTES 18464 /* the same of wcut_corners */
#define WCUT_THICKNESS_STACK_BYTES 47104 /* the same of wcut_thickness */
#define WCUT_PAIRS_STACK_BYTES 47744 /* the same of wcut_pairs */
#define WCUT_MOST_NODES 256
#define WCUT_MOST_LINKS 2048
#define WCUT_MOST_TREES 32
#define WCUT_MOST_SIDES 1044480 /* no list is longer: 32 trees of 256 nodes have so many single links and pairs */

/* Where the fields of the report area start. All numbers have their lowest byte first. */
#define WCUT_AT_VERDICT 0 /* 1 byte */
#define WCUT_AT_TREE 1    /* 1 byte */
#define WCUT_AT_COUNT 2   /* 2 bytes: nodes in the side */
#define WCUT_AT_FIRST 4   /* 2 bytes: first tree link */
#define WCUT_AT_SECOND 6  /* 2 bytes: second tree link, or WCUT_NO_SECOND */
#define WCUT_AT_WEIGHT 8  /* 8 bytes, at most 2,048 times 4,294,967,295 */
#define WCUT_AT_FLOOR 16  /* 8 bytes: no cut of the network weighs less */

#define WCUT_VERDICT_TREES_ONLY 1 /* lightest of the cuts that the trees show */
#define WCUT_VERDICT_WHOLE 2      /* provably lightest of the whole network */
#define WCUT_NO_SECOND 65535      /* the cut crosses one tree link only */

/* The corners of two sides, by their rows and columns in the table: the weight between corners i and j is table[WCUT_CORNERS * i + j]. */
#define WCUT_CORNERS 4
#define WCUT_IN_BOTH 0
#define WCUT_IN_FIRST_ONLY 1
#define WCUT_IN_SECOND_ONLY 2
#define WCUT_IN_NEITHER 3
#define WCUT_TABLE_NUMBERS 16

/*
 * What the entries return: 0, or the first refusal that applies, in this order; within links and trees, record by record. A trunk number
 * is a field of its link. wcut_report returns 1 to 16, wcut_list 3 to 16 and 19, wcut_corners 1, 3 to 16 and 21, wcut_thickness 3 to 16,
 * 18 and 20, wcut_pairs 3 to 16, 23 and 24. docs/REFUSALS.md has the same numbers, names and words; `make test` compares them. Units already sold give 2 only below 16
 * bytes, and 8 to every map byte above 7.
 */
#define WCUT_ACCEPTED 0
#define WCUT_SHORT_SIDE 1    /* the side area, or a side map, has fewer than 32 bytes */
#define WCUT_SHORT_REPORT 2  /* the report area has fewer than 24 bytes */
#define WCUT_SHORT_HEADER 3  /* the sheet has fewer than 5 bytes */
#define WCUT_NODE_COUNT 4    /* the node count is below 2 or above 256 */
#define WCUT_LINK_COUNT 5    /* the link count is below the node count less 1, or above 2,048 */
#define WCUT_TREE_COUNT 6    /* the tree count is 0 or above 32 */
#define WCUT_NO_MAP_BYTE 7   /* no map byte is left for a link */
#define WCUT_MAP_BYTE 8      /* a map byte exceeds 15, or link 0's map byte is neither 7 nor 15 */
#define WCUT_CUT_OFF_FIELD 9 /* the sheet ends before the last byte of a field whose bit stands */
#define WCUT_LINK_ENDS 10    /* an end is not below the node count, or both ends are equal */
#define WCUT_LINK_WEIGHT 11  /* never: every 4-byte weight is allowed; units already sold refuse one above 1,000,000 */
#define WCUT_CUT_OFF_TREE 12 /* the sheet ends inside or before a tree record */
#define WCUT_STRAY_BIT 13    /* a link map has a bit set from the link count up */
#define WCUT_MEMBER_COUNT 14 /* the ones in a link map are not the node count less 1 */
#define WCUT_NOT_JOINED 15   /* the member links do not join every node to node 0 */
#define WCUT_BYTES_LEFT 16   /* bytes follow the last tree */
#define WCUT_NO_LINK 18      /* a link number is not below the link count */
#define WCUT_SHORT_LIST 19   /* the area cannot hold every side of the list, at 32 bytes a side */
#define WCUT_OUT_OF_REACH 20 /* no 4-byte weight of the link makes the reported weight as large as wanted */
#define WCUT_NO_SIDE 21      /* a side map is empty, has node 0, or has a bit set from the node count up */
#define WCUT_NO_TREE 23      /* a tree number is not below the tree count */
#define WCUT_SHORT_PAIRS 24  /* the area has fewer numbers than the tree has pairs */

/*
 * Reads the sheet, writes the first 32 bytes of the side area and the first 24 of the report area, and returns WCUT_ACCEPTED; or
 * returns the number of the first refusal and leaves both areas as they were. Bytes of the areas past 32 and 24 are never touched.
 *
 * The caller's duties:
 *   - each pointer is not null and points to as many bytes as the length behind it says, those of the areas writable;
 *   - the sheet and the two areas do not overlap;
 *   - nothing else reads or writes the areas, or writes the sheet, during the call;
 *   - the stack has room for WCUT_STACK_BYTES.
 * What the bytes say is no duty: every byte string is a sheet, accepted or refused.
 */
uint32_t wcut_report(const uint8_t *sheet, size_t sheet_length,
                     uint8_t *side, size_t side_length,
                     uint8_t *report, size_t report_length);

/*
 * Reads the sheet and writes every side that weighs what wcut_report reports and crosses at most two links of some listed tree: each once,
 * WCUT_SIDE_BYTES a side from the area's start, none with node 0. Fewer nodes come first, then the order of candidates decides as in the
 * report, so the first is the reported side. Sets *count to their number and returns WCUT_ACCEPTED; or sets *count to 0, leaves the area
 * as it was, and returns the sheet's refusal or, if there is none, WCUT_SHORT_LIST where the area cannot hold them all. Bytes behind
 * the last side are never touched. docs/ENTRY.md says when the sides are all of that weight that the whole network has.
 *
 * With n nodes and t trees there are at most t n (n - 1) / 2 sides. A call searches the sheet, counts the sides and writes them: for few sides
 * it takes two to three times as long as one of wcut_report, and longer where many trees have many sides of that weight. docs/ENTRY.md has
 * a bound for every sheet, and what was measured.
 *
 * The caller's duties:
 *   - each pointer is not null; sheet and sides point to as many bytes as the length behind each says, count to a number; those of the
 *     area and the count are writable, and what the count holds does not matter;
 *   - sheet, area and count do not overlap;
 *   - nothing else reads or writes the area or the count, or writes the sheet, during the call;
 *   - the stack has room for WCUT_LIST_STACK_BYTES.
 */
uint32_t wcut_list(const uint8_t *sheet, size_t sheet_length,
                   uint8_t *sides, size_t sides_length,
                   uint32_t *count);

/*
 * Reads the sheet and two sides as maps, and writes the weights between their four corners, the nodes in both sides, in the first only, in
 * the second only and in neither: table[WCUT_CORNERS * i + j] is the sum of the weights of the links between the corners i and j, and 0
 * where i is j. Sets all 16 numbers and returns WCUT_ACCEPTED; or sets all 16 to 0 and returns the number of the first refusal:
 * WCUT_SHORT_SIDE where a map has fewer than 32 bytes, then the sheet's, then WCUT_NO_SIDE where a map gives no side without node 0. The
 * sides may be any, such as those of wcut_list. Only the first 32 bytes of a map are read.
 *
 * The caller's duties:
 *   - each pointer is not null; sheet, first and second point to as many bytes as the length behind each says, table to 16 numbers that are
 *     writable, and what these hold does not matter;
 *   - sheet, maps and table do not overlap, but one map may be passed twice;
 *   - nothing else reads or writes the table, or writes the sheet or a map, during the call;
 *   - the stack has room for WCUT_CORNERS_STACK_BYTES.
 */
uint32_t wcut_corners(const uint8_t *sheet, size_t sheet_length,
                      const uint8_t *first, size_t first_length,
                      const uint8_t *second, size_t second_length,
                      uint64_t table[WCUT_TABLE_NUMBERS]);

/*
 * Reads the sheet and finds the smallest weight of one link, the others kept, with which wcut_report would report no less than the wanted
 * weight. Sets *thickness to it and returns WCUT_ACCEPTED; it may lie below the weight that the link has. Or sets *thickness to 0 and
 * returns the number of the first refusal: the sheet's, then WCUT_NO_LINK where the sheet has no such link, then WCUT_OUT_OF_REACH where no
 * 4-byte weight is enough: some side that crosses at most two links of some listed tree is too light and does not separate the link's ends,
 * or more than 4,294,967,295 would be needed.
 *
 * The caller's duties:
 *   - each pointer is not null; sheet points to as many bytes as the length behind it says, thickness to a number that is writable, and what
 *     it holds does not matter;
 *   - sheet and thickness do not overlap;
 *   - nothing else reads or writes the thickness, or writes the sheet, during the call;
 *   - the stack has room for WCUT_THICKNESS_STACK_BYTES.
 */
uint32_t wcut_thickness(const uint8_t *sheet, size_t sheet_length,
                        uint32_t link, uint64_t wanted,
                        uint32_t *thickness);

/*
 * All pairs of one tree. Ranks the tree's links by number from 0, writes for s below r the weight of the pair of the links of ranks s and r
 * to weights[r * (r - 1) / 2 + s], and returns WCUT_ACCEPTED; numbers behind the last pair stay as they are. A tree of n nodes has
 * (n - 1) * (n - 2) / 2 pairs. Or leaves the area as it is and returns the number of the first refusal: the sheet's, then WCUT_NO_TREE where
 * the sheet has no such tree, then WCUT_SHORT_PAIRS.
 *
 * The caller's duties:
 *   - each pointer is not null; sheet points to as many bytes and weights to as many numbers as the length behind it says, and the numbers
 *     are writable;
 *   - sheet and weights do not overlap;
 *   - nothing else reads or writes the area, or writes the sheet, during the call;
 *   - the stack has room for WCUT_PAIRS_STACK_BYTES.
 */
uint32_t wcut_pairs(const uint8_t *sheet, size_t sheet_length,
                    uint32_t tree,
                    uint64_t *weights, size_t weights_count);

#ifdef __cplusplus
}
#endif

#endif
