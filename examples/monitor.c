/*
 * Calls wcut_report and wcut_list on four sheets and prints what they answer, a report in the form of the report program and then the list:
 * document 01's case A, the same sheet with one byte more, which is refused, one whose weight and floor need more than 4 bytes, and a ring
 * of four nodes, whose list has six sides and is refused when the area has room for five. Then it asks wcut_corners what runs between the
 * corners of two cuts of the ring that overlap, and wcut_thickness how thick the first link of case A must be. `make test` builds and runs
 * this; tools/firmware has the commands.
 */
#include <inttypes.h>
#include <stdio.h>

#include "wcut.h"

#define ROOM 6 /* sides */

static uint64_t number(const uint8_t *at, int bytes)
{
    uint64_t value = 0;

    while (bytes-- > 0)
        value = value * 256 + at[bytes];
    return value;
}

static void show_side(const uint8_t *side)
{
    unsigned node;

    printf("side");
    for (node = 0; node < WCUT_MOST_NODES; node++)
        if ((side[node / 8] >> (node % 8)) & 1)
            printf(" %u", node);
    printf("\n");
}

static void show_list(const uint8_t *sheet, size_t length, size_t room)
{
    static uint8_t sides[ROOM * WCUT_SIDE_BYTES];
    uint32_t count;
    uint32_t refusal = wcut_list(sheet, length, sides, room * WCUT_SIDE_BYTES, &count);
    uint32_t at;

    if (refusal != WCUT_ACCEPTED) {
        printf("refused %" PRIu32 "\n", refusal);
        return;
    }
    printf("sides %" PRIu32 "\n", count);
    for (at = 0; at < count; at++)
        show_side(sides + at * WCUT_SIDE_BYTES);
}

static void show_report(const uint8_t *sheet, size_t length)
{
    uint8_t side[WCUT_SIDE_BYTES] = {0};
    uint8_t report[WCUT_REPORT_BYTES] = {0};
    uint32_t refusal = wcut_report(sheet, length, side, sizeof side, report, sizeof report);
    uint64_t second;

    if (refusal != WCUT_ACCEPTED) {
        printf("refused %" PRIu32 "\n", refusal);
        return;
    }
    printf("answer %u %" PRIu64 " %" PRIu64 " %u %" PRIu64 " ", (unsigned)report[WCUT_AT_VERDICT],
           number(report + WCUT_AT_WEIGHT, 8), number(report + WCUT_AT_FLOOR, 8), (unsigned)report[WCUT_AT_TREE],
           number(report + WCUT_AT_FIRST, 2));
    second = number(report + WCUT_AT_SECOND, 2);
    if (second == WCUT_NO_SECOND)
        printf("-");
    else
        printf("%" PRIu64, second);
    printf(" %" PRIu64 "\n", number(report + WCUT_AT_COUNT, 2));
    show_side(side);
}

static void show_corners(const uint8_t *sheet, size_t length, const uint8_t *first, const uint8_t *second)
{
    uint64_t table[WCUT_TABLE_NUMBERS];
    uint32_t refusal = wcut_corners(sheet, length, first, WCUT_SIDE_BYTES, second, WCUT_SIDE_BYTES, table);
    unsigned row, column;

    if (refusal != WCUT_ACCEPTED) {
        printf("refused %" PRIu32 "\n", refusal);
        return;
    }
    for (row = 0; row < WCUT_CORNERS; row++) {
        printf("corner");
        for (column = 0; column < WCUT_CORNERS; column++)
            printf(" %" PRIu64, table[WCUT_CORNERS * row + column]);
        printf("\n");
    }
}

static void show_thickness(const uint8_t *sheet, size_t length, uint32_t link, uint64_t wanted)
{
    uint32_t thickness;
    uint32_t refusal = wcut_thickness(sheet, length, link, wanted, &thickness);

    if (refusal != WCUT_ACCEPTED)
        printf("refused %" PRIu32 "\n", refusal);
    else
        printf("thickness %" PRIu32 "\n", thickness);
}

static void show(const uint8_t *sheet, size_t length)
{
    show_report(sheet, length);
    show_list(sheet, length, ROOM);
}

int main(void)
{
    static const uint8_t sheet[] = {
        0x03, 0x00, 0x03, 0x00, 0x01,                         /* 3 nodes, 3 links, 1 tree */
        0x07, 0x00, 0x00, 0x01, 0x00, 0x03, 0x00, 0x00, 0x00, /* link 0: 0-1, weight 3 */
        0x07, 0x01, 0x00, 0x02, 0x00, 0x02, 0x00, 0x00, 0x00, /* link 1: 1-2, weight 2 */
        0x05, 0x00, 0x00, 0x04, 0x00, 0x00, 0x00,             /* link 2: 0-2, weight 4; its second end is link 1's */
        0x02, 0x00, 0x00, 0x00, 0x05,                         /* tree 0: share 2, links 0 and 2 */
        0x00                                                  /* the byte more */
    };
    static const uint8_t heavy[] = {
        0x02, 0x00, 0x02, 0x00, 0x01,                         /* 2 nodes, 2 links, 1 tree */
        0x07, 0x00, 0x00, 0x01, 0x00, 0xFF, 0xFF, 0xFF, 0xFF, /* link 0: 0-1, weight 4294967295 */
        0x00,                                                 /* link 1: the same */
        0xFF, 0xFF, 0xFF, 0xFF, 0x01                          /* tree 0: share 4294967295, link 0 */
    };
    static const uint8_t ring[] = {
        0x04, 0x00, 0x04, 0x00, 0x01,                         /* 4 nodes, 4 links, 1 tree */
        0x07, 0x00, 0x00, 0x01, 0x00, 0x01, 0x00, 0x00, 0x00, /* link 0: 0-1, weight 1 */
        0x03, 0x01, 0x00, 0x02, 0x00,                         /* link 1: 1-2, the same weight */
        0x03, 0x02, 0x00, 0x03, 0x00,                         /* link 2: 2-3 */
        0x03, 0x03, 0x00, 0x00, 0x00,                         /* link 3: 3-0 */
        0x01, 0x00, 0x00, 0x00, 0x07                          /* tree 0: share 1, links 0, 1 and 2 */
    };

    static const uint8_t near[WCUT_SIDE_BYTES] = {0x06}; /* nodes 1 and 2 */
    static const uint8_t far[WCUT_SIDE_BYTES] = {0x0C};  /* nodes 2 and 3 */
    static const uint8_t all[WCUT_SIDE_BYTES] = {0x0F};  /* also node 0, so that it is no side */

    show(sheet, sizeof sheet - 1);
    show(sheet, sizeof sheet);
    show(heavy, sizeof heavy);
    show(ring, sizeof ring);
    show_list(ring, sizeof ring, ROOM - 1);
    show_corners(ring, sizeof ring, near, far);
    show_corners(ring, sizeof ring, near, all);
    show_thickness(sheet, sizeof sheet - 1, 0, 6); /* node 1 weighs 2 without the link, so 4 is needed; it has 3 */
    show_thickness(sheet, sizeof sheet - 1, 0, 7); /* node 2 weighs 6 whatever the link weighs */
    show_thickness(sheet, sizeof sheet - 1, 3, 7); /* the links are 0 to 2 */
    return 0;
}
