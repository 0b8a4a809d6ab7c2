/* Stripes in place: edge rows are captured first, then each stripe is restored where its CDEF rows lie, in any order and once. */
#undef NDEBUG /* the answers are tested in every build */
#include <assert.h>
#include <stdio.h>

#include "cironetop.h"

/* One column, 57 rows: stripe 0 has 56 rows and stripe 1 has one. */
enum { HEIGHT = 57, STRIPES = 2, EDGES = 4 * (STRIPES - 1) };

static const cironetop_frame frame = {.depth = 8, .frame_height = HEIGHT, .upscaled_width = 1, .unit_size = 64, .frame_type = 1};
static const int32_t units[CIRONETOP_ENTRY_NUMBERS] = {CIRONETOP_WIENER, 3, -7, 15, 3, -7, 15, 0, 0, 0};
static int32_t edges[EDGES], plane[HEIGHT], copy[HEIGHT], scratch[CIRONETOP_LARGEST_SCRATCH];
static uint8_t marks[STRIPES];

static uint32_t restore(uint32_t stripe)
{
    return cironetop_restore_stripe(frame, stripe, units, CIRONETOP_ENTRY_NUMBERS, edges, EDGES, plane, HEIGHT, marks, STRIPES, scratch,
                                    CIRONETOP_LARGEST_SCRATCH, copy, HEIGHT);
}

int main(void)
{
    int32_t deblocked[HEIGHT];
    for (int y = 0; y < HEIGHT; y++) deblocked[y] = 200;
    cironetop_counted counted = cironetop_count(frame);
    assert(counted.number == CIRONETOP_DONE && counted.stripes == STRIPES);
    assert(cironetop_capture_edges(frame, deblocked, HEIGHT, edges, EDGES) == CIRONETOP_DONE);

    assert(restore(1) == CIRONETOP_DONE && marks[0] == 0 && marks[1] == 1);
    assert(restore(0) == CIRONETOP_DONE && marks[0] == 1);
    assert(restore(0) == CIRONETOP_ALREADY_RESTORED);

    /* CDEF is 0 everywhere: only rows within reach of the deblocked rows beyond the boundary change. */
    const int32_t expected[4] = {5, 0, 17, 17};
    for (int y = 0; y < 53; y++) assert(plane[y] == 0);
    printf("rows 53 to 56 in place:");
    for (int y = 53; y < HEIGHT; y++) {
        assert(plane[y] == expected[y - 53]);
        printf(" %d", (int)plane[y]);
    }
    printf("\n");
    return 0;
}
