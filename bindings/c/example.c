/* The C interface in use: a row restored, a call refused, a row upscaled. Each answer is held to document 01's before it is printed. */
#undef NDEBUG /* the answers are tested in every build */
#include <assert.h>
#include <stdio.h>

#include "cironetop.h"

#define LENGTH(slice) (sizeof(slice) / sizeof((slice)[0]))

static void print_row(const char *what, const int32_t *row, size_t length)
{
    printf("%s", what);
    for (size_t x = 0; x < length; x++) printf(" %d", (int)row[x]);
    printf("\n");
}

static void expect_row(const int32_t *row, const int32_t *expected, size_t length)
{
    for (size_t x = 0; x < length; x++) assert(row[x] == expected[x]);
}

static int32_t scratch[CIRONETOP_LARGEST_SCRATCH];

/* Case B: one row, 8 bits, one Wiener unit with the same taps both ways; then the same plane at a depth that AV1 does not have. */
static void restore(void)
{
    cironetop_frame frame = {.depth = 8, .frame_height = 1, .upscaled_width = 7, .unit_size = 64, .frame_type = 1};
    const int32_t units[CIRONETOP_ENTRY_NUMBERS] = {CIRONETOP_WIENER, 3, -7, 15, 3, -7, 15, 0, 0, 0};
    const int32_t deblocked[7] = {0}, cdef[7] = {0, 0, 0, 100, 0, 0, 0};
    const int32_t expected[7] = {2, 0, 12, 83, 12, 0, 2};
    int32_t out[7];

    cironetop_restored answer = cironetop_restore_plane(frame, units, LENGTH(units), deblocked, LENGTH(deblocked), cdef, LENGTH(cdef), out,
                                                        LENGTH(out), scratch, LENGTH(scratch));
    assert(answer.number == CIRONETOP_DONE && answer.changed == 5);
    expect_row(out, expected, LENGTH(out));
    print_row("restored", out, LENGTH(out));

    frame.depth = 9;
    answer = cironetop_restore_plane(frame, units, LENGTH(units), deblocked, LENGTH(deblocked), cdef, LENGTH(cdef), out, LENGTH(out),
                                     scratch, LENGTH(scratch));
    assert(answer.number == CIRONETOP_BAD_DEPTH && answer.changed == 0);
    expect_row(out, expected, LENGTH(out));
    printf("refused %u: the depth is not 8, 10 or 12\n", (unsigned)answer.number);
}

/* Value J: 8 columns to 16. */
static void upscale(void)
{
    const cironetop_scaling scaling = {.depth = 8, .frame_width = 8, .upscaled_width = 16, .frame_height = 1, .use_superres = 1,
                                       .in_rows = 1, .in_cols = 8, .out_rows = 1, .out_cols = 16};
    const int32_t input[8] = {0, 0, 0, 0, 128, 128, 128, 128};
    const int32_t expected[16] = {0, 0, 0, 3, 4, 0, 0, 29, 99, 141, 137, 124, 125, 129, 129, 128};
    int32_t output[16];

    uint32_t number = cironetop_upscale_plane(scaling, input, LENGTH(input), output, LENGTH(output));
    assert(number == CIRONETOP_DONE);
    expect_row(output, expected, LENGTH(output));
    print_row("upscaled", output, LENGTH(output));
}

int main(void)
{
    restore();
    upscale();
    return 0;
}
