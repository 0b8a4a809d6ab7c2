/* AV1 loop restoration and superres upscaling of one plane: the C interface of the host library.
 *
 * Link the archive that `tools/library` prints. A slice is a pointer and a count of elements. A call tests its own arguments and asks
 * nothing of the caller beyond memory of the stated length that no other thread changes during the call; what is lent mutable (a pointer
 * that is not const) overlaps nothing else that is lent. A pointer is never NULL, also where the count is 0.
 *
 * A call gives back a number: 0, and the work is done, or else the lowest number of the table below that applies to it. A call that is
 * refused leaves every slice as it was, scratch too, and a count or rectangle beside the number is all zeros. */
#ifndef CIRONETOP_H
#define CIRONETOP_H

#include <stddef.h>
#include <stdint.h>

#ifdef __cplusplus
extern "C" {
#endif

/* The numbers that a call gives back. With frame type 0 the numbers 5, 10, 11 and 16 are not given. */
enum {
    CIRONETOP_DONE = 0,             /* The work is done. */
    CIRONETOP_BAD_DEPTH = 1,        /* The depth is not 8, 10 or 12. */
    CIRONETOP_BAD_PLANE = 2,        /* The plane is above 2, or the subsampling is not (0,0), (1,0) or (1,1). */
    CIRONETOP_BAD_FRAME_TYPE = 3,   /* The frame type is above 3. */
    CIRONETOP_BAD_FRAME_SIDE = 4,   /* A frame side is 0 or above 16,384. */
    CIRONETOP_BAD_UNIT_SIZE = 5,    /* The unit size is not 64, 128 or 256, nor 32 on plane 1 or 2 with both axes subsampled. */
    CIRONETOP_WIDTH_SHRINKS = 6,    /* The upscaler's flag is set and the upscaled frame width is below the frame width. */
    CIRONETOP_BAD_SHAPE = 7,        /* A plane's (or the window's) length or shape is wrong. */
    CIRONETOP_NOT_WIDER = 8,        /* Upscaling is asked for and the plane's two widths do not grow. */
    CIRONETOP_BAD_EDGE_ROWS = 9,    /* The edge-row slice is not 4 * plane width * (stripes - 1) long. */
    CIRONETOP_BAD_UNIT_TABLE = 10,  /* The unit table is not 10 * unit rows * unit columns long. */
    CIRONETOP_BAD_UNIT = 11,        /* Some unit entry is not legal. */
    CIRONETOP_BAD_MARKS = 12,       /* The marks are not one per stripe, or one of them is not 0 or 1. */
    CIRONETOP_BAD_INDEX = 13,       /* The stripe or rectangle number is not below its count. */
    CIRONETOP_ALREADY_RESTORED = 14, /* The stripe's mark is 1: it is restored already. */
    CIRONETOP_BAD_SAMPLE = 15,      /* A sample that would be read is below 0 or above 2^depth - 1. */
    CIRONETOP_SHORT_SCRATCH = 16    /* The scratch or the stripe copy is too short. */
};

/* The type of a unit, the first of the ten numbers of its entry. */
enum {
    CIRONETOP_NONE = 0,
    CIRONETOP_WIENER = 1,
    CIRONETOP_SELF_GUIDED = 2
};

enum {
    CIRONETOP_ENTRY_NUMBERS = 10,      /* Type; Wiener coefficients, three vertical and three horizontal; set; w0; w1. */
    CIRONETOP_WINDOW_BYTES = 98,       /* 7 by 7 samples of two bytes, low byte first. */
    CIRONETOP_LARGEST_SCRATCH = 168912 /* Numbers of a scratch that suffices for every plane: 6 * (383 + 8) * (64 + 8). */
};

/* One plane's restoration, in the job's order. The plane is Round2(upscaled_width, sub_x) wide and Round2(frame_height, sub_y) high; plane
 * 0 reads the subsampling as (0,0). */
typedef struct {
    uint32_t plane, sub_x, sub_y, depth, frame_height, upscaled_width, unit_size, frame_type;
} cironetop_frame;

/* One plane's upscaling. use_superres: 0 clear, else set. */
typedef struct {
    uint32_t plane, sub_x, sub_y, depth, frame_width, upscaled_width, frame_height, use_superres;
    uint32_t in_rows, in_cols, out_rows, out_cols;
} cironetop_scaling;

/* changed: the places where the restored plane differs from the CDEF plane. */
typedef struct {
    uint32_t number, changed;
} cironetop_restored;

typedef struct {
    uint32_t number, unit_rows, unit_cols, stripes, rectangles;
} cironetop_counted;

/* One stripe's part of one unit column: its unit, its place and size, its stripe's first and last row, the plane's last column and row. */
typedef struct {
    uint32_t number, unit_row, unit_col, x, y, w, h;
    int32_t stripe_start_y, stripe_end_y, plane_end_x, plane_end_y;
} cironetop_placed;

/* One sample from its 7 by 7 window, whose middle is the CDEF sample: the restored sample, or minus the number (1, 7, 11, 15). Of `row`
 * only its being odd or even counts. */
int32_t cironetop_restore_sample(uint32_t depth, uint32_t row, int32_t type, int32_t v0, int32_t v1, int32_t v2, int32_t h0, int32_t h1,
                                 int32_t h2, int32_t set, int32_t w0, int32_t w1, const uint8_t *window, size_t window_len);

/* A whole plane. Gives 1 to 5, 7, 10, 11, 15, 16. scratch: 6 * (W + 8) * (H + 8) numbers or more, W = min(plane width, 383), H = min(plane
 * height, 64 >> sub_y); what it holds afterwards is of no meaning. */
cironetop_restored cironetop_restore_plane(cironetop_frame f, const int32_t *units, size_t units_len, const int32_t *deblocked,
                                           size_t deblocked_len, const int32_t *cdef, size_t cdef_len, int32_t *out, size_t out_len,
                                           int32_t *scratch, size_t scratch_len);

/* The deblocked rows around each stripe boundary, which a stripe in place needs: 4 * plane width * (stripes - 1) numbers. Gives 1, 2, 4, 7,
 * 9, 15; unit size and frame type are not looked at. */
uint32_t cironetop_capture_edges(cironetop_frame f, const int32_t *deblocked, size_t deblocked_len, int32_t *edges, size_t edges_len);

/* One stripe in place, in a plane that holds CDEF where no mark is set: writes the stripe's rows and sets its mark to 1. Gives 1 to 5, 7, 9
 * to 16. marks: one per stripe, 0 before the first call; scratch as above; copy: plane width * H numbers or more. */
uint32_t cironetop_restore_stripe(cironetop_frame f, uint32_t stripe, const int32_t *units, size_t units_len, const int32_t *edges,
                                  size_t edges_len, int32_t *plane, size_t plane_len, uint8_t *marks, size_t marks_len, int32_t *scratch,
                                  size_t scratch_len, int32_t *copy, size_t copy_len);

/* A plane upscaled from Round2(frame_width, sub_x) to Round2(upscaled_width, sub_x) columns; copied where the flag is clear or the frame
 * widths are equal. Gives 1, 2, 4, 6, 7, 8, 15. */
uint32_t cironetop_upscale_plane(cironetop_scaling s, const int32_t *input, size_t input_len, int32_t *output, size_t output_len);

/* Unit rows and columns, stripes and rectangles of a plane. Gives 2, 4, 5; depth and frame type are not looked at. */
cironetop_counted cironetop_count(cironetop_frame f);

/* The rectangle of that index, stripe by stripe and from left to right. Gives 2, 4, 5, 13. */
cironetop_placed cironetop_rectangle(cironetop_frame f, uint32_t index);

#ifdef __cplusplus
}
#endif

#endif
