/* The C boundary, from C: document 01's values through each exported call, then each number of a struct made wrong by itself, so that a
   struct or an argument that arrives in another place is seen. Status 1 on any difference. */
#include <stdio.h>
#include <stdlib.h>
#include <string.h>

#include "cironetop.h"

static int calls, differences;

/* Holds `found`, of `size` bytes, to `expected`. */
static void same(const char *what, const void *found, const void *expected, size_t size) {
    calls++;
    if (memcmp(found, expected, size) != 0) {
        differences++;
        fprintf(stderr, "boundary: difference: %s\n", what);
    }
}

static void same_number(const char *what, int32_t found, int32_t expected) { same(what, &found, &expected, sizeof found); }

/* Plane 1 of a frame of 4:2:2, 333 by 200: 167 by 200 samples, no two numbers alike that could be exchanged unseen. */
static void geometry(void) {
    cironetop_frame f = {1, 1, 0, 10, 200, 333, 64, 3};
    cironetop_counted counted = cironetop_count(f), counts = {0, 3, 3, 4, 12};
    same("count", &counted, &counts, sizeof counts);
    cironetop_placed placed = cironetop_rectangle(f, 7), place = {0, 2, 1, 64, 120, 64, 64, 120, 183, 166, 199};
    same("rectangle", &placed, &place, sizeof place);
    same_number("rectangle past the last", (int32_t)cironetop_rectangle(f, 12).number, 13);
}

/* Each end is legal for its own coefficient alone; values A and D. */
static void samples(void) {
    uint8_t window[98] = {0}, bright[98];
    for (int k = 0; k < 49; k++) {
        window[2 * k] = 100;
        bright[2 * k] = 0xff;
        bright[2 * k + 1] = 0x0f;
    }
    same_number("sample A", cironetop_restore_sample(8, 0, 1, -5, -23, 46, 10, -23, 46, 99, 99, 99, window, 98), 100);
    same_number("sample D", cironetop_restore_sample(12, 1, 2, 99, 99, 99, 99, 99, 99, 14, -96, 95, bright, 98), 4092);
    same_number("sample, depth 9", cironetop_restore_sample(9, 0, 0, 0, 0, 0, 0, 0, 0, 0, 0, 0, window, 98), -1);
    same_number("sample, 97 bytes", cironetop_restore_sample(8, 0, 0, 0, 0, 0, 0, 0, 0, 0, 0, 0, window, 97), -7);
    same_number("sample too large", cironetop_restore_sample(10, 0, 0, 0, 0, 0, 0, 0, 0, 0, 0, 0, bright, 98), -15);
    int32_t low[10] = {0, -5, -23, -17, -5, -23, -17, 0, -96, -32};
    for (int k = 1; k < 10; k++) {
        int32_t u[10];
        memcpy(u, low, sizeof u);
        u[0] = k < 7 ? 1 : 2;
        u[k]--;
        int32_t found = cironetop_restore_sample(8, 0, u[0], u[1], u[2], u[3], u[4], u[5], u[6], u[7], u[8], u[9], window, 98);
        same_number("sample, a number too low", found, -11);
    }
}

static cironetop_restored restore(cironetop_frame f, int32_t out[7]) {
    static const int32_t unit[10] = {1, 3, -7, 15, 3, -7, 15, 0, 0, 0}, deblocked[7] = {0}, cdef[7] = {0, 0, 0, 100, 0, 0, 0};
    static int32_t scratch[6 * 15 * 9];
    return cironetop_restore_plane(f, unit, 10, deblocked, 7, cdef, 7, out, 7, scratch, sizeof scratch / sizeof *scratch);
}

/* Value B, and each frame number made wrong. */
static void planes(void) {
    static const uint32_t wrong[8] = {3, 2, 1, 9, 16385, 16385, 63, 4}, number[8] = {2, 2, 2, 1, 4, 4, 5, 3};
    cironetop_frame f = {0, 0, 0, 8, 1, 7, 64, 1};
    int32_t out[7] = {-1, -2, -3, -4, -5, -6, -7}, before[7], expected[7] = {2, 0, 12, 83, 12, 0, 2};
    memcpy(before, out, sizeof out);
    for (int k = 0; k < 8; k++) {
        uint32_t numbers[8];
        memcpy(numbers, &f, sizeof f);
        numbers[k] = wrong[k];
        cironetop_frame g;
        memcpy(&g, numbers, sizeof g);
        cironetop_restored answer = restore(g, out), refused = {number[k], 0};
        same("plane refused", &answer, &refused, sizeof refused);
        same("plane refused: output", out, before, sizeof out);
    }
    cironetop_restored answer = restore(f, out), done = {0, 5};
    same("plane B", &answer, &done, sizeof done);
    same("plane B: output", out, expected, sizeof out);
}

/* Two columns and 60 rows that count up: one boundary, at row 56. */
static void edges(void) {
    cironetop_frame f = {0, 0, 0, 8, 60, 2, 0, 0};
    int32_t deblocked[120], found[8] = {0};
    for (int k = 0; k < 120; k++) deblocked[k] = k;
    same_number("edges", (int32_t)cironetop_capture_edges(f, deblocked, 120, found, 8), 0);
    same("edges: rows", found, deblocked + 2 * 54, sizeof found);
    same_number("edges, too short", (int32_t)cironetop_capture_edges(f, deblocked, 120, found, 7), 9);
}

/* Value B in place, then each slice's length and the stripe's number made wrong: most of the fourteen arguments lie on the stack. */
static void stripes(void) {
    static const uint32_t number[6] = {10, 9, 7, 12, 16, 16};
    static const int32_t units[11] = {1, 3, -7, 15, 3, -7, 15, 0, 0, 0}, edges[1], expected[7] = {2, 0, 12, 83, 12, 0, 2};
    static int32_t scratch[6 * 15 * 9], copy[7];
    cironetop_frame f = {0, 0, 0, 8, 1, 7, 64, 1};
    int32_t plane[8] = {0, 0, 0, 100}, before[8];
    uint8_t marks[2] = {0}, marked[2] = {1};
    memcpy(before, plane, sizeof plane);
    for (int k = 0; k < 6; k++) {
        size_t n[6] = {10, 0, 7, 1, 6 * 15 * 9, 7};
        n[k] += k < 4 ? 1 : -1;
        uint32_t found = cironetop_restore_stripe(f, 0, units, n[0], edges, n[1], plane, n[2], marks, n[3], scratch, n[4], copy, n[5]);
        same_number("stripe refused", (int32_t)found, (int32_t)number[k]);
        same("stripe refused: plane", plane, before, sizeof plane);
    }
    uint32_t past = cironetop_restore_stripe(f, 1, units, 10, edges, 0, plane, 7, marks, 1, scratch, 6 * 15 * 9, copy, 7);
    same_number("stripe past the last", (int32_t)past, 13);
    uint32_t done = cironetop_restore_stripe(f, 0, units, 10, edges, 0, plane, 7, marks, 1, scratch, 6 * 15 * 9, copy, 7);
    same_number("stripe B", (int32_t)done, 0);
    same("stripe B: plane", plane, expected, sizeof expected);
    same("stripe B: marks", marks, marked, sizeof marks);
}

/* Value J, and each number made wrong. */
static void upscaling(void) {
    static const uint32_t wrong[12] = {3, 2, 1, 9, 0, 16385, 0, 0, 2, 9, 2, 17}, number[12] = {2, 2, 2, 1, 4, 4, 4, 7, 7, 7, 7, 7};
    static const int32_t row[8] = {0, 0, 0, 0, 128, 128, 128, 128};
    static const int32_t expected[16] = {0, 0, 0, 3, 4, 0, 0, 29, 99, 141, 137, 124, 125, 129, 129, 128};
    cironetop_scaling s = {0, 0, 0, 8, 8, 16, 1, 1, 1, 8, 1, 16};
    int32_t out[16] = {0};
    for (int k = 0; k < 12; k++) {
        uint32_t numbers[12];
        memcpy(numbers, &s, sizeof s);
        numbers[k] = wrong[k];
        cironetop_scaling t;
        memcpy(&t, numbers, sizeof t);
        same_number("upscaling refused", (int32_t)cironetop_upscale_plane(t, row, 8, out, 16), (int32_t)number[k]);
    }
    same_number("upscaling J", (int32_t)cironetop_upscale_plane(s, row, 8, out, 16), 0);
    same("upscaling J: output", out, expected, sizeof out);
}

int main(void) {
    geometry();
    samples();
    planes();
    edges();
    stripes();
    upscaling();
    printf("boundary: %d answers from C, %d differences\n", calls, differences);
    return differences == 0 ? EXIT_SUCCESS : EXIT_FAILURE;
}
