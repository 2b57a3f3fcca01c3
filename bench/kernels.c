// The row kernels in C with pixman: its times on tiles of 64 by 64 pixels, and a comparison of bytes.
// A pixel is red, green, blue and matte, one byte each; pixman's a8r8g8b8 has its alpha in the same
// place and treats the three colours alike.
#include <pixman.h>
#include <stdint.h>
#include <stdio.h>
#include <stdlib.h>
#include <string.h>
#include <time.h>

enum { SIDE = 64, PIXELS = SIDE * SIDE, BYTES = 4 * PIXELS, TILES = 16, ROUNDS = 500 };

static const struct {
    const char *name;
    pixman_op_t op;
} operations[] = {
    { "Over", PIXMAN_OP_OVER },
    { "MatteIn", PIXMAN_OP_IN },
    { "MatteOut", PIXMAN_OP_OUT },
    { "Add", PIXMAN_OP_ADD },
};

static uint32_t state = 7;

static uint32_t next_random(void) {
    state ^= state << 13;
    state ^= state >> 17;
    state ^= state << 5;
    return state;
}

static uint8_t part(uint32_t x, uint32_t y) { return (uint8_t)((x * y + 127) / 255); }

static void fill(uint8_t *tile, const char *kind) {
    for (int i = 0; i < PIXELS; i++) {
        uint32_t r = next_random();
        uint8_t matte = kind[0] == 'N' ? (uint8_t)(r >> 24) : kind[0] == 'O' ? 255 : 0;
        for (int c = 0; c < 3; c++) tile[4 * i + c] = part(r >> (8 * c) & 255, matte);
        tile[4 * i + 3] = matte;
    }
}

static pixman_image_t *image(uint8_t *tile) {
    return pixman_image_create_bits(PIXMAN_a8r8g8b8, SIDE, SIDE, (uint32_t *)tile, 4 * SIDE);
}

static uint64_t nanoseconds(void) {
    struct timespec t;
    clock_gettime(CLOCK_MONOTONIC, &t);
    return (uint64_t)t.tv_sec * 1000000000u + (uint64_t)t.tv_nsec;
}

static void print_time(const char *name, const char *kind, uint64_t least) {
    printf("%s Pixman %s %llu\n", name, kind, (unsigned long long)(least * 1000 / ((uint64_t)TILES * PIXELS)));
}

static void time_all(uint8_t *u, uint8_t *d, const char *kind) {
    fill(u, kind);
    for (size_t k = 0; k < sizeof operations / sizeof *operations; k++) {
        fill(d, "Noise");
        pixman_image_t *upper = image(u), *lower = image(d);
        uint64_t least = UINT64_MAX;
        for (int round = 0; round < ROUNDS; round++) {
            uint64_t start = nanoseconds();
            for (int tile = 0; tile < TILES; tile++)
                pixman_image_composite32(operations[k].op, upper, NULL, lower, 0, 0, 0, 0, 0, 0, SIDE, SIDE);
            uint64_t spent = nanoseconds() - start;
            if (spent < least) least = spent;
        }
        print_time(operations[k].name, kind, least);
        pixman_image_unref(upper);
        pixman_image_unref(lower);
    }
    uint64_t least = UINT64_MAX;
    for (int round = 0; round < ROUNDS; round++) {
        uint64_t start = nanoseconds();
        for (int tile = 0; tile < TILES; tile++) {
            memcpy(d, u, BYTES);
            __asm__ volatile("" : : "r"(d) : "memory");
        }
        uint64_t spent = nanoseconds() - start;
        if (spent < least) least = spent;
    }
    print_time("Copy", kind, least);
}

// Reads tiles from standard input: an upper and a lower one, and the four results.
static int compare(void) {
    static uint8_t in[6 * BYTES], lower[BYTES] __attribute__((aligned(16))), upper[BYTES] __attribute__((aligned(16)));
    unsigned long long tiles = 0, differ[4] = { 0, 0, 0, 0 };
    while (fread(in, 1, sizeof in, stdin) == sizeof in) {
        tiles++;
        for (int k = 0; k < 4; k++) {
            memcpy(upper, in, BYTES);
            memcpy(lower, in + BYTES, BYTES);
            pixman_image_t *u = image(upper), *d = image(lower);
            pixman_image_composite32(operations[k].op, u, NULL, d, 0, 0, 0, 0, 0, 0, SIDE, SIDE);
            pixman_image_unref(u);
            pixman_image_unref(d);
            for (int i = 0; i < BYTES; i++) differ[k] += lower[i] != in[(2 + k) * BYTES + i];
        }
    }
    int failed = tiles == 0;
    for (int k = 0; k < 4; k++) {
        printf("%s: %llu of %llu pixels' bytes differ from pixman's\n", operations[k].name, differ[k], tiles * PIXELS);
        failed |= differ[k] != 0;
    }
    return failed;
}

int main(int count, char **words) {
    if (count > 1 && strcmp(words[1], "compare") == 0) return compare();
    static uint8_t u[BYTES] __attribute__((aligned(16))), d[BYTES] __attribute__((aligned(16)));
    time_all(u, d, "Noise");
    time_all(u, d, "Opaque");
    time_all(u, d, "Clear");
    return 0;
}
