// The box blur with sums of columns that move along, for a comparison of times: a line for each side and radius,
// with the least time of a pixel in thousandths of a nanosecond.
#include <stdint.h>
#include <stdio.h>
#include <stdlib.h>
#include <string.h>
#include <time.h>

// what the results hold is read, so that none is left out
static volatile uint8_t seen;

static uint8_t *blur(const uint8_t *input, int n, int w, int h) {
    int wide = 4 * (w + 2 * n), side = 2 * n + 1;
    uint32_t count = side * side;
    uint64_t factor = (1ull << 32) / count + 1;
    uint8_t *out = malloc(4 * w * h);
    uint16_t *columns = calloc(wide, 2);
    for (int j = 0; j < side - 1; j++)
        for (int c = 0; c < wide; c++) columns[c] += input[j * wide + c];
    for (int y = 0; y < h; y++) {
        const uint8_t *next = input + (y + side - 1) * wide, *gone = input + y * wide;
        for (int c = 0; c < wide; c++) columns[c] += next[c];
        uint32_t r = 0, g = 0, b = 0, m = 0;
        for (int i = 0; i < side - 1; i++) {
            r += columns[4 * i], g += columns[4 * i + 1], b += columns[4 * i + 2], m += columns[4 * i + 3];
        }
        uint8_t *line = out + 4 * w * y;
        for (int x = 0; x < w; x++) {
            const uint16_t *in = columns + 4 * (x + side - 1), *before = columns + 4 * x;
            r += in[0], g += in[1], b += in[2], m += in[3];
            line[4 * x] = r * factor >> 32;
            line[4 * x + 1] = g * factor >> 32;
            line[4 * x + 2] = b * factor >> 32;
            line[4 * x + 3] = m * factor >> 32;
            r -= before[0], g -= before[1], b -= before[2], m -= before[3];
        }
        for (int c = 0; c < wide; c++) columns[c] -= gone[c];
    }
    free(columns);
    return out;
}

int main(void) {
    int sides[] = {64, 192}, radii[] = {1, 2, 4, 8, 16};
    for (int s = 0; s < 2; s++)
        for (int k = 0; k < 5; k++) {
            int w = sides[s], n = radii[k], size = 4 * (w + 2 * n) * (w + 2 * n);
            uint8_t *input = malloc(size);
            for (int i = 0; i < size; i++) input[i] = i % 4 == 3 ? 255 : rand();
            uint64_t least = ~0ull;
            for (int round = 0; round < 400; round++) {
                struct timespec a, b;
                clock_gettime(CLOCK_MONOTONIC, &a);
                uint8_t *out = blur(input, n, w, w);
                clock_gettime(CLOCK_MONOTONIC, &b);
                seen = out[w];
                free(out);
                uint64_t t = (b.tv_sec - a.tv_sec) * 1000000000ull + b.tv_nsec - a.tv_nsec;
                if (t < least) least = t;
            }
            printf("blur %d %d %llu\n", w, n, (unsigned long long)(least * 1000 / (w * w)));
            free(input);
        }
}
