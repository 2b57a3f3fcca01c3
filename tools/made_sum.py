#!/usr/bin/env python3
"""Tells what `vazhettin make SEED ROWS 1` must print last: the sum of all bytes of the pixels of its frames, worked out
pixel by pixel from the formats alone.

    made_sum.py SEED ROWS

Prints one number. It takes about half a second a row."""

import sys

WIDTH, HEIGHT, SIDE = 192, 128, 64
CLEAR = (0, 0, 0, 0)


class Draws:
    """The numbers of a seed."""

    def __init__(self, seed):
        self.state = seed

    def below(self, bound):
        self.state = (self.state * 6364136223846793005 + 1442695040888963407) % 2**64
        return (self.state >> 33) % bound


def product(a, b):
    """The product of two channels, where 255 is one."""
    return (a * b + 127) // 255


def over(upper, lower):
    return tuple(u + product(d, 255 - upper[3]) for u, d in zip(upper, lower))


def inside(upper, matte):
    return tuple(product(u, matte[3]) for u in upper)


def colour(palette, ink, paint, tone):
    return tuple((a * (255 - tone) + b * tone) // 255 for a, b in zip(palette[ink], palette[paint]))


def drawing(draws, palette):
    """The corner of a drawing, and its pixels from the lowest row up."""
    corner = draws.below(64), draws.below(32)
    words = [(draws.below(8), draws.below(8), draws.below(256)) for _ in range(SIDE * SIDE)]
    return corner, [colour(palette, *word) for word in words]


def scene(seed, rows):
    """The grey background, the drawings of three levels, the keys of the peg, and what each column shows by row."""
    draws = Draws(seed)
    palette = [CLEAR] + [(draws.below(256), draws.below(256), draws.below(256), 255) for _ in range(7)]
    background = [draws.below(256) for _ in range(WIDTH * HEIGHT)]
    levels = [[drawing(draws, palette) for _ in range(4)] for _ in range(3)]
    keys = [(row, draws.below(33) - 16, draws.below(17) - 8) for row in range(1, rows + 1, 8)]
    columns = [[draws.below(4) for _ in range((rows + 1) // 2)] for _ in range(3)]
    return background, levels, keys, columns


def pixel(shown, x, y):
    (left, low), pixels = shown
    column, line = x - left, y - low
    return pixels[line * SIDE + column] if 0 <= column < SIDE and 0 <= line < SIDE else CLEAR


def row_sum(made, row):
    background, levels, keys, columns = made
    first, second, third = (level[column[(row - 1) // 2]] for level, column in zip(levels, columns))
    _, right, up = [key for key in keys if key[0] <= row][-1]
    total = 0
    for y in range(HEIGHT):
        for x in range(WIDTH):
            grey = background[y * WIDTH + x]
            matte = pixel(first, x, y)
            seen = over(matte, (grey, grey, grey, 255))
            seen = over(inside(pixel(second, x - right, y - up), matte), seen)
            total += sum(over(pixel(third, x, y), seen))
    return total


def main():
    if len(sys.argv) != 3:
        sys.exit(__doc__)
    seed, rows = int(sys.argv[1]), int(sys.argv[2])
    made = scene(seed, rows)
    print(sum(row_sum(made, row) for row in range(1, rows + 1)))


if __name__ == "__main__":
    main()
