// Reads files whole and writes frame files of a size, and does nothing else: what a renderer of these files and frames
// cannot go below.
//
//     floor BASE FROM TO BYTES FILE..
#include <stdio.h>
#include <stdlib.h>

static void fail(const char *what, const char *name) {
    fprintf(stderr, "%s: %s\n", what, name);
    exit(1);
}

static void read_whole(const char *name) {
    FILE *file = fopen(name, "rb");
    if (!file || fseek(file, 0, SEEK_END)) fail("cannot read", name);
    size_t length = ftell(file);
    rewind(file);
    char *bytes = malloc(length ? length : 1);
    if (!bytes || fread(bytes, 1, length, file) != length) fail("cannot read", name);
    fclose(file);
    // As a renderer keeps its drawings, it stays.
}

int main(int count, char **words) {
    if (count < 5) fail("usage", "floor BASE FROM TO BYTES FILE..");
    size_t length = strtoull(words[4], 0, 10);
    for (int i = 5; i < count; i++) read_whole(words[i]);
    char *frame = calloc(length ? length : 1, 1);
    if (!frame) fail("no memory", "frame");
    for (int row = atoi(words[2]); row <= atoi(words[3]); row++) {
        char name[300], other[310];
        snprintf(name, sizeof name, "%s.%04d.xfr", words[1], row);
        snprintf(other, sizeof other, ".%s.new", name);
        frame[0] = (char)row;
        FILE *file = fopen(other, "wb");
        if (!file || fwrite(frame, 1, length, file) != length || fclose(file) || rename(other, name))
            fail("cannot write", name);
    }
    return 0;
}
