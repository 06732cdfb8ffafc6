/* Folds the bytes of a file by ql_fold_chunk, several times, each time from 0, and prints a line each time: the processor's
   nanoseconds and the accumulator. For bench/fold. Arguments: file, times, width, start, end, count. */
#include "quebralua.h"
#include <inttypes.h>
#include <stdio.h>
#include <stdlib.h>
#include <time.h>

static int64_t nanoseconds(void) {
    struct timespec now;
    clock_gettime(CLOCK_PROCESS_CPUTIME_ID, &now);
    return now.tv_sec * INT64_C(1000000000) + now.tv_nsec;
}

static uint8_t *read_all(const char *path, size_t *n) {
    FILE *file = fopen(path, "rb");
    if (!file || fseek(file, 0, SEEK_END) != 0) return NULL;
    *n = (size_t)ftell(file);
    rewind(file);
    uint8_t *bytes = malloc(*n);
    if (bytes && fread(bytes, 1, *n, file) != *n) return NULL;
    fclose(file);
    return bytes;
}

int main(int argc, char **argv) {
    size_t n;
    uint8_t *bytes = argc == 7 ? read_all(argv[1], &n) : NULL;
    if (!bytes) {
        fprintf(stderr, "usage: fold file times width start end count\n");
        return 2;
    }
    for (int left = atoi(argv[2]); left > 0; left--) {
        ql_fold fold;
        if (ql_fold_open(&fold, strtoull(argv[3], NULL, 10), atoll(argv[4]), atoll(argv[5]), atoll(argv[6]), 0).refusal) return 1;
        int64_t start = nanoseconds();
        uint64_t refusal = ql_fold_chunk(&fold, bytes, n);
        int64_t taken = nanoseconds() - start;
        ql_value read = ql_fold_read(&fold);
        if (refusal || read.refusal) return 1;
        printf("%" PRId64 " %" PRId64 "\n", taken, read.value);
    }
    free(bytes);
    return 0;
}
