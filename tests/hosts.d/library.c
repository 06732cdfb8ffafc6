/* Reads calls 'CODE COUNT A B C D' from standard input, and prints what the library answers to each at the width that
   is the only argument: '0 FIRST SECOND', or 'refused NUMBER'. */
#include <inttypes.h>
#include <stdio.h>
#include <stdlib.h>
#include "quebralua.h"

int main(int argc, char **argv) {
    if (argc != 2) return 2;
    uint64_t width = strtoull(argv[1], NULL, 10), code, count;
    int64_t a, b, c, d;
    while (scanf("%" SCNu64 "%" SCNu64 "%" SCNd64 "%" SCNd64 "%" SCNd64 "%" SCNd64, &code, &count, &a, &b, &c, &d) == 6) {
        ql_fixnum_answer answer = ql_fixnum(width, code, count, a, b, c, d);
        if (answer.refusal)
            printf("refused %" PRIu64 "\n", answer.refusal);
        else
            printf("0 %" PRId64 " %" PRId64 "\n", answer.first, answer.second);
    }
    return 0;
}
