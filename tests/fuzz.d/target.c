/* What libFuzzer runs: the first sixteen bytes choose the inputs, and the others are the rule. Both calls of the library
   are compared with the second implementation. The rule and the inputs each end at a page that cannot be read. */

#include "quebralua.h"
#include <stdio.h>
#include <stdlib.h>
#include <string.h>
#include <sys/mman.h>
#include <unistd.h>

enum { INPUTS = 16, LONGEST = 8192 };

/* Refusal, place, offset, and the value or the width. */
typedef int64_t answer[4];

void reference_rule_read(const uint8_t *rule, size_t n, answer *answer);
void reference_rule_evaluate(const uint8_t *rule, size_t n, const int64_t *inputs, size_t ninputs, answer *answer);

/* libFuzzer keeps an input that sets one of these which no other has set. */
__attribute__((section("__libfuzzer_extra_counters"))) static uint8_t answers[1024];

/* Writable memory of that size, which a page that cannot be read follows. The end of the memory. */
static uint8_t *guarded(size_t size) {
    size_t page = (size_t)sysconf(_SC_PAGESIZE);
    size = (size + page - 1) / page * page;
    uint8_t *memory = mmap(NULL, size + page, PROT_READ | PROT_WRITE, MAP_PRIVATE | MAP_ANONYMOUS, -1, 0);
    if (memory == MAP_FAILED || mprotect(memory + size, page, PROT_NONE) != 0) {
        perror("a guarded page");
        exit(2);
    }
    return memory + size;
}

/* Small numbers, and those around the limits of each width. */
static int64_t input(uint8_t byte) {
    uint64_t power = (uint64_t)1 << (byte & 63);
    switch (byte >> 6) {
    case 0: return byte & 63;
    case 1: return (int64_t)power;
    case 2: return (int64_t)(power - 1);
    default: return (int64_t)-power;
    }
}

/* Short offsets one by one, greater ones by the place of their highest bit. */
static void note(uint64_t refusal, uint64_t place, uint64_t offset) {
    size_t far = offset < 512 ? offset : 512 + (size_t)(63 - __builtin_clzll(offset));
    answers[(refusal == 10 ? 256 + far : 8 * refusal + place) % sizeof answers] = 1;
}

static void compare(const char *call, const answer got, const answer expected, const uint8_t *rule, size_t n,
                    const int64_t *inputs) {
    if (memcmp(got, expected, sizeof(answer)) == 0) return;
    fprintf(stderr, "DIFFERENCE\nuint8_t rule[] = {");
    for (size_t i = 0; i < n; i++) fprintf(stderr, "%s%#x", i ? ", " : "", rule[i]);
    fprintf(stderr, "};\nint64_t inputs[] = {");
    for (size_t i = 0; i < INPUTS; i++) fprintf(stderr, "%s%lld", i ? ", " : "", (long long)inputs[i]);
    fprintf(stderr, "};\n%s: refusal, place, offset, value\n", call);
    const int64_t *both[] = {expected, got};
    for (int i = 0; i < 2; i++) {
        const int64_t *a = both[i];
        fprintf(stderr, "%s %lld %lld %lld %lld\n", i ? "got:     " : "expected:", (long long)a[0], (long long)a[1],
                (long long)a[2], (long long)a[3]);
    }
    abort();
}

int LLVMFuzzerTestOneInput(const uint8_t *data, size_t size) {
    static uint8_t *rule_end, *inputs_end;
    if (rule_end == NULL) {
        rule_end = guarded(LONGEST);
        inputs_end = guarded(INPUTS * sizeof(int64_t));
    }
    if (size < INPUTS || size - INPUTS > LONGEST) return 0;
    size_t n = size - INPUTS;
    uint8_t *rule = rule_end - n;
    memcpy(rule, data + INPUTS, n);
    int64_t *inputs = (int64_t *)inputs_end - INPUTS;
    for (int i = 0; i < INPUTS; i++) inputs[i] = input(data[i]);

    answer expected;
    ql_rule_read_answer read = ql_rule_read(rule, n);
    answer got_read = {(int64_t)read.refusal, 0, (int64_t)read.offset, (int64_t)read.width};
    reference_rule_read(rule, n, &expected);
    compare("ql_rule_read", got_read, expected, rule, n, inputs);

    ql_rule_answer evaluated = ql_rule_evaluate(rule, n, inputs, INPUTS);
    answer got = {(int64_t)evaluated.refusal, (int64_t)evaluated.place, (int64_t)evaluated.offset, evaluated.value};
    reference_rule_evaluate(rule, n, inputs, INPUTS, &expected);
    compare("ql_rule_evaluate", got, expected, rule, n, inputs);
    note(evaluated.refusal, evaluated.place, evaluated.offset);
    return 0;
}
