// The kernels that bench/columns.py and bench/stats.py time beside those of columns, as plain loops over the layout that columns aim at: numbers in a list
// of their own width, truths as two lists of words, the bits of validity and those of the values.
//
// columns KERNEL ROWS TIMES prints the kernel's name and nanoseconds for each call, a line each, and then how many rows the answer has, or
// has true, or the sum of the statistics: as the program vx_bench does, over the same rows.
#include <inttypes.h>
#include <stdint.h>
#include <stdio.h>
#include <stdlib.h>
#include <string.h>
#include <time.h>

#define PLACES 64

struct truths {
    uint64_t *valid;
    uint64_t *values;
};

static void *taken(size_t bytes) {
    void *at = malloc(bytes ? bytes : 1);
    if (!at) {
        exit(1);
    }
    return at;
}

static size_t words_for(size_t rows) {
    return (rows + PLACES - 1) / PLACES;
}

static struct truths truths_taken(size_t rows) {
    size_t bytes = words_for(rows) * sizeof(uint64_t);
    struct truths made = {taken(bytes), taken(bytes)};
    return made;
}

static void free_truths(struct truths truths) {
    free(truths.valid);
    free(truths.values);
}

static uint64_t mixed(uint64_t place) {
    return place * UINT64_C(0x9E3779B97F4A7C15);
}

static int64_t *numbers(size_t rows) {
    int64_t *made = taken(rows * sizeof(int64_t));
    for (size_t i = 0; i < rows; i++) {
        made[i] = (int64_t)((mixed(i) >> 40) % 100);
    }
    return made;
}

// Truths at rows: null where a number is 0, else true where it is odd.
static struct truths truths(size_t rows, size_t from) {
    struct truths made = truths_taken(rows);
    memset(made.valid, 0, words_for(rows) * sizeof(uint64_t));
    memset(made.values, 0, words_for(rows) * sizeof(uint64_t));
    for (size_t i = 0; i < rows; i++) {
        uint64_t number = (mixed(from + i) >> 40) % 8;
        made.valid[i / PLACES] |= (uint64_t)(number != 0) << (i % PLACES);
        made.values[i / PLACES] |= (number & 1) << (i % PLACES);
    }
    return made;
}

// Truths at the places of so many words, all of whose bits are used.
static struct truths words(size_t rows, size_t from) {
    size_t count = words_for(rows);
    struct truths made = truths_taken(rows);
    for (size_t k = 0; k < count; k++) {
        made.valid[k] = mixed(from + k);
        made.values[k] = mixed(from + count + k);
    }
    return made;
}

static size_t true_count(struct truths truths, size_t rows) {
    size_t count = 0;
    for (size_t k = 0; k < words_for(rows); k++) {
        count += (size_t)__builtin_popcountll(truths.values[k]);
    }
    return count;
}

// The kernels. None is inlined, so that each call does its work.
#define KERNEL static __attribute__((noinline))

KERNEL void and_words(const uint64_t *lv, const uint64_t *lb, const uint64_t *rv, const uint64_t *rb, uint64_t *ov, uint64_t *ob, size_t n) {
    for (size_t k = 0; k < n; k++) {
        ov[k] = (lv[k] & rv[k]) | (lv[k] & ~lb[k]) | (rv[k] & ~rb[k]);
        ob[k] = lv[k] & lb[k] & rv[k] & rb[k];
    }
}

KERNEL void or_words(const uint64_t *lv, const uint64_t *lb, const uint64_t *rv, const uint64_t *rb, uint64_t *ov, uint64_t *ob, size_t n) {
    for (size_t k = 0; k < n; k++) {
        ov[k] = (lv[k] & rv[k]) | (lv[k] & lb[k]) | (rv[k] & rb[k]);
        ob[k] = (lv[k] & lb[k]) | (rv[k] & rb[k]);
    }
}

KERNEL void not_words(const uint64_t *v, const uint64_t *b, uint64_t *ov, uint64_t *ob, size_t n) {
    for (size_t k = 0; k < n; k++) {
        ov[k] = v[k];
        ob[k] = v[k] & ~b[k];
    }
}

// Which numbers are above a constant.
KERNEL struct truths compare(const int64_t *numbers, size_t rows, int64_t least) {
    struct truths made = truths_taken(rows);
    for (size_t k = 0; k < words_for(rows); k++) {
        size_t places = rows - k * PLACES < PLACES ? rows - k * PLACES : PLACES;
        uint64_t valid = 0, values = 0;
        for (size_t i = 0; i < places; i++) {
            valid |= UINT64_C(1) << i;
            values |= (uint64_t)(numbers[k * PLACES + i] > least) << i;
        }
        made.valid[k] = valid;
        made.values[k] = values;
    }
    return made;
}

// The numbers where truths are true, and how many these are.
KERNEL int64_t *filter(const int64_t *numbers, struct truths keep, size_t rows, size_t *count) {
    int64_t *made = taken(rows * sizeof(int64_t));
    size_t n = 0;
    for (size_t i = 0; i < rows; i++) {
        uint64_t word = keep.valid[i / PLACES] & keep.values[i / PLACES];
        if (word >> (i % PLACES) & 1) {
            made[n++] = numbers[i];
        }
    }
    *count = n;
    return made;
}

KERNEL struct truths and_kleene(struct truths l, struct truths r, size_t rows) {
    struct truths made = truths_taken(rows);
    and_words(l.valid, l.values, r.valid, r.values, made.valid, made.values, words_for(rows));
    return made;
}

// How many blocks the table has whose statistics are built.
#define BLOCKS 1000

struct statistics {
    int64_t least;
    int64_t greatest;
    size_t nulls;
};

// The least and the greatest number and the count of nulls of each block, of as many rows each. The bits of validity of all rows stand in one
// list of words, of those of a block in words of its own.
KERNEL struct statistics *build_stats(const int64_t *numbers, const uint64_t *valid, size_t rows) {
    struct statistics *made = taken(BLOCKS * sizeof(struct statistics));
    size_t words = words_for(rows);
    for (size_t b = 0; b < BLOCKS; b++) {
        const int64_t *block = numbers + b * rows;
        int64_t least = INT64_MAX, greatest = INT64_MIN;
        for (size_t i = 0; i < rows; i++) {
            least = block[i] < least ? block[i] : least;
            greatest = block[i] > greatest ? block[i] : greatest;
        }
        size_t known = 0;
        for (size_t k = 0; k < words; k++) {
            known += (size_t)__builtin_popcountll(valid[b * words + k]);
        }
        made[b] = (struct statistics){least, greatest, rows - known};
    }
    return made;
}

static uint64_t now(void) {
    struct timespec at;
    clock_gettime(CLOCK_MONOTONIC, &at);
    return (uint64_t)at.tv_sec * 1000000000 + (uint64_t)at.tv_nsec;
}

static void print_since(const char *kernel, uint64_t start) {
    printf("%s %" PRIu64 "\n", kernel, now() - start);
}

static size_t time_words(const char *kernel, size_t rows, int times) {
    struct truths l = words(rows, 0), r = words(rows, rows), out = words(rows, 0);
    for (int i = 0; i < times; i++) {
        uint64_t start = now();
        if (!strcmp(kernel, "and_words")) {
            and_words(l.valid, l.values, r.valid, r.values, out.valid, out.values, words_for(rows));
        } else if (!strcmp(kernel, "or_words")) {
            or_words(l.valid, l.values, r.valid, r.values, out.valid, out.values, words_for(rows));
        } else {
            not_words(l.valid, l.values, out.valid, out.values, words_for(rows));
        }
        print_since(kernel, start);
    }
    return true_count(out, rows);
}

static size_t time_compare(size_t rows, int times) {
    int64_t *given = numbers(rows);
    size_t answer = 0;
    for (int i = 0; i < times; i++) {
        uint64_t start = now();
        struct truths made = compare(given, rows, 50);
        print_since("compare", start);
        answer = true_count(made, rows);
        free_truths(made);
    }
    return answer;
}

static size_t time_filter(size_t rows, int times) {
    int64_t *given = numbers(rows);
    struct truths keep = truths(rows, rows);
    size_t answer = 0;
    for (int i = 0; i < times; i++) {
        uint64_t start = now();
        int64_t *made = filter(given, keep, rows, &answer);
        print_since("filter", start);
        free(made);
    }
    return answer;
}

static size_t time_and_kleene(size_t rows, int times) {
    struct truths l = truths(rows, 0), r = truths(rows, rows);
    size_t answer = 0;
    for (int i = 0; i < times; i++) {
        uint64_t start = now();
        struct truths made = and_kleene(l, r, rows);
        print_since("and_kleene", start);
        answer = true_count(made, rows);
        free_truths(made);
    }
    return answer;
}

// Bits of validity for as many blocks, of so many rows each, none of which is null.
static uint64_t *all_valid(size_t rows) {
    size_t words = words_for(rows);
    uint64_t *valid = taken(BLOCKS * words * sizeof(uint64_t));
    for (size_t k = 0; k < BLOCKS * words; k++) {
        size_t from = k % words * PLACES, places = rows - from < PLACES ? rows - from : PLACES;
        valid[k] = places == PLACES ? UINT64_MAX : (UINT64_C(1) << places) - 1;
    }
    return valid;
}

// The answer is the sum of the statistics.
static size_t time_build_stats(size_t rows, int times) {
    int64_t *given = numbers(rows);
    uint64_t *valid = all_valid(rows / BLOCKS);
    size_t answer = 0;
    for (int i = 0; i < times; i++) {
        uint64_t start = now();
        struct statistics *made = build_stats(given, valid, rows / BLOCKS);
        print_since("build_stats", start);
        answer = 0;
        for (size_t b = 0; b < BLOCKS; b++) {
            answer += (size_t)made[b].least + (size_t)made[b].greatest + made[b].nulls;
        }
        free(made);
    }
    return answer;
}

int main(int count, char **words) {
    if (count != 4) {
        return 2;
    }
    const char *kernel = words[1];
    size_t rows = strtoull(words[2], NULL, 10);
    int times = atoi(words[3]);
    size_t answer;
    if (!strcmp(kernel, "compare")) {
        answer = time_compare(rows, times);
    } else if (!strcmp(kernel, "filter")) {
        answer = time_filter(rows, times);
    } else if (!strcmp(kernel, "and_kleene")) {
        answer = time_and_kleene(rows, times);
    } else if (!strcmp(kernel, "build_stats")) {
        answer = time_build_stats(rows, times);
    } else {
        answer = time_words(kernel, rows, times);
    }
    printf("answer %zu\n", answer);
    return 0;
}
