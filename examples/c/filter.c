/* A filter over columns: the bytes that a predicate names, what it asks and needs, the blocks that it rules out by their statistics, and the rows at which it
 * is true. `make` beside this file builds and runs it; filter.txt is what it prints. Numbers stand in memory with the least byte first, as on most machines. */
#include "vx.h"

#include <stddef.h>
#include <stdio.h>
#include <stdlib.h>
#include <string.h>

#define TEXT(text) (const uint8_t *)(text), strlen(text)
#define PLACE(type, member) offsetof(type, member), sizeof(((type *)0)->member)
#define NOTHING_HIDDEN 0, 0

static const char *const SCHEMA = "{\"columns\":[{\"name\":\"price\",\"type\":\"i32?\"},{\"name\":\"city\",\"type\":\"utf8\"}],\"blocks\":[]}";
static const char *const PREDICATE = "price > 10 AND city IN ('Rome', 'Oslo')";

/* What a call wrote last. */
static uint8_t answer[4096];
static size_t written;

/* Ends the program where a call was refused, or its answer had no room. */
static void done(uint8_t status) {
    if (status == VX_DONE)
        return;
    fprintf(stderr, "status %d: %.*s\n", status, status == VX_TOO_SHORT ? 0 : (int)written, (const char *)answer);
    exit(1);
}

/* The numbers of the bits that are 1. */
static void print_bits(const char *name, size_t count) {
    printf("%s", name);
    for (size_t i = 0; i < count; i++)
        if (answer[i / 8] >> i % 8 & 1)
            printf(" %zu", i);
    printf("\n");
}

/* The statistics of three blocks, in the order that vx_filter_statistics tells: the greatest price, and the least and the greatest city. */
struct statistics {
    int32_t greatest_price[3];
    uint32_t least_offsets[4], greatest_offsets[4];
    char least_cities[12], greatest_cities[12];
};

static void print_blocks(const uint8_t *filter, size_t length) {
    static const struct statistics statistics = {{12, 30, 7}, {0, 4, 8, 12}, {0, 4, 8, 12}, "OsloBernOslo", "RomeBonnRome"};
    static const uint64_t buffers[] = {
        NOTHING_HIDDEN, PLACE(struct statistics, greatest_price),
        NOTHING_HIDDEN, PLACE(struct statistics, least_offsets), PLACE(struct statistics, least_cities),
        NOTHING_HIDDEN, PLACE(struct statistics, greatest_offsets), PLACE(struct statistics, greatest_cities),
    };
    static const uint32_t lengths[] = {3, 2, 4};
    done(vx_rules_out(TEXT(SCHEMA), filter, length, lengths, 3, (const uint8_t *)&statistics, sizeof statistics, buffers, sizeof buffers / sizeof *buffers,
                      answer, sizeof answer, &written));
    print_bits("ruled out: blocks", 3);
}

/* Five rows: their prices, of which the third is null, and their cities. */
struct rows {
    uint8_t known[1];
    int32_t prices[5];
    uint32_t offsets[6];
    char cities[20];
};

static void print_rows(const uint8_t *filter, size_t length) {
    static const struct rows rows = {{1 | 2 | 8 | 16}, {12, 8, 0, 30, 3}, {0, 4, 8, 12, 16, 20}, "RomeOsloRomeOsloBern"};
    static const uint64_t buffers[] = {
        PLACE(struct rows, known), PLACE(struct rows, prices),
        NOTHING_HIDDEN, PLACE(struct rows, offsets), PLACE(struct rows, cities),
    };
    done(vx_rows(TEXT(SCHEMA), filter, length, 5, (const uint8_t *)&rows, sizeof rows, buffers, sizeof buffers / sizeof *buffers,
                 answer, sizeof answer, &written));
    print_bits("true: rows", 5);
}

int main(void) {
    uint8_t filter[4096];
    size_t length;
    done(vx_filter(TEXT(SCHEMA), TEXT(PREDICATE), filter, sizeof filter, &length));
    printf("filter: %zu bytes\n", length);
    done(vx_filter_columns(TEXT(SCHEMA), filter, length, answer, sizeof answer, &written));
    printf("columns: %.*s\n", (int)written, (const char *)answer);
    done(vx_filter_statistics(TEXT(SCHEMA), filter, length, answer, sizeof answer, &written));
    printf("statistics: %.*s\n", (int)written, (const char *)answer);
    print_blocks(filter, length);
    print_rows(filter, length);
    uint8_t status = vx_filter(TEXT(SCHEMA), TEXT("cost > 10"), answer, sizeof answer, &written);
    printf("cost > 10: status %d, %.*s\n", status, (int)written, (const char *)answer);
    return 0;
}
