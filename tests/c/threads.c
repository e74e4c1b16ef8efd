/*
 * Handles and threads: eight threads, each with a handle of its own, that is lent memory of its own; and eight threads that look at one handle
 * side by side. A checker of threads finds nothing to report. threads.c ROUNDS: how many rounds of calls each thread makes.
 */
#include <inttypes.h>
#include <pthread.h>
#include <stdio.h>
#include <stdlib.h>

#include "rviommu.h"

#define THREADS 8
#define BASE 0x80000000u
#define COUNT 0x4000 /* words: 128 KiB */
#define IOVA 0x40201000u

static long rounds;
static rviommu_t seen; /* the handle that all look at, which is lent `shared` */
static uint64_t shared[COUNT];

/* Device 5 is led by Sv39 from IOVA to BASE + 0x10000. */
static void map(uint64_t *words) {
    static const uint64_t tables[][2] = {{0x10a0, 1}, {0x10b8, 0x8000000000080002}, {0x2008, 0x20000c01}, {0x3008, 0x20001001}, {0x4008, 0x200040d7}};
    for (size_t i = 0; i < sizeof tables / sizeof *tables; i++) {
        words[tables[i][0] / 8] = tables[i][1];
    }
}

static bool is_opened(rviommu_t *handle, uint64_t *words) {
    map(words);
    return rviommu_open_lent(BASE, 8 * COUNT, handle) == RVIOMMU_OK && rviommu_reg_write_lent(handle, words, COUNT, 0x10, 8, 0x20000402) == RVIOMMU_DONE;
}

/* A handle of its own: accesses, and writes of its words between them. NULL if each answer was right. */
static void *use_own(void *given) {
    uint64_t *words = calloc(COUNT, 8), address = 0, cause = 0;
    rviommu_t own = {NULL};
    uint8_t bytes[8];
    bool is_right = words != NULL && is_opened(&own, words);
    for (long round = 0; is_right && round < rounds; round++) {
        words[0x10000 / 8] = (uint64_t)round;
        is_right = rviommu_translate_lent(&own, words, COUNT, 5, IOVA, false, &address) == RVIOMMU_VALUE && address == BASE + 0x10000 &&
                   rviommu_dma_read_lent(&own, words, COUNT, 5, IOVA, bytes, 8, &cause) == RVIOMMU_BYTES && bytes[0] == (uint8_t)round &&
                   rviommu_dma_write_lent(&own, words, COUNT, 5, IOVA + 8, bytes, 8, &cause) == RVIOMMU_DONE;
    }
    if (words != NULL) {
        rviommu_close(&own);
    }
    free(words);
    return is_right ? NULL : given;
}

/* Looks at the handle of all. */
static void *look(void *given) {
    struct rviommu_page_place page;
    struct rviommu_way way;
    struct rviommu_why why;
    uint64_t address = 0, value = 0, base = 0, size = 0;
    size_t owed = 1;
    bool is_right = true;
    for (long round = 0; is_right && round < rounds; round++) {
        rviommu_memory_place(&seen, &base, &size);
        is_right = base == BASE && size == 8 * COUNT && rviommu_page(&seen, 0, &page) == RVIOMMU_LIVE && page.did == 5 &&
                   rviommu_way_now_lent(&seen, shared, COUNT, 5, IOVA + 5, false, &way, &address) == RVIOMMU_OK && address == BASE + 0x10005 &&
                   rviommu_reg_look(&seen, 0x10, 8, &value) == RVIOMMU_OK && value == 0x20000402 && rviommu_interrupt(&seen) == 0 &&
                   rviommu_messages_sent(&seen) == 0 && rviommu_message(&seen, 0, NULL) == RVIOMMU_NOT_THERE &&
                   rviommu_reason(&seen, 1, &why) == RVIOMMU_OK && why.address == BASE + 0x10000 && rviommu_steps(&seen) == 2 &&
                   rviommu_settled_lent(&seen, shared, COUNT, 5, IOVA, false, NULL) == RVIOMMU_OK &&
                   rviommu_owed_lent(&seen, shared, COUNT, NULL, 0, &owed) == RVIOMMU_OK && owed == 0 &&
                   rviommu_may_free(&seen, BASE + 0x10000, 4096, NULL) == RVIOMMU_NAMED;
    }
    return is_right ? NULL : given;
}

static bool all_right(void *(*work)(void *)) {
    pthread_t threads[THREADS];
    bool is_right = true;
    for (int i = 0; i < THREADS; i++) {
        if (pthread_create(&threads[i], NULL, work, &seen) != 0) {
            exit(1);
        }
    }
    for (int i = 0; i < THREADS; i++) {
        void *wrong = NULL;
        pthread_join(threads[i], &wrong);
        is_right = is_right && wrong == NULL;
    }
    return is_right;
}

int main(int count, char **names) {
    uint64_t address = 0;
    rounds = count > 1 ? atol(names[1]) : 1000;
    bool is_right = is_opened(&seen, shared);
    rviommu_keep_holdings(&seen, true);
    is_right = is_right && rviommu_translate_lent(&seen, shared, COUNT, 5, IOVA, false, &address) == RVIOMMU_VALUE;
    is_right = is_right && all_right(use_own) && all_right(look);
    rviommu_close(&seen);
    printf(is_right ? "passed\n" : "failed\n");
    return !is_right;
}
