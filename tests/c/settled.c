/*
 * settled: whether requests are settled, and what is owed, after faults that drivers make: a page that is unmapped and not invalidated, a table that is
 * freed, and more pages than the caches have places. Whether memory may be freed, by each kind of entry. Memory that is lent, memory that is refused, and
 * handles that keep no holdings. Linked with --wrap=malloc and --wrap=realloc, so that allocations are counted, and one can be refused.
 */
#include <inttypes.h>
#include <stdio.h>
#include <stdlib.h>
#include <string.h>

#include "refusable.h"
#include "rviommu.h"
#include "want.h"

#define RAM 0x80000000u
#define SIZE 0x100000u
#define COUNT (SIZE / 8)
#define DID 5
#define IOVA 0x40200000u
#define LEAVES 0x80004000u  /* the table of leaves: 512 pages from IOVA on */
#define POINTER 0x80003008u /* the pointer to it */
#define QUEUE 0x80090000u
/* Device 6 of the fourth table of contexts. */
#define GUESTS 0x186
#define FENCE 2
#define VMA 1
/* Of one page, whose number stands in the second word; NL (no leaf) is 0, so pointers stay. */
#define VMA_OF_PAGE (VMA | 1 << 10)

static uint64_t leaf(uint64_t frame) { return frame << 10 | 0xd7; }

/* Device 5 is led by Sv39 to the table of leaves, and the command queue has 64 places. */
static void map(rviommu_t *platform) {
    static const uint64_t words[][2] = {{0x800010a0, 1}, {0x800010b8, 0x8000000000080002}, {0x80002008, 0x20000c01}, {POINTER, 0x20001001}};
    for (size_t i = 0; i < sizeof words / sizeof *words; i++) {
        want("a table", rviommu_store(platform, words[i][0], 8, words[i][1]), RVIOMMU_DONE);
    }
    for (uint64_t page = 0; page < 80; page++) {
        want("a leaf", rviommu_store(platform, LEAVES + 8 * page, 8, leaf(0x80010 + page)), RVIOMMU_DONE);
    }
    want("ddtp", rviommu_reg_write(platform, 0x10, 8, 0x20000402), RVIOMMU_DONE);
    want("cqb", rviommu_reg_write(platform, 0x18, 8, 0x20024005), RVIOMMU_DONE);
    want("cqcsr", rviommu_reg_write(platform, 0x48, 4, 1), RVIOMMU_DONE);
}

static void open_mapped(rviommu_t *platform, bool keeps) {
    want("opened", rviommu_open_built_in(platform), RVIOMMU_OK);
    if (keeps) {
        want("kept", rviommu_keep_holdings(platform, true), RVIOMMU_OK);
    }
    map(platform);
}

static void read_page(rviommu_t *platform, uint64_t page, uint32_t wanted) {
    want("a read", rviommu_dma_read(platform, DID, IOVA + 4096 * page + 8, NULL, 4, NULL), wanted);
}

/* The driver puts a command and a fence, and waits. */
static void command(rviommu_t *platform, uint64_t word, uint64_t page) {
    uint64_t tail = 0;
    const uint64_t words[4] = {word, page << 10, FENCE, 0};
    want("cqt", rviommu_reg_look(platform, 0x24, 4, &tail), RVIOMMU_OK);
    for (uint64_t i = 0; i < 4; i++) {
        want("a command", rviommu_store(platform, QUEUE + 16 * ((tail + i / 2) % 64) + 8 * (i % 2), 8, words[i]), RVIOMMU_DONE);
    }
    want("cqt", rviommu_reg_write(platform, 0x24, 4, (tail + 2) % 64), RVIOMMU_DONE);
    want("it is taken", rviommu_command(platform), RVIOMMU_DONE);
    want("the fence is taken", rviommu_command(platform), RVIOMMU_DONE);
}

static uint32_t settled(const rviommu_t *platform, uint64_t page, bool is_write, struct rviommu_unsettled *unsettled) {
    return rviommu_settled(platform, DID, IOVA + 4096 * page + 8, is_write, unsettled);
}

static void want_settled(const char *what, const rviommu_t *platform, uint64_t page) {
    struct rviommu_unsettled unsettled = {.number = 77};
    want(what, settled(platform, page, false, &unsettled), RVIOMMU_OK);
    want("nothing is put", unsettled.number, 77);
}

/* It may still go to this frame, as the entry leads it that the step of this number could read last; the tables deny it. */
static void want_unsettled(const struct rviommu_unsettled *unsettled, uint64_t frame, uint64_t number) {
    want("elsewhere", unsettled->elsewhere.kind, RVIOMMU_BY_WALK);
    want("its frame", unsettled->elsewhere.frame, frame);
    want("its device", unsettled->elsewhere.context.did, DID);
    want("the tables", unsettled->tables.kind, RVIOMMU_TO_NOWHERE);
    want("their cause", unsettled->tables.cause, 13);
    want("an entry", unsettled->has_number, true);
    want("its number", unsettled->number, number);
    want("all is fenced", unsettled->is_unfenced, false);
    want("no command", unsettled->unfenced, 0);
    want("room for more", unsettled->reserved[0] | unsettled->reserved[1], 0);
}

static size_t count_owed(const rviommu_t *platform) {
    size_t found = 77;
    want("owed", rviommu_all_owed(platform, NULL, 0, &found), RVIOMMU_OK);
    return found;
}

/* Between an invalidation and its fence the entry may still serve. */
static void test_fence(void) {
    rviommu_t platform = {NULL};
    struct rviommu_unsettled unsettled;
    const uint64_t words[4] = {VMA, 0, FENCE, 0};
    open_mapped(&platform, true);
    read_page(&platform, 0, RVIOMMU_BYTES);
    rviommu_store(&platform, LEAVES, 8, 0);
    for (uint64_t i = 0; i < 4; i++) {
        want("a command", rviommu_store(&platform, QUEUE + 8 * i, 8, words[i]), RVIOMMU_DONE);
    }
    want("cqt", rviommu_reg_write(&platform, 0x24, 4, 2), RVIOMMU_DONE);
    want("it is taken", rviommu_command(&platform), RVIOMMU_DONE);
    want("not fenced", settled(&platform, 0, false, &unsettled), RVIOMMU_UNSETTLED);
    want("a command", unsettled.is_unfenced, true);
    want("its step", unsettled.unfenced, rviommu_steps(&platform));
    want("the fence is taken", rviommu_command(&platform), RVIOMMU_DONE);
    want_settled("fenced", &platform, 0);
    rviommu_close(&platform);
}

/* A page is unmapped, and never used again: no access shows that the driver forgot an invalidation. */
static void test_unmapped(void) {
    rviommu_t platform = {NULL};
    struct rviommu_unsettled unsettled;
    struct rviommu_owed owed[3];
    size_t found = 0;
    uint64_t first, second;
    memset(owed, 0x55, sizeof owed);
    open_mapped(&platform, true);
    read_page(&platform, 0, RVIOMMU_BYTES);
    first = rviommu_steps(&platform);
    read_page(&platform, 1, RVIOMMU_BYTES);
    second = rviommu_steps(&platform);
    want_settled("before", &platform, 0);
    want("nothing is owed", count_owed(&platform), 0);
    rviommu_store(&platform, LEAVES, 8, 0);
    want("unmapped", settled(&platform, 0, false, &unsettled), RVIOMMU_UNSETTLED);
    want_unsettled(&unsettled, 0x80010, first);
    want("a write too", settled(&platform, 0, true, &unsettled), RVIOMMU_UNSETTLED);
    want("its cause", unsettled.tables.cause, 15);
    want("the output isn't wanted", settled(&platform, 0, false, NULL), RVIOMMU_UNSETTLED);
    want_settled("its neighbour", &platform, 1);
    want("owed", rviommu_all_owed(&platform, owed, 3, &found), RVIOMMU_OK);
    want("how many", found, 1);
    want_unsettled(&owed[0].unsettled, 0x80010, first);
    want("its page", owed[0].iova, IOVA);
    want("its step", owed[0].number, first);
    want("its device", owed[0].did, DID);
    want("it is a read", owed[0].is_write, false);
    want("the next place", ((uint8_t *)owed)[sizeof owed[0]], 0x55);
    rviommu_store(&platform, LEAVES + 8, 8, 0);
    want("owed", rviommu_all_owed(&platform, owed, 1, &found), RVIOMMU_OK);
    want("how many", found, 2);
    want("the next place", ((uint8_t *)owed)[sizeof owed[0]], 0x55);
    want("owed", rviommu_all_owed(&platform, owed, 2, NULL), RVIOMMU_OK);
    want("both", owed[0].number + owed[1].number, first + second);
    want("both pages", owed[0].iova + owed[1].iova, IOVA + IOVA + 4096);
    command(&platform, VMA_OF_PAGE, IOVA >> 12);
    want_settled("behind its invalidation", &platform, 0);
    want("the other is owed", count_owed(&platform), 1);
    command(&platform, VMA, 0);
    want("nothing is owed", count_owed(&platform), 0);
    rviommu_close(&platform);
}

/* A table is freed whose pages are invalidated one by one: the pointer to it may still be held, and its page is another's now. */
static void test_freed_table(void) {
    rviommu_t platform = {NULL};
    struct rviommu_unsettled unsettled;
    uint64_t last;
    open_mapped(&platform, true);
    read_page(&platform, 0, RVIOMMU_BYTES);
    read_page(&platform, 1, RVIOMMU_BYTES);
    last = rviommu_steps(&platform);
    rviommu_store(&platform, POINTER, 8, 0);
    command(&platform, VMA_OF_PAGE, IOVA >> 12);
    command(&platform, VMA_OF_PAGE, (IOVA >> 12) + 1);
    want("this model's caches are right", rviommu_stale(&platform, DID, IOVA, false, NULL), RVIOMMU_CURRENT);
    rviommu_store(&platform, LEAVES, 8, leaf(0x80033));
    want("others are not", settled(&platform, 0, false, &unsettled), RVIOMMU_UNSETTLED);
    want_unsettled(&unsettled, 0x80033, last);
    read_page(&platform, 0, RVIOMMU_DENIED);
    want("both are owed", count_owed(&platform), 2);
    command(&platform, VMA, 0);
    want_settled("the pointer is dropped", &platform, 0);
    want("nothing is owed", count_owed(&platform), 0);
    rviommu_close(&platform);
}

/* More pages are used than the caches have places: another IOMMU may have room for them all. */
static void test_seventy_pages(void) {
    rviommu_t platform = {NULL};
    struct rviommu_unsettled unsettled;
    struct rviommu_owed owed[70];
    size_t found = 0;
    uint64_t first;
    open_mapped(&platform, true);
    first = rviommu_steps(&platform) + 1;
    for (uint64_t page = 0; page < 70; page++) {
        read_page(&platform, page, RVIOMMU_BYTES);
    }
    rviommu_store(&platform, LEAVES, 8, 0);
    want("this model has forgotten it", rviommu_stale(&platform, DID, IOVA, false, NULL), RVIOMMU_CURRENT);
    want("others may not", settled(&platform, 0, false, &unsettled), RVIOMMU_UNSETTLED);
    want_unsettled(&unsettled, 0x80010, first);
    for (uint64_t page = 1; page < 70; page++) {
        rviommu_store(&platform, LEAVES + 8 * page, 8, 0);
    }
    want("owed", rviommu_all_owed(&platform, owed, 70, &found), RVIOMMU_OK);
    want("all", found, 70);
    for (uint64_t i = 0; i < 70; i++) {
        want("the frame of its page", owed[i].unsettled.elsewhere.frame - 0x80010, (owed[i].iova - IOVA) / 4096);
        want("the step of its page", owed[i].number - first, (owed[i].iova - IOVA) / 4096);
    }
    rviommu_reset(&platform);
    want("nothing is owed behind a reset", count_owed(&platform), 0);
    want_settled("nothing is held", &platform, 0);
    rviommu_close(&platform);
}

/* The number of the access counts, not that of another step; a repeated one has the newest. */
static void test_numbers(void) {
    rviommu_t platform = {NULL};
    struct rviommu_owed owed[2];
    size_t found = 0;
    open_mapped(&platform, true);
    read_page(&platform, 3, RVIOMMU_BYTES);
    rviommu_reg_read(&platform, 0, 8, NULL);
    want("the same page at another byte", rviommu_dma_read(&platform, DID, IOVA + 3 * 4096 + 0x800, NULL, 4, NULL), RVIOMMU_BYTES);
    uint64_t newest = rviommu_steps(&platform);
    rviommu_reg_read(&platform, 0, 8, NULL);
    want("a write of it", rviommu_dma_write(&platform, DID, IOVA + 3 * 4096, (const uint8_t *)"a", 1, NULL), RVIOMMU_DONE);
    rviommu_store(&platform, LEAVES + 24, 8, 0);
    want("owed", rviommu_all_owed(&platform, owed, 2, &found), RVIOMMU_OK);
    want("a read and a write", found, 2);
    want("one is a write", owed[0].is_write + owed[1].is_write, 1);
    want("the newest read", owed[owed[0].is_write].number, newest);
    want("the write", owed[!owed[0].is_write].number, newest + 2);
    rviommu_close(&platform);
}

/* It may be freed; nothing is put. */
static void want_free(const char *what, const rviommu_t *platform, uint64_t address, uint64_t length) {
    struct rviommu_naming naming = {.count = 77};
    want(what, rviommu_may_free(platform, address, length, &naming), RVIOMMU_OK);
    want("nothing is put", naming.count, 77);
}

/* So many entries name a byte of these, and the step of this number could read the oldest last. No command names it. */
static struct rviommu_naming want_named(const rviommu_t *platform, uint64_t address, uint64_t length, uint64_t count, uint64_t number) {
    struct rviommu_naming naming;
    memset(&naming, 0x55, sizeof naming);
    want("named", rviommu_may_free(platform, address, length, &naming), RVIOMMU_NAMED);
    want("how many", naming.count, count);
    want("its step", naming.number, number);
    want("no command", naming.is_unfenced, false);
    want("nor a step of one", naming.unfenced, 0);
    want("room for more", naming.reserved[0] | naming.reserved[1] | naming.reserved[2] | naming.reserved[3], 0);
    return naming;
}

/* The only entry that names a page is of this kind. */
static struct rviommu_naming want_one(const rviommu_t *platform, uint64_t address, uint32_t kind, uint64_t number) {
    struct rviommu_naming naming = want_named(platform, address, 4096, 1, number);
    want("its kind", naming.kind, kind);
    return naming;
}

/* The page of a table and those of its data may be freed behind the fence. */
static void test_may_free(void) {
    rviommu_t platform = {NULL};
    struct rviommu_naming naming;
    const uint64_t words[4] = {VMA, 0, FENCE, 0};
    uint64_t denied, first, second;
    open_mapped(&platform, true);
    want_free("nothing is read yet", &platform, 0, UINT64_MAX);
    rviommu_store(&platform, LEAVES + 24, 8, leaf(0x80013) & ~4);
    want("a write", rviommu_dma_write(&platform, DID, IOVA + 3 * 4096, (const uint8_t *)"a", 1, NULL), RVIOMMU_DENIED);
    denied = rviommu_steps(&platform);
    read_page(&platform, 0, RVIOMMU_BYTES);
    first = rviommu_steps(&platform);
    read_page(&platform, 1, RVIOMMU_BYTES);
    second = rviommu_steps(&platform);
    long before = allocations;
    naming = want_one(&platform, LEAVES, RVIOMMU_HELD_FIRST, second);
    want("a pointer", naming.is_leaf | naming.is_global | naming.is_write, false);
    want("its level", naming.level, 1);
    want("its page", naming.page, IOVA >> 12);
    want("its process", naming.has_pscid, true);
    want("no guest", naming.has_gscid | naming.gscid | naming.pscid | naming.did, 0);
    naming = want_one(&platform, 0x80003000, RVIOMMU_HELD_FIRST, second);
    want("its level", naming.level, 2);
    want("its first page", naming.page, 0x40000000 >> 12);
    naming = want_one(&platform, 0x80002000, RVIOMMU_HELD_CONTEXT, second);
    want("its device", naming.did, DID);
    want("no more", naming.has_pscid | naming.has_gscid | naming.is_leaf | naming.level | (uint32_t)naming.page, 0);
    naming = want_one(&platform, 0x80013000, RVIOMMU_HELD_FIRST, denied);
    want("a leaf", naming.is_leaf, true);
    want("its level", naming.level, 0);
    want("its page", naming.page, (IOVA >> 12) + 3);
    want_named(&platform, 0x80010fff, 1, 2, first);
    want_named(&platform, 0x80010fff, 2, 4, first);
    want_named(&platform, 0, UINT64_MAX, 8, denied);
    want_free("a page that no device used", &platform, 0x80014000, 76 * 4096);
    want_free("what a register names isn't asked", &platform, 0x80001000, 4096);
    want_free("no byte", &platform, 0x80010000, 0);
    want_free("above all", &platform, UINT64_MAX, UINT64_MAX);
    want("the output isn't wanted", rviommu_may_free(&platform, 0x80010000, 4096, NULL), RVIOMMU_NAMED);
    want("allocations", (uint64_t)(allocations - before), 0);
    rviommu_store(&platform, POINTER, 8, 0);
    for (uint64_t i = 0; i < 4; i++) {
        want("a command", rviommu_store(&platform, QUEUE + 8 * i, 8, words[i]), RVIOMMU_DONE);
    }
    want("cqt", rviommu_reg_write(&platform, 0x24, 4, 2), RVIOMMU_DONE);
    want("it is taken", rviommu_command(&platform), RVIOMMU_DONE);
    want("not fenced", rviommu_may_free(&platform, LEAVES, 4096, &naming), RVIOMMU_NAMED);
    want("a command names it", naming.is_unfenced, true);
    want("its step", naming.unfenced, rviommu_steps(&platform));
    want("the step of the entry", naming.number, second);
    want("the fence is taken", rviommu_command(&platform), RVIOMMU_DONE);
    want_free("the table", &platform, LEAVES, 4096);
    want_free("the pages", &platform, 0x80010000, 80 * 4096);
    naming = want_named(&platform, 0, UINT64_MAX, 1, second);
    want("only the context", naming.kind, RVIOMMU_HELD_CONTEXT);
    rviommu_reset(&platform);
    want_free("nothing is held behind a reset", &platform, 0, UINT64_MAX);
    rviommu_close(&platform);
}

static uint64_t write_page(rviommu_t *platform, uint64_t page) {
    want("a write", rviommu_dma_write(platform, DID, IOVA + 4096 * page, (const uint8_t *)"a", 1, NULL), RVIOMMU_DONE);
    return rviommu_steps(platform);
}

/* A device below a directory of two levels asks for a page of a second stage, which maps it by a leaf of 2 MiB. */
static uint64_t translate(rviommu_t *platform, uint64_t page, bool is_write) {
    uint64_t address = 0;
    want("translated", rviommu_translate(platform, GUESTS, IOVA + 4096 * page, is_write, &address), RVIOMMU_VALUE);
    want("its address", address, 0x40000000 + 4096 * page);
    return rviommu_steps(platform);
}

/* Of translations and a leaf with one frame, which is read anew by each access, the translation of an earlier access is the oldest. */
static void test_translations(void) {
    rviommu_t platform = {NULL};
    struct rviommu_naming naming;
    uint64_t first, second;
    open_mapped(&platform, true);
    rviommu_store(&platform, LEAVES + 16, 8, leaf(0x80012) | 0x20);
    read_page(&platform, 2, RVIOMMU_BYTES);
    first = rviommu_steps(&platform);
    second = write_page(&platform, 2);
    naming = want_named(&platform, 0x80012000, 8, 3, first);
    want("a translation", naming.kind, RVIOMMU_HELD_TRANSLATION);
    want("its page", naming.page, (IOVA >> 12) + 2);
    want("its device", naming.did, DID);
    want("its process", naming.has_pscid, true);
    want("no guest", naming.has_gscid, false);
    want("a read", naming.is_write, false);
    want("it is global", naming.is_global, true);
    want("no leaf of a table", naming.is_leaf, false);
    read_page(&platform, 2, RVIOMMU_BYTES);
    naming = want_named(&platform, 0x80012000, 8, 3, second);
    want("the write", naming.kind == RVIOMMU_HELD_TRANSLATION && naming.is_write, true);
    rviommu_close(&platform);
}

/* Entries of a directory of two levels, and of a second stage. */
static void test_guests(void) {
    static const uint64_t words[][2] = {
        {0x8000a018, 0x20000401}, {0x800010c0, 1}, {0x800010c8, 0x8000300000080030}, {0x80030008, 0x2000d001}, {0x80034008, 0x100000d7}};
    rviommu_t platform = {NULL};
    struct rviommu_naming naming;
    uint64_t first, second;
    open_mapped(&platform, true);
    for (size_t i = 0; i < sizeof words / sizeof *words; i++) {
        want("a table", rviommu_store(&platform, words[i][0], 8, words[i][1]), RVIOMMU_DONE);
    }
    want("ddtp", rviommu_reg_write(&platform, 0x10, 8, 0x20002803), RVIOMMU_DONE);
    first = translate(&platform, 0x41, true);
    second = translate(&platform, 0x42, false);
    naming = want_one(&platform, 0x80001000, RVIOMMU_HELD_DIRECTORY, second);
    want("its level", naming.level, 1);
    want("its first device", naming.did, GUESTS & ~0x7f);
    naming = want_one(&platform, 0x80033000, RVIOMMU_HELD_CONTEXT, second);
    want("its device", naming.did, GUESTS);
    naming = want_one(&platform, 0x401ff000, RVIOMMU_HELD_SECOND, second);
    want("its level", naming.level, 1);
    want("its page", naming.page, IOVA >> 12);
    want("its guest", naming.has_gscid ? naming.gscid : 0, 3);
    want("a leaf", naming.is_leaf, true);
    want("no more", naming.has_pscid | naming.is_global | naming.is_write | naming.did | naming.pscid, 0);
    naming = want_named(&platform, 0x40041000, 4096, 2, first);
    want("a translation", naming.kind, RVIOMMU_HELD_TRANSLATION);
    want("its page", naming.page, (IOVA >> 12) + 0x41);
    want("its device", naming.did, GUESTS);
    want("its guest", naming.has_gscid ? naming.gscid : 0, 3);
    want("no process", naming.has_pscid, false);
    want("a write", naming.is_write, true);
    rviommu_close(&platform);
}

/* A new handle keeps no holdings, nor does a copy or a restored one; then no step allocates. */
static void test_not_kept(void) {
    rviommu_t platform = {NULL}, copy = {NULL}, again = {NULL};
    static uint8_t bytes[SIZE + 65536];
    struct rviommu_unsettled unsettled = {.number = 77};
    struct rviommu_naming naming = {.count = 77};
    size_t found = 77;
    char words[32];
    open_mapped(&platform, false);
    want("not kept", settled(&platform, 0, false, &unsettled), RVIOMMU_NOT_KEPT);
    want("nothing is put", unsettled.number, 77);
    want("not kept", rviommu_all_owed(&platform, NULL, 0, &found), RVIOMMU_NOT_KEPT);
    want("nothing is put", found, 77);
    want("not kept", rviommu_may_free(&platform, 0, 4096, &naming), RVIOMMU_NOT_KEPT);
    want("nothing is put", naming.count, 77);
    long before = allocations;
    for (uint64_t page = 0; page < 70; page++) {
        read_page(&platform, page, RVIOMMU_BYTES);
        command(&platform, VMA_OF_PAGE, page);
    }
    want("allocations", (uint64_t)(allocations - before), 0);
    want("something was cached", rviommu_keep_holdings(&platform, true), RVIOMMU_CACHED);
    want("so nothing is kept", settled(&platform, 0, false, NULL), RVIOMMU_NOT_KEPT);
    want("as before", rviommu_keep_holdings(&platform, false), RVIOMMU_OK);
    rviommu_reset(&platform);
    want("nothing is cached", rviommu_keep_holdings(&platform, true), RVIOMMU_OK);
    map(&platform);
    read_page(&platform, 0, RVIOMMU_BYTES);
    want_settled("kept", &platform, 0);
    want("something was cached", rviommu_keep_holdings(&platform, true), RVIOMMU_CACHED);
    want_settled("still kept", &platform, 0);
    want("copied", rviommu_copy(&platform, &copy), RVIOMMU_OK);
    want("a copy keeps none", settled(&copy, 0, false, NULL), RVIOMMU_NOT_KEPT);
    want("saved", rviommu_save(&platform, bytes, sizeof bytes, &found), RVIOMMU_OK);
    want("restored", rviommu_restore(bytes, found, &again), RVIOMMU_OK);
    want("a restored one keeps none", settled(&again, 0, false, NULL), RVIOMMU_NOT_KEPT);
    want("too wide", rviommu_settled(&platform, 1 << 24, 0, false, NULL), RVIOMMU_NOT_THERE);
    rviommu_keep_holdings(&platform, false);
    want("no more", settled(&platform, 0, false, NULL), RVIOMMU_NOT_KEPT);
    want("nor again", rviommu_keep_holdings(&platform, true), RVIOMMU_CACHED);
    rviommu_reset(&platform);
    want("nor behind a reset", settled(&platform, 0, false, NULL), RVIOMMU_NOT_KEPT);
    want("words", rviommu_text(RVIOMMU_NOT_KEPT, words, sizeof words, NULL), RVIOMMU_OK);
    want("of that", strcmp(words, "holdings not kept"), 0);
    want("words", rviommu_text(RVIOMMU_UNSETTLED, words, sizeof words, NULL), RVIOMMU_OK);
    want("of that", strcmp(words, "unsettled"), 0);
    want("words", rviommu_text(RVIOMMU_CACHED, words, sizeof words, NULL), RVIOMMU_OK);
    want("of that", strcmp(words, "caches not empty"), 0);
    want("words", rviommu_text(RVIOMMU_NAMED, words, sizeof words, NULL), RVIOMMU_OK);
    want("of that", strcmp(words, "memory still named"), 0);
    rviommu_close(&platform);
    rviommu_close(&copy);
    rviommu_close(&again);
}

/* A read, behind a reset: of these steps it alone takes memory. */
static uint32_t read_step(rviommu_t *platform) {
    rviommu_reset(platform);
    rviommu_reg_write(platform, 0x10, 8, 0x20000402);
    rviommu_store(platform, LEAVES, 8, leaf(0x80010));
    read_page(platform, 0, RVIOMMU_BYTES);
    long left = refused;
    refused = -1;
    uint32_t told = settled(platform, 0, false, NULL);
    want("owed", rviommu_all_owed(platform, NULL, 0, NULL), told);
    want("named", rviommu_may_free(platform, LEAVES, 4096, NULL), told == RVIOMMU_OK ? RVIOMMU_NAMED : told);
    read_page(platform, 1, RVIOMMU_BYTES);
    want("still", settled(platform, 0, false, NULL), told);
    rviommu_store(platform, LEAVES, 8, 0);
    refused = left;
    return told;
}

static uint32_t ask(rviommu_t *platform) { return settled(platform, 0, false, NULL) == RVIOMMU_UNSETTLED ? RVIOMMU_OK : RVIOMMU_OUT_OF_MEMORY; }

static uint32_t list(rviommu_t *platform) {
    size_t found = 77;
    uint32_t told = rviommu_all_owed(platform, NULL, 0, &found);
    want("how many are owed", found, told == RVIOMMU_OK ? 1 : 77);
    return told;
}

/* Each allocation of a step is refused in turn: the step is carried out, and if nothing is known from then on, that is said. Then each of a
 * question, which may be asked again. */
static void test_refused(void) {
    uint32_t (*const calls[])(rviommu_t *) = {read_step, ask, list};
    rviommu_t platform = {NULL};
    open_mapped(&platform, true);
    for (size_t i = 0; i < sizeof calls / sizeof *calls; i++) {
        uint64_t count = 0, told = 0;
        bool is_last = false;
        for (; !is_last && count < 1000; count++) {
            refused = (long)count;
            uint32_t answer = calls[i](&platform);
            is_last = refused >= 0;
            refused = -1;
            told += answer == RVIOMMU_OUT_OF_MEMORY;
            want("an answer", answer == RVIOMMU_OK || (answer == RVIOMMU_OUT_OF_MEMORY && !is_last), true);
        }
        want("a refusal is told", is_last && told > 0, true);
    }
    rviommu_close(&platform);
}

static uint64_t words[COUNT];

/* Others write the memory that is lent: the leaf of a page, between two calls. */
static void test_lent(void) {
    rviommu_t lent = {NULL};
    struct rviommu_unsettled unsettled = {.number = 77};
    struct rviommu_owed owed[2];
    size_t found = 77;
    want("opened", rviommu_open_lent(RAM, SIZE, &lent), RVIOMMU_OK);
    want("kept", rviommu_keep_holdings(&lent, true), RVIOMMU_OK);
    words[0x10a0 / 8] = 1;
    words[0x10b8 / 8] = 0x8000000000080002;
    words[0x2008 / 8] = 0x20000c01;
    words[0x3008 / 8] = 0x20001001;
    words[0x4000 / 8] = leaf(0x80010);
    want("ddtp", rviommu_reg_write_lent(&lent, words, COUNT, 0x10, 8, 0x20000402), RVIOMMU_DONE);
    want("a read", rviommu_dma_read_lent(&lent, words, COUNT, DID, IOVA, NULL, 4, NULL), RVIOMMU_BYTES);
    want("settled", rviommu_settled_lent(&lent, words, COUNT, DID, IOVA, false, &unsettled), RVIOMMU_OK);
    words[0x4000 / 8] = 0;
    want("without words", rviommu_settled(&lent, DID, IOVA, false, &unsettled), RVIOMMU_STATUS_OTHER_MEMORY);
    want("with fewer", rviommu_settled_lent(&lent, words, COUNT - 1, DID, IOVA, false, &unsettled), RVIOMMU_STATUS_OTHER_MEMORY);
    want("without words", rviommu_all_owed(&lent, owed, 2, &found), RVIOMMU_STATUS_OTHER_MEMORY);
    want("nothing is put", unsettled.number + found, 77 + 77);
    want("unsettled", rviommu_settled_lent(&lent, words, COUNT, DID, IOVA, false, &unsettled), RVIOMMU_UNSETTLED);
    want_unsettled(&unsettled, 0x80010, 2);
    want("owed", rviommu_owed_lent(&lent, words, COUNT, owed, 2, &found), RVIOMMU_OK);
    want("how many", found, 1);
    want("its step", owed[0].number, 2);
    want_named(&lent, 0x80010000, 4096, 2, 2);
    words[0x4000 / 8] = leaf(0x80010);
    want("settled again", rviommu_settled_lent(&lent, words, COUNT, DID, IOVA, false, NULL), RVIOMMU_OK);
    rviommu_close(&lent);
}

int main(void) {
    test_unmapped();
    test_fence();
    test_freed_table();
    test_seventy_pages();
    test_numbers();
    test_may_free();
    test_translations();
    test_guests();
    test_not_kept();
    test_refused();
    test_lent();
    puts(failed ? "failed" : "passed");
    return 0;
}
