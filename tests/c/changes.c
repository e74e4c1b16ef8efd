/*
 * What changes a platform and is no step, and translations: a reset, writes of any length into its own memory, and what rviommu_reason says of an
 * address.
 */
#include <inttypes.h>
#include <stdio.h>
#include <string.h>

#include "rviommu.h"
#include "want.h"

#define RAM 0x80000000u
#define IOVA 0x40201000u

/* 1 MiB of memory and a disk; device 5 is led by Sv39 from IOVA to 0x80010000. */
static void open_mapped(rviommu_t *platform) {
    static const char text[] = "ram 0x80000000 0x100000\ndisk 7 1 aabb\n";
    static const uint64_t tables[][2] = {{0x800010a0, 1}, {0x800010b8, 0x8000000000080002}, {0x80002008, 0x20000c01}, {0x80003008, 0x20001001}, {0x80004008, 0x200040d7}};
    uint8_t image[256];
    size_t length = 0;
    want("an image", rviommu_assemble(text, strlen(text), image, sizeof image, &length, NULL), RVIOMMU_OK);
    want("opened", rviommu_open(image, length, platform), RVIOMMU_OK);
    for (size_t i = 0; i < sizeof tables / sizeof *tables; i++) {
        want("a table's word", rviommu_memory_write(platform, tables[i][0], (const uint8_t *)&tables[i][1], 8), RVIOMMU_OK);
    }
    want("no step yet", rviommu_steps(platform), 0);
    want("ddtp", rviommu_reg_write(platform, 0x10, 8, 0x20000402), RVIOMMU_DONE);
}

static void test_translations(void) {
    rviommu_t platform = {NULL};
    struct rviommu_page_place page;
    struct rviommu_way way;
    struct rviommu_why why;
    uint64_t number = 77, address = 77, tail = 0;
    memset(&way, 0, sizeof way);
    memset(&why, 0, sizeof why);
    open_mapped(&platform);
    want("a look", rviommu_way_now(&platform, 5, IOVA + 0x123, true, &way, &address), RVIOMMU_OK);
    want("its way", way.kind, RVIOMMU_BY_WALK);
    want("its frame", way.frame, 0x80010);
    want("its address", address, 0x80010123);
    want("it fills nothing", rviommu_page(&platform, 0, &page), RVIOMMU_BEYOND);
    want("a translation", rviommu_translate(&platform, 5, IOVA + 0x123, true, &number), RVIOMMU_VALUE);
    want("its address", number, 0x80010123);
    want("it fills a page", rviommu_page(&platform, 0, &page), RVIOMMU_LIVE);
    want("for writes", page.is_write, true);
    want("why", rviommu_reason(&platform, 1, &why), RVIOMMU_OK);
    want("its address", why.address, 0x80010123);
    want("its kind", why.kind, RVIOMMU_WHY_WALK);
    want("a frame beyond memory", rviommu_store(&platform, 0x80004008, 8, (uint64_t)0x10000000 << 10 | 0xd7), RVIOMMU_DONE);
    want("is stale for a write", rviommu_stale(&platform, 5, IOVA, true, &way), RVIOMMU_STALE);
    want("a read beyond memory", rviommu_translate(&platform, 5, IOVA + 8, false, &number), RVIOMMU_VALUE);
    want("its address", number, 0x10000000008);
    want("no page", rviommu_store(&platform, 0x80004008, 8, 0), RVIOMMU_DONE);
    want("fqb", rviommu_reg_write(&platform, 0x28, 8, 0x20008405), RVIOMMU_DONE);
    want("fqcsr", rviommu_reg_write(&platform, 0x4c, 4, 1), RVIOMMU_DONE);
    want("a look at no page", rviommu_way_now(&platform, 5, IOVA + 0x1000, false, &way, &address), RVIOMMU_OK);
    want("its way", way.kind, RVIOMMU_TO_NOWHERE);
    want("its cause", way.cause, 13);
    want("its address", address, 0x80010123);
    want("no record of a look", rviommu_reg_look(&platform, 0x34, 4, &tail) + tail, 0);
    want("a translation of no page", rviommu_translate(&platform, 5, IOVA + 0x1000, false, &number), RVIOMMU_DENIED);
    want("its cause", number, 13);
    want("its record", rviommu_reg_look(&platform, 0x34, 4, &tail) + tail, 1);
    want("no device", rviommu_translate(&platform, 1 << 24, IOVA, false, &number), RVIOMMU_MISUSE);
    want("nor to look at", rviommu_way_now(&platform, 1 << 24, IOVA, false, &way, &address), RVIOMMU_NOT_THERE);
    want("what is left", number, 13);
    want("an unwanted number", rviommu_translate(&platform, 5, IOVA, true, NULL), RVIOMMU_VALUE);
    want("an unwanted way", rviommu_way_now(&platform, 5, IOVA, true, NULL, NULL), RVIOMMU_OK);
    rviommu_close(&platform);
}

static void test_reset(void) {
    rviommu_t platform = {NULL}, fresh = {NULL};
    struct rviommu_page_place page;
    uint64_t number = 0, context = 0, walk = 0, steps;
    uint8_t bytes[8] = {0};
    open_mapped(&platform);
    want("a fresh one", rviommu_open_built_in(&fresh), RVIOMMU_OK);
    want("a write", rviommu_dma_write(&platform, 5, IOVA, (const uint8_t *)"stays", 6, &number), RVIOMMU_DONE);
    want("a denial", rviommu_dma_read(&platform, 6, IOVA, bytes, 1, &number), RVIOMMU_DENIED);
    want("a device's register", rviommu_dev_write(&platform, 0, 0x70, 4, 1), RVIOMMU_DONE);
    steps = rviommu_steps(&platform);
    rviommu_reset(&platform);
    want("steps", rviommu_steps(&platform), steps);
    want("no page", rviommu_page(&platform, 0, &page), RVIOMMU_BEYOND);
    for (uint64_t offset = 0; offset < 0x1000; offset += 4) {
        uint64_t seen = 0, wanted = 0;
        want("a register", rviommu_reg_look(&platform, offset, 4, &seen), rviommu_reg_look(&fresh, offset, 4, &wanted));
        want("its value", seen, wanted);
    }
    want("memory", rviommu_memory(&platform, 0x80010000, bytes, 6), RVIOMMU_OK);
    want("its bytes", (uint64_t)memcmp(bytes, "stays", 6), 0);
    want("the disk", rviommu_disk(&platform, 0, 0, bytes, 2), RVIOMMU_OK);
    want("its bytes", bytes[0] | bytes[1] << 8, 0xbbaa);
    want("the device's register", rviommu_dev_read(&platform, 0, 0x70, 4, &number), RVIOMMU_VALUE);
    want("which stays", number, 1);
    want("ddtp is off", rviommu_translate(&platform, 5, IOVA, false, &number), RVIOMMU_DENIED);
    want("ddtp", rviommu_reg_write(&platform, 0x10, 8, 0x20000402), RVIOMMU_DONE);
    want("a translation", rviommu_translate(&platform, 5, IOVA, false, &number), RVIOMMU_VALUE);
    want("its origin", rviommu_page_origin(&platform, 0, &context, &walk), RVIOMMU_OK);
    want("its context's step", context, steps + 4);
    want("its page's step", walk, steps + 4);
    rviommu_close(&fresh);
    rviommu_close(&platform);
}

static void test_writes(void) {
    static uint8_t data[100001], seen[100001];
    rviommu_t platform = {NULL};
    for (size_t i = 0; i < sizeof data; i++) {
        data[i] = (uint8_t)(i * 7 + i / 256);
    }
    want("opened", rviommu_open_built_in(&platform), RVIOMMU_OK);
    want("a long write", rviommu_memory_write(&platform, RAM + 3, data, sizeof data), RVIOMMU_OK);
    want("it is read", rviommu_memory(&platform, RAM + 3, seen, sizeof seen), RVIOMMU_OK);
    want("its bytes", (uint64_t)memcmp(seen, data, sizeof data), 0);
    want("one over the end", rviommu_memory_write(&platform, RAM + 0xfffff, data, 2), RVIOMMU_OUTSIDE);
    want("one before the start", rviommu_memory_write(&platform, RAM - 1, data, 2), RVIOMMU_OUTSIDE);
    want("the last byte", rviommu_memory(&platform, RAM + 0xfffff, seen, 1), RVIOMMU_OK);
    want("which is", seen[0], 0);
    want("no byte", rviommu_memory_write(&platform, 0, data, 0), RVIOMMU_OK);
    want("no step", rviommu_steps(&platform), 0);
    rviommu_close(&platform);
}

static void test_words(void) {
    char words[32];
    size_t length = 0;
    want("words", rviommu_text(RVIOMMU_STATUS_OTHER_MEMORY, words, sizeof words, &length), RVIOMMU_OK);
    want("which are", (uint64_t)strcmp(words, "other memory"), 0);
}

int main(void) {
    test_translations();
    test_reset();
    test_writes();
    test_words();
    printf(failed ? "failed\n" : "passed\n");
    return failed;
}
