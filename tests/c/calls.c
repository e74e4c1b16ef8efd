/*
 * What the other tests don't show of the C library: refused openings, refused memory, too little room, and copies. It is linked with
 * --wrap=malloc and --wrap=realloc, so that one allocation can be refused.
 */
#include <inttypes.h>
#include <stdio.h>
#include <stdlib.h>
#include <string.h>

#include "refusable.h"
#include "rviommu.h"
#include "rviommu_events.h"
#include "want.h"

#define RAM 0x80000000u

static void want_text(const char *what, const char *seen, const char *wanted) {
    if (strcmp(seen, wanted) != 0) {
        printf("%s: \"%s\", wanted \"%s\"\n", what, seen, wanted);
        failed = 1;
    }
}

static const char text[] = "ram 0x80000000 0x1000\ndisk 5 1 aabb\nat 0x80000010\nbytes 0102\n";
static uint8_t image[1024];
static size_t image_length;

static void test_assemble(void) {
    uint64_t line = 77;
    size_t length = 0;
    want("too little room", rviommu_assemble(text, strlen(text), image, 10, &length, &line), RVIOMMU_LITTLE_ROOM);
    want("what is left of it", image[0], 0);
    want("assembled", rviommu_assemble(text, strlen(text), image, sizeof image, &image_length, &line), RVIOMMU_OK);
    want("the length told before", length, image_length);
    want("an untold line", line, 77);
    want("a bad line", rviommu_assemble("ram 1 2\n", 8, image, 0, &length, &line), RVIOMMU_BAD_LINE);
    want("its line", line, 1);
}

static void test_refused_images(void) {
    rviommu_t platform = {&platform};
    for (size_t length = 0; length < image_length; length++) {
        want("a cut image", rviommu_open(image, length, &platform), RVIOMMU_TRUNCATED);
        want("its handle", platform.own == NULL, true);
    }
    image[0] ^= 1;
    want("another magic", rviommu_open(image, image_length, &platform), RVIOMMU_BAD_MAGIC);
    image[0] ^= 1;
    want("its handle", platform.own == NULL, true);
}

/* Each allocation of an opening, a copy and an assembly is refused in turn. */
static void test_refused_memory(void) {
    rviommu_t platform = {NULL}, copy = {NULL};
    uint64_t line = 0;
    size_t length = 0;
    uint32_t told = RVIOMMU_OUT_OF_MEMORY;
    long count;
    for (count = 0; told != RVIOMMU_OK && count < 100; count++) {
        refused = count;
        told = rviommu_open(image, image_length, &platform);
        want("an opening without memory", told == RVIOMMU_OK ? RVIOMMU_OUT_OF_MEMORY : told, RVIOMMU_OUT_OF_MEMORY);
        want("its handle", platform.own == NULL, told != RVIOMMU_OK);
    }
    want("allocations of an opening", count > 3, true);
    told = RVIOMMU_OUT_OF_MEMORY;
    for (count = 0; told != RVIOMMU_OK && count < 100; count++) {
        refused = count;
        told = rviommu_copy(&platform, &copy);
        want("a copy without memory", told == RVIOMMU_OK ? RVIOMMU_OUT_OF_MEMORY : told, RVIOMMU_OUT_OF_MEMORY);
        want("its handle", copy.own == NULL, told != RVIOMMU_OK);
    }
    want("allocations of a copy", count > 3, true);
    rviommu_close(&platform);
    rviommu_close(&copy);
    refused = 0;
    want("a text without memory", rviommu_assemble(text, strlen(text), image, sizeof image, &length, &line), RVIOMMU_OUT_OF_MEMORY);
    refused = -1;
}

/* Each allocation of an opening in front of lent memory is refused in turn; its memory is none of them. */
static void test_refused_lent_memory(void) {
    rviommu_t platform = {NULL};
    uint32_t told = RVIOMMU_OUT_OF_MEMORY;
    long count;
    for (count = 0; told != RVIOMMU_OK && count < 100; count++) {
        refused = count;
        told = rviommu_open_lent(RAM, (uint64_t)1 << 55, &platform);
        want("an opening without memory", told == RVIOMMU_OK ? RVIOMMU_OUT_OF_MEMORY : told, RVIOMMU_OUT_OF_MEMORY);
        want("its handle", platform.own == NULL, told != RVIOMMU_OK);
    }
    refused = -1;
    want("allocations of an opening", count > 3, true);
    rviommu_close(&platform);
}

static void test_lines(void) {
    rviommu_t platform = {NULL};
    char answer[321] = "old";
    size_t length = 9;
    uint64_t value = 0;
    want("opened", rviommu_open_built_in(&platform), RVIOMMU_OK);
    want("a line in too little room", rviommu_line(&platform, "store 0x80000000 1 7", 20, answer, 320, &length), RVIOMMU_LITTLE_ROOM);
    want("its length", length, 9);
    want_text("its answer", answer, "old");
    want("no step was done", rviommu_load(&platform, RAM, 1, &value), RVIOMMU_VALUE);
    want("nor its store", value, 0);
    want("a line", rviommu_line(&platform, "store 0x80000000 1 7", 20, answer, sizeof answer, &length), RVIOMMU_OK);
    want_text("its answer", answer, "done");
    want("its length", length, 4);
    want("a blank line", rviommu_line(&platform, " ", 1, answer, sizeof answer, &length), RVIOMMU_OK);
    want_text("its answer", answer, "");
    want("no line", rviommu_line(&platform, "a\nb", 3, answer, sizeof answer, &length), RVIOMMU_OK);
    want_text("its answer", answer, "bad");
    want("a step by numbers in the trace", rviommu_line(&platform, "trace 0", 7, answer, sizeof answer, &length), RVIOMMU_OK);
    want_text("its line", answer, "load 0x80000000 0x1 -> 0x0");
    rviommu_close(&platform);
}

static void test_looks(void) {
    rviommu_t platform = {NULL}, copy = {NULL};
    struct rviommu_context_place context;
    uint64_t base = 0, size = 0, value = 0;
    uint8_t bytes[2] = {0, 0};
    want("opened", rviommu_open(image, image_length, &platform), RVIOMMU_OK);
    rviommu_memory_place(&platform, &base, &size);
    want("base", base, RAM);
    want("size", size, 0x1000);
    want("memory", rviommu_memory(&platform, RAM + 0x10, bytes, 2), RVIOMMU_OK);
    want("its bytes", bytes[0] | bytes[1] << 8, 0x201);
    want("memory over its end", rviommu_memory(&platform, RAM + 0xfff, bytes, 2), RVIOMMU_OUTSIDE);
    want("memory at the last address", rviommu_memory(&platform, UINT64_MAX, bytes, 2), RVIOMMU_OUTSIDE);
    want("the disk's size", rviommu_disk_size(&platform, 0, &size), RVIOMMU_OK);
    want("which is", size, 512);
    want("no disk", rviommu_disk_size(&platform, 1, &size), RVIOMMU_NO_DISK);
    want("the disk", rviommu_disk(&platform, 0, 0, bytes, 2), RVIOMMU_OK);
    want("its bytes", bytes[0] | bytes[1] << 8, 0xbbaa);
    want("the disk over its end", rviommu_disk(&platform, 0, 511, bytes, 2), RVIOMMU_OUTSIDE);
    want("the disk far over its end", rviommu_disk(&platform, 0, SIZE_MAX, bytes, 2), RVIOMMU_OUTSIDE);
    want("a place", rviommu_context(&platform, 0, &context), RVIOMMU_BEYOND);
    want("copied", rviommu_copy(&platform, &copy), RVIOMMU_OK);
    want("a store in the copy", rviommu_store(&copy, RAM, 8, 5), RVIOMMU_DONE);
    rviommu_close(&copy);
    want("a closed handle", copy.own == NULL, true);
    want("the load of the first", rviommu_load(&platform, RAM, 8, &value), RVIOMMU_VALUE);
    want("which is", value, 0);
    rviommu_close(&platform);
}

/* Device 5 is led by Sv39 from IOVA 0x40201000 to 0x80010000. */
static void map(rviommu_t *platform) {
    static const uint64_t words[][2] = {{0x800010a0, 1}, {0x800010b8, 0x8000000000080002}, {0x80002008, 0x20000c01}, {0x80003008, 0x20001001}, {0x80004008, 0x200040d7}};
    for (size_t i = 0; i < sizeof words / sizeof *words; i++) {
        want("a table's word", rviommu_store(platform, words[i][0], 8, words[i][1]), RVIOMMU_DONE);
    }
    want("ddtp", rviommu_reg_write(platform, 0x10, 8, 0x20000402), RVIOMMU_DONE);
}

static void test_walk(rviommu_t *platform) {
    struct rviommu_walk_part part;
    memset(&part, 0, sizeof part);
    want("ddtp", rviommu_part(platform, 5, 0x40201abc, false, 0, &part), RVIOMMU_OK);
    want("its kind", part.kind, RVIOMMU_PART_DDTP);
    want("its mode", part.mode, 2);
    want("its PPN", part.word, 0x80001);
    want("the context", rviommu_part(platform, 5, 0x40201abc, false, 1, &part), RVIOMMU_OK);
    want("its kind", part.kind, RVIOMMU_PART_CONTEXT);
    want("its place", part.place, 0x800010a0);
    want("its tc", part.word, 1);
    want("its fsc", part.fsc, 0x8000000000080002);
    want("the leaf", rviommu_part(platform, 5, 0x40201abc, false, 4, &part), RVIOMMU_OK);
    want("its kind", part.kind, RVIOMMU_PART_FIRST);
    want("its place", part.place, 0x80004008);
    want("where it was read", part.has_read_at ? part.read_at : 0, 0x80004008);
    want("its word", part.has_word ? part.word : 0, 0x200040d7);
    want("its level", part.level, 0);
    want("its row", part.ruling, RVIOMMU_ENTRY_LEAF);
    want("the end", rviommu_part(platform, 5, 0x40201abc, false, 5, &part), RVIOMMU_OK);
    want("its kind", part.kind, RVIOMMU_PART_END);
    want("its way", part.way.kind, RVIOMMU_BY_WALK);
    want("its frame", part.way.frame, 0x80010);
    want("its device", part.way.context.did, 5);
    want("its root", part.way.context.ppn, 0x80002);
    want("an IOVA of 40 bits", rviommu_part(platform, 5, 0x8000000000, false, 2, &part), RVIOMMU_OK);
    want("its kind", part.kind, RVIOMMU_PART_WIDE_IOVA);
    want("itself", part.has_word ? part.word : 0, 0x8000000000);
    want("a device id of 8 bits", rviommu_part(platform, 0x80, 0x40201abc, false, 1, &part), RVIOMMU_OK);
    want("its kind", part.kind, RVIOMMU_PART_WIDE_DEVICE);
    want("itself", part.has_word ? part.word : 0, 0x80);
    want("the end", rviommu_part(platform, 5, 0x40201abc, false, 5, &part), RVIOMMU_OK);
    want("a part past the end", rviommu_part(platform, 5, 0x40201abc, false, 6, &part), RVIOMMU_NOT_THERE);
    want("a part far past the end", rviommu_part(platform, 5, 0x40201abc, false, UINT64_MAX, &part), RVIOMMU_NOT_THERE);
    want("a part of no device", rviommu_part(platform, 1 << 24, 0x40201abc, false, 0, &part), RVIOMMU_NOT_THERE);
    want("which is left", part.kind, RVIOMMU_PART_END);
}

/* Svnapot: a leaf whose PPN[3:0] is 8 leads page 1 of its 64 KiB to frame 1 of them. */
static void test_64_kib(void) {
    static const char machine[] = "ram 0x80000000 0x100000\ncapabilities\n";
    rviommu_t platform = {NULL};
    struct rviommu_walk_part part;
    struct rviommu_page_place page;
    struct rviommu_way way;
    uint8_t bytes[128], byte;
    uint64_t line, cause;
    size_t length;
    want("assembled", rviommu_assemble(machine, strlen(machine), bytes, sizeof bytes, &length, &line), RVIOMMU_OK);
    want("opened", rviommu_open(bytes, length, &platform), RVIOMMU_OK);
    map(&platform);
    want("a read of 4 KiB", rviommu_dma_read(&platform, 5, 0x40201abc, &byte, 1, &cause), RVIOMMU_BYTES);
    want("its place", rviommu_page(&platform, 0, &page), RVIOMMU_LIVE);
    want("its leaf", page.is_napot, false);
    want("a leaf of 64 KiB", rviommu_store(&platform, 0x80004008, 8, 0x80000000200060d7), RVIOMMU_DONE);
    want("a stale read", rviommu_stale(&platform, 5, 0x40201abc, false, &way), RVIOMMU_STALE);
    want("its leaf by the tables", way.is_napot, true);
    want("its frame by the tables", way.frame, 0x80011);
    want("a write", rviommu_dma_write(&platform, 5, 0x40201abc, &byte, 1, &cause), RVIOMMU_DONE);
    want("its place", rviommu_page(&platform, 1, &page), RVIOMMU_LIVE);
    want("its leaf", page.is_napot, true);
    want("its level", page.level, 0);
    want("its frame", page.frame, 0x80011);
    want("a pointer", rviommu_part(&platform, 5, 0x40201abc, true, 3, &part), RVIOMMU_OK);
    want("which is no leaf", part.is_napot, false);
    want("the leaf", rviommu_part(&platform, 5, 0x40201abc, true, 4, &part), RVIOMMU_OK);
    want("of 64 KiB", part.is_napot, true);
    want("the end", rviommu_part(&platform, 5, 0x40201abc, true, 5, &part), RVIOMMU_OK);
    want("its way", part.way.is_napot, true);
    rviommu_close(&platform);
}

static void test_stale(rviommu_t *platform) {
    struct rviommu_way way;
    struct rviommu_located located;
    uint64_t cause;
    uint8_t byte;
    way.kind = 77;
    located.kind = 77;
    want("a read", rviommu_dma_read(platform, 5, 0x40201abc, &byte, 1, &cause), RVIOMMU_BYTES);
    want("which isn't stale", rviommu_stale(platform, 5, 0x40201abc, false, &way), RVIOMMU_CURRENT);
    want("nor its page", rviommu_stale_page(platform, 0, &way), RVIOMMU_CURRENT);
    want("nor its context", rviommu_stale_context(platform, 0, &located), RVIOMMU_CURRENT);
    want("a page of no place", rviommu_stale_page(platform, 1, &way), RVIOMMU_NO_SUCH);
    want("a context of no place", rviommu_stale_context(platform, UINT64_MAX, &located), RVIOMMU_NO_SUCH);
    want("no device", rviommu_stale(platform, 1 << 24, 0x40201abc, false, &way), RVIOMMU_NO_SUCH);
    want("what is left", way.kind + located.kind, 154);
    want("another leaf", rviommu_store(platform, 0x80004008, 8, 0x200080d7), RVIOMMU_DONE);
    want("a stale read", rviommu_stale(platform, 5, 0x40201abc, false, &way), RVIOMMU_STALE);
    want("its frame by the tables", way.frame, 0x80020);
    want("a write, which isn't cached", rviommu_stale(platform, 5, 0x40201abc, true, &way), RVIOMMU_CURRENT);
    want("no context", rviommu_store(platform, 0x800010a0, 8, 0), RVIOMMU_DONE);
    want("a stale page", rviommu_stale_page(platform, 0, &way), RVIOMMU_STALE);
    want("its way", way.kind, RVIOMMU_TO_NOWHERE);
    want("its cause", way.cause, 258);
    want("a stale context", rviommu_stale_context(platform, 0, &located), RVIOMMU_STALE);
    want("what is said of it", located.kind, RVIOMMU_NO_CONTEXT);
    want("why", located.cause, 258);
    want("another context", rviommu_store(platform, 0x800010a0, 8, 0x11), RVIOMMU_DONE);
    want("a stale context", rviommu_stale_context(platform, 0, &located), RVIOMMU_STALE);
    want("what is said of it", located.kind, RVIOMMU_HAS_CONTEXT);
    want("its DTF", located.context.dtf, true);
    want("its device", located.context.did, 5);
}

static void test_why(rviommu_t *platform) {
    struct rviommu_why why;
    uint64_t cause, context = 77, walk = 77;
    uint8_t byte = 0;
    memset(&why, 0, sizeof why);
    want("why of no step", rviommu_reason(platform, 0, &why), RVIOMMU_NOT_THERE);
    want("nor one far off", rviommu_reason(platform, UINT64_MAX, &why), RVIOMMU_NOT_THERE);
    map(platform);
    want("a page of no place", rviommu_page_origin(platform, 0, &context, &walk), RVIOMMU_NOT_THERE);
    want("a context of no place", rviommu_context_origin(platform, UINT64_MAX, &context), RVIOMMU_NOT_THERE);
    want("what is left", context + walk, 154);
    want("a read", rviommu_dma_read(platform, 5, 0x40201abc, &byte, 1, &cause), RVIOMMU_BYTES);
    want("a write", rviommu_dma_write(platform, 5, 0x40201abc, &byte, 1, &cause), RVIOMMU_DONE);
    want("another leaf", rviommu_store(platform, 0x80004008, 8, 0x200080d7), RVIOMMU_DONE);
    want("a stale write", rviommu_dma_write(platform, 5, 0x40201abc, &byte, 1, &cause), RVIOMMU_DONE);
    want("no context", rviommu_dma_read(platform, 6, 0x40201abc, &byte, 1, &cause), RVIOMMU_DENIED);
    want("why of ddtp's write", rviommu_reason(platform, 5, &why), RVIOMMU_OK);
    want("its number", why.number, 6);
    want("its kind", why.kind, RVIOMMU_WHY_NO_ACCESS);
    want("why of the first write", rviommu_reason(platform, 7, &why), RVIOMMU_OK);
    want("its number", why.number, 8);
    want("its kind", why.kind, RVIOMMU_WHY_WALK);
    want("its context, by the read", why.context, 7);
    want("its walk, its own", why.walk, 8);
    want("the context in force", why.current, 7);
    want("its device", why.did, 5);
    want("its IOVA", why.iova, 0x40201abc);
    want("that it wrote", why.is_write, true);
    want("that it wasn't stale", why.is_stale, false);
    want("why of the stale write", rviommu_reason(platform, 9, &why), RVIOMMU_OK);
    want("its walk", why.walk, 8);
    want("that it was stale", why.is_stale, true);
    want("the way by the tables", why.way.kind, RVIOMMU_BY_WALK);
    want("its frame", why.way.frame, 0x80020);
    want("why of the denial", rviommu_reason(platform, 10, &why), RVIOMMU_OK);
    want("its kind", why.kind, RVIOMMU_WHY_DENIED);
    want("the last step", rviommu_reason(platform, 11, &why), RVIOMMU_NOT_THERE);
    want("the page of the write", rviommu_page_origin(platform, 1, &context, &walk), RVIOMMU_OK);
    want("its context and its walk", 100 * context + walk, 708);
    want("the context", rviommu_context_origin(platform, 0, &context), RVIOMMU_OK);
    want("its step", context, 7);
}

/* A copy counts on and knows what filled its caches; its trace and its reasons are those of its own steps. */
static void test_copied_account(rviommu_t *platform) {
    rviommu_t copy = {NULL};
    struct rviommu_why why;
    uint64_t cause, context = 0, walk = 0;
    char answer[321];
    size_t length;
    uint8_t byte;
    memset(&why, 0, sizeof why);
    want("copied", rviommu_copy(platform, &copy), RVIOMMU_OK);
    want("no step of the copy", rviommu_reason(&copy, 0, &why), RVIOMMU_NOT_THERE);
    want("nor in its trace", rviommu_line(&copy, "trace 0", 7, answer, sizeof answer, &length), RVIOMMU_OK);
    want_text("which has none", answer, "none");
    want("a step of the copy", rviommu_dma_read(&copy, 5, 0x40201abc, &byte, 1, &cause), RVIOMMU_BYTES);
    want("why of it", rviommu_reason(&copy, 0, &why), RVIOMMU_OK);
    want("its number", why.number, 12);
    want("its walk, before the copy", why.walk, 7);
    want("the same step in the trace", rviommu_line(&copy, "trace 0", 7, answer, sizeof answer, &length), RVIOMMU_OK);
    want_text("its line", answer, "dma read 0x5 0x40201abc 0x1 -> 00");
    want("none of the other", rviommu_reason(platform, 11, &why), RVIOMMU_NOT_THERE);
    want("the page of the read", rviommu_page_origin(&copy, 0, &context, &walk), RVIOMMU_OK);
    want("its context and its walk", 100 * context + walk, 707);
    rviommu_close(&copy);
}

/* As many reasons are kept as one asks for, of accesses alone if one asks for these; a copy keeps as many. */
static void test_kept_reasons(void) {
    rviommu_t platform = {NULL}, copy = {NULL};
    struct rviommu_why why;
    uint64_t cause, value;
    uint8_t byte = 0;
    memset(&why, 0, sizeof why);
    want("opened", rviommu_open_built_in(&platform), RVIOMMU_OK);
    map(&platform);
    want("a longer account", rviommu_keep_reasons(&platform, 1000, false), RVIOMMU_OK);
    want("which has no step yet", rviommu_reason(&platform, 0, &why), RVIOMMU_NOT_THERE);
    for (int i = 0; i < 1200; i++) {
        want("a load", rviommu_load(&platform, RAM, 8, &value), RVIOMMU_VALUE);
    }
    want("the oldest of 1000", rviommu_reason(&platform, 0, &why), RVIOMMU_OK);
    want("its number", why.number, 207);
    want("the newest", rviommu_reason(&platform, 999, &why), RVIOMMU_OK);
    want("its number", why.number, 1206);
    want("no further one", rviommu_reason(&platform, 1000, &why), RVIOMMU_NOT_THERE);
    want("accesses alone", rviommu_keep_reasons(&platform, 2, true), RVIOMMU_OK);
    for (int i = 0; i < 3; i++) {
        want("a write", rviommu_dma_write(&platform, 5, 0x40201abc, &byte, 1, &cause), RVIOMMU_DONE);
        want("a denial", rviommu_dma_write(&platform, 6, 0x40201abc, &byte, 1, &cause), RVIOMMU_DENIED);
        want("a look at ipsr by a step", rviommu_reg_read(&platform, 0x54, 4, &value), RVIOMMU_VALUE);
        want("a store", rviommu_store(&platform, RAM, 8, 5), RVIOMMU_DONE);
    }
    want("the first of two", rviommu_reason(&platform, 0, &why), RVIOMMU_OK);
    want("its number", why.number, 1215);
    want("its kind", why.kind, RVIOMMU_WHY_WALK);
    want("the second", rviommu_reason(&platform, 1, &why), RVIOMMU_OK);
    want("its number", why.number, 1216);
    want("its kind", why.kind, RVIOMMU_WHY_DENIED);
    want("no third", rviommu_reason(&platform, 2, &why), RVIOMMU_NOT_THERE);
    want("copied", rviommu_copy(&platform, &copy), RVIOMMU_OK);
    for (int i = 0; i < 3; i++) {
        want("a write of the copy", rviommu_dma_write(&copy, 5, 0x40201abc, &byte, 1, &cause), RVIOMMU_DONE);
        want("a store of the copy", rviommu_store(&copy, RAM, 8, 5), RVIOMMU_DONE);
    }
    want("the second of the copy", rviommu_reason(&copy, 1, &why), RVIOMMU_OK);
    want("its number", why.number, 1223);
    want("no third of the copy", rviommu_reason(&copy, 2, &why), RVIOMMU_NOT_THERE);
    want("none at all", rviommu_keep_reasons(&copy, 0, false), RVIOMMU_OK);
    want("a step", rviommu_load(&copy, RAM, 8, &value), RVIOMMU_VALUE);
    want("which isn't kept", rviommu_reason(&copy, 0, &why), RVIOMMU_NOT_THERE);
    refused = 0;
    want("reasons without memory", rviommu_keep_reasons(&platform, 1000, false), RVIOMMU_OUT_OF_MEMORY);
    refused = -1;
    want("those of before", rviommu_reason(&platform, 1, &why), RVIOMMU_OK);
    want("more than there is memory for", rviommu_keep_reasons(&platform, SIZE_MAX, false), RVIOMMU_OUT_OF_MEMORY);
    rviommu_close(&copy);
    rviommu_close(&platform);
}

/* What the function of rviommu_events was called with, and how often. */
struct raised {
    uint64_t bits;
    int calls;
};

static void note_raised(void *user, uint64_t bits) {
    struct raised *raised = user;
    raised->bits = bits;
    raised->calls++;
}

/* A denial's record raises an interrupt, which is looked at without a step, and told once. */
static void test_interrupt(void) {
    rviommu_t platform = {NULL};
    const rviommu_t *view = &platform;
    struct rviommu_why why;
    uint64_t cause = 0, value = 77;
    uint8_t byte;
    memset(&why, 0, sizeof why);
    want("opened", rviommu_open_built_in(&platform), RVIOMMU_OK);
    want("no interrupt", rviommu_interrupt(view), 0);
    want("fqb", rviommu_reg_write(&platform, 0x28, 8, 0x20008405), RVIOMMU_DONE);
    want("fqcsr: fqen and fie", rviommu_reg_write(&platform, 0x4c, 4, 3), RVIOMMU_DONE);
    want("ddtp", rviommu_reg_write(&platform, 0x10, 8, 0x20000402), RVIOMMU_DONE);
    want("none yet", rviommu_interrupt(view), 0);
    struct raised raised = {0, 0};
    struct rviommu_events events = rviommu_events_begin(view, note_raised, &raised);
    want("nothing to tell", rviommu_events_look(&events, view), false);
    want("a denial", rviommu_dma_read(&platform, 5, 0x40201abc, &byte, 1, &cause), RVIOMMU_DENIED);
    want("the fault queue's", rviommu_interrupt(view), 2);
    want("is told", rviommu_events_look(&events, view), true);
    want("by its bit", raised.bits, 2);
    want("and no more", rviommu_events_look(&events, view), false);
    want("ipsr", rviommu_reg_look(view, 0x54, 4, &value), RVIOMMU_OK);
    want("which is", value, 2);
    want("ddtp", rviommu_reg_look(view, 0x10, 8, &value), RVIOMMU_OK);
    want("which is", value, 0x20000402);
    want("eight bytes of fctl", rviommu_reg_look(view, 8, 8, &value), RVIOMMU_OUTSIDE);
    want("which leaves", value, 0x20000402);
    want("the last step", rviommu_reason(view, 3, &why), RVIOMMU_OK);
    want("which was the denial", why.number, 4);
    want("the fault's interrupt is taken", rviommu_reg_write(&platform, 0x54, 4, 2), RVIOMMU_DONE);
    want("none is left", rviommu_interrupt(view), 0);
    want("which isn't told", rviommu_events_look(&events, view), false);
    want("another denial", rviommu_dma_read(&platform, 5, 0x40201abc, &byte, 1, &cause), RVIOMMU_DENIED);
    want("is told anew", rviommu_events_look(&events, view), true);
    want("twice in all", (uint64_t)raised.calls, 2);
    rviommu_close(&platform);
}

/* Accesses of 1 to 64 bytes are one step each; those of none and of more are none. */
static void test_lengths(void) {
    rviommu_t platform = {NULL};
    struct rviommu_why why;
    uint64_t cause = 77, steps = 0;
    uint8_t bytes[66];
    memset(&why, 0, sizeof why);
    memset(bytes, 9, sizeof bytes);
    want("opened", rviommu_open_built_in(&platform), RVIOMMU_OK);
    want("ddtp: Bare", rviommu_reg_write(&platform, 0x10, 8, 1), RVIOMMU_DONE);
    want("accesses alone", rviommu_keep_reasons(&platform, 1000, false), RVIOMMU_OK);
    for (size_t length = 0; length <= 66; length++) {
        bool is_step = 0 < length && length <= 64;
        want("a write", rviommu_dma_write(&platform, 5, RAM, bytes, length, &cause), is_step ? RVIOMMU_DONE : RVIOMMU_MISUSE);
        steps += is_step;
        want("its number", rviommu_reason(&platform, steps, &why), RVIOMMU_NOT_THERE);
        want("a read", rviommu_dma_read(&platform, 5, RAM + 128, bytes, length, &cause), is_step ? RVIOMMU_BYTES : RVIOMMU_MISUSE);
        steps += is_step;
        want("its number", rviommu_reason(&platform, steps, &why), RVIOMMU_NOT_THERE);
        memset(bytes, 9, sizeof bytes);
    }
    want("the cause that was there", cause, 77);
    want("the last step", rviommu_reason(&platform, steps - 1, &why), RVIOMMU_OK);
    want("its number", why.number, 129);
    rviommu_close(&platform);
}

/* An output that isn't wanted may be NULL, and what a call leaves is the same without it. */
static void test_unwanted(void) {
    rviommu_t platform = {NULL};
    uint8_t bytes[4] = {1, 2, 3, 4};
    char words[321];
    want("opened", rviommu_open(image, image_length, &platform), RVIOMMU_OK);
    want("a load", rviommu_load(&platform, RAM, 8, NULL), RVIOMMU_VALUE);
    want("a read of a register", rviommu_reg_read(&platform, 0, 8, NULL), RVIOMMU_VALUE);
    want("a denied read", rviommu_dma_read(&platform, 5, RAM, bytes, 4, NULL), RVIOMMU_DENIED);
    want("a denied write", rviommu_dma_write(&platform, 5, RAM, bytes, 4, NULL), RVIOMMU_DENIED);
    want("ddtp: Bare", rviommu_reg_write(&platform, 0x10, 8, 1), RVIOMMU_DONE);
    want("a write", rviommu_dma_write_all(&platform, 5, RAM, bytes, 4, NULL, NULL), RVIOMMU_DONE);
    want("a read of no bytes' buffer", rviommu_dma_read(&platform, 5, RAM, NULL, 64, NULL), RVIOMMU_BYTES);
    want("a longer one", rviommu_dma_read(&platform, 5, RAM, NULL, 65, NULL), RVIOMMU_MISUSE);
    want("one over pages", rviommu_dma_read_all(&platform, 5, RAM + 8, NULL, 4000, NULL, NULL), RVIOMMU_BYTES);
    want("a device's register", rviommu_dev_read(&platform, 0, 0, 4, NULL), RVIOMMU_VALUE);
    want("a device's step", rviommu_dev_step(&platform, 0, NULL), RVIOMMU_IDLE);
    want("nothing settles", rviommu_settle(&platform, RVIOMMU_DDTP), RVIOMMU_IDLE);
    want("a line", rviommu_line(&platform, "load 0x80000000 4", 17, words, sizeof words, NULL), RVIOMMU_OK);
    want_text("its answer", words, "0x4030201");
    rviommu_memory_place(&platform, NULL, NULL);
    want("a look at a register", rviommu_reg_look(&platform, 0, 8, NULL), RVIOMMU_OK);
    want("a disk's size", rviommu_disk_size(&platform, 0, NULL), RVIOMMU_OK);
    want("a page", rviommu_page(&platform, 0, NULL), RVIOMMU_BEYOND);
    want("a context", rviommu_context(&platform, 0, NULL), RVIOMMU_BEYOND);
    want("a part", rviommu_part(&platform, 5, RAM, false, 0, NULL), RVIOMMU_OK);
    want("a stale request", rviommu_stale(&platform, 5, RAM, false, NULL), RVIOMMU_CURRENT);
    want("a stale page", rviommu_stale_page(&platform, 0, NULL), RVIOMMU_NO_SUCH);
    want("a stale context", rviommu_stale_context(&platform, 0, NULL), RVIOMMU_NO_SUCH);
    want("why", rviommu_reason(&platform, 0, NULL), RVIOMMU_OK);
    want("a page's origin", rviommu_page_origin(&platform, 0, NULL, NULL), RVIOMMU_NOT_THERE);
    want("a context's origin", rviommu_context_origin(&platform, 0, NULL), RVIOMMU_NOT_THERE);
    want("an assembly", rviommu_assemble("no", 2, bytes, sizeof bytes, NULL, NULL), RVIOMMU_BAD_LINE);
    want("words", rviommu_text(RVIOMMU_OK, words, sizeof words, NULL), RVIOMMU_OK);
    rviommu_close(&platform);
    rviommu_close(&platform);
    want("a handle that was closed twice", platform.own == NULL, true);
    rviommu_close(NULL);
}

/* Accesses of any length, over pages, and how far they came. Two pages are mapped side by side, the third isn't. */
static void test_pieces(void) {
    static uint8_t data[8192], seen[8192];
    rviommu_t platform = {NULL};
    uint64_t cause = 77, before;
    size_t done = 77;
    for (size_t i = 0; i < sizeof data; i++) {
        data[i] = (uint8_t)(i * 7 + i / 256);
    }
    want("opened", rviommu_open_built_in(&platform), RVIOMMU_OK);
    map(&platform);
    want("another leaf", rviommu_store(&platform, 0x80004010, 8, 0x200080d7), RVIOMMU_DONE);
    before = rviommu_steps(&platform);
    want("a write over two pages", rviommu_dma_write_all(&platform, 5, 0x40201c01, data, 0x1300, &done, &cause), RVIOMMU_DONE);
    want("how far it came", done, 0x1300);
    want("its steps", rviommu_steps(&platform) - before, 16 + 61);
    want("the first page", rviommu_memory(&platform, 0x80010c01, seen, 0x3ff), RVIOMMU_OK);
    want("the second", rviommu_memory(&platform, 0x80020000, seen + 0x3ff, 0xf01), RVIOMMU_OK);
    want("the bytes", memcmp(seen, data, 0x1300), 0);
    memset(seen, 9, sizeof seen);
    want("a read of them", rviommu_dma_read_all(&platform, 5, 0x40201c01, seen, 0x1300, &done, &cause), RVIOMMU_BYTES);
    want("the bytes", memcmp(seen, data, 0x1300), 0);
    want("no cause yet", cause, 77);
    memset(seen, 9, sizeof seen);
    want("a read into the third page", rviommu_dma_read_all(&platform, 5, 0x40202fa0, seen, 200, &done, &cause), RVIOMMU_DENIED);
    want("how far it came", done, 0x60);
    want("its cause", cause, 13);
    want("the byte after it", seen[0x60], 9);
    want("a write into it", rviommu_dma_write_all(&platform, 5, 0x40202fa0, data, 200, &done, &cause), RVIOMMU_DENIED);
    want("how far it came", done, 0x60);
    before = rviommu_steps(&platform);
    want("no byte", rviommu_dma_write_all(&platform, 5, 0x40201000, data, 0, &done, &cause), RVIOMMU_MISUSE);
    want("how far it came", done, 0);
    want("past the last IOVA", rviommu_dma_read_all(&platform, 5, UINT64_MAX, seen, 2, &done, &cause), RVIOMMU_MISUSE);
    want("no step of these", rviommu_steps(&platform), before);
    want("the last IOVA", rviommu_dma_read_all(&platform, 5, UINT64_MAX, seen, 1, &done, &cause), RVIOMMU_DENIED);
    rviommu_close(&platform);
}

static void test_version(void) {
    char number[24];
    uint32_t told = rviommu_version();
    snprintf(number, sizeof number, "%u.%u.%u", (unsigned)(told >> 16), (unsigned)(told >> 8 & 255), (unsigned)(told & 255));
    want_text("the version", number, RVIOMMU_VERSION);
}

static void test_account(void) {
    rviommu_t platform = {NULL};
    want("opened", rviommu_open_built_in(&platform), RVIOMMU_OK);
    test_why(&platform);
    test_copied_account(&platform);
    rviommu_close(&platform);
}

static void test_reasons(void) {
    rviommu_t platform = {NULL};
    char answer[321];
    size_t length;
    want("opened", rviommu_open_built_in(&platform), RVIOMMU_OK);
    map(&platform);
    test_walk(&platform);
    test_stale(&platform);
    want("no look is a step", rviommu_line(&platform, "trace 9", 7, answer, sizeof answer, &length), RVIOMMU_OK);
    want_text("the last step", answer, "store 0x800010a0 0x8 0x11 -> done");
    rviommu_close(&platform);
}

static void test_words(void) {
    char words[32] = "old";
    size_t length = 9;
    for (int status = RVIOMMU_OK; status <= RVIOMMU_BAD_CAPABILITIES; status++) {
        want("words", rviommu_text((enum rviommu_status)status, words, sizeof words, &length), RVIOMMU_OK);
        want("their length", strlen(words), length);
    }
    want_text("the last words", words, "bad capabilities");
    want("too little room", rviommu_text(RVIOMMU_OK, words, 31, &length), RVIOMMU_LITTLE_ROOM);
    want_text("what is left", words, "bad capabilities");
}

static void test_names_of_causes(void) {
    static const struct {
        uint64_t cause;
        const char *name;
    } names[] = {{5, "read access fault"}, {7, "write access fault"}, {13, "read page fault"}, {15, "write page fault"}, {21, "read guest page fault"},
                 {23, "write guest page fault"}, {256, "all inbound transactions disallowed"}, {257, "DDT entry load access fault"}, {258, "DDT entry not valid"},
                 {259, "DDT entry misconfigured"}, {260, "transaction type disallowed"}, {0, "no such cause"}, {UINT64_MAX, "no such cause"}};
    char words[48];
    size_t length;
    for (size_t i = 0; i < sizeof names / sizeof *names; i++) {
        want("a name", rviommu_cause_text(names[i].cause, words, sizeof words, &length), RVIOMMU_OK);
        want_text("its words", words, names[i].name);
        want("their length", length, strlen(words));
    }
    want("too little room", rviommu_cause_text(13, words, 47, NULL), RVIOMMU_LITTLE_ROOM);
    want_text("what is left", words, "no such cause");
}

/* Names of before that go on working. */
static void test_earlier_names(void) {
    rviommu_t platform = {NULL};
    struct rviommu_why why;
    size_t found = 7;
    want("opened", rviommu_open_built_in(&platform), RVIOMMU_OK);
    want("kept", rviommu_keep_holdings(&platform, true), RVIOMMU_OK);
    rviommu_command(&platform);
    want("a reason", rviommu_why(&platform, 0, &why), RVIOMMU_OK);
    want("its number", why.number, 1);
    want("no second one", rviommu_why(&platform, 1, NULL), rviommu_reason(&platform, 1, NULL));
    want("what is owed", rviommu_owed(&platform, NULL, 0, &found), RVIOMMU_OK);
    want("nothing", found, 0);
    rviommu_close(&platform);
}

int main(void) {
    test_assemble();
    test_refused_images();
    test_refused_memory();
    test_refused_lent_memory();
    test_lines();
    test_names_of_causes();
    test_earlier_names();
    test_looks();
    test_reasons();
    test_64_kib();
    test_account();
    test_kept_reasons();
    test_interrupt();
    test_lengths();
    test_unwanted();
    test_pieces();
    test_version();
    test_words();
    printf(failed ? "failed\n" : "passed\n");
    return failed;
}
