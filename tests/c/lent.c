/*
 * Lent memory. lent.c ACCESSES [SCRIPT]: a program with 1 GiB of its own memory lends it to a handle, and plays so many accesses. Between calls
 * another part of the program writes words of it. Each answer, each look and each byte is that of a handle with memory of its own, a window at
 * the end of the same addresses, which is written by rviommu_memory_write. With SCRIPT a shorter run is also written into that file as lines
 * with their answers, in which what others write are stores of the hart.
 */
#include <inttypes.h>
#include <stdio.h>
#include <stdlib.h>
#include <string.h>

#include "rviommu.h"

#define BASE 0x80000000u
#define SIZE (1u << 30)
#define COUNT (SIZE / 8)
#define WINDOW 0x100000u /* of the lent memory the last MiB: all that the tables lead to */
#define START (BASE + SIZE - WINDOW)
#define ACCESSES_OF_A_SCRIPT 3000

static int failed;
static uint64_t *words;
static FILE *script; /* of which the lines are written, or NULL */
static rviommu_t lent, own;

static void want(const char *what, uint64_t seen, uint64_t wanted) {
    if (seen != wanted) {
        printf("%s: 0x%" PRIx64 ", wanted 0x%" PRIx64 "\n", what, seen, wanted);
        failed = 1;
    }
}

/* A number that no one foresees, the same in each run. */
static uint64_t next_number(void) {
    static uint64_t state = 88172645463325252u;
    state ^= state << 13;
    state ^= state >> 7;
    state ^= state << 17;
    return state;
}

static uint64_t below(uint64_t end) { return next_number() % end; }

/* Another part of the program writes a word, by its place in the window; no step. */
static void others_write(uint64_t place, uint64_t word) {
    words[(START - BASE + place) / 8] = word;
    if (script == NULL) {
        want("a write by others", rviommu_memory_write(&own, START + place, (const uint8_t *)&word, 8), RVIOMMU_OK);
    } else {
        want("a store", rviommu_store(&own, START + place, 8, word), RVIOMMU_DONE);
        fprintf(script, "store 0x%" PRIx64 " 8 0x%" PRIx64 " # => done\n", START + place, word);
    }
}

static void reg_write(uint64_t offset, uint64_t size, uint64_t value) {
    uint32_t answer = rviommu_reg_write_lent(&lent, words, COUNT, offset, size, value);
    want("a write of a register", answer, rviommu_reg_write(&own, offset, size, value));
    if (script != NULL) {
        fprintf(script, "reg write 0x%" PRIx64 " %" PRIu64 " 0x%" PRIx64 " # => %s\n", offset, size, value, answer == RVIOMMU_DONE ? "done" : "bad access");
    }
}

/* The line of a step, with its answer. */
static void tell(const char *line, uint32_t answer, const uint8_t *bytes, size_t length, uint64_t number) {
    if (script == NULL) {
        return;
    }
    fprintf(script, "%s # => ", line);
    switch (answer) {
    case RVIOMMU_BYTES:
        for (size_t i = 0; i < length; i++) {
            fprintf(script, "%02x", bytes[i]);
        }
        fputs("\n", script);
        break;
    case RVIOMMU_VALUE: fprintf(script, "0x%" PRIx64 "\n", number); break;
    case RVIOMMU_DENIED: fprintf(script, "denied %" PRIu64 "\n", number); break;
    case RVIOMMU_BUS_ERROR: fputs("bus error\n", script); break;
    case RVIOMMU_IDLE: fputs("idle\n", script); break;
    default: fputs("done\n", script);
    }
}

static void read_by_device(uint64_t did, uint64_t iova, size_t length) {
    uint8_t seen[64] = {0}, wanted[64] = {0};
    uint64_t cause = 0, wanted_cause = 0;
    char line[80];
    uint32_t answer = rviommu_dma_read_lent(&lent, words, COUNT, did, iova, seen, length, &cause);
    want("a read", answer, rviommu_dma_read(&own, did, iova, wanted, length, &wanted_cause));
    want("its bytes", memcmp(seen, wanted, sizeof seen), 0);
    want("its cause", cause, wanted_cause);
    snprintf(line, sizeof line, "dma read %" PRIu64 " 0x%" PRIx64 " %zu", did, iova, length);
    tell(line, answer, seen, length, cause);
}

static void write_by_device(uint64_t did, uint64_t iova, size_t length) {
    uint8_t bytes[64];
    uint64_t cause = 0, wanted_cause = 0;
    char line[200];
    int end = snprintf(line, sizeof line, "dma write %" PRIu64 " 0x%" PRIx64 " ", did, iova);
    for (size_t i = 0; i < length; i++) {
        bytes[i] = (uint8_t)next_number();
        end += snprintf(line + end, sizeof line - (size_t)end, "%02x", bytes[i]);
    }
    uint32_t answer = rviommu_dma_write_lent(&lent, words, COUNT, did, iova, bytes, length, &cause);
    want("a write", answer, rviommu_dma_write(&own, did, iova, bytes, length, &wanted_cause));
    want("its cause", cause, wanted_cause);
    tell(line, answer, NULL, 0, cause);
}

static void translate(uint64_t did, uint64_t iova, bool is_write) {
    struct rviommu_way way, wanted_way;
    uint64_t number = 0, wanted = 0, address = 77, wanted_address = 77;
    char line[80];
    memset(&way, 0, sizeof way);
    memset(&wanted_way, 0, sizeof wanted_way);
    want("a look", rviommu_way_now_lent(&lent, words, COUNT, did, iova, is_write, &way, &address), RVIOMMU_OK);
    want("its like", rviommu_way_now(&own, did, iova, is_write, &wanted_way, &wanted_address), RVIOMMU_OK);
    want("its way", memcmp(&way, &wanted_way, sizeof way), 0);
    want("its address", address, wanted_address);
    uint32_t answer = rviommu_translate_lent(&lent, words, COUNT, did, iova, is_write, &number);
    want("a translation", answer, rviommu_translate(&own, did, iova, is_write, &wanted));
    want("its number", number, wanted);
    want("where the look led", answer == RVIOMMU_VALUE ? address : way.cause, number);
    snprintf(line, sizeof line, "translate %s %" PRIu64 " 0x%" PRIx64, is_write ? "write" : "read", did, iova);
    tell(line, answer, NULL, 0, number);
}

static void command(void) {
    uint32_t answer = rviommu_command_lent(&lent, words, COUNT);
    want("a command", answer, rviommu_command(&own));
    tell("cmd", answer, NULL, 0, 0);
}

/* A leaf of page `page` of device `did`: mostly to a frame of the window, now and then beyond memory or to none. */
static void map(uint64_t did, uint64_t page) {
    static const uint64_t flags[] = {0xd7, 0xd7, 0xd7, 0xd3, 0xf7, 0};
    uint64_t frame = below(16) == 0 ? 0xc0000 : START / 4096 + 128 + below(128);
    others_write(0x10000 + 0x1000 * did + 8 * page, frame << 10 | flags[below(6)]);
}

/* Device `did`, 1 to 7: a context with PSCID `did`, and tables of Sv39 of which the last has 64 pages. */
static void add_device(uint64_t did) {
    uint64_t tables = START + 0x4000 + 0x2000 * did, leaves = START + 0x10000 + 0x1000 * did;
    others_write(0x1000 + 32 * did, 1);
    others_write(0x1000 + 32 * did + 16, did << 12);
    others_write(0x1000 + 32 * did + 24, (uint64_t)8 << 60 | tables / 4096);
    others_write(tables - START + 8, (tables / 4096 + 1) << 10 | 1);
    others_write(tables - START + 0x1008, leaves / 4096 << 10 | 1);
    for (uint64_t page = 0; page < 64; page++) {
        map(did, page);
    }
}

/* ddtp: one level at START + 0x1000; 16 commands at START + 0x2000; 16 records at START + 0x3000. */
static void set_up(void) {
    reg_write(0x18, 8, (START + 0x2000) / 4096 << 10 | 3);
    reg_write(0x48, 4, 3);
    reg_write(0x28, 8, (START + 0x3000) / 4096 << 10 | 3);
    reg_write(0x4c, 4, 3);
    reg_write(0x10, 8, (START + 0x1000) / 4096 << 10 | 2);
}

/* Drops what is cached of a device: IOTINVAL.VMA with its PSCID, or IODIR.INVAL_DDT. */
static void invalidate(uint64_t did) {
    uint64_t tail = 0;
    rviommu_reg_look(&own, 0x24, 4, &tail);
    others_write(0x2000 + 16 * tail, below(2) ? 1 | (uint64_t)1 << 32 | did << 12 : 3 | did << 40 | (uint64_t)1 << 33);
    others_write(0x2000 + 16 * tail + 8, 0);
    reg_write(0x24, 4, (tail + 1) % 16);
    command();
}

static void take_faults(void) {
    uint64_t tail = 0;
    rviommu_reg_look(&own, 0x34, 4, &tail);
    reg_write(0x30, 4, tail);
    reg_write(0x4c, 4, 0x303);
    reg_write(0x54, 4, 3);
}

static void access_once(void) {
    uint64_t did = 1 + below(8), iova = 0x40200000 + 0x1000 * below(66) + below(4096), left = 4096 - iova % 4096;
    size_t length = 1 + below(left < 64 ? left : 64);
    switch (below(3)) {
    case 0: read_by_device(did, iova, length); break;
    case 1: write_by_device(did, iova, length); break;
    default: translate(did, iova, below(2));
    }
}

/* What the two handles tell of the last step, of the caches and of the registers is the same. */
static void compare(void) {
    struct rviommu_why why, wanted;
    uint64_t fqcsr = 0, wanted_fqcsr = 0;
    memset(&why, 0, sizeof why);
    memset(&wanted, 0, sizeof wanted);
    want("why", rviommu_reason(&lent, 31, &why), rviommu_reason(&own, 31, &wanted));
    want("it", memcmp(&why, &wanted, sizeof why), 0);
    for (uint64_t place = 0; place <= 64; place++) {
        struct rviommu_page_place page, wanted_page;
        uint64_t context = 0, walk = 0, wanted_context = 0, wanted_walk = 0;
        memset(&page, 0, sizeof page);
        memset(&wanted_page, 0, sizeof wanted_page);
        want("a place", rviommu_page(&lent, place, &page), rviommu_page(&own, place, &wanted_page));
        want("what it holds", memcmp(&page, &wanted_page, sizeof page), 0);
        rviommu_page_origin(&lent, place, &context, &walk);
        rviommu_page_origin(&own, place, &wanted_context, &wanted_walk);
        want("who filled it", walk, wanted_walk);
        want("who filled its context", context, wanted_context);
    }
    rviommu_reg_look(&lent, 0x4c, 4, &fqcsr);
    rviommu_reg_look(&own, 0x4c, 4, &wanted_fqcsr);
    want("fqcsr", fqcsr, wanted_fqcsr);
    want("interrupts", rviommu_interrupt(&lent), rviommu_interrupt(&own));
}

static void compare_memory(void) {
    static uint8_t window[WINDOW];
    want("the window", rviommu_memory(&own, START, window, WINDOW), RVIOMMU_OK);
    want("its bytes", memcmp(window, words + (START - BASE) / 8, WINDOW), 0);
}

static void open_both(void) {
    uint8_t image[1024];
    char text[80];
    size_t length = 0;
    int end = snprintf(text, sizeof text, "ram 0x%x 0x%x\n", START, WINDOW);
    want("an image", rviommu_assemble(text, (size_t)end, image, sizeof image, &length, NULL), RVIOMMU_OK);
    want("memory of its own", rviommu_open(image, length, &own), RVIOMMU_OK);
    want("memory that is lent", rviommu_open_lent(BASE, SIZE, &lent), RVIOMMU_OK);
    memset(words + (START - BASE) / 8, 0, WINDOW);
}

static void play(uint64_t accesses) {
    open_both();
    set_up();
    for (uint64_t did = 1; did < 8; did++) {
        add_device(did);
    }
    for (uint64_t done = 0; done < accesses; done++) {
        access_once();
        if (below(8) == 0) {
            map(1 + below(7), below(64));
        }
        if (below(64) == 0) {
            invalidate(1 + below(7));
        }
        if (below(256) == 0) {
            take_faults();
        }
        if (script == NULL && below(20000) == 0) {
            rviommu_reset(&lent);
            rviommu_reset(&own);
            set_up();
        }
        if (script == NULL && done % 5000 == 0) {
            compare();
            compare_memory();
        }
    }
    compare_memory();
    if (script == NULL) {
        want("steps", rviommu_steps(&lent), rviommu_steps(&own));
    }
    rviommu_close(&lent);
    rviommu_close(&own);
}

/* Nothing else of the gigabyte was written. */
static void look_at_the_rest(void) {
    uint64_t all = 0;
    for (size_t i = 0; i < (START - BASE) / 8; i++) {
        all |= words[i];
    }
    want("the rest of memory", all, 0);
}

/* Memory that isn't what a handle is lent: nothing is done. */
static void test_refusals(void) {
    static const uint64_t bad[][2] = {{BASE + 8, 0x1000}, {BASE, 0}, {BASE, 0x1008}, {BASE, (uint64_t)1 << 56}, {(uint64_t)1 << 56, 0x1000}, {UINT64_MAX - 4095, 0x1000}};
    rviommu_t handle = {NULL}, copy = {NULL};
    struct rviommu_walk_part part;
    struct rviommu_located located;
    struct rviommu_way way;
    uint64_t page[512] = {1, 2, 3}, number = 77, address = 77, base = 0, size = 0;
    uint8_t bytes[64] = {9};
    char text[321] = "old";
    for (size_t i = 0; i < sizeof bad / sizeof *bad; i++) {
        want("no such memory", rviommu_open_lent(bad[i][0], bad[i][1], &handle), RVIOMMU_BAD_RAM);
        want("its handle", handle.own == NULL, true);
        want("nor of an image", rviommu_open_lent_image(bytes, 1, bad[i][0], bad[i][1], &handle), RVIOMMU_BAD_RAM);
    }
    want("no image", rviommu_open_lent_image(bytes, 1, BASE, 0x1000, &handle), RVIOMMU_TRUNCATED);
    want("the last memory", rviommu_open_lent(((uint64_t)1 << 56) - 0x1000, 0x1000, &handle), RVIOMMU_OK);
    rviommu_memory_place(&handle, &base, &size);
    want("its base", base, ((uint64_t)1 << 56) - 0x1000);
    want("its size", size, 0x1000);
    want("a store into it", rviommu_store_lent(&handle, page, 512, base + 8, 8, 5), RVIOMMU_DONE);
    want("its word", page[1], 5);
    want("a word too few", rviommu_store_lent(&handle, page, 511, base, 8, 6), RVIOMMU_OTHER_MEMORY);
    want("no word", rviommu_store(&handle, base, 8, 6), RVIOMMU_OTHER_MEMORY);
    want("no word for a load", rviommu_load(&handle, base, 8, &number), RVIOMMU_OTHER_MEMORY);
    want("for a register", rviommu_reg_read(&handle, 0, 8, &number), RVIOMMU_OTHER_MEMORY);
    want("to be written", rviommu_reg_write(&handle, 16, 8, 1), RVIOMMU_OTHER_MEMORY);
    want("for a read", rviommu_dma_read(&handle, 5, base, bytes, 1, &number), RVIOMMU_OTHER_MEMORY);
    want("for a write", rviommu_dma_write(&handle, 5, base, bytes, 1, &number), RVIOMMU_OTHER_MEMORY);
    want("for a translation", rviommu_translate(&handle, 5, base, false, &number), RVIOMMU_OTHER_MEMORY);
    want("for a command", rviommu_command(&handle), RVIOMMU_OTHER_MEMORY);
    want("for a device's register", rviommu_dev_read(&handle, 0, 0, 4, &number), RVIOMMU_OTHER_MEMORY);
    want("to be written", rviommu_dev_write(&handle, 0, 0, 4, 0), RVIOMMU_OTHER_MEMORY);
    want("for a device's step", rviommu_dev_step(&handle, 0, &number), RVIOMMU_OTHER_MEMORY);
    want("for a look", rviommu_way_now(&handle, 5, base, false, &way, &address), RVIOMMU_STATUS_OTHER_MEMORY);
    want("a look at its memory", rviommu_memory(&handle, base, bytes, 1), RVIOMMU_STATUS_OTHER_MEMORY);
    want("a write into it", rviommu_memory_write(&handle, base, bytes, 1), RVIOMMU_STATUS_OTHER_MEMORY);
    want("a line", rviommu_line(&handle, "cmd", 3, text, sizeof text, NULL), RVIOMMU_STATUS_OTHER_MEMORY);
    want("a walk", rviommu_part(&handle, 5, base, false, 0, &part), RVIOMMU_STATUS_OTHER_MEMORY);
    want("a stale request", rviommu_stale(&handle, 5, base, false, &way), RVIOMMU_STANDING_OTHER_MEMORY);
    want("a stale page", rviommu_stale_page(&handle, 0, &way), RVIOMMU_STANDING_OTHER_MEMORY);
    want("a stale context", rviommu_stale_context(&handle, 0, &located), RVIOMMU_STANDING_OTHER_MEMORY);
    want("what is left of these", number + address + bytes[0] + page[0] + (uint64_t)strcmp(text, "old"), 77 + 77 + 9 + 1);
    want("one step", rviommu_steps(&handle), 1);
    want("a copy", rviommu_copy(&handle, &copy), RVIOMMU_OK);
    want("ddtp of it", rviommu_reg_write_lent(&copy, page, 512, 16, 8, 1), RVIOMMU_DONE);
    want("an address beyond memory", rviommu_translate_lent(&copy, page, 512, 5, 0x123, true, &number), RVIOMMU_VALUE);
    want("which is", number, 0x123);
    want("the original is off", rviommu_translate_lent(&handle, page, 512, 5, 0x123, true, &number), RVIOMMU_DENIED);
    want("cause", number, 256);
    rviommu_close(&copy);
    rviommu_close(&handle);
    want("memory of its own", rviommu_open_built_in(&handle), RVIOMMU_OK);
    want("words beside it", rviommu_store_lent(&handle, page, 512, BASE, 8, 6), RVIOMMU_OTHER_MEMORY);
    want("no step", rviommu_steps(&handle), 0);
    rviommu_close(&handle);
}

/* Two IOMMUs over one memory: the device behind each writes what the other's reads, and a record of one stands in memory for the other. */
static void test_two_over_one_memory(void) {
    rviommu_t first = {NULL}, second = {NULL};
    uint64_t cause = 0, number = 0;
    uint8_t bytes[8];
    want("the first", rviommu_open_lent(BASE, SIZE, &first), RVIOMMU_OK);
    want("the second", rviommu_open_lent(BASE, SIZE, &second), RVIOMMU_OK);
    want("ddtp: Bare", rviommu_reg_write_lent(&first, words, COUNT, 0x10, 8, 1), RVIOMMU_DONE);
    want("fqb", rviommu_reg_write_lent(&second, words, COUNT, 0x28, 8, (BASE + 0x1000) / 4096 << 10 | 3), RVIOMMU_DONE);
    want("fqcsr", rviommu_reg_write_lent(&second, words, COUNT, 0x4c, 4, 1), RVIOMMU_DONE);
    want("a write by the first's device", rviommu_dma_write_lent(&first, words, COUNT, 1, BASE + 8, (const uint8_t *)"to both", 8, &cause), RVIOMMU_DONE);
    want("the second is off", rviommu_dma_read_lent(&second, words, COUNT, 1, BASE + 8, bytes, 8, &cause), RVIOMMU_DENIED);
    want("its record, read by the first's device", rviommu_dma_read_lent(&first, words, COUNT, 1, BASE + 0x1000, bytes, 8, &cause), RVIOMMU_BYTES);
    want("its cause", bytes[0] | bytes[1] << 8, 256);
    want("ddtp: Bare", rviommu_reg_write_lent(&second, words, COUNT, 0x10, 8, 1), RVIOMMU_DONE);
    want("a read by the second's device", rviommu_dma_read_lent(&second, words, COUNT, 1, BASE + 8, bytes, 8, &cause), RVIOMMU_BYTES);
    want("what the first's wrote", (uint64_t)memcmp(bytes, "to both", 8), 0);
    want("no record of the first", rviommu_reg_look(&first, 0x34, 4, &number) + number, 0);
    memset(words, 0, 0x2000);
    rviommu_close(&first);
    rviommu_close(&second);
}

int main(int count, char **names) {
    words = calloc(COUNT, 8);
    if (words == NULL || count < 2) {
        return 1;
    }
    test_refusals();
    test_two_over_one_memory();
    play((uint64_t)atol(names[1]));
    look_at_the_rest();
    if (count > 2) {
        script = fopen(names[2], "w");
        if (script == NULL) {
            return 1;
        }
        play(ACCESSES_OF_A_SCRIPT);
        want("the script's end", (uint64_t)fclose(script), 0);
    }
    free(words);
    printf(failed ? "failed\n" : "passed\n");
    return failed;
}
