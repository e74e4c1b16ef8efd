/*
 * saved: a run at random is saved in the middle, and goes on in the handle and in the one that was restored: each step has the same answer in both,
 * and so has each look. Bytes that aren't a saved handle, and lent memory. Linked with --wrap=malloc and --wrap=realloc, so that one allocation
 * can be refused.
 */
#include <inttypes.h>
#include <stdio.h>
#include <stdlib.h>
#include <string.h>

#include "refusable.h"
#include "rviommu.h"
#include "want.h"

#define RAM 0x80000000u
#define SIZE 0x100000u

static uint64_t state = 1;

static uint64_t below(uint64_t bound) {
    state = state * 6364136223846793005u + 1442695040888963407u;
    return (state >> 33) % bound;
}

/* What is saved of a handle, in memory of its own. */
struct bytes {
    uint8_t *at;
    size_t length;
};

static struct bytes saved_of(const rviommu_t *platform) {
    struct bytes saved = {NULL, 0};
    size_t length = 0;
    want("the length", rviommu_save(platform, NULL, 0, &saved.length), RVIOMMU_LITTLE_ROOM);
    saved.at = malloc(saved.length + 1);
    saved.at[0] = 0x55;
    want("a byte too little", rviommu_save(platform, saved.at, saved.length - 1, &length), RVIOMMU_LITTLE_ROOM);
    want("its length", length, saved.length);
    want("its bytes", saved.at[0], 0x55);
    saved.at[saved.length] = 0x55;
    want("saved", rviommu_save(platform, saved.at, saved.length + 1, &length), RVIOMMU_OK);
    want("its length", length, saved.length);
    want("behind it", saved.at[saved.length], 0x55);
    return saved;
}

/* Two disks; devices 5 and 7 are led by Sv39 from IOVA 0x40200000 to eight pages from 0x80010000 on. The text states the memory. */
static void open_on(const char *text, rviommu_t *platform) {
    static const uint64_t words[][2] = {{0x800010a0, 1}, {0x800010b8, 0x8000000000080002}, {0x800010e0, 1}, {0x800010f8, 0x8000000000080002},
                                        {0x80002008, 0x20000c01}, {0x80003008, 0x20001001}};
    uint8_t image[256];
    size_t length = 0;
    want("an image", rviommu_assemble(text, strlen(text), image, sizeof image, &length, NULL), RVIOMMU_OK);
    want("opened", rviommu_open(image, length, platform), RVIOMMU_OK);
    for (size_t i = 0; i < sizeof words / sizeof *words; i++) {
        rviommu_store(platform, words[i][0], 8, words[i][1]);
    }
    for (uint64_t page = 0; page < 8; page++) {
        rviommu_store(platform, 0x80004000 + 8 * page, 8, (0x80010 + page) << 10 | 0xd7);
    }
    rviommu_reg_write(platform, 0x10, 8, 0x20000402);
    rviommu_reg_write(platform, 0x18, 8, 0x20008005);
    rviommu_reg_write(platform, 0x48, 4, 1);
    rviommu_reg_write(platform, 0x28, 8, 0x20008405);
    rviommu_reg_write(platform, 0x4c, 4, 3);
}

/* 1 MiB of memory. */
static void open_mapped(rviommu_t *platform) { open_on("ram 0x80000000 0x100000\ndisk 7 2 aabb\nrodisk 9 1 cc\n", platform); }

/* A driver of block device 0, which is led as device 7: a queue of four descriptors at IOVA 0x40200000, and a request to read a sector. */
static void start_disk(rviommu_t *platform) {
    static const uint64_t words[][2] = {{0x80010000, 0x40203000}, {0x80010008, 0x0001000100000010}, {0x80010010, 0x40203100}, {0x80010018, 0x0002000300000200},
                                        {0x80010020, 0x40203400}, {0x80010028, 0x0000000200000001}, {0x80011000, 0x0000000000010000}, {0x80013000, 0}, {0x80013008, 0}};
    static const uint32_t registers[][2] = {{0x70, 1}, {0x70, 3}, {0x24, 1}, {0x20, 1}, {0x24, 0}, {0x20, 0}, {0x70, 11}, {0x30, 0}, {0x38, 4}, {0x80, 0x40200000},
                                            {0x84, 0}, {0x90, 0x40201000}, {0x94, 0}, {0xa0, 0x40202000}, {0xa4, 0}, {0x44, 1}, {0x70, 15}, {0x50, 0}};
    for (size_t i = 0; i < sizeof words / sizeof *words; i++) {
        want("a word of the queue", rviommu_store(platform, words[i][0], 8, words[i][1]), RVIOMMU_DONE);
    }
    for (size_t i = 0; i < sizeof registers / sizeof *registers; i++) {
        want("a register of the disk", rviommu_dev_write(platform, 0, registers[i][0], 4, registers[i][1]), RVIOMMU_DONE);
    }
}

/* A step at random, the same for both: each has the same answer, number and bytes. */
static void step_both(rviommu_t *one, rviommu_t *other) {
    uint64_t kind = below(8), iova = 0x40200000 + below(0x9000), number = 7, again = 7, address, value, device;
    size_t length = 1 + (size_t)below(64);
    uint8_t bytes[64], others[64];
    memset(bytes, 1, sizeof bytes);
    memset(others, 1, sizeof others);
    switch (kind) {
    case 0:
        address = 0x80004000 + 8 * below(9), value = (0x80010 + below(9)) << 10 | 0xd7;
        want("a store", rviommu_store(other, address, 8, value), rviommu_store(one, address, 8, value));
        break;
    case 1:
        address = 4 * below(32);
        want("a register", rviommu_reg_read(other, address, 4, &again), rviommu_reg_read(one, address, 4, &number));
        break;
    case 2:
        address = 0x80020000 + 16 * below(64), value = below(2) ? 1 : below(2) ? 2 : 3 | 1 << 7;
        rviommu_store(one, address, 8, value), rviommu_store(other, address, 8, value);
        value = below(64);
        want("cqt", rviommu_reg_write(other, 0x24, 4, value), rviommu_reg_write(one, 0x24, 4, value));
        break;
    case 3:
        want("a command", rviommu_command(other), rviommu_command(one));
        break;
    case 4:
    case 5:
        device = below(3);
        want("a device's step", rviommu_dev_step(other, device, &again), rviommu_dev_step(one, device, &number));
        break;
    case 6:
        device = 5 + below(3);
        want("a read", rviommu_dma_read(other, device, iova, others, length, &again), rviommu_dma_read(one, device, iova, bytes, length, &number));
        want("its bytes", memcmp(bytes, others, sizeof bytes) == 0, true);
        break;
    default:
        memset(bytes, (int)below(256), sizeof bytes);
        device = 5 + below(3);
        want("a write", rviommu_dma_write(other, device, iova, bytes, length, &again), rviommu_dma_write(one, device, iova, bytes, length, &number));
    }
    want("its number", again, number);
}

/* What can be looked at is equal: what is saved of both is. */
static void want_equal(const rviommu_t *one, const rviommu_t *other) {
    struct bytes first = saved_of(one), second = saved_of(other);
    want("as many bytes", second.length, first.length);
    want("the same bytes", first.length == second.length && memcmp(first.at, second.at, first.length) == 0, true);
    free(first.at);
    free(second.at);
}

/* The reasons since the handle was restored. */
static void want_equal_reasons(const rviommu_t *one, const rviommu_t *other, uint64_t count) {
    for (uint64_t back = 1; back <= count; back++) {
        struct rviommu_why first, second;
        memset(&first, 0, sizeof first);
        memset(&second, 0, sizeof second);
        want("a reason", rviommu_reason(one, 32 - back, &first), RVIOMMU_OK);
        want("its own", rviommu_reason(other, count - back, &second), RVIOMMU_OK);
        want("its number", second.number, first.number);
        want("its context", second.context, first.context);
        want("its page", second.walk, first.walk);
        want("whether it is stale", second.is_stale, first.is_stale);
    }
}

/* The traces since then. */
static void want_equal_traces(rviommu_t *one, rviommu_t *other, int count) {
    for (int back = 1; back <= count; back++) {
        char question[16], first[321], second[321];
        int length = snprintf(question, sizeof question, "trace %d", 32 - back);
        want("a line", rviommu_line(one, question, (size_t)length, first, sizeof first, NULL), RVIOMMU_OK);
        length = snprintf(question, sizeof question, "trace %d", count - back);
        want("its own", rviommu_line(other, question, (size_t)length, second, sizeof second, NULL), RVIOMMU_OK);
        want("the same step", strcmp(first, second) == 0, true);
    }
}

/* Saved at `moment`, in each phase of the request of a disk. */
static void test_run(int moment) {
    rviommu_t platform = {NULL}, copy = {NULL}, again = {NULL};
    open_mapped(&platform);
    start_disk(&platform);
    want("copied", rviommu_copy(&platform, &copy), RVIOMMU_OK);
    for (int i = 0; i < moment; i++) {
        want("the disk", rviommu_dev_step(&copy, 0, NULL), rviommu_dev_step(&platform, 0, NULL));
        step_both(&platform, &copy);
    }
    want_equal(&platform, &copy);
    rviommu_close(&copy);
    struct bytes saved = saved_of(&platform);
    uint64_t before = rviommu_steps(&platform), count;
    want("restored", rviommu_restore(saved.at, saved.length, &again), RVIOMMU_OK);
    free(saved.at);
    want_equal(&platform, &again);
    want("no reason yet", rviommu_reason(&again, 0, NULL), RVIOMMU_NOT_THERE);
    for (int i = 0; i < 8; i++) {
        step_both(&platform, &again);
        want("the disk", rviommu_dev_step(&again, 0, NULL), rviommu_dev_step(&platform, 0, NULL));
    }
    count = rviommu_steps(&again) - before;
    want("as many steps as are kept", count <= 32, true);
    want("the number of the last step", rviommu_steps(&again), rviommu_steps(&platform));
    want_equal_reasons(&platform, &again, count);
    want_equal_traces(&platform, &again, (int)count);
    for (int i = 0; i < 300; i++) {
        step_both(&platform, &again);
    }
    want_equal(&platform, &again);
    rviommu_close(&platform);
    rviommu_close(&again);
}

/* Bytes that are cut, longer, changed, or of another version. */
static void test_refused_bytes(void) {
    rviommu_t platform = {NULL}, again = {NULL};
    size_t step;
    open_mapped(&platform);
    rviommu_dma_read(&platform, 5, 0x40200000, NULL, 8, NULL);
    struct bytes saved = saved_of(&platform);
    for (size_t length = 0; length < saved.length; length += step) {
        want("cut bytes", rviommu_restore(saved.at, length, &again), RVIOMMU_BAD_SAVE);
        want("its handle", again.own == NULL, true);
        step = length < 64 || saved.length - length < 2048 ? 1 : 4097;
    }
    saved.at = realloc(saved.at, saved.length + 8);
    memset(saved.at + saved.length, 0, 8);
    want("eight bytes more", rviommu_restore(saved.at, saved.length + 8, &again), RVIOMMU_BAD_SAVE);
    saved.at[0] ^= 1;
    want("another magic", rviommu_restore(saved.at, saved.length, &again), RVIOMMU_BAD_SAVE);
    saved.at[0] ^= 1;
    uint8_t version = saved.at[8];
    saved.at[8]++;
    want("another version", rviommu_restore(saved.at, saved.length, &again), RVIOMMU_OTHER_VERSION);
    saved.at[8] = version - 1;
    want("an older version", rviommu_restore(saved.at, saved.length, &again), RVIOMMU_OTHER_VERSION);
    saved.at[8] = version;
    want("as it was", rviommu_restore(saved.at, saved.length, &again), RVIOMMU_OK);
    want_equal(&platform, &again);
    free(saved.at);
    rviommu_close(&platform);
    rviommu_close(&again);
}

/* Damages bytes: a bit, a byte, a word, or some bytes behind one another, of the first 256 or of all. */
static void damage(struct bytes saved) {
    size_t most = below(2) ? 256 : saved.length, place = below(most), count = 1 + below(below(2) ? 8 : 64);
    switch (below(4)) {
    case 0:
        saved.at[place] ^= (uint8_t)(1 << below(8));
        break;
    case 1:
        saved.at[place] = (uint8_t)below(256);
        break;
    case 2:
        memset(saved.at + place / 8 * 8, below(2) ? 0 : 0xff, 8);
        break;
    default:
        for (size_t i = place; i < place + count && i < saved.length; i++) {
            saved.at[i] = (uint8_t)below(256);
        }
    }
}

/* 5,000 damaged saves, and each bit of the first 16 words: each is refused or open, and takes at most twice the memory that the original takes. */
static void test_damaged_bytes(void) {
    rviommu_t platform = {NULL}, again = {NULL};
    open_on("ram 0x80000000 0x8000\ndisk 7 2 aabb\nrodisk 9 1 cc\n", &platform);
    rviommu_dev_write(&platform, 0, 0x70, 4, 3);
    want("its page is cached, but not in memory", rviommu_dma_read(&platform, 5, 0x40200000, NULL, 8, NULL), RVIOMMU_BUS_ERROR);
    struct bytes saved = saved_of(&platform), damaged = {malloc(saved.length), saved.length};
    asked = 0;
    want("restored", rviommu_restore(saved.at, saved.length, &again), RVIOMMU_OK);
    size_t original = asked;
    rviommu_close(&again);
    for (int i = 0; i < 5000 + 8 * 128; i++) {
        memcpy(damaged.at, saved.at, saved.length);
        if (i < 5000) {
            damage(damaged);
        } else {
            damaged.at[(i - 5000) / 8] ^= (uint8_t)(1 << i % 8);
        }
        asked = 0;
        uint32_t refusal = rviommu_restore(damaged.at, damaged.length, &again);
        want("its memory", asked <= 2 * original, true);
        if (refusal == RVIOMMU_OK) {
            rviommu_command(&again);
            rviommu_dma_write(&again, 5, 0x40200000, saved.at, 8, NULL);
            rviommu_dev_step(&again, 0, NULL);
            rviommu_close(&again);
        } else {
            want("refused", refusal == RVIOMMU_BAD_SAVE || refusal == RVIOMMU_OTHER_VERSION, true);
            want("its handle", again.own == NULL, true);
        }
    }
    free(saved.at);
    free(damaged.at);
    rviommu_close(&platform);
}

/* Each allocation is refused in turn. */
static void test_refused_memory(void) {
    rviommu_t platform = {NULL}, again = {NULL};
    uint32_t told = RVIOMMU_OUT_OF_MEMORY;
    size_t length = 0;
    long count;
    open_mapped(&platform);
    struct bytes saved = saved_of(&platform);
    for (count = 0; told != RVIOMMU_OK && count < 1000; count++) {
        refused = count;
        told = rviommu_save(&platform, saved.at, saved.length, &length);
        want("saved without memory", told == RVIOMMU_OK ? RVIOMMU_OUT_OF_MEMORY : told, RVIOMMU_OUT_OF_MEMORY);
    }
    want("allocations of a saved handle", count > 2 && told == RVIOMMU_OK, true);
    told = RVIOMMU_OUT_OF_MEMORY;
    for (count = 0; told != RVIOMMU_OK && count < 1000; count++) {
        refused = count;
        told = rviommu_restore(saved.at, saved.length, &again);
        want("restored without memory", told == RVIOMMU_OK ? RVIOMMU_OUT_OF_MEMORY : told, RVIOMMU_OUT_OF_MEMORY);
        want("its handle", again.own == NULL, told != RVIOMMU_OK);
    }
    refused = -1;
    want("allocations of a restored handle", count > 4 && told == RVIOMMU_OK, true);
    want_equal(&platform, &again);
    free(saved.at);
    rviommu_close(&platform);
    rviommu_close(&again);
}

static uint64_t words[SIZE / 8];

/* Memory that is lent isn't saved, but its place is. */
static void test_lent(void) {
    rviommu_t lent = {NULL}, again = {NULL};
    uint64_t base = 0, size = 0, address = 0;
    want("opened", rviommu_open_lent(RAM, SIZE, &lent), RVIOMMU_OK);
    words[0x10a0 / 8] = 1;
    want("ddtp", rviommu_reg_write_lent(&lent, words, SIZE / 8, 0x10, 8, 0x20000402), RVIOMMU_DONE);
    want("a context is cached", rviommu_translate_lent(&lent, words, SIZE / 8, 5, 0x1234, false, &address), RVIOMMU_VALUE);
    struct bytes saved = saved_of(&lent);
    want("no memory is saved", saved.length < 1024, true);
    want("restored", rviommu_restore(saved.at, saved.length, &again), RVIOMMU_OK);
    rviommu_memory_place(&again, &base, &size);
    want("its base", base, RAM);
    want("its size", size, SIZE);
    want("without words", rviommu_command(&again), RVIOMMU_OTHER_MEMORY);
    words[0x10a0 / 8] = 0;
    want("the context that was cached", rviommu_translate_lent(&again, words, SIZE / 8, 5, 0x1234, false, &address), RVIOMMU_VALUE);
    want("its address", address, 0x1234);
    free(saved.at);
    rviommu_close(&lent);
    rviommu_close(&again);
}

int main(void) {
    for (int moment = 0; moment < 24; moment++) {
        test_run(moment);
    }
    test_refused_bytes();
    test_damaged_bytes();
    test_refused_memory();
    test_lent();
    puts(failed ? "failed" : "passed");
    return 0;
}
