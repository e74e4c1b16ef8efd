/*
 * messages: what devices and fences write into a window beside memory is told, kept and taken out, beside the handle's own memory and beside
 * memory that is lent; and a handle with a window and messages is saved and restored.
 */
#include <inttypes.h>
#include <stdio.h>
#include <stdlib.h>
#include <string.h>

#include "rviommu.h"
#include "want.h"

#define RAM 0x80000000u
#define SIZE 0x100000u
#define WINDOW 0x28000000u
#define IOVA 0x40201000u
#define KEPT 16
#define TEXT "ram 0x80000000 0x100000\nwindow 0x28000000 0x10000\n"

/* A platform, and the memory that it is lent; `count` is 0 if its memory is its own. */
struct machine {
    rviommu_t handle;
    uint64_t words[SIZE / 8];
    size_t count;
};

static void store(struct machine *it, uint64_t address, uint64_t value) {
    enum rviommu_answer answer = it->count == 0 ? rviommu_store(&it->handle, address, 8, value)
                                                : rviommu_store_lent(&it->handle, it->words, it->count, address, 8, value);
    want("a store", answer, RVIOMMU_DONE);
}

static void reg_write(struct machine *it, uint64_t offset, uint64_t size, uint64_t value) {
    enum rviommu_answer answer = it->count == 0 ? rviommu_reg_write(&it->handle, offset, size, value)
                                                : rviommu_reg_write_lent(&it->handle, it->words, it->count, offset, size, value);
    want("a write of a register", answer, RVIOMMU_DONE);
}

static enum rviommu_answer command(struct machine *it) {
    return it->count == 0 ? rviommu_command(&it->handle) : rviommu_command_lent(&it->handle, it->words, it->count);
}

/* A device writes a number of so many bytes. */
static enum rviommu_answer writes(struct machine *it, uint64_t did, uint64_t iova, uint64_t value, size_t length) {
    uint8_t bytes[8];
    for (size_t i = 0; i < length; i++) {
        bytes[i] = (uint8_t)(value >> 8 * i);
    }
    return it->count == 0 ? rviommu_dma_write(&it->handle, did, iova, bytes, length, NULL)
                          : rviommu_dma_write_lent(&it->handle, it->words, it->count, did, iova, bytes, length, NULL);
}

/* An image of a text is opened, in front of lent memory or with its own. */
static struct machine *opened(const char *text, bool is_lent) {
    struct machine *it = calloc(1, sizeof *it);
    uint8_t image[256];
    size_t length = 0;
    want("an image", rviommu_assemble(text, strlen(text), image, sizeof image, &length, NULL), RVIOMMU_OK);
    it->count = is_lent ? SIZE / 8 : 0;
    want("opened", is_lent ? rviommu_open_lent_image(image, length, RAM, SIZE, &it->handle) : rviommu_open(image, length, &it->handle), RVIOMMU_OK);
    return it;
}

static void close_machine(struct machine *it) {
    rviommu_close(&it->handle);
    free(it);
}

/* Device 5 is led by Sv39 from IOVA to the second page of the window, and device 6 from each address to itself. The queue has a fence. */
static void map(struct machine *it) {
    static const uint64_t tables[][2] = {{0x800010a0, 1}, {0x800010b8, 0x8000000000080002}, {0x800010c0, 1}, {0x80002008, 0x20000c01}, {0x80003008, 0x20001001},
                                         {0x80004008, (WINDOW + 0x1000) >> 2 | 0xd7}, {0x80090000, (uint64_t)0x33 << 32 | 1 << 10 | 2}, {0x80090008, (WINDOW + 0x1040) >> 2}};
    for (size_t i = 0; i < sizeof tables / sizeof *tables; i++) {
        store(it, tables[i][0], tables[i][1]);
    }
    reg_write(it, 0x10, 8, 0x20000402);
    reg_write(it, 0x18, 8, 0x20024003);
    reg_write(it, 0x48, 4, 1);
}

static void want_message(const rviommu_t *handle, uint64_t place, uint64_t address, uint32_t value) {
    struct rviommu_sent_message message;
    memset(&message, 0x55, sizeof message);
    want("a message", rviommu_message(handle, place, &message), RVIOMMU_OK);
    want("its address", message.address, address);
    want("its value", message.value, value);
    want("its room", message.reserved[0] | message.reserved[1], 0);
}

static void want_taken(rviommu_t *handle, uint64_t address, uint32_t value) {
    struct rviommu_sent_message message;
    memset(&message, 0x55, sizeof message);
    want("the oldest message", rviommu_take_message(handle, &message), RVIOMMU_OK);
    want("its address", message.address, address);
    want("its value", message.value, value);
    want("its room", message.reserved[0] | message.reserved[1], 0);
}

/* So many are kept. */
static void want_kept(const rviommu_t *handle, uint64_t count) {
    want("no more messages", rviommu_message(handle, count, NULL), RVIOMMU_NOT_THERE);
    want("as many messages", count == 0 || rviommu_message(handle, count - 1, NULL) == RVIOMMU_OK, true);
}

static void want_none(rviommu_t *handle) {
    struct rviommu_sent_message message = {7, 8, {9, 10}};
    want_kept(handle, 0);
    want("no message", rviommu_message(handle, 0, &message), RVIOMMU_NOT_THERE);
    want("none to take", rviommu_take_message(handle, &message), RVIOMMU_NOT_THERE);
    want("what is left", message.address == 7 && message.value == 8 && message.reserved[0] == 9 && message.reserved[1] == 10, true);
    want("none to take to nowhere", rviommu_take_message(handle, NULL), RVIOMMU_NOT_THERE);
}

/* What is a message, and what is none. */
static void test_sent(bool is_lent) {
    struct machine *it = opened(TEXT, is_lent);
    uint64_t steps;
    want("none is sent", rviommu_messages_sent(&it->handle), 0);
    want_none(&it->handle);
    map(it);
    want("four bytes", writes(it, 5, IOVA, 0x04030201, 4), RVIOMMU_DONE);
    want("one is sent", rviommu_messages_sent(&it->handle), 1);
    want_message(&it->handle, 0, WINDOW + 0x1000, 0x04030201);
    want("two bytes", writes(it, 5, IOVA, 1, 2), RVIOMMU_BUS_ERROR);
    want("eight bytes", writes(it, 5, IOVA, 1, 8), RVIOMMU_BUS_ERROR);
    want("at no multiple of 4", writes(it, 5, IOVA + 2, 1, 4), RVIOMMU_BUS_ERROR);
    want("before the window", writes(it, 6, WINDOW - 4, 1, 4), RVIOMMU_BUS_ERROR);
    want("behind it", writes(it, 6, WINDOW + 0x10000, 1, 4), RVIOMMU_BUS_ERROR);
    want("into memory", writes(it, 6, RAM + 0x10000, 1, 4), RVIOMMU_DONE);
    want_kept(&it->handle, 1);
    want("the last four", writes(it, 6, WINDOW + 0xfffc, 0xffffffff, 4), RVIOMMU_DONE);
    want_message(&it->handle, 1, WINDOW + 0xfffc, 0xffffffff);
    reg_write(it, 0x24, 4, 1);
    want("a fence", command(it), RVIOMMU_DONE);
    want_message(&it->handle, 2, WINDOW + 0x1040, 0x33);
    steps = rviommu_steps(&it->handle);
    want_taken(&it->handle, WINDOW + 0x1000, 0x04030201);
    want_taken(&it->handle, WINDOW + 0xfffc, 0xffffffff);
    want("the last to nowhere", rviommu_take_message(&it->handle, NULL), RVIOMMU_OK);
    want_none(&it->handle);
    want("three were sent", rviommu_messages_sent(&it->handle), 3);
    want("no step", rviommu_steps(&it->handle), steps);
    close_machine(it);
}

/* The last 16 are kept. A copy and a reset keep them, and a copy's are its own. */
static void test_kept(bool is_lent) {
    struct machine *it = opened(TEXT, is_lent);
    rviommu_t copy = {NULL};
    map(it);
    for (uint32_t i = 0; i < KEPT + 3; i++) {
        want("a message", writes(it, 6, WINDOW + 4 * i, 100 + i, 4), RVIOMMU_DONE);
    }
    want("all are counted", rviommu_messages_sent(&it->handle), KEPT + 3);
    want_kept(&it->handle, KEPT);
    want("copied", rviommu_copy(&it->handle, &copy), RVIOMMU_OK);
    for (uint32_t i = 0; i < KEPT; i++) {
        want_message(&it->handle, i, WINDOW + 4 * (i + 3), 103 + i);
        want_taken(&copy, WINDOW + 4 * (i + 3), 103 + i);
    }
    want_none(&copy);
    want("the copy's count", rviommu_messages_sent(&copy), KEPT + 3);
    want("no such place", rviommu_message(&it->handle, UINT64_MAX, NULL), RVIOMMU_NOT_THERE);
    rviommu_reset(&it->handle);
    want_kept(&it->handle, KEPT);
    want_message(&it->handle, 0, WINDOW + 12, 103);
    want("their count", rviommu_messages_sent(&it->handle), KEPT + 3);
    rviommu_close(&copy);
    close_machine(it);
}

/* A line of the script asks for the same, and what may be held is known as before. */
static void test_beside(void) {
    struct machine *it = opened(TEXT, false);
    char answer[321];
    size_t length = 0;
    want("holdings", rviommu_keep_holdings(&it->handle, true), RVIOMMU_OK);
    map(it);
    want("a message", writes(it, 5, IOVA + 8, 0x1f, 4), RVIOMMU_DONE);
    want("a line", rviommu_line(&it->handle, "message 0", 9, answer, sizeof answer, &length), RVIOMMU_OK);
    want("its answer", strcmp(answer, "addr=0x28001008 data=0x1f") == 0, true);
    want("its page is unmapped", rviommu_store(&it->handle, 0x80004008, 8, 0), RVIOMMU_DONE);
    want_taken(&it->handle, WINDOW + 0x1008, 0x1f);
    want("a line", rviommu_line(&it->handle, "message 0", 9, answer, sizeof answer, &length), RVIOMMU_OK);
    want("its answer", strcmp(answer, "none") == 0, true);
    want("what is owed", rviommu_all_owed(&it->handle, NULL, 0, &length), RVIOMMU_OK);
    want("its count", length, 1);
    close_machine(it);
}

/* A handle of a window with messages is saved, and goes on alike. */
static void test_saved(bool is_lent) {
    struct machine *it = opened(TEXT, is_lent), *again = calloc(1, sizeof *again);
    size_t length = 0;
    uint8_t *saved;
    map(it);
    for (uint32_t i = 0; i < KEPT + 1; i++) {
        want("a message", writes(it, 5, IOVA + 4 * i, i, 4), RVIOMMU_DONE);
    }
    want_taken(&it->handle, WINDOW + 0x1004, 1);
    want("the length", rviommu_save(&it->handle, NULL, 0, &length), RVIOMMU_LITTLE_ROOM);
    saved = malloc(length);
    want("saved", rviommu_save(&it->handle, saved, length, &length), RVIOMMU_OK);
    want("restored", rviommu_restore(saved, length, &again->handle), RVIOMMU_OK);
    free(saved);
    memcpy(again->words, it->words, sizeof it->words);
    again->count = it->count;
    want("the count", rviommu_messages_sent(&again->handle), KEPT + 1);
    want_kept(&again->handle, KEPT - 1);
    for (uint32_t i = 2; i < KEPT + 1; i++) {
        want_message(&again->handle, i - 2, WINDOW + 0x1000 + 4 * i, i);
    }
    want("the window", writes(again, 5, IOVA, 77, 4), RVIOMMU_DONE);
    want("its end", writes(again, 6, WINDOW + 0x10000, 77, 4), RVIOMMU_BUS_ERROR);
    want_message(&again->handle, KEPT - 1, WINDOW + 0x1000, 77);
    want("its count", rviommu_messages_sent(&again->handle), KEPT + 2);
    want("the saved one's", rviommu_messages_sent(&it->handle), KEPT + 1);
    want_kept(&it->handle, KEPT - 1);
    close_machine(it);
    close_machine(again);
}

/* Without a window nothing is a message; where one meets the lent memory, that is written. */
static void test_windows(void) {
    struct machine *none = opened("ram 0x80000000 0x100000\n", false), *meets = opened("ram 0x10000000 0x1000\nwindow 0x800ff000 0x2000\n", true);
    reg_write(none, 0x10, 8, 1);
    want("no window", writes(none, 5, WINDOW, 1, 4), RVIOMMU_BUS_ERROR);
    want_none(&none->handle);
    reg_write(meets, 0x10, 8, 1);
    want("the last word of memory", writes(meets, 5, 0x800ffffc, 9, 4), RVIOMMU_DONE);
    want_none(&meets->handle);
    want("the word behind it", writes(meets, 5, 0x80100000, 10, 4), RVIOMMU_DONE);
    want_taken(&meets->handle, 0x80100000, 10);
    want("memory", meets->words[SIZE / 8 - 1] >> 32, 9);
    close_machine(none);
    close_machine(meets);
}

/* An image whose window isn't of whole pages beside the memory is refused. */
static void test_refused_windows(void) {
    static const uint64_t bases[] = {RAM, RAM + SIZE - 0x10000, WINDOW + 4, (uint64_t)1 << 56};
    static const uint64_t window = WINDOW;
    uint8_t image[256];
    size_t length = 0, place = 0;
    rviommu_t handle = {NULL};
    want("an image", rviommu_assemble(TEXT, strlen(TEXT), image, sizeof image, &length, NULL), RVIOMMU_OK);
    while (memcmp(image + place, &window, sizeof window) != 0 && place + 8 < length) {
        place += 8;
    }
    for (size_t i = 0; i < sizeof bases / sizeof *bases; i++) {
        memcpy(image + place, &bases[i], sizeof bases[i]);
        want("another window", rviommu_open(image, length, &handle), RVIOMMU_BAD_WINDOW);
        want("its handle", handle.own == NULL, true);
        want("in front of lent memory", rviommu_open_lent_image(image, length, RAM, SIZE, &handle), RVIOMMU_BAD_WINDOW);
    }
    memcpy(image + place, &window, sizeof window);
    want("as it was", rviommu_open(image, length, &handle), RVIOMMU_OK);
    rviommu_close(&handle);
}

int main(void) {
    for (int is_lent = 0; is_lent < 2; is_lent++) {
        test_sent(is_lent);
        test_kept(is_lent);
        test_saved(is_lent);
    }
    test_beside();
    test_windows();
    test_refused_windows();
    puts(failed ? "failed" : "passed");
    return failed;
}
