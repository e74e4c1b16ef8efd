/*
 * judged: a judge that is told line by line what another IOMMU did: what is allowed, refused, can't be read or isn't decided, with its report, in any
 * room; each allocation refused; what it takes of its platform. Linked with --wrap=malloc and --wrap=realloc, so that one allocation can be refused.
 */
#include <inttypes.h>
#include <stdio.h>
#include <stdlib.h>
#include <string.h>

#include "refusable.h"
#include "rviommu.h"
#include "want.h"

#define ROOM 1024
#define READ "dma read 5 0x40201abc 4"

/* Device 5 is led by Sv39 from page 0x40201 to frame 0x80010. The command queue is at 0x80090000. */
static const char mapped[] = "ram 0x80000000 0x100000\nat 0x800010a0\ncontext pscid=3 mode=8 ppn=0x80002\nat 0x80002008\npte ppn=0x80003 flags=1\n"
                             "at 0x80003008\npte ppn=0x80004 flags=1\nat 0x80004008\npte ppn=0x80010 flags=0xd7\nat 0x80010abc\nbytes 11223344\n";

static void want_text(const char *what, const char *seen, const char *wanted) {
    if (strcmp(seen, wanted) != 0) {
        printf("%s: \"%s\", wanted \"%s\"\n", what, seen, wanted);
        failed = 1;
    }
}

static void open_mapped(rviommu_t *platform) {
    static uint8_t image[4096];
    size_t length = 0;
    want("assembled", rviommu_assemble(mapped, strlen(mapped), image, sizeof image, &length, NULL), RVIOMMU_OK);
    want("opened", rviommu_open(image, length, platform), RVIOMMU_OK);
    rviommu_reg_write(platform, 0x10, 8, 0x20000402);
    rviommu_reg_write(platform, 0x18, 8, 0x20024001);
    rviommu_reg_write(platform, 0x48, 4, 1);
}

static void open_judge(bool hides, rviommu_judge_t *judge) {
    rviommu_t platform = {NULL};
    open_mapped(&platform);
    want("a judge", rviommu_judge_open(&platform, hides, judge), RVIOMMU_OK);
    rviommu_close(&platform);
}

static uint32_t told(rviommu_judge_t *judge, const char *line) { return rviommu_judge_line(judge, line, strlen(line), NULL, 0, NULL); }

static void want_line(rviommu_judge_t *judge, const char *line, uint32_t status, const char *report) {
    char text[ROOM];
    size_t length = 77;
    memset(text, 'x', sizeof text);
    want(line, rviommu_judge_line(judge, line, strlen(line), text, sizeof text, &length), status);
    want_text(line, text, report);
    want("its length", length, strlen(report));
    want("what is behind it", text[length + 1], 'x');
}

static void test_reports(void) {
    rviommu_judge_t judge = {NULL};
    char line[600];
    open_judge(false, &judge);
    want_line(&judge, READ " # => 11223344 at 0x80010abc", RVIOMMU_OK, "");
    want_line(&judge, READ " # => 11223345", RVIOMMU_REFUSED,
              "line 2: " READ ": seen 11223345, allowed: 11223344 at 0x80010abc\n");
    want_line(&judge, "", RVIOMMU_OK, "");
    want_line(&judge, "let target 0x40201000", RVIOMMU_OK, "");
    want_line(&judge, "dma read 5 target 4 # => denied 13", RVIOMMU_REFUSED,
              "line 5: dma read 5 target 4: seen denied 13, allowed: 00000000 at 0x80010000\n");
    want_line(&judge, READ " # => granted", RVIOMMU_BAD_LINE, "line 6: " READ ": seen granted, which is no answer\n");
    want_line(&judge, "dma read 5 0x40201abc # => 11223344", RVIOMMU_BAD_LINE, "line 7: dma read 5 0x40201abc -> bad: LEN is missing\n");
    want_line(&judge, "cmd run 5 # => 1 idle", RVIOMMU_BAD_LINE, "line 8: what was seen is on a line that isn't one step\n");
    want_line(&judge, "cmd run 5", RVIOMMU_OK, "");
    memset(line, '9', sizeof line);
    want("a long line", rviommu_judge_line(&judge, line, sizeof line, NULL, 0, NULL), RVIOMMU_BAD_LINE);
    rviommu_judge_close(&judge);
    want("closed", judge.own == NULL, true);
    rviommu_judge_close(&judge);
    rviommu_judge_close(NULL);
}

/* A report that is longer than its room is cut. */
static void test_room(void) {
    rviommu_judge_t judge = {NULL};
    static const char line[] = READ " # => denied 13";
    static const char report[] = "line 1: " READ ": seen denied 13, allowed: 11223344 at 0x80010abc\n";
    open_judge(false, &judge);
    for (size_t room = 0; room <= sizeof report + 1; room++) {
        char text[sizeof report + 2], wanted[sizeof report + 2];
        size_t length = 0;
        memset(text, 'x', sizeof text);
        memset(wanted, 'x', sizeof wanted);
        if (room > 0) {
            size_t shown = room < sizeof report ? room - 1 : sizeof report - 1;
            memcpy(wanted, report, shown);
            wanted[shown] = 0;
        }
        rviommu_judge_close(&judge);
        open_judge(false, &judge);
        want("refused in any room", rviommu_judge_line(&judge, line, strlen(line), text, room, &length), RVIOMMU_REFUSED);
        want("as much as has room", memcmp(text, wanted, sizeof text), 0);
        want("the whole length", length, strlen(report));
    }
    want("the outputs aren't wanted", told(&judge, line), RVIOMMU_REFUSED);
    rviommu_judge_close(&judge);
}

/* An old entry may serve until its invalidation is fenced. */
static void test_invalidated(void) {
    rviommu_judge_t judge = {NULL};
    static const char *const lines[] = {READ " # => 11223344", "store 0x80004008 8 0",   READ " # => 11223344",        READ " # => denied 13",
                                        "put 0x80090000 cmd vma", "put 0x80090010 cmd fence", "reg write cqt 2",
                                        "cmd # => done", "cmd # => done", READ " # => denied 13"};
    open_judge(false, &judge);
    for (size_t i = 0; i < sizeof lines / sizeof *lines; i++) {
        want_line(&judge, lines[i], RVIOMMU_OK, "");
    }
    want_line(&judge, READ " # => 11223344", RVIOMMU_REFUSED, "line 11: " READ ": seen 11223344, allowed: denied 13\n");
    rviommu_judge_close(&judge);
}

/* Commands that nobody sees. */
static void test_hidden(void) {
    static const char *const lines[] = {"put 0x80090000 cmd vma", "put 0x80090010 cmd fence", "reg write cqt 2"};
    for (int hides = 0; hides < 2; hides++) {
        rviommu_judge_t judge = {NULL};
        open_judge(hides != 0, &judge);
        for (size_t i = 0; i < sizeof lines / sizeof *lines; i++) {
            want("a line", told(&judge, lines[i]), RVIOMMU_OK);
        }
        want("commands nobody saw", told(&judge, "reg read cqh # => 0x2"), hides ? RVIOMMU_OK : RVIOMMU_REFUSED);
        rviommu_judge_close(&judge);
    }
}

/* A judge begins where its platform stands, but for what that has cached, and then goes its own way. */
static void test_platform(void) {
    rviommu_t platform = {NULL}, lent = {NULL};
    rviommu_judge_t judge = {NULL};
    uint8_t bytes[4] = {0};
    open_mapped(&platform);
    want("cached", rviommu_dma_read(&platform, 5, 0x40201abc, bytes, 4, NULL), RVIOMMU_BYTES);
    want("unmapped", rviommu_store(&platform, 0x80004008, 8, 0), RVIOMMU_DONE);
    uint64_t steps = rviommu_steps(&platform);
    want("a judge", rviommu_judge_open(&platform, false, &judge), RVIOMMU_OK);
    want_line(&judge, READ " # => 11223344", RVIOMMU_REFUSED, "line 1: " READ ": seen 11223344, allowed: denied 13\n");
    want("a store", told(&judge, "store 0x80004008 8 0x200040d7"), RVIOMMU_OK);
    want("a register", told(&judge, "reg read cqb # => 0x20024001"), RVIOMMU_OK);
    want("no step of the platform", rviommu_steps(&platform), steps);
    want("its cache", rviommu_dma_read(&platform, 5, 0x40201abc, bytes, 4, NULL), RVIOMMU_BYTES);
    want("its bytes", memcmp(bytes, "\x11\x22\x33\x44", 4), 0);
    rviommu_close(&platform);
    want("without the platform", told(&judge, READ " # => 11223344"), RVIOMMU_OK);
    rviommu_judge_close(&judge);
    judge.own = &judge;
    want("lent memory", rviommu_open_lent(0x80000000, 4096, &lent), RVIOMMU_OK);
    want("which no judge has", rviommu_judge_open(&lent, false, &judge), RVIOMMU_STATUS_OTHER_MEMORY);
    want("closed", judge.own == NULL, true);
    rviommu_close(&lent);
}

/* Each write may go to one of two frames, so each doubles what the IOMMU may be. */
static void test_undecided(void) {
    rviommu_judge_t judge = {NULL};
    uint32_t status = RVIOMMU_OK;
    open_judge(false, &judge);
    for (unsigned page = 0; page < 40 && status == RVIOMMU_OK; page++) {
        char line[80];
        for (unsigned frame = 0x80020; frame <= 0x80060; frame += 0x40) {
            snprintf(line, sizeof line, "store 0x%x 8 0x%x", 0x80004000 + 8 * page, (frame + page) << 10 | 0xd7);
            want(line, told(&judge, line), RVIOMMU_OK);
            snprintf(line, sizeof line, "dma write 5 0x%x 01", 0x40200000 + 4096 * page);
            status = status == RVIOMMU_OK ? told(&judge, line) : status;
        }
    }
    want("too many states", status, RVIOMMU_UNDECIDED);
    want_line(&judge, READ " # => granted", RVIOMMU_UNDECIDED_BEFORE, "");
    want_line(&judge, "no line", RVIOMMU_UNDECIDED_BEFORE, "");
    rviommu_judge_close(&judge);
}

/* Each allocation of an opening, and of the lines, is refused in turn. */
static void test_refused(void) {
    static const char *const lines[] = {READ " # => 11223344", "store 0x80004008 8 0", READ " # => 11223344", "dma write 5 0x40201abc 01", READ " # => denied 13"};
    rviommu_t platform = {NULL};
    rviommu_judge_t judge = {NULL};
    uint32_t status = RVIOMMU_OUT_OF_MEMORY;
    long count;
    open_mapped(&platform);
    for (count = 0; status != RVIOMMU_OK && count < 100; count++) {
        refused = count;
        status = rviommu_judge_open(&platform, false, &judge);
        want("an opening without memory", status == RVIOMMU_OK ? RVIOMMU_OUT_OF_MEMORY : status, RVIOMMU_OUT_OF_MEMORY);
        want("its judge", judge.own == NULL, status != RVIOMMU_OK);
    }
    want("allocations of an opening", count > 3, true);
    rviommu_judge_close(&judge);
    bool is_refused = true;
    for (count = 0; is_refused && count < 1000; count++) {
        refused = -1;
        want("a judge", rviommu_judge_open(&platform, false, &judge), RVIOMMU_OK);
        status = RVIOMMU_OK;
        refused = count;
        for (size_t i = 0; i < sizeof lines / sizeof *lines; i++) {
            uint32_t next = told(&judge, lines[i]);
            want("a line without memory", next, status == RVIOMMU_OUT_OF_MEMORY || next == RVIOMMU_OUT_OF_MEMORY ? RVIOMMU_OUT_OF_MEMORY : RVIOMMU_OK);
            status = next;
        }
        is_refused = refused < 0;
        want("memory is refused", status, is_refused ? RVIOMMU_OUT_OF_MEMORY : RVIOMMU_OK);
        rviommu_judge_close(&judge);
    }
    refused = -1;
    want("allocations of lines", count > 3, true);
    rviommu_close(&platform);
}

static void test_words(void) {
    char words[32];
    for (unsigned status = RVIOMMU_REFUSED; status <= RVIOMMU_BAD_WINDOW + 1; status++) {
        static const char *const wanted[] = {"refused", "undecided", "undecided before", "bad window", "no such number"};
        want("words", rviommu_text((enum rviommu_status)status, words, sizeof words, NULL), RVIOMMU_OK);
        want_text("which are", words, wanted[status - RVIOMMU_REFUSED]);
    }
}

int main(void) {
    test_reports();
    test_room();
    test_invalidated();
    test_hidden();
    test_platform();
    test_undecided();
    test_refused();
    test_words();
    puts(failed ? "failed" : "passed");
    return 0;
}
