/* The record of the model's steps: rviommu-record.h. */
#include "qemu/osdep.h"
#include "qapi/error.h"
#include "qemu/atomic.h"
#include "qemu/error-report.h"
#include "rviommu-record.h"

/* The limits of a script and of an image's memory (rviommu(1), "SCRIPT" and "IMAGE TEXTS"). */
#define MOST_LINES (1 << 20)
#define MOST_BYTES (1 << 26)
#define MOST_MEMORY (64 << 20)

/* The registers that lead the model to memory, and whether contexts are extended. */
#define CAPABILITIES 0
#define MSI_FLAT (1 << 22)
#define DDTP 0x10
#define CQB 0x18
#define CQH 0x20
#define CQT 0x24
#define FQB 0x28
#define FQT 0x34
#define CQCSR 0x48
#define DDTP_BUSY (1 << 4)
#define QUEUE_ON (1 << 16)
#define COMMAND_SIZE 16
#define RECORD_SIZE 32

/* Fields of commands, directory entries, contexts and page-table entries. */
#define OPCODE_OF_FENCE 2
#define FENCE_STORES (1 << 10)
#define VALID 1
#define LEAF_BITS 14
#define NAPOT (UINT64_C(1) << 63)
#define CONTEXT_WORDS 8
#define CONTEXT_PLACES 16
#define FILE_SIZE 16
#define FILE_BITS 52
#define KEPT_MESSAGES 16
#define LEVELS_OF_ROOT(mode) ((mode) >= 8 && (mode) <= 10 ? (int)(mode) - 5 : 0)

struct rviommu_recorder {
    struct rviommu_memory memory;
    uint64_t *known;      /* each word as the script has it so far */
    uint64_t first, end;  /* the pages that the script's memory needs, as physical addresses; equal if it needs none yet */
    uint64_t lines, bytes;
    FILE *script;         /* NULL after the record's end */
    char *file, *image_file, *statements;
    GArray *line_of_step; /* the script's line of each step that has one, the first step at 0 */
    uint64_t tail;        /* that of the fault queue before an access */
    uint64_t acting;      /* ddtp as it settled last: requests go by it while ddtp is busy */
    GHashTable *stages;   /* the stages of each device id as its context was read last when none was cached */
};

/* Both stages of a context and its MSI page table, as far as they lead to memory. */
struct stages {
    uint64_t first_root, second_root; /* physical or guest-physical addresses */
    int first_levels, second_levels;
    uint64_t files, mask, pattern; /* the MSI page table's address, and the numbers of the pages that it leads */
    bool has_files;
};

void rviommu_record_stop(struct rviommu_recorder *recorder, const char *why)
{
    if (!recorder || !recorder->script) {
        return;
    }
    fclose(recorder->script);
    recorder->script = NULL;
    error_report("rviommu-sys: record=%s ends after %" PRIu64 " lines: %s", recorder->file, recorder->lines, why);
}

/* Writes the image for the memory that the script needs so far. */
static bool write_image(struct rviommu_recorder *recorder)
{
    g_autofree char *text = g_strdup_printf("ram 0x%" PRIx64 " 0x%" PRIx64 "\n%s", recorder->first, recorder->end - recorder->first,
                                            recorder->statements);
    uint8_t image[RVIOMMU_IMAGE_ROOM];
    size_t length;
    uint64_t line;
    FILE *file;

    if (rviommu_assemble(text, strlen(text), image, sizeof image, &length, &line) != RVIOMMU_OK) {
        errno = EINVAL;
        return false;
    }
    file = fopen(recorder->image_file, "w");
    if (!file) {
        return false;
    }
    if (fwrite(image, 1, length, file) != length) {
        fclose(file);
        return false;
    }
    return fclose(file) == 0;
}

/* Ends the record since a file couldn't be written. */
static void stop_at_fault(struct rviommu_recorder *recorder, const char *file)
{
    g_autofree char *why = g_strdup_printf("cannot write %s: %s", file, strerror(errno));

    rviommu_record_stop(recorder, why);
}

/* Writes one line. */
static void G_GNUC_PRINTF(2, 3) put_line(struct rviommu_recorder *recorder, const char *format, ...)
{
    va_list arguments;
    int length;

    if (!recorder->script) {
        return;
    }
    if (recorder->lines == MOST_LINES || recorder->bytes > MOST_BYTES - 128) {
        rviommu_record_stop(recorder, "a script may not be longer");
        return;
    }
    va_start(arguments, format);
    length = vfprintf(recorder->script, format, arguments);
    va_end(arguments);
    if (length < 0 || ferror(recorder->script)) {
        stop_at_fault(recorder, recorder->file);
        return;
    }
    recorder->bytes += length;
    recorder->lines++;
}

/* The next line is that of the model's last step. */
static void step_has_line(struct rviommu_recorder *recorder, const rviommu_t *model)
{
    uint64_t step = rviommu_steps(model);

    g_array_set_size(recorder->line_of_step, step);
    g_array_index(recorder->line_of_step, uint64_t, step - 1) = recorder->lines + 1;
}

/* Whether the word at an address is in memory; `index` is its place. */
static bool word_at(const struct rviommu_recorder *recorder, uint64_t address, size_t *index)
{
    *index = (address - recorder->memory.base) / 8;
    return address >= recorder->memory.base && *index < recorder->memory.count;
}

/* The script's memory needs the page of this address. */
static void need(struct rviommu_recorder *recorder, uint64_t address)
{
    uint64_t page = address & ~(uint64_t)RVIOMMU_PAGE_MASK, first = recorder->first, end = recorder->end;

    if (first == end) {
        first = page;
        end = page;
    }
    first = MIN(first, page);
    end = MAX(end, page + RVIOMMU_PAGE_MASK + 1);
    if (!recorder->script || (first == recorder->first && end == recorder->end)) {
        return;
    }
    if (end - first > MOST_MEMORY) {
        g_autofree char *why = g_strdup_printf("tables and queues from 0x%" PRIx64 " to 0x%" PRIx64 " are more than the 64 MiB that an image may have",
                                               first, end);
        rviommu_record_stop(recorder, why);
        return;
    }
    recorder->first = first;
    recorder->end = end;
    if (!write_image(recorder)) {
        stop_at_fault(recorder, recorder->image_file);
    }
}

/* The model may read the word at this address: stores it if the script has another one there. Returns the word, or 0 outside memory. */
static uint64_t reads(struct rviommu_recorder *recorder, uint64_t address)
{
    size_t index;
    uint64_t word;

    if (!word_at(recorder, address, &index)) {
        return 0;
    }
    need(recorder, address);
    word = qatomic_read(&recorder->memory.words[index]);
    if (word != recorder->known[index]) {
        put_line(recorder, "store 0x%" PRIx64 " 8 0x%" PRIx64 "\n", address & ~(uint64_t)7, word);
        recorder->known[index] = word;
    }
    return word;
}

/* The model wrote `bits` of the word at this address, as the script's step does. */
static void wrote(struct rviommu_recorder *recorder, uint64_t address, uint64_t bits)
{
    size_t index;

    if (word_at(recorder, address, &index)) {
        need(recorder, address);
        recorder->known[index] = (recorder->known[index] & ~bits) | (recorder->memory.words[index] & bits);
    }
}

static uint64_t look(const rviommu_t *model, uint64_t offset, uint64_t size)
{
    uint64_t value = 0;

    rviommu_reg_look(model, offset, size, &value);
    return value;
}

/* The address of the page whose number stands in bits 53:10, as in registers and entries. */
static uint64_t page_in(uint64_t word)
{
    return (word >> 10 & ((UINT64_C(1) << 44) - 1)) << 12;
}

/* The address of an entry of a queue. */
static uint64_t entry_of_queue(uint64_t base, uint64_t index, uint64_t size)
{
    return page_in(base) + (index & ((UINT64_C(2) << (base & 31)) - 1)) * size;
}

struct rviommu_command_seen rviommu_record_before_command(struct rviommu_recorder *recorder, const rviommu_t *model)
{
    struct rviommu_command_seen seen = {.is_there = false};
    uint64_t place;

    if (!recorder || !recorder->script || !(look(model, CQCSR, 4) & QUEUE_ON) || look(model, CQH, 4) == look(model, CQT, 4)) {
        return seen;
    }
    place = entry_of_queue(look(model, CQB, 8), look(model, CQH, 4), COMMAND_SIZE);
    seen.is_there = true;
    seen.words[0] = reads(recorder, place);
    seen.words[1] = reads(recorder, place + 8);
    return seen;
}

void rviommu_record_command(struct rviommu_recorder *recorder, const rviommu_t *model, struct rviommu_command_seen seen)
{
    if (!recorder || !recorder->script) {
        return;
    }
    step_has_line(recorder, model);
    put_line(recorder, "cmd # => done\n");
    if (seen.is_there && (seen.words[0] & 0x7f) == OPCODE_OF_FENCE && (seen.words[0] & FENCE_STORES)) {
        uint64_t address = seen.words[1] << 2;

        wrote(recorder, address, UINT64_C(0xffffffff) << (address & 4 ? 32 : 0));
    }
}

/* Whether an entry ends a walk: it is a leaf, or it is not valid. */
static bool is_end(uint64_t entry)
{
    return !(entry & VALID) || (entry & LEAF_BITS);
}

/* The address that an entry, taken as a leaf of this level, gives for `address`. */
static uint64_t led_by(uint64_t entry, uint64_t address, int level)
{
    uint64_t size = UINT64_C(1) << (12 + 9 * level);

    if (level == 0 && (entry & NAPOT)) {
        size <<= 4;
    }
    return (page_in(entry) & ~(size - 1)) | (address & (size - 1));
}

/* Reads the entries of the second stage for a guest-physical address. Returns whether they lead to `address`. */
static bool read_second(struct rviommu_recorder *recorder, const struct stages *stages, uint64_t guest, uint64_t *address)
{
    uint64_t table = stages->second_root;

    *address = guest;
    if (stages->second_levels == 0) {
        return true;
    }
    for (int level = stages->second_levels - 1; level >= 0; level--) {
        uint64_t index = guest >> (12 + 9 * level) & (level == stages->second_levels - 1 ? 0x7ff : 0x1ff);
        uint64_t entry = reads(recorder, table + 8 * index);

        if (is_end(entry)) {
            *address = led_by(entry, guest, level);
            return entry & VALID;
        }
        table = page_in(entry);
    }
    return false;
}

/* Reads the entry of the MSI page table for the address that the first stage reached, if that is one of an interrupt file. */
static void read_file(struct rviommu_recorder *recorder, const struct stages *stages, uint64_t guest)
{
    uint64_t page = guest >> 12, number = 0;
    unsigned bits = 0;

    if (!stages->has_files || ((page ^ stages->pattern) & ~stages->mask)) {
        return;
    }
    for (unsigned bit = 0; bit < FILE_BITS; bit++) {
        if (stages->mask >> bit & 1) {
            number |= (page >> bit & 1) << bits++;
        }
    }
    reads(recorder, stages->files + number * FILE_SIZE);
    reads(recorder, stages->files + number * FILE_SIZE + 8);
}

/* Reads the entries for the address that the first stage reached. */
static void read_reached(struct rviommu_recorder *recorder, const struct stages *stages, uint64_t guest)
{
    uint64_t address;

    read_file(recorder, stages, guest);
    read_second(recorder, stages, guest, &address);
}

/* Reads the entries of both stages for an IOVA. */
static void read_stages(struct rviommu_recorder *recorder, const struct stages *stages, uint64_t iova)
{
    uint64_t table = stages->first_root, address;

    if (stages->first_levels == 0) {
        read_reached(recorder, stages, iova);
        return;
    }
    for (int level = stages->first_levels - 1; level >= 0; level--) {
        uint64_t index = iova >> (12 + 9 * level) & 0x1ff, entry;

        if (!read_second(recorder, stages, table + 8 * index, &address)) {
            return;
        }
        entry = reads(recorder, address);
        if (is_end(entry)) {
            read_reached(recorder, stages, led_by(entry, iova, level));
            return;
        }
        table = page_in(entry);
    }
}

/* Reads the context at this address: its stages. */
static struct stages read_context(struct rviommu_recorder *recorder, uint64_t context, size_t words)
{
    uint64_t word[CONTEXT_WORDS] = {0}, *iohgatp = word + 1, *fsc = word + 3, *msiptp = word + 4;

    for (size_t i = 0; i < words; i++) {
        word[i] = reads(recorder, context + 8 * i);
    }
    return (struct stages){
        .first_root = page_in(*fsc << 10),
        .second_root = page_in(*iohgatp << 10),
        .first_levels = LEVELS_OF_ROOT(*fsc >> 60),
        .second_levels = LEVELS_OF_ROOT(*iohgatp >> 60),
        .files = page_in(*msiptp << 10),
        .mask = word[5],
        .pattern = word[6],
        .has_files = *msiptp >> 60 != 0,
    };
}

/* Reads the directory for a device. Returns whether it leads to stages. */
static bool read_directory(struct rviommu_recorder *recorder, uint64_t ddtp, uint64_t did, bool is_extended, struct stages *stages)
{
    static const unsigned places[2][3] = {{0, 7, 16}, {0, 6, 15}};
    const unsigned *place = places[is_extended];
    size_t words = is_extended ? CONTEXT_WORDS : CONTEXT_WORDS / 2;
    uint64_t table = page_in(ddtp);
    int levels = (int)(ddtp & 15) - 1;

    if (levels < 1 || levels > 3) {
        return false;
    }
    for (int level = levels - 1; level > 0; level--) {
        uint64_t entry = reads(recorder, table + 8 * (did >> place[level] & 0x1ff));

        if (!(entry & VALID)) {
            return false;
        }
        table = page_in(entry);
    }
    *stages = read_context(recorder, table + 8 * words * (did & ((1 << place[1]) - 1)), words);
    return true;
}

/* Whether the device's context is cached; it may differ from the one in memory. */
static bool is_cached(const rviommu_t *model, uint64_t did)
{
    struct rviommu_context_place context;

    for (uint64_t place = 0; place < CONTEXT_PLACES; place++) {
        if (rviommu_context(model, place, &context) == RVIOMMU_LIVE && context.did == did) {
            return true;
        }
    }
    return false;
}

void rviommu_record_before_access(struct rviommu_recorder *recorder, const rviommu_t *model, uint64_t did, uint64_t iova)
{
    struct stages *stages;
    uint64_t ddtp;
    bool is_led;

    if (!recorder || !recorder->script) {
        return;
    }
    recorder->tail = look(model, FQT, 4);
    ddtp = look(model, DDTP, 8);
    stages = g_new0(struct stages, 1);
    is_led = read_directory(recorder, ddtp & DDTP_BUSY ? recorder->acting : ddtp, did, look(model, CAPABILITIES, 8) & MSI_FLAT, stages);
    if (is_led) {
        read_stages(recorder, stages, iova);
    }
    if (!is_cached(model, did)) {
        g_hash_table_replace(recorder->stages, GUINT_TO_POINTER(did), stages);
        return;
    }
    g_free(stages);
    read_stages(recorder, g_hash_table_lookup(recorder->stages, GUINT_TO_POINTER(did)), iova);
}

void rviommu_record_access(struct rviommu_recorder *recorder, const rviommu_t *model, uint64_t did, uint64_t iova, bool is_write,
                           enum rviommu_answer answer, uint64_t number)
{
    const char *kind = is_write ? "write" : "read";
    uint64_t place;

    if (!recorder || !recorder->script) {
        return;
    }
    step_has_line(recorder, model);
    if (answer == RVIOMMU_VALUE) {
        put_line(recorder, "translate %s 0x%" PRIx64 " 0x%" PRIx64 " # => 0x%" PRIx64 "\n", kind, did, iova, number);
        return;
    }
    put_line(recorder, "translate %s 0x%" PRIx64 " 0x%" PRIx64 " # => denied %" PRIu64 "\n", kind, did, iova, number);
    if (look(model, FQT, 4) == recorder->tail) {
        return;
    }
    place = entry_of_queue(look(model, FQB, 8), recorder->tail, RECORD_SIZE);
    for (unsigned word = 0; word < RECORD_SIZE / 8; word++) {
        wrote(recorder, place + 8 * word, UINT64_MAX);
    }
}

void rviommu_record_register_read(struct rviommu_recorder *recorder, const rviommu_t *model, uint64_t offset, unsigned size, uint64_t value)
{
    if (recorder && recorder->script) {
        step_has_line(recorder, model);
        put_line(recorder, "reg read 0x%" PRIx64 " %u # => 0x%" PRIx64 "\n", offset, size, value);
    }
}

void rviommu_record_register_write(struct rviommu_recorder *recorder, const rviommu_t *model, uint64_t offset, unsigned size, uint64_t value)
{
    if (recorder && recorder->script) {
        step_has_line(recorder, model);
        put_line(recorder, "reg write 0x%" PRIx64 " %u 0x%" PRIx64 " # => done\n", offset, size, value);
    }
}

void rviommu_record_message(struct rviommu_recorder *recorder, const rviommu_t *model, const struct rviommu_sent_message *message)
{
    struct rviommu_sent_message other;
    uint64_t place = MIN(rviommu_messages_sent(model), KEPT_MESSAGES) - 1;

    if (!recorder || !recorder->script) {
        return;
    }
    /* The script's machine keeps all: there this is the last message but those that this one keeps. */
    for (uint64_t kept = 0; rviommu_message(model, kept, &other) == RVIOMMU_OK; kept++) {
        place--;
    }
    put_line(recorder, "message %" PRIu64 " # => addr=0x%" PRIx64 " data=0x%" PRIx32 "\n", place, message->address, message->value);
}

void rviommu_record_settle(struct rviommu_recorder *recorder, const rviommu_t *model, enum rviommu_register which)
{
    static const char *const names[] = {[RVIOMMU_DDTP] = "ddtp", [RVIOMMU_CQCSR] = "cq", [RVIOMMU_FQCSR] = "fq"};

    if (recorder && recorder->script) {
        step_has_line(recorder, model);
        put_line(recorder, "settle %s # => done\n", names[which]);
        if (which == RVIOMMU_DDTP) {
            recorder->acting = look(model, DDTP, 8);
        }
    }
}

struct rviommu_recorder *rviommu_record_begin(const char *file, const char *statements, const struct rviommu_memory *memory, Error **errp)
{
    struct rviommu_recorder *recorder = g_new0(struct rviommu_recorder, 1);

    recorder->memory = *memory;
    recorder->file = g_strdup(file);
    recorder->image_file = g_strdup_printf("%s.image", file);
    recorder->statements = g_strdup(statements);
    recorder->script = fopen(file, "w");
    if (!recorder->script) {
        error_setg(errp, "cannot write %s: %s", file, strerror(errno));
        return NULL;
    }
    /* The image of a script that needs no memory: its first page. */
    recorder->first = memory->base;
    recorder->end = memory->base + RVIOMMU_PAGE_MASK + 1;
    if (!write_image(recorder)) {
        error_setg(errp, "cannot write %s: %s", recorder->image_file, strerror(errno));
        return NULL;
    }
    recorder->first = recorder->end = 0;
    /* A line at a time, so that the record of a QEMU that is killed ends with a whole line. */
    setvbuf(recorder->script, NULL, _IOLBF, 1 << 16);
    recorder->known = g_new0(uint64_t, memory->count);
    recorder->line_of_step = g_array_new(false, true, sizeof(uint64_t));
    recorder->stages = g_hash_table_new_full(NULL, NULL, NULL, g_free);
    return recorder;
}

void rviommu_record_end(struct rviommu_recorder *recorder)
{
    if (!recorder) {
        return;
    }
    if (recorder->script) {
        if (fclose(recorder->script) != 0) {
            error_report("rviommu-sys: cannot write %s: %s", recorder->file, strerror(errno));
        }
        recorder->script = NULL;
    }
    g_hash_table_destroy(recorder->stages);
    g_array_free(recorder->line_of_step, true);
    g_free(recorder->known);
    g_free(recorder->statements);
    g_free(recorder->image_file);
    g_free(recorder->file);
    g_free(recorder);
}

char *rviommu_named_step(const struct rviommu_recorder *recorder, uint64_t step)
{
    if (recorder && step >= 1 && step <= recorder->line_of_step->len) {
        uint64_t line = g_array_index(recorder->line_of_step, uint64_t, step - 1);

        if (line != 0) {
            return g_strdup_printf("line %" PRIu64, line);
        }
    }
    return g_strdup_printf("step %" PRIu64, step);
}
