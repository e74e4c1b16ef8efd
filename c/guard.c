/*
 * What the header promises beside the proved functions: an output that isn't wanted may be NULL, a closed handle or judge may be closed again, an access
 * of any length is made in pieces, looks may run at once, and two calls have an earlier name too. A function that is called iom_c_NAME here is the one of the crate iom_c that is
 * called rviommu_NAME there: c/build.py gives it this name. Nothing else stands between.
 */
#include "rviommu.h"

/* A place for an output that isn't wanted. */
#define WANTED(type, output) \
    type unwanted_##output;  \
    if ((output) == NULL) {  \
        (output) = &unwanted_##output; \
    }

/* A look takes the pointer out of the handle and puts it back. So it works on a handle of its own, and two looks at once write nothing that
 * both see. */
#define LOOK(handle) rviommu_t look = *(handle);

#define ANSWER enum rviommu_answer
#define STATUS enum rviommu_status
#define STANDING enum rviommu_standing
#define PLACE enum rviommu_place

/* What a handle with memory of its own is lent: no words. */
static uint64_t no_words[1];
#define OWN no_words, 0

/* The words that are lent for a call. */
#define LENT uint64_t *words, size_t count

void iom_c_close(rviommu_t *);
STATUS iom_c_save(rviommu_t *, uint8_t *, size_t, size_t *);
STATUS iom_c_line(rviommu_t *, const char *, size_t, char *, size_t, size_t *);
ANSWER iom_c_load(rviommu_t *, LENT, uint64_t, uint64_t, uint64_t *);
ANSWER iom_c_store(rviommu_t *, LENT, uint64_t, uint64_t, uint64_t);
ANSWER iom_c_reg_read(rviommu_t *, LENT, uint64_t, uint64_t, uint64_t *);
ANSWER iom_c_reg_write(rviommu_t *, LENT, uint64_t, uint64_t, uint64_t);
ANSWER iom_c_dma_read(rviommu_t *, LENT, uint64_t, uint64_t, uint8_t *, size_t, uint64_t *);
ANSWER iom_c_dma_write(rviommu_t *, LENT, uint64_t, uint64_t, const uint8_t *, size_t, uint64_t *);
ANSWER iom_c_translate(rviommu_t *, LENT, uint64_t, uint64_t, bool, uint64_t *);
ANSWER iom_c_command(rviommu_t *, LENT);
ANSWER iom_c_settle(rviommu_t *, LENT, uint32_t);
ANSWER iom_c_dev_read(rviommu_t *, LENT, uint64_t, uint64_t, uint64_t, uint64_t *);
ANSWER iom_c_dev_write(rviommu_t *, LENT, uint64_t, uint64_t, uint64_t, uint64_t);
ANSWER iom_c_dev_step(rviommu_t *, LENT, uint64_t, uint64_t *);
uint64_t iom_c_steps(rviommu_t *);
uint64_t iom_c_interrupt(rviommu_t *);
STATUS iom_c_reg_look(rviommu_t *, uint64_t, uint64_t, uint64_t *);
void iom_c_memory_place(rviommu_t *, uint64_t *, uint64_t *);
STATUS iom_c_memory(rviommu_t *, uint64_t, uint8_t *, size_t);
STATUS iom_c_disk_size(rviommu_t *, uint64_t, uint64_t *);
STATUS iom_c_disk(rviommu_t *, uint64_t, uint64_t, uint8_t *, size_t);
PLACE iom_c_page(rviommu_t *, uint64_t, struct rviommu_page_place *);
PLACE iom_c_context(rviommu_t *, uint64_t, struct rviommu_context_place *);
uint64_t iom_c_messages_sent(rviommu_t *);
STATUS iom_c_message(rviommu_t *, uint64_t, struct rviommu_sent_message *);
STATUS iom_c_take_message(rviommu_t *, struct rviommu_sent_message *);
STATUS iom_c_way_now(rviommu_t *, const uint64_t *, size_t, uint64_t, uint64_t, bool, struct rviommu_way *, uint64_t *);
STATUS iom_c_part(rviommu_t *, uint64_t, uint64_t, bool, uint64_t, struct rviommu_walk_part *);
STANDING iom_c_stale(rviommu_t *, uint64_t, uint64_t, bool, struct rviommu_way *);
STANDING iom_c_stale_page(rviommu_t *, uint64_t, struct rviommu_way *);
STANDING iom_c_stale_context(rviommu_t *, uint64_t, struct rviommu_located *);
STATUS iom_c_why(rviommu_t *, uint64_t, struct rviommu_why *);
STATUS iom_c_page_origin(rviommu_t *, uint64_t, uint64_t *, uint64_t *);
STATUS iom_c_context_origin(rviommu_t *, uint64_t, uint64_t *);
STATUS iom_c_settled(rviommu_t *, const uint64_t *, size_t, uint64_t, uint64_t, bool, struct rviommu_unsettled *);
STATUS iom_c_owed(rviommu_t *, const uint64_t *, size_t, struct rviommu_owed *, size_t, size_t *);
STATUS iom_c_may_free(rviommu_t *, uint64_t, uint64_t, struct rviommu_naming *);
STATUS iom_c_judge_line(rviommu_judge_t *, const char *, size_t, char *, size_t, size_t *);
void iom_c_judge_close(rviommu_judge_t *);
STATUS iom_c_assemble(const char *, size_t, uint8_t *, size_t, size_t *, uint64_t *);
STATUS iom_c_text(enum rviommu_status, char *, size_t, size_t *);
STATUS iom_c_cause_text(uint64_t, char *, size_t, size_t *);

void rviommu_close(rviommu_t *handle) {
    if (handle != NULL && handle->own != NULL) {
        iom_c_close(handle);
    }
}

STATUS rviommu_save(const rviommu_t *handle, uint8_t *bytes, size_t room, size_t *length) {
    uint8_t none[1];
    LOOK(handle)
    WANTED(size_t, length)
    return iom_c_save(&look, bytes != NULL ? bytes : none, bytes != NULL ? room : 0, length);
}

STATUS rviommu_line(rviommu_t *handle, const char *line, size_t line_length, char *answer, size_t room, size_t *length) {
    WANTED(size_t, length)
    return iom_c_line(handle, line, line_length, answer, room, length);
}

ANSWER rviommu_load_lent(rviommu_t *handle, LENT, uint64_t address, uint64_t size, uint64_t *value) {
    WANTED(uint64_t, value)
    return iom_c_load(handle, words, count, address, size, value);
}

ANSWER rviommu_load(rviommu_t *handle, uint64_t address, uint64_t size, uint64_t *value) { return rviommu_load_lent(handle, OWN, address, size, value); }

ANSWER rviommu_store_lent(rviommu_t *handle, LENT, uint64_t address, uint64_t size, uint64_t value) {
    return iom_c_store(handle, words, count, address, size, value);
}

ANSWER rviommu_store(rviommu_t *handle, uint64_t address, uint64_t size, uint64_t value) { return rviommu_store_lent(handle, OWN, address, size, value); }

ANSWER rviommu_reg_read_lent(rviommu_t *handle, LENT, uint64_t offset, uint64_t size, uint64_t *value) {
    WANTED(uint64_t, value)
    return iom_c_reg_read(handle, words, count, offset, size, value);
}

ANSWER rviommu_reg_read(rviommu_t *handle, uint64_t offset, uint64_t size, uint64_t *value) { return rviommu_reg_read_lent(handle, OWN, offset, size, value); }

ANSWER rviommu_reg_write_lent(rviommu_t *handle, LENT, uint64_t offset, uint64_t size, uint64_t value) {
    return iom_c_reg_write(handle, words, count, offset, size, value);
}

ANSWER rviommu_reg_write(rviommu_t *handle, uint64_t offset, uint64_t size, uint64_t value) { return rviommu_reg_write_lent(handle, OWN, offset, size, value); }

ANSWER rviommu_dma_read_lent(rviommu_t *handle, LENT, uint64_t did, uint64_t iova, uint8_t *bytes, size_t length, uint64_t *cause) {
    uint8_t unwanted[65]; /* a longer read is refused whatever its length */
    WANTED(uint64_t, cause)
    if (bytes == NULL) {
        return iom_c_dma_read(handle, words, count, did, iova, unwanted, length < sizeof unwanted ? length : sizeof unwanted, cause);
    }
    return iom_c_dma_read(handle, words, count, did, iova, bytes, length, cause);
}

ANSWER rviommu_dma_read(rviommu_t *handle, uint64_t did, uint64_t iova, uint8_t *bytes, size_t length, uint64_t *cause) {
    return rviommu_dma_read_lent(handle, OWN, did, iova, bytes, length, cause);
}

ANSWER rviommu_dma_write_lent(rviommu_t *handle, LENT, uint64_t did, uint64_t iova, const uint8_t *bytes, size_t length, uint64_t *cause) {
    WANTED(uint64_t, cause)
    return iom_c_dma_write(handle, words, count, did, iova, bytes, length, cause);
}

ANSWER rviommu_dma_write(rviommu_t *handle, uint64_t did, uint64_t iova, const uint8_t *bytes, size_t length, uint64_t *cause) {
    return rviommu_dma_write_lent(handle, OWN, did, iova, bytes, length, cause);
}

ANSWER rviommu_translate_lent(rviommu_t *handle, LENT, uint64_t did, uint64_t iova, bool is_write, uint64_t *number) {
    WANTED(uint64_t, number)
    return iom_c_translate(handle, words, count, did, iova, is_write, number);
}

ANSWER rviommu_translate(rviommu_t *handle, uint64_t did, uint64_t iova, bool is_write, uint64_t *number) { return rviommu_translate_lent(handle, OWN, did, iova, is_write, number); }

ANSWER rviommu_command_lent(rviommu_t *handle, LENT) {
    return iom_c_command(handle, words, count);
}

ANSWER rviommu_command(rviommu_t *handle) { return rviommu_command_lent(handle, OWN); }

ANSWER rviommu_settle_lent(rviommu_t *handle, LENT, enum rviommu_register which) {
    return iom_c_settle(handle, words, count, which);
}

ANSWER rviommu_settle(rviommu_t *handle, enum rviommu_register which) { return rviommu_settle_lent(handle, OWN, which); }

ANSWER rviommu_dev_read_lent(rviommu_t *handle, LENT, uint64_t device, uint64_t offset, uint64_t size, uint64_t *value) {
    WANTED(uint64_t, value)
    return iom_c_dev_read(handle, words, count, device, offset, size, value);
}

ANSWER rviommu_dev_read(rviommu_t *handle, uint64_t device, uint64_t offset, uint64_t size, uint64_t *value) { return rviommu_dev_read_lent(handle, OWN, device, offset, size, value); }

ANSWER rviommu_dev_write_lent(rviommu_t *handle, LENT, uint64_t device, uint64_t offset, uint64_t size, uint64_t value) {
    return iom_c_dev_write(handle, words, count, device, offset, size, value);
}

ANSWER rviommu_dev_write(rviommu_t *handle, uint64_t device, uint64_t offset, uint64_t size, uint64_t value) { return rviommu_dev_write_lent(handle, OWN, device, offset, size, value); }

ANSWER rviommu_dev_step_lent(rviommu_t *handle, LENT, uint64_t device, uint64_t *cause) {
    WANTED(uint64_t, cause)
    return iom_c_dev_step(handle, words, count, device, cause);
}

ANSWER rviommu_dev_step(rviommu_t *handle, uint64_t device, uint64_t *cause) { return rviommu_dev_step_lent(handle, OWN, device, cause); }

uint64_t rviommu_steps(const rviommu_t *handle) {
    LOOK(handle)
    return iom_c_steps(&look);
}

uint64_t rviommu_interrupt(const rviommu_t *handle) {
    LOOK(handle)
    return iom_c_interrupt(&look);
}

STATUS rviommu_reg_look(const rviommu_t *handle, uint64_t offset, uint64_t size, uint64_t *value) {
    LOOK(handle)
    WANTED(uint64_t, value)
    return iom_c_reg_look(&look, offset, size, value);
}

void rviommu_memory_place(const rviommu_t *handle, uint64_t *base, uint64_t *size) {
    LOOK(handle)
    WANTED(uint64_t, base)
    WANTED(uint64_t, size)
    iom_c_memory_place(&look, base, size);
}

STATUS rviommu_memory(const rviommu_t *handle, uint64_t address, uint8_t *bytes, size_t length) {
    LOOK(handle)
    return iom_c_memory(&look, address, bytes, length);
}

STATUS rviommu_disk_size(const rviommu_t *handle, uint64_t device, uint64_t *size) {
    LOOK(handle)
    WANTED(uint64_t, size)
    return iom_c_disk_size(&look, device, size);
}

STATUS rviommu_disk(const rviommu_t *handle, uint64_t device, uint64_t offset, uint8_t *bytes, size_t length) {
    LOOK(handle)
    return iom_c_disk(&look, device, offset, bytes, length);
}

PLACE rviommu_page(const rviommu_t *handle, uint64_t place, struct rviommu_page_place *page) {
    LOOK(handle)
    WANTED(struct rviommu_page_place, page)
    return iom_c_page(&look, place, page);
}

PLACE rviommu_context(const rviommu_t *handle, uint64_t place, struct rviommu_context_place *context) {
    LOOK(handle)
    WANTED(struct rviommu_context_place, context)
    return iom_c_context(&look, place, context);
}

uint64_t rviommu_messages_sent(const rviommu_t *handle) {
    LOOK(handle)
    return iom_c_messages_sent(&look);
}

STATUS rviommu_message(const rviommu_t *handle, uint64_t place, struct rviommu_sent_message *message) {
    LOOK(handle)
    WANTED(struct rviommu_sent_message, message)
    return iom_c_message(&look, place, message);
}

STATUS rviommu_take_message(rviommu_t *handle, struct rviommu_sent_message *message) {
    WANTED(struct rviommu_sent_message, message)
    return iom_c_take_message(handle, message);
}

STATUS rviommu_way_now_lent(const rviommu_t *handle, const uint64_t *words, size_t count, uint64_t did, uint64_t iova, bool is_write,
                        struct rviommu_way *way, uint64_t *address) {
    LOOK(handle)
    WANTED(struct rviommu_way, way)
    WANTED(uint64_t, address)
    return iom_c_way_now(&look, words, count, did, iova, is_write, way, address);
}

STATUS rviommu_way_now(const rviommu_t *handle, uint64_t did, uint64_t iova, bool is_write, struct rviommu_way *way, uint64_t *address) {
    return rviommu_way_now_lent(handle, OWN, did, iova, is_write, way, address);
}

STATUS rviommu_part(const rviommu_t *handle, uint64_t did, uint64_t iova, bool is_write, uint64_t number, struct rviommu_walk_part *part) {
    LOOK(handle)
    WANTED(struct rviommu_walk_part, part)
    return iom_c_part(&look, did, iova, is_write, number, part);
}

STANDING rviommu_stale(const rviommu_t *handle, uint64_t did, uint64_t iova, bool is_write, struct rviommu_way *way) {
    LOOK(handle)
    WANTED(struct rviommu_way, way)
    return iom_c_stale(&look, did, iova, is_write, way);
}

STANDING rviommu_stale_page(const rviommu_t *handle, uint64_t place, struct rviommu_way *way) {
    LOOK(handle)
    WANTED(struct rviommu_way, way)
    return iom_c_stale_page(&look, place, way);
}

STANDING rviommu_stale_context(const rviommu_t *handle, uint64_t place, struct rviommu_located *located) {
    LOOK(handle)
    WANTED(struct rviommu_located, located)
    return iom_c_stale_context(&look, place, located);
}

STATUS rviommu_reason(const rviommu_t *handle, uint64_t step, struct rviommu_why *why) {
    LOOK(handle)
    WANTED(struct rviommu_why, why)
    return iom_c_why(&look, step, why);
}

STATUS rviommu_why(const rviommu_t *handle, uint64_t step, struct rviommu_why *why) { return rviommu_reason(handle, step, why); }

STATUS rviommu_page_origin(const rviommu_t *handle, uint64_t place, uint64_t *context, uint64_t *walk) {
    LOOK(handle)
    WANTED(uint64_t, context)
    WANTED(uint64_t, walk)
    return iom_c_page_origin(&look, place, context, walk);
}

STATUS rviommu_context_origin(const rviommu_t *handle, uint64_t place, uint64_t *number) {
    LOOK(handle)
    WANTED(uint64_t, number)
    return iom_c_context_origin(&look, place, number);
}

STATUS rviommu_settled_lent(const rviommu_t *handle, const uint64_t *words, size_t count, uint64_t did, uint64_t iova, bool is_write,
                            struct rviommu_unsettled *unsettled) {
    LOOK(handle)
    WANTED(struct rviommu_unsettled, unsettled)
    return iom_c_settled(&look, words, count, did, iova, is_write, unsettled);
}

STATUS rviommu_settled(const rviommu_t *handle, uint64_t did, uint64_t iova, bool is_write, struct rviommu_unsettled *unsettled) {
    return rviommu_settled_lent(handle, OWN, did, iova, is_write, unsettled);
}

STATUS rviommu_owed_lent(const rviommu_t *handle, const uint64_t *words, size_t count, struct rviommu_owed *owed, size_t room, size_t *found) {
    struct rviommu_owed none[1];
    LOOK(handle)
    WANTED(size_t, found)
    return iom_c_owed(&look, words, count, owed != NULL ? owed : none, owed != NULL ? room : 0, found);
}

STATUS rviommu_all_owed(const rviommu_t *handle, struct rviommu_owed *owed, size_t room, size_t *found) {
    return rviommu_owed_lent(handle, OWN, owed, room, found);
}

STATUS rviommu_owed(const rviommu_t *handle, struct rviommu_owed *owed, size_t room, size_t *found) { return rviommu_all_owed(handle, owed, room, found); }

STATUS rviommu_may_free(const rviommu_t *handle, uint64_t address, uint64_t length, struct rviommu_naming *naming) {
    LOOK(handle)
    WANTED(struct rviommu_naming, naming)
    return iom_c_may_free(&look, address, length, naming);
}

STATUS rviommu_judge_line(rviommu_judge_t *judge, const char *line, size_t line_length, char *report, size_t room, size_t *length) {
    char none[1];
    WANTED(size_t, length)
    return iom_c_judge_line(judge, line, line_length, report != NULL ? report : none, report != NULL ? room : 0, length);
}

void rviommu_judge_close(rviommu_judge_t *judge) {
    if (judge != NULL && judge->own != NULL) {
        iom_c_judge_close(judge);
    }
}

STATUS rviommu_assemble(const char *text, size_t text_length, uint8_t *image, size_t room, size_t *length, uint64_t *line) {
    WANTED(size_t, length)
    WANTED(uint64_t, line)
    return iom_c_assemble(text, text_length, image, room, length, line);
}

STATUS rviommu_text(enum rviommu_status status, char *words, size_t room, size_t *length) {
    WANTED(size_t, length)
    return iom_c_text(status, words, room, length);
}

STATUS rviommu_cause_text(uint64_t cause, char *words, size_t room, size_t *length) {
    WANTED(size_t, length)
    return iom_c_cause_text(cause, words, room, length);
}

/* How long the next piece of an access is: at most 64 bytes, and none in the next page. */
static size_t piece(uint64_t iova, size_t left) {
    size_t to_page_end = 4096 - (size_t)(iova % 4096);
    size_t most = left < 64 ? left : 64;
    return most < to_page_end ? most : to_page_end;
}

/* Whether so many bytes from an IOVA on are some, and none past the last IOVA. */
static bool is_access(uint64_t iova, size_t length) { return length > 0 && (length - 1) <= UINT64_MAX - iova; }

ANSWER rviommu_dma_read_all_lent(rviommu_t *handle, LENT, uint64_t did, uint64_t iova, uint8_t *bytes, size_t length, size_t *done, uint64_t *cause) {
    WANTED(size_t, done)
    WANTED(uint64_t, cause)
    ANSWER answer = RVIOMMU_MISUSE;
    *done = 0;
    while (is_access(iova, length) && *done < length) {
        size_t part = piece(iova + *done, length - *done);
        answer = rviommu_dma_read_lent(handle, words, count, did, iova + *done, bytes != NULL ? bytes + *done : NULL, part, cause);
        if (answer != RVIOMMU_BYTES) {
            return answer;
        }
        *done += part;
    }
    return answer;
}

ANSWER rviommu_dma_read_all(rviommu_t *handle, uint64_t did, uint64_t iova, uint8_t *bytes, size_t length, size_t *done, uint64_t *cause) {
    return rviommu_dma_read_all_lent(handle, OWN, did, iova, bytes, length, done, cause);
}

ANSWER rviommu_dma_write_all_lent(rviommu_t *handle, LENT, uint64_t did, uint64_t iova, const uint8_t *bytes, size_t length, size_t *done,
                                  uint64_t *cause) {
    WANTED(size_t, done)
    WANTED(uint64_t, cause)
    ANSWER answer = RVIOMMU_MISUSE;
    *done = 0;
    while (is_access(iova, length) && *done < length) {
        size_t part = piece(iova + *done, length - *done);
        answer = iom_c_dma_write(handle, words, count, did, iova + *done, bytes + *done, part, cause);
        if (answer != RVIOMMU_DONE) {
            return answer;
        }
        *done += part;
    }
    return answer;
}

ANSWER rviommu_dma_write_all(rviommu_t *handle, uint64_t did, uint64_t iova, const uint8_t *bytes, size_t length, size_t *done, uint64_t *cause) {
    return rviommu_dma_write_all_lent(handle, OWN, did, iova, bytes, length, done, cause);
}
