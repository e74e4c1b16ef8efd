/*
 * Writes all that the model is given as a script of `rviommu debug`, each step with its answer, and the image that it starts from as
 * FILE.image. So `rviommu explain FILE.image < FILE` plays it again.
 *
 * The guest writes memory without the device. Before each step that reads memory, each word that the step may read and that differs
 * from the script's word there is stored by a line of its own. Each function does nothing if `recorder` is NULL or has ended.
 */
#ifndef RVIOMMU_RECORD_H_OF_QEMU
#define RVIOMMU_RECORD_H_OF_QEMU

#include "rviommu.h"

#define RVIOMMU_PAGE_MASK 0xfff
/* Room for the image of a memory that has no contents. */
#define RVIOMMU_IMAGE_ROOM 256

/* The guest's memory: the words from physical address `base` on, lowest byte first. */
struct rviommu_memory {
    uint64_t *words;
    uint64_t base;
    size_t count;
};

/* The command that the next step takes, if `is_there`: its words, of which the record needs the fence's. */
struct rviommu_command_seen {
    uint64_t words[2];
    bool is_there;
};

struct rviommu_recorder;

/* Begins a record in FILE, which is replaced; the statements are those of its image behind that of its memory. Returns NULL and an error if a file
 * can't be written. */
struct rviommu_recorder *rviommu_record_begin(const char *file, const char *statements, const struct rviommu_memory *memory, Error **errp);

/* Before and after a step. */
struct rviommu_command_seen rviommu_record_before_command(struct rviommu_recorder *recorder, const rviommu_t *model);
void rviommu_record_command(struct rviommu_recorder *recorder, const rviommu_t *model, struct rviommu_command_seen seen);
void rviommu_record_before_access(struct rviommu_recorder *recorder, const rviommu_t *model, uint64_t did, uint64_t iova);
void rviommu_record_access(struct rviommu_recorder *recorder, const rviommu_t *model, uint64_t did, uint64_t iova, bool is_write,
                           enum rviommu_answer answer, uint64_t number);
void rviommu_record_register_read(struct rviommu_recorder *recorder, const rviommu_t *model, uint64_t offset, unsigned size, uint64_t value);
void rviommu_record_register_write(struct rviommu_recorder *recorder, const rviommu_t *model, uint64_t offset, unsigned size, uint64_t value);
void rviommu_record_message(struct rviommu_recorder *recorder, const rviommu_t *model, const struct rviommu_sent_message *message);
void rviommu_record_settle(struct rviommu_recorder *recorder, const rviommu_t *model, enum rviommu_register which);

/* Ends the record before its time, and reports why, once. */
void rviommu_record_stop(struct rviommu_recorder *recorder, const char *why);

/* Ends the record, if it hasn't ended, and frees it. */
void rviommu_record_end(struct rviommu_recorder *recorder);

/* A step by its number or, if it is recorded, by the line of the script. */
char *rviommu_named_step(const struct rviommu_recorder *recorder, uint64_t step);

/* A stale access in words, with the steps that filled the caches or, if they are recorded, the lines of the script. */
char *rviommu_stale_line(const struct rviommu_recorder *recorder, const struct rviommu_why *why);

/* An access that isn't settled, and what is owed, in words likewise. */
char *rviommu_unsettled_line(const struct rviommu_recorder *recorder, uint64_t did, uint64_t iova, bool is_write,
                             const struct rviommu_unsettled *unsettled);
char *rviommu_owed_line(const struct rviommu_recorder *recorder, const struct rviommu_owed *owed);

#endif
