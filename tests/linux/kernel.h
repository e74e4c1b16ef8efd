/* The kernel beneath Linux's driver, which kernel.c and interrupts.c have over the C library, and what lives.c asks of it. */
#ifndef KERNEL_H
#define KERNEL_H

#include "stubs.h"
#include "rviommu.h"

#define BASE 0x80000000ull
#define MEMORY 0x4000000ull
#define DATA 0x2000000ull /* from here on memory is what devices read and write */
#define PAGES (DATA / PAGE_SIZE)

extern rviommu_t model;
extern u64 calls, failures, told[4]; /* told: the driver's messages, by their level */
extern bool is_quiet;
extern const struct iommu_ops *ops;

void begins_by(u64 number);
u64 next(void);
u64 below(u64 n);
void fails(const char *form, ...) __attribute__((format(printf, 1, 2)));

/* What the driver did to registers that may be busy: it wrote one without a look at busy since the write before; such a write was lost; when it had
 * ended, a register was busy; and a queue was still on when none was busy any more. */
extern struct busy_counts { u64 unseen, lost, early, on; } busy;
void settles_at_the_end(void);
void settles_in(int round);

/* The driver's pages: those that it wrote, if it may have, are stored into the model's memory; at the end it has none. */
extern bool is_changed;
void memory_begins(void);
void publish(void);
void memory_ends(void);
/* Memory is somebody else's from now on: no entry that an IOMMU may hold names it, if the life keeps these. */
void is_let_go(u64 at, u64 length);
/* Loads the fault queue's records into the driver's pages. */
void fetch(void);

/* Calls the driver's handlers: by wire as long as an interrupt is pending, by message for each that was sent. */
void interrupts(void);

/* Messages for which the driver's handlers were called; interrupts that moved to another file; messages that came to a file as nobody's, or were
 * refused; interrupts that were pending, and no message told them; and writes of fctl that the model ignored. The last four are failures,
 * unless an interrupt rose while the driver changed where messages go, or fctl still says that they go by wire. */
extern struct message_counts { u64 dispatched, moved, stray, refused, lost, ignored; } messages;
void has_files(u64 at); /* the machine has interrupt files, from this address on */
bool has_messages(void);
void moves(void);
void table_is_written(void);
void fctl_is_written(u64 value);
void is_refused(u64 address);

/* Each hart has an interrupt file of its own, and behind it those that it lends to guests. Their messages: how many, and the last one. */
enum { HART_PAGES = 4 };
extern struct guest_messages { u64 count, address; u32 value; } guests_told;
u64 guest_file(u64 number); /* 0: there are fewer */
void takes(void);

#endif
