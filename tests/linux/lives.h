/* What a life has: devices, the driver's domains with their mappings, and guests. */
#ifndef LIVES_H
#define LIVES_H

#include "kernel.h"

/* Where an access to a page goes: to no memory, to a page of memory, or to one of an interrupt file, where a write is a message and nothing is read.
 * A cause that isn't 0 denies reads or writes. */
struct place {
    enum { NOWHERE, RAM, FILE_PAGE } kind;
    u64 at, read_cause, write_cause;
};

/* A guest, as a hypervisor has it: its interrupt files are the pages with this pattern at the bits that the mask leaves out. */
enum { GUEST_FILES = 16, GUEST_PAGES = 16, GUEST_TABLES = 16 };
struct guest {
    bool is_staged;                 /* it has a second stage */
    bool is_led;                    /* its devices' contexts have its MSI page table */
    u64 id, pattern, mask;          /* GSCID; numbers of pages */
    int files, pages, tables, levels; /* levels: of the second stage, Sv39x4 or Sv48x4 */
    struct place leads[GUEST_FILES]; /* where each file is led */
    struct { u64 page; struct place to; } mapped[GUEST_PAGES];
    u64 *msi, *root, *table[GUEST_TABLES];
};

enum { BLOCKED = -1, IDENTITY = -2, RELEASED = -3, USERS = 4, WITH_GUESTS = 6 };
/* A device. Those from USERS on are a guest's with a second stage, and stay in the driver's identity domain. */
struct user { struct device dev; struct iommu_fwspec fwspec; int space; struct guest *guest; };
extern struct user users[WITH_GUESTS];

/* The IOVA by which a device reaches an address, and whether it may write there; false: it doesn't. */
bool reaches(const struct user *user, u64 address, u64 *iova, bool *is_written);
/* What the caches say of a device's access is what the tables say; so it is on every IOMMU, if the life keeps what each may hold. */
void is_current(const struct user *user, u64 iova, bool is_write);

/* guests.c: guests come and go, their interrupt files move, and each access of their devices goes where it is led. */
extern struct guest_counts { u64 joined, moved, early, told, behind, refused, read, mapped, unmapped; } guest_done;
bool has_guests(void);
u64 some_file(void); /* the address of one of the guest's whose devices have no second stage */
void tries(struct user *user, u64 iova, u64 address, bool is_written); /* the first stage leads the IOVA to the address, and may let write */
void guests_begin(void);
void guests_go_on(void);
void guests_end(void);

/* hypervisor.c: what a hypervisor writes for a guest, and how it invalidates what may be cached of it. */
void guest_begins(struct guest *guest);
void guest_ends(struct guest *guest);
void context_is(struct user *user, const struct guest *guest); /* NULL: that of no guest */
u64 entry_to(u64 at);
void file_is(struct guest *guest, int file, u64 word, u64 second);
void file_is_dropped(const struct guest *guest, u64 address);
void page_is(struct guest *guest, u64 page, u64 at, bool is_written); /* 0: nowhere */
void page_is_dropped(const struct guest *guest, u64 page);

#endif
