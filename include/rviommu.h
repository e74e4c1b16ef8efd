/*
 * rviommu: a proved platform model of the RISC-V IOMMU, for tests of drivers and of hardware.
 *
 * A handle owns these things:
 * - a platform: one IOMMU (RISC-V IOMMU Architecture 1.0) and up to eight virtio 1.2 block devices, with physical memory of its own or in
 *   front of memory that the caller lends for each call ("Lent memory", below);
 * - a trace of its last 32 steps;
 * - an account of its steps: why the last ones had their answers, and which steps filled the caches. It numbers the steps of the handle
 *   from 1 on;
 * - only if it is asked for ("Settled requests", below): what any IOMMU may hold in its caches.
 * A judge owns what another IOMMU may be ("Judging", below).
 * Each function is proved to do the same as the library call that it makes, if its caller keeps the rules below and those beside the
 * function. These are only tested:
 * - that an output may be NULL, that a closed handle or judge may be closed, how an access is cut into pieces, that looks may run at once, and that an
 *   earlier name of a function is the same call;
 * - that damaged bytes are refused, and take at most twice the memory;
 * - that memory is refused for holdings only if malloc refused it, and that a handle which keeps none calls malloc at no step;
 * - that nothing leaks;
 * - rviommu_record.h and rviommu_events.h.
 *
 * Rules for the caller of every function:
 * - No pointer is NULL, except one to an output that isn't wanted: a number, a length, a struct, or the bytes that a device reads. A
 *   buffer has as many bytes as the length beside it says, and isn't NULL even if that is 0.
 * - Two pointers of one call don't overlap, unless both are const.
 * - "The handle is open" means: one of the functions rviommu_open*, or rviommu_copy or rviommu_restore, returned RVIOMMU_OK for it, and
 *   rviommu_close has not been called for it since. A handle may be moved, but only one copy of it may be used. The same holds of a judge.
 * - One thread at a time uses a handle, but for the functions under "Looking": any number of them may run at once on one handle while no
 *   other function uses it. Two handles share nothing.
 * - No function is called from a signal handler, nor in the forked child of a process with threads.
 * Only rviommu_open*, rviommu_copy, rviommu_save, rviommu_restore, rviommu_keep_reasons, rviommu_close, rviommu_assemble, rviommu_keep_holdings and
 * rviommu_judge_* call malloc and free; and on a handle that keeps holdings, also each step, rviommu_reset, rviommu_settled*, rviommu_owed* and rviommu_all_owed.
 *
 * Addresses and lengths are in bytes, and numbers in memory are little-endian. The length of a buffer is a size_t; the number of a device,
 * a place or a step is a uint64_t. Functions of different kinds return different enums, each with numbers from 0 on.
 */
#ifndef RVIOMMU_H
#define RVIOMMU_H

#include <stdbool.h>
#include <stddef.h>
#include <stdint.h>

#define RVIOMMU_VERSION "0.4.0"
/* The number of the binary interface, which is part of the shared object's name. It grows only with a change that would break programs
 * built earlier. New functions, and new members in the room of `reserved`, don't change it. */
#define RVIOMMU_ABI 1

#ifdef __cplusplus
extern "C" {
#endif

/* A handle. Its member is private, and NULL while the handle is closed. */
typedef struct rviommu {
    void *own;
} rviommu_t;

/* The answer to a step. */
enum rviommu_answer {
    RVIOMMU_VALUE = 0,      /* the number that was read */
    RVIOMMU_DONE = 1,       /* the step was carried out */
    RVIOMMU_BYTES = 2,      /* the bytes that a device read */
    RVIOMMU_IDLE = 3,       /* there was nothing to do */
    RVIOMMU_DENIED = 4,     /* the IOMMU denied the device's access, with a cause ("Fault/Event-Queue (FQ)", CAUSE): rviommu_cause_text */
    RVIOMMU_BUS_ERROR = 5,  /* a byte of the hart's access, or of the device's translated access, is outside memory, and it is no message */
    RVIOMMU_BAD_ACCESS = 6, /* the registers have no access of this offset and size */
    RVIOMMU_NO_DEVICE = 7,  /* there is no such block device */
    RVIOMMU_MISUSE = 8,     /* a size, an alignment, a device id or a length is wrong, or the value doesn't fit the size */
    RVIOMMU_OTHER_MEMORY = 9 /* the memory isn't the handle's own, or the words aren't what it is lent; nothing was done */
};

/* Whether a call that isn't a step succeeded, and if not, why. rviommu_text gives the words for it. */
enum rviommu_status {
    RVIOMMU_OK = 0,
    RVIOMMU_BAD_MAGIC = 1,     /* image: the first eight bytes aren't "RVIOMMU1" to "RVIOMMU4" */
    RVIOMMU_TRUNCATED = 2,     /* image: it ends too early */
    RVIOMMU_TRAILING = 3,      /* image: more bytes follow it */
    RVIOMMU_BAD_RAM = 4,       /* the base or the size of memory is wrong, of an image or of memory that is lent */
    RVIOMMU_BAD_CHUNK = 5,     /* image: a chunk of bytes is empty, not after the previous chunk, or not all in memory */
    RVIOMMU_BAD_DEVICE = 6,    /* image: a block device has a bad id, the id of another, or a bad disk; or there are too many */
    RVIOMMU_OUT_OF_MEMORY = 7, /* malloc refused */
    RVIOMMU_BAD_LINE = 8,      /* text: a line isn't a statement; trace: it isn't a line, or what was seen can't be judged */
    RVIOMMU_OVERLAP = 9,       /* text: a line puts a byte where an earlier line put one */
    RVIOMMU_OUTSIDE = 10,      /* a byte is outside memory, or beyond the end of a disk */
    RVIOMMU_LITTLE_ROOM = 11,  /* the buffer is too short */
    RVIOMMU_NO_DISK = 12,      /* there is no such block device */
    RVIOMMU_NOT_THERE = 13,    /* there are fewer parts, steps, places or messages, or the device id isn't below 2^24 */
    RVIOMMU_BAD_CAPABILITIES = 14, /* image of version 3 or 4: an unknown capability, IGS 3, or a bad number of vectors */
    RVIOMMU_STATUS_OTHER_MEMORY = 15, /* the memory isn't the handle's own, or the words aren't what it is lent; nothing was done */
    RVIOMMU_BAD_SAVE = 16,     /* the bytes aren't those of a saved handle */
    RVIOMMU_OTHER_VERSION = 17, /* the bytes were saved by a library that writes another form */
    RVIOMMU_NOT_KEPT = 18,     /* the handle doesn't keep what any IOMMU may hold */
    RVIOMMU_UNSETTLED = 19,    /* an IOMMU may lead the request elsewhere than the tables do */
    RVIOMMU_CACHED = 20,       /* something was cached since the handle was opened or reset; nothing was done */
    RVIOMMU_NAMED = 21,        /* an IOMMU may hold an entry that names the memory */
    RVIOMMU_REFUSED = 22,      /* trace: no IOMMU could answer so */
    RVIOMMU_UNDECIDED = 23,    /* trace: after the line there are too many states that an IOMMU may be in */
    RVIOMMU_UNDECIDED_BEFORE = 24, /* trace: an earlier line was undecided; nothing was done */
    RVIOMMU_BAD_WINDOW = 25    /* image of version 4: the window isn't of whole pages beside the memory */
};

/* A register that may be busy: a write of it acts when it settles. */
enum rviommu_register {
    RVIOMMU_DDTP = 0,
    RVIOMMU_CQCSR = 1,
    RVIOMMU_FQCSR = 2
};

/* What is at a place of a cache. */
enum rviommu_place {
    RVIOMMU_LIVE = 0,  /* an entry */
    RVIOMMU_EMPTY = 1, /* nothing: a command dropped the entry */
    RVIOMMU_BEYOND = 2 /* there are fewer places */
};

/* An entry of the translation cache, in the standard the IOTLB. */
struct rviommu_page_place {
    uint64_t page;  /* the IOVA divided by 4096 */
    uint64_t frame; /* the physical address of its frame divided by 4096 */
    uint32_t did;   /* the device id */
    uint32_t pscid; /* the process soft-context id; 0 if there is none */
    uint32_t gscid; /* the guest soft-context id; 0 if there is none */
    uint32_t level; /* the level of the first stage's leaf, 0 to 4; 0 if that stage is Bare */
    bool has_pscid; /* the first stage isn't Bare */
    bool has_gscid; /* the second stage isn't Bare */
    bool is_write;  /* it serves writes; else it serves reads */
    bool is_global; /* the first stage's mapping is global */
    bool is_napot;  /* the first stage's leaf maps 64 KiB (Svnapot) */
    uint64_t reserved[2]; /* room for more members; 0 */
};

/* An entry of the context cache, in the standard the DDTC ("Device-context fields"). */
struct rviommu_context_place {
    uint64_t gppn;   /* iohgatp.PPN */
    uint64_t ppn;    /* fsc.PPN */
    uint32_t did;    /* the device id */
    uint32_t pscid;  /* ta.PSCID */
    uint32_t gscid;  /* iohgatp.GSCID */
    uint32_t gmode;  /* iohgatp.MODE: 0 Bare, 8 Sv39x4, 9 Sv48x4, 10 Sv57x4 */
    uint32_t mode;   /* fsc.MODE: 0 Bare, 8 Sv39, 9 Sv48, 10 Sv57 */
    uint32_t custom; /* tc bits 31:24 */
    bool dtf;        /* tc.DTF */
    bool tav;        /* ta bit 0 */
    uint64_t reserved[2]; /* room for more members; 0 */
};

/* What the tables in memory say, compared with the caches. */
enum rviommu_standing {
    RVIOMMU_CURRENT = 0, /* the same as the caches */
    RVIOMMU_NOTHING = 1, /* the place has no entry */
    RVIOMMU_NO_SUCH = 2, /* there are fewer places, or the device id isn't below 2^24 */
    RVIOMMU_STALE = 3,   /* something else, which the call writes to its output */
    RVIOMMU_STANDING_OTHER_MEMORY = 4 /* the memory isn't the handle's own */
};

/* How a request is translated. */
enum rviommu_way_kind {
    RVIOMMU_BY_REGISTER = 0, /* by ddtp, whose mode is Bare: the physical address is the IOVA */
    RVIOMMU_BY_CONTEXT = 1,  /* by a context whose stages are both Bare, without an MSI page table: the physical address is the IOVA */
    RVIOMMU_BY_WALK = 2,     /* by the stages of a context and its MSI page table, which map the IOVA's page to a frame */
    RVIOMMU_TO_NOWHERE = 3   /* nowhere: it is denied */
};

/* The way of a request: how it is translated. Members that its kind doesn't have are 0. */
struct rviommu_way {
    struct rviommu_context_place context; /* BY_CONTEXT, BY_WALK: the device's context */
    uint64_t frame;                       /* BY_WALK: the physical address of the page's frame divided by 4096 */
    uint64_t iotval2;                     /* TO_NOWHERE: the address of a guest page fault, in the form of a fault record's iotval2 */
    uint32_t kind;                        /* an enum rviommu_way_kind */
    uint32_t level;                       /* BY_WALK: the level of the first stage's leaf, 0 to 4; 0 if that stage is Bare */
    uint32_t cause;                       /* TO_NOWHERE: the cause of the denial */
    bool is_global;                       /* BY_WALK: the first stage's mapping is global */
    bool is_reported;                     /* TO_NOWHERE: the denial makes a fault record */
    bool is_napot;                        /* BY_WALK: the first stage's leaf maps 64 KiB (Svnapot) */
    uint64_t reserved[2];                 /* room for more members; 0 */
};

/* What ddtp and the directory say of a device id ("Process to locate the Device-context"). */
enum rviommu_located_kind {
    RVIOMMU_NO_DIRECTORY = 0, /* ddtp's mode is Off or Bare */
    RVIOMMU_HAS_CONTEXT = 1,  /* the device has a context */
    RVIOMMU_NO_CONTEXT = 2    /* the device has no context, for a cause */
};

/* Members that its kind doesn't have are 0. */
struct rviommu_located {
    struct rviommu_context_place context; /* HAS_CONTEXT: the device's context */
    uint32_t kind;                        /* an enum rviommu_located_kind */
    uint32_t cause;                       /* NO_CONTEXT: the cause */
    uint64_t reserved[2];                 /* room for more members; 0 */
};

/* The kinds of parts of a walk. */
enum rviommu_part_kind {
    RVIOMMU_PART_DDTP = 0,    /* ddtp: its mode, and its PPN in `word` */
    RVIOMMU_PART_ENTRY = 1,   /* a non-leaf entry of the device directory */
    RVIOMMU_PART_CONTEXT = 2, /* a leaf entry of the device directory: the words of the context, tc in `word` */
    RVIOMMU_PART_FIRST = 3,   /* an entry of the first stage's tables */
    RVIOMMU_PART_SECOND = 4,  /* an entry of the second stage's tables */
    RVIOMMU_PART_END = 5,     /* the end: the way of the request */
    /* In place of the entries of a table: a number that is too wide for it, in `word`. */
    RVIOMMU_PART_WIDE_DEVICE = 6, /* a device id with bits above those that the levels of the directory use */
    RVIOMMU_PART_WIDE_IOVA = 7,   /* an IOVA whose high bits don't repeat the highest bit that the first stage uses */
    RVIOMMU_PART_WIDE_GUEST = 8,  /* a guest-physical address with bits above those that the second stage uses */
    RVIOMMU_PART_FILE = 9         /* in place of the second stage: an entry of an MSI page table, its first word in `word` */
};

/* The ruling on an entry of a page table; from 15 on, of an MSI page table. All but POINTER, LEAF and LEADS are faults. */
enum rviommu_ruling {
    RVIOMMU_ENTRY_OUTSIDE = 0,             /* it is outside memory */
    RVIOMMU_ENTRY_GUEST = 1,               /* the second stage doesn't translate its guest-physical address */
    RVIOMMU_ENTRY_INVALID = 2,             /* V is 0 */
    RVIOMMU_ENTRY_WRITE_ONLY = 3,          /* R is 0 and W is 1 */
    RVIOMMU_ENTRY_RESERVED = 4,            /* one of bits 63:54 is set that is reserved */
    RVIOMMU_ENTRY_RESERVED_IN_POINTER = 5, /* A, D or U is set in a pointer */
    RVIOMMU_ENTRY_LAST_LEVEL = 6,          /* a pointer at level 0 */
    RVIOMMU_ENTRY_POINTER = 7,             /* it points to a table of the next level */
    RVIOMMU_ENTRY_MISALIGNED = 8,          /* a leaf whose PPN isn't aligned to its size */
    RVIOMMU_ENTRY_NOT_USER = 9,            /* a leaf with U = 0 */
    RVIOMMU_ENTRY_NOT_READABLE = 10,       /* a leaf with R = 0, for a read */
    RVIOMMU_ENTRY_NOT_WRITABLE = 11,       /* a leaf with W = 0, for a write */
    RVIOMMU_ENTRY_NOT_ACCESSED = 12,       /* a leaf with A = 0 */
    RVIOMMU_ENTRY_NOT_DIRTY = 13,          /* a leaf with D = 0, for a write */
    RVIOMMU_ENTRY_LEAF = 14,               /* a leaf that maps the address */
    RVIOMMU_FILE_OUTSIDE = 15,             /* one of its two words is outside memory: cause 261 */
    RVIOMMU_FILE_INVALID = 16,             /* V is 0: cause 262 */
    RVIOMMU_FILE_CUSTOM = 17,              /* C is 1, for custom use: cause 262 */
    RVIOMMU_FILE_BAD_MODE = 18,            /* M is 0 or 2, which are reserved: cause 263 */
    RVIOMMU_FILE_RESIDENT = 19,            /* M is 1, a memory-resident interrupt file, which this IOMMU doesn't have: cause 263 */
    RVIOMMU_FILE_RESERVED = 20,            /* a reserved bit is set: cause 263 */
    RVIOMMU_FILE_LEADS = 21                /* it leads to its PPN */
};

/* A part of a walk. Members that its kind doesn't have are 0. */
struct rviommu_walk_part {
    uint64_t place;         /* the physical address of an entry or a context; FIRST under a second stage: its guest-physical address */
    uint64_t read_at;       /* FIRST, SECOND: the physical address that the entry was read at */
    uint64_t guest;         /* SECOND: the guest-physical address that is translated; FILE: the address that the first stage reached */
    uint64_t word;          /* the entry; CONTEXT: tc; DDTP: its PPN; FILE: the entry's first word; the WIDE kinds: the number that is too wide */
    uint64_t iohgatp;       /* CONTEXT */
    uint64_t ta;            /* CONTEXT */
    uint64_t fsc;           /* CONTEXT */
    uint32_t kind;          /* an enum rviommu_part_kind */
    uint32_t mode;          /* DDTP: ddtp.iommu_mode, which is 0 for Off, 1 for Bare, 2 to 4 for one to three levels */
    uint32_t level;         /* FIRST, SECOND: the level of the entry's table, 0 to 4 */
    uint32_t ruling;        /* FIRST, SECOND, FILE: an enum rviommu_ruling */
    bool has_word;          /* there is a word: the entry's address is translated, and all of the entry is in memory */
    bool has_read_at;       /* FIRST, SECOND: the entry's address is translated */
    bool is_napot;          /* FIRST, SECOND: a leaf that maps 64 KiB (Svnapot) */
    struct rviommu_way way; /* END */
    uint64_t reserved[4];   /* room for more members; 0 */
};

/* Where a step got its translation from. */
enum rviommu_why_kind {
    RVIOMMU_WHY_NO_ACCESS = 0, /* it used none: it made no access of a device */
    RVIOMMU_WHY_DENIED = 1,    /* it used none: its access was denied */
    RVIOMMU_WHY_REGISTER = 2,  /* ddtp, whose mode was Bare */
    RVIOMMU_WHY_CONTEXT = 3,   /* a context whose stages were both Bare */
    RVIOMMU_WHY_WALK = 4       /* the stages of a context */
};

/* Why a step had its answer. A step that filled a cache may be this step itself. Members that its kind doesn't have are 0. */
struct rviommu_why {
    struct rviommu_way way; /* if `is_stale`: the way that the tables gave its access just before the step */
    uint64_t number;        /* the number of the step */
    uint64_t iova;          /* all but NO_ACCESS: the IOVA of its access */
    uint64_t context;       /* CONTEXT: the number of the step that filled the context it used; WALK: of the step that filled the context
                               under which its page was walked */
    uint64_t walk;          /* WALK: the number of the step that filled its page */
    uint64_t current;       /* WALK: the number of the step that filled the context in force, which gives its page the same ids */
    uint32_t did;           /* all but NO_ACCESS: the device id of its access */
    uint32_t kind;          /* an enum rviommu_why_kind */
    bool is_write;          /* all but NO_ACCESS: its access was a write */
    bool is_stale;          /* the caches translated its access otherwise than the tables would have */
    uint64_t address;       /* REGISTER, CONTEXT, WALK: the physical address that its access was led to */
    uint64_t reserved[3];   /* room for more members; 0 */
};

/* Where a request may be led that isn't settled. */
struct rviommu_unsettled {
    struct rviommu_way elsewhere; /* a way by entries that an IOMMU may hold */
    struct rviommu_way tables;    /* the way that the tables give, to another address or another denial */
    uint64_t number;              /* has_number: the number of the last step that could read this entry */
    bool has_number;              /* a single entry leads the request elsewhere, if all else is read from memory */
    bool is_unfenced;             /* a command names this entry that no IOFENCE.C has completed yet */
    uint64_t unfenced;            /* is_unfenced: the number of the step of the newest such command */
    uint64_t reserved[2];         /* room for more members; 0 */
};

/* A request that steps made and that isn't settled now. */
struct rviommu_owed {
    struct rviommu_unsettled unsettled; /* where it may be led */
    uint64_t iova;                      /* the first byte of its page: it stands for the requests of this device, page and kind */
    uint64_t number;                    /* the number of the last step that made one of them */
    uint32_t did;                       /* the device id */
    bool is_write;                      /* it is a write, else a read */
    uint64_t reserved[3];               /* room for more members; 0 */
};

/* The kinds of entries that an IOMMU may hold. */
enum rviommu_held_kind {
    RVIOMMU_HELD_DIRECTORY = 0,   /* a non-leaf entry of the device directory */
    RVIOMMU_HELD_CONTEXT = 1,     /* a leaf entry of the device directory: a device's context */
    RVIOMMU_HELD_FIRST = 2,       /* an entry of a first stage's tables */
    RVIOMMU_HELD_SECOND = 3,      /* an entry of a second stage's tables */
    RVIOMMU_HELD_TRANSLATION = 4, /* a whole translation of a page */
    RVIOMMU_HELD_FILE = 5         /* an entry of an MSI page table, by its context's GSCID even if the second stage is Bare */
};

/* The entries that an IOMMU may hold and that name some memory: how many, and the oldest of them, with what a command finds it by. Members that
 * its kind doesn't have are 0. */
struct rviommu_naming {
    uint64_t count;       /* how many entries, at most 2^64 - 1 */
    uint64_t number;      /* the number of the last step that could read the oldest: no other entry has a smaller one */
    uint64_t unfenced;    /* is_unfenced: the number of the step of the newest such command */
    uint64_t page;        /* FIRST, TRANSLATION: the first page that it stands for, an IOVA divided by 4096; SECOND: a guest-physical address; FILE:
                             the address that the first stage reached */
    uint32_t kind;        /* an enum rviommu_held_kind */
    uint32_t level;       /* FIRST, SECOND: the level of its table, 0 to 4; DIRECTORY: 1 or 2; TRANSLATION: that of the first stage's leaf */
    uint32_t did;         /* CONTEXT, TRANSLATION: the device id; DIRECTORY: the first one that it stands for */
    uint32_t pscid;       /* has_pscid: the process soft-context id */
    uint32_t gscid;       /* has_gscid: the guest soft-context id */
    bool is_unfenced;     /* a command names it that no IOFENCE.C has completed yet */
    bool has_pscid;       /* FIRST; TRANSLATION: the first stage isn't Bare */
    bool has_gscid;       /* SECOND, FILE; TRANSLATION: the second stage isn't Bare */
    bool is_leaf;         /* FIRST, SECOND: it is a leaf; else a pointer to a table, which a command with an address drops only with NL */
    bool is_global;       /* FIRST, TRANSLATION: the first stage's entry or one above it has G set, so a command with a PSCID leaves it */
    bool is_write;        /* TRANSLATION: it serves writes; else it serves reads */
    uint64_t reserved[4]; /* room for more members; 0 */
};

/* A message: four bytes that a device, a fence or an interrupt wrote where no memory is ("Messages", below). */
struct rviommu_sent_message {
    uint64_t address;     /* the physical address, a multiple of 4 */
    uint32_t value;       /* the number that was written */
    uint64_t reserved[2]; /* room for more members; 0 */
};

/* The version of the library in use: its three numbers in bits 23:16, 15:8 and 7:0. */
uint32_t rviommu_version(void);

/*
 * Opening and closing. The handle of a function rviommu_open* or of rviommu_restore, and `copy` of rviommu_copy, must be closed or never used
 * before; the memory of an open one would be lost.
 */

/* Opens the platform that an image describes: its memory, window and block devices, with the registers at reset and nothing cached. Returns
 * RVIOMMU_OK; RVIOMMU_OUT_OF_MEMORY; or the first check that fails, RVIOMMU_BAD_MAGIC to RVIOMMU_BAD_DEVICE, RVIOMMU_BAD_CAPABILITIES or
 * RVIOMMU_BAD_WINDOW.
 * After any but RVIOMMU_OK the handle is closed. */
enum rviommu_status rviommu_open(const uint8_t *image, size_t length, rviommu_t *handle);

/* Opens a platform with 1 MiB of memory at physical address 0x80000000, all 0, and no block device. Returns RVIOMMU_OK; or
 * RVIOMMU_OUT_OF_MEMORY, and the handle is closed. */
enum rviommu_status rviommu_open_built_in(rviommu_t *handle);

/* Opens an IOMMU without optional features, without a window and without block devices, with the registers at reset and nothing cached, in
 * front of memory that is lent for each call: `size` bytes from physical address `base` on. Both are multiples of 4096, `size` isn't 0, and
 * base + size is at most 2^56. Returns RVIOMMU_OK; or RVIOMMU_BAD_RAM or RVIOMMU_OUT_OF_MEMORY, and the handle is closed. */
enum rviommu_status rviommu_open_lent(uint64_t base, uint64_t size, rviommu_t *handle);

/* As rviommu_open_lent, with the IOMMU (capabilities, interrupt vectors), the window and the block devices of an image; the image's memory is
 * ignored. What is written where the window meets the lent memory goes to memory. Returns the image's refusal too, as rviommu_open does. */
enum rviommu_status rviommu_open_lent_image(const uint8_t *image, size_t length, uint64_t base, uint64_t size, rviommu_t *handle);

/* Opens `copy` with an equal platform and an equal account. From then on the two handles are independent. The copy continues the count of
 * steps, but its trace is empty and it has no reasons yet, so rviommu_reason and the line `trace` are about its own steps only. It keeps the
 * same number of reasons as `handle`, and no holdings. If the memory is lent, the copy is lent the same memory, or another one of the same place. `handle` is open and does not change. Returns RVIOMMU_OK; or RVIOMMU_OUT_OF_MEMORY, and `copy` is
 * closed. */
enum rviommu_status rviommu_copy(const rviommu_t *handle, rviommu_t *copy);

/* Sets how many reasons are kept for rviommu_reason: those of the last `most` steps or, if `accesses_only` is true, of the last `most` steps
 * that make an access of a device. A newly opened handle keeps those of the last 32 steps. If `most` is 0, accesses are faster, since the
 * tables aren't walked to see whether they are stale. The reasons kept so far are dropped. The handle is open. Returns RVIOMMU_OK; or RVIOMMU_OUT_OF_MEMORY, and nothing changes. */
enum rviommu_status rviommu_keep_reasons(rviommu_t *handle, size_t most, bool accesses_only);

/* Saves an open handle as bytes: its memory, registers, caches, window with the messages that are kept, block devices with their disks and requests,
 * the count of its steps, and which steps filled the caches. Writes them to `bytes`, and their number to `length`. The bytes are the same on every
 * machine. They have no trace, no reasons and no holdings, and no memory that is lent: its owner saves that. The handle does not change; looks may
 * run at once. Returns RVIOMMU_OK; RVIOMMU_LITTLE_ROOM, and `length` is the room that is needed (`bytes` may be NULL if `room` is 0); or
 * RVIOMMU_OUT_OF_MEMORY. `bytes` is unchanged unless RVIOMMU_OK is returned. */
enum rviommu_status rviommu_save(const rviommu_t *handle, uint8_t *bytes, size_t room, size_t *length);

/* Opens a handle that continues where the saved one stood: each later step has the same answer. The count of steps continues, the trace is
 * empty, and it has no reasons yet; it keeps as many as the saved one, and no holdings. If the saved one was lent its memory, this one is lent a
 * memory of the same place. Returns RVIOMMU_OK; or else why not, and the handle is closed. The first of these checks that fails decides:
 * - RVIOMMU_BAD_SAVE: the length is no multiple of 8, or below 16; the first eight bytes aren't "RVIOMMUS".
 * - RVIOMMU_OTHER_VERSION: the next eight, a number, aren't the version of this library's form, which is 4; versions 1 to 3 are of older libraries.
 * - RVIOMMU_BAD_SAVE: the next eight aren't the check word of the bytes after them, or these aren't those of a handle. So damage is noticed, but
 *   not what somebody made on purpose.
 * RVIOMMU_OUT_OF_MEMORY is returned only after the first two; damaged bytes ask for no more memory than the saved ones. The bytes that
 * rviommu_save wrote are refused with it alone, or as another version by a library of another form. */
enum rviommu_status rviommu_restore(const uint8_t *bytes, size_t length, rviommu_t *handle);

/* Closes an open handle and frees its memory. Does nothing to a handle whose member is NULL, as that of a closed handle is. */
void rviommu_close(rviommu_t *handle);

/* Resets the IOMMU: its registers are as at reset, and both caches are empty. Memory, messages and block devices stay as they are. It is no step: the
 * count of steps goes on, and the trace and the reasons stay. Holdings begin anew, where they are kept. The handle is open. */
void rviommu_reset(rviommu_t *handle);

/* Writes `length` bytes, any number of them, to the handle's own memory. It is no step, so neither the trace nor the account has it. The
 * handle is open. Returns RVIOMMU_OK; or RVIOMMU_OUTSIDE if one byte is outside memory, or RVIOMMU_STATUS_OTHER_MEMORY, and nothing is
 * written. */
enum rviommu_status rviommu_memory_write(rviommu_t *handle, uint64_t address, const uint8_t *bytes, size_t length);

/*
 * Lent memory. A handle of rviommu_open_lent or rviommu_open_lent_image has no memory. Each step, and each look that needs memory, has a
 * second form whose name ends in _lent. It takes the memory as 64-bit words: `words[i]` is the word at physical address base + 8 * i, its
 * lowest byte first, and `count` is size / 8. The words are read and written during the call only; no pointer to them is kept.
 * - Between calls anybody may write the words: the caller, other threads, another handle that is lent the same words. Each call goes by what
 *   the words hold when it begins, and by what is cached.
 * - During a call nobody else writes the words, and during a step nobody else reads them. If somebody does, the answer, the words and the
 *   caches are worth nothing from then on.
 * - A call of the wrong form does nothing: one without words on a handle that is lent memory, one with words on a handle with memory of its
 *   own, or one with another count. It returns RVIOMMU_OTHER_MEMORY, RVIOMMU_STATUS_OTHER_MEMORY or RVIOMMU_STANDING_OTHER_MEMORY.
 * - What others write between calls is no step and has no number, and it changes no origin: an origin's numbers are those of steps. It changes
 *   no holdings either.
 */

/*
 * Steps by text. The handle is open, and its memory is its own.
 */

/* Carries out one line of a script (rviommu(1), "SCRIPT"), given without its line end. Writes the text of the answer to `answer`, at most
 * 320 bytes and a 0 after it, and the text's length without the 0 to `length`. The answer to a blank line is empty, and that to any line
 * which isn't a step or a question is "bad". Returns RVIOMMU_OK; or RVIOMMU_LITTLE_ROOM if `room` is below 321, or
 * RVIOMMU_STATUS_OTHER_MEMORY, and nothing is done. */
enum rviommu_status rviommu_line(rviommu_t *handle, const char *line, size_t line_length, char *answer, size_t room, size_t *length);

/*
 * Steps by numbers. The handle is open. Each call is one step: the trace keeps it and the account counts it, as for a line. Two calls are no
 * step: a device's access of no bytes, or of more than 64, and one that is answered RVIOMMU_OTHER_MEMORY. Each comment names the other answers
 * that are possible. `value` is written for RVIOMMU_VALUE, `bytes` for RVIOMMU_BYTES and `cause` for RVIOMMU_DENIED; with any other answer they
 * are left unchanged. A refused step changes nothing, with three exceptions: a denial may make a fault record, translation may fill the caches,
 * and a block device whose access is refused is broken.
 */

/* The hart reads `size` bytes, 1, 2, 4 or 8, at a physical address that is a multiple of the size: VALUE, BUS_ERROR, MISUSE. */
enum rviommu_answer rviommu_load(rviommu_t *handle, uint64_t address, uint64_t size, uint64_t *value);

/* The hart writes `value` to `size` bytes, likewise: DONE, BUS_ERROR, MISUSE. */
enum rviommu_answer rviommu_store(rviommu_t *handle, uint64_t address, uint64_t size, uint64_t value);

/* The hart reads 4 or 8 bytes of the IOMMU's registers at an offset ("Memory-mapped register interface"): VALUE, BAD_ACCESS. */
enum rviommu_answer rviommu_reg_read(rviommu_t *handle, uint64_t offset, uint64_t size, uint64_t *value);

/* The hart writes 4 or 8 bytes of the IOMMU's registers at an offset: DONE, BAD_ACCESS, MISUSE. */
enum rviommu_answer rviommu_reg_write(rviommu_t *handle, uint64_t offset, uint64_t size, uint64_t value);

/* A device reads 1 to 64 bytes at an IOVA, all in one page of 4096 bytes. Its id is below 2^24. BYTES (always `length` of them), DENIED,
 * BUS_ERROR, MISUSE. */
enum rviommu_answer rviommu_dma_read(rviommu_t *handle, uint64_t did, uint64_t iova, uint8_t *bytes, size_t length, uint64_t *cause);

/* A device writes 1 to 64 bytes at an IOVA, likewise: DONE, DENIED, BUS_ERROR, MISUSE. */
enum rviommu_answer rviommu_dma_write(rviommu_t *handle, uint64_t did, uint64_t iova, const uint8_t *bytes, size_t length, uint64_t *cause);

/* A device reads or writes any number of bytes from an IOVA on, across pages. The access is made in pieces of at most 64 bytes, each in one
 * page and each a step, until one is refused. Writes to `done` how many bytes came before the refused piece, or all of them. Returns the
 * answer of the last piece; or MISUSE, without a step, if `length` is 0 or the last byte is beyond IOVA 2^64 - 1. After a refusal the rest
 * of `bytes` is unchanged. */
enum rviommu_answer rviommu_dma_read_all(rviommu_t *handle, uint64_t did, uint64_t iova, uint8_t *bytes, size_t length, size_t *done, uint64_t *cause);
enum rviommu_answer rviommu_dma_write_all(rviommu_t *handle, uint64_t did, uint64_t iova, const uint8_t *bytes, size_t length, size_t *done,
                                          uint64_t *cause);

/* A device asks for the translation of an IOVA, any of 64 bits, for a read or a write, and accesses no memory. It fills the caches and leaves a
 * fault record as an access does. VALUE, and `number` is the physical address, even if that is outside memory; DENIED, and `number` is the
 * cause; MISUSE. */
enum rviommu_answer rviommu_translate(rviommu_t *handle, uint64_t did, uint64_t iova, bool is_write, uint64_t *number);

/* The command unit takes one command and carries it out ("Command-Queue (CQ)"): DONE, even if that stops the queue, or IDLE. */
enum rviommu_answer rviommu_command(rviommu_t *handle);

/* The IOMMU ends a write that keeps a register busy, so that it acts; only a machine with delays is ever busy ("Device-directory-table pointer
 * (ddtp)", "Command-queue CSR (cqcsr)", "Fault queue CSR (fqcsr)": busy). DONE; IDLE if the register isn't busy; MISUSE, without a step, for
 * another number. */
enum rviommu_answer rviommu_settle(rviommu_t *handle, enum rviommu_register which);

/* The hart reads 1, 2 or 4 bytes of the registers of a block device (VIRTIO 1.2, "MMIO Device Register Layout"). The first device is 0.
 * VALUE, BAD_ACCESS, NO_DEVICE. */
enum rviommu_answer rviommu_dev_read(rviommu_t *handle, uint64_t device, uint64_t offset, uint64_t size, uint64_t *value);

/* The hart writes 1, 2 or 4 bytes of the registers of a block device: DONE, BAD_ACCESS, NO_DEVICE, MISUSE. */
enum rviommu_answer rviommu_dev_write(rviommu_t *handle, uint64_t device, uint64_t offset, uint64_t size, uint64_t value);

/* A block device goes on by one access: DONE, IDLE, DENIED, BUS_ERROR, NO_DEVICE. */
enum rviommu_answer rviommu_dev_step(rviommu_t *handle, uint64_t device, uint64_t *cause);

/*
 * Steps by numbers in front of lent memory. Each is the step of the same name without _lent, with the words that are lent for it.
 */

enum rviommu_answer rviommu_load_lent(rviommu_t *handle, uint64_t *words, size_t count, uint64_t address, uint64_t size, uint64_t *value);
enum rviommu_answer rviommu_store_lent(rviommu_t *handle, uint64_t *words, size_t count, uint64_t address, uint64_t size, uint64_t value);
enum rviommu_answer rviommu_reg_read_lent(rviommu_t *handle, uint64_t *words, size_t count, uint64_t offset, uint64_t size,
                                          uint64_t *value);
enum rviommu_answer rviommu_reg_write_lent(rviommu_t *handle, uint64_t *words, size_t count, uint64_t offset, uint64_t size,
                                           uint64_t value);
enum rviommu_answer rviommu_dma_read_lent(rviommu_t *handle, uint64_t *words, size_t count, uint64_t did, uint64_t iova, uint8_t *bytes,
                                          size_t length, uint64_t *cause);
enum rviommu_answer rviommu_dma_write_lent(rviommu_t *handle, uint64_t *words, size_t count, uint64_t did, uint64_t iova,
                                           const uint8_t *bytes, size_t length, uint64_t *cause);
enum rviommu_answer rviommu_dma_read_all_lent(rviommu_t *handle, uint64_t *words, size_t count, uint64_t did, uint64_t iova,
                                              uint8_t *bytes, size_t length, size_t *done, uint64_t *cause);
enum rviommu_answer rviommu_dma_write_all_lent(rviommu_t *handle, uint64_t *words, size_t count, uint64_t did, uint64_t iova,
                                               const uint8_t *bytes, size_t length, size_t *done, uint64_t *cause);
enum rviommu_answer rviommu_translate_lent(rviommu_t *handle, uint64_t *words, size_t count, uint64_t did, uint64_t iova, bool is_write,
                                           uint64_t *number);
enum rviommu_answer rviommu_command_lent(rviommu_t *handle, uint64_t *words, size_t count);
enum rviommu_answer rviommu_settle_lent(rviommu_t *handle, uint64_t *words, size_t count, enum rviommu_register which);
enum rviommu_answer rviommu_dev_read_lent(rviommu_t *handle, uint64_t *words, size_t count, uint64_t device, uint64_t offset,
                                          uint64_t size, uint64_t *value);
enum rviommu_answer rviommu_dev_write_lent(rviommu_t *handle, uint64_t *words, size_t count, uint64_t device, uint64_t offset,
                                           uint64_t size, uint64_t value);
enum rviommu_answer rviommu_dev_step_lent(rviommu_t *handle, uint64_t *words, size_t count, uint64_t device, uint64_t *cause);

/*
 * Looking. The handle is open. None of these calls is a step, and none changes the platform, the trace or the account. Any number of them may
 * run at once on one handle, in any threads, while no other function uses it. rviommu_memory, rviommu_part and rviommu_stale* are for
 * a handle with memory of its own, rviommu_way_now_lent is for one that is lent memory, and the others are for both.
 */

/* The number of the last step, or 0 before the first. A copy continues the count of its original. */
uint64_t rviommu_steps(const rviommu_t *handle);

/* The pending interrupts: the value of ipsr, with bit 0 for the command queue and bit 1 for the fault queue ("Interrupt pending status
 * register (ipsr)"). */
uint64_t rviommu_interrupt(const rviommu_t *handle);

/* Writes to `value` the number that rviommu_reg_read would read. Returns RVIOMMU_OK; or RVIOMMU_OUTSIDE if the registers have no such access, and `value` is
 * unchanged. */
enum rviommu_status rviommu_reg_look(const rviommu_t *handle, uint64_t offset, uint64_t size, uint64_t *value);

/* Writes the first physical address of memory to `base`, and the size of memory to `size`. */
void rviommu_memory_place(const rviommu_t *handle, uint64_t *base, uint64_t *size);

/* Copies `length` bytes of memory from a physical address on. Returns RVIOMMU_OK; or RVIOMMU_OUTSIDE or RVIOMMU_STATUS_OTHER_MEMORY, and
 * `bytes` is unchanged. */
enum rviommu_status rviommu_memory(const rviommu_t *handle, uint64_t address, uint8_t *bytes, size_t length);

/* Writes to `size` the size of a block device's disk; the first device is 0. Returns RVIOMMU_OK; or RVIOMMU_NO_DISK, and `size` is
 * unchanged. */
enum rviommu_status rviommu_disk_size(const rviommu_t *handle, uint64_t device, uint64_t *size);

/* Copies `length` bytes of a block device's disk from an offset on. Returns RVIOMMU_OK; or RVIOMMU_NO_DISK or RVIOMMU_OUTSIDE, and `bytes`
 * is unchanged. */
enum rviommu_status rviommu_disk(const rviommu_t *handle, uint64_t device, uint64_t offset, uint8_t *bytes, size_t length);

/* Looks at a place of the translation cache, which has at most 64, or of the context cache, which has at most 16. Place 0 is the oldest. The
 * entry is written for RVIOMMU_LIVE, else it is unchanged. */
enum rviommu_place rviommu_page(const rviommu_t *handle, uint64_t place, struct rviommu_page_place *page);
enum rviommu_place rviommu_context(const rviommu_t *handle, uint64_t place, struct rviommu_context_place *context);

/* Writes to `way` how a request would be translated now, by the caches first and else by the tables, and to `address` the physical address
 * ("Process to translate an IOVA"). Nothing is cached or reported. Returns RVIOMMU_OK; or RVIOMMU_NOT_THERE if the device id isn't below
 * 2^24, or RVIOMMU_STATUS_OTHER_MEMORY, and the outputs are unchanged. `address` is also unchanged if the way leads nowhere. */
enum rviommu_status rviommu_way_now(const rviommu_t *handle, uint64_t did, uint64_t iova, bool is_write, struct rviommu_way *way, uint64_t *address);
enum rviommu_status rviommu_way_now_lent(const rviommu_t *handle, const uint64_t *words, size_t count, uint64_t did, uint64_t iova, bool is_write,
                                     struct rviommu_way *way, uint64_t *address);

/* Writes to `part` one part of the walk of a request, as if nothing were cached ("Process to translate an IOVA"). Part 0 is ddtp and the
 * last one the end; there are at most 40. Returns RVIOMMU_OK; or RVIOMMU_NOT_THERE if there are fewer parts or the device id isn't below
 * 2^24, or RVIOMMU_STATUS_OTHER_MEMORY, and `part` is unchanged. */
enum rviommu_status rviommu_part(const rviommu_t *handle, uint64_t did, uint64_t iova, bool is_write, uint64_t number, struct rviommu_walk_part *part);

/* Whether a request is stale, which means that the caches translate it otherwise than the tables would ("Caching in-memory data
 * structures"). Returns RVIOMMU_STALE, and writes the way that the tables give to `way`; RVIOMMU_CURRENT; RVIOMMU_NO_SUCH if the device id
 * isn't below 2^24; or RVIOMMU_STANDING_OTHER_MEMORY. `way` is unchanged unless the request is stale. */
enum rviommu_standing rviommu_stale(const rviommu_t *handle, uint64_t did, uint64_t iova, bool is_write, struct rviommu_way *way);

/* Whether the tables still give the entry at a place of a cache. For RVIOMMU_STALE, rviommu_stale_page writes the way that the tables give a
 * request at the first byte of the entry's page, and rviommu_stale_context writes what ddtp and the directory say of the entry's device.
 * Otherwise the output is unchanged. */
enum rviommu_standing rviommu_stale_page(const rviommu_t *handle, uint64_t place, struct rviommu_way *way);
enum rviommu_standing rviommu_stale_context(const rviommu_t *handle, uint64_t place, struct rviommu_located *located);

/* Writes to `why` one of the kept reasons; the oldest is 0. Returns RVIOMMU_OK; or RVIOMMU_NOT_THERE if fewer are kept, and `why` is
 * unchanged. */
enum rviommu_status rviommu_reason(const rviommu_t *handle, uint64_t step, struct rviommu_why *why);

/* The number of the step that filled a place of a cache, even if the entry was dropped since. For the translation cache that is `walk`, and
 * `context` is the number of the step that filled the context under which the page was walked. Returns RVIOMMU_OK; or RVIOMMU_NOT_THERE if
 * there are fewer places, and the outputs are unchanged. */
enum rviommu_status rviommu_page_origin(const rviommu_t *handle, uint64_t place, uint64_t *context, uint64_t *walk);
enum rviommu_status rviommu_context_origin(const rviommu_t *handle, uint64_t place, uint64_t *number);

/*
 * Messages. An image of version 4 may have a window: whole pages beside memory (rviommu(1), "IMAGE TEXTS"). If a device, a fence, or an interrupt
 * that goes by no wire (rviommu(1), "fctl"), writes four bytes there, at a multiple of 4, it sends a message, as a message-signalled interrupt is
 * sent; no other access goes there. The last 16 messages are kept until they are taken out. The handle is open, and its memory is its own or
 * lent. None of these calls is a step.
 */

/* How many messages were sent, modulo 2^64. It is a look ("Looking"). */
uint64_t rviommu_messages_sent(const rviommu_t *handle);

/* Writes to `message` one of the kept messages; the oldest is 0. Returns RVIOMMU_OK; or RVIOMMU_NOT_THERE if fewer are kept, and `message` is
 * unchanged. It is a look, too. */
enum rviommu_status rviommu_message(const rviommu_t *handle, uint64_t place, struct rviommu_sent_message *message);

/* Takes out the oldest kept message, and writes it to `message`. Call it until none is left after each step, to deliver each message. Returns
 * RVIOMMU_OK; or RVIOMMU_NOT_THERE if none is kept, and nothing changes. */
enum rviommu_status rviommu_take_message(rviommu_t *handle, struct rviommu_sent_message *message);

/*
 * Settled requests. A request is settled if each IOMMU leads it where the tables do, whatever entries it keeps of those that devices made it read,
 * if its commands take effect at the next IOFENCE.C at the latest ("Caching in-memory data structures"). If a driver forgets an invalidation, requests aren't
 * settled any more, even where the caches of this model have lost the entry; rviommu_stale asks about these caches alone. The handle is open.
 */

/* Keeps from now on the holdings of the handle, if `keeps` is true: which entries any IOMMU may hold, and which requests the steps make. They
 * begin with none, so call this on a newly opened handle, or right after rviommu_reset. Each step then takes more time, and memory. A step that is refused that memory is carried out all the same, and from then on nothing is known until holdings begin anew, by
 * this function or rviommu_reset. If `keeps` is false, ends this and frees the memory, as on a newly opened handle. Returns RVIOMMU_OK; or
 * RVIOMMU_CACHED if `keeps` is true and a cache has a place (rviommu_page, rviommu_context), live or empty, and nothing changes. */
enum rviommu_status rviommu_keep_holdings(rviommu_t *handle, bool keeps);

/* Whether a request is settled now. Returns RVIOMMU_OK if it is; or RVIOMMU_UNSETTLED, and writes to `unsettled` where it may be led. Else
 * nothing is said: RVIOMMU_NOT_KEPT; RVIOMMU_OUT_OF_MEMORY if memory is refused, or was at a step; RVIOMMU_NOT_THERE if the device id isn't
 * below 2^24; or RVIOMMU_STATUS_OTHER_MEMORY. `unsettled` is unchanged unless RVIOMMU_UNSETTLED is returned. It is a look ("Looking"). */
enum rviommu_status rviommu_settled(const rviommu_t *handle, uint64_t did, uint64_t iova, bool is_write, struct rviommu_unsettled *unsettled);
enum rviommu_status rviommu_settled_lent(const rviommu_t *handle, const uint64_t *words, size_t count, uint64_t did, uint64_t iova, bool is_write,
                                         struct rviommu_unsettled *unsettled);

/* What is owed now: the requests that steps made, since holdings are kept, and that aren't settled. Writes as many of them to `owed` as there is
 * `room` for, and to `found` how many there are, which may be more (`owed` may be NULL if `room` is 0). Returns RVIOMMU_OK; or
 * RVIOMMU_NOT_KEPT, RVIOMMU_OUT_OF_MEMORY or RVIOMMU_STATUS_OTHER_MEMORY, and the outputs are unchanged. It is a look, too. */
enum rviommu_status rviommu_all_owed(const rviommu_t *handle, struct rviommu_owed *owed, size_t room, size_t *found);
enum rviommu_status rviommu_owed_lent(const rviommu_t *handle, const uint64_t *words, size_t count, struct rviommu_owed *owed, size_t room, size_t *found);

/* Whether memory may be freed, as far as caches go: whether no entry that an IOMMU may hold now names one of the `length` bytes from a physical address
 * on ("Caching in-memory data structures"). A leaf, an entry of an MSI page table and a whole translation name their frame; a pointer, an entry of the
 * directory and a context the tables that they lead to; an entry of a first stage under a second one none, since its addresses are the guest's. Ask once
 * tables and registers don't name the memory any more: they aren't looked at. Returns RVIOMMU_OK if there is no such entry; or RVIOMMU_NAMED, and writes to `naming` how many there are, and the
 * oldest. Else nothing is said: RVIOMMU_NOT_KEPT; or RVIOMMU_OUT_OF_MEMORY if memory was refused at a step. `naming` is unchanged unless RVIOMMU_NAMED is
 * returned. The range may end above 2^64; one of no bytes is named by none. It reads no memory, so it is for a handle that is lent memory, too, without
 * words. It is a look, too. */
enum rviommu_status rviommu_may_free(const rviommu_t *handle, uint64_t address, uint64_t length, struct rviommu_naming *naming);

/*
 * Judging. A judge is told what was done to another IOMMU, as RTL in a test bench, and what was seen of its answers, event by event, and says at
 * once whether the standard allows that, whatever the IOMMU keeps in its caches ("Caching in-memory data structures"). The events are the lines of a
 * trace (rviommu(1), "judge"). The first two calls need up to 1 MiB of stack.
 */

/* A judge. Its member is private, and NULL while the judge is closed. */
typedef struct rviommu_judge {
    void *own;
} rviommu_judge_t;

/* Opens a judge of an IOMMU that begins as the one of `handle` is now, with its registers, its memory and its block devices, and with nothing cached,
 * whatever `handle` has cached. If `hides` is true, it may carry out commands before each line that the trace doesn't show (`--hidden`). `handle` is
 * open and does not change; `judge` is closed, or was never used before. Returns RVIOMMU_OK; or RVIOMMU_OUT_OF_MEMORY or RVIOMMU_STATUS_OTHER_MEMORY,
 * and the judge is closed. */
enum rviommu_status rviommu_judge_open(const rviommu_t *handle, bool hides, rviommu_judge_t *judge);

/* Judges the next line of a trace, given without its line end: `dma read 5 0x40202abc 4 # => 11223344 at 0x80010abc`, or a line without a comment, of
 * which nothing was seen. Writes to `report` what rviommu judge --strict prints of the line, with its line end, and a 0 after it, cut to the `room`,
 * and to `length` the length of the whole report without the 0 (`report` may be NULL if `room` is 0). The judge is open. Returns:
 * - RVIOMMU_OK, and no report: some IOMMU could answer so after the lines before, or nothing was seen;
 * - RVIOMMU_REFUSED: no IOMMU could. The report has what is allowed. The judgement goes on as if nothing of the line had been seen;
 * - RVIOMMU_BAD_LINE: the line can't be read, or what was seen of it, or it isn't one step, and something was seen;
 * - RVIOMMU_UNDECIDED: nothing is judged from here on, and the other lines return RVIOMMU_UNDECIDED_BEFORE, with no report;
 * - RVIOMMU_OUT_OF_MEMORY: memory was refused at this line or at one before, and nothing more is known. */
enum rviommu_status rviommu_judge_line(rviommu_judge_t *judge, const char *line, size_t line_length, char *report, size_t room, size_t *length);

/* Closes an open judge and frees its memory. Does nothing to a judge whose member is NULL. */
void rviommu_judge_close(rviommu_judge_t *judge);

/*
 * Texts.
 */

/* Assembles a text (rviommu(1), "IMAGE TEXTS") into the bytes of an image, and writes their number to `length`. Returns RVIOMMU_OK;
 * RVIOMMU_LITTLE_ROOM, and `length` is the room that is needed; RVIOMMU_OUT_OF_MEMORY; or RVIOMMU_BAD_LINE, RVIOMMU_OVERLAP or
 * RVIOMMU_OUTSIDE, and `line` is the first faulty line, counted from 1, or 0 if the text has no statement. An output is unchanged with any
 * answer that doesn't name it: `image` unless RVIOMMU_OK is returned, `length` unless that or RVIOMMU_LITTLE_ROOM is, and `line` unless one of the
 * last three is. */
enum rviommu_status rviommu_assemble(const char *text, size_t text_length, uint8_t *image, size_t room, size_t *length, uint64_t *line);

/* Writes the words for an enum rviommu_status to `words`, with a 0 after them, and their length without the 0 to `length`. Returns
 * RVIOMMU_OK; or RVIOMMU_LITTLE_ROOM if `room` is below 32, and nothing is written. */
enum rviommu_status rviommu_text(enum rviommu_status status, char *words, size_t room, size_t *length);

/* Writes the name of a cause of a denial ("Fault/Event-Queue (FQ)", CAUSE) to `words`, likewise: "read page fault" for 13, and "no such cause"
 * for a number of which this model has no denial. Returns RVIOMMU_OK; or RVIOMMU_LITTLE_ROOM if `room` is below 48, and nothing is written. */
enum rviommu_status rviommu_cause_text(uint64_t cause, char *words, size_t room, size_t *length);

/*
 * Earlier names: rviommu_why is rviommu_reason, and rviommu_owed is rviommu_all_owed. In C++ each hides the constructor of the struct of its
 * name, of which g++ warns with -Wshadow; that warning is off here.
 */
#if defined(__cplusplus) && defined(__GNUC__)
#pragma GCC diagnostic push
#pragma GCC diagnostic ignored "-Wshadow"
#endif
enum rviommu_status rviommu_why(const rviommu_t *handle, uint64_t step, struct rviommu_why *why);
enum rviommu_status rviommu_owed(const rviommu_t *handle, struct rviommu_owed *owed, size_t room, size_t *found);
#if defined(__cplusplus) && defined(__GNUC__)
#pragma GCC diagnostic pop
#endif

#ifdef __cplusplus
}
#endif

#endif
