/* The interrupts of the kernel beneath Linux's driver: its handlers, and what calls them: a wire, or a message to an interrupt file. */
#include "kernel.h"

enum { HANDLERS = 8, VECTORS = 4, FILES = 4, IDENTITIES = 64, FIRST = 16, ANY = 0 }; /* FIRST: the number of vector 0's interrupt */
enum { HART = HART_PAGES * PAGE_SIZE }; /* what a hart has of the window: its own file, and those of guests behind it */

static struct { irq_handler_t hard, thread; void *data; unsigned int irq; } handlers[HANDLERS];

/* Interrupt files, as each hart has one: a page of the window, where a message's data is an identity. An identity is an interrupt's, or
 * nobody's (0), and a message of it waits or not. */
static struct { unsigned int irq[IDENTITIES]; bool waits[IDENTITIES]; } files[FILES];
static u64 window; /* where they lie; 0: there are none */
static struct { bool is_active; unsigned int file, identity; } places[VECTORS]; /* where each vector's messages go */
static struct device *sender;
static msi_writer writes;
static bool is_moving; /* the driver is about to write where messages go, and devices go on */
static bool is_amid;   /* an interrupt rose while the driver changed where messages go, and may be lost */
static u64 taken;
struct message_counts messages;
struct guest_messages guests_told;

static void runs(unsigned int irq) {
    for (int i = 0; i < HANDLERS; i++)
        if (handlers[i].data && (irq == ANY || handlers[i].irq == irq) && handlers[i].hard(handlers[i].irq, handlers[i].data) == IRQ_WAKE_THREAD)
            handlers[i].thread(handlers[i].irq, handlers[i].data);
}

/* A device that has no context accesses memory. Its denial's record may raise an interrupt. */
static void is_denied(void) {
    u64 seen, cause, before = rviommu_interrupt(&model);
    publish();
    if (rviommu_dma_read(&model, 6, 0x1000, (u8 *)&seen, 8, &cause) != RVIOMMU_DENIED)
        fails("a device without a context isn't denied");
    is_amid |= rviommu_interrupt(&model) & ~before;
    calls++;
}
void table_is_written(void) {
    if (is_moving && below(2))
        is_denied();
}

void fctl_is_written(u64 value) {
    u64 now = 0;
    rviommu_reg_look(&model, 8, 4, &now);
    messages.ignored += now != value;
}

/* messages */
void has_files(u64 at) { window = at; }
bool has_messages(void) { return writes; }
struct irq_domain *kernel_msi_domain(void) { return window ? (struct irq_domain *)files : NULL; }
int platform_device_msi_init_and_alloc_irqs(struct device *dev, unsigned int count, msi_writer write) {
    if (count > VECTORS)
        return -ENOSPC;
    sender = dev, writes = write;
    return 0;
}
void platform_device_msi_free_irqs_all(struct device *dev) {
    for (int vector = 0; vector < VECTORS; vector++)
        if (places[vector].is_active)
            fails("the interrupt of vector %d is freed, and has a handler", vector);
}
unsigned int msi_get_virq(struct device *dev, unsigned int vector) { return FIRST + vector; }

static void is_told(int vector, u64 at, u32 data) {
    struct msi_msg message = {.address_lo = at, .address_hi = at >> 32, .data = data};
    writes(&(struct msi_desc){.dev = sender, .msi_index = vector}, &message);
}
static void goes_to(int vector, unsigned int file) {
    unsigned int identity;
    do
        identity = 1 + below(IDENTITIES - 1);
    while (files[file].irq[identity]);
    files[file].irq[identity] = FIRST + vector;
    is_told(vector, window + file * HART, identity);
    places[vector].is_active = true, places[vector].file = file, places[vector].identity = identity;
}

u64 guest_file(u64 number) {
    u64 hart = number / (HART_PAGES - 1), behind = number % (HART_PAGES - 1);
    return window && hart < FILES ? window + hart * HART + (1 + behind) * PAGE_SIZE : 0;
}

/* Takes the messages that were sent to the files that they name. */
void takes(void) {
    struct rviommu_sent_message it;
    while (calls++, rviommu_take_message(&model, &it) == RVIOMMU_OK) {
        u64 file = (it.address - window) / HART;
        taken++;
        if ((it.address - window) % HART >= PAGE_SIZE)
            guests_told.count++, guests_told.address = it.address, guests_told.value = it.value;
        else if (it.address % PAGE_SIZE == 0 && file < FILES && it.value < IDENTITIES && files[file].irq[it.value])
            files[file].waits[it.value] = true;
        else if (messages.stray++, !is_amid)
            fails("a message to 0x%llx is nobody's: its data is %u", (unsigned long long)it.address, it.value);
    }
    if (taken != rviommu_messages_sent(&model))
        fails("messages weren't taken out in time");
}

/* An interrupt whose message waits, which doesn't any more; ANY: there is none. */
static unsigned int claimed(void) {
    for (int file = 0; file < FILES; file++)
        for (int identity = 1; identity < IDENTITIES; identity++)
            if (files[file].waits[identity]) {
                files[file].waits[identity] = false;
                return files[file].irq[identity];
            }
    return ANY;
}

/* Now and then an interrupt moves to another hart's file. A message that waits in the old one isn't lost. */
void moves(void) {
    int vector = below(VECTORS);
    unsigned int old = places[vector].file, identity = places[vector].identity;
    if (!places[vector].is_active)
        return;
    takes();
    is_moving = below(2);
    goes_to(vector, (old + 1 + below(FILES - 1)) % FILES);
    is_moving = false;
    takes();
    files[places[vector].file].waits[places[vector].identity] |= files[old].waits[identity];
    files[old].irq[identity] = 0, files[old].waits[identity] = false;
    messages.moved++;
}

/* As Linux does it, the driver writes a vector's message when the first handler is requested, and zeros when the last is freed. */
int request_threaded_irq(unsigned int irq, irq_handler_t hard, irq_handler_t thread, unsigned long flags, const char *name, void *data) {
    for (int i = 0; i < HANDLERS; i++)
        if (!handlers[i].data) {
            handlers[i].hard = hard, handlers[i].thread = thread, handlers[i].data = data, handlers[i].irq = irq;
            if (irq >= FIRST && !places[irq - FIRST].is_active)
                goes_to(irq - FIRST, below(FILES));
            return 0;
        }
    return -ENOSPC;
}
void free_irq(unsigned int irq, void *data) {
    bool is_shared = false;
    for (int i = 0; i < HANDLERS; i++) {
        if (handlers[i].data == data)
            handlers[i].data = NULL;
        is_shared |= handlers[i].data && handlers[i].irq == irq;
    }
    if (irq < FIRST || is_shared)
        return;
    takes();
    places[irq - FIRST].is_active = false;
    files[places[irq - FIRST].file].irq[places[irq - FIRST].identity] = 0;
    files[places[irq - FIRST].file].waits[places[irq - FIRST].identity] = false;
    is_told(irq - FIRST, 0, 0);
    if (below(2))
        is_denied(), fetch();
}

/* Calls the handlers of what is pending. */
static void by_wire(void) {
    for (int round = 0; rviommu_interrupt(&model); round++) {
        if (round == 16) {
            fails("an interrupt stays pending: ipsr is 0x%llx", (unsigned long long)rviommu_interrupt(&model));
            return;
        }
        fetch();
        settles_in(round);
        runs(ANY);
    }
}
static void by_message(void) {
    unsigned int irq;
    takes();
    for (int round = 0; (irq = claimed()) != ANY; round++, takes()) {
        if (round == 32) {
            fails("messages don't end: ipsr is 0x%llx", (unsigned long long)rviommu_interrupt(&model));
            return;
        }
        fetch();
        settles_in(round / 2);
        runs(irq);
        messages.dispatched++;
    }
    if (rviommu_interrupt(&model)) {
        if (!is_amid && !messages.ignored)
            fails("an interrupt is pending, and no message tells it: ipsr is 0x%llx", (unsigned long long)rviommu_interrupt(&model));
        messages.lost++;
        by_wire();
    }
    is_amid = false;
}
void interrupts(void) {
    if (writes)
        by_message();
    else
        by_wire();
}

/* A message was refused, as a fault record says. */
void is_refused(u64 address) {
    messages.refused++;
    if (!is_amid)
        fails("a message to 0x%llx is refused", (unsigned long long)address);
}
