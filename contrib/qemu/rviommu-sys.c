/*
 * rviommu-sys: the proved model of the RISC-V IOMMU as a device of QEMU's machine `virt`.
 *
 * The device stands in front of the machine's own IOMMU (-M virt,iommu-sys=on): it takes that one's registers, interrupt lines and PCI
 * bus, and everything that they do is answered by the C library (include/rviommu.h). contrib/qemu/README.md has its properties.
 */
#include "qemu/osdep.h"
#include "rviommu-qemu.h"
#include "rviommu-record.h"

#define TYPE_RVIOMMU_SYS "rviommu-sys"
#define TYPE_RVIOMMU_REGION "rviommu-sys-region"
OBJECT_DECLARE_SIMPLE_TYPE(RviommuSys, RVIOMMU_SYS)

/* The type of the machine's own IOMMU. */
#define TYPE_OWN "riscv-iommu-device"

#define REGISTERS_SIZE 0x1000
#define DDTP 0x10
#define CQCSR 0x48
#define FQCSR 0x4c
#define IPSR 0x54
#define ICVEC 0x2f8
#define PENDING_COMMANDS 1
#define PENDING_FAULTS 2
#define VECTORS 4
#define DDTP_BUSY (1 << 4)
#define QUEUE_BUSY (1 << 17)
/* Causes of a denial are below this number ("Fault/Event-Queue (FQ)", CAUSE). */
#define CAUSES 512
/* So many owed requests are reported at most at a time; the counts have all. */
#define MOST_OWED 16

/* The registers that are busy after a write, on a machine with delays. */
static const struct {
    hwaddr offset;
    uint64_t busy;
    enum rviommu_register which;
} slow[] = {{DDTP, DDTP_BUSY, RVIOMMU_DDTP}, {CQCSR, QUEUE_BUSY, RVIOMMU_CQCSR}, {FQCSR, QUEUE_BUSY, RVIOMMU_FQCSR}};

/* What is owed: as many requests as are reported, and how many there are. */
typedef struct Owed {
    struct rviommu_owed first[MOST_OWED];
    size_t count;
} Owed;

/* The memory that a PCI function accesses. */
typedef struct Space {
    IOMMUMemoryRegion region;
    AddressSpace space;
    RviommuSys *iommu;
    PCIBus *bus;
    int function;
    QLIST_ENTRY(Space) next;
} Space;

struct RviommuSys {
    DeviceState parent;
    MemoryRegion registers;
    QemuMutex lock; /* held for each use of the model: a device may have a thread of its own */
    QEMUBH *outputs_later;
    Notifier at_exit;
    QLIST_HEAD(, Space) spaces;
    qemu_irq lines[VECTORS];

    rviommu_t model;
    struct rviommu_memory memory;
    struct rviommu_recorder *recorder; /* NULL without record= */
    bool is_used;                      /* there was a step since the last reset */

    uint64_t granted, commands, stale_accesses, unsettled_accesses, owed;
    uint64_t denied[CAUSES];
    bool is_lost; /* memory was refused for settled=on since the last reset */

    bool stale;
    bool settled;
    char *record;
    char *capabilities;
    char *window;
};

/* The interrupt lines follow ipsr and icvec. The caller has QEMU's big lock and ours. */
static void set_lines(RviommuSys *s)
{
    uint64_t pending = rviommu_interrupt(&s->model), vectors = 0;

    rviommu_reg_look(&s->model, ICVEC, 8, &vectors);
    for (unsigned line = 0; line < VECTORS; line++) {
        bool by_commands = (pending & PENDING_COMMANDS) && (vectors & 15) == line;
        bool by_faults = (pending & PENDING_FAULTS) && (vectors >> 4 & 15) == line;

        qemu_set_irq(s->lines[line], by_commands || by_faults);
    }
}

/* Messages that the model sent go to their addresses in the machine. The caller has QEMU's big lock and ours, which is open meanwhile: what is
 * there may access memory through the model. */
static void deliver_messages(RviommuSys *s)
{
    struct rviommu_sent_message message;

    while (rviommu_take_message(&s->model, &message) == RVIOMMU_OK) {
        MemTxResult result = MEMTX_OK;

        rviommu_record_message(s->recorder, &s->model, &message);
        qemu_mutex_unlock(&s->lock);
        address_space_stl_le(&address_space_memory, message.address, message.value, MEMTXATTRS_UNSPECIFIED, &result);
        qemu_mutex_lock(&s->lock);
        if (result != MEMTX_OK) {
            error_report("rviommu-sys: nothing takes the message 0x%" PRIx32 " at 0x%" PRIx64, message.value, message.address);
        }
    }
}

static void set_outputs(RviommuSys *s)
{
    set_lines(s);
    deliver_messages(s);
}

static void set_outputs_later(void *opaque)
{
    RviommuSys *s = opaque;

    QEMU_LOCK_GUARD(&s->lock);
    set_outputs(s);
}

/* After a step. Lines may only be set, and messages delivered, under QEMU's big lock, which a device's thread doesn't hold. */
static void outputs_may_change(RviommuSys *s)
{
    if (bql_locked()) {
        set_outputs(s);
    } else {
        qemu_bh_schedule(s->outputs_later);
    }
}

/* The command unit takes commands until it has none or is stopped. The caller has QEMU's big lock: only the last messages are kept. */
static void run_commands(RviommuSys *s)
{
    for (;;) {
        struct rviommu_command_seen seen = rviommu_record_before_command(s->recorder, &s->model);

        if (rviommu_command_lent(&s->model, s->memory.words, s->memory.count) != RVIOMMU_DONE) {
            return;
        }
        s->commands++;
        rviommu_record_command(s->recorder, &s->model, seen);
        deliver_messages(s);
    }
}

/* What is owed now; NULL if that isn't asked for, or isn't known. */
static Owed *owed_now(RviommuSys *s)
{
    Owed *owed = s->settled ? g_new0(Owed, 1) : NULL;

    if (owed && rviommu_owed_lent(&s->model, s->memory.words, s->memory.count, owed->first, MOST_OWED, &owed->count) != RVIOMMU_OK) {
        g_free(owed);
        return NULL;
    }
    return owed;
}

/* Reports what was owed. */
static void report_owed(RviommuSys *s, const Owed *owed)
{
    if (!owed) {
        return;
    }
    s->owed += owed->count;
    for (size_t i = 0; i < MIN(owed->count, MOST_OWED); i++) {
        g_autofree char *line = rviommu_owed_line(s->recorder, &owed->first[i]);

        error_report("rviommu-sys: %s", line);
    }
}

/* The guest has read from a register. If it saw that it is busy, its last write acts now, so the guest waits for no more than one read. */
static void settle(RviommuSys *s, hwaddr offset, uint64_t value)
{
    for (size_t i = 0; i < ARRAY_SIZE(slow); i++) {
        g_autofree Owed *owed = NULL;

        if (offset != slow[i].offset || !(value & slow[i].busy)) {
            continue;
        }
        owed = offset == DDTP ? owed_now(s) : NULL;
        rviommu_settle_lent(&s->model, s->memory.words, s->memory.count, slow[i].which);
        rviommu_record_settle(s->recorder, &s->model, slow[i].which);
        report_owed(s, owed);
        run_commands(s);
        outputs_may_change(s);
    }
}

static MemTxResult read_register(void *opaque, hwaddr offset, uint64_t *value, unsigned size, MemTxAttrs attrs)
{
    RviommuSys *s = opaque;
    enum rviommu_answer answer;

    QEMU_LOCK_GUARD(&s->lock);
    s->is_used = true;
    answer = rviommu_reg_read_lent(&s->model, s->memory.words, s->memory.count, offset, size, value);
    if (answer != RVIOMMU_VALUE) {
        return MEMTX_ERROR;
    }
    rviommu_record_register_read(s->recorder, &s->model, offset, size, *value);
    settle(s, offset, *value);
    return MEMTX_OK;
}

/* Whether the last write of ddtp has yet to act. */
static bool is_directory_busy(RviommuSys *s)
{
    uint64_t ddtp = 0;

    rviommu_reg_look(&s->model, DDTP, 8, &ddtp);
    return ddtp & DDTP_BUSY;
}

static MemTxResult write_register(void *opaque, hwaddr offset, uint64_t value, unsigned size, MemTxAttrs attrs)
{
    RviommuSys *s = opaque;
    g_autofree Owed *owed = NULL;
    enum rviommu_answer answer;

    QEMU_LOCK_GUARD(&s->lock);
    s->is_used = true;
    if (offset < DDTP + 8 && DDTP < offset + size) {
        owed = owed_now(s);
    }
    answer = rviommu_reg_write_lent(&s->model, s->memory.words, s->memory.count, offset, size, value);
    if (answer != RVIOMMU_DONE) {
        return MEMTX_ERROR;
    }
    rviommu_record_register_write(s->recorder, &s->model, offset, size, value);
    if (!is_directory_busy(s)) {
        /* A driver that ends turns the IOMMU off or to Bare, and then nothing is owed any more. */
        report_owed(s, owed);
    }
    run_commands(s);
    if (offset <= IPSR && IPSR < offset + size) {
        /* The machine's interrupt controller counts edges: a cause that still stands is a new edge. */
        for (unsigned line = 0; line < VECTORS; line++) {
            qemu_irq_lower(s->lines[line]);
        }
    }
    outputs_may_change(s);
    return MEMTX_OK;
}

static const MemoryRegionOps register_ops = {
    .read_with_attrs = read_register,
    .write_with_attrs = write_register,
    .endianness = DEVICE_LITTLE_ENDIAN,
    .valid = {.min_access_size = 4, .max_access_size = 8},
    .impl = {.min_access_size = 4, .max_access_size = 8},
};

/* Reports the last access if it was stale. */
static void report_stale(RviommuSys *s)
{
    g_autofree char *line = NULL;
    struct rviommu_why why;

    if (rviommu_why(&s->model, 0, &why) != RVIOMMU_OK || !why.is_stale) {
        return;
    }
    s->stale_accesses++;
    line = rviommu_stale_line(s->recorder, &why);
    error_report("rviommu-sys: %s", line);
}

/* Reports an access, just before it is made, if it isn't settled; and once, if that isn't known any more. */
static void report_unsettled(RviommuSys *s, uint64_t did, uint64_t iova, bool is_write)
{
    g_autofree char *line = NULL;
    struct rviommu_unsettled unsettled;
    enum rviommu_status status = rviommu_settled_lent(&s->model, s->memory.words, s->memory.count, did, iova, is_write, &unsettled);

    if (status == RVIOMMU_UNSETTLED) {
        s->unsettled_accesses++;
        line = rviommu_unsettled_line(s->recorder, did, iova, is_write, &unsettled);
        error_report("rviommu-sys: %s", line);
    } else if (status != RVIOMMU_OK && !s->is_lost) {
        s->is_lost = true;
        error_report("rviommu-sys: settled=on: no memory, so nothing is known from here on");
    }
}

/* The translation of one access. Nothing is kept for the next one, since only the model's caches may do that. */
static IOMMUTLBEntry translate(IOMMUMemoryRegion *region, hwaddr iova, IOMMUAccessFlags flags, int index)
{
    Space *space = container_of(region, Space, region);
    RviommuSys *s = space->iommu;
    uint64_t did = PCI_BUILD_BDF(pci_bus_num(space->bus), space->function), number = 0;
    bool is_write = flags & IOMMU_WO;
    enum rviommu_answer answer;
    IOMMUTLBEntry entry = {
        .target_as = &address_space_memory,
        .iova = iova & ~(hwaddr)RVIOMMU_PAGE_MASK,
        .addr_mask = RVIOMMU_PAGE_MASK,
        .perm = IOMMU_NONE,
    };

    if (flags == IOMMU_NONE) {
        return entry;
    }
    QEMU_LOCK_GUARD(&s->lock);
    s->is_used = true;
    rviommu_record_before_access(s->recorder, &s->model, did, iova);
    if (s->settled) {
        report_unsettled(s, did, iova, is_write);
    }
    answer = rviommu_translate_lent(&s->model, s->memory.words, s->memory.count, did, iova, is_write, &number);
    rviommu_record_access(s->recorder, &s->model, did, iova, is_write, answer, number);
    if (answer == RVIOMMU_VALUE) {
        s->granted++;
        entry.translated_addr = number & ~(uint64_t)RVIOMMU_PAGE_MASK;
        entry.perm = is_write ? IOMMU_WO : IOMMU_RO;
    } else {
        s->denied[MIN(number, CAUSES - 1)]++;
    }
    if (s->stale) {
        report_stale(s);
    }
    outputs_may_change(s);
    return entry;
}

/* Those who would keep translations, as vhost and vfio do, are refused. */
static int refuse_notifier(IOMMUMemoryRegion *region, IOMMUNotifierFlag old, IOMMUNotifierFlag new, Error **errp)
{
    if (new == IOMMU_NOTIFIER_NONE) {
        return 0;
    }
    error_setg(errp, "rviommu-sys translates each access by itself, so no device may keep translations (vhost, vfio)");
    return -EINVAL;
}

static void region_class_init(ObjectClass *class, RVIOMMU_CLASS_DATA)
{
    IOMMUMemoryRegionClass *region = IOMMU_MEMORY_REGION_CLASS(class);

    region->translate = translate;
    region->notify_flag_changed = refuse_notifier;
}

static AddressSpace *space_of(PCIBus *bus, void *opaque, int function)
{
    RviommuSys *s = opaque;
    g_autofree char *name = NULL;
    Space *space;

    QLIST_FOREACH(space, &s->spaces, next) {
        if (space->bus == bus && space->function == function) {
            return &space->space;
        }
    }
    space = g_new0(Space, 1);
    space->iommu = s;
    space->bus = bus;
    space->function = function;
    name = g_strdup_printf("rviommu-sys-%02x.%x", PCI_SLOT(function), PCI_FUNC(function));
    memory_region_init_iommu(&space->region, sizeof(space->region), TYPE_RVIOMMU_REGION, OBJECT(s), name, UINT64_MAX);
    address_space_init(&space->space, MEMORY_REGION(&space->region), name);
    QLIST_INSERT_HEAD(&s->spaces, space, next);
    return &space->space;
}

static const PCIIOMMUOps pci_ops = {.get_address_space = space_of};

/* Appends how many accesses weren't settled, and how many requests are owed. */
static void append_settled(RviommuSys *s, GString *text)
{
    size_t found = 0;

    g_string_append_printf(text, ", %" PRIu64 " unsettled, ", s->unsettled_accesses);
    if (rviommu_owed_lent(&s->model, s->memory.words, s->memory.count, NULL, 0, &found) == RVIOMMU_OK) {
        g_string_append_printf(text, "%" PRIu64 " owed", s->owed + found);
    } else {
        g_string_append(text, "owed unknown");
    }
}

/* The counts in words. */
static char *counts(RviommuSys *s)
{
    g_autoptr(GString) causes = g_string_new(NULL);
    uint64_t denied = 0;

    for (unsigned cause = 0; cause < CAUSES; cause++) {
        if (s->denied[cause]) {
            g_string_append_printf(causes, "%s%u: %" PRIu64, denied ? ", " : " (", cause, s->denied[cause]);
            denied += s->denied[cause];
        }
    }
    g_string_append(causes, denied ? ")" : "");
    if (s->stale) {
        g_string_append_printf(causes, ", %" PRIu64 " stale", s->stale_accesses);
    }
    if (s->settled) {
        append_settled(s, causes);
    }
    g_string_append_printf(causes, "; %" PRIu64 " commands", s->commands);
    if (s->window) {
        g_string_append_printf(causes, "; %" PRIu64 " messages", rviommu_messages_sent(&s->model));
    }
    return g_strdup_printf("%" PRIu64 " accesses, %" PRIu64 " granted, %" PRIu64 " denied%s", s->granted + denied, s->granted, denied, causes->str);
}

static char *get_counts(Object *object, Error **errp)
{
    RviommuSys *s = RVIOMMU_SYS(object);

    QEMU_LOCK_GUARD(&s->lock);
    return counts(s);
}

static void print_counts_at_exit(Notifier *notifier, void *data)
{
    RviommuSys *s = container_of(notifier, RviommuSys, at_exit);
    g_autofree char *text = NULL;
    g_autofree Owed *owed = NULL;

    QEMU_LOCK_GUARD(&s->lock);
    text = counts(s);
    owed = owed_now(s);
    error_printf("rviommu-sys: %s\n", text);
    report_owed(s, owed);
    rviommu_record_end(s->recorder);
    s->recorder = NULL;
}

/* The machine was reset. Its first reset comes before any step. */
static void reset(void *opaque)
{
    RviommuSys *s = opaque;

    QEMU_LOCK_GUARD(&s->lock);
    rviommu_reset(&s->model);
    if (s->is_used && s->recorder) {
        rviommu_record_stop(s->recorder, "the machine was reset, which a script can't say");
    }
    s->is_used = false;
    s->is_lost = false;
    set_lines(s);
}

/* The statements of the model's image behind that of its memory. */
static char *statements_of(const RviommuSys *s)
{
    g_autofree char *window = s->window ? g_strdup_printf("window %s\n", s->window) : NULL;

    return g_strdup_printf("capabilities %s\n%s", s->capabilities ? s->capabilities : "", window ? window : "");
}

/* Opens the model in front of the machine's memory. */
static bool open_model(RviommuSys *s, const char *statements, Error **errp)
{
    MachineState *machine = MACHINE(qdev_get_machine());
    g_autofree char *text = g_strdup_printf("ram 0x80000000 0x1000\n%s", statements);
    uint8_t image[RVIOMMU_IMAGE_ROOM];
    char words[32] = "";
    size_t length = 0;
    uint64_t line = 0;
    enum rviommu_status status = rviommu_assemble(text, strlen(text), image, sizeof image, &length, &line);

    if (status != RVIOMMU_OK) {
        bool is_window = line == 3;
        const char *given = is_window ? s->window : s->capabilities;

        error_setg(errp, "%s=%s is no statement of rviommu(1), \"IMAGE TEXTS\"", is_window ? "window" : "capabilities", given ? given : "");
        return false;
    }
    s->memory.words = memory_region_get_ram_ptr(machine->ram);
    s->memory.base = machine->ram->addr;
    s->memory.count = machine->ram_size / 8;
    status = rviommu_open_lent_image(image, length, s->memory.base, machine->ram_size, &s->model);
    if (status != RVIOMMU_OK) {
        rviommu_text(status, words, sizeof words, &length);
        error_setg(errp, "the model can't be opened: %s", words);
        return false;
    }
    if (s->settled) {
        rviommu_keep_holdings(&s->model, true);
    }
    if (rviommu_keep_reasons(&s->model, s->stale ? 1 : 0, true) != RVIOMMU_OK) {
        error_setg(errp, "no memory");
        return false;
    }
    return true;
}

/* Takes registers, lines and bus of the machine's own IOMMU. */
static bool take_place(RviommuSys *s, Error **errp)
{
    Object *own = object_resolve_path_type("", TYPE_OWN, NULL);
    PCIBus *bus = (PCIBus *)object_resolve_path_type("", TYPE_PCI_BUS, NULL);
    uint64_t address, first_line;
    Object *chip;

    if (!own || !bus) {
        error_setg(errp, "rviommu-sys takes the place of the machine's IOMMU: it needs -M virt,iommu-sys=on");
        return false;
    }
    address = object_property_get_uint(own, "addr", &error_abort);
    first_line = object_property_get_uint(own, "base-irq", &error_abort);
    chip = object_property_get_link(own, "irqchip", &error_abort);
    for (unsigned line = 0; line < VECTORS; line++) {
        s->lines[line] = qdev_get_gpio_in(DEVICE(chip), first_line + line);
    }
    memory_region_init_io(&s->registers, OBJECT(s), &register_ops, s, "rviommu-sys", REGISTERS_SIZE);
    memory_region_add_subregion_overlap(get_system_memory(), address, &s->registers, 1);
    pci_setup_iommu(bus, &pci_ops, s);
    return true;
}

static void realize(DeviceState *device, Error **errp)
{
    RviommuSys *s = RVIOMMU_SYS(device);
    g_autofree char *statements = statements_of(s);

    if (object_resolve_path_type("", TYPE_RVIOMMU_SYS, NULL) != OBJECT(s)) {
        error_setg(errp, "there may be only one rviommu-sys");
        return;
    }
    if (!open_model(s, statements, errp)) {
        return;
    }
    if (s->record) {
        s->recorder = rviommu_record_begin(s->record, statements, &s->memory, errp);
        if (!s->recorder) {
            return;
        }
    }
    if (!take_place(s, errp)) {
        return;
    }
    s->outputs_later = qemu_bh_new(set_outputs_later, s);
    s->at_exit.notify = print_counts_at_exit;
    qemu_add_exit_notifier(&s->at_exit);
    qemu_register_reset(reset, s);
}

static void instance_init(Object *object)
{
    RviommuSys *s = RVIOMMU_SYS(object);

    qemu_mutex_init(&s->lock);
    QLIST_INIT(&s->spaces);
}

/* The model's state can't be saved, so migration and snapshots are refused. */
static const VMStateDescription state = {.name = TYPE_RVIOMMU_SYS, .unmigratable = 1};

static const Property properties[] = {
    DEFINE_PROP_BOOL("stale", RviommuSys, stale, false),
    DEFINE_PROP_BOOL("settled", RviommuSys, settled, false),
    DEFINE_PROP_STRING("record", RviommuSys, record),
    DEFINE_PROP_STRING("capabilities", RviommuSys, capabilities),
    DEFINE_PROP_STRING("window", RviommuSys, window),
};

static void class_init(ObjectClass *class, RVIOMMU_CLASS_DATA)
{
    DeviceClass *device = DEVICE_CLASS(class);

    device->realize = realize;
    device->vmsd = &state;
    device->desc = "proved model of the RISC-V IOMMU, in the place of the machine's own";
    device->user_creatable = true;
    device->hotpluggable = false;
    set_bit(DEVICE_CATEGORY_MISC, device->categories);
    device_class_set_props(device, properties);
    object_class_property_add_str(class, "counts", get_counts, NULL);
}

static const TypeInfo types[] = {
    {
        .name = TYPE_RVIOMMU_SYS,
        .parent = TYPE_DEVICE,
        .instance_size = sizeof(RviommuSys),
        .instance_init = instance_init,
        .class_init = class_init,
    },
    {
        .name = TYPE_RVIOMMU_REGION,
        .parent = TYPE_IOMMU_MEMORY_REGION,
        .class_init = region_class_init,
    },
};

DEFINE_TYPES(types)
