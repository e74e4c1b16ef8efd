/* Reports of accesses in words: rviommu-record.h. */
#include "qemu/osdep.h"
#include "rviommu-record.h"

/* Where a way leads a request. */
static char *way_in_words(const struct rviommu_way *way, uint64_t iova)
{
    if (way->kind == RVIOMMU_TO_NOWHERE) {
        return g_strdup_printf("denied %" PRIu32, way->cause);
    }
    if (way->kind == RVIOMMU_BY_WALK) {
        return g_strdup_printf("0x%" PRIx64, way->frame << 12 | (iova & RVIOMMU_PAGE_MASK));
    }
    return g_strdup_printf("0x%" PRIx64, iova);
}

char *rviommu_stale_line(const struct rviommu_recorder *recorder, const struct rviommu_why *why)
{
    g_autofree char *context = rviommu_named_step(recorder, why->context), *walk = rviommu_named_step(recorder, why->walk);
    g_autofree char *tables = way_in_words(&why->way, why->iova), *served = NULL, *led = NULL;

    switch (why->kind) {
    case RVIOMMU_WHY_WALK:
        led = g_strdup_printf("led to 0x%" PRIx64, why->address);
        served = g_strdup_printf("by the page of %s under the context of %s", walk, context);
        break;
    case RVIOMMU_WHY_CONTEXT:
        led = g_strdup_printf("led to 0x%" PRIx64, why->address);
        served = g_strdup_printf("by the context of %s", context);
        break;
    case RVIOMMU_WHY_REGISTER:
        led = g_strdup_printf("led to 0x%" PRIx64, why->address);
        served = g_strdup("by ddtp");
        break;
    default:
        led = g_strdup("denied");
        served = g_strdup("by a cached context");
        break;
    }
    return g_strdup_printf("stale: device 0x%" PRIx32 " %s 0x%" PRIx64 ": %s %s; the tables now say %s", why->did,
                           why->is_write ? "write" : "read", why->iova, led, served, tables);
}

/* Where a request may still be led, and what the tables say. */
static char *may_still(const struct rviommu_recorder *recorder, const struct rviommu_unsettled *unsettled, uint64_t iova)
{
    const char *verb = unsettled->elsewhere.kind == RVIOMMU_TO_NOWHERE ? "be" : "go to";
    g_autofree char *elsewhere = way_in_words(&unsettled->elsewhere, iova), *tables = way_in_words(&unsettled->tables, iova);
    g_autoptr(GString) text = g_string_new(NULL);

    g_string_append_printf(text, "may still %s %s", verb, elsewhere);
    if (unsettled->has_number) {
        g_autofree char *step = rviommu_named_step(recorder, unsettled->number);

        g_string_append_printf(text, ", read in %s", step);
    }
    g_string_append_printf(text, "; the tables now say %s", strcmp(elsewhere, tables) ? tables : "the same by other entries");
    if (unsettled->is_unfenced) {
        g_autofree char *step = rviommu_named_step(recorder, unsettled->unfenced);

        g_string_append_printf(text, "; the invalidation of %s isn't fenced yet", step);
    }
    return g_strdup(text->str);
}

char *rviommu_unsettled_line(const struct rviommu_recorder *recorder, uint64_t did, uint64_t iova, bool is_write,
                             const struct rviommu_unsettled *unsettled)
{
    g_autofree char *may = may_still(recorder, unsettled, iova);

    return g_strdup_printf("unsettled: device 0x%" PRIx64 " %s 0x%" PRIx64 ": %s", did, is_write ? "write" : "read", iova, may);
}

char *rviommu_owed_line(const struct rviommu_recorder *recorder, const struct rviommu_owed *owed)
{
    g_autofree char *step = rviommu_named_step(recorder, owed->number), *may = may_still(recorder, &owed->unsettled, owed->iova);

    return g_strdup_printf("owed: device 0x%" PRIx32 " %s 0x%" PRIx64 ", as in %s: %s", owed->did, owed->is_write ? "write" : "read", owed->iova,
                           step, may);
}
