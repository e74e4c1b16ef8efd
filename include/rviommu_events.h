/*
 * rviommu_events: calls a function of yours when an interrupt becomes pending, as an interrupt line calls a driver's handler.
 *
 *     struct rviommu_events events = rviommu_events_begin(&platform, handler, &driver);
 *     rviommu_reg_write(&platform, 40, 4, tail);
 *     rviommu_events_look(&events, &platform);   after each step
 *
 * To look is no step: it isn't counted, and stands in no trace.
 */
#ifndef RVIOMMU_EVENTS_H
#define RVIOMMU_EVENTS_H

#include "rviommu.h"

struct rviommu_events {
    void (*raised)(void *user, uint64_t bits); /* with the bits of ipsr that have become pending */
    void *user;
    uint64_t pending; /* the value of ipsr at the last look */
};

/* Begins to look. What is pending now counts as seen. */
static inline struct rviommu_events rviommu_events_begin(const rviommu_t *handle, void (*raised)(void *user, uint64_t bits), void *user) {
    struct rviommu_events events = {raised, user, rviommu_interrupt(handle)};
    return events;
}

/* Calls the function if bits are pending that weren't at the last look; returns whether it did. The function may make steps and look again. */
static inline bool rviommu_events_look(struct rviommu_events *events, const rviommu_t *handle) {
    uint64_t now = rviommu_interrupt(handle), bits = now & ~events->pending;
    events->pending = now;
    if (bits != 0) {
        events->raised(events->user, bits);
    }
    return bits != 0;
}

#endif
