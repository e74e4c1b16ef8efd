/* The headers of QEMU that the device needs, in QEMU 10.0 and later, in which some have moved. */
#ifndef RVIOMMU_QEMU_H
#define RVIOMMU_QEMU_H

#if __has_include("hw/core/irq.h")
#include "hw/core/boards.h"
#include "hw/core/irq.h"
#include "hw/core/qdev-properties.h"
#else
#include "hw/boards.h"
#include "hw/irq.h"
#include "hw/qdev-properties.h"
#endif
#if __has_include("system/memory.h")
#include "system/address-spaces.h"
#include "system/memory.h"
#else
#include "exec/address-spaces.h"
#include "exec/memory.h"
#endif
#include "hw/pci/pci.h"
#include "hw/pci/pci_bus.h"
#include "migration/vmstate.h"
#include "qapi/error.h"
#include "qemu/error-report.h"
#include "qemu/main-loop.h"
#include "qemu/module.h"
#include "qom/object.h"
#include "system/reset.h"
#include "system/system.h"

/* The second argument of class_init, which became const in 10.1. */
#if QEMU_VERSION_MAJOR > 10 || (QEMU_VERSION_MAJOR == 10 && QEMU_VERSION_MINOR >= 1)
#define RVIOMMU_CLASS_DATA const void *data
#else
#define RVIOMMU_CLASS_DATA void *data
#endif

#endif
