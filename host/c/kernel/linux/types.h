/* SPDX-License-Identifier: MIT */
/* What the header uses of the kernel's own linux/types.h, as that has it on x86-64. */
#ifndef KERNEL_LINUX_TYPES_H
#define KERNEL_LINUX_TYPES_H

typedef unsigned char uint8_t;
typedef unsigned int uint32_t;
typedef unsigned long long uint64_t;
typedef unsigned long size_t;

#endif
