/* SPDX-License-Identifier: MIT */
/* What the header's test uses of the kernel's own linux/stddef.h. */
#ifndef KERNEL_LINUX_STDDEF_H
#define KERNEL_LINUX_STDDEF_H

#define offsetof(type, member) __builtin_offsetof(type, member)

#endif
