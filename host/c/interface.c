/* SPDX-License-Identifier: MIT */
/*
 * The archive's interface has the number that is in its name. With WAYLLUQEN_LAYOUTS_ONLY there is no
 * interface, and the program needs no archive.
 */
#include <stdio.h>
#include <string.h>

#include "waylluqen.h"

#define TEXT_OF(name) TEXT(name)
#define TEXT(name) #name

int main(void)
{
#ifdef WAYLLUQEN_LAYOUTS_ONLY
    return WAYLLUQEN_TABLE_WORDS(2) == 8 && WAYLLUQEN_RANGE_LIST_WORDS(2) == 4 &&
                   WAYLLUQEN_ENTRY_LIST_WORDS(2 * WAYLLUQEN_PAGE_SIZE) == 6
               ? 0
               : 1;
#else
    char name[64];
    snprintf(name, sizeof name, "waylluqen_interface_%u", (unsigned)WAYLLUQEN_INTERFACE());
    return strcmp(name, TEXT_OF(WAYLLUQEN_INTERFACE)) == 0 ? 0 : 1;
#endif
}
