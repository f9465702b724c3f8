/* Which characters a message shows as they are, for PostgreSQL and SQLite. */
#ifndef PRINTABLE_H
#define PRINTABLE_H

#include <stdbool.h>
#include <stddef.h>
#include <stdint.h>

/* Not those that Unicode calls controls (Cc), White_Space or Default_Ignorable_Code_Point, but for the tab and the space, and not
 * the marks of annotations (U+FFF9 to U+FFFB). */
static inline bool is_printable(uint32_t c) {
    static const uint32_t others[][2] = {
        {0x0, 0x8},       {0xA, 0x1F},        {0x7F, 0xA0},       {0xAD, 0xAD},      {0x34F, 0x34F},   {0x61C, 0x61C},
        {0x115F, 0x1160}, {0x1680, 0x1680},   {0x17B4, 0x17B5},   {0x180B, 0x180F},  {0x2000, 0x200F}, {0x2028, 0x202F},
        {0x205F, 0x206F}, {0x3000, 0x3000},   {0x3164, 0x3164},   {0xFE00, 0xFE0F},  {0xFEFF, 0xFEFF}, {0xFFA0, 0xFFA0},
        {0xFFF0, 0xFFFB}, {0x1BCA0, 0x1BCA3}, {0x1D173, 0x1D17A}, {0xE0000, 0xE0FFF}};
    for (size_t i = 0; i < sizeof others / sizeof *others; i++)
        if (c >= others[i][0] && c <= others[i][1]) return false;
    return true;
}

#endif
