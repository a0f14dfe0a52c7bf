// A caller without a C library: what oratjolet asks of whoever links it is memcpy and memset, which stand here, and nothing else.
#include "../../include/oratjolet.h"

void *memcpy(void *restrict to, const void *restrict from, size_t n)
{
    for (size_t i = 0; i < n; i++)
        ((unsigned char *)to)[i] = ((const unsigned char *)from)[i];
    return to;
}

void *memset(void *to, int byte, size_t n)
{
    for (size_t i = 0; i < n; i++)
        ((unsigned char *)to)[i] = (unsigned char)byte;
    return to;
}

// One table of two columns, whose key and second column are listed, with rooms for four rows; two rows of it
static const uint64_t sheet[] = {1, 0, 0, 2, 2, 0, 0, 0, 1, 4, 4}, base[] = {2, 7, 1, 9, 2}, row[] = {8, 3};
static struct oratjolet_answer answer;
static uint64_t store[64];

// All four calls, so that all of the library is linked: 0 if each is accepted
static uint64_t calls(void)
{
    uint64_t taken, added, first, count;
    size_t words = sizeof sheet / sizeof *sheet;
    uint64_t number = oratjolet_plan(sheet, words, &answer);
    if (number == 0)
        number = oratjolet_fill(sheet, words, base, sizeof base / sizeof *base, store, answer.store, &taken, &added);
    if (number == 0)
        number = oratjolet_change(sheet, words, store, answer.store, 1, 0, row, 0, row, 2, &taken, &added);
    if (number == 0)
        number = oratjolet_show(sheet, words, store, answer.store, 1, &first, &count);
    return number;
}

__attribute__((force_align_arg_pointer)) void _start(void)
{
    uint64_t number = calls();
    __asm__ volatile("syscall" : : "a"(60), "D"(number) : "memory");
    __builtin_unreachable();
}
