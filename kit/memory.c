/* Memory: what gcc calls by itself, and the room behind the program. */
#include "s2.h"

extern char program_end[], stack_top[];

#define STACK_ROOM 0x10000

/* Four bytes of an object of whatever type. */
typedef uint32_t __attribute__((may_alias)) word;

void *memory_take(size_t size)
{
    static char *next = program_end;
    size_t room = (uintptr_t)stack_top - STACK_ROOM - (uintptr_t)next;
    void *taken = next;

    if (size > room)
        return NULL;
    next += (size + 7) & ~(size_t)7;
    return taken;
}

void *memcpy(void *restrict to, const void *restrict from, size_t size)
{
    unsigned char *target = to;
    const unsigned char *source = from;

    if ((((uintptr_t)target | (uintptr_t)source) & 3) == 0)
        for (; size >= 4; size -= 4, target += 4, source += 4)
            *(word *)target = *(const word *)source;
    while (size--)
        *target++ = *source++;
    return to;
}

void *memmove(void *to, const void *from, size_t size)
{
    unsigned char *target = to;
    const unsigned char *source = from;

    if ((uintptr_t)to <= (uintptr_t)from)
        return memcpy(to, from, size);
    while (size--)
        target[size] = source[size];
    return to;
}

void *memset(void *to, int byte, size_t size)
{
    unsigned char *target = to;
    uint32_t four = (uint32_t)(unsigned char)byte * 0x01010101u;

    if (((uintptr_t)target & 3) == 0)
        for (; size >= 4; size -= 4, target += 4)
            *(word *)target = four;
    while (size--)
        *target++ = (unsigned char)byte;
    return to;
}

int memcmp(const void *one, const void *other, size_t size)
{
    const unsigned char *first = one, *second = other;

    for (; size; size--, first++, second++)
        if (*first != *second)
            return *first - *second;
    return 0;
}

size_t strlen(const char *text)
{
    size_t size = 0;

    while (text[size])
        size++;
    return size;
}
