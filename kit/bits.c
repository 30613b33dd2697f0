/* Counts of bits and orders of bytes, which gcc calls by these names where a program uses its builtins. */
#include "s2.h"

int __clzsi2(uint32_t value);
int __ctzsi2(uint32_t value);
int __ffssi2(uint32_t value);
int __clrsbsi2(int32_t value);
int __popcountsi2(uint32_t value);
int __paritysi2(uint32_t value);
uint32_t __bswapsi2(uint32_t value);
int __clzdi2(uint64_t value);
int __ctzdi2(uint64_t value);
int __ffsdi2(uint64_t value);
int __clrsbdi2(int64_t value);
int __popcountdi2(uint64_t value);
int __paritydi2(uint64_t value);
uint64_t __bswapdi2(uint64_t value);

static uint32_t high(uint64_t value)
{
    return (uint32_t)(value >> 32);
}

int __clzsi2(uint32_t value)
{
    int count = 0;

    for (uint32_t bit = 0x80000000u; bit && !(value & bit); bit >>= 1)
        count++;
    return count;
}

int __ctzsi2(uint32_t value)
{
    int count = 0;

    for (uint32_t bit = 1; bit && !(value & bit); bit <<= 1)
        count++;
    return count;
}

int __ffssi2(uint32_t value)
{
    return value ? __ctzsi2(value) + 1 : 0;
}

int __clrsbsi2(int32_t value)
{
    return __clzsi2((uint32_t)(value < 0 ? ~value : value)) - 1;
}

int __popcountsi2(uint32_t value)
{
    int count = 0;

    for (int bit = 0; bit < 32; bit++)
        count += value >> bit & 1;
    return count;
}

int __paritysi2(uint32_t value)
{
    return __popcountsi2(value) & 1;
}

uint32_t __bswapsi2(uint32_t value)
{
    return value << 24 | (value & 0xFF00) << 8 | (value >> 8 & 0xFF00) | value >> 24;
}

int __clzdi2(uint64_t value)
{
    return high(value) ? __clzsi2(high(value)) : 32 + __clzsi2((uint32_t)value);
}

int __ctzdi2(uint64_t value)
{
    return (uint32_t)value ? __ctzsi2((uint32_t)value) : 32 + __ctzsi2(high(value));
}

int __ffsdi2(uint64_t value)
{
    return value ? __ctzdi2(value) + 1 : 0;
}

int __clrsbdi2(int64_t value)
{
    return __clzdi2((uint64_t)(value < 0 ? ~value : value)) - 1;
}

int __popcountdi2(uint64_t value)
{
    return __popcountsi2(high(value)) + __popcountsi2((uint32_t)value);
}

int __paritydi2(uint64_t value)
{
    return __popcountdi2(value) & 1;
}

uint64_t __bswapdi2(uint64_t value)
{
    return (uint64_t)__bswapsi2((uint32_t)value) << 32 | __bswapsi2(high(value));
}
