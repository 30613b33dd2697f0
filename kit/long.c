/* Shifts and division of 64 bits, which gcc calls by these names. Debian's libgcc for MIPS has them for
 * later processors alone.
 */
#include "s2.h"

union halves {
    uint64_t whole;
    struct {
        uint32_t high, low;
    } half;
};

uint64_t __ashldi3(uint64_t value, int count);
uint64_t __lshrdi3(uint64_t value, int count);
int64_t __ashrdi3(int64_t value, int count);
uint64_t __udivdi3(uint64_t dividend, uint64_t divisor);
uint64_t __umoddi3(uint64_t dividend, uint64_t divisor);
int64_t __divdi3(int64_t dividend, int64_t divisor);
int64_t __moddi3(int64_t dividend, int64_t divisor);

uint64_t __ashldi3(uint64_t value, int count)
{
    union halves from = { value }, to;

    if (count == 0)
        return value;
    if (count >= 32) {
        to.half.high = from.half.low << (count - 32);
        to.half.low = 0;
    } else {
        to.half.high = from.half.high << count | from.half.low >> (32 - count);
        to.half.low = from.half.low << count;
    }
    return to.whole;
}

uint64_t __lshrdi3(uint64_t value, int count)
{
    union halves from = { value }, to;

    if (count == 0)
        return value;
    if (count >= 32) {
        to.half.high = 0;
        to.half.low = from.half.high >> (count - 32);
    } else {
        to.half.high = from.half.high >> count;
        to.half.low = from.half.low >> count | from.half.high << (32 - count);
    }
    return to.whole;
}

int64_t __ashrdi3(int64_t value, int count)
{
    uint64_t bits = __lshrdi3((uint64_t)value, count);

    if (value < 0 && count)
        bits |= __ashldi3(~(uint64_t)0, 64 - count);
    return (int64_t)bits;
}

/* A bit of the quotient a turn; the rest stays below the divisor. A division by zero breaks, as in gcc's own
 * division of 32 bits.
 */
static uint64_t divide(uint64_t dividend, uint64_t divisor, uint64_t *rest)
{
    uint64_t quotient = 0, part = 0;

    if (divisor == 0)
        __asm__ volatile("break 7");
    for (int bit = 63; bit >= 0; bit--) {
        int carry = (int64_t)part < 0;

        part = part << 1 | (__lshrdi3(dividend, bit) & 1);
        quotient <<= 1;
        if (carry || part >= divisor) {
            part -= divisor;
            quotient |= 1;
        }
    }
    *rest = part;
    return quotient;
}

static uint64_t magnitude(int64_t value)
{
    return value < 0 ? -(uint64_t)value : (uint64_t)value;
}

uint64_t __udivdi3(uint64_t dividend, uint64_t divisor)
{
    uint64_t rest;

    return divide(dividend, divisor, &rest);
}

uint64_t __umoddi3(uint64_t dividend, uint64_t divisor)
{
    uint64_t rest;

    divide(dividend, divisor, &rest);
    return rest;
}

int64_t __divdi3(int64_t dividend, int64_t divisor)
{
    uint64_t rest, quotient = divide(magnitude(dividend), magnitude(divisor), &rest);

    return (int64_t)((dividend < 0) != (divisor < 0) ? -quotient : quotient);
}

int64_t __moddi3(int64_t dividend, int64_t divisor)
{
    uint64_t rest;

    divide(magnitude(dividend), magnitude(divisor), &rest);
    return (int64_t)(dividend < 0 ? -rest : rest);
}
