/* Sums against the clock. A sum is asked, its answer is typed and ends with a line feed, and the time is five
 * ticks of the timer. The program halts with the number of right answers.
 *
 * Keys and ticks come as interrupts, and their handlers leave what the main program waits for. The number of
 * right answers stands in global memory, where it is voted and kept on two boards.
 */
#include "s2.h"

enum { SUMS = 4, TIME = 5 };

static volatile uint32_t answer;
static volatile int complete, ticks_left;
static VOTED uint32_t right;

static void key(int byte)
{
    if (complete || ticks_left == 0)
        return;
    console_byte(byte);
    if (byte == '\n')
        complete = 1;
    else if (byte >= '0' && byte <= '9')
        answer = answer * 10 + (uint32_t)(byte - '0');
}

static void tick(void)
{
    if (ticks_left)
        ticks_left--;
}

static int over(void)
{
    return complete || ticks_left == 0;
}

/* A number from 2 to 9. */
static uint32_t number(void)
{
    static uint32_t seed = 3;

    seed = seed * 1664525 + 1013904223;
    return 2 + (seed >> 29);
}

/* Asks for a product, and says whether it was given in time. */
static int ask(void)
{
    uint32_t one = number(), other = number();

    console_number(one);
    console_text(" * ");
    console_number(other);
    console_text(" = ");
    answer = 0;
    complete = 0;
    ticks_left = TIME;
    wait_until(over);
    if (!complete) {
        console_text("\ntoo late\n");
        return 0;
    }
    console_text(answer == one * other ? "right, with " : "wrong, with ");
    console_number((uint32_t)ticks_left);
    console_text(" ticks left\n");
    return answer == one * other;
}

int main(void)
{
    on_key(key);
    on_tick(tick);
    interrupts_on();
    for (int sum = 0; sum < SUMS; sum++)
        right += (uint32_t)ask();
    console_number(right);
    console_text(" right\n");
    return (int)right;
}
