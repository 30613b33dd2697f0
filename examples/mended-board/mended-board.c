/* A bank of sixteen accounts in global memory, one in each sixteenth of it. On each of twenty days money goes from
 * account to account, and a line says what they have together, which never changes. The program halts with how
 * many lines were wrong.
 */
#include "s2.h"

enum { ACCOUNTS = 16, DAYS = 20, FIRST_SUM = 100, ROUNDS = 12000 };
#define GLOBAL ((volatile uint32_t *)0x84000000)
#define WORDS_APART 16384

static volatile uint32_t *account(unsigned number)
{
    return GLOBAL + WORDS_APART * number;
}

/* The night, in which nothing is asked of global memory. */
static void sleep(void)
{
    for (unsigned i = 0; i < ROUNDS; i++)
        __asm__ volatile("");
}

static void pay(unsigned from, unsigned to, uint32_t sum)
{
    *account(from) -= sum;
    *account(to) += sum;
}

static uint32_t sum_of_all(void)
{
    uint32_t sum = 0;

    for (unsigned i = 0; i < ACCOUNTS; i++)
        sum += *account(i);
    return sum;
}

int main(void)
{
    int wrong = 0;

    for (unsigned i = 0; i < ACCOUNTS; i++)
        *account(i) = FIRST_SUM;
    for (unsigned day = 1; day <= DAYS; day++) {
        sleep();
        for (unsigned i = 0; i < ACCOUNTS; i++)
            pay(i, (i + day) % ACCOUNTS, (7 * day + i) % 13);
        console_text("day ");
        console_number(day);
        console_text(": ");
        console_number(sum_of_all());
        console_text(", of which account 15 has ");
        console_number(*account(15));
        console_byte('\n');
        wrong += sum_of_all() != ACCOUNTS * FIRST_SUM;
    }
    return wrong;
}
