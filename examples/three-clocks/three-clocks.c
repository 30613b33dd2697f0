/* Tells how far the clocks of the three processors are apart. In each of eight rounds the processors publish how
 * often their clocks have fired, modulo 256, and the program prints the three numbers and how far they are apart.
 */
#include "s2.h"

enum { ROUNDS = 8, PROCESSORS = 3, WORK = 40 };

static void work(void)
{
    for (unsigned i = 0; i < WORK; i++)
        __asm__ volatile("");
}

/* How far the published numbers are apart. They are taken modulo 256, so as differences to the first of them. */
static int spread(void)
{
    uint32_t first = NO_PRIVATE_VALUE;
    int least = 0, most = 0;

    for (unsigned i = 0; i < PROCESSORS; i++) {
        uint32_t number = private_value(i);
        int ahead;

        if (number == NO_PRIVATE_VALUE)
            continue;
        if (first == NO_PRIVATE_VALUE)
            first = number;
        ahead = (int)((number - first + 128) % 256) - 128;
        least = ahead < least ? ahead : least;
        most = ahead > most ? ahead : most;
    }
    return most - least;
}

int main(void)
{
    for (unsigned round = 0; round < ROUNDS; round++) {
        work();
        private_publish();
        for (unsigned i = 0; i < PROCESSORS; i++) {
            console_number(private_value(i));
            console_byte(' ');
        }
        console_text("apart ");
        console_number((uint32_t)spread());
        console_byte('\n');
    }
    return 0;
}
