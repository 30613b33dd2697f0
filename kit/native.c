/* The functions of s2.h on this computer, so that a program can be tried before it runs on the machine. The
 * console is standard output. Ticks and keys are the lines `tick` and `key HH` of the script on standard
 * input; its other lines are skipped. The next one comes where the program waits in wait_until, or in key_next
 * where no byte waits; the program ends with status 0 where it waits for one more than there are. Exceptions
 * do not come.
 */
#include <stdio.h>
#include <stdlib.h>
#include <string.h>

#include "s2.h"

#define ROOM 16

static unsigned char keys[ROOM];
static unsigned waiting;
static int overrun, timer_line, enabled;
static uint32_t ticks;
static void (*key_handler)(int byte);
static void (*tick_handler)(void);

void halt(uint32_t value)
{
    exit(value & 255);
}

void console_byte(int byte)
{
    putchar(byte & 255);
}

void console_text(const char *text)
{
    fputs(text, stdout);
}

void console_number(uint32_t number)
{
    printf("%lu", (unsigned long)number);
}

void console_word(uint32_t word)
{
    printf("%08lx", (unsigned long)word);
}

/* Here is one processor, whose clock nobody counts. */
static uint32_t published = NO_PRIVATE_VALUE;

void private_publish(void)
{
    published = 0;
}

uint32_t private_value(unsigned processor)
{
    return processor == 0 ? published : NO_PRIVATE_VALUE;
}

/* The script's next event. */
static void event_next(void)
{
    char line[256];
    unsigned byte;

    while (fgets(line, sizeof line, stdin)) {
        if (sscanf(line, "key %2x", &byte) == 1) {
            if (waiting == ROOM)
                overrun = 1;
            else
                keys[waiting++] = (unsigned char)byte;
            return;
        }
        if (strcmp(line, "tick\n") == 0 || strcmp(line, "tick") == 0) {
            ticks++;
            timer_line = 1;
            return;
        }
    }
    exit(0);
}

static int key_take(void)
{
    int byte = keys[0];

    if (waiting == 0)
        return -1;
    memmove(keys, keys + 1, --waiting);
    return byte;
}

int key_next(void)
{
    if (waiting == 0)
        event_next();
    return key_take();
}

unsigned keys_waiting(void)
{
    return waiting;
}

int keys_overrun(void)
{
    return overrun;
}

void keys_overrun_clear(void)
{
    overrun = 0;
}

uint32_t timer_ticks(void)
{
    return ticks;
}

void timer_acknowledge(void)
{
    timer_line = 0;
}

/* Calls the handlers of what is up, where interrupts are on. */
static void interrupts_serve(void)
{
    if (!enabled)
        return;
    enabled = 0;
    while (key_handler && waiting)
        key_handler(key_take());
    if (tick_handler && timer_line) {
        timer_acknowledge();
        tick_handler();
    }
    enabled = 1;
}

void on_key(void (*handler)(int byte))
{
    key_handler = handler;
    interrupts_serve();
}

void on_tick(void (*handler)(void))
{
    tick_handler = handler;
    interrupts_serve();
}

void interrupts_on(void)
{
    enabled = 1;
    interrupts_serve();
}

int interrupts_off(void)
{
    int before = enabled;

    enabled = 0;
    return before;
}

void wait_until(int (*condition)(void))
{
    int before = interrupts_off();

    while (!condition()) {
        event_next();
        interrupts_on();
        interrupts_off();
    }
    if (before)
        interrupts_on();
}

void on_exception(unsigned number, void (*handler)(struct exception_frame *frame))
{
    (void)number;
    (void)handler;
}

void *memory_take(size_t size)
{
    return calloc(1, size);
}
