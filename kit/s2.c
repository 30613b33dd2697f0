/* The devices, the interrupts and the exceptions of the machine, by the functions of s2.h. */
#include "s2.h"

enum { CONOUT, CONIN, CONSTAT, TICKS, TIMACK, HALT, PRIV, PRIV0 };
#define DEVICES ((volatile uint32_t *)0xBF000000)
#define NO_KEY 0x100u
#define OVERRUN 0x80000000u

#define STATUS_ENABLED 0x00000001u
#define LINE_KEY 0x00000400u
#define LINE_TIMER 0x00000800u

static void (*key_handler)(int byte);
static void (*tick_handler)(void);
static void (*handlers[EXCEPTIONS])(struct exception_frame *frame);

void halt(uint32_t value)
{
    for (;;)
        DEVICES[HALT] = value;
}

void console_byte(int byte)
{
    DEVICES[CONOUT] = (uint32_t)byte;
}

void console_text(const char *text)
{
    while (*text)
        console_byte(*text++);
}

void console_number(uint32_t number)
{
    char digits[10];
    int count = 0;

    do
        digits[count++] = (char)('0' + number % 10);
    while (number /= 10);
    while (count)
        console_byte(digits[--count]);
}

void console_word(uint32_t word)
{
    for (int shift = 28; shift >= 0; shift -= 4)
        console_byte("0123456789abcdef"[word >> shift & 15]);
}

int key_next(void)
{
    uint32_t word = DEVICES[CONIN];

    return word == NO_KEY ? -1 : (int)word;
}

unsigned keys_waiting(void)
{
    return DEVICES[CONSTAT] & ~OVERRUN;
}

int keys_overrun(void)
{
    return (DEVICES[CONSTAT] & OVERRUN) != 0;
}

void keys_overrun_clear(void)
{
    DEVICES[CONSTAT] = 0;
}

uint32_t timer_ticks(void)
{
    return DEVICES[TICKS];
}

void timer_acknowledge(void)
{
    DEVICES[TIMACK] = 0;
}

void private_publish(void)
{
    DEVICES[PRIV] = 0;
}

uint32_t private_value(unsigned processor)
{
    return DEVICES[PRIV0 + processor];
}

/* Sets bits of Status, or clears them. */
static void status_change(uint32_t bits, int set)
{
    uint32_t status = COPROCESSOR0_READ(12);

    COPROCESSOR0_WRITE(12, set ? status | bits : status & ~bits);
}

void on_key(void (*handler)(int byte))
{
    int enabled = interrupts_off();

    key_handler = handler;
    status_change(LINE_KEY, handler != NULL);
    if (enabled)
        interrupts_on();
}

void on_tick(void (*handler)(void))
{
    int enabled = interrupts_off();

    tick_handler = handler;
    status_change(LINE_TIMER, handler != NULL);
    if (enabled)
        interrupts_on();
}

void interrupts_on(void)
{
    status_change(STATUS_ENABLED, 1);
}

int interrupts_off(void)
{
    uint32_t status = COPROCESSOR0_READ(12);

    COPROCESSOR0_WRITE(12, status & ~STATUS_ENABLED);
    return (status & STATUS_ENABLED) != 0;
}

void wait_until(int (*condition)(void))
{
    int enabled = interrupts_off();

    while (!condition()) {
        interrupts_on();
        interrupts_off();
    }
    if (enabled)
        interrupts_on();
}

void on_exception(unsigned number, void (*handler)(struct exception_frame *frame))
{
    if (number < EXCEPTIONS)
        handlers[number] = handler;
}

static void interrupts_serve(uint32_t lines)
{
    int byte;

    if (lines & LINE_KEY && key_handler)
        while ((byte = key_next()) >= 0)
            key_handler(byte);
    if (lines & LINE_TIMER && tick_handler) {
        timer_acknowledge();
        tick_handler();
    }
}

static _Noreturn void exception_unknown(unsigned number, const struct exception_frame *frame)
{
    console_text("exception ");
    console_number(number);
    console_text(" at ");
    console_word(frame->place);
    console_text(" address ");
    console_word(frame->bad_address);
    console_byte('\n');
    halt(0xE0000000u + number);
}

/* Called at every exception, by start.S. */
void exception_serve(struct exception_frame *frame);

void exception_serve(struct exception_frame *frame)
{
    unsigned number = frame->cause >> 2 & 15;

    if (number < EXCEPTIONS && handlers[number])
        handlers[number](frame);
    else if (number == EXCEPTION_INTERRUPT)
        interrupts_serve(frame->cause & frame->status);
    else
        exception_unknown(number, frame);
}
