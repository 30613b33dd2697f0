/* The machine s2 for a program in C: its devices, its interrupts and its exceptions.
 *
 * A device register is outside the processor: each load and store of one is voted, so it takes as long as
 * the slowest of the three processors needs to come to it. docs/MACHINE.md tells what the devices do.
 */
#ifndef S2_H
#define S2_H

#include <stddef.h>
#include <stdint.h>

/* Data in global memory, which is voted and stands on two boards. All other data is local to a processor. */
#define VOTED __attribute__((section(".voted")))

/* The end of the run, with a word that the report shows. The value of main is halted with. */
_Noreturn void halt(uint32_t value);

/* The console. */
void console_byte(int byte);              /* its low eight bits */
void console_text(const char *text);      /* up to its zero */
void console_number(uint32_t number);     /* decimal */
void console_word(uint32_t word);         /* eight hexadecimal digits */

/* The keyboard, in which at most 16 bytes wait; a key that comes then is dropped and is an overrun. */
int key_next(void);                       /* the oldest waiting byte, which is taken, or -1 */
unsigned keys_waiting(void);
int keys_overrun(void);                   /* whether a key was dropped since the overrun was cleared */
void keys_overrun_clear(void);

/* The timer, whose ticks come from the script. */
uint32_t timer_ticks(void);               /* modulo 2^32 */
void timer_acknowledge(void);             /* lowers the timer's line */

/* The private-write area. Each processor's private value is the number of its clock's firings, modulo 256, and is
 * compared with nobody's. private_publish has each processor that takes part in it put its own value into its
 * slot; it has a line in the report. All processors then find the same numbers in the slots: where one took no
 * part, and before the first private_publish, NO_PRIVATE_VALUE.
 */
#define NO_PRIVATE_VALUE 256u
void private_publish(void);
uint32_t private_value(unsigned processor);   /* what stands in the slot of processor 0, 1 or 2 */

/* Interrupts. A handler is called once for each byte, or once where ticks have come, with interrupts off;
 * the byte has been taken, or the timer's line lowered, by then. Without a handler (0, as at the start) the
 * device interrupts nothing. No interrupt comes before interrupts_on().
 */
void on_key(void (*handler)(int byte));
void on_tick(void (*handler)(void));
void interrupts_on(void);
int interrupts_off(void);                 /* whether they were on */

/* Waits for the next interrupt, and returns when its handlers have: condition is called with interrupts
 * off, and the wait ends once it is not 0, at once where it is that already.
 */
void wait_until(int (*condition)(void));

/* Exceptions. The number of each is that of the manual. */
enum {
    EXCEPTION_INTERRUPT = 0,
    EXCEPTION_MODIFIED = 1,               /* a store to a page that may not be written */
    EXCEPTION_MISS_LOAD = 2,              /* no valid translation for a load or a fetch */
    EXCEPTION_MISS_STORE = 3,
    EXCEPTION_ADDRESS_LOAD = 4,           /* an address that is not aligned, or not the program's */
    EXCEPTION_ADDRESS_STORE = 5,
    EXCEPTION_BUS_FETCH = 6,              /* nothing is there */
    EXCEPTION_BUS_DATA = 7,
    EXCEPTION_SYSCALL = 8,
    EXCEPTION_BREAK = 9,                  /* also what gcc has for a division by zero */
    EXCEPTION_RESERVED = 10,              /* a word that is no instruction */
    EXCEPTION_COPROCESSOR = 11,
    EXCEPTION_OVERFLOW = 12,
    EXCEPTIONS = 13
};

/* What an exception found. What a handler writes here the program goes on with. */
struct exception_frame {
    uint32_t registers[32];               /* registers[0] is not used */
    uint32_t hi, lo;
    uint32_t status, cause, bad_address;  /* as the exception left them */
    uint32_t place;                       /* where the program goes on: the instruction itself, or the
                                             branch in whose delay slot it stands */
};

/* Has a handler called at exceptions of this number, with interrupts off; 0 takes it away. A handler for
 * number 0 has the interrupts to itself: on_key and on_tick are then without effect. At an exception that
 * has no handler the program prints a line that names it, and halts with 0xE0000000 + its number.
 */
void on_exception(unsigned number, void (*handler)(struct exception_frame *frame));

/* Coprocessor 0, by the numbers of its registers. */
#define COPROCESSOR0_READ(number) __extension__({ \
    uint32_t word_; \
    __asm__ volatile("mfc0 %0, $" #number "\n\tnop" : "=r"(word_)); \
    word_; })
#define COPROCESSOR0_WRITE(number, word) \
    __asm__ volatile("mtc0 %0, $" #number : : "r"((uint32_t)(word)) : "memory")

/* Memory that nobody uses yet, in multiples of 8 bytes, or 0 where it is short of the room that is kept for
 * the stack, 64 KiB. It is never given back.
 */
void *memory_take(size_t size);

/* What gcc may call by itself. */
void *memcpy(void *restrict to, const void *restrict from, size_t size);
void *memmove(void *to, const void *from, size_t size);
void *memset(void *to, int byte, size_t size);
int memcmp(const void *one, const void *other, size_t size);
size_t strlen(const char *text);

#endif
