/* Measures the stack use of each function of the library: the bytes below the caller's stack pointer at the call instruction, the return
 * address included.
 *
 * Each call is made on its own stack, filled with a pattern, on which only `perform` and the function run. The stack pointer is recorded
 * on entry to the function, so all of `perform` lies above it: its frame, the room for the answer, and the arguments on the stack. The
 * deepest byte without the pattern shows how far the function went. A function of known depth is measured first, to check the method.
 *
 * The table has the greatest use over all calls of a function: with 0 and with 512 trades held, and along the longest paths: a limit state
 * that ends and begins again, a trade that moves the reference into one, trades that leave, and windows that are emptied. */
#include <stdio.h>
#include <stdlib.h>
#include <string.h>

#include "sumpheron.h"

enum { SIZE = 1 << 16, PATTERN = 0xa5, STOCKS = SUMPHERON_MOST_STOCKS, HELD = SUMPHERON_PLACES };
enum { END = 23400000, NOON = 1000000, PRICE = 100000 };
enum function { KNOWN, VERSION, SETUP, SETTLE, READ, NEXT, TOTALS, TRADE, QUOTE, OPENING, PAUSE, REOPENING, CLOSING, FUNCTIONS };

/* ---------------------------------------------------------------- entry to a function */

typedef void routine(void);

/* Calls a routine on the stack that ends at `top`. */
void elsewhere(routine *called, unsigned char *top);
/* `through` stores the stack pointer in `entry` and jumps to `target` with all arguments unchanged. */
routine *target;
unsigned char *entry;
/* Writes one byte, KNOWN_BYTES below the call, and returns nothing. It is called like the function with the most arguments. */
routine known;
enum { KNOWN_BYTES = 1000 };

#if defined __x86_64__
enum { PUSHED_BY_CALL = 8 };
__asm__(".text; .globl elsewhere, through, known\n"
        "elsewhere: push %rbx; mov %rsp, %rbx; mov %rsi, %rsp; call *%rdi; mov %rbx, %rsp; pop %rbx; ret\n"
        "through: mov %rsp, entry(%rip); jmp *target(%rip)\n"
        "known: mov %rdi, %rax; sub $992, %rsp; movb $0, (%rsp); add $992, %rsp; ret\n");
#elif defined __aarch64__
enum { PUSHED_BY_CALL = 0 };
__asm__(".text; .globl elsewhere, through, known\n"
        "elsewhere: stp x29, x30, [sp, #-16]!; mov x29, sp; mov sp, x1; blr x0; mov sp, x29; ldp x29, x30, [sp], #16; ret\n"
        "through: mov x17, sp; adrp x16, entry; str x17, [x16, #:lo12:entry]\n"
        "    adrp x16, target; ldr x16, [x16, #:lo12:target]; br x16\n"
        "known: sub sp, sp, #1008; strb wzr, [sp, #8]; add sp, sp, #1008; ret\n");
#else
#error "neither x86-64 nor 64-bit Arm"
#endif

/* `through`, with the type of each function. */
#define THROUGH(name, type) extern __typeof__(sumpheron_##type) through_##name __asm__("through")
THROUGH(known, quote);
THROUGH(version, version);
THROUGH(setup, setup);
THROUGH(settle, settle);
THROUGH(read, read);
THROUGH(next, next);
THROUGH(totals, totals);
THROUGH(trade, trade);
THROUGH(quote, quote);
THROUGH(opening, opening);
THROUGH(pause, pause);
THROUGH(reopening, reopening);
THROUGH(closing, closing);

static const struct { const char *name; routine *code; } functions[FUNCTIONS] = {
    [KNOWN] = {"known", known},
    [VERSION] = {"version", (routine *)sumpheron_version},
    [SETUP] = {"setup", (routine *)sumpheron_setup},
    [SETTLE] = {"settle", (routine *)sumpheron_settle},
    [READ] = {"read", (routine *)sumpheron_read},
    [NEXT] = {"next", (routine *)sumpheron_next},
    [TOTALS] = {"totals", (routine *)sumpheron_totals},
    [TRADE] = {"trade", (routine *)sumpheron_trade},
    [QUOTE] = {"quote", (routine *)sumpheron_quote},
    [OPENING] = {"opening", (routine *)sumpheron_opening},
    [PAUSE] = {"pause", (routine *)sumpheron_pause},
    [REOPENING] = {"reopening", (routine *)sumpheron_reopening},
    [CLOSING] = {"closing", (routine *)sumpheron_closing},
};

/* ---------------------------------------------------------------- a call */

static long most[FUNCTIONS];

static struct sumpheron_record book[STOCKS];
static uint32_t times[STOCKS * HELD], prices[STOCKS * HELD], setups[STOCKS * SUMPHERON_SETUP_NUMBERS];

/* The call to be made and the number that it answers. They are globals since a routine takes and returns nothing. */
static struct { enum function function; uint32_t time, participant, price; } call;
static uint32_t number;
static unsigned char stack[SIZE] __attribute__((aligned(64)));

#define BOOK SUMPHERON_BOOK(book, STOCKS, times, prices)

static void perform(void)
{
    switch (call.function) {
    case KNOWN: number = through_known(BOOK, 0, 0, 0, 0, 0).number; break;
    case VERSION: number = through_version(); break;
    case SETUP: number = through_setup(BOOK, END, setups, STOCKS * SUMPHERON_SETUP_NUMBERS).number; break;
    case SETTLE: number = through_settle(BOOK, 0, call.time).answer.number; break;
    case READ: number = through_read(BOOK, 0).number; break;
    case NEXT: number = through_next(BOOK, 0).number; break;
    case TOTALS: number = through_totals(BOOK, 0).number; break;
    case TRADE: number = through_trade(BOOK, 0, call.time, call.price).number; break;
    case QUOTE: number = through_quote(BOOK, 0, call.time, call.participant, 0, call.price).number; break;
    case OPENING: number = through_opening(BOOK, 0, call.time, call.participant, call.price).number; break;
    case PAUSE: number = through_pause(BOOK, 0, call.time, call.participant).number; break;
    case REOPENING: number = through_reopening(BOOK, 0, call.time, call.participant, call.price).number; break;
    case CLOSING: number = through_closing(BOOK, 0, call.time, call.participant, call.price).number; break;
    case FUNCTIONS: break;
    }
}

static void fail(const char *why)
{
    fprintf(stderr, "stack: %s\n", why);
    exit(1);
}

/* Makes the call on a filled stack, and records how deep it went. */
static uint32_t measure(void)
{
    memset(stack, PATTERN, SIZE);
    target = functions[call.function].code;
    elsewhere(perform, stack + SIZE);
    const unsigned char *deepest = stack;
    while (*deepest == PATTERN)
        deepest++;
    if (deepest == stack)
        fail("the stack is too small");
    long taken = entry + PUSHED_BY_CALL - deepest;
    if (taken > most[call.function])
        most[call.function] = taken;
    return number;
}

/* ---------------------------------------------------------------- the calls */

/* Makes a call that must be done and must leave the first stock in this state. */
static void run(enum function function, uint32_t time, uint32_t price, uint32_t state)
{
    call.function = function, call.time = time, call.price = price;
    if (measure() != SUMPHERON_DONE || book[0].state != state) {
        fprintf(stderr, "%s at %u answered %u, state %u\n", functions[function].name, time, number, book[0].state);
        exit(1);
    }
}

static void offer(uint32_t time, uint32_t participant, uint32_t price, uint32_t state)
{
    call.participant = participant;
    run(QUOTE, time, price, state);
    call.participant = 0;
}

static void settle(uint32_t time)
{
    call.function = SETTLE, call.time = time;
    while (measure() == SUMPHERON_DONE)
        ;
}

/* Sets up, opens the first stock, and makes this many trades, the first at this time. The clock is then `time + held - 1`. */
static void prepare(uint32_t time, uint32_t held, uint32_t price)
{
    run(SETUP, 0, 0, SUMPHERON_WAITING);
    run(OPENING, 1000, PRICE, SUMPHERON_TRADING);
    settle(time);
    for (uint32_t i = 0; i < held; i++)
        run(TRADE, time + i, price, SUMPHERON_TRADING);
    run(READ, 0, 0, SUMPHERON_TRADING);
    run(NEXT, 0, 0, SUMPHERON_TRADING);
    run(TOTALS, 0, 0, SUMPHERON_TRADING);
}

/* An offer at the lower band of the reference 100,000, while another stands at that of 99,500, the trades' mean. */
static void limits(uint32_t held)
{
    prepare(NOON, held, 99500);
    offer(NOON + held, 1, 94500, SUMPHERON_TRADING);
    offer(NOON + held, 0, 95000, SUMPHERON_LIMIT);
    offer(NOON + held, 0, 0, held ? SUMPHERON_LIMIT : SUMPHERON_TRADING);
    settle(NOON + held + 700000);
}

/* A trade that moves the mean by one percent, while an offer stands at the lower band that follows; then the trades leave at once. */
static void moved(void)
{
    prepare(NOON, HELD - 1, 100995);
    offer(NOON + HELD, 0, 96000, SUMPHERON_TRADING);
    run(TRADE, NOON + HELD, 105000, SUMPHERON_LIMIT);
    for (uint32_t i = 0; i < HELD; i++)
        times[i] = NOON;
    settle(NOON + HELD + 700000);
}

/* The first reference, by the moment f and by an opening, with a full window. */
static void opened(uint32_t held)
{
    for (int by_opening = 0; by_opening < 2; by_opening++) {
        run(SETUP, 0, 0, SUMPHERON_WAITING);
        offer(1000, 0, 90000, SUMPHERON_WAITING);
        for (uint32_t i = 0; i < held; i++)
            run(TRADE, 1000, PRICE, SUMPHERON_WAITING);
        if (by_opening)
            run(OPENING, 1000, PRICE, SUMPHERON_LIMIT);
        else
            settle(300000);
    }
}

/* A pause while a side has flag 2, and the ends of pauses. The test writes these pauses into the record, so that they end while trades are held. */
static void paused(uint32_t held)
{
    prepare(NOON, held, PRICE);
    offer(NOON + held, 0, 2 * PRICE, SUMPHERON_TRADING);
    run(PAUSE, NOON + held, 0, SUMPHERON_PAUSED);
    book[0].pause_start = NOON + held - 300000;
    offer(NOON + held, 0, 90000, SUMPHERON_PAUSED);
    run(REOPENING, NOON + held, 94700, SUMPHERON_LIMIT);
    prepare(END - 1000, held, PRICE);
    book[0].state = SUMPHERON_LATE_PAUSE;
    run(CLOSING, END, PRICE, SUMPHERON_CLOSED);
    prepare(END - 1000, held, PRICE);
    settle(END);
}

static void check_measure(void)
{
    call.function = KNOWN;
    measure();
    if (most[KNOWN] != KNOWN_BYTES)
        fail("a function with a known stack is measured wrongly");
}

static void check_version(void)
{
    call.function = VERSION;
    if (measure() != SUMPHERON_VERSION)
        fail("the library is of another version");
}

static void print_table(void)
{
    puts("| function | stack, bytes |\n|---|---|");
    for (int function = VERSION; function < FUNCTIONS; function++)
        printf("| %s | %ld |\n", functions[function].name, most[function]);
#ifndef __x86_64__
    puts("\nEach but version and next has the frame of a C function around the library's (tools/around.py), which the library for x86-64 does not have.");
#endif
}

int main(void)
{
    for (int stock = 0; stock < STOCKS; stock++)
        memcpy(setups + SUMPHERON_SETUP_NUMBERS * stock, (uint32_t[]){1, 1, 0, PRICE}, sizeof(uint32_t[SUMPHERON_SETUP_NUMBERS]));
    check_measure();
    check_version();
    for (uint32_t held = 0; held <= HELD; held += HELD)
        limits(held), opened(held), paused(held);
    moved();
    print_table();
}
