/* Plays a day of up to 64 stocks through the library: reads it from standard input, settles each stock before each message, and prints
 * the results in the format of docs/RULES.md, "The day program". A malformed line ends the program with status 1. */
#include "sumpheron.h"

#include <ctype.h>
#include <inttypes.h>
#include <stdio.h>
#include <stdlib.h>
#include <string.h>

enum { MOST_NUMBERS = 5 };

/* A line: a letter, and numbers with a space before each. */
struct line {
    char letter;
    int count;
    uint32_t numbers[MOST_NUMBERS];
};

static struct sumpheron_record book[SUMPHERON_MOST_STOCKS];
static uint32_t times[SUMPHERON_MOST_STOCKS * SUMPHERON_PLACES];
static uint32_t prices[SUMPHERON_MOST_STOCKS * SUMPHERON_PLACES];
static size_t stocks;

#define BOOK SUMPHERON_BOOK(book, stocks, times, prices)

/* The number of the last line that was read. */
static unsigned long number;

static void fail(void)
{
    fflush(stdout);
    fprintf(stderr, "day: line %lu is malformed, missing or refused\n", number);
    exit(1);
}

static struct line next_line(void)
{
    char text[128], *at = text + 1;
    struct line line = {0, 0, {0}};
    number++;
    if (!fgets(text, sizeof text, stdin))
        fail();
    line.letter = text[0];
    while (*at == ' ' && line.count < MOST_NUMBERS) {
        char *field = at + 1;
        if (!isdigit((unsigned char)*field))
            fail();
        unsigned long long value = strtoull(field, &at, 10);
        if (value > UINT32_MAX || at - field > 10)
            fail();
        line.numbers[line.count++] = (uint32_t)value;
    }
    if (strcmp(at, "\n") != 0)
        fail();
    return line;
}

static void print(uint32_t stock, uint32_t time, char mark, struct sumpheron_answer a)
{
    printf("%" PRIu32 " %" PRIu32 " %c %" PRIu32 " %" PRIu32 " %" PRIu32, stock, time, mark, a.number, a.state, a.reference);
    printf(" %" PRIu32 " %" PRIu32, a.lower, a.upper);
    printf(" %" PRIu32 " %" PRIu32 " %" PRIu32 " %" PRIu32 "\n", a.bid, a.bid_flag, a.offer, a.offer_flag);
}

/* Does every moment of a stock that is due by a time. */
static void settle(uint32_t stock, uint32_t time)
{
    for (;;) {
        struct sumpheron_notice n = sumpheron_settle(BOOK, stock, time);
        if (n.answer.number != SUMPHERON_DONE)
            return;
        print(stock, n.time, (char)n.mark, n.answer);
    }
}

/* How many numbers a message has, 0 if the letter is not a message's. */
static int length(char letter)
{
    switch (letter) {
    case 'T': case 'P': return 3;
    case 'O': case 'R': case 'X': return 4;
    case 'Q': return 5;
    default: return 0;
    }
}

/* Tells the book a message, which must have as many numbers as its letter needs. */
static struct sumpheron_answer tell(char letter, const uint32_t *n)
{
    switch (letter) {
    case 'T': return sumpheron_trade(BOOK, n[0], n[1], n[2]);
    case 'Q': return sumpheron_quote(BOOK, n[0], n[1], n[2], n[3], n[4]);
    case 'O': return sumpheron_opening(BOOK, n[0], n[1], n[2], n[3]);
    case 'P': return sumpheron_pause(BOOK, n[0], n[1], n[2]);
    case 'R': return sumpheron_reopening(BOOK, n[0], n[1], n[2], n[3]);
    default: return sumpheron_closing(BOOK, n[0], n[1], n[2], n[3]);
    }
}

/* Sets the book up from the first lines of a day, and returns how many messages follow. */
static uint32_t set_up(void)
{
    static uint32_t setups[SUMPHERON_MOST_STOCKS * SUMPHERON_SETUP_NUMBERS];
    struct line contents = next_line();
    if (contents.letter != 'C' || contents.count != 3 || contents.numbers[0] > SUMPHERON_MOST_STOCKS)
        fail();
    stocks = contents.numbers[0];
    for (size_t stock = 0; stock < stocks; stock++) {
        struct line line = next_line();
        if (line.letter != 'S' || line.count != SUMPHERON_SETUP_NUMBERS)
            fail();
        memcpy(setups + stock * SUMPHERON_SETUP_NUMBERS, line.numbers, SUMPHERON_SETUP_NUMBERS * sizeof *setups);
    }
    if (sumpheron_setup(BOOK, contents.numbers[2], setups, stocks * SUMPHERON_SETUP_NUMBERS).number != SUMPHERON_DONE)
        fail();
    return contents.numbers[1];
}

int main(void)
{
    uint32_t messages = set_up();
    for (uint32_t i = 0; i < messages; i++) {
        struct line line = next_line();
        if (line.count == 0 || line.count != length(line.letter))
            fail();
        settle(line.numbers[0], line.numbers[1]);
        print(line.numbers[0], line.numbers[1], line.letter, tell(line.letter, line.numbers));
    }
    return 0;
}
