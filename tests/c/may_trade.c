/* Compares sumpheron_may_trade with the table of include/sumpheron.h, for every number and every state, and with the library: in each
 * state that calls can reach, a price may trade exactly if the library accepts a trade at it, and after 1, 2, 3 and 6 no price may trade. The
 * source is C11 and C++17. */
#include "sumpheron.h"

#include <inttypes.h>
#include <stdio.h>
#include <string.h>

#define LENGTH(array) (sizeof(array) / sizeof *(array))

enum { END = 3600000, LATE = END - 600000, PRIMARY = 2, OTHER = 5, PRICE = 115000 };

/* The bands of the price while the factor is 2. */
enum { LOWER = 92000, UPPER = 138000 };

/* Prices at and next to each edge: of the range of prices, and of the bands. */
static const uint32_t PRICES[] = {0, 1, 2, LOWER - 1, LOWER, LOWER + 1, UPPER - 1, UPPER, UPPER + 1,
                                  SUMPHERON_HIGHEST_PRICE, SUMPHERON_HIGHEST_PRICE + 1U, UINT32_MAX};

/* Whether each of PRICES may trade, by state; the last row is for a number that is no state. */
static const char *const BY_STATE[] = {
    "no yes yes yes yes yes yes yes yes yes no no",
    "no no no no yes yes yes yes no no no no",
    "no no no no yes yes yes yes no no no no",
    "no no no no no no no no no no no no",
    "no no no no no no no no no no no no",
    "no no no no no no no no no no no no",
    "no no no no no no no no no no no no"};
static const char *const NONE = "no no no no no no no no no no no no";

/* The listed numbers after which no price may trade: those that are about no stock, and the one while a moment is due. */
static const uint32_t NO_TRADE[] = {SUMPHERON_RUBBISH, SUMPHERON_BAD_SETUP, SUMPHERON_NO_STOCK, SUMPHERON_UNSETTLED};

static struct sumpheron_record book[1], before[1];
static uint32_t times[SUMPHERON_PLACES], prices[SUMPHERON_PLACES], times_before[SUMPHERON_PLACES], prices_before[SUMPHERON_PLACES];
static const uint32_t SETUP[] = {2, 1, PRIMARY, PRICE};
static int held, faults;

#define BOOK SUMPHERON_BOOK(book, 1, times, prices)

/* ---------------------------------------------------------------- the table */

/* What an answer says of each of PRICES, in words. */
static void check(struct sumpheron_answer answer, const char *wanted)
{
    char said[64] = "";
    for (size_t i = 0; i < LENGTH(PRICES); i++) {
        strcat(said, i ? " " : "");
        strcat(said, sumpheron_may_trade(answer, PRICES[i]) ? "yes" : "no");
        held++;
    }
    if (strcmp(said, wanted) != 0) {
        faults++;
        printf("may_trade: number %" PRIu32 ", state %" PRIu32 ": %s, and not %s\n", answer.number, answer.state, said, wanted);
    }
}

static struct sumpheron_answer answered(uint32_t number, uint32_t state)
{
    struct sumpheron_answer answer;
    memset(&answer, 0, sizeof answer);
    answer.number = number;
    answer.state = state;
    answer.lower = LOWER;
    answer.upper = UPPER;
    return answer;
}

/* Whether prices may trade after a number. */
static bool trades(uint32_t number)
{
    for (size_t i = 0; i < LENGTH(NO_TRADE); i++)
        if (number == NO_TRADE[i])
            return false;
    return number <= SUMPHERON_HIGHEST_NUMBER;
}

/* Goes over every listed number and the next one, with every state. */
static void check_table(void)
{
    for (uint32_t number = 0; number <= SUMPHERON_HIGHEST_NUMBER + 1; number++) {
        for (uint32_t state = 0; state < LENGTH(BY_STATE); state++)
            check(answered(number, state), trades(number) ? BY_STATE[state] : NONE);
        check(answered(number, UINT32_MAX), NONE);
    }
    check(answered(UINT32_MAX, SUMPHERON_WAITING), NONE);
}

/* Bands may lie outside the prices, and an answer in Trading without bands allows none. */
static void check_bands(void)
{
    struct sumpheron_answer answer = answered(SUMPHERON_DONE, SUMPHERON_TRADING);
    answer.lower = 0;
    answer.upper = 1500000000;
    check(answer, BY_STATE[SUMPHERON_WAITING]);
    answer.upper = 0;
    check(answer, NONE);
}

/* ---------------------------------------------------------------- the library */

static void expect(const char *what, uint32_t given, uint32_t wanted)
{
    if (given != wanted) {
        faults++;
        printf("may_trade: %s is %" PRIu32 " and not %" PRIu32 "\n", what, given, wanted);
    }
}

static void settle(uint32_t time)
{
    struct sumpheron_notice notice;
    do
        notice = sumpheron_settle(BOOK, 0, time);
    while (notice.answer.number == SUMPHERON_DONE);
    expect("settled", notice.answer.number, SUMPHERON_NOTHING_DUE);
}

/* Makes a trade, and then restores the book. */
static struct sumpheron_answer try_trade(uint32_t time, uint32_t price)
{
    struct sumpheron_answer answer;
    memcpy(before, book, sizeof book);
    memcpy(times_before, times, sizeof times);
    memcpy(prices_before, prices, sizeof prices);
    answer = sumpheron_trade(BOOK, 0, time, price);
    memcpy(book, before, sizeof book);
    memcpy(times, times_before, sizeof times);
    memcpy(prices, prices_before, sizeof prices);
    return answer;
}

/* Checks that a price may trade by an answer exactly if the library accepts a trade at it. */
static void check_answer(struct sumpheron_answer answer, uint32_t number, uint32_t time)
{
    expect("number", answer.number, number);
    for (size_t i = 0; i < LENGTH(PRICES); i++) {
        bool taken = try_trade(time, PRICES[i]).number == SUMPHERON_DONE;
        expect(number == SUMPHERON_DONE ? "price, as read" : "price, as refused", sumpheron_may_trade(answer, PRICES[i]), taken);
        held++;
    }
}

/* Checks an answer that was read, and one in a refusal. */
static void check_state(uint32_t state, uint32_t time)
{
    struct sumpheron_answer now = sumpheron_read(BOOK, 0);
    expect("state", now.state, state);
    check_answer(now, SUMPHERON_DONE, time);
    check_answer(try_trade(time, 0), SUMPHERON_OUT_OF_RANGE, time);
}

static void check_states(void)
{
    expect("setup", sumpheron_setup(BOOK, END, SETUP, LENGTH(SETUP)).number, SUMPHERON_DONE);
    check_state(SUMPHERON_WAITING, 1000);
    expect("opening", sumpheron_opening(BOOK, 0, 1000, PRIMARY, PRICE).number, SUMPHERON_DONE);
    check_state(SUMPHERON_TRADING, 1000);
    expect("quote", sumpheron_quote(BOOK, 0, 2000, OTHER, UPPER, 0).number, SUMPHERON_DONE);
    check_state(SUMPHERON_LIMIT, 2000);
    struct sumpheron_answer due = sumpheron_trade(BOOK, 0, 17000, PRICE);
    expect("trade while a pause is due", due.number, SUMPHERON_UNSETTLED);
    check(due, NONE);
    settle(17000);
    check_state(SUMPHERON_PAUSED, 17000);
    expect("quote", sumpheron_quote(BOOK, 0, 17000, OTHER, 0, UPPER + 1).number, SUMPHERON_DONE);
    settle(LATE);
    expect("pause", sumpheron_pause(BOOK, 0, LATE, PRIMARY).number, SUMPHERON_DONE);
    check_state(SUMPHERON_LATE_PAUSE, LATE);
    settle(END + 300000);
    check_state(SUMPHERON_CLOSED, END + 300000);
}

/* After an opening that came too late the stock still waits, and after a pause without a straddle it still trades. */
static void check_refusals(void)
{
    expect("setup", sumpheron_setup(BOOK, END, SETUP, LENGTH(SETUP)).number, SUMPHERON_DONE);
    settle(300000);
    check_answer(sumpheron_opening(BOOK, 0, 300000, PRIMARY, PRICE), SUMPHERON_TOO_LATE, 300000);
    expect("trade", sumpheron_trade(BOOK, 0, 300000, PRICE).number, SUMPHERON_DONE);
    check_answer(sumpheron_pause(BOOK, 0, 300000, PRIMARY), SUMPHERON_NO_STRADDLE, 300000);
}

/* Answers about no stock, whose state reads Waiting. */
static void check_no_stock(void)
{
    struct sumpheron_answer answers[3];
    answers[1] = sumpheron_setup(BOOK, 0, SETUP, LENGTH(SETUP));
    answers[2] = sumpheron_read(BOOK, 1);
    book[0].state = 6;
    answers[0] = sumpheron_read(BOOK, 0);
    for (uint32_t i = 0; i < LENGTH(answers); i++) {
        expect("number", answers[i].number, SUMPHERON_RUBBISH + i);
        expect("state", answers[i].state, SUMPHERON_WAITING);
        check(answers[i], NONE);
    }
}

int main(void)
{
    check_table();
    check_bands();
    check_states();
    check_refusals();
    check_no_stock();
    printf("may_trade: %d held, %d faults\n", held, faults);
    return faults == 0 ? 0 : 1;
}
