/* Compares the constants of include/sumpheron.h with the library's: calls produce each number, state, flag, mark and size, and the result
 * is compared with the named constant. The source is C11 and C++17. */
#include "sumpheron.h"

#include <inttypes.h>
#include <stdio.h>
#include <string.h>

enum { END = 3600000, LATE = END - 600000, PRIMARY = 2, OTHER = 5, PRICE = 115000 };
enum { STOCKS = SUMPHERON_MOST_STOCKS, SETUPS = STOCKS * SUMPHERON_SETUP_NUMBERS };

/* While the factor is 2, the bands of the price are 92,000 and 138,000. */
enum { UPPER = 138000, ABOVE };

/* Room for one stock more than a book may have. */
static struct sumpheron_record book[STOCKS + 1];
static uint32_t times[(STOCKS + 1) * SUMPHERON_PLACES], prices[(STOCKS + 1) * SUMPHERON_PLACES];
static uint32_t setups[SETUPS + SUMPHERON_SETUP_NUMBERS];
static int held, faults;

#define BOOK SUMPHERON_BOOK(book, STOCKS, times, prices)
#define HOLD(name, given) hold(#name, (uint32_t)(name), given)
#define HOLD_SIZE(name, most, over, refusal) hold_size(#name, name, (most).number, (over).number, refusal)

static void hold(const char *name, uint32_t value, uint32_t given)
{
    held++;
    if (value != given) {
        faults++;
        printf("names: %s is %" PRIu32 ", and the library gives %" PRIu32 "\n", name, value, given);
    }
}

/* Checks that a call that uses the full size is done, and that one more is refused. */
static void hold_size(const char *name, int value, uint32_t most, uint32_t over, uint32_t refusal)
{
    held++;
    if (most != SUMPHERON_DONE || over != refusal) {
        faults++;
        printf("names: %s is %d, filled with %" PRIu32 ", and one more with %" PRIu32 "\n", name, value, most, over);
    }
}

static void expect_done(struct sumpheron_answer answer)
{
    if (answer.number != SUMPHERON_DONE) {
        faults++;
        printf("names: a call is refused: %s\n", sumpheron_number_name(answer.number));
    }
}

/* Does all moments of a stock up to a time, and returns the notice of the last one. If there was none, its time is 0. */
static struct sumpheron_notice settle(uint32_t stock, uint32_t time)
{
    struct sumpheron_notice last = sumpheron_settle(BOOK, stock, time), next = last;
    while (next.time != 0) {
        last = next;
        next = sumpheron_settle(BOOK, stock, time);
    }
    return last;
}

static void set_up(void)
{
    static const uint32_t SETUP[] = {2, 1, PRIMARY, PRICE};
    for (size_t i = 0; i < sizeof setups / sizeof *setups; i++)
        setups[i] = SETUP[i % (sizeof SETUP / sizeof *SETUP)];
    HOLD(SUMPHERON_DONE, sumpheron_setup(BOOK, END, setups, SETUPS).number);
    HOLD(SUMPHERON_RUBBISH, sumpheron_setup(SUMPHERON_BOOK(book, 0, times, prices), END, setups, 0).number);
    HOLD(SUMPHERON_BAD_SETUP, sumpheron_setup(BOOK, 0, setups, SETUPS).number);
    HOLD_SIZE(SUMPHERON_MOST_STOCKS, sumpheron_setup(BOOK, END, setups, SETUPS),
              sumpheron_setup(SUMPHERON_BOOK(book, STOCKS + 1, times, prices), END, setups, SETUPS + SUMPHERON_SETUP_NUMBERS),
              SUMPHERON_RUBBISH);
    HOLD_SIZE(SUMPHERON_SETUP_NUMBERS, sumpheron_setup(BOOK, END, setups, SETUPS), sumpheron_setup(BOOK, END, setups, SETUPS + 1),
              SUMPHERON_RUBBISH);
}

/* Stock 0 waits, trades, is at a limit, pauses, trades again, and closes at the session's end. */
static void play_day(void)
{
    struct sumpheron_answer a = sumpheron_read(BOOK, 0);
    HOLD(SUMPHERON_WAITING, a.state);
    HOLD(SUMPHERON_FLAG_ABSENT, a.bid_flag);
    HOLD(SUMPHERON_WRONG_STATE, sumpheron_pause(BOOK, 0, 1000, PRIMARY).number);
    expect_done(sumpheron_trade(BOOK, 0, 1000, PRICE));
    HOLD(SUMPHERON_BEFORE_CLOCK, sumpheron_trade(BOOK, 0, 999, PRICE).number);
    HOLD(SUMPHERON_NOTHING_DUE, settle(0, 299999).answer.number);
    HOLD(SUMPHERON_MARK_NONE, settle(0, 299999).mark);
    HOLD(SUMPHERON_UNSETTLED, sumpheron_trade(BOOK, 0, 300000, PRICE).number);
    HOLD(SUMPHERON_MARK_F, settle(0, 300000).mark);
    HOLD(SUMPHERON_TRADING, sumpheron_read(BOOK, 0).state);
    HOLD(SUMPHERON_MARK_V, settle(0, 301000).mark);
    HOLD(SUMPHERON_MARK_H, settle(0, 330000).mark);
    HOLD(SUMPHERON_NO_STRADDLE, sumpheron_pause(BOOK, 0, 400000, PRIMARY).number);
    a = sumpheron_quote(BOOK, 0, 400000, OTHER, PRICE, ABOVE);
    HOLD(SUMPHERON_FLAG_PLAIN, a.bid_flag);
    HOLD(SUMPHERON_FLAG_NON_EXECUTABLE, a.offer_flag);
    HOLD(SUMPHERON_OUTSIDE_BANDS, sumpheron_trade(BOOK, 0, 400000, ABOVE).number);
    HOLD(SUMPHERON_NOT_PRIMARY, sumpheron_pause(BOOK, 0, 400000, OTHER).number);
    a = sumpheron_quote(BOOK, 0, 500000, OTHER, UPPER, 0);
    HOLD(SUMPHERON_FLAG_LIMIT, a.bid_flag);
    HOLD(SUMPHERON_LIMIT, a.state);
    HOLD(SUMPHERON_MARK_X, settle(0, 515000).mark);
    HOLD(SUMPHERON_PAUSED, sumpheron_read(BOOK, 0).state);
    HOLD(SUMPHERON_IN_PAUSE, sumpheron_trade(BOOK, 0, 515000, PRICE).number);
    HOLD(SUMPHERON_NOT_YET, sumpheron_reopening(BOOK, 0, 814999, PRIMARY, PRICE).number);
    HOLD(SUMPHERON_MARK_W, settle(0, 900000).mark);
    HOLD(SUMPHERON_MARK_P, settle(0, 1115000).mark);
    expect_done(sumpheron_quote(BOOK, 0, 1115000, OTHER, 0, 0));
    HOLD(SUMPHERON_MARK_Z, settle(0, END).mark);
    HOLD(SUMPHERON_CLOSED, sumpheron_read(BOOK, 0).state);
    HOLD(SUMPHERON_CLOSED_STOCK, sumpheron_trade(BOOK, 0, END, PRICE).number);
}

/* Stock 1 goes into a late pause. */
static void play_late_pause(void)
{
    expect_done(sumpheron_opening(BOOK, 1, 1000, PRIMARY, PRICE));
    settle(1, LATE);
    expect_done(sumpheron_quote(BOOK, 1, LATE, OTHER, 0, ABOVE));
    HOLD(SUMPHERON_LATE_PAUSE, sumpheron_pause(BOOK, 1, LATE, PRIMARY).state);
    HOLD(SUMPHERON_MARK_C, settle(1, END + 300000).mark);
}

/* Stock 2 holds as many trades as it can, and quotes of all participants. */
static void fill(void)
{
    struct sumpheron_answer last = sumpheron_read(BOOK, 2);
    for (int i = 0; i < SUMPHERON_PLACES; i++)
        last = sumpheron_trade(BOOK, 2, 1000, PRICE);
    HOLD_SIZE(SUMPHERON_PLACES, last, sumpheron_trade(BOOK, 2, 1000, PRICE), SUMPHERON_NO_ROOM);
    HOLD(SUMPHERON_NO_ROOM, sumpheron_trade(BOOK, 2, 1000, PRICE).number);
    HOLD(SUMPHERON_NO_STOCK, sumpheron_read(BOOK, STOCKS).number);
    HOLD(SUMPHERON_OUT_OF_RANGE, sumpheron_trade(BOOK, 2, 1000, 0).number);
    HOLD_SIZE(SUMPHERON_PARTICIPANTS, sumpheron_quote(BOOK, 2, 1000, SUMPHERON_PARTICIPANTS - 1, PRICE, 0),
              sumpheron_quote(BOOK, 2, 1000, SUMPHERON_PARTICIPANTS, PRICE, 0), SUMPHERON_OUT_OF_RANGE);
}

/* Stock 3 trades at the highest price. */
static void check_price(void)
{
    HOLD_SIZE(SUMPHERON_HIGHEST_PRICE, sumpheron_trade(BOOK, 3, 1000, SUMPHERON_HIGHEST_PRICE),
              sumpheron_trade(BOOK, 3, 1000, SUMPHERON_HIGHEST_PRICE + 1), SUMPHERON_OUT_OF_RANGE);
}

/* Stock 4 is still waiting for its opening at 300,000. */
static void open_too_late(void)
{
    settle(4, 300000);
    HOLD(SUMPHERON_TOO_LATE, sumpheron_opening(BOOK, 4, 300000, PRIMARY, PRICE).number);
}

/* Checks that the numbers up to the highest have a name, and those above it have none. */
static void check_highest(void)
{
    held++;
    for (uint32_t number = 0; number < 1000; number++) {
        const char *name = sumpheron_number_name(number);
        if ((strcmp(name, "unknown") != 0) != (number <= SUMPHERON_HIGHEST_NUMBER)) {
            faults++;
            printf("names: SUMPHERON_HIGHEST_NUMBER is %d, and the name of %" PRIu32 " is '%s'\n", SUMPHERON_HIGHEST_NUMBER, number, name);
        }
    }
}

int main(void)
{
    set_up();
    play_day();
    play_late_pause();
    fill();
    check_price();
    open_too_late();
    check_highest();
    printf("names: %d held, %d faults\n", held, faults);
    return faults == 0 ? 0 : 1;
}
