/* Sumpheron: which prices of a stock may trade now, and whether it may trade at all, under the National Market System Plan to
 * Address Extraordinary Market Volatility (limit up, limit down).
 *
 * The caller owns a book: an array of records, one for each of 1 to 64 stocks, and two arrays of trade times and trade prices, each
 * with SUMPHERON_PLACES numbers for each stock. Every call takes the three arrays with their lengths, keeps no pointer and no state of
 * its own, and allocates nothing. Array contents need no validation: bad input is refused by a number (enum sumpheron_number), and a
 * refusal changes no byte. The caller must pass valid pointers: none is null, each is aligned for its type and has as many elements
 * as its length says, and no two arrays of one call overlap. Calls on one book must not run concurrently; only sumpheron_read,
 * sumpheron_next and sumpheron_totals, which change nothing, may run concurrently with each other. Calls on different books may run
 * concurrently.
 *
 * A price is a number of ten-thousandths of a dollar, from 1 to 999,999,999; in quotes and answers, 0 means that there is no price. A
 * time is a number of milliseconds since the session began, at most the session's end + 300,000.
 *
 * To decide whether a price may trade now, pass the answer to sumpheron_may_trade. Do not use the state alone: after the numbers 1, 2
 * and 3 the answer is about no stock and all zeros, and state 0 is Waiting.
 *
 * Later versions may add functions, constants and struct fields; what is declared here keeps its name and its parameters, except the
 * fields of a record, which may change. So refer to fields by name, take sizes from sizeof, expect numbers that are not listed yet,
 * and compare the versions once at startup. docs/ENGINE.md is the guide.
 *
 * This example sets up a book of one stock, tells it the opening price, and asks which prices may trade:
 *
 *     #include <stdio.h>
 *     #include "sumpheron.h"
 *
 *     static struct sumpheron_record book[1];
 *     static uint32_t times[SUMPHERON_PLACES], prices[SUMPHERON_PLACES];
 *     #define BOOK SUMPHERON_BOOK(book, 1, times, prices)
 *
 *     int main(void) {
 *         if (sumpheron_version() != SUMPHERON_VERSION)             // the library is not the one of this header
 *             return 1;
 *         const uint32_t setups[SUMPHERON_SETUP_NUMBERS] = {2, 1, 2, 115000};   // tier, leverage, primary, previous close
 *         struct sumpheron_answer a = sumpheron_setup(BOOK, 23400000, setups, SUMPHERON_SETUP_NUMBERS);
 *         if (a.number != SUMPHERON_DONE)
 *             return 1;
 *         struct sumpheron_notice n;               // before each message: every moment due by its time
 *         do
 *             n = sumpheron_settle(BOOK, 0, 1000);
 *         while (n.answer.number == SUMPHERON_DONE);
 *         a = sumpheron_opening(BOOK, 0, 1000, 2, 115000);
 *         printf("%s: %s\n", sumpheron_state_name(a.state), sumpheron_number_name(a.number));   // Trading: done
 *         printf("at 13.80: %s\n", sumpheron_may_trade(a, 138000) ? "yes" : "no");              // at 13.80: yes
 *         printf("at 13.81: %s\n", sumpheron_may_trade(a, 138100) ? "yes" : "no");              // at 13.81: no
 *     }
 */
#ifndef SUMPHERON_H
#define SUMPHERON_H

#include <stdbool.h>
#include <stddef.h>
#include <stdint.h>

#ifdef __cplusplus
extern "C" {
#endif

/* Incremented whenever a struct, a function or a number changes. Do not mix a header and a library of different versions: the library
 * writes answers of the size that it was built with, and can overrun your struct. */
#define SUMPHERON_VERSION 5

/* Marks functions whose result must be used: the compiler warns if a caller ignores it. */
#if (defined __cplusplus && __cplusplus >= 201703L) || (defined __STDC_VERSION__ && __STDC_VERSION__ >= 202000L)
#define SUMPHERON_MUST_USE [[nodiscard]]
#elif defined __GNUC__
#define SUMPHERON_MUST_USE __attribute__((warn_unused_result))
#else
#define SUMPHERON_MUST_USE
#endif

/* Returns the version of the linked library. If it is not SUMPHERON_VERSION, make no other call. */
SUMPHERON_MUST_USE uint32_t sumpheron_version(void);

/* ---------------------------------------------------------------- sizes */

/* A book has at most this many stocks. */
#define SUMPHERON_MOST_STOCKS 64
/* Each stock owns this many places of the times and of the prices: those of stock i begin at SUMPHERON_PLACES * i. */
#define SUMPHERON_PLACES 512
/* A setup's list has this many numbers for each stock: tier (1 or 2), leverage (1 to 3, in tier 1 only 1), primary participant, previous
 * close (a price). */
#define SUMPHERON_SETUP_NUMBERS 4
/* Participants are numbered from 0 to one less than this. */
#define SUMPHERON_PARTICIPANTS 16
/* The highest price; the lowest is 1. */
#define SUMPHERON_HIGHEST_PRICE 999999999

/* The length of the times array, and of the prices array, in a book of this many stocks. */
SUMPHERON_MUST_USE static inline size_t sumpheron_places(size_t stocks)
{
    return SUMPHERON_PLACES * stocks;
}

/* The first six arguments of every call: the three arrays of a book of this many stocks, each with its length. */
#define SUMPHERON_BOOK(records, stocks, times, prices) \
    (records), (stocks), (times), sumpheron_places(stocks), (prices), sumpheron_places(stocks)

/* ---------------------------------------------------------------- numbers */

/* The result of a call. If several refusals apply, the call gives the one that is listed first here, with one exception:
 * SUMPHERON_NO_STOCK comes after a book of the wrong shape and before a rubbish record. Every number but SUMPHERON_DONE is a refusal,
 * which changes nothing. */
enum sumpheron_number {
    /* the call was done */
    SUMPHERON_DONE = 0,
    /* the book has no stocks or more than 64, an array has the wrong length, or the stock's record is rubbish (docs/RECORD.md), which
     * calls never produce */
    SUMPHERON_RUBBISH = 1,
    /* setup: the session's end or a stock's setup is out of range */
    SUMPHERON_BAD_SETUP = 2,
    /* the stock's number is too large */
    SUMPHERON_NO_STOCK = 3,
    /* a price, a participant or a time is out of range */
    SUMPHERON_OUT_OF_RANGE = 4,
    /* a message's time is before the stock's clock */
    SUMPHERON_BEFORE_CLOCK = 5,
    /* a moment is due by the message's time and was not settled: settle first */
    SUMPHERON_UNSETTLED = 6,
    /* the participant is not the stock's primary listing exchange */
    SUMPHERON_NOT_PRIMARY = 8,
    /* the stock is Closed */
    SUMPHERON_CLOSED_STOCK = 7,
    /* the stock's state does not take this message */
    SUMPHERON_WRONG_STATE = 9,
    /* a trade in a pause */
    SUMPHERON_IN_PAUSE = 11,
    /* an opening at 300,000 or later, in Waiting */
    SUMPHERON_TOO_LATE = 15,
    /* a pause while no side has flag 2 (non-executable), in Trading */
    SUMPHERON_NO_STRADDLE = 16,
    /* a reopening in the first 300,000 of a pause, or a closing before the session's end */
    SUMPHERON_NOT_YET = 10,
    /* a trade outside the bands in force */
    SUMPHERON_OUTSIDE_BANDS = 12,
    /* a trade while the stock holds 512 trades */
    SUMPHERON_NO_ROOM = 13,
    /* settling: nothing is due */
    SUMPHERON_NOTHING_DUE = 14
};

/* The highest of these numbers. Every number from 0 to this one is listed. */
#define SUMPHERON_HIGHEST_NUMBER 16

/* The state of a stock. */
enum sumpheron_state {
    /* no reference price yet: trades at any price */
    SUMPHERON_WAITING = 0,
    /* trades between the bands, both included */
    SUMPHERON_TRADING = 1,
    /* trades between the bands while a quote stands at a band; if this lasts 15,000, a pause starts */
    SUMPHERON_LIMIT = 2,
    /* no trades until the primary reopens the stock, or the pause has lasted 600,000 */
    SUMPHERON_PAUSED = 3,
    /* a pause that started at the session's end - 600,000 or later: the stock does not trade again */
    SUMPHERON_LATE_PAUSE = 4,
    /* the day is over for this stock */
    SUMPHERON_CLOSED = 5
};

/* How a best bid or a best offer stands to the bands in force. */
enum sumpheron_flag {
    /* there is no bid, or no offer */
    SUMPHERON_FLAG_ABSENT = 0,
    /* neither of the following, or no bands are in force */
    SUMPHERON_FLAG_PLAIN = 1,
    /* a bid below the lower band, an offer above the upper band */
    SUMPHERON_FLAG_NON_EXECUTABLE = 2,
    /* a bid at the upper band, an offer at the lower band */
    SUMPHERON_FLAG_LIMIT = 3
};

/* The mark of a moment: which of the dated events it is. Its value is the character code of a letter. */
enum sumpheron_mark {
    /* no moment was done, or none is to come */
    SUMPHERON_MARK_NONE = 0,
    /* z: the session's end; the stock closes */
    SUMPHERON_MARK_Z = 0x7a,
    /* w: at 900,000 and at the session's end - 1,500,000; the bands' width changes */
    SUMPHERON_MARK_W = 0x77,
    /* x: a limit state has lasted 15,000; a pause starts */
    SUMPHERON_MARK_X = 0x78,
    /* p: a pause has lasted 600,000; the stock trades again */
    SUMPHERON_MARK_P = 0x70,
    /* c: the session's end + 300,000; a late pause ends and the stock closes */
    SUMPHERON_MARK_C = 0x63,
    /* v: trades are 300,000 old and leave the window */
    SUMPHERON_MARK_V = 0x76,
    /* f: at 300,000; the mean of the trades so far becomes the first reference */
    SUMPHERON_MARK_F = 0x66,
    /* h: a reference is 30,000 old and may be replaced from now on */
    SUMPHERON_MARK_H = 0x68
};

/* ---------------------------------------------------------------- structs: unsigned numbers, without padding */

/* How long a stock was in each state, in milliseconds. The six times add up to the stock's clock. */
struct sumpheron_state_times {
    uint32_t waiting;
    uint32_t trading;
    uint32_t limit;
    uint32_t paused;
    uint32_t late_pause;
    uint32_t closed;
};

/* A stock's day totals, as of its last accepted message or settled moment; all of them are 0 after setup. */
struct sumpheron_day_totals {
    struct sumpheron_state_times spent;
    /* how many limit states began, and how many pauses, late ones too; each count stops at 4,294,967,295 */
    uint32_t limit_states;
    uint32_t pauses;
    /* the highest and the lowest price of an accepted trade (T; not of O or R), both 0 until there is one */
    uint32_t highest;
    uint32_t lowest;
};

/* A stock's record: 240 bytes, aligned to 8. The caller owns the memory, and only the library writes it. Use the answers to learn about
 * a stock; the field names are for reading a dump (docs/RECORD.md). The stock's trades are in the arrays of times and prices: the
 * first `trades` of its places, oldest first. */
struct sumpheron_record {
    /* the setup */
    uint32_t tier;
    uint32_t leverage;
    uint32_t primary;
    uint32_t close;
    uint32_t session_end;
    /* enum sumpheron_state */
    uint32_t state;
    /* the time of the last accepted message or settled moment */
    uint32_t clock;
    /* not 0: the moment f has not happened */
    uint32_t f_to_come;
    /* when Limit was last entered */
    uint32_t limit_entry;
    /* when a pause last started */
    uint32_t pause_start;
    /* the reference price is this sum of prices divided by this count of them, and not rounded; both are 0 for none */
    uint64_t reference_sum;
    uint64_t reference_count;
    /* since when it has been the reference */
    uint32_t reference_start;
    /* not 0: the moment h of this start has not happened */
    uint32_t h_to_come;
    /* the bid and the offer of each participant, 0 for none */
    uint32_t bids[SUMPHERON_PARTICIPANTS];
    uint32_t offers[SUMPHERON_PARTICIPANTS];
    /* how many trades are held */
    uint64_t trades;
    /* what sumpheron_totals returns */
    struct sumpheron_day_totals totals;
};

/* What a call returns: its number, and the stock's values after the call. A refusal leaves the values unchanged. After 1, 2 and 3
 * all of them are 0. */
struct sumpheron_answer {
    /* enum sumpheron_number */
    uint32_t number;
    /* enum sumpheron_state */
    uint32_t state;
    /* the reference price, rounded to a whole number (a half goes up), 0 for none; the bands are worked out from the exact one */
    uint32_t reference;
    /* the bands in force, both 0 outside Trading and Limit; the upper one may lie above the highest price */
    uint32_t lower;
    uint32_t upper;
    /* the best bid and the best offer, each with its enum sumpheron_flag */
    uint32_t bid;
    uint32_t bid_flag;
    uint32_t offer;
    uint32_t offer_flag;
};

/* What settling returns: the answer, and the moment that was done with its time. Mark and time are 0 if no moment was done. */
struct sumpheron_notice {
    struct sumpheron_answer answer;
    /* enum sumpheron_mark */
    uint32_t mark;
    uint32_t time;
};

/* A stock's earliest moment that is still to come, with number 0. Mark and time are 0 if none is to come, as in a Closed stock, and
 * after the numbers 1 and 3. */
struct sumpheron_upcoming {
    /* enum sumpheron_number */
    uint32_t number;
    /* enum sumpheron_mark */
    uint32_t mark;
    uint32_t time;
};

/* A stock's day totals, with number 0. After the numbers 1 and 3 all totals are 0. */
struct sumpheron_summary {
    /* enum sumpheron_number */
    uint32_t number;
    struct sumpheron_day_totals totals;
};

/* ---------------------------------------------------------------- matching */

/* Whether a trade at this price may be made now. Settle the stock to the present time first, and pass the last answer about it. The
 * result is false if the answer is about no stock, if a moment is due that may pause the stock (6), if the price is out of range, and
 * if the number or the state is not listed above:
 *
 *     after the numbers 1, 2, 3 and 6         no price
 *     else in Waiting                         every price
 *     else in Trading and Limit               the prices from lower to upper, both included
 *     else in Paused, Late pause and Closed   no price
 */
SUMPHERON_MUST_USE static inline bool sumpheron_may_trade(struct sumpheron_answer answer, uint32_t price)
{
    bool listed = answer.number <= SUMPHERON_HIGHEST_NUMBER;
    bool stock = answer.number == SUMPHERON_DONE || answer.number >= SUMPHERON_OUT_OF_RANGE;
    if (!listed || !stock || answer.number == SUMPHERON_UNSETTLED || price < 1 || price > SUMPHERON_HIGHEST_PRICE)
        return false;
    switch (answer.state) {
    case SUMPHERON_WAITING: return true;
    case SUMPHERON_TRADING:
    case SUMPHERON_LIMIT: return answer.lower <= price && price <= answer.upper;
    default: return false;
    }
}

/* ---------------------------------------------------------------- names */

/* Names of numbers, states, flags and marks, for logs; "unknown" if this version has no name for the value. */
SUMPHERON_MUST_USE static inline const char *sumpheron_number_name(uint32_t number)
{
    switch (number) {
    case SUMPHERON_DONE: return "done";
    case SUMPHERON_RUBBISH: return "the book has a wrong shape, or the stock is rubbish";
    case SUMPHERON_BAD_SETUP: return "the session's end or a setup is out of range";
    case SUMPHERON_NO_STOCK: return "there is no such stock";
    case SUMPHERON_OUT_OF_RANGE: return "a price, a participant or a time is out of range";
    case SUMPHERON_BEFORE_CLOCK: return "the time is before the stock's clock";
    case SUMPHERON_UNSETTLED: return "a moment is not settled";
    case SUMPHERON_NOT_PRIMARY: return "the participant is not the primary";
    case SUMPHERON_CLOSED_STOCK: return "the stock is closed";
    case SUMPHERON_WRONG_STATE: return "the state takes no such message";
    case SUMPHERON_IN_PAUSE: return "a trade in a pause";
    case SUMPHERON_TOO_LATE: return "the opening came too late";
    case SUMPHERON_NO_STRADDLE: return "a pause while no best quote is outside the bands";
    case SUMPHERON_NOT_YET: return "it is too early to reopen or to close";
    case SUMPHERON_OUTSIDE_BANDS: return "a trade outside the bands";
    case SUMPHERON_NO_ROOM: return "there is no room for a trade";
    case SUMPHERON_NOTHING_DUE: return "nothing is due";
    default: return "unknown";
    }
}

SUMPHERON_MUST_USE static inline const char *sumpheron_state_name(uint32_t state)
{
    switch (state) {
    case SUMPHERON_WAITING: return "Waiting";
    case SUMPHERON_TRADING: return "Trading";
    case SUMPHERON_LIMIT: return "Limit";
    case SUMPHERON_PAUSED: return "Paused";
    case SUMPHERON_LATE_PAUSE: return "Late pause";
    case SUMPHERON_CLOSED: return "Closed";
    default: return "unknown";
    }
}

SUMPHERON_MUST_USE static inline const char *sumpheron_flag_name(uint32_t flag)
{
    switch (flag) {
    case SUMPHERON_FLAG_ABSENT: return "absent";
    case SUMPHERON_FLAG_PLAIN: return "plain";
    case SUMPHERON_FLAG_NON_EXECUTABLE: return "non-executable";
    case SUMPHERON_FLAG_LIMIT: return "limit";
    default: return "unknown";
    }
}

SUMPHERON_MUST_USE static inline const char *sumpheron_mark_name(uint32_t mark)
{
    switch (mark) {
    case SUMPHERON_MARK_NONE: return "none";
    case SUMPHERON_MARK_Z: return "z";
    case SUMPHERON_MARK_W: return "w";
    case SUMPHERON_MARK_X: return "x";
    case SUMPHERON_MARK_P: return "p";
    case SUMPHERON_MARK_C: return "c";
    case SUMPHERON_MARK_V: return "v";
    case SUMPHERON_MARK_F: return "f";
    case SUMPHERON_MARK_H: return "h";
    default: return "unknown";
    }
}

/* ---------------------------------------------------------------- the book */

/* Initializes the whole book, for a session that ends at `end`, from 3,600,000 to 23,400,000. Stock i gets the tier, leverage, primary
 * and close that begin at setups[SUMPHERON_SETUP_NUMBERS * i]. It answers 0, 1 or 2, and every other field of the answer is 0. If it is
 * accepted, it writes every byte of the three arrays. */
SUMPHERON_MUST_USE struct sumpheron_answer sumpheron_setup(
    struct sumpheron_record *book, size_t stocks,
    uint32_t *times, size_t times_length, uint32_t *prices, size_t prices_length,
    uint32_t end, const uint32_t *setups, size_t setups_length);

/* Does the stock's earliest moment if it is due by `time`, and otherwise answers 14. Before each message, call it with the message's
 * time until its number is not 0. */
SUMPHERON_MUST_USE struct sumpheron_notice sumpheron_settle(
    struct sumpheron_record *book, size_t stocks,
    uint32_t *times, size_t times_length, uint32_t *prices, size_t prices_length,
    uint32_t stock, uint32_t time);

/* Returns the stock's present values, and changes nothing. */
SUMPHERON_MUST_USE struct sumpheron_answer sumpheron_read(
    const struct sumpheron_record *book, size_t stocks,
    const uint32_t *times, size_t times_length, const uint32_t *prices, size_t prices_length,
    uint32_t stock);

/* Returns the stock's earliest moment that is still to come, and changes nothing. Settling to its time or later does that moment;
 * settling to an earlier time answers 14. Ask again after any accepted call on the stock, since another moment may come first then. */
SUMPHERON_MUST_USE struct sumpheron_upcoming sumpheron_next(
    const struct sumpheron_record *book, size_t stocks,
    const uint32_t *times, size_t times_length, const uint32_t *prices, size_t prices_length,
    uint32_t stock);

/* Returns the stock's day totals, and changes nothing. They are as of the stock's last accepted call: the time since then is in none of
 * the six, and belongs to the state that this call left, up to the stock's next moment. */
SUMPHERON_MUST_USE struct sumpheron_summary sumpheron_totals(
    const struct sumpheron_record *book, size_t stocks,
    const uint32_t *times, size_t times_length, const uint32_t *prices, size_t prices_length,
    uint32_t stock);

/* ---------------------------------------------------------------- messages */

/* T: an eligible trade. */
SUMPHERON_MUST_USE struct sumpheron_answer sumpheron_trade(
    struct sumpheron_record *book, size_t stocks,
    uint32_t *times, size_t times_length, uint32_t *prices, size_t prices_length,
    uint32_t stock, uint32_t time, uint32_t price);

/* Q: a participant's bid and offer; a price of 0 means no bid, or no offer. */
SUMPHERON_MUST_USE struct sumpheron_answer sumpheron_quote(
    struct sumpheron_record *book, size_t stocks,
    uint32_t *times, size_t times_length, uint32_t *prices, size_t prices_length,
    uint32_t stock, uint32_t time, uint32_t participant, uint32_t bid, uint32_t offer);

/* O: the primary's opening price, before 300,000. */
SUMPHERON_MUST_USE struct sumpheron_answer sumpheron_opening(
    struct sumpheron_record *book, size_t stocks,
    uint32_t *times, size_t times_length, uint32_t *prices, size_t prices_length,
    uint32_t stock, uint32_t time, uint32_t participant, uint32_t price);

/* P: the primary declares a pause, while a side has flag 2 (non-executable). */
SUMPHERON_MUST_USE struct sumpheron_answer sumpheron_pause(
    struct sumpheron_record *book, size_t stocks,
    uint32_t *times, size_t times_length, uint32_t *prices, size_t prices_length,
    uint32_t stock, uint32_t time, uint32_t participant);

/* R: the primary reopens a paused stock at a price. */
SUMPHERON_MUST_USE struct sumpheron_answer sumpheron_reopening(
    struct sumpheron_record *book, size_t stocks,
    uint32_t *times, size_t times_length, uint32_t *prices, size_t prices_length,
    uint32_t stock, uint32_t time, uint32_t participant, uint32_t price);

/* X: the primary's closing, after a late pause. */
SUMPHERON_MUST_USE struct sumpheron_answer sumpheron_closing(
    struct sumpheron_record *book, size_t stocks,
    uint32_t *times, size_t times_length, uint32_t *prices, size_t prices_length,
    uint32_t stock, uint32_t time, uint32_t participant, uint32_t price);

#ifdef __cplusplus
}
#endif

#endif
