/* Ignores the answer of every call: the compiler must warn of each. */
#include "sumpheron.h"

void ignore(struct sumpheron_record *book, uint32_t *times, uint32_t *prices, const uint32_t *setups);

#define BOOK SUMPHERON_BOOK(book, 1, times, prices)

void ignore(struct sumpheron_record *book, uint32_t *times, uint32_t *prices, const uint32_t *setups)
{
    sumpheron_setup(BOOK, 23400000, setups, SUMPHERON_SETUP_NUMBERS);
    sumpheron_settle(BOOK, 0, 1000);
    sumpheron_read(BOOK, 0);
    sumpheron_next(BOOK, 0);
    sumpheron_totals(BOOK, 0);
    sumpheron_trade(BOOK, 0, 1000, 115000);
    sumpheron_quote(BOOK, 0, 1000, 5, 115000, 0);
    sumpheron_opening(BOOK, 0, 1000, 2, 115000);
    sumpheron_pause(BOOK, 0, 1000, 2);
    sumpheron_reopening(BOOK, 0, 1000, 2, 115000);
    sumpheron_closing(BOOK, 0, 1000, 2, 115000);
}
