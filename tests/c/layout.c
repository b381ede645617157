/* Compares the structs of include/sumpheron.h with the library's. It plays a day that gives every field a known value, and then checks
 * the memory that the library wrote: each value is where the header has its field, and the library wrote nothing before or behind the
 * arrays. The source is C11 and C++17. */
#include "sumpheron.h"

#include <assert.h>
#include <inttypes.h>
#include <stdalign.h>
#include <stdio.h>
#include <string.h>

#define LENGTH(array) (sizeof(array) / sizeof *(array))
#define FAULT(...) (faults++, printf("layout: " __VA_ARGS__), puts(""))

static int faults;

/* ---------------------------------------------------------------- what the header has */

struct field {
    const char *name;
    size_t offset;
    size_t size;
};

#define SIZE(of, member) sizeof(((struct sumpheron_##of *)0)->member)
#define FIELD(of, member) {#of "." #member, offsetof(struct sumpheron_##of, member), SIZE(of, member)}
#define FOUR(member, i) FIELD(record, member[i]), FIELD(record, member[i + 1]), FIELD(record, member[i + 2]), FIELD(record, member[i + 3])
#define SIXTEEN(member) FOUR(member, 0), FOUR(member, 4), FOUR(member, 8), FOUR(member, 12)
#define TOTALS(of) \
    FIELD(of, totals.spent.waiting), FIELD(of, totals.spent.trading), FIELD(of, totals.spent.limit), FIELD(of, totals.spent.paused), \
    FIELD(of, totals.spent.late_pause), FIELD(of, totals.spent.closed), FIELD(of, totals.limit_states), FIELD(of, totals.pauses), \
    FIELD(of, totals.highest), FIELD(of, totals.lowest)

static const struct field RECORD[] = {
    FIELD(record, tier), FIELD(record, leverage), FIELD(record, primary), FIELD(record, close),
    FIELD(record, session_end), FIELD(record, state), FIELD(record, clock), FIELD(record, f_to_come),
    FIELD(record, limit_entry), FIELD(record, pause_start), FIELD(record, reference_sum), FIELD(record, reference_count),
    FIELD(record, reference_start), FIELD(record, h_to_come), SIXTEEN(bids), SIXTEEN(offers), FIELD(record, trades),
    TOTALS(record)};

static const struct field ANSWER[] = {
    FIELD(answer, number), FIELD(answer, state), FIELD(answer, reference),
    FIELD(answer, lower), FIELD(answer, upper),
    FIELD(answer, bid), FIELD(answer, bid_flag), FIELD(answer, offer), FIELD(answer, offer_flag)};

static const struct field NOTICE[] = {
    FIELD(notice, answer.number), FIELD(notice, answer.state), FIELD(notice, answer.reference),
    FIELD(notice, answer.lower), FIELD(notice, answer.upper),
    FIELD(notice, answer.bid), FIELD(notice, answer.bid_flag), FIELD(notice, answer.offer), FIELD(notice, answer.offer_flag),
    FIELD(notice, mark), FIELD(notice, time)};

static const struct field UPCOMING[] = {FIELD(upcoming, number), FIELD(upcoming, mark), FIELD(upcoming, time)};

static const struct field SUMMARY[] = {FIELD(summary, number), TOTALS(summary)};

/* No struct has padding: the sizes of its fields add up to the size of the struct. */
static_assert(SIZE(record, tier) + SIZE(record, leverage) + SIZE(record, primary) + SIZE(record, close) + SIZE(record, session_end) +
                  SIZE(record, state) + SIZE(record, clock) + SIZE(record, f_to_come) + SIZE(record, limit_entry) + SIZE(record, pause_start) +
                  SIZE(record, reference_sum) + SIZE(record, reference_count) + SIZE(record, reference_start) + SIZE(record, h_to_come) +
                  SIZE(record, bids) + SIZE(record, offers) + SIZE(record, trades) + SIZE(record, totals) ==
                  sizeof(struct sumpheron_record), "a record has padding");
static_assert(SIZE(state_times, waiting) + SIZE(state_times, trading) + SIZE(state_times, limit) + SIZE(state_times, paused) +
                  SIZE(state_times, late_pause) + SIZE(state_times, closed) == sizeof(struct sumpheron_state_times),
              "the times of the states have padding");
static_assert(SIZE(day_totals, spent) + SIZE(day_totals, limit_states) + SIZE(day_totals, pauses) + SIZE(day_totals, highest) +
                  SIZE(day_totals, lowest) == sizeof(struct sumpheron_day_totals), "day totals have padding");
static_assert(SIZE(answer, number) + SIZE(answer, state) + SIZE(answer, reference) + SIZE(answer, lower) + SIZE(answer, upper) +
                  SIZE(answer, bid) + SIZE(answer, bid_flag) + SIZE(answer, offer) + SIZE(answer, offer_flag) ==
                  sizeof(struct sumpheron_answer), "an answer has padding");
static_assert(SIZE(notice, answer) + SIZE(notice, mark) + SIZE(notice, time) == sizeof(struct sumpheron_notice), "a notice has padding");
static_assert(SIZE(upcoming, number) + SIZE(upcoming, mark) + SIZE(upcoming, time) == sizeof(struct sumpheron_upcoming),
              "what comes next has padding");
static_assert(SIZE(summary, number) + SIZE(summary, totals) == sizeof(struct sumpheron_summary), "a summary has padding");

/* The size and the alignment that docs/RECORD.md says. */
static_assert(sizeof(struct sumpheron_record) == 240 && alignof(struct sumpheron_record) == 8, "a record has another size or alignment");
static_assert(sizeof(struct sumpheron_answer) == 36 && alignof(struct sumpheron_answer) == 4, "an answer has another size or alignment");
static_assert(sizeof(struct sumpheron_notice) == 44 && alignof(struct sumpheron_notice) == 4, "a notice has another size or alignment");
static_assert(sizeof(struct sumpheron_upcoming) == 12 && alignof(struct sumpheron_upcoming) == 4,
              "what comes next has another size or alignment");
static_assert(sizeof(struct sumpheron_summary) == 44 && alignof(struct sumpheron_summary) == 4, "a summary has another size or alignment");

/* ---------------------------------------------------------------- the values that the day must give */

/* The trades of stock 1. The eighth moves the reference from 600,000,000 to the mean of all eight: their sum needs more than 32 bits, and
 * their count does not divide it. */
static const uint32_t PRICES[] = {600000001, 600000002, 600000003, 600000004, 600000005,
                                  600000006, 600000007, 648000003, 606000001, 606000002};

/* The totals of stock 1 at the end: it waited to 1,001, traded to 2,002, was at a limit to 2,005, traded to 2,010, was at a limit to 17,010,
 * paused to 317,020, traded to 3,090,002, was at a limit to 3,105,002, and was then in a late pause to 3,150,003. */
#define LAST_TOTALS 1001, 2773988, 30003, 300010, 45001, 0, 3, 2, 648000003, 600000001

/* Stock 0 as it was set up, and stock 1 after its opening and at the end. */
static const uint64_t RECORDS[][LENGTH(RECORD)] = {
    {1, 1, 6, 31000, 3700000, 0, 0, 1},
    {2, 3, 9, 115000, 3700000, 1, 1001, 1, 0, 0, 600000000, 1, 1001, 1,
     0, 0, 0, 0, 0, 0, 0, 0, 0, 0, 0, 0, 0, 0, 0, 0, 0, 0, 0, 0, 0, 0, 0, 0, 0, 0, 0, 0, 0, 0, 0, 0,
     1, 1001},
    {2, 3, 9, 115000, 3700000, 4, 3150003, 1, 3090002, 3105002, 4848000031, 8, 3050008, 0,
     969599985, 969599986, 969599987, 969599988, 969599989, 969599990, 969599991, 969599992,
     969599993, 969599994, 969599995, 969599996, 969599997, 969599998, 969599999, 969600000,
     969600001, 969600002, 969600003, 969600004, 969600005, 969600006, 969600007, 969600008,
     969600009, 969600010, 969600011, 969600012, 969600013, 969600014, 969600015, 969600016,
     LENGTH(PRICES), LAST_TOTALS}};

/* Reading in Trading, and a trade outside the bands in Limit. The reference of 606,000,003.875 is rounded. */
static const uint64_t ANSWERS[][LENGTH(ANSWER)] = {
    {0, 1, 606000004, 242400000, 969600000, 969599999, 1, 969600001, 2},
    {12, 2, 606000004, 242400000, 969600000, 969600000, 3, 969600001, 2}};

/* A settling with nothing due, and the pause. */
static const uint64_t NOTICES[][LENGTH(NOTICE)] = {
    {14, 1, 606000004, 242400000, 969600000, 969599999, 1, 969600001, 2, 0, 0},
    {0, 4, 606000004, 0, 0, 969600000, 1, 969600001, 1, 0x78, 3105002}};

/* The next moment in Trading: the first trade leaves. */
static const uint64_t NEXT[LENGTH(UPCOMING)] = {0, 0x76, 3350001};

/* The totals at the end, and those of a book that is not set up. */
static const uint64_t SUMMARIES[][LENGTH(SUMMARY)] = {{0, LAST_TOTALS}, {1}};

/* Any other call on a book that is not set up. */
static const uint64_t RUBBISH[LENGTH(NOTICE)] = {1};

/* ---------------------------------------------------------------- the memory that the library gets */

/* With these guard lengths each array is at an address with no more alignment than it needs. */
enum {
    STOCKS = 2,
    AHEAD = 34,
    GUARD = 33,
    NUMBERS = STOCKS * sizeof(struct sumpheron_record) / sizeof(uint32_t),
    PLACES = STOCKS * SUMPHERON_PLACES,
    HELD = LENGTH(PRICES),
    ROOM = 256
};
static const uint32_t PATTERN = 0xa5a5a5a5;

static struct memory {
    alignas(16) uint32_t records[AHEAD + NUMBERS + AHEAD];
    alignas(16) uint32_t times[GUARD + PLACES + GUARD];
    alignas(16) uint32_t prices[GUARD + PLACES + GUARD];
} memory, before;

/* Where an answer is written. */
static uint32_t room[ROOM / sizeof(uint32_t)];

#define RECORDS_LENT ((struct sumpheron_record *)(void *)(memory.records + AHEAD))
#define BOOK SUMPHERON_BOOK(RECORDS_LENT, STOCKS, memory.times + GUARD, memory.prices + GUARD)

/* ---------------------------------------------------------------- checks */

/* A number of 4 or 8 bytes, all of which count. */
static uint64_t number_at(const unsigned char *bytes, size_t size)
{
    uint32_t narrow;
    uint64_t wide;
    if (size == sizeof wide) {
        memcpy(&wide, bytes, sizeof wide);
        return wide;
    }
    memcpy(&narrow, bytes, sizeof narrow);
    return narrow;
}

/* How often a number of this width occurs in a struct that the library wrote, and the byte of its last occurrence. */
static size_t count_number(uint64_t number, size_t width, const unsigned char *bytes, size_t size, size_t *last)
{
    size_t count = 0;
    for (size_t at = 0; at + width <= size; at += sizeof(uint32_t)) {
        if (number_at(bytes + at, width) == number) {
            count++;
            *last = at;
        }
    }
    return count;
}

/* Checks that each field has its value in a struct that the library wrote. */
static void check_fields(const struct field *fields, size_t count, const uint64_t *values, const void *written, size_t size)
{
    const unsigned char *bytes = (const unsigned char *)written;
    for (size_t i = 0; i < count; i++) {
        struct field f = fields[i];
        size_t at;
        if (number_at(bytes + f.offset, f.size) == values[i])
            continue;
        FAULT("%s is at byte %zu of the header, where the library has not %" PRIu64 " in %zu bytes", f.name, f.offset, values[i], f.size);
        if (count_number(values[i], f.size, bytes, size, &at) == 1)
            printf("        it has that at byte %zu\n", at);
    }
}

/* Checks that the fields have 4 or 8 bytes and cover every byte of the struct, and that any two fields differ in some row of values. */
static void check_table(const struct field *fields, size_t count, const uint64_t *values, size_t rows, size_t size)
{
    size_t sum = 0;
    for (size_t i = 0; i < count; i++) {
        sum += fields[i].size;
        if (fields[i].size != sizeof(uint32_t) && fields[i].size != sizeof(uint64_t))
            FAULT("%s has %zu bytes", fields[i].name, fields[i].size);
        for (size_t j = 0; j < i; j++) {
            size_t row = 0;
            while (row < rows && values[row * count + i] == values[row * count + j])
                row++;
            if (row == rows)
                FAULT("nothing tells %s from %s", fields[i].name, fields[j].name);
        }
    }
    if (sum != size)
        FAULT("the fields from %s on have %zu bytes, the struct %zu", fields[0].name, sum, size);
}

/* Checks that the guards are unchanged and that everything between them was written. */
static void check_guards(const char *name, const char *when, const uint32_t *numbers, size_t guard, size_t length)
{
    for (size_t i = 0; i < guard + length + guard; i++) {
        int inside = i >= guard && i < guard + length;
        if (inside == (numbers[i] == PATTERN))
            FAULT("%s %s: number %ld of %zu is %s", name, when, (long)i - (long)guard, length, inside ? "not written" : "written");
    }
}

static void check_all_guards(const char *when)
{
    check_guards("records", when, memory.records, AHEAD, NUMBERS);
    check_guards("times", when, memory.times, GUARD, PLACES);
    check_guards("prices", when, memory.prices, GUARD, PLACES);
}

static void check_place(const char *name, uint32_t place, uint32_t given, uint32_t wanted)
{
    if (given != wanted)
        FAULT("%s: place %" PRIu32 " is %" PRIu32 " and not %" PRIu32, name, place, given, wanted);
}

/* Checks that stock 1 has its trades at the front of its places, and that all other places are 0. */
static void check_places(void)
{
    for (uint32_t i = 0; i < PLACES; i++) {
        uint32_t held = i - SUMPHERON_PLACES;
        check_place("times", i, memory.times[GUARD + i], held < HELD ? 3050001 + held : 0);
        check_place("prices", i, memory.prices[GUARD + i], held < HELD ? PRICES[held] : 0);
    }
}

/* ---------------------------------------------------------------- calls whose answer is checked byte by byte */

#if defined(__x86_64__)
/* On x86-64 a struct of more than 16 bytes is returned through a hidden first argument, a pointer: these declarations name it. */
#ifdef __cplusplus
extern "C" {
#endif
void write_read(void *answer, const struct sumpheron_record *book, size_t stocks, const uint32_t *times, size_t times_length,
                const uint32_t *prices, size_t prices_length, uint32_t stock) __asm__("sumpheron_read");
void write_trade(void *answer, struct sumpheron_record *book, size_t stocks, uint32_t *times, size_t times_length,
                 uint32_t *prices, size_t prices_length, uint32_t stock, uint32_t time, uint32_t price) __asm__("sumpheron_trade");
void write_settle(void *notice, struct sumpheron_record *book, size_t stocks, uint32_t *times, size_t times_length,
                  uint32_t *prices, size_t prices_length, uint32_t stock, uint32_t time) __asm__("sumpheron_settle");
void write_totals(void *summary, const struct sumpheron_record *book, size_t stocks, const uint32_t *times, size_t times_length,
                  const uint32_t *prices, size_t prices_length, uint32_t stock) __asm__("sumpheron_totals");
#ifdef __cplusplus
}
#endif
#define WRITE(of, call, ...) write_##call(room, __VA_ARGS__)
#else
#define WRITE(of, call, ...)                                        \
    do {                                                            \
        struct sumpheron_##of given = sumpheron_##call(__VA_ARGS__); \
        memcpy(room, &given, sizeof given);                         \
    } while (0)
#endif

static void read_1(void) { WRITE(answer, read, BOOK, 1); }
static void trade_outside(void) { WRITE(answer, trade, BOOK, 1, 3090003, 969600001); }
static void settle_nothing(void) { WRITE(notice, settle, BOOK, 1, 3080200); }
static void settle_pause(void) { WRITE(notice, settle, BOOK, 1, 3110000); }
static void totals_1(void) { WRITE(summary, totals, BOOK, 1); }

/* A struct of at most 16 bytes is returned in registers. */
static void next_1(void)
{
    struct sumpheron_upcoming given = sumpheron_next(BOOK, 1);
    memcpy(room, &given, sizeof given);
}

/* Makes the call twice, with the room filled differently: a byte that keeps its filling both times was not written. */
static void check_call(void (*call)(void), const struct field *fields, size_t count, const uint64_t *values, size_t size)
{
    static const unsigned char FILLS[] = {0xa5, 0x5a};
    const unsigned char *bytes = (const unsigned char *)room;
    size_t end = 0;
    before = memory;
    for (size_t fill = 0; fill < LENGTH(FILLS); fill++) {
        memory = before;
        memset(room, FILLS[fill], sizeof room);
        call();
        check_fields(fields, count, values, room, size);
        for (size_t i = end; i < sizeof room; i++)
            if (bytes[i] != FILLS[fill])
                end = i + 1;
    }
    if (end != size)
        FAULT("%s: the library writes %zu bytes, the header's struct has %zu", fields[0].name, end, size);
}

/* ---------------------------------------------------------------- the day */

static void expect_done(const char *name, struct sumpheron_answer answer)
{
    if (answer.number != SUMPHERON_DONE)
        FAULT("%s is answered %" PRIu32, name, answer.number);
}

/* The sizes are compared first: a call that writes a larger struct than the header declares would overrun the stack. */
static void check_sizes(void)
{
    check_call(read_1, ANSWER, LENGTH(ANSWER), RUBBISH, sizeof(struct sumpheron_answer));
    check_call(settle_nothing, NOTICE, LENGTH(NOTICE), RUBBISH, sizeof(struct sumpheron_notice));
    check_call(next_1, UPCOMING, LENGTH(UPCOMING), RUBBISH, sizeof(struct sumpheron_upcoming));
    check_call(totals_1, SUMMARY, LENGTH(SUMMARY), SUMMARIES[1], sizeof(struct sumpheron_summary));
}

static void set_up(void)
{
    const uint32_t setups[STOCKS * SUMPHERON_SETUP_NUMBERS] = {1, 1, 6, 31000, 2, 3, 9, 115000};
    expect_done("setup", sumpheron_setup(BOOK, 3700000, setups, LENGTH(setups)));
    check_all_guards("after setup");
}

/* Does the moments of stock 1 that are due by a time: those with these marks, in this order. */
static void settle(uint32_t time, const char *marks)
{
    struct sumpheron_notice notice;
    for (; *marks; marks++) {
        notice = sumpheron_settle(BOOK, 1, time);
        expect_done("settling", notice.answer);
        if (notice.mark != (unsigned char)*marks)
            FAULT("settling to %" PRIu32 " does %" PRIu32 " and not %c", time, notice.mark, *marks);
    }
    notice = sumpheron_settle(BOOK, 1, time);
    if (notice.answer.number != SUMPHERON_NOTHING_DUE)
        FAULT("settling to %" PRIu32 " is not done", time);
}

static void bid_and_offer(uint32_t time, uint32_t participant, uint32_t bid, uint32_t offer)
{
    expect_done("quote", sumpheron_quote(BOOK, 1, time, participant, bid, offer));
}

static void quote(uint32_t time, uint32_t participant)
{
    bid_and_offer(time, participant, 969599985 + participant, 969600001 + participant);
}

static void check_record(size_t stock, const uint64_t *values)
{
    const unsigned char *bytes = (const unsigned char *)(memory.records + AHEAD);
    const size_t size = sizeof(struct sumpheron_record);
    check_fields(RECORD, LENGTH(RECORD), values, bytes + stock * size, size);
}

/* Stock 1 opens, enters a limit state, leaves it, enters another, pauses, and is reopened. */
static void play_pause(void)
{
    expect_done("opening", sumpheron_opening(BOOK, 1, 1001, 9, 600000000));
    check_record(1, RECORDS[1]);
    bid_and_offer(2002, 0, 960000000, 0);
    bid_and_offer(2005, 0, 0, 0);
    bid_and_offer(2010, 0, 960000000, 0);
    settle(17010, "x");
    bid_and_offer(17011, 0, 0, 0);
    settle(317020, "hv");
    expect_done("reopening", sumpheron_reopening(BOOK, 1, 317020, 9, 600000000));
}

/* Stock 1 trades, all participants quote it, and it goes through a limit state into a late pause. */
static void play(void)
{
    settle(3050000, "hvww");
    for (uint32_t i = 0; i < HELD; i++)
        expect_done("trade", sumpheron_trade(BOOK, 1, 3050001 + i, PRICES[i]));
    settle(3080099, "h");
    for (uint32_t i = 0; i < SUMPHERON_PARTICIPANTS - 1; i++)
        quote(3080100 + i, i);
    check_call(read_1, ANSWER, LENGTH(ANSWER), ANSWERS[0], sizeof(struct sumpheron_answer));
    check_call(settle_nothing, NOTICE, LENGTH(NOTICE), NOTICES[0], sizeof(struct sumpheron_notice));
    check_call(next_1, UPCOMING, LENGTH(UPCOMING), NEXT, sizeof(struct sumpheron_upcoming));
    quote(3090002, SUMPHERON_PARTICIPANTS - 1);
    check_call(trade_outside, ANSWER, LENGTH(ANSWER), ANSWERS[1], sizeof(struct sumpheron_answer));
    check_call(settle_pause, NOTICE, LENGTH(NOTICE), NOTICES[1], sizeof(struct sumpheron_notice));
    quote(3150003, 3);
    check_call(totals_1, SUMMARY, LENGTH(SUMMARY), SUMMARIES[0], sizeof(struct sumpheron_summary));
}

static void check_end(void)
{
    check_record(0, RECORDS[0]);
    check_record(1, RECORDS[2]);
    check_all_guards("at the end");
    check_places();
}

int main(void)
{
    check_table(RECORD, LENGTH(RECORD), RECORDS[0], LENGTH(RECORDS), sizeof(struct sumpheron_record));
    check_table(ANSWER, LENGTH(ANSWER), ANSWERS[0], LENGTH(ANSWERS), sizeof(struct sumpheron_answer));
    check_table(NOTICE, LENGTH(NOTICE), NOTICES[0], LENGTH(NOTICES), sizeof(struct sumpheron_notice));
    check_table(UPCOMING, LENGTH(UPCOMING), NEXT, 1, sizeof(struct sumpheron_upcoming));
    check_table(SUMMARY, LENGTH(SUMMARY), SUMMARIES[0], LENGTH(SUMMARIES), sizeof(struct sumpheron_summary));
    if ((uintptr_t)(memory.records + AHEAD) % 16 != 8 || (uintptr_t)(memory.times + GUARD) % 8 != 4)
        FAULT("the arrays have more alignment than they need, or less");
    memset(&memory, PATTERN & 0xff, sizeof memory);
    check_sizes();
    if (faults == 0) {
        set_up();
        play_pause();
        play();
        check_end();
    }
    printf("layout: %zu fields of a record, %zu of an answer, %zu of a notice, %zu of an upcoming, %zu of a summary, %d faults\n",
           LENGTH(RECORD), LENGTH(ANSWER), LENGTH(NOTICE), LENGTH(UPCOMING), LENGTH(SUMMARY), faults);
    return faults == 0 ? 0 : 1;
}
