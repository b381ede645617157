// Linked with an engine, this kills it by SIGKILL at a given step. The linker's --wrap routes each write(2) and each call of the library
// through this file, so the engine's source needs no change.
//
// A step is a point before, in or after a write, or before or after a call that may change a stock. CRASH_AT is the number of the step at
// which to die. The file CRASH_STEPS gets the names of the steps, and the file CRASH_BYTES gets every byte of every stock at the end.
#include "sumpheron.h"

#include <csignal>
#include <cstdlib>
#include <fstream>
#include <string>
#include <vector>
#include <unistd.h>

// A stock: where its record and its places are, and its bytes after the last call.
struct Stock {
    const sumpheron_record *record;
    const uint32_t *times, *prices;
    std::string bytes;

    void copy() {
        bytes.assign(reinterpret_cast<const char *>(record), sizeof *record);
        bytes.append(reinterpret_cast<const char *>(times), sizeof *times * SUMPHERON_PLACES);
        bytes.append(reinterpret_cast<const char *>(prices), sizeof *prices * SUMPHERON_PLACES);
    }
};

// What was recorded; it is written to the files when the engine exits or is killed here.
struct Seen {
    std::vector<Stock> stocks;
    std::string steps;
    unsigned long count = 0;

    static void write_down(const char *variable, const std::string &text) {
        if (const char *path = std::getenv(variable))
            std::ofstream(path, std::ios::binary) << text;
    }

    ~Seen() {
        std::string bytes;
        for (const Stock &stock : stocks)
            bytes += stock.bytes;
        write_down("CRASH_STEPS", steps);
        write_down("CRASH_BYTES", bytes);
    }
};
static Seen seen;

// The stock of a record. It is nullptr for a record whose next moment the engine never asked for: that is not a stock of the day.
static Stock *find(const sumpheron_record *record) {
    for (Stock &stock : seen.stocks)
        if (stock.record == record)
            return &stock;
    return nullptr;
}

// Whether this is the step at which to die.
static bool reached(const std::string &name) {
    static const char *at = std::getenv("CRASH_AT");
    seen.steps += name + '\n';
    return ++seen.count == (at ? std::strtoul(at, nullptr, 10) : 0);
}

static void die() {
    Seen::write_down("CRASH_STEPS", seen.steps);
    std::raise(SIGKILL);
}

static void step(const std::string &name) {
    if (reached(name))
        die();
}

// What a write writes: a mark or another line of the journal, or a published line.
static std::string kind(int file, const char *text) {
    char path[4096];
    const ssize_t size = readlink(("/proc/self/fd/" + std::to_string(file)).c_str(), path, sizeof path);
    const std::string name(path, size > 0 ? static_cast<size_t>(size) : 0);
    return name.substr(name.rfind('/') + 1) != "journal" ? "output" : *text == '=' ? "mark" : "entry";
}

extern "C" ssize_t __real_write(int file, const void *text, size_t size);
extern "C" ssize_t __wrap_write(int file, const void *text, size_t size) {
    const std::string what = kind(file, static_cast<const char *>(text));
    step("before " + what);
    if (reached("in " + what)) {
        if (__real_write(file, text, size / 2) >= 0)
            die();
    }
    const ssize_t done = __real_write(file, text, size);
    step("after " + what);
    return done;
}

#define LENT sumpheron_record *book, size_t stocks, uint32_t *times, size_t times_length, uint32_t *prices, size_t prices_length
#define HANDED book, stocks, times, times_length, prices, prices_length

extern "C" sumpheron_upcoming __real_sumpheron_next(const sumpheron_record *book, size_t stocks, const uint32_t *times, size_t times_length,
    const uint32_t *prices, size_t prices_length, uint32_t stock);
extern "C" sumpheron_upcoming __wrap_sumpheron_next(const sumpheron_record *book, size_t stocks, const uint32_t *times, size_t times_length,
    const uint32_t *prices, size_t prices_length, uint32_t stock) {
    if (find(book + stock) == nullptr) {
        seen.stocks.push_back({book + stock, times + SUMPHERON_PLACES * size_t{stock}, prices + SUMPHERON_PLACES * size_t{stock}, ""});
        seen.stocks.back().copy();
    }
    return __real_sumpheron_next(HANDED, stock);
}

extern "C" sumpheron_notice __real_sumpheron_settle(LENT, uint32_t stock, uint32_t time);
extern "C" sumpheron_notice __wrap_sumpheron_settle(LENT, uint32_t stock, uint32_t time) {
    step("before settle");
    const sumpheron_notice notice = __real_sumpheron_settle(HANDED, stock, time);
    if (Stock *found = find(book + stock))
        found->copy();
    step(notice.answer.number == SUMPHERON_DONE ? "after moment" : "after settle");
    return notice;
}

// The six messages differ in their arguments after the time.
template <typename... More>
static sumpheron_answer message(sumpheron_answer (*real)(LENT, uint32_t, uint32_t, More...), LENT, uint32_t stock, uint32_t time, More... more) {
    Stock *found = find(book + stock);
    if (found == nullptr)
        return real(HANDED, stock, time, more...);
    step("before message");
    const sumpheron_answer answer = real(HANDED, stock, time, more...);
    found->copy();
    step("after message");
    return answer;
}
#define MESSAGE(name, parameters, arguments) \
    extern "C" sumpheron_answer __real_sumpheron_##name parameters; \
    extern "C" sumpheron_answer __wrap_sumpheron_##name parameters { return message arguments; }
MESSAGE(trade, (LENT, uint32_t stock, uint32_t time, uint32_t a), (__real_sumpheron_trade, HANDED, stock, time, a))
MESSAGE(pause, (LENT, uint32_t stock, uint32_t time, uint32_t a), (__real_sumpheron_pause, HANDED, stock, time, a))
MESSAGE(opening, (LENT, uint32_t stock, uint32_t time, uint32_t a, uint32_t b), (__real_sumpheron_opening, HANDED, stock, time, a, b))
MESSAGE(reopening, (LENT, uint32_t stock, uint32_t time, uint32_t a, uint32_t b), (__real_sumpheron_reopening, HANDED, stock, time, a, b))
MESSAGE(closing, (LENT, uint32_t stock, uint32_t time, uint32_t a, uint32_t b), (__real_sumpheron_closing, HANDED, stock, time, a, b))
MESSAGE(quote, (LENT, uint32_t stock, uint32_t time, uint32_t a, uint32_t b, uint32_t c), (__real_sumpheron_quote, HANDED, stock, time, a, b, c))
