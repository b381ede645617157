// A model of an engine around the library: symbols, a journal, a timer, the check before a fill, and recovery after a crash.
// Usage: engine FOLDER LATE AHEAD [sync] < TAPE
// TAPE is a day in the format of docs/RULES.md, "The day program"; the word after a message's letter is its symbol. A line may arrive
// LATE milliseconds late, and be dated AHEAD milliseconds after the tape's latest time, which stands in for a clock: so AHEAD must exceed
// the tape's longest silence. A live engine compares with its own clock, and allows what clocks can differ. FOLDER gets two files:
// `journal` gets each operation before it is done, and a mark once it is done and published; `published` gets what members are told,
// numbered from 1. Killed and started again with the same tape, the engine rebuilds its stocks from the journal, publishes what is missing,
// and continues where the journal ends. Only a power failure loses data that write(2) accepted; with `sync` it waits for the disk.
#include "sumpheron.h"

#include <algorithm>
#include <fstream>
#include <iostream>
#include <map>
#include <sstream>
#include <string>
#include <vector>
#include <fcntl.h>
#include <sys/file.h>
#include <unistd.h>

static void check(bool good, const std::string &fault) {
    if (!good) {
        std::cerr << "engine: " << fault << std::endl;
        std::exit(1);
    }
}

// Reads the next complete line. Text without a line feed may be an incomplete line.
static bool next_line(std::istream &in, std::string &line) { return std::getline(in, line) && !in.eof(); }

// An append-only file of lines. Opening it removes an incomplete last line, which a crash may leave.
struct Log {
    std::string path;
    bool sync;
    int file;
    std::vector<std::string> lines;   // the file's lines when it was opened

    Log(const std::string &name, bool wait) : path(name), sync(wait), file(open(name.c_str(), O_WRONLY | O_CREAT | O_APPEND, 0644)) {
        check(file >= 0 && flock(file, LOCK_EX | LOCK_NB) == 0, path + " cannot be opened, or another engine has it");
        std::ifstream in(path);
        off_t whole = 0;
        for (std::string line; next_line(in, line); lines.push_back(line))
            whole += static_cast<off_t>(line.size()) + 1;
        check(in.eof() && ftruncate(file, whole) == 0, path + " cannot be read, or cut");
    }

    void append(const std::string &line) const {
        const std::string text = line + '\n';
        const ssize_t size = write(file, text.data(), text.size());
        check(size == static_cast<ssize_t>(text.size()) && (!sync || fdatasync(file) == 0), path + " cannot be written");
    }
};

// A letter, a symbol, and numbers: a time and the letter's other fields. The letter t is in the journal only: settle to this time.
struct Line {
    char letter = 0;
    std::string symbol;
    std::vector<uint32_t> n;
};

// Parses a line; a malformed line gets the letter 0.
static Line parse(const std::string &text) {
    static const std::map<std::string, size_t> lengths
        = {{"C", 3}, {"S", 4}, {"t", 1}, {"T", 2}, {"P", 2}, {"O", 3}, {"R", 3}, {"X", 3}, {"Q", 4}};
    std::istringstream words(text);
    std::string letter, word;
    Line line;
    std::getline(words, letter, ' ');
    if (letter != "C" && letter != "S")
        std::getline(words, line.symbol, ' ');
    while (std::getline(words, word, ' ')) {
        if (word.empty() || word.size() > 10 || word.find_first_not_of("0123456789") != word.npos || std::stoull(word) > UINT32_MAX)
            return {};
        line.n.push_back(static_cast<uint32_t>(std::stoull(word)));
    }
    if (lengths.count(letter) != 0 && lengths.at(letter) == line.n.size() && text.back() != ' ')
        line.letter = letter[0];
    return line;
}

// A stock, in a book of its own, and when its next moment comes.
struct Stock {
    sumpheron_record record;
    uint32_t times[SUMPHERON_PLACES], prices[SUMPHERON_PLACES];
    uint32_t due;
};
#define BOOK(stock) SUMPHERON_BOOK(&(stock).record, 1, (stock).times, (stock).prices)

static void look_ahead(Stock &stock) {
    const sumpheron_upcoming next = sumpheron_next(BOOK(stock), 0);
    stock.due = next.number == SUMPHERON_DONE && next.mark != SUMPHERON_MARK_NONE ? next.time : UINT32_MAX;
}

static sumpheron_answer tell(Stock &stock, char letter, const std::vector<uint32_t> &n) {
    switch (letter) {
    case 'T': return sumpheron_trade(BOOK(stock), 0, n[0], n[1]);
    case 'Q': return sumpheron_quote(BOOK(stock), 0, n[0], n[1], n[2], n[3]);
    case 'O': return sumpheron_opening(BOOK(stock), 0, n[0], n[1], n[2]);
    case 'P': return sumpheron_pause(BOOK(stock), 0, n[0], n[1]);
    case 'R': return sumpheron_reopening(BOOK(stock), 0, n[0], n[1], n[2]);
    default: return sumpheron_closing(BOOK(stock), 0, n[0], n[1], n[2]);
    }
}

static std::string text_of(const std::string &symbol, uint32_t time, char letter, const sumpheron_answer &a) {
    std::string text = symbol + ' ' + std::to_string(time) + ' ' + letter;
    for (uint32_t n : {a.number, a.state, a.reference, a.lower, a.upper, a.bid, a.bid_flag, a.offer, a.offer_flag})
        text += ' ' + std::to_string(n);
    return text;
}

struct Engine {
    Log journal, output;
    uint32_t late, ahead;
    std::map<std::string, Stock> stocks{};   // by symbol
    Stock scratch{};        // a stock that only validates messages
    uint32_t now = 0;       // the latest time of the tape; a live engine has a clock
    size_t done = 0;        // how many lines of the journal are done
    size_t taken = 0;       // how many lines of the tape are in the journal
    size_t published = 0;   // how many lines are published
    bool marked = false;    // whether this operation was done and published before the crash

    // Reads a header line of the tape and returns its numbers. The journal begins with the same lines.
    std::vector<uint32_t> head(char letter) {
        std::string text;
        check(next_line(std::cin, text) && parse(text).letter == letter, "the tape begins wrongly");
        if (done == journal.lines.size()) {
            journal.append(text);
            journal.lines.push_back(text);
        }
        check(journal.lines[done++] == text, "the journal is of another day");
        return parse(text).n;
    }

    void set_up() {
        const std::vector<uint32_t> contents = head('C');
        for (uint32_t i = 0; i < contents[0]; i++) {
            const std::vector<uint32_t> setup = head('S');
            const sumpheron_answer answer = sumpheron_setup(BOOK(scratch), contents[2], setup.data(), setup.size());
            check(answer.number == SUMPHERON_DONE, "the setup is refused");
            look_ahead(stocks[std::to_string(i)] = scratch);
        }
    }

    // Replays the journal's operations in order. Only the last one can lack its mark.
    void recover() {
        for (; done < journal.lines.size(); done += 2) {
            marked = done + 1 < journal.lines.size();
            const std::string mark = perform(journal.lines[done]);
            check(!marked || journal.lines[done + 1] == mark, "the journal's operations do not give its marks");
            if (!marked)
                journal.append(mark);
        }
        marked = false;
        check(published >= output.lines.size(), "more was published than the journal gives");
    }

    void run() {
        std::string line;
        for (size_t known = taken; known > 0 && next_line(std::cin, line); known--) {}
        for (tick(); next_line(std::cin, line); tick())
            take(line);
    }

    // Takes a line of the tape. Settling cannot be undone, so the line is validated before the stock is settled to its time.
    void take(const std::string &text) {
        const Line line = parse(text);
        if (std::string("TQOPRX").find(line.letter) == std::string::npos)
            return enter("! unreadable: " + text);
        if (stocks.count(line.symbol) == 0)
            return enter("! unknown symbol: " + text);
        if (line.n[0] > now && line.n[0] - now > ahead)
            return enter("! misdated: " + text);
        if (tell(scratch, line.letter, line.n).number == SUMPHERON_OUT_OF_RANGE)
            return enter("! out of range: " + text);
        settle_to(line.symbol, line.n[0]);
        enter(text);
    }

    // Settles each stock to the latest time for which no line can still arrive. A live engine also does this while it waits for the tape.
    void tick() {
        for (const auto &[symbol, stock] : stocks)
            settle_to(symbol, now - std::min(now, late));
    }

    void settle_to(const std::string &symbol, uint32_t time) {
        if (stocks.at(symbol).due <= time)
            enter("t " + symbol + ' ' + std::to_string(time));
    }

    // Writes the operation to the journal before it is done, and its mark after it.
    void enter(const std::string &operation) {
        journal.append(operation);
        journal.append(perform(operation));
    }

    // Does an operation, publishes the results, and returns its mark: the last number, and how many lines are published by then.
    std::string perform(const std::string &operation) {
        const Line line = parse(operation);
        uint32_t number = SUMPHERON_DONE;
        taken += operation[0] != 't';
        if (operation[0] == '!')
            publish(operation);
        else {
            check(line.letter != 0 && stocks.count(line.symbol) != 0, "the journal is damaged: " + operation);
            number = line.letter == 't' ? settle(stocks.at(line.symbol), line) : hear(stocks.at(line.symbol), line);
        }
        return "= " + std::to_string(number) + ' ' + std::to_string(published);
    }

    uint32_t settle(Stock &stock, const Line &line) {
        sumpheron_notice notice;
        while ((notice = sumpheron_settle(BOOK(stock), 0, line.n[0])).answer.number == SUMPHERON_DONE)
            publish(text_of(line.symbol, notice.time, static_cast<char>(notice.mark), notice.answer));
        look_ahead(stock);
        return notice.answer.number;
    }

    // Tells a stock a message. As a toy, each trade on the tape brings a member's order at its price, which fills if it may trade.
    uint32_t hear(Stock &stock, const Line &line) {
        const sumpheron_answer answer = tell(stock, line.letter, line.n);
        publish(text_of(line.symbol, line.n[0], line.letter, answer));
        look_ahead(stock);
        now = std::max(now, line.n[0]);
        // a moment that is due and not settled yet may start a pause
        if (line.letter == 'T' && stock.due > now && sumpheron_may_trade(answer, line.n[1]))
            publish(line.symbol + ' ' + std::to_string(now) + " fill " + std::to_string(line.n[1]));
        return answer.number;
    }

    // Publishes a line. If it was published before a crash, it is only compared with what was published then.
    void publish(const std::string &what) {
        const std::string line = std::to_string(published + 1) + ' ' + what;
        const bool known = published++ < output.lines.size();
        check(known ? output.lines[published - 1] == line : !marked, "what was published is not what the journal gives: " + line);
        if (!known)
            output.append(line);
    }
};

int main(int argc, char **argv) {
    check(argc >= 4, "usage: engine FOLDER LATE AHEAD [sync] < TAPE");
    check(sumpheron_version() == SUMPHERON_VERSION, "the header and the library are of different versions");
    const auto late = static_cast<uint32_t>(std::stoul(argv[2])), ahead = static_cast<uint32_t>(std::stoul(argv[3]));
    Engine engine{{argv[1] + std::string("/journal"), argc > 4}, {argv[1] + std::string("/published"), argc > 4}, late, ahead};
    engine.set_up();
    engine.recover();
    engine.run();
}
