// The printing program in plain C++, to be measured beside the proved one: reads a log on standard input, judges it, replays
// it with a step for each slice or change, and prints the same text.
// Build: g++ -std=c++20 -O2 bench/plain.cpp -o plain
#include <algorithm>
#include <array>
#include <bit>
#include <charconv>
#include <cstdint>
#include <cstdio>
#include <cstring>
#include <numeric>
#include <string_view>
#include <vector>

namespace {

struct Refusal {
    std::uint32_t number, place;
};

struct Row {
    std::uint32_t time, task, amount;
};

struct Log {
    std::uint32_t policy, count, slice;
    std::array<std::uint8_t, 32> priorities;
    std::vector<Row> rows;
};

// ---- Reading a log

std::uint32_t word(const std::uint8_t *block, std::size_t number)
{
    std::uint32_t value;
    std::memcpy(&value, block + 4 * number, 4);
    return value;
}

bool all_zero(const std::uint8_t *from, const std::uint8_t *to)
{
    return std::all_of(from, to, [](std::uint8_t byte) { return byte == 0; });
}

void read_setup(const std::uint8_t *block, Log &log)
{
    if (!all_zero(block + 48, block + 508))
        throw Refusal{33, 0};
    log.policy = word(block, 1);
    log.count = word(block, 2);
    log.slice = word(block, 3);
    std::memcpy(log.priorities.data(), block + 16, 32);
    const bool priority = log.policy == 1;
    if (log.policy != 1 && log.policy != 2)
        throw Refusal{1, 0};
    if (log.count < 1 || log.count > 32)
        throw Refusal{2, 0};
    if (priority ? log.slice != 0 : log.slice < 1 || log.slice > 65535)
        throw Refusal{3, 0};
    if (!all_zero(block + 16 + (priority ? log.count : 0), block + 48))
        throw Refusal{4, 0};
}

void read_records(const std::uint8_t *block, std::uint32_t place, bool last, Log &log)
{
    const std::uint32_t count = word(block, 1);
    const bool fits = count >= 1 && count <= 41 && (last || count == 41) && log.rows.size() + count <= 1024;
    if (!fits || !all_zero(block + 8 + 12 * count, block + 508))
        throw Refusal{33, place};
    for (std::uint32_t i = 0; i < count; i++)
        log.rows.push_back({word(block, 2 + 3 * i), word(block, 3 + 3 * i), word(block, 4 + 3 * i)});
}

Log read_log(const std::vector<std::uint8_t> &bytes)
{
    if (bytes.empty() || bytes.size() % 512 != 0 || bytes.size() > 512 * 26)
        throw Refusal{30, 0};
    Log log{};
    log.rows.reserve(1024);
    const std::uint32_t blocks = bytes.size() / 512;
    for (std::uint32_t place = 0; place < blocks; place++) {
        const std::uint8_t *block = bytes.data() + 512 * place;
        std::uint32_t check = 1;
        for (std::size_t i = 0; i < 127; i++)
            check += word(block, i);
        if (word(block, 127) != check)
            throw Refusal{31, place};
        if (word(block, 0) != place)
            throw Refusal{32, place};
        if (place == 0)
            read_setup(block, log);
        else
            read_records(block, place, place + 1 == blocks, log);
    }
    return log;
}

// ---- The replay

struct Tasks {
    std::uint32_t clock = 0;
    std::array<std::uint32_t, 32> owed{};
    std::array<std::uint32_t, 32> row{};
    std::vector<std::uint32_t> done;

    // Gives the task so many ticks; says whether it is done.
    bool give(std::uint32_t task, std::uint32_t ticks)
    {
        clock += ticks;
        owed[task] -= ticks;
        if (owed[task] != 0)
            return false;
        done[row[task]] = clock;
        return true;
    }
};

// The open tasks as a mask, in the order in which priority serves them.
class Ranked {
public:
    explicit Ranked(const Log &log)
    {
        std::iota(task_of.begin(), task_of.end(), 0);
        std::stable_sort(task_of.begin(), task_of.end(),
                         [&](auto a, auto b) { return log.priorities[a] > log.priorities[b]; });
        for (std::uint32_t rank = 0; rank < 32; rank++)
            rank_of[task_of[rank]] = rank;
    }

    void join(std::uint32_t task) { open |= 1u << rank_of[task]; }

    // Gives ticks up to `until` or to the next change; says whether a task was open.
    bool serve(Tasks &tasks, std::uint32_t until)
    {
        if (open == 0)
            return false;
        const std::uint32_t task = task_of[std::countr_zero(open)];
        if (tasks.give(task, std::min(tasks.owed[task], until - tasks.clock)))
            open &= open - 1;
        return true;
    }

private:
    std::uint32_t open = 0;
    std::array<std::uint32_t, 32> task_of, rank_of;
};

// The queue of round robin in a ring of 32 places.
class Ring {
public:
    explicit Ring(const Log &log) : slice(log.slice), left(log.slice) {}

    void join(std::uint32_t task) { places[(head + length++) & 31] = task; }

    bool serve(Tasks &tasks, std::uint32_t until)
    {
        if (length == 0)
            return false;
        if (left == 0) {
            places[(head + length) & 31] = places[head];
            head = (head + 1) & 31;
            left = slice;
        }
        const std::uint32_t task = places[head];
        const std::uint32_t ticks = std::min({tasks.owed[task], left, until - tasks.clock});
        left -= ticks;
        if (tasks.give(task, ticks)) {
            head = (head + 1) & 31;
            length--;
            left = slice;
        }
        return true;
    }

private:
    std::array<std::uint32_t, 32> places;
    std::uint32_t head = 0, length = 0, slice, left;
};

template <class Line>
Tasks replay(const Log &log, Line line)
{
    Tasks tasks;
    tasks.done.resize(log.rows.size());
    for (std::uint32_t i = 0; i < log.rows.size(); i++) {
        const Row &row = log.rows[i];
        if (row.time > 4000000000)
            throw Refusal{10, i + 1};
        if (row.time < tasks.clock)
            throw Refusal{11, i + 1};
        if (row.task >= log.count)
            throw Refusal{12, i + 1};
        if (row.amount < 1 || row.amount > 1000000)
            throw Refusal{13, i + 1};
        while (tasks.clock < row.time)
            if (!line.serve(tasks, row.time))
                tasks.clock = row.time;
        if (tasks.owed[row.task] != 0)
            throw Refusal{14, i + 1};
        tasks.owed[row.task] = row.amount;
        tasks.row[row.task] = i;
        line.join(row.task);
    }
    while (line.serve(tasks, UINT32_MAX)) {
    }
    return tasks;
}

// ---- The printed text

class Text {
public:
    Text() { bytes.resize(65536); }

    Text &operator<<(std::string_view words)
    {
        std::memcpy(bytes.data() + length, words.data(), words.size());
        length += words.size();
        return *this;
    }

    Text &operator<<(char byte)
    {
        bytes[length++] = byte;
        return *this;
    }

    Text &operator<<(std::uint32_t number)
    {
        length = std::to_chars(bytes.data() + length, bytes.data() + bytes.size(), number).ptr - bytes.data();
        return *this;
    }

    void print() const { std::fwrite(bytes.data(), 1, length, stdout); }

private:
    std::vector<char> bytes;
    std::size_t length = 0;
};

Text report(const std::vector<std::uint8_t> &bytes)
{
    Text text;
    try {
        const Log log = read_log(bytes);
        const Tasks tasks = log.policy == 1 ? replay(log, Ranked(log)) : replay(log, Ring(log));
        text << "row task asked amount done\n";
        for (std::uint32_t i = 0; i < log.rows.size(); i++) {
            const Row &row = log.rows[i];
            text << i + 1 << ' ' << row.task << ' ' << row.time << ' ' << row.amount << ' ' << tasks.done[i] << '\n';
        }
        text << "end " << tasks.clock << '\n';
    } catch (const Refusal &refusal) {
        text << "refused " << refusal.number << " at " << refusal.place << '\n';
    }
    return text;
}

} // namespace

int main()
{
    std::vector<std::uint8_t> bytes(512 * 26 + 1);
    bytes.resize(std::fread(bytes.data(), 1, bytes.size(), stdin));
    report(bytes).print();
}
