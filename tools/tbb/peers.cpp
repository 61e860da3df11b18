// Four examples of this repository written for oneTBB, with the words of their blocks counted: peers PROGRAM THREADS.
// It prints what the example prints, and the greatest number of words that were held at once.
#include <atomic>
#include <cstdint>
#include <cstdlib>
#include <cstring>
#include <iostream>
#include <tbb/global_control.h>
#include <tbb/parallel_invoke.h>
#include <tbb/task_arena.h>
#include <utility>
#include <vector>

static std::atomic<std::int64_t> held{0}, greatest{0};

static void hold(std::int64_t words) {
    std::int64_t now = held.fetch_add(words) + words, most = greatest.load();
    while (most < now && !greatest.compare_exchange_weak(most, now)) {
    }
}

// A block of numbers, whose words count from its beginning to its end.
class Block {
public:
    explicit Block(std::size_t length) : numbers(length) { hold(static_cast<std::int64_t>(length)); }
    Block(const Block& other) : numbers(other.numbers) { hold(static_cast<std::int64_t>(numbers.size())); }
    Block(Block&& other) noexcept : numbers(std::move(other.numbers)) { other.numbers.clear(); }
    Block& operator=(const Block&) = delete;
    ~Block() { held.fetch_sub(static_cast<std::int64_t>(numbers.size())); }
    std::int64_t& operator[](std::size_t place) { return numbers[place]; }
    std::int64_t* data() { return numbers.data(); }
    std::size_t size() const { return numbers.size(); }

private:
    std::vector<std::int64_t> numbers;
};

// ---- tree

static void node(int level) {
    Block b(1024);
    b[0] = level;
    if (level > 1) {
        tbb::parallel_invoke([=] { node(level - 1); }, [=] { node(level - 1); });
    }
}

// ---- film

static void filter(std::int64_t* stripe, std::size_t length) {
    Block window(64);
    for (std::size_t i = 0; i < length; i++) {
        window[i % 64] = stripe[i];
        stripe[i] = (window[i % 64] + window[(i + 63) % 64]) / 2;
    }
}

static void halves(std::int64_t* b, std::size_t length) {
    std::size_t cut = length / 32 * 16;
    tbb::parallel_invoke([=] { filter(b, cut); }, [=] { filter(b + cut, length - cut); });
}

static std::int64_t frame(int number) {
    Block b(1024);
    for (std::size_t i = 0; i < b.size(); i++) {
        b[i] = number + static_cast<std::int64_t>(i % 7);
    }
    std::int64_t* all = b.data();
    tbb::parallel_invoke([=] { halves(all, 512); }, [=] { halves(all + 512, 512); });
    return b[1000];
}

// ---- search

static std::int64_t search(Block state, int row);

static std::int64_t place(Block state, int row, int column) {
    for (int i = 0; i < row; i++) {
        int far = row - i;
        if (state[i] == column || state[i] == column - far || state[i] == column + far) {
            return 0;
        }
    }
    state[row] = column;
    return search(std::move(state), row + 1);
}

static std::int64_t attempt(Block state, int row, int first, int count) {
    if (count == 1) {
        return place(std::move(state), row, first);
    }
    std::int64_t ways = 0, more = 0;
    Block other(state);
    tbb::parallel_invoke([&] { ways = attempt(std::move(other), row, first, count / 2); },
                         [&] { more = attempt(std::move(state), row, first + count / 2, count - count / 2); });
    return ways + more;
}

static std::int64_t search(Block state, int row) {
    return row == 6 ? 1 : attempt(std::move(state), row, 0, 6);
}

// ---- requests

static std::int64_t answer(int number) {
    Block buffer(256);
    std::int64_t sum = 0;
    for (std::size_t i = 0; i < buffer.size(); i++) {
        buffer[i] = number * static_cast<std::int64_t>(i) % 101;
    }
    for (std::size_t i = 0; i < buffer.size(); i++) {
        sum += buffer[i];
    }
    return sum;
}

// The sum of what `each` says of `count` numbers from `first` on, half of them in each branch.
template <typename Each> static std::int64_t halved(Each each, int first, int count) {
    if (count == 1) {
        return each(first);
    }
    std::int64_t left = 0, right = 0;
    tbb::parallel_invoke([&] { left = halved(each, first, count / 2); },
                         [&] { right = halved(each, first + count / 2, count - count / 2); });
    return left + right;
}

static void run(const char* name) {
    if (!std::strcmp(name, "tree")) {
        node(10);
    } else if (!std::strcmp(name, "film")) {
        std::cout << halved(frame, 0, 128) << "\n";
    } else if (!std::strcmp(name, "search")) {
        std::cout << search(Block(256), 0) << "\n";
    } else {
        std::cout << halved(answer, 0, 200) << "\n";
    }
}

int main(int count, char** words) {
    if (count != 3) {
        std::cerr << "peers tree|film|search|requests THREADS\n";
        return 1;
    }
    int threads = std::atoi(words[2]);
    tbb::global_control most(tbb::global_control::max_allowed_parallelism, threads);
    tbb::task_arena arena(threads);
    arena.execute([&] { run(words[1]); });
    std::cout << "--\nhigh " << greatest << "\n";
    return 0;
}
