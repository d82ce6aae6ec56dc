// How many instructions a piece of a program takes, where the emulator counts them (counter.cpp).
#pragma once

#include <fcntl.h>
#include <sys/syscall.h>
#include <unistd.h>

#include <cstdint>
#include <cstdio>
#include <cstdlib>
#include <optional>

namespace instructions {

// The system call by which a program asks for the count: its argument is the end of a pipe to write it to, as 8 bytes.
// No kernel has a call of this number. One that is asked refuses it and writes nothing.
constexpr std::int64_t count_call = 1000000;

class Counter {
public:
    Counter() {
        if (pipe2(ends, O_NONBLOCK) == 0) return;
        std::perror("pipe2");
        std::exit(EXIT_FAILURE);
    }

    Counter(const Counter &) = delete;
    Counter &operator=(const Counter &) = delete;

    ~Counter() {
        close(ends[0]);
        close(ends[1]);
    }

    // Whether anyone counts.
    bool counts() const { return so_far().has_value(); }

    // The instructions that a run takes. Someone must be counting.
    template <typename Run> double count(Run run) const {
        const std::uint64_t before = so_far().value();
        run();
        return static_cast<double>(so_far().value() - before);
    }

private:
    std::optional<std::uint64_t> so_far() const {
        std::uint64_t counted = 0;
        syscall(count_call, ends[1]);
        if (read(ends[0], &counted, sizeof counted) != sizeof counted) return std::nullopt;
        return counted;
    }

    int ends[2];
};

} // namespace instructions
