// Memory to lend, watched on both sides.
//
// A room is a run of pages between two pages that nobody may touch. What it lends stands flush with one of them, so
// that a read beyond it ends the program, or somewhere inside, at any alignment. Around what is lent lie guard bytes.
#pragma once

#include <sys/mman.h>
#include <unistd.h>

#include <algorithm>
#include <cstddef>
#include <cstdint>
#include <cstdio>
#include <cstdlib>

enum class Place { at_start, at_end, inside };

class Room {
public:
    explicit Room(std::size_t least_bytes) {
        page = static_cast<std::size_t>(sysconf(_SC_PAGESIZE));
        capacity = (least_bytes + page - 1) / page * page;
        void *const pages = mmap(nullptr, capacity + 2 * page, PROT_NONE, MAP_PRIVATE | MAP_ANONYMOUS, -1, 0);
        if (pages == MAP_FAILED) {
            std::perror("mmap");
            std::exit(EXIT_FAILURE);
        }
        start = static_cast<std::uint8_t *>(pages) + page;
        protect(PROT_READ | PROT_WRITE);
    }

    Room(const Room &) = delete;
    Room &operator=(const Room &) = delete;

    ~Room() { munmap(start - page, capacity + 2 * page); }

    // Lends so many bytes, as they happen to be; at most the room has. Inside, `shift` picks the alignment.
    std::uint8_t *lend(std::size_t length, Place place, std::size_t shift) {
        const std::size_t spare = capacity - length;
        std::size_t before = 0;
        if (place == Place::at_end) before = spare;
        if (place == Place::inside) before = std::min(spare, spare / 2 + shift);
        lent = start + before;
        lent_length = length;
        front = std::min(guard_length, static_cast<std::size_t>(lent - start));
        back = std::min(guard_length, static_cast<std::size_t>(start + capacity - (lent + length)));
        std::fill_n(lent - front, front, guard);
        std::fill_n(lent + length, back, guard);
        return lent;
    }

    bool guards_stand() const {
        const auto stands = [](std::uint8_t byte) { return byte == guard; };
        return std::all_of(lent - front, lent, stands) &&
               std::all_of(lent + lent_length, lent + lent_length + back, stands);
    }

    void protect(int access) {
        if (mprotect(start, capacity, access) == 0) return;
        std::perror("mprotect");
        std::exit(EXIT_FAILURE);
    }

    std::size_t size() const { return capacity; }

    // An address that nobody may read or write, whatever length is claimed for it.
    std::uint8_t *nowhere() const { return start + capacity; }

private:
    static constexpr std::uint8_t guard = 0xa5;
    static constexpr std::size_t guard_length = 64;

    std::size_t page = 0;
    std::size_t capacity = 0;
    std::uint8_t *start = nullptr;
    std::uint8_t *lent = nullptr;
    std::size_t lent_length = 0;
    std::size_t front = 0;
    std::size_t back = 0;
};
