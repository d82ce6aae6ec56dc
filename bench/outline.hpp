// The yardstick's outline: the same text as the library's, in plain C++ written for speed, by the sweep of
// reference.hpp.
//
// A peak's parent is the root of its region once all cells of its key height are swept. Passes are printed in the order
// in which cells are swept, so nothing more is sorted: peaks are linked to their passes from the last cell to the
// first, and passes to the peaks above them from the last swept to the first, each in front of those linked before.
#pragma once

#include <algorithm>
#include <charconv>
#include <cstddef>
#include <cstdint>
#include <string>
#include <utility>
#include <vector>

#include "reference.hpp"

namespace reference {

constexpr std::uint32_t no_cell = 0x7fffffffu; // ends every chain
constexpr std::uint32_t pass_mark = 0x80000000u;

// ---- parents

// Notes the parent of each peak that has one. The peaks that were lost at the level now swept are a chain, in the
// numbers that their parents are to take.
class Parents {
public:
    Parents(const Forest &forest, std::uint32_t *up) : forest(forest), up(up) {}

    void sweeping(std::uint32_t cell) {
        if (forest.heights[cell] == level) return;
        settle();
        level = forest.heights[cell];
    }

    void lost(std::uint32_t top) { up[top] = std::exchange(last, top); }

    // All cells of the level are swept.
    void settle() {
        while (last != no_cell) {
            const std::uint32_t peak = std::exchange(last, up[last]);
            up[peak] = forest.root_of(peak);
        }
    }

private:
    const Forest &forest;
    std::uint32_t *up;
    std::uint32_t last = no_cell;
    std::int32_t level = blank;
};

// ---- links

// No cell is both a peak's and a pass. The first two take the place of the forest's parent and pass.
struct Links {
    std::uint32_t *passes; // of a peak: the first pass under it
    std::uint32_t *next;   // of a pass: the next under the same peak; of a peak: the next at the same pass, or next top
    std::uint32_t *up;     // of a peak: its parent; of a pass, with `pass_mark`: the first peak at it

    std::uint32_t first_at(std::uint32_t pass) const { return up[pass] & ~pass_mark; }
};

// Answers the first top. Of the forest only the cell's own numbers are read, before they are replaced.
inline std::uint32_t link_peaks(const Forest &forest, std::size_t cells, std::uint32_t threshold, const Links &links) {
    std::uint32_t top = no_cell;
    for (auto cell = static_cast<std::uint32_t>(cells); cell-- > 0;) {
        if (forest.heights[cell] == blank) continue;
        if (forest.parent[cell] == cell) {
            links.next[cell] = std::exchange(top, cell);
        } else {
            if (!is_listed(forest, cell, threshold)) continue;
            const std::uint32_t pass = forest.pass[cell];
            links.next[cell] = links.first_at(pass);
            links.up[pass] = cell | pass_mark;
        }
        links.passes[cell] = no_cell;
    }
    return top;
}

// The parent of a listed peak is listed, so that its chain has been begun.
inline void link_passes(const std::uint32_t *order, std::size_t count, const Links &links) {
    for (std::size_t i = count; i-- > 0;) {
        const std::uint32_t pass = order[i];
        if ((links.up[pass] & pass_mark) == 0) continue;
        const std::uint32_t upper = links.up[links.first_at(pass)];
        links.next[pass] = std::exchange(links.passes[upper], pass);
    }
}

// ---- lines

class Printer {
public:
    Printer(const std::int32_t *heights, const Links &links, std::uint32_t levels, std::string &text)
        : heights(heights), links(links), levels(levels), text(text) {}

    void print_peak(std::uint32_t peak, std::uint32_t level) {
        std::uint32_t left_out = 0;
        if (level == levels) for_each_child(peak, [&](std::uint32_t, std::uint32_t) { ++left_out; });
        char *end = begin_line(level, " peak ", peak);
        *end++ = ' ';
        end_line(put(end, left_out));
        if (level == levels) return;
        for_each_child(peak, [&](std::uint32_t pass, std::uint32_t child) {
            end_line(begin_line(level, " pass ", pass));
            print_peak(child, level + 1);
        });
    }

private:
    template <typename Visit> void for_each_child(std::uint32_t peak, Visit visit) const {
        for (std::uint32_t pass = links.passes[peak]; pass != no_cell; pass = links.next[pass]) {
            for (std::uint32_t child = links.first_at(pass); child != no_cell; child = links.next[child]) {
                visit(pass, child);
            }
        }
    }

    char *begin_line(std::uint32_t level, const char (&kind)[7], std::uint32_t cell) {
        char *end = std::copy_n(kind, sizeof(kind) - 1, put(line, level));
        end = put(end, cell);
        *end++ = ' ';
        return put(end, heights[cell]);
    }

    void end_line(char *end) {
        *end++ = '\n';
        text.append(line, static_cast<std::size_t>(end - line));
    }

    template <typename Number> char *put(char *to, Number number) {
        return std::to_chars(to, line + sizeof(line), number).ptr;
    }

    const std::int32_t *heights;
    const Links &links;
    std::uint32_t levels;
    std::string &text;
    char line[64]; // four numbers of at most 11 characters, and nine more
};

// Makes the text the outline of the listed peaks, to so many levels. The work area is as that of `list`.
inline void outline(std::uint32_t rows, const std::int32_t *heights, std::size_t cells, std::uint32_t threshold,
                    std::uint32_t levels, std::uint32_t *work, std::string &text) {
    const std::size_t count = rank(heights, cells, work);
    const Forest forest{heights, work + cells, work + 2 * cells};
    const Links links{forest.parent, forest.pass, work + 3 * cells};
    std::fill_n(links.up, cells, no_cell);
    Parents parents(forest, links.up);
    sweep(forest, rows, cells, work, count, parents);
    parents.settle();
    const std::uint32_t first_top = link_peaks(forest, cells, threshold, links);
    link_passes(work, count, links);
    text.clear();
    Printer printer(heights, links, levels, text);
    for (std::uint32_t top = first_top; top != no_cell; top = links.next[top]) printer.print_peak(top, 1);
}

// The same in memory of its own.
inline std::string outline(std::uint32_t rows, const std::vector<std::int32_t> &heights, std::uint32_t threshold,
                           std::uint32_t levels) {
    std::vector<std::uint32_t> work(work_per_cell * heights.size());
    std::string text;
    outline(rows, heights.data(), heights.size(), threshold, levels, work.data(), text);
    return text;
}

} // namespace reference
