// Counts the instructions of a program that runs under qemu's user emulation: a plugin for the emulator.
//
//     qemu-x86_64 -plugin libcounter.so PROGRAM
//
// The program asks for the count by the system call of instructions.hpp. The emulator's process is the program's, so
// the plugin can write to the program's own pipe.

#include <unistd.h>

#include <cstddef>
#include <cstdint>

#include "instructions.hpp"

// What is used of the emulator's interface for plugins. Not every system that has the emulator has its header.
extern "C" {
struct qemu_plugin_tb; // a block of instructions that are executed one after another
enum qemu_plugin_cb_flags { QEMU_PLUGIN_CB_NO_REGS };

std::size_t qemu_plugin_tb_n_insns(const qemu_plugin_tb *block);
void qemu_plugin_register_vcpu_tb_trans_cb(std::uint64_t id, void (*call)(std::uint64_t id, qemu_plugin_tb *block));
void qemu_plugin_register_vcpu_tb_exec_cb(qemu_plugin_tb *block, void (*call)(unsigned processor, void *data),
                                          qemu_plugin_cb_flags flags, void *data);
void qemu_plugin_register_vcpu_syscall_cb(std::uint64_t id,
                                          void (*call)(std::uint64_t id, unsigned processor, std::int64_t number,
                                                       std::uint64_t, std::uint64_t, std::uint64_t, std::uint64_t,
                                                       std::uint64_t, std::uint64_t, std::uint64_t, std::uint64_t));

// Came with version 2 of the interface, which is the oldest that later emulators take. Earlier ones take 1.
[[gnu::weak]] int qemu_plugin_num_vcpus();
int qemu_plugin_version = qemu_plugin_num_vcpus != nullptr ? 2 : 1;
}

namespace {

std::uint64_t counted = 0;

void count_block(unsigned, void *instructions_in_it) {
    counted += reinterpret_cast<std::uintptr_t>(instructions_in_it);
}

void watch_block(std::uint64_t, qemu_plugin_tb *block) {
    void *const instructions_in_it = reinterpret_cast<void *>(std::uintptr_t{qemu_plugin_tb_n_insns(block)});
    qemu_plugin_register_vcpu_tb_exec_cb(block, count_block, QEMU_PLUGIN_CB_NO_REGS, instructions_in_it);
}

// A write that fails leaves the pipe empty, which the program takes for no answer.
void answer(std::uint64_t, unsigned, std::int64_t number, std::uint64_t pipe, std::uint64_t, std::uint64_t,
            std::uint64_t, std::uint64_t, std::uint64_t, std::uint64_t, std::uint64_t) {
    if (number != instructions::count_call) return;
    [[maybe_unused]] const ssize_t written = write(static_cast<int>(pipe), &counted, sizeof counted);
}

} // namespace

extern "C" int qemu_plugin_install(std::uint64_t id, const void *, int, char **) {
    qemu_plugin_register_vcpu_tb_trans_cb(id, watch_block);
    qemu_plugin_register_vcpu_syscall_cb(id, answer);
    return 0;
}
