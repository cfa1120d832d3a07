// Runs a call of the library on a stack of its own, painted before, so that all that the call leaves there and in the registers
// can be looked at.
#pragma once

#include <algorithm>
#include <cstdint>
#include <cstring>

#include "model.hpp"

// The registers that a call need not keep, as they are when it returns.
struct Registers {
    static constexpr int general = 9, all = 25;
    static constexpr const char *names[all] = {"rax",  "rcx",  "rdx",  "rsi",  "rdi",   "r8",    "r9",    "r10",   "r11",
                                               "xmm0", "xmm1", "xmm2", "xmm3", "xmm4",  "xmm5",  "xmm6",  "xmm7",  "xmm8",
                                               "xmm9", "xmm10", "xmm11", "xmm12", "xmm13", "xmm14", "xmm15"};
    std::uint64_t word[general];
    std::uint64_t pair[all - general][2];
};
static_assert(sizeof(Registers) == 328, "call_on_stack writes so many bytes");

// Calls fn(argument[0], .., argument[11]) with the stack pointer at top, writes down the registers, and comes back. Six arguments
// lie on that stack, as the calling convention of x86-64 has it; the rest are in registers. fn may take fewer than twelve, which are
// one more than any call has, so that the stack stays aligned; it does not look at the others. The registers that fn has to keep are cleared before, since it saves them on its stack, and a caller
// may have had the block in one. The others are cleared too, so that what is found there afterwards fn has left.
extern "C" std::uint16_t call_on_stack(void *top, const void *fn, const std::uint64_t *argument, Registers *after);
__asm__(
    ".text\n"
    ".globl call_on_stack\n"
    ".type call_on_stack, @function\n"
    "call_on_stack:\n"
    "    push %rbp\n"
    "    push %rbx\n"
    "    push %r12\n"
    "    push %r13\n"
    "    push %r14\n"
    "    push %r15\n"
    "    push %rcx\n"
    "    mov %rsp, %rbp\n"
    "    xor %ebx, %ebx\n"
    "    xor %r12d, %r12d\n"
    "    xor %r13d, %r13d\n"
    "    xor %r14d, %r14d\n"
    "    xor %r15d, %r15d\n"
    "    .irp n, 0,1,2,3,4,5,6,7,8,9,10,11,12,13,14,15\n"
    "    pxor %xmm\\n, %xmm\\n\n"
    "    .endr\n"
    "    mov %rdi, %rsp\n"
    "    mov %rsi, %r11\n"
    "    mov %rdx, %rax\n"
    "    push 88(%rax)\n"
    "    push 80(%rax)\n"
    "    push 72(%rax)\n"
    "    push 64(%rax)\n"
    "    push 56(%rax)\n"
    "    push 48(%rax)\n"
    "    mov 40(%rax), %r9\n"
    "    mov 32(%rax), %r8\n"
    "    mov 24(%rax), %rcx\n"
    "    mov 16(%rax), %rdx\n"
    "    mov 8(%rax), %rsi\n"
    "    mov (%rax), %rdi\n"
    "    xor %eax, %eax\n"
    "    xor %r10d, %r10d\n"
    "    call *%r11\n"
    "    mov (%rbp), %rbx\n"
    "    mov %rax, (%rbx)\n"
    "    mov %rcx, 8(%rbx)\n"
    "    mov %rdx, 16(%rbx)\n"
    "    mov %rsi, 24(%rbx)\n"
    "    mov %rdi, 32(%rbx)\n"
    "    mov %r8, 40(%rbx)\n"
    "    mov %r9, 48(%rbx)\n"
    "    mov %r10, 56(%rbx)\n"
    "    mov %r11, 64(%rbx)\n"
    "    .irp n, 0,1,2,3,4,5,6,7,8,9,10,11,12,13,14,15\n"
    "    movups %xmm\\n, 72+16*\\n(%rbx)\n"
    "    .endr\n"
    "    lea 8(%rbp), %rsp\n"
    "    pop %r15\n"
    "    pop %r14\n"
    "    pop %r13\n"
    "    pop %r12\n"
    "    pop %rbx\n"
    "    pop %rbp\n"
    "    ret\n"
    ".size call_on_stack, . - call_on_stack\n");

// How often the block lies in memory, at any place, aligned or not. Half of a PIN block is half of a secret, so each half of 32
// bits is looked for by itself, and the one that is there more often counts; a whole block has one of each. Nothing smaller is
// looked for: 16 bits are met by chance.
inline unsigned copies_in(const void *from, std::size_t many, std::uint64_t block)
{
    const unsigned char *at = static_cast<const unsigned char *>(from);
    const std::uint32_t low = static_cast<std::uint32_t>(block), high = static_cast<std::uint32_t>(block >> 32);
    unsigned lows = 0, highs = 0;
    for (std::size_t i = 0; i + 4 <= many; i++) {
        std::uint32_t here;
        std::memcpy(&here, at + i, 4);
        lows += here == low;
        highs += here == high;
    }
    return std::max(lows, highs);
}

class Stack {
public:
    static constexpr std::size_t arguments = 48;  // bytes above the call: those six

    void paint(unsigned char with)
    {
        color = with;
        std::memset(bytes, color, sizeof bytes);
        std::memset(painted, color, sizeof painted);
    }

    std::uint16_t call(const void *fn, const std::uint64_t (&argument)[12], Registers &after)
    {
        std::uint16_t number = call_on_stack(bytes + sizeof bytes, fn, argument, &after);
        lowest = 0;
        while (lowest + sizeof painted <= sizeof bytes - arguments && std::memcmp(bytes + lowest, painted, sizeof painted) == 0)
            lowest += sizeof painted;
        while (lowest < sizeof bytes - arguments && bytes[lowest] == color)
            lowest++;
        return number;
    }

    // How deep the call went: from its return address down to the lowest byte that it changed.
    std::size_t depth() const { return sizeof bytes - arguments - lowest; }

    // How often the block lies in what the call has left; with its arguments, where it was not handed the block as one.
    unsigned copies(std::uint64_t block, bool handed) const
    {
        return copies_in(bytes + lowest, depth() + (handed ? 0 : arguments), block);
    }

private:
    unsigned char color = 0;
    unsigned char painted[64] = {};
    std::size_t lowest = 0;
    alignas(16) unsigned char bytes[32768];
};

// A pool in lent memory whose calls run on a painted stack.
struct Painted {
    model::Memory m;
    Stack stack;
    Registers registers = {};
    std::uint64_t value = 0;
    std::uint16_t small = 0;

    std::uint16_t call(const model::Ask &ask, unsigned char paint)
    {
        stack.paint(paint);
        return call(ask);
    }

    // The same on the stack as the call before left it.
    std::uint16_t call(const model::Ask &ask)
    {
        std::uint64_t a[12] = {address(m.links.data()), m.links.size(), address(m.values.data()), m.values.size(),
                               address(&m.book), ask.list, 0, 0, 0, 0, 0, 0};
        m.place = {0xa5a5, 0xa5a5};
        switch (ask.call) {
        case model::setup:
            a[4] = ask.lists;
            a[5] = address(ask.shares);
            a[6] = address(ask.limits);
            a[7] = address(&m.book);
            break;
        case model::check:
            a[5] = address(&m.place);
            break;
        case model::length:
            a[6] = address(&small);
            a[7] = address(&m.place);
            break;
        case model::push_back:
        case model::push_front:
            a[6] = ask.value;
            a[7] = address(&m.place);
            break;
        case model::pop_back:
        case model::pop_front:
            a[6] = address(&value);
            a[7] = address(&m.place);
            break;
        case model::read_forward:
        case model::read_backward:
            a[6] = address(m.out.data());
            a[7] = m.out.size();
            a[8] = ask.at;
            a[9] = address(&small);
            a[10] = address(&m.place);
            break;
        case model::clear:
            a[6] = address(&m.place);
            break;
        default:
            a[6] = model::pushes(ask.call) ? ask.value : address(&value);
            break;
        }
        return stack.call(function(ask.call), a, registers);
    }

private:
    static const void *function(model::Call call)
    {
        const void *const functions[model::calls] = {
            pointer(flailreeve_setup),           pointer(flailreeve_check),            pointer(flailreeve_length),
            pointer(flailreeve_push_back),       pointer(flailreeve_push_front),       pointer(flailreeve_pop_back),
            pointer(flailreeve_pop_front),       pointer(flailreeve_read_forward),     pointer(flailreeve_read_backward),
            pointer(flailreeve_clear),           pointer(flailreeve_quick_push_back),  pointer(flailreeve_quick_push_front),
            pointer(flailreeve_quick_pop_back),  pointer(flailreeve_quick_pop_front)};
        return functions[call];
    }
    template <typename Function>
    static const void *pointer(Function *fn)
    {
        return reinterpret_cast<const void *>(fn);
    }
    static std::uint64_t address(const void *at) { return reinterpret_cast<std::uint64_t>(at); }
};
