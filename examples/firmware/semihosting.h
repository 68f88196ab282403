/* Semihosting: a debugger or an emulator prints for a program that has no system. On a device without one, replace
 * print by your own. */
#ifndef SEMIHOSTING_H
#define SEMIHOSTING_H
#include <stdint.h>

static inline void semihosting(uint32_t operation, uintptr_t argument) {
#if defined(__riscv)
    register uint32_t a0 __asm__("a0") = operation;
    register uintptr_t a1 __asm__("a1") = argument;
    /* these three instructions, uncompressed and on one page */
    __asm__ volatile(".balign 16\n.option push\n.option norvc\nslli x0, x0, 0x1f\nebreak\nsrai x0, x0, 7\n.option pop"
                     : "+r"(a0)
                     : "r"(a1)
                     : "memory");
#else
    register uint32_t r0 __asm__("r0") = operation;
    register uintptr_t r1 __asm__("r1") = argument;
    __asm__ volatile("bkpt 0xAB" : "+r"(r0) : "r"(r1) : "memory");
#endif
}

/* Prints a text that ends with a zero byte. */
static inline void print(const char *text) { semihosting(4, (uintptr_t)text); }

/* Ends the emulator, with status 0 or 1. */
__attribute__((noreturn)) static inline void leave(int status) {
    semihosting(0x18, status == 0 ? 0x20026 : 0x20023);
    for (;;) {}
}
#endif
