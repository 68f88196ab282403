/* Start code for a Cortex-M or a RISC-V of 32 bits without a system: from reset to main. Memory is laid out by
 * sections.ld. */
#include <stdint.h>

extern uint32_t data_in_flash[], data_start[], data_end[], bss_start[], bss_end[], stack_top[];
int main(void);

/* Variables get their first values, the others zeros; then main. */
__attribute__((used, noreturn)) static void start(void) {
    for (uint32_t *from = data_in_flash, *to = data_start; to != data_end;) *to++ = *from++;
    for (uint32_t *to = bss_start; to != bss_end;) *to++ = 0;
    main();
    for (;;) {}
}

#if defined(__riscv)
__attribute__((naked, section(".vectors"))) void _start(void) {
    __asm__ volatile(".option push\n.option norelax\nla gp, __global_pointer$\n.option pop\nla sp, stack_top\nj start");
}
#else
__attribute__((noreturn)) void _start(void) {
#if defined(__ARM_FP)
    *(volatile uint32_t *)0xE000ED88 |= 0xFu << 20; /* CPACR: the floating-point unit is off after a reset */
    __asm__ volatile("dsb\nisb");
#endif
    start();
}

static void stop(void) {
    for (;;) {}
}

/* The first word is the stack, the second what runs after a reset; then come the faults. */
__attribute__((section(".vectors"), used)) static const uintptr_t VECTORS[16] = {
    (uintptr_t)stack_top, (uintptr_t)_start, (uintptr_t)stop, (uintptr_t)stop,
    (uintptr_t)stop,      (uintptr_t)stop,   (uintptr_t)stop,
};
#endif
