/* What tests/stack.c needs of <ucontext.h>, for ARM and RISC-V of 32 bits, also without a system: a call on another
 * stack. */
#include <stddef.h>
typedef struct ucontext {
    struct {
        void *ss_sp;
        size_t ss_size;
    } uc_stack;
    struct ucontext *uc_link;
    void (*call)(void);
} ucontext_t;

#if defined(__riscv)
__attribute__((naked, noinline)) static void call_on(void *stack __attribute__((unused)),
                                                     void (*call)(void) __attribute__((unused))) {
    __asm__ volatile("addi sp, sp, -16\nsw ra, 12(sp)\nsw s0, 8(sp)\nmv s0, sp\nmv sp, a0\njalr a1\nmv sp, s0\nlw s0, "
                     "8(sp)\nlw ra, 12(sp)\naddi sp, sp, 16\nret");
}
#else
__attribute__((naked, noinline)) static void call_on(void *stack __attribute__((unused)),
                                                     void (*call)(void) __attribute__((unused))) {
    __asm__ volatile("push {r4, lr}\nmov r4, sp\nmov sp, r0\nblx r1\nmov sp, r4\npop {r4, pc}");
}
#endif

static inline void getcontext(ucontext_t *context) { context->call = NULL; }
static inline void makecontext(ucontext_t *context, void (*call)(void), int none) {
    (void)none;
    context->call = call;
}
static inline void swapcontext(ucontext_t *from, ucontext_t *to) {
    (void)from;
    call_on((char *)to->uc_stack.ss_sp + to->uc_stack.ss_size, to->call);
}
