/* The reset of a bare Cortex-M33, QEMU's mps2-an505: the FPU where it is used, then main over semihosting. */
#include <stdint.h>
#include <stdlib.h>

extern uint32_t stack_top, bss_start, bss_end;
extern void initialise_monitor_handles(void);
extern int main(void);
void reset(void);

/* any fault: says so and ends the emulator with an error */
static void fault(void) {
    register uint32_t r0 __asm("r0") = 4; /* SYS_WRITE0 */
    register const void *r1 __asm("r1") = "FAULT\n";
    __asm volatile("bkpt 0xAB" : "+r"(r0) : "r"(r1) : "memory");
    r0 = 0x18; /* SYS_EXIT */
    r1 = (const void *)0x20023; /* run-time error */
    __asm volatile("bkpt 0xAB" : "+r"(r0) : "r"(r1) : "memory");
    for (;;) {}
}

__attribute__((section(".vectors"), used)) static const void *const vectors[16] = {
    &stack_top, reset, fault, fault, fault, fault, fault, fault, 0, 0, 0, fault, fault, 0, fault, fault,
};

void reset(void) {
#ifdef __ARM_FP
    *(volatile uint32_t *)0xE000ED88 |= 0xFu << 20; /* CPACR: CP10 and CP11 */
    __asm volatile("dsb\n isb");
#ifdef FPSCR /* another rounding mode, for the control run */
    __asm volatile("vmsr fpscr, %0" : : "r"(FPSCR));
#endif
#endif
    for (uint32_t *word = &bss_start; word < &bss_end; word++) *word = 0;
    initialise_monitor_handles();
    exit(main());
}

/* newlib's exit calls them */
void _init(void) {}
void _fini(void) {}
