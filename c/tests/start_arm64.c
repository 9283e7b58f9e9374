/* Starts bare.c on a 64-bit ARM without an operating system: the board `virt` of qemu-system-aarch64. It
 * does what the library needs: the vector registers on, the MMU on with Normal memory, unaligned accesses
 * allowed, unless CHECKS_ALIGNMENT is set. */
#include <stddef.h>
#include <stdint.h>

void start(void);
void faulted(uint64_t syndrome);
void bare_main(void);
void put_text(const char *text, size_t size);
void power_off(void);

/* The serial port of the board, in its first gigabyte, which is Device memory. */
static volatile uint32_t *const port = (volatile uint32_t *)0x09000000;

/* A table of the first level, of gigabytes that are mapped to themselves. */
static _Alignas(4096) __attribute__((section(".tables"))) uint64_t table[512];

enum {
    BLOCK = 1,
    NORMAL = 1 << 2, /* the second of the kinds of memory below */
    SHAREABLE = 3 << 8,
    ACCESSED = 1 << 10
};

__asm__(".section .text.start,\"ax\"\n"
        ".globl _start\n"
        "_start:\n"
        "    ldr x0, =stack_top\n"
        "    mov sp, x0\n"
        "    mrs x0, cpacr_el1\n" /* the vector registers */
        "    orr x0, x0, #(3 << 20)\n"
        "    msr cpacr_el1, x0\n"
        "    ldr x0, =vectors\n"
        "    msr vbar_el1, x0\n"
        "    isb\n"
        "    b start\n"
        ".previous\n"
        ".section .text.vectors,\"ax\"\n"
        ".balign 2048\n"
        "vectors:\n"
        ".rept 16\n"
        "    mrs x0, esr_el1\n"
        "    b faulted\n"
        ".balign 128\n"
        ".endr\n"
        ".previous\n");

void start(void)
{
    const uint64_t control = (UINT64_C(2) << 32) | 1 << 23 | 3 << 12 | 1 << 10 | 1 << 8 | 25;
    uint64_t system;

    table[0] = BLOCK | ACCESSED;
    table[1] = 0x40000000 | BLOCK | ACCESSED | SHAREABLE | NORMAL;
    __asm__ volatile("msr mair_el1, %0\n msr tcr_el1, %1\n msr ttbr0_el1, %2\n dsb sy\n isb"
                     :
                     : "r"((uint64_t)0xFF00), "r"(control), "r"(table)
                     : "memory");
    __asm__ volatile("mrs %0, sctlr_el1" : "=r"(system));
    system = (system | 1 | 1 << 2 | 1 << 12) & ~(uint64_t)2; /* MMU and caches on */
#if defined(CHECKS_ALIGNMENT)
    system |= 2;
#endif
    __asm__ volatile("msr sctlr_el1, %0\n isb" : : "r"(system) : "memory");
    bare_main();
}

void put_text(const char *text, size_t size)
{
    for (size_t i = 0; i < size; i++)
        *port = (uint8_t)text[i];
}

void power_off(void)
{
    register uint64_t x0 __asm__("x0") = 0x84000008; /* PSCI SYSTEM_OFF */
    __asm__ volatile("hvc 0" : "+r"(x0) : : "memory");
    for (;;)
        continue;
}

void faulted(uint64_t syndrome)
{
    static const char digits[] = "0123456789ABCDEF";

    put_text("bare: fault ", 12);
    for (unsigned shift = 32; shift > 0; shift -= 4)
        put_text(&digits[syndrome >> (shift - 4) & 15], 1);
    put_text("\n", 1);
    power_off();
}
