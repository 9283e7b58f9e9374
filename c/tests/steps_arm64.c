/* Steps a 64-bit ARM through interrupts.c: an exception after each instruction, whose handler keeps the
 * registers of integers, and with KEEPS_VECTORS the vector registers, too. */
void step_on(void);
void step_off(void);
void spoil_registers(void);

#if defined(KEEPS_VECTORS)
#define KEEP                                                                                               \
    "    .irp n, 0, 1, 2, 3, 4, 5, 6, 7, 8, 9, 10, 11, 12, 13, 14, 15\n"                                   \
    "    str q\\n, [sp, #(256 + 16 * \\n)]\n"                                                              \
    "    .endr\n"                                                                                          \
    "    .irp n, 16, 17, 18, 19, 20, 21, 22, 23, 24, 25, 26, 27, 28, 29, 30, 31\n"                         \
    "    str q\\n, [sp, #(256 + 16 * \\n)]\n"                                                              \
    "    .endr\n"                                                                                          \
    "    mrs x21, fpcr\n"                                                                                  \
    "    mrs x22, fpsr\n"
#define RETURN                                                                                             \
    "    .irp n, 0, 1, 2, 3, 4, 5, 6, 7, 8, 9, 10, 11, 12, 13, 14, 15\n"                                   \
    "    ldr q\\n, [sp, #(256 + 16 * \\n)]\n"                                                              \
    "    .endr\n"                                                                                          \
    "    .irp n, 16, 17, 18, 19, 20, 21, 22, 23, 24, 25, 26, 27, 28, 29, 30, 31\n"                         \
    "    ldr q\\n, [sp, #(256 + 16 * \\n)]\n"                                                              \
    "    .endr\n"                                                                                          \
    "    msr fpcr, x21\n"                                                                                  \
    "    msr fpsr, x22\n"
#else
#define KEEP ""
#define RETURN ""
#endif

__asm__(".section .text.steps,\"ax\"\n"
        ".balign 2048\n"
        "step_vectors:\n"
        ".rept 4\n"
        "    mrs x0, esr_el1\n"
        "    b faulted\n"
        ".balign 128\n"
        ".endr\n"
        "    sub sp, sp, #768\n"
        "    str x0, [sp]\n"
        "    b stepped\n"
        ".balign 128\n"
        ".rept 11\n"
        "    mrs x0, esr_el1\n"
        "    b faulted\n"
        ".balign 128\n"
        ".endr\n"
        "stepped:\n"
        "    .irp n, 1, 2, 3, 4, 5, 6, 7, 8, 9, 10, 11, 12, 13, 14, 15, 16, 17, 18, 19, 20, 21, 22, 23, 24\n"
        "    str x\\n, [sp, #(8 * \\n)]\n"
        "    .endr\n"
        "    .irp n, 25, 26, 27, 28, 29, 30\n"
        "    str x\\n, [sp, #(8 * \\n)]\n"
        "    .endr\n"
        "    mrs x0, esr_el1\n"
        "    lsr x1, x0, #26\n"
        "    cmp x1, #0x33\n" /* a step of the same level */
        "    b.ne faulted\n"
        "    mrs x19, elr_el1\n"
        "    mrs x20, spsr_el1\n" KEEP "    bl interrupted\n" RETURN "    msr elr_el1, x19\n"
        "    orr x20, x20, #(1 << 21)\n" /* one instruction, and an exception again */
        "    msr spsr_el1, x20\n"
        "    .irp n, 0, 1, 2, 3, 4, 5, 6, 7, 8, 9, 10, 11, 12, 13, 14, 15, 16, 17, 18, 19, 20, 21, 22, 23\n"
        "    ldr x\\n, [sp, #(8 * \\n)]\n"
        "    .endr\n"
        "    .irp n, 24, 25, 26, 27, 28, 29, 30\n"
        "    ldr x\\n, [sp, #(8 * \\n)]\n"
        "    .endr\n"
        "    add sp, sp, #768\n"
        "    eret\n"
        ".previous\n");

void step_on(void)
{
    __asm__ volatile("ldr x0, =step_vectors\n"
                     "    msr vbar_el1, x0\n"
                     "    msr oslar_el1, xzr\n"
                     "    mrs x0, mdscr_el1\n"
                     "    mov x1, #((1 << 13) | 1)\n" /* within this level, and step */
                     "    orr x0, x0, x1\n"
                     "    msr mdscr_el1, x0\n"
                     "    isb\n"
                     "    msr daifclr, #8\n"
                     "    isb"
                     :
                     :
                     : "x0", "x1", "memory");
}

void step_off(void)
{
    __asm__ volatile("msr daifset, #8\n    isb" : : : "memory");
}

/* Leaves other values in the vector registers that a call needn't keep, as any code of a handler may. */
void spoil_registers(void)
{
    __asm__ volatile(".irp n, 0, 1, 2, 3, 4, 5, 6, 7, 16, 17, 18, 19, 20, 21, 22, 23, 24, 25, 26, 27\n"
                     "    movi v\\n\\().16b, #0xA5\n"
                     "    .endr\n"
                     "    .irp n, 28, 29, 30, 31\n"
                     "    movi v\\n\\().16b, #0xA5\n"
                     "    .endr"
                     :
                     :
                     : "v0", "v1", "v2", "v3", "v4", "v5", "v6", "v7", "v16", "v17", "v18", "v19", "v20",
                       "v21", "v22", "v23", "v24", "v25", "v26", "v27", "v28", "v29", "v30", "v31");
}
