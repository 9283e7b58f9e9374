/* Starts bare.c and interrupts.c on a 64-bit x86 without an operating system: a board `pc` of
 * qemu-system-x86_64, which enters by the note of a PVH kernel in 32-bit mode. It does what the library
 * needs: 64-bit mode, and the vector registers on. For interrupts.c it steps the processor: an exception after each
 * instruction, whose handler keeps all registers. With OWN_STACK the handler has a stack of its own (IST);
 * without it, the processor and the handler write below the stack pointer of what they interrupt. */
#include <stddef.h>
#include <stdint.h>

void start(void);
void faulted(uint64_t number);
void bare_main(void);
void put_text(const char *text, size_t size);
void power_off(void);
void step_on(void);
void step_off(void);
void spoil_registers(void);
void interrupted(void);
extern char stepped[], failed[];

#if defined(STEPS)
#define HANDLES "interrupted"
#else
#define HANDLES "failed"
#endif

__asm__(".section .note.PVH,\"a\",@note\n"
        ".long 4, 4, 18\n" /* XEN_ELFNOTE_PHYS32_ENTRY */
        ".asciz \"Xen\"\n"
        ".long _start\n"
        ".previous\n"
        ".section .text.start,\"ax\"\n"
        ".code32\n"
        ".globl _start\n"
        "_start:\n"
        "    movl $stack_top, %esp\n"
        "    movl $level3 + 3, level4\n" /* the first gigabyte, mapped to itself */
        "    movl $level2 + 3, level3\n"
        "    movl $0x83, %eax\n"
        "    movl $level2, %edi\n"
        "1:  movl %eax, (%edi)\n"
        "    addl $0x200000, %eax\n"
        "    addl $8, %edi\n"
        "    cmpl $level2 + 4096, %edi\n"
        "    jb 1b\n"
        "    movl $level4, %eax\n"
        "    movl %eax, %cr3\n"
        "    movl %cr4, %eax\n"
        "    orl $0x620, %eax\n" /* large addresses, and the vector registers with their exceptions */
        "    movl %eax, %cr4\n"
        "    movl $0xC0000080, %ecx\n"
        "    rdmsr\n"
        "    orl $0x100, %eax\n"
        "    wrmsr\n"
        "    movl %cr0, %eax\n"
        "    andl $~0xC, %eax\n"
        "    orl $0x80000003, %eax\n"
        "    movl %eax, %cr0\n"
        "    lgdt segments_at\n"
        "    ljmp $8, $long_mode\n"
        ".code64\n"
        "long_mode:\n"
        "    movl $16, %eax\n"
        "    movl %eax, %ds\n"
        "    movl %eax, %es\n"
        "    movl %eax, %ss\n"
        "    movabsq $stack_top, %rsp\n"
        "    call start\n"
        "1:  hlt\n"
        "    jmp 1b\n"
        ".globl stepped\n"
        "stepped:\n"
        "    .irp register, rax, rcx, rdx, rbx, rbp, rsi, rdi, r8, r9, r10, r11, r12, r13, r14, r15\n"
        "    pushq %\\register\n"
        "    .endr\n"
        "    movq %rsp, %rbp\n"
        "    andq $-16, %rsp\n"
        "    subq $512, %rsp\n"
        "    fxsave (%rsp)\n"
        "    cld\n"
        "    call " HANDLES "\n"
        "    fxrstor (%rsp)\n"
        "    movq %rbp, %rsp\n"
        "    .irp register, r15, r14, r13, r12, r11, r10, r9, r8, rdi, rsi, rbp, rbx, rdx, rcx, rax\n"
        "    popq %\\register\n"
        "    .endr\n"
        "    iretq\n"
        ".globl failed\n"
        "failed:\n"
        "    andq $-16, %rsp\n"
        "    movq %cr2, %rdi\n"
        "    call faulted\n"
        ".previous\n"
        ".data\n"
        ".balign 8\n"
        "segments: .quad 0, 0x00AF9B000000FFFF, 0x00CF93000000FFFF\n"
        ".globl task_segment\n"
        "task_segment: .quad 0, 0\n"
        "segments_at: .word . - segments - 1\n"
        "    .quad segments\n"
        ".previous\n"
        ".bss\n"
        ".balign 4096\n"
        "level4: .skip 4096\n"
        "level3: .skip 4096\n"
        "level2: .skip 4096\n"
        ".previous\n");

extern uint64_t task_segment[2];

/* The gates of the exceptions, and the task's segment, which has the handler's own stack. */
static struct {
    uint64_t low, high;
} gates[32];
static _Alignas(16) unsigned char own_stack[32768];
static _Alignas(16) uint32_t task[26];

static void set_gate(size_t number, uint64_t to, uint64_t stack)
{
    gates[number].low =
        (to & 0xFFFF) | 8 << 16 | stack << 32 | UINT64_C(0x8E) << 40 | (to >> 16 & 0xFFFF) << 48;
    gates[number].high = to >> 32;
}

void start(void)
{
    const uint64_t top = (uintptr_t)(own_stack + sizeof own_stack), at = (uintptr_t)task;
    struct __attribute__((packed)) {
        uint16_t size;
        uint64_t at;
    } gates_at = { sizeof gates - 1, (uintptr_t)gates };

    for (size_t number = 0; number < 32; number++)
        set_gate(number, (uintptr_t)failed, 0);
#if defined(OWN_STACK)
    set_gate(1, (uintptr_t)stepped, 1);
#else
    set_gate(1, (uintptr_t)stepped, 0);
#endif
    task[9] = (uint32_t)top; /* the first stack of the table of stacks */
    task[10] = (uint32_t)(top >> 32);
    task_segment[0] =
        (sizeof task - 1) | (at & 0xFFFFFF) << 16 | UINT64_C(0x89) << 40 | (at >> 24 & 0xFF) << 56;
    task_segment[1] = at >> 32;
    __asm__ volatile("lidt %0\n    ltr %1" : : "m"(gates_at), "r"((uint16_t)24) : "memory");
    bare_main();
}

void put_text(const char *text, size_t size)
{
    for (size_t i = 0; i < size; i++)
        __asm__ volatile("outb %0, $0xE9" : : "a"(text[i])); /* qemu's port of texts */
}

void power_off(void)
{
    __asm__ volatile("outl %0, %1" : : "a"(0), "Nd"((uint16_t)0xF4)); /* qemu's port of ends */
    for (;;)
        continue;
}

void faulted(uint64_t number)
{
    static const char digits[] = "0123456789ABCDEF";

    put_text("bare: fault ", 12);
    for (unsigned shift = 64; shift > 0; shift -= 4)
        put_text(&digits[number >> (shift - 4) & 15], 1);
    put_text("\n", 1);
    power_off();
}

void step_on(void)
{
    __asm__ volatile("pushfq\n    orq $0x100, (%%rsp)\n    popfq" : : : "cc", "memory");
}

void step_off(void)
{
    __asm__ volatile("pushfq\n    andq $~0x100, (%%rsp)\n    popfq" : : : "cc", "memory");
}

/* (the handler keeps all registers) */
void spoil_registers(void)
{
}
