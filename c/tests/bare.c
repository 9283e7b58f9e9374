/* A program without a C library, as firmware is: it has memcpy, memmove and memset (no_libc.c), the heap of
 * the example over a fixed block, and nothing else. A note goes down and up again. It says so by a call of
 * Linux; with NO_SYSTEM by the functions of start_arm64.c or start_x86_64.c, which run it without an
 * operating system. It is linked with -nostdlib. */
#include "larboardyuzu.h"
#include "own_heap.h"

enum {
    ROOM = 64
};

void bare_main(void);

#if defined(NO_SYSTEM)
void put_text(const char *text, size_t size);
void power_off(void);
#else
/* Where the program starts: a function wants the stack as a call leaves it. */
#if defined(__aarch64__)
__asm__(".globl _start\n_start: bl bare_main\n");
enum {
    WRITE = 64,
    EXIT = 93
};
static long system_call(long number, long first, const void *second, size_t third)
{
    register long x8 __asm__("x8") = number;
    register long x0 __asm__("x0") = first;
    register const void *x1 __asm__("x1") = second;
    register size_t x2 __asm__("x2") = third;
    __asm__ volatile("svc 0" : "+r"(x0) : "r"(x8), "r"(x1), "r"(x2) : "memory");
    return x0;
}
#elif defined(__x86_64__)
__asm__(".globl _start\n_start: call bare_main\n");
enum {
    WRITE = 1,
    EXIT = 60
};
static long system_call(long number, long first, const void *second, size_t third)
{
    long answer;
    __asm__ volatile("syscall"
                     : "=a"(answer)
                     : "a"(number), "D"(first), "S"(second), "d"(third)
                     : "rcx", "r11", "memory");
    return answer;
}
#endif
static void put_text(const char *text, size_t size)
{
    system_call(WRITE, 1, text, size);
}
#endif

static int translate(void)
{
    static const uint32_t note[] = { 0x40903C00, 0xC9240000 };
    static uint8_t bytes[LARBOARDYUZU_DOWN_SIZE(ROOM)];
    static uint32_t words[LARBOARDYUZU_UP_SIZE(ROOM)];
    larboardyuzu_down down = LARBOARDYUZU_CLOSED;
    larboardyuzu_up up = LARBOARDYUZU_CLOSED;
    larboardyuzu_piece piece;
    larboardyuzu_outcome outcome = { 0, 0, 0, { 0, 0 }, { 0, 0 } };

    if (larboardyuzu_down_open(&down, ROOM, 0) != LARBOARDYUZU_DONE
        || larboardyuzu_up_open(&up, 0, ROOM, 0) != LARBOARDYUZU_DONE
        || larboardyuzu_down_packet(&down, note, 2, 0, bytes, sizeof bytes, &piece) != LARBOARDYUZU_DONE)
        return 1;
    if (piece.written != 3 || bytes[0] != 0x90 || bytes[1] != 0x3C || bytes[2] != 0x64)
        return 2;
    for (size_t i = 0; i < piece.written; i++)
        if (larboardyuzu_up_byte(&up, bytes[i], i, words, LARBOARDYUZU_UP_SIZE(ROOM), &outcome)
            != LARBOARDYUZU_DONE)
            return 3;
    if (outcome.written != 2 || words[0] != note[0] || words[1] != note[1])
        return 4;
    larboardyuzu_down_close(&down);
    larboardyuzu_up_close(&up);
    return own_heap_used() == 0 ? 0 : 5;
}

void bare_main(void)
{
    static const char good[] = "bare: the note is the same\n", bad[] = "bare: FAILED\n";
    int code = translate();

    if (code == 0)
        put_text(good, sizeof good - 1);
    else
        put_text(bad, sizeof bad - 1);
#if defined(NO_SYSTEM)
    power_off();
#else
    system_call(EXIT, code, good, 0);
#endif
    for (;;)
        continue;
}
