/* Interrupts over the library, without an operating system: after each instruction of a translation the
 * processor is interrupted, and the handler translates over handles of its own. start_x86_64.c and
 * steps_arm64.c step the processor, and say what their handlers keep. Each run is the same, whatever the
 * load of the machine. The last line is "interrupts: R rounds, W wrong, and H in the handler". */
#include "larboardyuzu.h"
#include "own_heap.h"

enum {
    ROOM = 64,
    ROUNDS = 2,
    MOST_STEPS = 200000 /* a handler that keeps too little may let a loop run for ever */
};

void put_text(const char *text, size_t size);
void power_off(void);
void step_on(void);
void step_off(void);
void spoil_registers(void);
void bare_main(void);
void interrupted(void);

typedef struct handles {
    larboardyuzu_down down;
    larboardyuzu_up up;
    larboardyuzu_parser parser;
    larboardyuzu_usb usb;
    size_t at; /* in the input */
} handles;

static handles of_loop, of_handler;
static uint32_t wanted, sum_of_handler;
static unsigned steps, wrong_in_handler;

static const uint32_t input[] = {
    0x40903C00, 0xC9240000, /* a note */
    0x40B00700, 0x80000000, /* a controller */
    0x40C00001, 0x05000102, /* a program with its bank */
    0x40200001, 0x80000000, /* a registered parameter */
    0x30160102, 0x03040506, /* an exclusive of three packets */
    0x30260708, 0x090A0B0C, 0x30310D00, 0x00000000, 0x10F80000, /* a clock */
    0x40803C00, 0x80000000                                      /* the end of the note */
};

static void put_number(unsigned number)
{
    char digits[12];
    size_t at = sizeof digits;

    do {
        digits[--at] = (char)('0' + number % 10);
        number /= 10;
    } while (number > 0);
    put_text(digits + at, sizeof digits - at);
}

static void ends_with(const char *text)
{
    size_t size = 0;

    while (text[size] != 0)
        size++;
    put_text(text, size);
    power_off();
}

static uint32_t add(uint32_t sum, uint32_t number)
{
    return sum * 31 + number;
}

/* A byte of a stream goes up, to the parser and to USB. */
static uint32_t sum_of_byte(handles *it, uint8_t byte, uint32_t sum)
{
    uint32_t words[LARBOARDYUZU_UP_SIZE(ROOM)];
    uint8_t bytes[LARBOARDYUZU_USB_SIZE(ROOM)];
    larboardyuzu_outcome outcome;

    sum = add(sum, larboardyuzu_up_byte(&it->up, byte, 0, words, LARBOARDYUZU_UP_SIZE(ROOM), &outcome));
    for (size_t i = 0; i < outcome.written; i++)
        sum = add(sum, words[i]);
    sum = add(sum, larboardyuzu_parser_byte(&it->parser, byte, 0, bytes, sizeof bytes, &outcome));
    for (size_t i = 0; i < outcome.written; i++)
        sum = add(sum, bytes[i]);
    sum = add(sum, larboardyuzu_usb_byte(&it->usb, byte, 0, bytes, sizeof bytes, &outcome));
    for (size_t i = 0; i < outcome.written; i++)
        sum = add(sum, bytes[i]);
    return sum;
}

/* The next packet goes down, and its bytes on. */
static uint32_t sum_of_packet(handles *it, uint32_t sum)
{
    uint8_t bytes[LARBOARDYUZU_DOWN_SIZE(ROOM)];
    larboardyuzu_piece piece;
    size_t count = larboardyuzu_words_in_packet(input[it->at]);

    sum = add(sum, larboardyuzu_down_packet(&it->down, input + it->at, count, it->at, bytes, sizeof bytes,
                                            &piece));
    for (size_t i = 0; i < piece.written; i++)
        sum = sum_of_byte(it, bytes[i], add(sum, bytes[i]));
    it->at = (it->at + count) % (sizeof input / sizeof input[0]);
    return sum;
}

static uint32_t sum_of_round(handles *it)
{
    uint32_t sum = 17;

    do {
        sum = sum_of_packet(it, sum);
    } while (it->at != 0);
    return sum;
}

/* What an interrupt does: it takes one packet further. */
void interrupted(void)
{
    if (++steps > MOST_STEPS)
        ends_with("interrupts: the loop doesn't end\n");
    sum_of_handler = sum_of_packet(&of_handler, of_handler.at == 0 ? 17 : sum_of_handler);
    if (of_handler.at == 0 && sum_of_handler != wanted)
        wrong_in_handler++;
    spoil_registers();
}

static bool opens(handles *it)
{
    return larboardyuzu_down_open(&it->down, ROOM, 0) == LARBOARDYUZU_DONE
           && larboardyuzu_up_open(&it->up, 0, ROOM, 0) == LARBOARDYUZU_DONE
           && larboardyuzu_parser_open(&it->parser, ROOM) == LARBOARDYUZU_DONE
           && larboardyuzu_usb_open(&it->usb, 0, ROOM) == LARBOARDYUZU_DONE;
}

void bare_main(void)
{
    unsigned wrong = 0;

    if (!opens(&of_loop) || !opens(&of_handler))
        ends_with("interrupts: no memory\n");
    sum_of_round(&of_loop); /* (the first one finds no bank and no parameter selected) */
    sum_of_round(&of_handler);
    wanted = sum_of_round(&of_loop);
    if (sum_of_round(&of_handler) != wanted)
        ends_with("interrupts: two handles differ\n");
    for (int round = 0; round < ROUNDS; round++) {
        uint32_t sum;
        step_on();
        sum = sum_of_round(&of_loop);
        step_off();
        wrong += sum != wanted;
    }
    if (steps < 1000)
        ends_with("interrupts: none came\n");
    put_text("interrupts: ", 12);
    put_number(ROUNDS);
    put_text(" rounds, ", 9);
    put_number(wrong);
    put_text(" wrong, and ", 12);
    put_number(wrong_in_handler);
    ends_with(" in the handler\n");
}
