/* usb split and usb pack. */
#include "program.h"

#include <stdlib.h>

enum {
    OUTCOMES = 100
};

int run_split(const options *given)
{
    bytes input = read_all(stdin);
    size_t at = 0;

    for (; input.size - at >= 4; at += 4) {
        larboardyuzu_carried carried;
        uint32_t status = larboardyuzu_usb_carried(input.at + at, 4, &carried);
        if (status == LARBOARDYUZU_NOTHING)
            fprintf(stderr, "%lu %u reserved-event\n", (unsigned long)at, (unsigned)input.at[at] >> 4);
        else if (status == LARBOARDYUZU_DONE)
            add_bytes(&lanes[carried.cable], carried.bytes, carried.length);
        else
            must(false, "an event isn't taken");
    }
    write_lanes(given->folder);
    free(input.at);
    return at < input.size ? refused_input(at) : 0;
}

static larboardyuzu_usb usb = LARBOARDYUZU_CLOSED;
static uint8_t *events;
static size_t events_size;
static bytes output;

static void put_outcome(const larboardyuzu_outcome *outcome, const uint8_t *at, unsigned cable)
{
    add_bytes(&output, at, outcome->written);
    list_line(&outcome->first, cable);
    list_line(&outcome->second, cable);
}

/* A call for each byte: how many bytes are taken, and the status of the byte after them. */
static size_t take_each(const bytes *input, uint32_t *status, unsigned cable)
{
    *status = LARBOARDYUZU_DONE;
    for (size_t at = 0; at < input->size; at++) {
        larboardyuzu_outcome outcome;
        *status = larboardyuzu_usb_byte(&usb, input->at[at], at, events, events_size, &outcome);
        if (*status != LARBOARDYUZU_DONE)
            return at;
        put_outcome(&outcome, events, cable);
    }
    return input->size;
}

/* Block calls. */
static size_t take_many(const bytes *input, uint32_t *status, unsigned cable)
{
    static larboardyuzu_outcome outcomes[OUTCOMES];
    size_t at = 0;

    for (;;) {
        larboardyuzu_block block;
        size_t written = 0;
        *status = larboardyuzu_usb_bytes(&usb, input->at + at, input->size - at, at, events, events_size,
                                         outcomes, OUTCOMES, &block);
        for (size_t i = 0; i < block.items; i++) {
            put_outcome(&outcomes[i], events + written, cable);
            written += outcomes[i].written;
        }
        must(written == block.written, "the outcomes don't have the events");
        at += block.taken;
        if (!goes_on(*status, &block))
            return at - block.refused;
    }
}

int run_pack(const options *given)
{
    bytes input = read_all(stdin);
    larboardyuzu_line line;
    uint32_t status;
    size_t at;
    int code = 0;

    events_size = LARBOARDYUZU_USB_SIZE((size_t)given->room) + (given->is_single ? 0 : 1000);
    events = malloc(events_size);
    must(events != NULL, "no memory");
    must(larboardyuzu_usb_open(&usb, given->group, given->room) == LARBOARDYUZU_DONE, "not opened");
    at = given->is_single ? take_each(&input, &status, given->group)
                          : take_many(&input, &status, given->group);
    if (status != LARBOARDYUZU_DONE)
        code = refused(status, at);
    else if (larboardyuzu_usb_end(&usb, &line) == LARBOARDYUZU_DONE)
        list_line(&line, given->group);
    larboardyuzu_usb_close(&usb);
    write_output(&output);
    free(events);
    free(input.at);
    return code;
}
