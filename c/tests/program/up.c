/* translate up. */
#include "program.h"

#include <stdlib.h>

enum {
    OUTCOMES = 100
};

static larboardyuzu_up up = LARBOARDYUZU_CLOSED;
static uint32_t *words;
static size_t words_size;
static bytes output;

static void put_outcome(const larboardyuzu_outcome *outcome, const uint32_t *at, unsigned group)
{
    add_words(&output, at, outcome->written, false);
    list_line(&outcome->first, group);
    list_line(&outcome->second, group);
}

/* A call for each byte: how many bytes are taken, and the status of the byte after them. */
static size_t take_each(const bytes *input, uint32_t *status, unsigned group)
{
    *status = LARBOARDYUZU_DONE;
    for (size_t at = 0; at < input->size; at++) {
        larboardyuzu_outcome outcome;
        *status = larboardyuzu_up_byte(&up, input->at[at], at, words, words_size, &outcome);
        if (*status != LARBOARDYUZU_DONE)
            return at;
        put_outcome(&outcome, words, group);
    }
    return input->size;
}

/* Block calls. */
static size_t take_many(const bytes *input, uint32_t *status, unsigned group)
{
    static larboardyuzu_outcome outcomes[OUTCOMES];
    size_t at = 0;

    for (;;) {
        larboardyuzu_block block;
        size_t written = 0;
        *status = larboardyuzu_up_bytes(&up, input->at + at, input->size - at, at, words, words_size,
                                        outcomes, OUTCOMES, &block);
        for (size_t i = 0; i < block.items; i++) {
            put_outcome(&outcomes[i], words + written, group);
            written += outcomes[i].written;
        }
        must(written == block.written, "the outcomes don't have the words");
        at += block.taken;
        if (!goes_on(*status, &block))
            return at - block.refused;
    }
}

int run_up(const options *given)
{
    bytes input = read_all(stdin);
    larboardyuzu_line line;
    uint32_t status;
    size_t at;
    int code = 0;

    words_size = LARBOARDYUZU_UP_SIZE((size_t)given->room) + (given->is_single ? 0 : 1000);
    words = malloc(words_size * sizeof words[0]);
    must(words != NULL, "no memory");
    must(larboardyuzu_up_open(&up, given->group, given->room, given->is_paired ? LARBOARDYUZU_PAIRED : 0u)
             == LARBOARDYUZU_DONE,
         "not opened");
    if (input.at == NULL)
        add_bytes(&input, NULL, 0);
    at = given->is_single ? take_each(&input, &status, given->group)
                          : take_many(&input, &status, given->group);
    if (status != LARBOARDYUZU_DONE)
        code = refused(status, at);
    else if (larboardyuzu_up_end(&up, &line) == LARBOARDYUZU_DONE)
        list_line(&line, given->group);
    larboardyuzu_up_close(&up);
    write_output(&output);
    free(words);
    free(input.at);
    return code;
}
