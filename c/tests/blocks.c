/* Each block call does what the calls for one packet or byte do, wherever the input and the buffers are
 * cut: the single calls are put together here by the rules of the header, with every field of the block. */
#include "check.h"
#include "subjects.h"

#include <string.h>

enum {
    WORDS = 3000,
    BYTES = 4000,
    ROUNDS = 60
};

static uint32_t words[WORDS];
static uint8_t bytes[BYTES];

typedef struct result {
    uint32_t status;
    larboardyuzu_block block;
    places out;
    items all;
} result;

static input at_of(const subject *it, size_t at)
{
    input in;
    if (it->takes_words)
        in.words = words + at;
    else
        in.bytes = bytes + at;
    return in;
}

static uint64_t offset_of(const subject *it, size_t at)
{
    return UINT64_MAX - 999 + (it->takes_words ? 4 : 1) * (uint64_t)at; /* (past 2^64 it begins at 0) */
}

/* Whether a buffer is too small for the next packet or byte. */
static bool is_full(const subject *it, uint32_t room, size_t size, size_t item_count,
                    larboardyuzu_block *block)
{
    size_t most = it->most(room);

    if (!it->has_buffers)
        return false;
    block->need = size - block->written < most ? most : 0;
    block->need_items = block->items == item_count ? 1 : 0;
    return block->need > 0 || block->need_items > 0;
}

/* What a block call has to do, of single calls. */
static void expect(const subject *it, handle *one, uint32_t room, size_t at, size_t count, size_t size,
                   size_t item_count, result *to)
{
    static places out;
    static items item;
    larboardyuzu_block *block = &to->block;

    memset(to, 0xAA, sizeof *to);
    memset(block, 0, sizeof *block);
    for (to->status = LARBOARDYUZU_DONE; block->taken < count;) {
        size_t next = at + block->taken, length = 1, written;
        if (is_full(it, room, size, item_count, block)) {
            to->status = LARBOARDYUZU_SMALL_BUFFER;
            return;
        }
        if (it->takes_words)
            length = larboardyuzu_words_in_packet(words[next]);
        if (length > count - block->taken) {
            to->status = LARBOARDYUZU_BAD_WORD_COUNT;
            return;
        }
        to->status =
            it->one(one, at_of(it, next), length, offset_of(it, next), &out, it->most(room), &item);
        block->taken += length;
        if (to->status != LARBOARDYUZU_DONE) {
            block->refused = length;
            return;
        }
        written = written_of(it, &item, 0);
        memcpy(to->out.bytes + it->place * block->written, out.bytes, it->place * written);
        block->written += written;
        if (says_something(it, &item, 0)) {
            memcpy((char *)&to->all + it->item * block->items, &item, it->item);
            block->items++;
        }
    }
}

static void must_agree(const subject *it, const result *wanted, const result *got, size_t item_count)
{
    CHECK(got->status == wanted->status);
    CHECK(got->block.taken == wanted->block.taken && got->block.written == wanted->block.written);
    CHECK(got->block.items == wanted->block.items && got->block.refused == wanted->block.refused);
    CHECK(got->block.need == wanted->block.need && got->block.need_items == wanted->block.need_items);
    CHECK(!memcmp(&got->out, &wanted->out, sizeof got->out));
    for (size_t i = 0; i < got->block.items; i++)
        CHECK(is_same_item(it, &got->all, i, &wanted->all, i));
    /* what lies after the items is unchanged */
    for (size_t i = it->item * got->block.items; it->has_buffers && i < it->item * item_count; i++)
        CHECK(((const unsigned char *)&got->all)[i] == 0xAA);
}

/* How often each way to stop came. */
static long stops[24];

static void blocks_of(const subject *it, uint32_t room, uint32_t flags)
{
    static result wanted, got;
    handle many = { LARBOARDYUZU_CLOSED }, one = { LARBOARDYUZU_CLOSED };
    const size_t all = it->takes_words ? WORDS : BYTES;
    size_t at = 0, most = it->most(room), limit = most < 100 ? 4 * most : most + 60;

    CHECK(it->open(&many, room, flags) == LARBOARDYUZU_DONE);
    CHECK(it->open(&one, room, flags) == LARBOARDYUZU_DONE);
    while (at < all) {
        size_t count = random_number() % 60, item_count = random_number() % (ITEMS + 1);
        size_t size =
            most > 100 && random_number() % 8 ? most + random_number() % 60 : random_number() % (limit + 1);
        if (count > all - at)
            count = all - at;
        memset(&got, 0xAA, sizeof got);
        memset(&got.block, 0x55, sizeof got.block);
        got.status = it->many(&many, at_of(it, at), count, offset_of(it, at), &got.out, size, &got.all,
                              item_count, &got.block);
        expect(it, &one, room, at, count, size, item_count, &wanted);
        must_agree(it, &wanted, &got, item_count);
        CHECK(random_number() % 64 > 0 || it->reads_same(&many, &one));
        CHECK(got.status < COUNT(stops));
        stops[got.status]++;
        at += got.block.taken;
    }
    CHECK(it->reads_same(&many, &one));
    it->close(&many);
    it->close(&one);
}

/* A block of nothing is done, with or without buffers; null may stand for an array without items. */
static void empty_blocks(const subject *it)
{
    handle open = { LARBOARDYUZU_CLOSED };
    larboardyuzu_block block;
    input none;

    memset(&none, 0, sizeof none);
    CHECK(it->open(&open, MOST_ROOM, 0) == LARBOARDYUZU_DONE);
    memset(&block, 0x55, sizeof block);
    CHECK(it->many(&open, none, 0, 0, NULL, 0, NULL, 0, &block) == LARBOARDYUZU_DONE);
    CHECK(block.taken == 0 && block.written == 0 && block.items == 0 && block.refused == 0);
    CHECK(block.need == 0 && block.need_items == 0);
    it->close(&open);
    memset(&block, 0x55, sizeof block);
    CHECK(it->many(&open, none, 0, 0, NULL, 0, NULL, 0, &block) == LARBOARDYUZU_HANDLE_CLOSED);
    CHECK(block.taken == 0 && block.written == 0 && block.items == 0 && block.refused == 0);
    CHECK(block.need == 0 && block.need_items == 0);
}

/* The loop of the header takes all, whatever is refused and however small the buffers are. */
static void whole_loop(const subject *it, uint32_t room)
{
    static places out;
    static items all_items;
    handle open = { LARBOARDYUZU_CLOSED };
    const size_t all = it->takes_words ? WORDS : BYTES, size = it->most(room);
    larboardyuzu_block block;
    size_t at = 0;
    uint32_t status;

    CHECK(it->open(&open, room, 0) == LARBOARDYUZU_DONE);
    do {
        status = it->many(&open, at_of(it, at), all - at, offset_of(it, at), &out, size, &all_items,
                          1 + random_number() % ITEMS, &block);
        at += block.taken;
    } while (status != LARBOARDYUZU_DONE && block.taken > 0);
    CHECK(status == LARBOARDYUZU_DONE && at == all);
    it->close(&open);
}

int main(void)
{
    for (int round = 0; round < ROUNDS; round++) {
        random_words(words, WORDS);
        random_bytes(bytes, BYTES);
        for (size_t i = 0; i < SUBJECTS; i++) {
            uint32_t room = 6 + random_number() % (MOST_ROOM - 5);
            blocks_of(&subjects[i], room, random_number() & subjects[i].flags);
            whole_loop(&subjects[i], room);
        }
    }
    for (size_t i = 0; i < SUBJECTS; i++)
        empty_blocks(&subjects[i]);
    CHECK(stops[LARBOARDYUZU_DONE] > 0 && stops[LARBOARDYUZU_SMALL_BUFFER] > 0);
    CHECK(stops[LARBOARDYUZU_BAD_WORD_COUNT] > 0 && stops[LARBOARDYUZU_BAD_COUNT] > 0);
    CHECK(stops[LARBOARDYUZU_HIGH_BIT] > 0 && stops[LARBOARDYUZU_DATA_INCREMENT] > 0);
    CHECK(stops[LARBOARDYUZU_EXCLUSIVE_TOO_LONG] > 0);
    printf("blocks: %d rounds of %d kinds, ok\n", ROUNDS, SUBJECTS);
    return 0;
}
