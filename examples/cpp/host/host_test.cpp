// host_test.cpp: callbacks of 64 frames through the adapters, in two threads. The events, losses and frames
// have to be those of the single calls, and no callback may take or return memory. Words are cut anywhere
// between two callbacks, buffers are always too small for a callback, and a part of the packets and bytes is
// refused.
#include "adapter.hpp"

#include <cstdio>
#include <cstdlib>
#include <new>
#include <thread>
#include <utility>

// ---- Every request for memory in a callback is counted: those of C++, and those of the library.

static thread_local bool in_callback;
static thread_local long requests, events;

// (the sanitizers have functions of their own)
#ifndef UNCOUNTED
extern "C" {
void *__real_malloc(std::size_t size);
void *__real_realloc(void *block, std::size_t size);
void __real_free(void *block);

void *__wrap_malloc(std::size_t size)
{
    requests += in_callback;
    return __real_malloc(size);
}

void *__wrap_realloc(void *block, std::size_t size)
{
    requests += in_callback;
    return __real_realloc(block, size);
}

void __wrap_free(void *block)
{
    requests += in_callback;
    __real_free(block);
}
}

void *operator new(std::size_t size)
{
    requests += in_callback;
    if (void *block = __real_malloc(size))
        return block;
    std::abort();
}

void operator delete(void *block) noexcept
{
    requests += in_callback;
    __real_free(block);
}

void operator delete(void *block, std::size_t) noexcept { operator delete(block); }
#endif

// ---- What a callback passes on, in one form for both directions.

namespace
{

using host::Frame;
using host::Loss;
using larboardyuzu::kind_of;

struct Passed {
    Frame frame;
    std::uint8_t group;
    larboardyuzu::Status status;
    larboardyuzu::Kind kind;
    std::vector<std::uint32_t> places;

    bool operator==(const Passed &other) const
    {
        return frame == other.frame && group == other.group && status == other.status && kind == other.kind &&
               places == other.places;
    }
};

// A list with places for its items, so that a callback adds to it without memory.
struct Log {
    std::vector<Passed> list;
    std::size_t count = 0;

    Log() : list(512)
    {
        for (auto &it : list)
            it.places.reserve(64);
    }

    template <class Places>
    void add(Frame frame, std::uint8_t group, larboardyuzu::Status status, larboardyuzu::Kind kind,
             Places places)
    {
        if (count == list.size() || places.size() > 64)
            std::abort();
        Passed &it = list[count++];
        it.frame = frame, it.group = group, it.status = status, it.kind = kind;
        it.places.assign(places.begin(), places.end());
        events += in_callback;
    }

    void add(const Loss &loss) { add(loss.frame, 255, loss.status, loss.kind, host::Words {}); }
    void add(const host::Midi1Event &it)
    {
        add(it.frame, it.group, larboardyuzu::Status::Done, larboardyuzu::Kind::NoLine, it.bytes);
    }
    void add(const host::UmpEvent &it)
    {
        add(it.frame, 255, larboardyuzu::Status::Done, larboardyuzu::Kind::NoLine, it.words);
    }

    bool operator==(const Log &other) const
    {
        return count == other.count &&
               std::equal(list.begin(), list.begin() + static_cast<std::ptrdiff_t>(count),
                          other.list.begin());
    }
};

// The generator of docs/translation.md.
struct Draws {
    std::uint32_t state;

    std::uint32_t below(std::uint32_t count)
    {
        state = state * 1664525 + 1013904223;
        return (state >> 16) % count;
    }
    std::uint32_t word() { return below(0x10000) << 16 | below(0x10000); }
};

std::vector<std::uint32_t> drawn_packet(Draws &draws)
{
    const std::uint32_t group = draws.below(16) << 24, seven = draws.word() & 0x7F7F;
    switch (draws.below(8)) {
    case 0:
        return { 0x20900000 | group | seven };
    case 1:
        return { 0x20900080 | group | seven }; // refused
    case 2:
        return { 0x20B06000 | group | draws.below(2) << 8 }; // refused
    case 3:
        return { 0x40900000 | group | (seven & 0x7F00) | draws.below(2), draws.word() };
    case 4:
        return { 0x40200000 | group | seven, draws.word() };
    case 5:
        return { 0x30000000 | group | draws.below(4) << 20 | draws.below(8) << 16 | seven,
                 draws.word() & 0x7F7F7F7F };
    case 6:
        return { draws.word() & 0x000FFFFF }; // a utility packet
    default:
        return { 0xF0000101, 0x1F, 0, 0 };
    }
}

std::uint8_t drawn_byte(Draws &draws)
{
    static constexpr std::uint8_t status[] = { 0x90, 0xB0, 0xC0, 0xF0, 0xF7, 0xF8, 0xF4, 0xF2 };
    static constexpr std::uint8_t control[] = { 0x60, 0x61, 0x06, 0x65 };
    switch (draws.below(4)) {
    case 0:
        return status[draws.below(8)];
    case 1:
        return control[draws.below(4)];
    default:
        return static_cast<std::uint8_t>(draws.below(128));
    }
}

constexpr std::uint32_t room = 24, most_frames = 64;

// What each packet becomes by the single call.
void take_singly(larboardyuzu::Down &down, host::Words packet, Frame frame, Log &log)
{
    std::array<std::uint8_t, larboardyuzu::down_size(room)> bytes;
    const auto piece = down.packet(packet, 0, bytes);
    if (!piece)
        return log.add(Loss { frame, piece.status, larboardyuzu::Kind::NoLine });
    if (piece->written > 0)
        log.add(host::Midi1Event { frame, piece->lane, { bytes.data(), piece->written } });
    if (kind_of(*piece) != larboardyuzu::Kind::NoLine)
        log.add(Loss { frame, piece.status, kind_of(*piece) });
}

void take_singly(larboardyuzu::Up &up, std::uint8_t byte, Frame frame, Log &log)
{
    std::array<std::uint32_t, larboardyuzu::up_size(room)> words;
    const auto outcome = up.byte(byte, 0, words);
    if (!outcome)
        return log.add(Loss { frame, outcome.status, larboardyuzu::Kind::NoLine });
    if (outcome->written > 0)
        log.add(host::UmpEvent { frame, { words.data(), outcome->written } });
    for (const auto &line : { outcome->first, outcome->second })
        if (kind_of(line) != larboardyuzu::Kind::NoLine)
            log.add(Loss { frame, larboardyuzu::Status::Done, kind_of(line) });
}

// One callback down: some packets, cut in two calls somewhere. A packet that is cut is due at the start of
// the second.
bool down_callback(Draws &draws, host::DownAdapter &adapter, larboardyuzu::Down &single)
{
    static thread_local Log got, wanted;
    std::vector<std::uint32_t> words;
    std::vector<Frame> frames, starts;
    Frame frame = 0;
    for (std::uint32_t i = draws.below(24); i > 0; i--) {
        frame = std::min(most_frames - 1, frame + draws.below(6));
        frames.push_back(frame);
        starts.push_back(static_cast<Frame>(words.size()));
        const auto packet = drawn_packet(draws);
        words.insert(words.end(), packet.begin(), packet.end());
    }
    const std::size_t cut = words.empty() ? 0 : draws.below(static_cast<std::uint32_t>(words.size()) + 1);
    std::size_t before = 0;
    got.count = wanted.count = 0;
    for (std::size_t i = 0; i < starts.size(); i++) {
        const std::size_t size = larboardyuzu::words_in_packet(words[starts[i]]);
        before += starts[i] < cut;
        const bool is_cut = starts[i] < cut && cut < starts[i] + size;
        take_singly(single, { words.data() + starts[i], size }, is_cut ? 0 : frames[i], wanted);
    }
    const auto add = [](const auto &it) { got.add(it); };
    const host::Words all = words;
    const host::Frames all_frames = frames;
    in_callback = true;
    adapter.process(all.first(cut), all_frames.first(before), add, add);
    adapter.process(all.from(cut), all_frames.from(before), add, add);
    in_callback = false;
    return got == wanted;
}

bool up_callback(Draws &draws, host::UpAdapter &adapter, larboardyuzu::Up &single)
{
    static thread_local Log got, wanted;
    std::vector<std::uint8_t> bytes(draws.below(64));
    std::vector<Frame> frames;
    got.count = wanted.count = 0;
    for (auto &byte : bytes) {
        byte = drawn_byte(draws);
        frames.push_back(static_cast<Frame>(frames.size()));
        take_singly(single, byte, frames.back(), wanted);
    }
    const auto add = [](const auto &it) { got.add(it); };
    in_callback = true;
    adapter.process(bytes, frames, add, add);
    in_callback = false;
    return got == wanted;
}

// A number of callbacks in a thread; every hundredth begins anew. Returns how many differ.
long run(std::uint32_t seed, long callbacks)
{
    Draws draws { seed };
    host::DownAdapter down;
    host::UpAdapter up;
    larboardyuzu::Down single_down;
    larboardyuzu::Up single_up;
    long wrong = 0;
    const auto flags = larboardyuzu::Flags::Compact;

    if (down.prepare(room, 5, flags) != larboardyuzu::Status::Done ||
        up.prepare(3, room) != larboardyuzu::Status::Done ||
        single_down.open(room, flags) != larboardyuzu::Status::Done ||
        single_up.open(3, room) != larboardyuzu::Status::Done)
        return callbacks;
    for (long i = 0; i < callbacks; i++) {
        if (i % 100 == 0) {
            in_callback = true;
            down.reset();
            up.reset();
            in_callback = false;
            single_down.close();
            single_up.close();
            if (single_down.open(room, flags) != larboardyuzu::Status::Done ||
                single_up.open(3, room) != larboardyuzu::Status::Done)
                return callbacks;
        }
        wrong += !down_callback(draws, down, single_down);
        wrong += !up_callback(draws, up, single_up);
    }
    return wrong;
}

} // namespace

int main(int count, char **words)
{
    struct Run {
        long wrong, requests, events;
    };
    const long callbacks = count > 1 ? std::atol(words[1]) : 2000;
    Run runs[2] {};
    std::thread threads[2];

    for (std::uint32_t i = 0; i < 2; i++)
        threads[i] = std::thread([&it = runs[i], i, callbacks] {
            const long wrong = run(i + 1, callbacks);
            it = { wrong, requests, events };
        });
    for (auto &thread : threads)
        thread.join();
    const Run all { runs[0].wrong + runs[1].wrong, runs[0].requests + runs[1].requests,
                    runs[0].events + runs[1].events };
    if (all.wrong != 0 || all.requests != 0 || all.events < callbacks) {
        std::printf("host: %ld callbacks differ from the single calls, %ld requests for memory in callbacks, "
                    "%ld events\n",
                    all.wrong, all.requests, all.events);
        return 1;
    }
    std::printf("host: ok\n");
    return 0;
}
