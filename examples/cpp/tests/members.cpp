// members.cpp: each member and function of larboardyuzu.hpp is called once and gives what the standards say
// (M2-104-UM, M2-101-UM, M2-115-U, the USB Device Class Definition for MIDI Devices 1.0), and a handle that
// was moved from is closed.
#include "larboardyuzu.hpp"

#include <array>
#include <cstdio>
#include <cstdlib>
#include <fstream>
#include <iterator>
#include <string>
#include <type_traits>
#include <vector>

#if __cplusplus >= 202002L
#include <span>
#endif

using namespace larboardyuzu;

#define CHECK(it)                                                                                            \
    do {                                                                                                     \
        if (!(it)) {                                                                                         \
            std::fprintf(stderr, "%s:%d: %s\n", __FILE__, __LINE__, #it);                                    \
            std::exit(1);                                                                                    \
        }                                                                                                    \
    } while (false)

// A number isn't taken for a status or a flag, and bytes not for words.
static_assert(!std::is_convertible_v<std::uint32_t, Status> && !std::is_convertible_v<Status, std::uint32_t>);
static_assert(!std::is_invocable_v<decltype(&Down::open), Down, std::uint32_t, bool>);
static_assert(!std::is_constructible_v<Words, std::vector<std::uint8_t>> &&
              !std::is_constructible_v<Words, int>);
static_assert(!std::is_constructible_v<View<std::uint8_t>, const std::vector<std::uint8_t> &>);
static_assert(std::is_constructible_v<Bytes, const std::vector<std::uint8_t> &>);
// Numbers in braces are words; they are no null pointer and a size, also of a buffer.
static_assert(Words { 0, 1 }.size() == 2 && Words { 7 }.size() == 1 && Words {}.empty());
template <class Any, class = decltype(Any { 0, 1 })> constexpr bool is_of_braces(int) { return true; }
template <class Any> constexpr bool is_of_braces(...) { return false; }
static_assert(is_of_braces<Words>(0) && is_of_braces<Bytes>(0) && !is_of_braces<View<std::uint8_t>>(0));
static_assert(!std::is_constructible_v<View<std::uint8_t>, std::nullptr_t, std::size_t>);
static_assert(!std::is_copy_constructible_v<Down> && std::is_nothrow_move_constructible_v<Down>);
static_assert(down_size(6) == 12 && down_size(1024) == 1026 && up_size(13) == 6 && usb_size(6) == 12);

namespace
{

constexpr std::uint32_t room = 64;
constexpr std::array<std::uint32_t, 2> note { 0x40903C00, 0xC9240000 };

template <class Range, class... Numbers> bool is(const Range &range, std::size_t size, Numbers... numbers)
{
    const std::array<std::uint32_t, sizeof...(numbers)> wanted { static_cast<std::uint32_t>(numbers)... };
    if (size != wanted.size())
        return false;
    for (std::size_t i = 0; i < size; i++)
        if (range[i] != wanted[i])
            return false;
    return true;
}

void moves()
{
    Down first, second;
    std::array<std::uint8_t, down_size(room)> bytes {};

    CHECK(first.open(room) == Status::Done && second.open(room) == Status::Done);
    CHECK(first.packet(std::array<std::uint32_t, 2> { 0x30160102, 0x03040506 }, 8, bytes));
    second = std::move(first);
    CHECK(!first.is_open() && second.is_open());
    CHECK(second.begun(0) && *second.begun(0) == 8);
    Down third = std::move(second);
    CHECK(!second.is_open() && third.is_open());
    CHECK(second.packet(note, 0, bytes).status == Status::HandleClosed);
    Down &same = third;
    third = std::move(same);
    CHECK(third.is_open() && third.begun(0));
    std::swap(first, third);
    CHECK(first.is_open() && !third.is_open());
    CHECK(first.open(room) == Status::AlreadyOpen);
    first.close();
    first.close();
    CHECK(!first.is_open() && first.reset() == Status::HandleClosed);
}

void views()
{
    const std::uint32_t array[] = { note[0], note[1] };
    std::vector<std::uint32_t> vector(array, array + 2);
    std::vector<std::uint8_t> bytes(down_size(room));
    Down down;

    CHECK(down.open(room) == Status::Done);
    CHECK(down.packet(array, 0, bytes)->written == 3);
    CHECK(down.packet(note, 0, bytes)->written == 3);
    CHECK(down.packet(vector, 0, bytes)->written == 3);
    CHECK(down.packet({ vector.data(), 2 }, 0, { bytes.data(), bytes.size() })->written == 3);
    CHECK(down.packet({ 0x40903C00, 0xC9240000 }, 0, bytes)->written == 3);
    CHECK(down.packet(Words(array).first(1), 0, bytes).status == Status::BadWordCount);
#if __cplusplus >= 202002L
    CHECK(down.packet(std::span(vector), 0, std::span(bytes))->written == 3);
#endif
    // the data of an empty vector is null
    CHECK(down.packets(std::vector<std::uint32_t> {}, 0, bytes, {}).status == Status::Done);
    CHECK(down.packet(note, 0, {}).status == Status::SmallBuffer && down.packet(note, 0, {})->need == 66);
}

void down_members()
{
    std::array<std::uint8_t, 2 * down_size(room)> bytes {};
    std::array<Piece, 4> pieces {};
    Down down;

    CHECK(down.open(room, Flags::OfBytes) == Status::BadFlags);
    CHECK(down.open(room, Flags::Compact | Flags::Paired) == Status::Done);
    const auto piece = down.packet(std::vector<std::uint32_t> { 0x42903C01, 0xC9240007 }, 40, bytes);
    CHECK(piece && piece->lane == 2 && is(bytes, piece->written, 0x90, 0x3C, 0x64));
    CHECK(kind_of(*piece) == Kind::NoteAttribute && piece->offset == 40 && piece->group == 2);
    CHECK(down.reset() == Status::Done);
    const std::array<std::uint32_t, 4> words { 0x20903C64, 0x20903E64, 0x20B06001, 0x20903C64 };
    const auto block = down.packets(words, 0, bytes, pieces);
    CHECK(block.status == Status::DataIncrement && block->taken == 3 && block->refused == 1 &&
          block->items == 2);
    CHECK(is(bytes, block->written, 0x90, 0x3C, 0x64, 0x3E, 0x64)); // running status
    CHECK(down.begun(0).status == Status::Nothing && down.begun(16).status == Status::BadGroup);
}

void bytes_members()
{
    const std::array<std::uint8_t, 4> stream { 0x90, 0x3C, 0x64, 0xF8 };
    std::array<std::uint32_t, 2 * up_size(room)> words {};
    std::array<std::uint8_t, 2 * usb_size(room)> bytes {};
    std::array<Outcome, 4> outcomes {};
    Up up;
    Parser parser;
    Usb usb;

    CHECK(up.open(3, room, Flags::Paired) == Status::Done && parser.open(room) == Status::Done);
    CHECK(usb.open(16, room) == Status::BadGroup && usb.open(3, room) == Status::Done);
    auto block = up.bytes(stream, 10, words, outcomes);
    CHECK(block && block->items == 2 && outcomes[0].offset == 12 && outcomes[0].written == 2);
    CHECK(is(words, block->written, 0x43903C00, 0xC9240000, 0x13F80000));
    block = parser.bytes(stream, 10, bytes, outcomes);
    CHECK(block && block->items == 2 && is(bytes, block->written, 0x90, 0x3C, 0x64, 0xF8));
    block = usb.bytes(stream, 10, bytes, outcomes);
    CHECK(block && is(bytes, block->written, 0x39, 0x90, 0x3C, 0x64, 0x3F, 0xF8, 0, 0));
    CHECK(up.byte(0xF0, 5, words) && up.end() && up.end()->offset == 5);
    CHECK(kind_of(*up.end()) == Kind::OpenExclusive && up.reset() == Status::Done);
    CHECK(up.end().status == Status::Nothing);
    const auto stray = up.byte(0x40, 7, words);
    CHECK(stray && stray->written == 0 && kind_of(stray->first) == Kind::Stray && stray->first.offset == 7);
    CHECK(parser.byte(0xF0, 5, bytes) && kind_of(*parser.end()) == Kind::OpenExclusive);
    CHECK(usb.byte(0xF0, 5, bytes) && kind_of(*usb.end()) == Kind::OpenExclusive);
    CHECK(parser.reset() == Status::Done && parser.end().status == Status::Nothing);
    CHECK(usb.reset() == Status::Done && usb.end().status == Status::Nothing);
}

void endpoint_members(const std::string &setup)
{
    std::vector<std::uint32_t> reply(LARBOARDYUZU_MOST_REPLY_WORDS);
    std::array<Replies, 4> replies {};
    Endpoint endpoint;

    CHECK(endpoint.open("= 3", room).status == Status::SetupSyntax);
    const auto broken = endpoint.open("endpoint = 3", room);
    CHECK(broken.status == Status::SetupRule && *broken == 1);
    CHECK(endpoint.open(setup, room));
    CHECK(endpoint.protocol() && *endpoint.protocol() == 2);
    const std::array<std::uint32_t, 4> request { 0xF0050100, 0, 0, 0 };
    const auto one = endpoint.packet(request, 0, reply);
    CHECK(one && heard_of(*one) == Heard::Answered && is(reply, one->written, 0xF0060100, 0, 0, 0));
    CHECK(*endpoint.protocol() == 1 && endpoint.reset() == Status::Done && *endpoint.protocol() == 2);
    const auto block = endpoint.packets(request, 0, reply, replies);
    CHECK(block && block->items == 1 && block->written == 4);
    CHECK(endpoint.muid(0) && *endpoint.muid(0) == 19088743 && endpoint.muid(1).status == Status::Nothing);
    CHECK(endpoint.profile(0) && endpoint.profile(0)->channel == 2 && !endpoint.profile(0)->is_on);
    CHECK(endpoint.profile(1).status == Status::Nothing && endpoint.begun(0).status == Status::Nothing);
}

void state_members()
{
    std::array<Fact, 4> facts {};
    State state, stream;

    CHECK(state.open(room, 4, 4) == Status::Done && stream.open(room, 4, 4, Flags::OfBytes) == Status::Done);
    CHECK(state.packet(note) == Status::Done && state.byte(0x90) == Status::OtherKind);
    CHECK(state.packets(std::array<std::uint32_t, 1> { 0x10F80000 })->taken == 1);
    const auto count = state.facts(0, 0, facts);
    CHECK(count && count->written == 1 && kind_of(facts[0]) == FactKind::On && facts[0].value == 0xC924);
    CHECK(state.facts(0, 0, {}).status == Status::SmallBuffer && state.facts(0, 0, {})->need == 1);
    CHECK(state.facts(0, LARBOARDYUZU_NO_CHANNEL, facts)->written == 1);
    CHECK(kind_of(facts[0]) == FactKind::RealTime && facts[0].count == 1);
    CHECK(state.reset() == Status::Done && state.facts(0, 0, {})->written == 0);
    CHECK(stream.byte(0xC2) == Status::Done && stream.bytes(std::array<std::uint8_t, 1> { 5 })->taken == 1);
    CHECK(stream.facts(0, 2, facts)->written == 1 && kind_of(facts[0]) == FactKind::Program);
}

void sysex8_members()
{
    const std::array<std::uint8_t, 2> payload { 0xA0, 0xA1 };
    std::array<std::uint32_t, 4> words {};
    std::array<std::uint8_t, 2 * room> bytes {};
    std::array<Part, 4> parts {};
    Sysex8 sysex8;

    CHECK(sysex8.open(0, room) == Status::BadStreams && sysex8.open(1, room) == Status::Done);
    CHECK(sysex8_cut(0, 1, payload, 0, words) == Status::Done &&
          sysex8_cut(0, 1, payload, 1, words) == Status::Nothing);
    CHECK(is(words, 4, 0x500301A0, 0xA1000000, 0, 0));
    const auto part = sysex8.packet(words, 0, bytes);
    CHECK(part && answer_of(*part) == Joined::Whole && is(bytes, part->written, 0xA0, 0xA1));
    CHECK(sysex8.packets(words, 0, bytes, parts)->items == 1);
    CHECK(sysex8.packet(std::array<std::uint32_t, 4> { 0x501201A0, 0, 0, 0 }, 32, bytes));
    CHECK(sysex8.begun(0, 1) && *sysex8.begun(0, 1) == 32);
    CHECK(sysex8.reset() == Status::Done && sysex8.begun(0, 1).status == Status::Nothing);
}

void functions()
{
    const std::array<std::uint8_t, 5> bytes { 0x20, 0x90, 0x3C, 0x64, 0x40 };
    const std::array<std::uint8_t, 7> payload { 1, 2, 3, 4, 5, 6, 7 };
    std::array<std::uint32_t, 2> words {};

    CHECK(name_of(Status::SmallBuffer).view() == "SMALL_BUFFER");
    CHECK(name_of(Kind::NoteAttribute).view() == "NOTE_ATTRIBUTE" &&
          name_of(Heard::NotCi).view() == "NOT_CI");
    CHECK(name_of(static_cast<Status>(1000)).view().empty());
    CHECK(words_in_packet(0xF0000000) == 4);
    const auto block = packets_in(bytes, words);
    CHECK(block.status == Status::BadSize && block->taken == 4 && is(words, block->written, 0x20903C64));
    CHECK(packets_in(Bytes(bytes).first(4), words, Flags::Paired).status == Status::BadFlags);
    CHECK(exclusive_packet(0, payload, 1, words) == Status::Done && is(words, 2, 0x30310700, 0));
    CHECK(usb_carried(std::array<std::uint8_t, 4> { 0x3F, 0xF8, 0, 0 })->cable == 3);
    CHECK(usb_carried(payload).status == Status::BadSize);
    CHECK(packet_line(std::array<std::uint32_t, 1> { 0x10F80000 }, 0)->view() ==
          "0 10F80000 system group=0 status=F8\n");
    CHECK(*scale_up(100, 7, 16) == 51492 && *scale_down(51492, 16, 7) == 100);
    CHECK(scale_up(128, 7, 16).status == Status::BadValue);
    for (std::uint32_t any = 6; any <= 1048576; any += any < 100 ? 1 : any) {
        CHECK(down_size(any) == larboardyuzu_down_size(any) && up_size(any) == larboardyuzu_up_size(any));
        CHECK(parser_size(any) == larboardyuzu_parser_size(any) &&
              usb_size(any) == larboardyuzu_usb_size(any));
    }
}

} // namespace

int main(int count, char **words)
{
    CHECK(count == 2);
    std::ifstream file(words[1]);
    const std::string setup { std::istreambuf_iterator<char>(file), std::istreambuf_iterator<char>() };
    moves();
    views();
    down_members();
    bytes_members();
    endpoint_members(setup);
    state_members();
    sysex8_members();
    functions();
    std::printf("members: ok\n");
    return 0;
}
