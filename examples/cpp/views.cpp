// What larboardyuzu.hpp takes as words and buffers: numbers in braces, arrays, vectors and, with C++20, spans and
// ranges. It prints a line for each.
#include "larboardyuzu.hpp"

#include <array>
#include <cstdint>
#include <cstdio>
#include <map>
#include <vector>

#if __cplusplus >= 202002L
#include <algorithm>
#include <ranges>
#include <span>
#endif

namespace ly = larboardyuzu;

static void print(const char *what, const ly::Result<ly::Piece> &piece, ly::Bytes bytes)
{
    std::printf("%s:", what);
    if (piece)
        for (const std::uint8_t byte : bytes.first(piece->written))
            std::printf(" %02X", unsigned { byte });
    else
        std::printf(" %.*s", static_cast<int>(ly::name_of(piece.status).length), ly::name_of(piece.status).view().data());
    std::printf("\n");
}

#if __cplusplus >= 202002L
static_assert(std::ranges::contiguous_range<ly::Words> && std::ranges::borrowed_range<ly::Words>);
static_assert(std::ranges::view<ly::Words> && std::is_convertible_v<std::span<const std::uint32_t>, ly::Words>);

// A View is a borrowed range, so an iterator into one that is gone is still an iterator of the array.
static std::uint32_t greatest(const std::array<std::uint32_t, 2> &words)
{
    return *std::ranges::max_element(ly::Words { words });
}
#else
static std::uint32_t greatest(const std::array<std::uint32_t, 2> &words)
{
    return words[0] > words[1] ? words[0] : words[1];
}
#endif

int main()
{
    constexpr std::uint32_t room = 64;
    std::array<std::uint8_t, ly::down_size(room)> bytes {};
    const std::array<std::uint32_t, 2> note { 0x40903C00, 0xC9240000 };
    std::vector<std::uint32_t> short_note { 0x20903C64 };
    std::map<int, ly::Down> ports;
    ly::Down &down = ports[3];

    if (down.open(room) != ly::Status::Done)
        return 1;
    print("numbers in braces", down.packet({ 0x40903C00, 0xC9240000 }, 0, bytes), bytes);
    print("one number", down.packet({ 0x20903E64 }, 0, bytes), bytes);
    // The first word is a whole utility packet.
    print("two numbers, of which one is a packet", down.packet({ 0, 1 }, 0, bytes), bytes);
    print("no numbers", down.packet({}, 0, bytes), bytes);
    print("an array", down.packet(note, 0, bytes), bytes);
    print("a vector", down.packet(short_note, 0, bytes), bytes);
    print("a pointer and a size", down.packet({ note.data(), note.size() }, 0, { bytes.data(), bytes.size() }), bytes);
    print("a buffer of three bytes", down.packet(note, 0, ly::View(bytes.data(), 3)), bytes);
    std::printf("the greatest word: %08X\n", unsigned { greatest(note) });
    return 0;
}
