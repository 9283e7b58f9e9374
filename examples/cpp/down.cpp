// One packet to MIDI 1.0 bytes in C++: the handle closes itself.
#include "larboardyuzu.hpp"

#include <array>
#include <cstdint>
#include <cstdio>

int main()
{
    constexpr std::uint32_t room = 1024;
    constexpr std::array<std::uint32_t, 2> words { 0x40903C00, 0xC9240000 };
    static std::array<std::uint8_t, larboardyuzu::down_size(room)> bytes;
    larboardyuzu::Down down;

    if (down.open(room) != larboardyuzu::Status::Done)
        return 1;
    const auto piece = down.packet(words, 0, bytes);
    if (!piece)
        return 1;
    std::printf("group %u:", unsigned { piece->lane });
    for (std::size_t i = 0; i < piece->written; i++)
        std::printf(" %02X", unsigned { bytes[i] });
    std::printf("\n");
    return 0;
}
