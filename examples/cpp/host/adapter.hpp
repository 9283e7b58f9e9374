// adapter.hpp: an adapter for a plugin host. The host's callback gets packets, or MIDI 1.0 bytes, each with the
// frame at which it is due, and passes on events of the other kind with their frames.
//
// `prepare` takes all memory. `process` takes none, locks nothing and throws nothing, whatever the input is:
// a packet that is refused is reported, and the loop goes on after it. Its buffers are small on purpose;
// larger ones save calls and change nothing.
#ifndef ADAPTER_HPP
#define ADAPTER_HPP

#include "larboardyuzu.hpp"

#include <algorithm>
#include <array>
#include <cstddef>
#include <cstdint>
#include <vector>

namespace host
{

using larboardyuzu::Bytes;
using larboardyuzu::Flags;
using larboardyuzu::Kind;
using larboardyuzu::kind_of;
using larboardyuzu::Status;
using larboardyuzu::View;
using larboardyuzu::Words;

using Frame = std::uint32_t;
using Frames = View<const Frame>;

// The bytes of one packet, for the MIDI 1.0 stream of a group. They are the adapter's: copy what is kept.
struct Midi1Event {
    Frame frame;
    std::uint8_t group;
    Bytes bytes;
};

// The words of whole packets, which are the adapter's, too. An exclusive has many packets: cut them by
// words_in_packet.
struct UmpEvent {
    Frame frame;
    Words words;
};

// A packet or byte that was lost: it was refused (status), or it has no counterpart (kind). The frame is that
// of the packet or byte at which the loss was found, which for an exclusive that is cut off is the one that cut
// it. A host that needs the frame at which it began passes offsets, which come back in the lines.
struct Loss {
    Frame frame;
    Status status;
    Kind kind;
};

// Packets to MIDI 1.0 events.
class DownAdapter
{
  public:
    [[nodiscard]] Status prepare(std::uint32_t room, std::size_t pieces_at_once, Flags flags = {})
    {
        // a call stops once fewer than down_size places are left, also before a short packet
        bytes.resize(2 * larboardyuzu::down_size(room));
        pieces.resize(std::max<std::size_t>(pieces_at_once, 1));
        kept = 0;
        down = {};
        return down.open(room, flags);
    }

    // The transport was stopped, or the port was connected anew: forgets all that came. It may be called in a
    // callback.
    void reset() noexcept
    {
        kept = 0;
        down.reset();
    }

    // Takes the words of one callback. They may end within a packet, and the next callback's go on there;
    // then that packet is due at frame 0. frames[i] is that of the packet which is the i-th to begin in these
    // words. A host that has its events one by one calls `down.packet` with each, and needs none of this.
    template <class Send, class Report>
    void process(Words words, Frames frames, Send &&send, Report &&report) noexcept
    {
        const std::size_t completed = complete(words, send, report);
        const Words rest = run(words.from(completed), frames, send, report);
        std::copy(rest.begin(), rest.end(), part.begin() + kept);
        kept += rest.size();
    }

  private:
    // Adds words to the packet with which the last callback ended, and takes it once it is whole. Returns how
    // many it used.
    template <class Send, class Report> std::size_t complete(Words words, Send &send, Report &report) noexcept
    {
        if (kept == 0)
            return 0;
        const std::size_t more = std::min(larboardyuzu::words_in_packet(part[0]) - kept, words.size());
        std::copy_n(words.begin(), more, part.begin() + kept);
        kept += more;
        if (kept == larboardyuzu::words_in_packet(part[0])) {
            const Words whole { part.data(), kept };
            kept = 0;
            // it is due now
            run(whole, {}, send, report);
        }
        return more;
    }

    // Takes packets to the end. Returns the words of a last packet that aren't all there.
    template <class Send, class Report>
    Words run(Words words, Frames frames, Send &send, Report &report) noexcept
    {
        std::size_t packet = 0;
        while (!words.empty()) {
            const auto block = down.packets(words, 0, bytes, pieces);
            std::size_t at = 0;
            for (std::size_t i = 0; i < block->items; i++, packet++) {
                const auto &piece = pieces[i];
                const Frame frame = packet < frames.size() ? frames[packet] : 0;
                if (piece.written > 0)
                    send(Midi1Event { frame, piece.lane, { bytes.data() + at, piece.written } });
                if (kind_of(piece) != Kind::NoLine)
                    report(Loss { frame, Status::Done, kind_of(piece) });
                at += piece.written;
            }
            if (block->refused > 0) {
                report(Loss { packet < frames.size() ? frames[packet] : 0, block.status, Kind::NoLine });
                packet++;
            }
            words = words.from(block->taken);
            if (block->taken == 0)
                return block.status == Status::BadWordCount ? words : Words {};
        }
        return {};
    }

    larboardyuzu::Down down;
    std::vector<std::uint8_t> bytes;
    std::vector<larboardyuzu::Piece> pieces;
    std::array<std::uint32_t, 4> part {};
    std::size_t kept = 0;
};

// MIDI 1.0 bytes to packets of a group.
class UpAdapter
{
  public:
    [[nodiscard]] Status prepare(std::uint8_t group, std::uint32_t room, Flags flags = {})
    {
        words.resize(2 * larboardyuzu::up_size(room));
        up = {};
        return up.open(group, room, flags);
    }

    void reset() noexcept { up.reset(); }

    // Takes the bytes of one callback; frames[i] is that of byte i.
    template <class Send, class Report>
    void process(Bytes bytes, Frames frames, Send &&send, Report &&report) noexcept
    {
        std::size_t at = 0;
        while (at < bytes.size()) {
            // the offsets are the places of the bytes in this callback
            const auto block = up.bytes(bytes.from(at), at, words, outcomes);
            std::size_t from = 0;
            for (std::size_t i = 0; i < block->items; i++) {
                const auto &outcome = outcomes[i];
                const Frame frame = frame_of(frames, outcome.offset);
                if (outcome.written > 0)
                    send(UmpEvent { frame, { words.data() + from, outcome.written } });
                for (const auto &line : { outcome.first, outcome.second })
                    if (kind_of(line) != Kind::NoLine)
                        report(Loss { frame, Status::Done, kind_of(line) });
                from += outcome.written;
            }
            at += block->taken;
            if (block->refused > 0)
                report(Loss { frame_of(frames, at - 1), block.status, Kind::NoLine });
            if (block->taken == 0)
                return;
        }
    }

  private:
    static Frame frame_of(Frames frames, std::uint64_t at) noexcept
    {
        return at < frames.size() ? frames[at] : 0;
    }

    larboardyuzu::Up up;
    std::vector<std::uint32_t> words;
    std::array<larboardyuzu::Outcome, 8> outcomes {};
};

} // namespace host

#endif
