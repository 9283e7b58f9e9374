// larboardyuzu.hpp: the calls of larboardyuzu.h as C++17. A handle closes itself, and statuses, kinds and
// flags have types of their own. larboardyuzu.h has the statuses, ranges and units of each call.
//
// No call throws. `open` allocates all the memory that a handle will ever need.
// What C must promise, C++ must promise too: only one call at a time may use a handle, even if it is const.
//
//     larboardyuzu::Down down;
//     if (down.open(1024) != larboardyuzu::Status::Done)
//         return;
//     std::array<std::uint8_t, larboardyuzu::down_size(1024)> bytes;
//     if (const auto piece = down.packet(words, offset, bytes))
//         send(piece->lane, bytes.data(), piece->written);
#ifndef LARBOARDYUZU_HPP
#define LARBOARDYUZU_HPP

#ifdef Status
#error "include larboardyuzu.hpp before Xlib.h, which defines Status as a macro"
#endif

#include "larboardyuzu.h"

#include <cstddef>
#include <cstdint>
#include <initializer_list>
#include <iterator>
#include <string_view>
#include <type_traits>
#include <utility>

#if __cplusplus >= 202002L && __has_include(<ranges>)
#include <ranges>
#endif

namespace larboardyuzu
{

// ---- The numbers of the header.

// The result of a call: Done, or why it refused.
enum class Status : std::uint32_t {
    // generate.py: enum larboardyuzu_status
    Done = LARBOARDYUZU_DONE,
    NoMemory = LARBOARDYUZU_NO_MEMORY,
    HandleClosed = LARBOARDYUZU_HANDLE_CLOSED,
    AlreadyOpen = LARBOARDYUZU_ALREADY_OPEN,
    BadRoom = LARBOARDYUZU_BAD_ROOM,
    BadWordCount = LARBOARDYUZU_BAD_WORD_COUNT,
    SmallBuffer = LARBOARDYUZU_SMALL_BUFFER,
    BadCount = LARBOARDYUZU_BAD_COUNT,
    HighBit = LARBOARDYUZU_HIGH_BIT,
    DataIncrement = LARBOARDYUZU_DATA_INCREMENT,
    DataDecrement = LARBOARDYUZU_DATA_DECREMENT,
    ExclusiveTooLong = LARBOARDYUZU_EXCLUSIVE_TOO_LONG,
    BadGroup = LARBOARDYUZU_BAD_GROUP,
    Nothing = LARBOARDYUZU_NOTHING,
    OtherKind = LARBOARDYUZU_OTHER_KIND,
    BadStreams = LARBOARDYUZU_BAD_STREAMS,
    SetupSyntax = LARBOARDYUZU_SETUP_SYNTAX,
    SetupRule = LARBOARDYUZU_SETUP_RULE,
    BadBits = LARBOARDYUZU_BAD_BITS,
    BadValue = LARBOARDYUZU_BAD_VALUE,
    StateFull = LARBOARDYUZU_STATE_FULL,
    BadFlags = LARBOARDYUZU_BAD_FLAGS,
    BadSize = LARBOARDYUZU_BAD_SIZE,
    BadChannel = LARBOARDYUZU_BAD_CHANNEL
    // generate.py: end
};

// Flags of a call, joined by |.
enum class Flags : std::uint32_t {
    // generate.py: enum larboardyuzu_flag
    Compact = LARBOARDYUZU_COMPACT,
    Paired = LARBOARDYUZU_PAIRED,
    OfBytes = LARBOARDYUZU_OF_BYTES,
    LittleEndian = LARBOARDYUZU_LITTLE_ENDIAN
    // generate.py: end
};

constexpr Flags operator|(Flags one, Flags other) noexcept
{
    return static_cast<Flags>(static_cast<std::uint32_t>(one) | static_cast<std::uint32_t>(other));
}

// The kind of a line of the listing.
enum class Kind : std::uint8_t {
    // generate.py: enum larboardyuzu_kind
    NoLine = LARBOARDYUZU_NO_LINE,
    Utility = LARBOARDYUZU_UTILITY,
    Stream = LARBOARDYUZU_STREAM,
    Reserved = LARBOARDYUZU_RESERVED,
    Data8 = LARBOARDYUZU_DATA8,
    Flex = LARBOARDYUZU_FLEX,
    NoteAttribute = LARBOARDYUZU_NOTE_ATTRIBUTE,
    NoteController = LARBOARDYUZU_NOTE_CONTROLLER,
    NoteBend = LARBOARDYUZU_NOTE_BEND,
    NoteManagement = LARBOARDYUZU_NOTE_MANAGEMENT,
    NullParameter = LARBOARDYUZU_NULL_PARAMETER,
    RelativeParameter = LARBOARDYUZU_RELATIVE_PARAMETER,
    MisplacedController = LARBOARDYUZU_MISPLACED_CONTROLLER,
    FineController = LARBOARDYUZU_FINE_CONTROLLER,
    StrayExclusive = LARBOARDYUZU_STRAY_EXCLUSIVE,
    CutExclusive = LARBOARDYUZU_CUT_EXCLUSIVE,
    OpenExclusive = LARBOARDYUZU_OPEN_EXCLUSIVE,
    Stray = LARBOARDYUZU_STRAY,
    Undefined = LARBOARDYUZU_UNDEFINED,
    CutMessage = LARBOARDYUZU_CUT_MESSAGE,
    OpenMessage = LARBOARDYUZU_OPEN_MESSAGE,
    IgnoredDataEntry = LARBOARDYUZU_IGNORED_DATA_ENTRY
    // generate.py: end
};

// The endpoint's reaction to a stream message or a complete exclusive.
enum class Heard : std::uint8_t {
    // generate.py: enum larboardyuzu_heard
    Nothing = LARBOARDYUZU_HEARD_NOTHING,
    NotCi = LARBOARDYUZU_HEARD_NOT_CI,
    Short = LARBOARDYUZU_HEARD_SHORT,
    BadAddress = LARBOARDYUZU_HEARD_BAD_ADDRESS,
    ReservedMuid = LARBOARDYUZU_HEARD_RESERVED_MUID,
    NoBlock = LARBOARDYUZU_HEARD_NO_BLOCK,
    Silent = LARBOARDYUZU_HEARD_SILENT,
    Collision = LARBOARDYUZU_HEARD_COLLISION,
    OldVersion = LARBOARDYUZU_HEARD_OLD_VERSION,
    NotOurs = LARBOARDYUZU_HEARD_NOT_OURS,
    Moved = LARBOARDYUZU_HEARD_MOVED,
    Report = LARBOARDYUZU_HEARD_REPORT,
    Broadcast = LARBOARDYUZU_HEARD_BROADCAST,
    Answered = LARBOARDYUZU_HEARD_ANSWERED,
    Passed = LARBOARDYUZU_HEARD_PASSED,
    Nak = LARBOARDYUZU_HEARD_NAK,
    NoAnswer = LARBOARDYUZU_HEARD_NO_ANSWER,
    BadFormat = LARBOARDYUZU_HEARD_BAD_FORMAT
    // generate.py: end
};

// The kind of a fact.
enum class FactKind : std::uint8_t {
    // generate.py: enum larboardyuzu_fact_kind
    On = LARBOARDYUZU_FACT_ON,
    Off = LARBOARDYUZU_FACT_OFF,
    Mode = LARBOARDYUZU_FACT_MODE,
    Poly = LARBOARDYUZU_FACT_POLY,
    Control = LARBOARDYUZU_FACT_CONTROL,
    Pressure = LARBOARDYUZU_FACT_PRESSURE,
    Bend = LARBOARDYUZU_FACT_BEND,
    Program = LARBOARDYUZU_FACT_PROGRAM,
    Registered = LARBOARDYUZU_FACT_REGISTERED,
    Assignable = LARBOARDYUZU_FACT_ASSIGNABLE,
    System = LARBOARDYUZU_FACT_SYSTEM,
    RealTime = LARBOARDYUZU_FACT_REAL_TIME
    // generate.py: end
};

// The effect of a packet on its stream's 8-bit exclusive.
enum class Joined : std::uint8_t {
    // generate.py: enum larboardyuzu_joined
    Other = LARBOARDYUZU_JOINED_OTHER,
    Held = LARBOARDYUZU_JOINED_HELD,
    Whole = LARBOARDYUZU_JOINED_WHOLE,
    Stray = LARBOARDYUZU_JOINED_STRAY,
    Restarted = LARBOARDYUZU_JOINED_RESTARTED,
    RestartedWhole = LARBOARDYUZU_JOINED_RESTARTED_WHOLE,
    Full = LARBOARDYUZU_JOINED_FULL,
    TooLong = LARBOARDYUZU_JOINED_TOO_LONG
    // generate.py: end
};

// ---- The structs of the header, and their numbers as enums.

using Line = larboardyuzu_line;
using Outcome = larboardyuzu_outcome;
using Block = larboardyuzu_block;
using Piece = larboardyuzu_piece;
using Replies = larboardyuzu_replies;
using Profile = larboardyuzu_profile;
using Fact = larboardyuzu_fact;
using Part = larboardyuzu_part;
using Carried = larboardyuzu_carried;

constexpr Kind kind_of(const Line &line) noexcept { return static_cast<Kind>(line.kind); }
constexpr Kind kind_of(const Piece &piece) noexcept { return static_cast<Kind>(piece.kind); }
constexpr Kind kind_of(const Replies &replies) noexcept { return static_cast<Kind>(replies.kind); }
constexpr FactKind kind_of(const Fact &fact) noexcept { return static_cast<FactKind>(fact.kind); }
constexpr Heard heard_of(const Replies &replies) noexcept { return static_cast<Heard>(replies.heard); }
constexpr Joined answer_of(const Part &part) noexcept { return static_cast<Joined>(part.answer); }

// The buffer size for one packet or byte. A smaller buffer is always refused.
constexpr std::size_t down_size(std::size_t room) noexcept { return LARBOARDYUZU_DOWN_SIZE(room); }
constexpr std::size_t up_size(std::size_t room) noexcept { return LARBOARDYUZU_UP_SIZE(room); }
constexpr std::size_t parser_size(std::size_t room) noexcept { return LARBOARDYUZU_PARSER_SIZE(room); }
constexpr std::size_t usb_size(std::size_t room) noexcept { return LARBOARDYUZU_USB_SIZE(room); }

// ---- Arguments and results of the calls.

// A pointer and an element count, like std::span. It can be constructed from an array, from anything with
// data() and size(), or from a pointer and a size; a View of const elements also from a list in braces, which
// lives until the end of the call that it is passed to. It doesn't own the elements, which must outlive it.
template <class T> class View
{
    // A range is accepted only if a pointer to its items converts to `T (*)[]`, which allows adding const but
    // not a derived or narrower type.
    template <class Range>
    using ArrayOf = std::remove_pointer_t<decltype(std::data(std::declval<Range &>()))> (*)[];

  public:
    constexpr View() noexcept = default;
    constexpr View(T *data, std::size_t size) noexcept : places(data), count(size) {}
    // Without this, { 0, 1 } would be a null pointer and a size.
    View(std::nullptr_t, std::size_t) = delete;
    template <class Item = T, class = std::enable_if_t<std::is_const_v<Item>>>
    constexpr View(std::initializer_list<std::remove_const_t<Item>> items) noexcept
        : View(items.begin(), items.size())
    {
    }
    template <class Range, class = std::enable_if_t<std::is_convertible_v<ArrayOf<Range>, T (*)[]>>>
    constexpr View(Range &&range) noexcept : places(std::data(range)), count(std::size(range))
    {
    }

    [[nodiscard]] constexpr T *data() const noexcept { return places; }
    [[nodiscard]] constexpr std::size_t size() const noexcept { return count; }
    [[nodiscard]] constexpr bool empty() const noexcept { return count == 0; }
    [[nodiscard]] constexpr T *begin() const noexcept { return places; }
    [[nodiscard]] constexpr T *end() const noexcept { return places + count; }
    constexpr T &operator[](std::size_t at) const noexcept { return places[at]; }
    // The first `size` elements, and the elements from `at` on. Neither may exceed size().
    [[nodiscard]] constexpr View first(std::size_t size) const noexcept { return { places, size }; }
    [[nodiscard]] constexpr View from(std::size_t at) const noexcept { return { places + at, count - at }; }

  private:
    T *places = nullptr;
    std::size_t count = 0;
};

using Words = View<const std::uint32_t>;
using Bytes = View<const std::uint8_t>;

// A status and the value that the call wrote. It is true if the status is Done. After a refusal the value is
// as described in larboardyuzu.h; a Block shows how far the call got.
template <class Value> struct [[nodiscard]] Result {
    Status status;
    Value value;

    constexpr explicit operator bool() const noexcept { return status == Status::Done; }
    constexpr const Value *operator->() const noexcept { return &value; }
    constexpr const Value &operator*() const noexcept { return value; }
};

// A text of the library, of at most `Most` bytes.
template <std::size_t Most> struct Text {
    std::uint8_t bytes[Most] = {};
    std::size_t length = 0;

    // The text, which is ASCII. It points into this struct.
    [[nodiscard]] std::string_view view() const noexcept
    {
        return { reinterpret_cast<const char *>(bytes), length };
    }
};
using Name = Text<LARBOARDYUZU_MOST_NAME>;
using PacketLine = Text<LARBOARDYUZU_MOST_LINE>;

// The status of a call of C as a Status.
inline Status status_of(std::uint32_t status) noexcept { return static_cast<Status>(status); }

// Calls a C function that writes a value, and returns the value together with the status.
template <class Value, class Call> Result<Value> result_of(Call &&call) noexcept
{
    Result<Value> result {};
    result.status = status_of(call(result.value));
    return result;
}

// ---- Handles.

// A C handle, initially closed. It can be moved, which leaves the source closed, but not copied.
template <class Raw, void (*Close)(Raw *)> class Handle
{
  public:
    Handle() noexcept = default;
    Handle(const Handle &) = delete;
    Handle &operator=(const Handle &) = delete;
    Handle(Handle &&other) noexcept : held(std::exchange(other.held, Raw LARBOARDYUZU_CLOSED)) {}
    Handle &operator=(Handle &&other) noexcept
    {
        if (this != &other) {
            close();
            held = std::exchange(other.held, Raw LARBOARDYUZU_CLOSED);
        }
        return *this;
    }
    ~Handle() { close(); }

    void close() noexcept { Close(&held); }
    [[nodiscard]] bool is_open() const noexcept { return held.is_open != 0; }

    // The C handle, to pass to C calls. Don't copy it.
    [[nodiscard]] Raw *raw() const noexcept { return &held; }

  private:
    // mutable, because even a C call that only reads needs exclusive use of the handle and may write to it
    // while it runs.
    mutable Raw held = LARBOARDYUZU_CLOSED;
};

// Packets to MIDI 1.0 bytes.
class Down : public Handle<larboardyuzu_down, larboardyuzu_down_close>
{
  public:
    // room: the most bytes of an exclusive, 6 to 1,048,576. flags: Compact, Paired.
    [[nodiscard]] Status open(std::uint32_t room, Flags flags = {}) noexcept
    {
        return status_of(larboardyuzu_down_open(raw(), room, static_cast<std::uint32_t>(flags)));
    }

    // Processes one packet. offset: any number, such as the frame at which the packet is due; it is returned
    // in a line. bytes: at least down_size(room), also for a short packet.
    Result<Piece> packet(Words words, std::uint64_t offset, View<std::uint8_t> bytes) noexcept
    {
        return result_of<Piece>([&](Piece &piece) {
            return larboardyuzu_down_packet(raw(), words.data(), words.size(), offset, bytes.data(),
                                            bytes.size(), &piece);
        });
    }

    // Processes consecutive packets. `offset` is the first packet's offset; it grows by 4 per word. pieces[i]
    // is the piece of packet i of this call; a refused packet has none.
    Result<Block> packets(Words words, std::uint64_t offset, View<std::uint8_t> bytes,
                          View<Piece> pieces) noexcept
    {
        return result_of<Block>([&](Block &block) {
            return larboardyuzu_down_packets(raw(), words.data(), words.size(), offset, bytes.data(),
                                             bytes.size(), pieces.data(), pieces.size(), &block);
        });
    }

    // The offset of the packet that began the exclusive that a group has open; Nothing if none is open.
    [[nodiscard]] Result<std::uint64_t> begun(std::uint8_t group) const noexcept
    {
        return result_of<std::uint64_t>(
            [&](auto &offset) { return larboardyuzu_down_begun(raw(), group, &offset); });
    }

    // Resets the handle to its just-opened state without allocating.
    Status reset() noexcept { return status_of(larboardyuzu_down_reset(raw())); }
};

// MIDI 1.0 bytes to the packets of a group.
class Up : public Handle<larboardyuzu_up, larboardyuzu_up_close>
{
  public:
    // group: 0 to 15. room: the most bytes of an exclusive, 6 to 1,048,576. flags: Paired.
    [[nodiscard]] Status open(std::uint8_t group, std::uint32_t room, Flags flags = {}) noexcept
    {
        return status_of(larboardyuzu_up_open(raw(), group, room, static_cast<std::uint32_t>(flags)));
    }

    // Processes one byte. words: at least up_size(room), also for a short message. It writes one packet, or
    // all those of an exclusive.
    Result<Outcome> byte(std::uint8_t byte, std::uint64_t offset, View<std::uint32_t> words) noexcept
    {
        return result_of<Outcome>([&](Outcome &outcome) {
            return larboardyuzu_up_byte(raw(), byte, offset, words.data(), words.size(), &outcome);
        });
    }

    // Processes consecutive bytes. offset is the first byte's offset; it grows by 1 per byte.
    Result<Block> bytes(Bytes bytes, std::uint64_t offset, View<std::uint32_t> words,
                        View<Outcome> outcomes) noexcept
    {
        return result_of<Block>([&](Block &block) {
            return larboardyuzu_up_bytes(raw(), bytes.data(), bytes.size(), offset, words.data(),
                                         words.size(), outcomes.data(), outcomes.size(), &block);
        });
    }

    // The line for the message or exclusive still open at the end of the stream; Nothing if none is open.
    [[nodiscard]] Result<Line> end() const noexcept
    {
        return result_of<Line>([&](Line &line) { return larboardyuzu_up_end(raw(), &line); });
    }

    Status reset() noexcept { return status_of(larboardyuzu_up_reset(raw())); }
};

// The messages of a MIDI 1.0 stream.
class Parser : public Handle<larboardyuzu_parser, larboardyuzu_parser_close>
{
  public:
    // room: the most bytes of an exclusive, 6 to 1,048,576.
    [[nodiscard]] Status open(std::uint32_t room) noexcept
    {
        return status_of(larboardyuzu_parser_open(raw(), room));
    }

    // Processes one byte. message: at least parser_size(room).
    Result<Outcome> byte(std::uint8_t byte, std::uint64_t offset, View<std::uint8_t> message) noexcept
    {
        return result_of<Outcome>([&](Outcome &outcome) {
            return larboardyuzu_parser_byte(raw(), byte, offset, message.data(), message.size(), &outcome);
        });
    }

    Result<Block> bytes(Bytes bytes, std::uint64_t offset, View<std::uint8_t> messages,
                        View<Outcome> outcomes) noexcept
    {
        return result_of<Block>([&](Block &block) {
            return larboardyuzu_parser_bytes(raw(), bytes.data(), bytes.size(), offset, messages.data(),
                                             messages.size(), outcomes.data(), outcomes.size(), &block);
        });
    }

    [[nodiscard]] Result<Line> end() const noexcept
    {
        return result_of<Line>([&](Line &line) { return larboardyuzu_parser_end(raw(), &line); });
    }

    Status reset() noexcept { return status_of(larboardyuzu_parser_reset(raw())); }
};

// MIDI 1.0 bytes to USB-MIDI 1.0 events.
class Usb : public Handle<larboardyuzu_usb, larboardyuzu_usb_close>
{
  public:
    // cable: 0 to 15. room: the most bytes of an exclusive, 6 to 1,048,576.
    [[nodiscard]] Status open(std::uint8_t cable, std::uint32_t room) noexcept
    {
        return status_of(larboardyuzu_usb_open(raw(), cable, room));
    }

    // Processes one byte. events: at least usb_size(room).
    Result<Outcome> byte(std::uint8_t byte, std::uint64_t offset, View<std::uint8_t> events) noexcept
    {
        return result_of<Outcome>([&](Outcome &outcome) {
            return larboardyuzu_usb_byte(raw(), byte, offset, events.data(), events.size(), &outcome);
        });
    }

    Result<Block> bytes(Bytes bytes, std::uint64_t offset, View<std::uint8_t> events,
                        View<Outcome> outcomes) noexcept
    {
        return result_of<Block>([&](Block &block) {
            return larboardyuzu_usb_bytes(raw(), bytes.data(), bytes.size(), offset, events.data(),
                                          events.size(), outcomes.data(), outcomes.size(), &block);
        });
    }

    [[nodiscard]] Result<Line> end() const noexcept
    {
        return result_of<Line>([&](Line &line) { return larboardyuzu_usb_end(raw(), &line); });
    }

    Status reset() noexcept { return status_of(larboardyuzu_usb_reset(raw())); }
};

// An endpoint, which answers a peer.
class Endpoint : public Handle<larboardyuzu_endpoint, larboardyuzu_endpoint_close>
{
  public:
    // setup: its text, in TOML. room: the most bytes of an exclusive, 6 to 1,048,576. If the status is
    // SetupRule, the value is the number of the first rule that the setup breaks, 0 to 31.
    [[nodiscard]] Result<std::uint8_t> open(std::string_view setup, std::uint32_t room) noexcept
    {
        const auto *text = reinterpret_cast<const std::uint8_t *>(setup.data());
        return result_of<std::uint8_t>(
            [&](auto &rule) { return larboardyuzu_endpoint_open(raw(), text, setup.size(), room, &rule); });
    }

    // Processes one packet from the peer. reply: at least LARBOARDYUZU_MOST_REPLY_WORDS.
    Result<Replies> packet(Words words, std::uint64_t offset, View<std::uint32_t> reply) noexcept
    {
        return result_of<Replies>([&](Replies &replies) {
            return larboardyuzu_endpoint_packet(raw(), words.data(), words.size(), offset, reply.data(),
                                                reply.size(), &replies);
        });
    }

    Result<Block> packets(Words words, std::uint64_t offset, View<std::uint32_t> reply,
                          View<Replies> replies) noexcept
    {
        return result_of<Block>([&](Block &block) {
            return larboardyuzu_endpoint_packets(raw(), words.data(), words.size(), offset, reply.data(),
                                                 reply.size(), replies.data(), replies.size(), &block);
        });
    }

    // The protocol in force: 1 for MIDI 1.0, 2 for MIDI 2.0.
    [[nodiscard]] Result<std::uint8_t> protocol() const noexcept
    {
        return result_of<std::uint8_t>(
            [&](auto &protocol) { return larboardyuzu_endpoint_protocol(raw(), &protocol); });
    }

    // The MUID in force of a function block, counted from 0; Nothing if it has none.
    [[nodiscard]] Result<std::uint32_t> muid(std::uint8_t block) const noexcept
    {
        return result_of<std::uint32_t>(
            [&](auto &muid) { return larboardyuzu_endpoint_muid(raw(), block, &muid); });
    }

    // A profile, counted from 0 in the order of the setup; Nothing if there is none.
    [[nodiscard]] Result<Profile> profile(std::size_t index) const noexcept
    {
        return result_of<Profile>(
            [&](Profile &profile) { return larboardyuzu_endpoint_profile(raw(), index, &profile); });
    }

    // The offset of the packet that began the exclusive that a group has open; Nothing if none is open.
    [[nodiscard]] Result<std::uint64_t> begun(std::uint8_t group) const noexcept
    {
        return result_of<std::uint64_t>(
            [&](auto &offset) { return larboardyuzu_endpoint_begun(raw(), group, &offset); });
    }

    Status reset() noexcept { return status_of(larboardyuzu_endpoint_reset(raw())); }
};

// The state in which the messages so far leave a receiver.
class State : public Handle<larboardyuzu_state, larboardyuzu_state_close>
{
  public:
    // How many facts were written, and with SmallBuffer how many there are.
    struct Count {
        std::size_t written;
        std::size_t need;
    };

    // room: the most bytes of an exclusive, 6 to 1,048,576. notes: how many note on, note off and mode
    // messages it keeps per channel, in order, until it is reset, 0 to 1,048,576. params: the most parameters
    // of a kind and channel, 0 to 16,384. flags: OfBytes.
    [[nodiscard]] Status open(std::uint32_t room, std::uint32_t notes, std::uint32_t params,
                              Flags flags = {}) noexcept
    {
        return status_of(
            larboardyuzu_state_open(raw(), room, notes, params, static_cast<std::uint32_t>(flags)));
    }

    [[nodiscard]] Status packet(Words words) noexcept
    {
        return status_of(larboardyuzu_state_packet(raw(), words.data(), words.size()));
    }

    Result<Block> packets(Words words) noexcept
    {
        return result_of<Block>([&](Block &block) {
            return larboardyuzu_state_packets(raw(), words.data(), words.size(), &block);
        });
    }

    [[nodiscard]] Status byte(std::uint8_t byte) noexcept
    {
        return status_of(larboardyuzu_state_byte(raw(), byte));
    }

    Result<Block> bytes(Bytes bytes) noexcept
    {
        return result_of<Block>([&](Block &block) {
            return larboardyuzu_state_bytes(raw(), bytes.data(), bytes.size(), &block);
        });
    }

    // Writes the facts of a channel of a group; with LARBOARDYUZU_NO_CHANNEL the counts of the group's system
    // messages.
    [[nodiscard]] Result<Count> facts(std::uint8_t group, std::uint8_t channel,
                                      View<Fact> facts) const noexcept
    {
        return result_of<Count>([&](Count &count) {
            return larboardyuzu_state_facts(raw(), group, channel, facts.data(), facts.size(), &count.written,
                                            &count.need);
        });
    }

    Status reset() noexcept { return status_of(larboardyuzu_state_reset(raw())); }
};

// 8-bit exclusives of many streams, joined.
class Sysex8 : public Handle<larboardyuzu_sysex8, larboardyuzu_sysex8_close>
{
  public:
    // streams: how many may be open at once, 1 to 64. room: the most bytes of one, 13 to 1,048,576.
    [[nodiscard]] Status open(std::uint8_t streams, std::uint32_t room) noexcept
    {
        return status_of(larboardyuzu_sysex8_open(raw(), streams, room));
    }

    // Processes one packet. bytes: at least room.
    Result<Part> packet(Words words, std::uint64_t offset, View<std::uint8_t> bytes) noexcept
    {
        return result_of<Part>([&](Part &part) {
            return larboardyuzu_sysex8_packet(raw(), words.data(), words.size(), offset, bytes.data(),
                                              bytes.size(), &part);
        });
    }

    Result<Block> packets(Words words, std::uint64_t offset, View<std::uint8_t> bytes,
                          View<Part> parts) noexcept
    {
        return result_of<Block>([&](Block &block) {
            return larboardyuzu_sysex8_packets(raw(), words.data(), words.size(), offset, bytes.data(),
                                               bytes.size(), parts.data(), parts.size(), &block);
        });
    }

    // The offset of the packet that began the exclusive that a stream of a group has open; Nothing if none is
    // open.
    [[nodiscard]] Result<std::uint64_t> begun(std::uint8_t group, std::uint8_t stream) const noexcept
    {
        return result_of<std::uint64_t>(
            [&](auto &offset) { return larboardyuzu_sysex8_begun(raw(), group, stream, &offset); });
    }

    Status reset() noexcept { return status_of(larboardyuzu_sysex8_reset(raw())); }
};

// ---- Calls without a handle.

// The word of the header for a number, such as SMALL_BUFFER; empty if there is no such number.
inline Name name_of(Status status) noexcept
{
    Name name;
    static_cast<void>(larboardyuzu_status_name(static_cast<std::uint32_t>(status), name.bytes,
                                               sizeof name.bytes, &name.length));
    return name;
}

inline Name name_of(Kind kind) noexcept
{
    Name name;
    static_cast<void>(larboardyuzu_kind_name(static_cast<std::uint32_t>(kind), name.bytes, sizeof name.bytes,
                                             &name.length));
    return name;
}

inline Name name_of(Heard heard) noexcept
{
    Name name;
    static_cast<void>(larboardyuzu_heard_name(static_cast<std::uint32_t>(heard), name.bytes,
                                              sizeof name.bytes, &name.length));
    return name;
}

// The number of words, 1 to 4, of a packet that begins with this word.
[[nodiscard]] inline std::size_t words_in_packet(std::uint32_t first) noexcept
{
    return larboardyuzu_words_in_packet(first);
}

// Cuts bytes into the words of whole packets. flags: LittleEndian.
inline Result<Block> packets_in(Bytes bytes, View<std::uint32_t> words, Flags flags = {}) noexcept
{
    return result_of<Block>([&](Block &block) {
        return larboardyuzu_packets_in(bytes.data(), bytes.size(), static_cast<std::uint32_t>(flags),
                                       words.data(), words.size(), &block);
    });
}

// Writes a packet, counted from 0, of an exclusive with these bytes: two words, and of an 8-bit exclusive
// four. Nothing: the exclusive has no such packet.
[[nodiscard]] inline Status exclusive_packet(std::uint8_t group, Bytes payload, std::size_t index,
                                             View<std::uint32_t> words) noexcept
{
    return status_of(larboardyuzu_exclusive_packet(group, payload.data(), payload.size(), index, words.data(),
                                                   words.size()));
}

[[nodiscard]] inline Status sysex8_cut(std::uint8_t group, std::uint8_t stream, Bytes payload,
                                       std::size_t index, View<std::uint32_t> words) noexcept
{
    return status_of(larboardyuzu_sysex8_cut(group, stream, payload.data(), payload.size(), index,
                                             words.data(), words.size()));
}

// The MIDI bytes of an event of four bytes.
[[nodiscard]] inline Result<Carried> usb_carried(Bytes event) noexcept
{
    return result_of<Carried>(
        [&](Carried &it) { return larboardyuzu_usb_carried(event.data(), event.size(), &it); });
}

// The line of `show` for a packet, with its line feed.
[[nodiscard]] inline Result<PacketLine> packet_line(Words words, std::uint64_t offset) noexcept
{
    return result_of<PacketLine>([&](PacketLine &line) {
        return larboardyuzu_packet_line(words.data(), words.size(), offset, line.bytes, sizeof line.bytes,
                                        &line.length);
    });
}

// Scales a value of 7 bits to 16 or 32, or of 14 bits to 32; or scales down to the upper 7 of 16 bits, or the
// upper 7 or 14 of 32.
[[nodiscard]] inline Result<std::uint32_t> scale_up(std::uint32_t value, std::uint8_t narrow,
                                                    std::uint8_t wide) noexcept
{
    return result_of<std::uint32_t>(
        [&](auto &scaled) { return larboardyuzu_scale_up(value, narrow, wide, &scaled); });
}

[[nodiscard]] inline Result<std::uint32_t> scale_down(std::uint32_t value, std::uint8_t wide,
                                                      std::uint8_t narrow) noexcept
{
    return result_of<std::uint32_t>(
        [&](auto &scaled) { return larboardyuzu_scale_down(value, wide, narrow, &scaled); });
}

} // namespace larboardyuzu

#ifdef __cpp_lib_ranges
// The iterators of a View are pointers, which stay valid when the View is gone.
template <class T> inline constexpr bool std::ranges::enable_borrowed_range<larboardyuzu::View<T>> = true;
template <class T> inline constexpr bool std::ranges::enable_view<larboardyuzu::View<T>> = true;
#endif

#endif
