//! Block calls with buffers of any size against the single calls, on generated input with refusals of every kind.

use larboardyuzu::*;

const ROOM: u32 = 16;
const SETUP: &str = include_str!("../../../examples/endpoint.toml");

/// The generator of docs/translation.md.
struct Draws(u32);

impl Draws {
    fn below(&mut self, count: u32) -> u32 {
        self.0 = self.0.wrapping_mul(1_664_525).wrapping_add(1_013_904_223);
        (self.0 >> 16) % count
    }

    fn word(&mut self) -> u32 {
        self.below(0x1_0000) << 16 | self.below(0x1_0000)
    }
}

/// Packets of all kinds. Some are refused: data bytes over 127, increments, exclusives that are too long.
fn packets(draws: &mut Draws, count: usize) -> Vec<Vec<u32>> {
    let mut packet = || {
        let (group, seven) = (draws.below(4) << 24, draws.word() & 0x7F7F);
        match draws.below(9) {
            0 => vec![0x2090_0000 | group | seven],
            1 => vec![0x2090_0080 | group | seven],
            2 => vec![0x20B0_6000 | group | draws.below(2) << 8],
            3 => vec![0x4090_0000 | group | (seven & 0x7F00), draws.word()],
            4 => vec![0x4020_0000 | group | seven, draws.word()],
            5 | 6 => {
                let (form, length) = (draws.below(4) << 20, draws.below(8) << 16);
                vec![0x3000_0000 | group | form | length | seven, draws.word() & 0x7F7F_7F7F]
            }
            7 => {
                let (form, length) = (draws.below(5) << 20, draws.below(16) << 16);
                vec![
                    0x5000_0000 | group | form | length | draws.below(3) << 8,
                    draws.word(),
                    draws.word(),
                    draws.word(),
                ]
            }
            _ => vec![0xF005_0000 | draws.below(3) << 8, 0, 0, 0],
        }
    };
    (0..count).map(|_| packet()).collect()
}

/// What each packet or byte led to: an item with its part of the buffer, or an error.
type Answers<I, T> = Vec<core::result::Result<(I, Vec<T>), Error>>;

/// Calls a block call until all is taken, with buffers of sizes that are drawn: `take(at, buffer, items)`.
fn in_blocks<I: Written + Copy + Default, T: Copy + Default>(
    draws: &mut Draws,
    count: usize,
    least: usize,
    mut take: impl FnMut(usize, &mut [T], &mut [I]) -> Block,
) -> Answers<I, T> {
    let (mut at, mut answers) = (0, Vec::new());
    while at < count {
        let mut buffer = vec![T::default(); draws.below(4 * least as u32) as usize];
        let mut items = vec![I::default(); draws.below(5) as usize];
        let block = take(at, &mut buffer, &mut items);
        answers.extend(parts(&items[..block.items], &buffer).map(|(item, part)| Ok((*item, part.to_vec()))));
        at += block.taken;
        match block.end {
            Ok(()) => assert_eq!(at, count),
            Err(error @ Error::SmallBuffer(need)) => {
                assert_eq!((need, block.refused), (block.need, 0));
                assert!(block.need == if buffer.len() - block.written < least { least } else { 0 });
                assert!(block.need_items == usize::from(block.items == items.len()));
                assert!(block.need > 0 || block.need_items > 0, "{error}");
            }
            Err(error) => {
                assert!(block.refused > 0 && block.refused <= block.taken);
                answers.push(Err(error));
            }
        }
    }
    answers
}

fn check_packets<
    I: Written + Copy + Default + PartialEq + core::fmt::Debug,
    T: Copy + Default + PartialEq + core::fmt::Debug,
>(
    least: usize,
    mut single: impl FnMut(&[u32], u64, &mut [T]) -> Result<I>,
    mut block: impl FnMut(&[u32], u64, &mut [T], &mut [I]) -> Block,
) {
    let mut draws = Draws(7);
    for count in 0..60 {
        let packets = packets(&mut draws, count);
        let (mut offset, mut answers) = (40, Vec::new());
        for packet in &packets {
            let mut buffer = vec![T::default(); least];
            let answer = single(packet, offset, &mut buffer);
            answers.push(answer.map(|item| (item, buffer[..item.written()].to_vec())));
            offset += 4 * packet.len() as u64;
        }
        let words = packets.concat();
        let found = in_blocks(&mut draws, words.len(), least, |at, buffer: &mut [T], items: &mut [I]| {
            block(&words[at..], 40 + 4 * at as u64, buffer, items)
        });
        assert_eq!(found, answers);
    }
}

fn check_bytes<T: Copy + Default + PartialEq + core::fmt::Debug>(
    least: usize,
    mut single: impl FnMut(u8, u64, &mut [T]) -> Result<Outcome>,
    mut block: impl FnMut(&[u8], u64, &mut [T], &mut [Outcome]) -> Block,
) {
    let mut draws = Draws(11);
    for count in 0..200 {
        let bytes: Vec<u8> = (0..count)
            .map(|_| match draws.below(4) {
                0 => [0x90, 0xB0, 0xC0, 0xF0, 0xF7, 0xF8, 0xF4, 0xF2][draws.below(8) as usize],
                1 => [0x60, 0x61, 0x06, 0x65][draws.below(4) as usize],
                _ => draws.below(128) as u8,
            })
            .collect();
        let mut answers = Vec::new();
        for (at, byte) in bytes.iter().enumerate() {
            let mut buffer = vec![T::default(); least];
            match single(*byte, 40 + at as u64, &mut buffer) {
                Ok(outcome) if outcome.written == 0 && outcome.first().is_none() => (),
                answer => answers.push(answer.map(|item| (item, buffer[..item.written].to_vec()))),
            }
        }
        let found = in_blocks(&mut draws, bytes.len(), least, |at, buffer: &mut [T], items: &mut [Outcome]| {
            block(&bytes[at..], 40 + at as u64, buffer, items)
        });
        assert_eq!(found, answers);
    }
}

#[test]
fn down() {
    for flags in [Flags::NONE, Flags::COMPACT, Flags::COMPACT | Flags::PAIRED] {
        let (mut one, mut many) = (Down::open(ROOM, flags).unwrap(), Down::open(ROOM, flags).unwrap());
        check_packets(
            down_size(ROOM),
            |words, offset, bytes| one.packet(words, offset, bytes),
            |words, offset, bytes, pieces| many.packets(words, offset, bytes, pieces),
        );
    }
}

#[test]
fn endpoint() {
    let (mut one, mut many) = (Endpoint::open(SETUP, ROOM).unwrap(), Endpoint::open(SETUP, ROOM).unwrap());
    check_packets(
        MOST_REPLY_WORDS,
        |words, offset, reply| one.packet(words, offset, reply),
        |words, offset, reply, replies| many.packets(words, offset, reply, replies),
    );
    assert_eq!(one.protocol(), many.protocol());
}

#[test]
fn sysex8() {
    let (mut one, mut many) = (Sysex8::open(2, ROOM).unwrap(), Sysex8::open(2, ROOM).unwrap());
    check_packets(
        ROOM as usize,
        |words, offset, bytes| one.packet(words, offset, bytes),
        |words, offset, bytes, parts| many.packets(words, offset, bytes, parts),
    );
}

#[test]
fn up() {
    for flags in [Flags::NONE, Flags::PAIRED] {
        let (mut one, mut many) = (Up::open(5, ROOM, flags).unwrap(), Up::open(5, ROOM, flags).unwrap());
        check_bytes(
            up_size(ROOM),
            |byte, offset, words| one.byte(byte, offset, words),
            |bytes, offset, words, outcomes| many.bytes(bytes, offset, words, outcomes),
        );
        assert_eq!(one.end(), many.end());
    }
}

#[test]
fn parser() {
    let (mut one, mut many) = (Parser::open(ROOM).unwrap(), Parser::open(ROOM).unwrap());
    check_bytes(
        parser_size(ROOM),
        |byte, offset, message| one.byte(byte, offset, message),
        |bytes, offset, messages, outcomes| many.bytes(bytes, offset, messages, outcomes),
    );
    assert_eq!(one.end(), many.end());
}

#[test]
fn usb() {
    let (mut one, mut many) = (Usb::open(5, ROOM).unwrap(), Usb::open(5, ROOM).unwrap());
    check_bytes(
        usb_size(ROOM),
        |byte, offset, events| one.byte(byte, offset, events),
        |bytes, offset, events, outcomes| many.bytes(bytes, offset, events, outcomes),
    );
    assert_eq!(one.end(), many.end());
}

#[test]
fn state() {
    let open = || State::open(ROOM, 4, 2, Flags::NONE).unwrap();
    let (mut one, mut many, mut draws) = (open(), open(), Draws(3));
    let packets = packets(&mut draws, 500);
    let answers: Vec<_> = packets.iter().filter_map(|packet| one.packet(packet).err()).collect();
    assert!(answers.contains(&Error::StateFull));
    let words = packets.concat();
    let (mut at, mut found) = (0, Vec::new());
    while at < words.len() {
        let block = many.packets(&words[at..]);
        assert!(block.taken > 0);
        at += block.taken;
        found.extend(block.end.err());
    }
    assert_eq!(found, answers);
    for (group, channel) in (0..16).flat_map(|group| (0..16).map(move |it| (group, Some(it))).chain([(group, None)])) {
        let mut facts = [[Fact::default(); 64]; 2];
        let count = one.facts(group, channel, &mut facts[0]).unwrap();
        assert_eq!(many.facts(group, channel, &mut facts[1]), Ok(count));
        assert_eq!(facts[0], facts[1]);
    }
}
