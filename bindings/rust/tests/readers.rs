//! The parser, USB-MIDI events, 8-bit exclusives, the state and the calls without a handle. The expected values come from
//! M2-104-UM, MIDI 1.0, and the USB Device Class Definition for MIDI Devices 1.0.

use larboardyuzu::*;

#[test]
fn the_parser_gives_whole_messages() {
    let mut parser = Parser::open(8).unwrap();
    let (mut messages, mut outcomes) = ([0; 64], [Outcome::default(); 8]);
    let bytes = [0x90, 0x3C, 0x64, 0x3E, 0xF8, 0x64, 0xF2, 0x01, 0x02, 0xF0, 1, 0xF7];
    let block = parser.bytes(&bytes, 100, &mut messages, &mut outcomes);
    assert_eq!((block.end, block.taken, block.items), (Ok(()), bytes.len(), 5));
    let found: Vec<_> = parts(&outcomes[..5], &messages).map(|(it, part)| (it.offset, part)).collect();
    let expected: [(u64, &[u8]); 5] = [
        (102, &[0x90, 0x3C, 0x64]),
        (104, &[0xF8]),
        (105, &[0x90, 0x3E, 0x64]),
        (108, &[0xF2, 1, 2]),
        (111, &[0xF0, 1, 0xF7]),
    ];
    assert_eq!(found, expected);
    assert_eq!(parser.byte(0xF8, 0, &mut messages[..9]), Err(Error::SmallBuffer(10)));
}

#[test]
fn a_byte_of_a_block_that_is_refused_is_taken() {
    let mut parser = Parser::open(6).unwrap();
    let (mut messages, mut outcomes) = ([0; 64], [Outcome::default(); 8]);
    let block = parser.bytes(&[0xF8, 0xF0, 1, 2, 3, 4, 5, 6, 7, 0x40], 0, &mut messages, &mut outcomes);
    assert_eq!((block.end, block.taken, block.refused), (Err(Error::ExclusiveTooLong), 9, 1));
    assert_eq!((block.items, block.written), (1, 1));
}

#[test]
fn usb_events_have_the_codes_of_the_class() {
    let mut usb = Usb::open(3, 64).unwrap();
    let (mut events, mut outcomes) = ([0; 256], [Outcome::default(); 8]);
    let bytes = [0x90, 0x3C, 0x64, 0xC1, 5, 0xF3, 1, 0xF6, 0xF0, 1, 2, 3, 0xF7, 0xFA];
    let block = usb.bytes(&bytes, 0, &mut events, &mut outcomes);
    assert_eq!((block.end, block.taken, block.items), (Ok(()), bytes.len(), 6));
    let expected = [
        [0x39, 0x90, 0x3C, 0x64],
        [0x3C, 0xC1, 5, 0],
        [0x32, 0xF3, 1, 0],
        [0x35, 0xF6, 0, 0],
        [0x34, 0xF0, 1, 2],
        [0x36, 3, 0xF7, 0],
        [0x3F, 0xFA, 0, 0],
    ];
    assert_eq!(events[..block.written], expected.concat());
    for event in expected {
        let carried = usb_carried(event).unwrap();
        assert_eq!((carried.cable, carried.bytes()[0]), (3, event[1]));
    }
    assert_eq!(usb_carried([0x14, 1, 2, 3]).unwrap().bytes(), [1, 2, 3]);
    assert_eq!(usb_carried([0x10, 0, 0, 0]), None);
    assert_eq!(Usb::open(16, 64).err(), Some(Error::BadGroup));
}

#[test]
fn exclusives_of_eight_bits() {
    let mut sysex8 = Sysex8::open(1, 16).unwrap();
    let mut bytes = [0; 16];
    let mut joined = |words: [u32; 4], offset| sysex8.packet(&words, offset, &mut bytes).unwrap();
    let (start, end) = ([0x5012_01A0, 0, 0, 0], [0x5032_01A1, 0, 0, 0]);
    assert_eq!(joined(end, 0).answer(), Joined::Stray);
    assert_eq!(joined(start, 16).answer(), Joined::Held);
    assert_eq!(joined([0x5012_02B0, 0, 0, 0], 32).answer(), Joined::Full);
    let again = joined(start, 48);
    assert_eq!((again.answer(), again.cut_at()), (Joined::Restarted, Some(16)));
    let whole = joined(end, 64);
    assert_eq!((whole.answer(), whole.written, whole.cut_at()), (Joined::Whole, 2, None));
    assert_eq!(bytes[..2], [0xA0, 0xA1]);
    assert_eq!(sysex8.packet(&start, 0, &mut bytes[..15]), Err(Error::SmallBuffer(16)));
    assert_eq!(sysex8.begun(16, 0), Err(Error::BadGroup));
}

#[test]
fn cutting_is_the_way_back() {
    let payload: Vec<u8> = (0..=255).cycle().take(300).collect();
    let mut sysex8 = Sysex8::open(4, 300).unwrap();
    let mut bytes = vec![0; 300];
    let mut index = 0;
    let mut written = 0;
    while let Some(words) = sysex8_packet(2, 9, &payload, index).unwrap() {
        assert_eq!(words[0] >> 24, 0x52);
        written = sysex8.packet(&words, 0, &mut bytes).unwrap().written;
        index += 1;
    }
    assert_eq!((index, written), (24, 300)); // 23 times thirteen, and one
    assert_eq!(bytes, payload);
    assert_eq!(sysex8_packet(16, 0, &[], 0), Err(Error::BadGroup));
}

#[test]
fn a_state_keeps_facts() {
    let mut state = State::open(64, 8, 8, Flags::NONE).unwrap();
    let words = [
        0x4192_3C00,
        0xC924_0000, // a note on of channel 2 in group 1
        0x41C2_0001,
        0x0500_0102, // a program with a bank
        0x4122_0003,
        0x1234_5678, // registered parameter 0/3
        0x3101_0700,
        0x0000_0000, // an exclusive of one byte
        0x11F8_0000, // Timing Clock
    ];
    let block = state.packets(&words);
    assert_eq!((block.end, block.taken, block.items), (Ok(()), words.len(), 0));
    let mut facts = [Fact::default(); 8];
    assert_eq!(state.facts(1, Some(2), &mut facts), Ok(3));
    assert_eq!((facts[0].kind(), facts[0].number, facts[0].value), (FactKind::On, 0x3C, 0xC924));
    assert_eq!((facts[1].kind(), facts[1].number, facts[1].program_bank()), (FactKind::Program, 5, Some((1, 2))));
    assert_eq!((facts[2].kind(), facts[2].bank, facts[2].number), (FactKind::Registered, 0, 3));
    assert_eq!((facts[2].has_value, facts[2].value, facts[2].is_loose), (true, 0x1234_5678, false));
    assert_eq!(state.facts(1, None, &mut facts), Ok(2));
    assert_eq!((facts[0].kind(), facts[0].count), (FactKind::System, 1));
    assert_eq!((facts[1].kind(), facts[1].count), (FactKind::RealTime, 1));
    assert_eq!(state.facts(1, Some(2), &mut facts[..2]), Err(Error::SmallBuffer(3)));
    assert_eq!(state.facts(0, Some(2), &mut []), Ok(0));
    assert_eq!(state.facts(16, None, &mut []), Err(Error::BadGroup));
    assert_eq!(state.facts(0, Some(16), &mut []), Err(Error::BadChannel));
    assert_eq!(state.facts(0, Some(255), &mut []), Err(Error::BadChannel));
    state.reset();
    assert_eq!((state.facts(1, Some(2), &mut []), state.facts(1, None, &mut [])), (Ok(0), Ok(0)));
}

#[test]
fn a_state_takes_packets_or_bytes() {
    let mut of_packets = State::open(64, 0, 0, Flags::NONE).unwrap();
    assert_eq!(of_packets.byte(0x90), Err(Error::OtherKind));
    let block = of_packets.bytes(&[0x90]);
    assert_eq!((block.end, block.taken), (Err(Error::OtherKind), 0));
    let mut of_bytes = State::open(64, 0, 0, Flags::OF_BYTES).unwrap();
    assert_eq!(of_bytes.packet(&[0x2090_3C64]), Err(Error::OtherKind));
    let block = of_bytes.bytes(&[0x90, 0x3C, 0x64, 0xB0]);
    assert_eq!((block.end, block.taken, block.refused), (Err(Error::StateFull), 3, 1));
    assert_eq!(State::open(64, 0, MOST_PARAMS + 1, Flags::NONE).err(), Some(Error::BadRoom));
    assert_eq!(State::open(64, 0, 0, Flags::PAIRED).err(), Some(Error::BadFlags));
}

#[test]
fn scaling_keeps_the_ends_and_the_centre() {
    for (narrow, wide) in [(7, 16), (7, 32), (14, 32)] {
        let top = |bits: u8| u32::MAX >> (32 - bits);
        let centre = |bits: u8| 1 << (bits - 1);
        for (value, scaled) in [(0, 0), (centre(narrow), centre(wide)), (top(narrow), top(wide))] {
            assert_eq!(scale_up(value, narrow, wide), Ok(scaled));
            assert_eq!(scale_down(scaled, wide, narrow), Ok(value));
        }
        assert_eq!(scale_up(top(narrow) + 1, narrow, wide), Err(Error::BadValue));
    }
    assert_eq!(scale_up(0, 8, 16), Err(Error::BadBits));
}

#[test]
fn packets_are_cut_from_bytes() {
    let mut words = [0; 4];
    let big = [0x40, 0x90, 0x3C, 0x00, 0xC9, 0x24, 0x00, 0x00, 0x10, 0xF8, 0x00, 0x00];
    let little = [0x00, 0x3C, 0x90, 0x40, 0x00, 0x00, 0x24, 0xC9, 0x00, 0x00, 0xF8, 0x10];
    for (bytes, flags) in [(big, Flags::NONE), (little, Flags::LITTLE_ENDIAN)] {
        let block = packets_in(&bytes, &mut words, flags);
        assert_eq!((block.end, block.taken, block.written), (Ok(()), 12, 3));
        assert_eq!(words[..3], [0x4090_3C00, 0xC924_0000, 0x10F8_0000]);
        let block = packets_in(&bytes, &mut words[..1], flags);
        assert_eq!((block.end, block.taken, block.need), (Err(Error::SmallBuffer(2)), 0, 2));
        let block = packets_in(&bytes[..11], &mut words, flags);
        assert_eq!((block.end, block.taken, block.written), (Err(Error::BadSize), 8, 2));
    }
    assert_eq!(packets_in(&big, &mut words, Flags::COMPACT).end, Err(Error::BadFlags));
}

#[test]
fn an_exclusive_is_refused_at_its_first_packet() {
    let mut payload = [0; 20];
    payload[12] = 0x80;
    assert_eq!(exclusive_packet(0, &payload, 0), Err(Error::HighBit));
    assert_eq!(exclusive_packet(0, &payload, 2), Err(Error::HighBit));
    assert_eq!(exclusive_packet(0, &[], 0), Ok(Some([0x3000_0000, 0]))); // Complete, with no bytes
    assert_eq!(exclusive_packet(16, &[], 0), Err(Error::BadGroup));
}

#[test]
fn iterators_over_packets() {
    // A note of one word, a note of two, an 8-bit exclusive of four, and half a packet.
    let words = [0x2090_3C64, 0x4090_3C00, 0xC924_0000, 0x5003_01A0, 0xA100_0000, 0, 0, 0x4090_3C00];
    let packets: Vec<_> = packets_of(&words).collect();
    assert_eq!(packets, [&words[..1], &words[1..3], &words[3..7], &words[7..]]);
    assert_eq!(packets_of(&[]).count(), 0);
    let payload: Vec<u8> = (0..20).collect();
    let each: Vec<_> = (0..).map_while(|index| exclusive_packet(3, &payload, index).transpose()).collect();
    assert_eq!((exclusive_packets(3, &payload).collect::<Vec<_>>(), each.len()), (each, 4));
    let each: Vec<_> = (0..).map_while(|index| sysex8_packet(3, 9, &payload, index).transpose()).collect();
    assert_eq!((sysex8_packets(3, 9, &payload).collect::<Vec<_>>(), each.len()), (each, 2));
    assert!(exclusive_packets(0, &[1, 0x80]).eq([Err(Error::HighBit)]));
    assert!(sysex8_packets(16, 0, &[]).eq([Err(Error::BadGroup)]));
}

#[test]
fn lines_of_packets() {
    let line = packet_line(&[0x4090_3C00, 0xC924_0000], 8).unwrap();
    let expected = "8 40903C00 C9240000 note-on group=0 channel=0 note=60 velocity=51492 type=0 attribute=0\n";
    assert_eq!((&*line, line.to_string(), format!("{line:?}")), (expected, expected.into(), format!("{expected:?}")));
    assert_eq!(packet_line(&[0x2090_3C80], 0).err(), Some(Error::HighBit));
}
