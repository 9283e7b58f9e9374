//! Down and up. The expected values come from the standards: M2-104-UM (formats and the default translation), M2-115-U (scaling).

use larboardyuzu::{down_size, up_size, Down, Error, Flags, Kind, Line, Piece, Up};

const ROOM: u32 = 64;

fn down(flags: Flags) -> Down {
    Down::open(ROOM, flags).unwrap()
}

/// The lane and the bytes of a packet.
fn sent(down: &mut Down, words: &[u32]) -> (u8, Vec<u8>) {
    let mut bytes = vec![0xAA; down_size(ROOM)];
    let piece = down.packet(words, 0, &mut bytes).unwrap();
    assert!(bytes[piece.written..].iter().all(|byte| *byte == 0xAA));
    (piece.lane, bytes[..piece.written].to_vec())
}

#[test]
fn voice_messages_go_down() {
    let mut down = down(Flags::NONE);
    // type 4, opcode, channel; the value is lowered to its upper bits
    assert_eq!(sent(&mut down, &[0x4090_3C00, 0xC924_0000]), (0, vec![0x90, 0x3C, 0x64]));
    assert_eq!(sent(&mut down, &[0x4A85_3C00, 0x8000_0000]), (10, vec![0x85, 0x3C, 0x40]));
    assert_eq!(sent(&mut down, &[0x40A0_4C00, 0xAAF9_6252]), (0, vec![0xA0, 0x4C, 0x55]));
    assert_eq!(sent(&mut down, &[0x40B3_0700, 0xFFFF_FFFF]), (0, vec![0xB3, 0x07, 0x7F]));
    assert_eq!(sent(&mut down, &[0x40D0_0000, 0x0200_0000]), (0, vec![0xD0, 0x01]));
    assert_eq!(sent(&mut down, &[0x40E0_0000, 0x8000_0000]), (0, vec![0xE0, 0x00, 0x40]));
    // a program with the bank 1/2
    assert_eq!(sent(&mut down, &[0x40C0_0001, 0x0500_0102]), (0, vec![0xB0, 0, 1, 0xB0, 0x20, 2, 0xC0, 5]));
    // a MIDI 1.0 message stays as it is
    assert_eq!(sent(&mut down, &[0x2390_3C64]), (3, vec![0x90, 0x3C, 0x64]));
    assert_eq!(sent(&mut down, &[0x10F8_0000]), (0, vec![0xF8]));
}

#[test]
fn exclusives_come_with_their_last_packet() {
    let mut down = down(Flags::NONE);
    assert_eq!(sent(&mut down, &[0x3016_0102, 0x0304_0506]), (0, vec![]));
    assert_eq!(down.begun(0), Ok(Some(0)));
    assert_eq!(sent(&mut down, &[0x3031_0700, 0]), (0, vec![0xF0, 1, 2, 3, 4, 5, 6, 7, 0xF7]));
    assert_eq!(down.begun(0), Ok(None));
    assert_eq!(down.begun(16), Err(Error::BadGroup));
}

#[test]
fn compact_leaves_out_what_is_known() {
    let mut down = down(Flags::COMPACT);
    let parameter = [0x4020_0001, 0x8000_0000];
    assert_eq!(sent(&mut down, &parameter).1, [0xB0, 0x65, 0, 0x64, 1, 0x06, 0x40, 0x26, 0]);
    assert_eq!(sent(&mut down, &parameter).1, [0x06, 0x40, 0x26, 0]); // selected, and the status runs
    down.reset();
    assert_eq!(sent(&mut down, &parameter).1, [0xB0, 0x65, 0, 0x64, 1, 0x06, 0x40, 0x26, 0]);
}

#[test]
fn paired_controllers_have_two_halves() {
    // FFFF_FFFF is 3FFF in fourteen bits
    assert_eq!(sent(&mut down(Flags::PAIRED), &[0x40B0_0700, 0xFFFF_FFFF]).1, [0xB0, 7, 0x7F, 0xB0, 39, 0x7F]);
    assert_eq!(sent(&mut down(Flags::NONE), &[0x40B0_0700, 0xFFFF_FFFF]).1, [0xB0, 7, 0x7F]);
}

#[test]
fn refusals_down() {
    let mut down = down(Flags::NONE);
    let mut bytes = [0xAA; 66];
    let mut refused = |words: &[u32]| down.packet(words, 0, &mut bytes).unwrap_err();
    assert_eq!(refused(&[]), Error::BadWordCount);
    assert_eq!(refused(&[0x4090_3C00]), Error::BadWordCount);
    assert_eq!(refused(&[0x2090_3C64, 0]), Error::BadWordCount);
    assert_eq!(refused(&[0x20B0_6001]), Error::DataIncrement);
    assert_eq!(refused(&[0x20B0_6101]), Error::DataDecrement);
    assert_eq!(refused(&[0x2090_3C80]), Error::HighBit);
    assert_eq!(refused(&[0x3017_0102, 0x0304_0506]), Error::BadCount);
    assert_eq!(bytes, [0xAA; 66]);
    // before anything else, the size of the buffer
    assert_eq!(down.packet(&[], 0, &mut bytes[..65]), Err(Error::SmallBuffer(66)));
    assert_eq!(down.packet(&[0x2090_3C64], 0, &mut []), Err(Error::SmallBuffer(66)));
}

#[test]
fn an_exclusive_that_is_too_long_is_dropped() {
    let mut down = Down::open(6, Flags::NONE).unwrap();
    let mut bytes = [0; 12];
    down.packet(&[0x3016_0102, 0x0304_0506], 8, &mut bytes).unwrap();
    assert_eq!(down.begun(0), Ok(Some(8)));
    assert_eq!(down.packet(&[0x3031_0700, 0], 16, &mut bytes), Err(Error::ExclusiveTooLong));
    assert_eq!(down.begun(0), Ok(None));
}

#[test]
fn lines_down() {
    let mut down = down(Flags::NONE);
    let mut bytes = [0; 66];
    let mut listed = |words: &[u32]| {
        let piece = down.packet(words, 40, &mut bytes).unwrap();
        (piece.line(), piece.group())
    };
    let line = |kind| Some(Line { offset: 40, kind });
    assert_eq!(listed(&[0x2090_3C64]), (None, None));
    assert_eq!(listed(&[0x0000_0000]), (line(Kind::Utility), None));
    assert_eq!(listed(&[0xF000_0101, 0x1F, 0, 0]), (line(Kind::Stream), None));
    assert_eq!(listed(&[0x4290_3C01, 0xC924_0007]), (line(Kind::NoteAttribute), Some(2)));
    assert_eq!(listed(&[0x4060_3C00, 0]), (line(Kind::NoteBend), Some(0)));
    assert_eq!(listed(&[0x3231_0700, 0]), (line(Kind::StrayExclusive), Some(2)));
}

#[test]
fn opening_down() {
    assert_eq!(Down::open(5, Flags::OF_BYTES).err(), Some(Error::BadRoom));
    assert_eq!(Down::open(1_048_577, Flags::NONE).err(), Some(Error::BadRoom));
    assert_eq!(Down::open(64, Flags::COMPACT | Flags::LITTLE_ENDIAN).err(), Some(Error::BadFlags));
    assert!(Down::open(1_048_576, Flags::NONE).is_ok());
}

/// The words that a stream completes, and its lines.
fn raised(up: &mut Up, bytes: &[u8]) -> (Vec<u32>, Vec<Line>) {
    let (mut words, mut lines) = (Vec::new(), Vec::new());
    let mut buffer = vec![0; up_size(ROOM)];
    for (offset, byte) in bytes.iter().enumerate() {
        let outcome = up.byte(*byte, offset as u64, &mut buffer).unwrap();
        assert_eq!(outcome.offset, offset as u64);
        words.extend_from_slice(&buffer[..outcome.written]);
        lines.extend(outcome.lines());
    }
    (words, lines)
}

#[test]
fn voice_messages_go_up() {
    let mut up = Up::open(3, ROOM, Flags::NONE).unwrap();
    let mut words = |bytes: &[u8]| raised(&mut up, bytes).0;
    // min-centre-max scaling: 100 of 7 bits is C924 of 16
    assert_eq!(words(&[0x90, 0x3C, 0x64]), [0x4390_3C00, 0xC924_0000]);
    assert_eq!(words(&[0x3C, 0x00]), [0x4380_3C00, 0x8000_0000]); // running status; velocity 0 is a note off
    assert_eq!(words(&[0xE0, 0x00, 0x40]), [0x43E0_0000, 0x8000_0000]);
    assert_eq!(words(&[0xB0, 7, 0x7F]), [0x43B0_0700, 0xFFFF_FFFF]);
    assert_eq!(words(&[0xB0, 0, 1, 0x20, 2, 0xC0, 5]), [0x43C0_0001, 0x0500_0102]);
    assert_eq!(words(&[0xF8]), [0x13F8_0000]);
    assert_eq!(words(&[0xF0, 1, 2, 3, 4, 5, 6, 7, 0xF7]), [0x3316_0102, 0x0304_0506, 0x3331_0700, 0]);
}

#[test]
fn a_byte_that_cuts_has_two_lines() {
    let mut up = Up::open(0, ROOM, Flags::NONE).unwrap();
    // an exclusive at 0, which an undefined status byte cuts off at 2
    let (words, lines) = raised(&mut up, &[0xF0, 0x01, 0xF4]);
    assert_eq!(words, []);
    assert_eq!(lines, [Line { offset: 0, kind: Kind::CutExclusive }, Line { offset: 2, kind: Kind::Undefined }]);
    let (_, lines) = raised(&mut up, &[0x90, 0x3C]);
    assert_eq!((lines, up.end()), (vec![], Some(Line { offset: 0, kind: Kind::OpenMessage })));
    up.reset();
    assert_eq!(up.end(), None);
}

#[test]
fn refusals_up() {
    let mut up = Up::open(0, 6, Flags::NONE).unwrap();
    let mut words = [0; 4];
    assert_eq!(up.byte(0x90, 0, &mut words[..3]), Err(Error::SmallBuffer(4)));
    for byte in [0xB0, 0x60] {
        assert!(up.byte(byte, 0, &mut words).is_ok());
    }
    assert_eq!(up.byte(0x01, 0, &mut words), Err(Error::DataIncrement));
    for byte in [0xF0, 1, 2, 3, 4, 5, 6] {
        assert!(up.byte(byte, 0, &mut words).is_ok());
    }
    assert_eq!(up.byte(7, 0, &mut words), Err(Error::ExclusiveTooLong));
    assert_eq!(Up::open(16, 64, Flags::NONE).err(), Some(Error::BadGroup));
    assert_eq!(Up::open(0, 5, Flags::NONE).err(), Some(Error::BadRoom));
}

#[test]
fn an_empty_block_is_done() {
    let mut down = down(Flags::NONE);
    let block = down.packets(&[], 0, &mut [], &mut []);
    assert_eq!((block.end, block.taken, block.need, block.need_items), (Ok(()), 0, 0, 0));
}

#[test]
fn a_block_says_which_buffer_is_short() {
    let mut down = down(Flags::NONE);
    let words = [0x2090_3C64, 0x2090_3E64];
    let (mut bytes, mut pieces) = ([0; 66], [Piece::default(); 4]);
    let block = down.packets(&words, 0, &mut bytes[..65], &mut pieces);
    assert_eq!((block.end, block.taken), (Err(Error::SmallBuffer(66)), 0));
    assert_eq!((block.need, block.need_items), (66, 0));
    let block = down.packets(&words, 0, &mut bytes, &mut []);
    assert_eq!((block.end, block.need, block.need_items), (Err(Error::SmallBuffer(0)), 0, 1));
    let block = down.packets(&words, 0, &mut [], &mut []);
    assert_eq!((block.end, block.need, block.need_items), (Err(Error::SmallBuffer(66)), 66, 1));
    // three of the 66 places are taken then, so 63 are left for the second packet, and no piece
    let block = down.packets(&words, 0, &mut bytes, &mut pieces[..1]);
    assert_eq!((block.end, block.taken, block.written, block.items), (Err(Error::SmallBuffer(66)), 1, 3, 1));
    assert_eq!((block.refused, block.need, block.need_items), (0, 66, 1));
    // half a packet is left
    let block = down.packets(&[0x4090_3C00], 0, &mut bytes, &mut pieces);
    assert_eq!((block.end, block.taken, block.refused), (Err(Error::BadWordCount), 0, 0));
}

#[test]
fn a_refused_packet_is_taken_and_has_no_piece() {
    let mut down = down(Flags::NONE);
    let (mut bytes, mut pieces) = ([0; 256], [Piece::default(); 4]);
    let words = [0x2090_3C64, 0x3017_0102, 0x0304_0506, 0x2090_3E64];
    let block = down.packets(&words, 0, &mut bytes, &mut pieces);
    assert_eq!((block.end, block.taken, block.refused), (Err(Error::BadCount), 3, 2));
    assert_eq!((block.written, block.items), (3, 1));
}

#[test]
fn errors_have_the_names_of_the_library() {
    assert_eq!(Error::BadWordCount.to_string(), "BAD_WORD_COUNT");
    assert_eq!(Error::SmallBuffer(66).to_string(), "SMALL_BUFFER, 66 needed");
    assert_eq!(Error::SetupRule(12).to_string(), "SETUP_RULE 12");
    assert_eq!(Kind::NoteAttribute.to_string(), "NOTE_ATTRIBUTE");
    assert_eq!(larboardyuzu::Heard::NotCi.to_string(), "NOT_CI");
    // the words of the tables in docs/output.md
    assert_eq!(format!("{:>18}|", Kind::IgnoredDataEntry.word()), "ignored-data-entry|");
    assert_eq!(format!("{:>6}|{}", Kind::Data8.word(), larboardyuzu::Heard::NoAnswer.word()), " data8|no-answer");
    assert_eq!(format!("{:>8}|{:?}", Kind::Flex, Kind::Flex), "    FLEX|Flex");
}
