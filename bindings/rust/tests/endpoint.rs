//! The endpoint. The expected words come from M2-104-UM (stream messages) and M2-101-UM (MIDI-CI).

use larboardyuzu::*;
use std::thread;

const SETUP: &str = include_str!("../../../examples/endpoint.toml");

fn opened() -> Endpoint {
    Endpoint::open(SETUP, 512).unwrap()
}

/// The packets of a MIDI-CI message in group 0.
fn packets(message: &[u8]) -> Vec<u32> {
    (0..).map_while(|index| exclusive_packet(0, message, index).unwrap()).flatten().collect()
}

/// The last replies, and all words that a peer's packets are answered.
fn answered(endpoint: &mut Endpoint, words: &[u32]) -> (Replies, Vec<u32>) {
    let (mut reply, mut replies) = (vec![0; 2 * MOST_REPLY_WORDS], [Replies::default(); 64]);
    let block = endpoint.packets(words, 0, &mut reply, &mut replies);
    assert_eq!((block.end, block.taken), (Ok(()), words.len()));
    (replies[block.items - 1], reply[..block.written].to_vec())
}

#[test]
fn stream_messages_are_answered() {
    let mut endpoint = opened();
    // Endpoint Discovery that asks for the info alone: UMP 1.1, static, one block, both protocols
    let (replies, words) = answered(&mut endpoint, &[0xF000_0101, 0x0000_0001, 0, 0]);
    assert_eq!((replies.heard(), replies.group(), replies.line()), (Some(Heard::Answered), None, None));
    assert_eq!(words, [0xF001_0101, 0x8100_0300, 0, 0]);
    assert_eq!(endpoint.protocol(), 2);
    let (_, words) = answered(&mut endpoint, &[0xF005_0100, 0, 0, 0]);
    assert_eq!((words, endpoint.protocol()), (vec![0xF006_0100, 0, 0, 0], 1));
    endpoint.reset();
    assert_eq!(endpoint.protocol(), 2);
}

#[test]
fn a_profile_is_switched_on() {
    let mut endpoint = opened();
    let profiles: Vec<_> = endpoint.profiles().collect();
    assert_eq!(profiles.len(), 1);
    assert_eq!((profiles[0].block, profiles[0].group(), profiles[0].channel()), (0, Some(0), Some(2)));
    assert_eq!((profiles[0].id, profiles[0].is_on), ([0x7E, 0, 1, 1, 0], false));
    // Set Profile On (22) to channel 2, version 2, from MUID 5 to 19088743 (67 45 0D 09 in seven bits), with the
    // number of channels; the report (24) goes to all
    let on = [0x7E, 2, 0x0D, 0x22, 2, 5, 0, 0, 0, 0x67, 0x0A, 0x0D, 0x09, 0x7E, 0, 1, 1, 0, 0, 0];
    let (replies, words) = answered(&mut endpoint, &packets(&on));
    assert_eq!((replies.heard(), replies.group()), (Some(Heard::Answered), Some(0)));
    let report = [0x7E, 2, 0x0D, 0x24, 2, 0x67, 0x0A, 0x0D, 0x09, 0x7F, 0x7F, 0x7F, 0x7F, 0x7E, 0, 1, 1, 0, 1, 0];
    assert_eq!(words, packets(&report));
    assert!(endpoint.profile(0).unwrap().is_on);
    assert_eq!(endpoint.profile(1), None);
    endpoint.reset();
    assert!(!endpoint.profile(0).unwrap().is_on);
}

#[test]
fn a_block_takes_its_next_muid() {
    let mut endpoint = opened();
    assert_eq!((endpoint.muid(0), endpoint.muid(1)), (Some(19_088_743), None));
    // Invalidate MUID (7E), version 2, from MUID 5 to all
    let invalidate =
        |muid: [u8; 4]| [&[0x7E, 0x7F, 0x0D, 0x7E, 2, 5, 0, 0, 0, 0x7F, 0x7F, 0x7F, 0x7F], &muid[..]].concat();
    let (replies, words) = answered(&mut endpoint, &packets(&invalidate([0x67, 0x0A, 0x0D, 0x09])));
    assert_eq!((replies.heard(), words), (Some(Heard::Moved), vec![]));
    assert_eq!(endpoint.muid(0), Some(300));
    answered(&mut endpoint, &packets(&invalidate([0x2C, 2, 0, 0]))); // 300
    assert_eq!(endpoint.muid(0), None);
    endpoint.reset();
    assert_eq!(endpoint.muid(0), Some(19_088_743));
}

#[test]
fn refusals() {
    let mut endpoint = opened();
    let mut reply = [0; MOST_REPLY_WORDS];
    let request = [0xF005_0100, 0, 0, 0];
    assert_eq!(endpoint.packet(&request, 0, &mut reply[..1023]), Err(Error::SmallBuffer(1024)));
    assert_eq!(endpoint.packet(&request[..3], 0, &mut reply), Err(Error::BadWordCount));
    assert_eq!(endpoint.packet(&[0x2090_3C80], 0, &mut reply), Err(Error::HighBit));
    let stray = endpoint.packet(&[0x3231_0700, 0], 40, &mut reply).unwrap();
    assert_eq!(stray.line(), Some(Line { offset: 40, kind: Kind::StrayExclusive }));
    assert_eq!((stray.group(), stray.heard()), (Some(2), None));
    assert!(endpoint.packet(&[0x3016_0102, 0x0304_0506], 48, &mut reply).is_ok());
    assert_eq!((endpoint.begun(0), endpoint.begun(1)), (Ok(Some(48)), Ok(None)));
    assert_eq!(endpoint.begun(16), Err(Error::BadGroup));
}

#[test]
fn setups() {
    assert_eq!(Endpoint::open("= 3", 512).err(), Some(Error::SetupSyntax));
    assert_eq!(Endpoint::open([0xFF], 512).err(), Some(Error::SetupSyntax));
    assert_eq!(Endpoint::open("endpoint = 3\n", 512).err(), Some(Error::SetupRule(1)));
    assert_eq!(Endpoint::open("#".repeat(MOST_SETUP_BYTES + 1), 512).err(), Some(Error::SetupRule(0)));
    assert_eq!(Endpoint::open(SETUP, 5).err(), Some(Error::BadRoom));
}

#[test]
fn values_go_to_other_threads() {
    fn goes<T: Send>() {}
    goes::<(Down, Up, Parser, Endpoint, State, Sysex8, Usb)>();
    let mut endpoint = opened();
    let endpoint = thread::spawn(move || {
        answered(&mut endpoint, &[0xF005_0100, 0, 0, 0]);
        endpoint
    });
    assert_eq!(endpoint.join().unwrap().protocol(), 1);
}

#[test]
fn values_can_be_printed() {
    assert!(format!("{:?}", opened()).starts_with("Endpoint {"));
}
