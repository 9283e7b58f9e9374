//! An endpoint, which answers a peer.

use crate::error::{answer, found, Error, Result};
use crate::handle::{is_done, Held};
use crate::names::numbered;
use crate::{sys, Block, Heard, Line, Profile, Replies};

/// Answers a peer's stream messages (M2-104-UM) and MIDI-CI messages (M2-101-UM) as its setup says.
///
/// ```
/// use larboardyuzu::{Endpoint, Heard, MOST_REPLY_WORDS};
///
/// let setup = r#"
///     [endpoint]
///     name = "Demo"
///     id = "SN-0001"
///     manufacturer = [125, 0, 0]
///     family = 1
///     model = 2
///     revision = [1, 0, 0, 0]
///     midi1 = true
///     midi2 = true
///     protocol = 2
///     static = true
/// "#;
/// let mut endpoint = Endpoint::open(setup, 512)?;
/// let mut reply = [0; MOST_REPLY_WORDS];
/// // Stream Configuration Request for the MIDI 1.0 protocol, and its notification.
/// let replies = endpoint.packet(&[0xF005_0100, 0, 0, 0], 0, &mut reply)?;
/// assert_eq!(replies.heard(), Some(Heard::Answered));
/// assert_eq!(reply[..replies.written], [0xF006_0100, 0, 0, 0]);
/// assert_eq!(endpoint.protocol(), 1);
/// # Ok::<(), larboardyuzu::Error>(())
/// ```
#[derive(Debug)]
pub struct Endpoint {
    held: Held,
}

impl Endpoint {
    /// Opens an endpoint by the text of its setup, in TOML (docs/setup.md). `room`, 6 to 1,048,576, is the most bytes of an
    /// exclusive; each of the sixteen groups has that much memory.
    ///
    /// # Errors
    ///
    /// `BadRoom`, `SetupSyntax`, `SetupRule`, `NoMemory`, `WrongVersion`.
    ///
    /// ```
    /// use larboardyuzu::{Endpoint, Error};
    ///
    /// assert_eq!(Endpoint::open("= 3", 512).err(), Some(Error::SetupSyntax));
    /// assert_eq!(Endpoint::open("endpoint = 3", 512).err(), Some(Error::SetupRule(1)));
    /// ```
    pub fn open(setup: impl AsRef<[u8]>, room: u32) -> Result<Endpoint> {
        let (text, mut rule) = (setup.as_ref(), 0);
        let held = Held::open(sys::larboardyuzu_endpoint_close, |raw| {
            // SAFETY: the pointer is that of a closed handle, which nothing else has; the text is a slice.
            unsafe { sys::larboardyuzu_endpoint_open(raw, text.as_ptr(), text.len(), room, &mut rule) }
        });
        match held {
            Err(Error::Other(sys::SETUP_RULE)) => Err(Error::SetupRule(rule)),
            held => Ok(Endpoint { held: held? }),
        }
    }

    /// Takes one packet of the peer and writes the replies to the front of `reply`.
    ///
    /// # Errors
    ///
    /// `SmallBuffer` if `reply` has fewer than [`MOST_REPLY_WORDS`](crate::MOST_REPLY_WORDS) places, whatever the packet is;
    /// `BadWordCount`, `BadCount`, `HighBit`, `ExclusiveTooLong`. The last one drops the exclusive; otherwise a refused packet
    /// changes nothing.
    ///
    /// ```
    /// use larboardyuzu::{Endpoint, Error, Heard, MOST_REPLY_WORDS};
    ///
    /// let mut endpoint = Endpoint::open(std::fs::read_to_string("../../examples/endpoint.toml")?, 512)?;
    /// let mut reply = [0; MOST_REPLY_WORDS];
    /// // Endpoint Discovery that asks for the info alone: UMP 1.1, static function blocks, one of them, both protocols.
    /// let replies = endpoint.packet(&[0xF000_0101, 0x0000_0001, 0, 0], 0, &mut reply)?;
    /// assert_eq!(replies.heard(), Some(Heard::Answered));
    /// assert_eq!(reply[..replies.written], [0xF001_0101, 0x8100_0300, 0, 0]);
    /// assert_eq!(endpoint.packet(&[0x2090_3C80], 16, &mut reply), Err(Error::HighBit));
    /// # Ok::<(), Box<dyn std::error::Error>>(())
    /// ```
    pub fn packet(&mut self, words: &[u32], offset: u64, reply: &mut [u32]) -> Result<Replies> {
        let mut replies = Replies::default();
        // SAFETY: the pointers and sizes are those of slices and of a struct, which don't overlap.
        let status = unsafe {
            sys::larboardyuzu_endpoint_packet(
                self.held.raw(),
                words.as_ptr(),
                words.len(),
                offset,
                reply.as_mut_ptr(),
                reply.len(),
                &mut replies,
            )
        };
        answer(status, replies.need).map(|()| replies)
    }

    /// Takes packets of the peer that follow each other. `offset` is that of the first; each word adds 4. There are replies,
    /// perhaps of no words, for each packet taken that wasn't refused, and their words follow each other in `reply`.
    ///
    /// ```
    /// use larboardyuzu::{Endpoint, Replies, MOST_REPLY_WORDS};
    ///
    /// let mut endpoint = Endpoint::open(std::fs::read_to_string("../../examples/endpoint.toml")?, 512)?;
    /// let (mut reply, mut replies) = ([0; 2 * MOST_REPLY_WORDS], [Replies::default(); 8]);
    /// // A Timing Clock, which has no reply, and Stream Configuration Request for the MIDI 1.0 protocol.
    /// let block = endpoint.packets(&[0x10F8_0000, 0xF005_0100, 0, 0, 0], 0, &mut reply, &mut replies);
    /// assert_eq!((block.end, block.taken, block.items), (Ok(()), 5, 2));
    /// assert_eq!(reply[..block.written], [0xF006_0100, 0, 0, 0]);
    /// # Ok::<(), Box<dyn std::error::Error>>(())
    /// ```
    pub fn packets(&mut self, words: &[u32], offset: u64, reply: &mut [u32], replies: &mut [Replies]) -> Block {
        let mut block = sys::Block::default();
        // SAFETY: as in `packet`.
        let status = unsafe {
            sys::larboardyuzu_endpoint_packets(
                self.held.raw(),
                words.as_ptr(),
                words.len(),
                offset,
                reply.as_mut_ptr(),
                reply.len(),
                replies.as_mut_ptr(),
                replies.len(),
                &mut block,
            )
        };
        Block::of(status, block)
    }

    /// The protocol in force: 1 for MIDI 1.0, 2 for MIDI 2.0.
    ///
    /// ```
    /// use larboardyuzu::Endpoint;
    ///
    /// let endpoint = Endpoint::open(std::fs::read_to_string("../../examples/endpoint.toml")?, 512)?;
    /// assert_eq!(endpoint.protocol(), 2); // as the setup says
    /// # Ok::<(), Box<dyn std::error::Error>>(())
    /// ```
    #[must_use]
    pub fn protocol(&self) -> u8 {
        let mut protocol = 0;
        // SAFETY: no other call has the handle, and nothing else has the number.
        is_done(unsafe { sys::larboardyuzu_endpoint_protocol(self.held.read(), &mut protocol) });
        protocol
    }

    /// The MUID in force of a function block, counted from 0. `None`: the block has no MIDI-CI or has used up its MUIDs, or
    /// there is no such block.
    ///
    /// ```
    /// use larboardyuzu::Endpoint;
    ///
    /// let endpoint = Endpoint::open(std::fs::read_to_string("../../examples/endpoint.toml")?, 512)?;
    /// assert_eq!((endpoint.muid(0), endpoint.muid(1)), (Some(19_088_743), None));
    /// # Ok::<(), Box<dyn std::error::Error>>(())
    /// ```
    #[must_use]
    pub fn muid(&self, block: u8) -> Option<u32> {
        let mut muid = 0;
        // SAFETY: as in `protocol`.
        let status = unsafe { sys::larboardyuzu_endpoint_muid(self.held.read(), block, &mut muid) };
        (status == sys::DONE).then_some(muid)
    }

    /// A profile, counted from 0 in the order of the setup.
    ///
    /// ```
    /// use larboardyuzu::Endpoint;
    ///
    /// let endpoint = Endpoint::open(std::fs::read_to_string("../../examples/endpoint.toml")?, 512)?;
    /// let profile = endpoint.profile(0).unwrap();
    /// assert_eq!((profile.block, profile.group(), profile.channel()), (0, Some(0), Some(2)));
    /// assert_eq!((profile.id, profile.is_on), ([0x7E, 0, 1, 1, 0], false));
    /// # Ok::<(), Box<dyn std::error::Error>>(())
    /// ```
    #[must_use]
    pub fn profile(&self, index: usize) -> Option<Profile> {
        let mut profile = Profile::default();
        // SAFETY: as in `protocol`.
        let status = unsafe { sys::larboardyuzu_endpoint_profile(self.held.read(), index, &mut profile) };
        (status == sys::DONE).then_some(profile)
    }

    /// The profiles, in the order of the setup.
    ///
    /// ```
    /// use larboardyuzu::Endpoint;
    ///
    /// let endpoint = Endpoint::open(std::fs::read_to_string("../../examples/endpoint.toml")?, 512)?;
    /// assert_eq!(endpoint.profiles().count(), 1);
    /// # Ok::<(), Box<dyn std::error::Error>>(())
    /// ```
    pub fn profiles(&self) -> impl Iterator<Item = Profile> + '_ {
        (0..).map_while(|index| self.profile(index))
    }

    /// The offset at which the exclusive began that a group has open, if it has one.
    ///
    /// # Errors
    ///
    /// `BadGroup` if the group isn't 0 to 15.
    ///
    /// ```
    /// use larboardyuzu::{Endpoint, MOST_REPLY_WORDS};
    ///
    /// let mut endpoint = Endpoint::open(std::fs::read_to_string("../../examples/endpoint.toml")?, 512)?;
    /// endpoint.packet(&[0x3016_0102, 0x0304_0506], 40, &mut [0; MOST_REPLY_WORDS])?;
    /// assert_eq!((endpoint.begun(0)?, endpoint.begun(1)?), (Some(40), None));
    /// # Ok::<(), Box<dyn std::error::Error>>(())
    /// ```
    pub fn begun(&self, group: u8) -> Result<Option<u64>> {
        let mut offset = 0;
        // SAFETY: as in `protocol`.
        let status = unsafe { sys::larboardyuzu_endpoint_begun(self.held.read(), group, &mut offset) };
        found(status, offset)
    }

    /// Makes it as it was just after it was opened: protocol, MUIDs and profiles are those of the setup again. It requests no
    /// memory. Other MUIDs need another setup, so a new endpoint.
    ///
    /// ```
    /// use larboardyuzu::{Endpoint, MOST_REPLY_WORDS};
    ///
    /// let mut endpoint = Endpoint::open(std::fs::read_to_string("../../examples/endpoint.toml")?, 512)?;
    /// endpoint.packet(&[0xF005_0100, 0, 0, 0], 0, &mut [0; MOST_REPLY_WORDS])?;
    /// endpoint.reset();
    /// assert_eq!(endpoint.protocol(), 2);
    /// # Ok::<(), Box<dyn std::error::Error>>(())
    /// ```
    pub fn reset(&mut self) {
        // SAFETY: nothing else has the handle.
        is_done(unsafe { sys::larboardyuzu_endpoint_reset(self.held.raw()) });
    }
}

impl Replies {
    /// What was done with the packet, if it is a stream message or ends an exclusive.
    #[must_use]
    pub fn heard(&self) -> Option<Heard> {
        (self.heard != sys::HEARD_NOTHING).then(|| Heard::of(self.heard))
    }

    /// The group of a packet of an exclusive, and so of its line. `None` for other packets.
    #[must_use]
    pub fn group(&self) -> Option<u8> {
        numbered(self.group)
    }

    /// Its line of the listing: an exclusive that was cut off or is stray.
    #[must_use]
    pub fn line(&self) -> Option<Line> {
        Line::of(self.offset, self.kind)
    }
}

impl Profile {
    /// Its group, unless it belongs to the whole function block.
    #[must_use]
    pub fn group(&self) -> Option<u8> {
        numbered(self.group)
    }

    /// Its channel, unless it belongs to the whole group or function block.
    #[must_use]
    pub fn channel(&self) -> Option<u8> {
        numbered(self.channel)
    }
}
