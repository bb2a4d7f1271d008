//! The Lingbarrow receive engine from Rust, without `unsafe` for its users: references are never null, `&mut` never overlap, and the
//! lengths of arrays are types, so that what the C boundary must be granted is granted here.
//!
//! A [`Station`] is its state and its port memory, which nobody else can lend. For each frame time it is told that a frame is
//! [arriving](Station::arriving) or that it was [lost](Station::lost); what a frame brings is read from [`Received`].
//!
//! ```
//! use lingbarrow::{write_hlend, Activation, Buffers, Station};
//!
//! let mut station = Station::power_on(*b"LBRW\x00\x00\x00\x01", [0; 36]);
//! let mut buffers = Buffers::new(1024);
//! let mut frame = [0; 4];
//! write_hlend(0, 0, &mut frame)?;
//!
//! let received = station.arriving(&frame).receive(0, &mut buffers)?;
//! assert_eq!(received.records().count(), 0);
//! assert_eq!(station.activation(), Activation::SerialNumber);
//! # Ok::<(), lingbarrow::Error>(())
//! ```
//!
//! A stretch of a frame is had only before the frame is received: [`Arriving::receive`] takes the [`Arriving`] away, and a station has
//! no stretches of its own.
//!
//! ```
//! # let mut station = lingbarrow::Station::power_on([0; 8], [0; 36]);
//! # let mut buffers = lingbarrow::Buffers::new(1024);
//! # let frame = [0; 4];
//! let arriving = station.arriving(&frame);
//! assert_eq!(arriving.stretch(0)?, None);
//! arriving.receive(0, &mut buffers)?;
//! # Ok::<(), lingbarrow::Error>(())
//! ```
//!
//! The other order does not compile:
//!
//! ```compile_fail,E0382
//! # let mut station = lingbarrow::Station::power_on([0; 8], [0; 36]);
//! # let mut buffers = lingbarrow::Buffers::new(1024);
//! # let frame = [0; 4];
//! let arriving = station.arriving(&frame);
//! arriving.receive(0, &mut buffers)?;
//! assert_eq!(arriving.stretch(0)?, None);
//! # Ok::<(), lingbarrow::Error>(())
//! ```
//!
//! Nor does a wrong kind of identifier, where the right one does:
//!
//! ```
//! # let mut station = lingbarrow::Station::power_on([0; 8], [0; 36]);
//! station.add_port(lingbarrow::PortId(2000))?;
//! # Ok::<(), lingbarrow::Error>(())
//! ```
//!
//! ```compile_fail,E0308
//! # let mut station = lingbarrow::Station::power_on([0; 8], [0; 36]);
//! station.add_port(lingbarrow::AllocId(2000))?;
//! # Ok::<(), lingbarrow::Error>(())
//! ```

mod raw;

/// Bytes of a state.
pub const STATE_BYTES: usize = at::CARRIED + 2;
/// The version of a state's form, its first byte: bytes of another version are no state's.
pub const STATE_VERSION: u8 = 8;
/// Bytes of port memory: 17 slots of 2,048.
pub const MEMORY_BYTES: usize = 34_816;
/// Bytes of a saved station: its state, then its port memory.
pub const SAVED_BYTES: usize = STATE_BYTES + MEMORY_BYTES;
/// Structures of a map: HLend can count so many.
pub const NAMES: usize = 2047;
/// Numbers of a plan: 64 records of four.
pub const PLAN_NUMBERS: usize = 256;
/// Bytes of replies: four messages of 48.
pub const REPLY_BYTES: usize = 192;
/// A frame has 4 bytes to so many, a multiple of 4.
pub const FRAME_MOST: usize = 135_432;
/// Bit times, 48 microseconds: a longer random delay counts as this.
pub const DELAY_MOST: u32 = 119_439;
/// At most so many added Alloc-IDs are held.
pub const ADDED_ALLOCS: usize = 16;
/// At most so many answers are owed.
pub const MOST_OWED: usize = 8;
/// At most so many added ports are held.
pub const ADDED_PORTS: usize = 16;
/// Slots of port memory: of the management port, and of each added port.
pub const SLOTS: usize = 17;

/// Where each field of a state stands: where the one before it does, plus that one's bytes. The C header says what each holds; the
/// Registration ID and the key are secret.
pub mod at {
    use super::{ADDED_ALLOCS, ADDED_PORTS, MOST_OWED, SLOTS};

    pub const VERSION: usize = 0;
    pub const STATE: usize = VERSION + 1;
    pub const TIME: usize = STATE + 1;
    pub const SERIAL: usize = TIME + 4;
    pub const REGISTRATION: usize = SERIAL + 8;
    pub const ONU_ID: usize = REGISTRATION + 36;
    pub const ALLOC_COUNT: usize = ONU_ID + 2;
    pub const ALLOC_IDS: usize = ALLOC_COUNT + 1;
    pub const DELAY: usize = ALLOC_IDS + 2 * ADDED_ALLOCS;
    pub const KEY_HELD: usize = DELAY + 4;
    pub const KEY: usize = KEY_HELD + 1;
    pub const OWED_COUNT: usize = KEY + 16;
    pub const OWED: usize = OWED_COUNT + 1;
    pub const PORT_IDS: usize = OWED + 2 * MOST_OWED;
    pub const PARTIALS: usize = PORT_IDS + 2 * ADDED_PORTS;
    pub const WAITING: usize = PARTIALS + 2 * SLOTS;
    pub const CARRIED: usize = WAITING + SLOTS;
}

/// A PLOAM message has 48 bytes; where each of its fields stands.
pub mod message {
    pub const BYTES: usize = 48;
    /// Two bytes, the ONU-ID.
    pub const ADDRESS: usize = 0;
    pub const TYPE: usize = 2;
    pub const SEQ_NO: usize = 3;
    /// 36 bytes.
    pub const CONTENT: usize = 4;
    /// Eight bytes, the message integrity check.
    pub const INTEGRITY: usize = 40;
}

/// Bytes of stack that each call of the library takes at most, as the C header has them. What a wrapper takes for itself and what the
/// caller's own frames need comes on top.
pub mod stack {
    pub const POWER_ON: usize = 600;
    pub const IN_RANGE: usize = 536;
    pub const FRAME: usize = 3_368;
    pub const LOST: usize = 1_112;
    pub const ADD_PORT: usize = 1_432;
    pub const REMOVE_PORT: usize = 1_448;
    pub const GIVE_KEY: usize = 1_256;
    pub const STRETCH: usize = 632;
    pub const STRETCHES: usize = 888;
    pub const WHY_DARK: usize = 984;
    pub const WRITE_HLEND: usize = 24;
    pub const WRITE_ALLOCATION: usize = 80;
    pub const WRITE_XGEM_FRAME: usize = 88;
}

/// Names a station on the branch.
#[derive(Clone, Copy, PartialEq, Eq, Debug, Hash)]
pub struct OnuId(pub u16);

impl OnuId {
    /// Its default Alloc-ID, which has the same number.
    pub const fn default_alloc(self) -> AllocId {
        AllocId(self.0)
    }

    /// Its management port, which has the same number.
    pub const fn management_port(self) -> PortId {
        PortId(self.0)
    }
}

/// Names a recipient of upstream grants.
#[derive(Clone, Copy, PartialEq, Eq, Debug, Hash)]
pub struct AllocId(pub u16);

/// Names an XGEM port.
#[derive(Clone, Copy, PartialEq, Eq, Debug, Hash)]
pub struct PortId(pub u16);

/// What comes back instead of 0, with the paper's numbers.
#[derive(Clone, Copy, PartialEq, Eq, Debug, Hash)]
#[repr(u8)]
pub enum Error {
    StateOutOfRange = 1,
    FrameLengthUnfit = 2,
    BufferTooShort = 3,
    HlendUnreadable = 4,
    HeaderTooLong = 5,
    DelineationLost = 6,
    PortOutOfRange = 7,
    PortHeldOrNotHeld = 8,
    SlotsTaken = 9,
    KeyRefused = 10,
    NotWritten = 11,
}

impl Error {
    /// The number in the paper's table.
    pub const fn number(self) -> u8 {
        self as u8
    }

    fn of(answer: u8) -> Option<Error> {
        Some(match answer {
            0 => return None,
            1 => Error::StateOutOfRange,
            2 => Error::FrameLengthUnfit,
            3 => Error::BufferTooShort,
            4 => Error::HlendUnreadable,
            5 => Error::HeaderTooLong,
            6 => Error::DelineationLost,
            7 => Error::PortOutOfRange,
            8 => Error::PortHeldOrNotHeld,
            9 => Error::SlotsTaken,
            10 => Error::KeyRefused,
            // The proved library answers 0 to 11 and nothing else.
            _ => Error::NotWritten,
        })
    }
}

impl std::fmt::Display for Error {
    fn fmt(&self, f: &mut std::fmt::Formatter<'_>) -> std::fmt::Result {
        f.write_str(match self {
            Error::StateOutOfRange => "state out of range",
            Error::FrameLengthUnfit => "frame length unfit",
            Error::BufferTooShort => "a buffer too short",
            Error::HlendUnreadable => "HLend unreadable",
            Error::HeaderTooLong => "header longer than frame",
            Error::DelineationLost => "delineation lost",
            Error::PortOutOfRange => "port outside 1023 to 65534",
            Error::PortHeldOrNotHeld => "added port held already, or removed port not held",
            Error::SlotsTaken => "all 16 slots taken",
            Error::KeyRefused => "key given in O1, O2-3 or O7",
            Error::NotWritten => "a value too wide for its field, or a target too short",
        })
    }
}

impl std::error::Error for Error {}

fn done(answer: u8) -> Result<(), Error> {
    match Error::of(answer) {
        None => Ok(()),
        Some(e) => Err(e),
    }
}

/// The states of clause 12, each with what belongs to it.
#[derive(Clone, Copy, PartialEq, Eq, Debug, Hash)]
pub enum Activation {
    /// O1
    Initial,
    /// O2-3
    SerialNumber,
    /// O4, with the frame times left of TO1.
    Ranging(u32),
    /// O5
    Operation,
    /// O6, with the frame times left of TO2.
    Intermittent(u32),
    /// O7
    EmergencyStop,
}

impl Activation {
    /// The number after the O; 2 for O2-3.
    pub const fn number(self) -> u8 {
        match self {
            Activation::Initial => 1,
            Activation::SerialNumber => 2,
            Activation::Ranging(_) => 4,
            Activation::Operation => 5,
            Activation::Intermittent(_) => 6,
            Activation::EmergencyStop => 7,
        }
    }

    /// The frame times left of TO1 in O4, of TO2 in O6; the other states have no timer.
    pub const fn time_left(self) -> Option<u32> {
        match self {
            Activation::Ranging(left) | Activation::Intermittent(left) => Some(left),
            _ => None,
        }
    }
}

/// The completion codes of an Acknowledgement (clause 11.3.4.4) that this engine sends.
#[derive(Clone, Copy, PartialEq, Eq, Debug, Hash)]
#[repr(u8)]
pub enum Completion {
    Ok = 0,
    NoMessage = 1,
    UnknownMessageType = 3,
    ParameterError = 4,
    ProcessingError = 5,
}

/// An answer that the head end is owed, to be sent in a burst with PLOAMu.
#[derive(Clone, Copy, PartialEq, Eq, Debug, Hash)]
pub enum Owed {
    Registration { seq_no: u8 },
    Acknowledgement { seq_no: u8, completion: Completion },
}

/// A port that is the station's.
#[derive(Clone, Copy, PartialEq, Eq, Debug, Hash)]
pub struct Port {
    pub id: PortId,
    /// 0 for the management port, 1 to 16 for an added one.
    pub slot: usize,
    /// Bytes of its unfinished SDU.
    pub unfinished: usize,
    /// Whether it discards up to and with the next last fragment.
    pub waiting: bool,
}

/// A station: its state, always in range, and its port memory.
///
/// The memory is the station's own: two stations may share [`Buffers`], and nothing of one is delivered by the other. Cloning and saving
/// take both together. The Registration ID and the key are in a saved station, and are not printed by `{:?}`.
///
/// ```
/// use lingbarrow::Station;
///
/// let station = Station::power_on([1; 8], [165; 36]);
/// let again = Station::restore(&station.save())?;
/// assert!(again == station);
/// assert!(!format!("{station:?}").contains("165"));
/// # Ok::<(), lingbarrow::Error>(())
/// ```
#[derive(Clone, PartialEq, Eq)]
pub struct Station {
    state: [u8; STATE_BYTES],
    memory: Box<[u8]>,
}

impl std::fmt::Debug for Station {
    fn fmt(&self, f: &mut std::fmt::Formatter<'_>) -> std::fmt::Result {
        f.debug_struct("Station")
            .field("activation", &self.activation())
            .field("onu_id", &self.onu_id())
            .field("added_allocs", &self.alloc_ids().count())
            .field("owed", &self.owed().count())
            .field("ports", &self.ports().count())
            .field("key_held", &self.key_held())
            .finish_non_exhaustive()
    }
}

impl Station {
    /// In O1, with nothing held.
    pub fn power_on(serial: [u8; 8], registration: [u8; 36]) -> Station {
        let mut state = [0; STATE_BYTES];
        // All three have their lengths: the answer is 0.
        raw::power_on(&mut state, &serial, &registration);
        Station { state, memory: vec![0; MEMORY_BYTES].into() }
    }

    /// State and port memory in one piece of [`SAVED_BYTES`]. It holds secrets, the Registration ID and the key, and subscribers'
    /// traffic.
    pub fn save(&self) -> Vec<u8> {
        [&self.state[..], &self.memory].concat()
    }

    /// A station that was saved. [`Error::StateOutOfRange`] for bytes that are none: of another length, of another version than
    /// [`STATE_VERSION`], or no state's in range.
    pub fn restore(saved: &[u8]) -> Result<Station, Error> {
        if saved.len() != SAVED_BYTES {
            return Err(Error::StateOutOfRange);
        }
        let (state, memory) = saved.split_at(STATE_BYTES);
        done(raw::in_range(state))?;
        let mut station = Station { state: [0; STATE_BYTES], memory: memory.into() };
        station.state.copy_from_slice(state);
        Ok(station)
    }

    /// The state's bytes as [`at`] has them, to look at. They hold the Registration ID and the key; [`Station::save`] is what to keep.
    pub fn state_bytes(&self) -> &[u8; STATE_BYTES] {
        &self.state
    }

    /// The port memory, to look at: slot after slot, 2,048 bytes each.
    pub fn memory(&self) -> &[u8] {
        &self.memory
    }

    fn octets<const N: usize>(&self, at: usize) -> [u8; N] {
        let mut octets = [0; N];
        octets.copy_from_slice(&self.state[at..at + N]);
        octets
    }

    fn number(&self, at: usize) -> u16 {
        u16::from_be_bytes(self.octets(at))
    }

    /// The version of the state's form: [`STATE_VERSION`].
    pub fn state_version(&self) -> u8 {
        self.state[at::VERSION]
    }

    /// Where the station stands, and the frame times left to it there.
    pub fn activation(&self) -> Activation {
        let left = u32::from_be_bytes(self.octets(at::TIME));
        match self.state[at::STATE] {
            1 => Activation::Initial,
            2 => Activation::SerialNumber,
            4 => Activation::Ranging(left),
            5 => Activation::Operation,
            6 => Activation::Intermittent(left),
            // A state in range has one of these six.
            _ => Activation::EmergencyStop,
        }
    }

    pub fn serial_number(&self) -> [u8; 8] {
        self.octets(at::SERIAL)
    }

    /// Held in O4, O5 and O6.
    pub fn onu_id(&self) -> Option<OnuId> {
        Some(self.number(at::ONU_ID)).filter(|n| *n != 1023).map(OnuId)
    }

    /// The added Alloc-IDs, in the order in which they were given; the default one is not among them.
    pub fn alloc_ids(&self) -> impl Iterator<Item = AllocId> + '_ {
        (0..usize::from(self.state[at::ALLOC_COUNT])).map(|i| AllocId(self.number(at::ALLOC_IDS + 2 * i)))
    }

    /// In bit times of 2.48832 Gbit/s: what the head end gave by Ranging_Time, to be added to each burst's start.
    pub fn equalization_delay(&self) -> u32 {
        u32::from_be_bytes(self.octets(at::DELAY))
    }

    /// Whether a PLOAM integrity key was given and is still held.
    pub fn key_held(&self) -> bool {
        self.state[at::KEY_HELD] == 1
    }

    /// What is owed, the oldest first.
    pub fn owed(&self) -> impl Iterator<Item = Owed> + '_ {
        (0..usize::from(self.state[at::OWED_COUNT])).map(|i| {
            let [what, seq_no] = self.octets(at::OWED + 2 * i);
            let completion = match what {
                0 => return Owed::Registration { seq_no },
                1 => Completion::Ok,
                2 => Completion::NoMessage,
                4 => Completion::UnknownMessageType,
                5 => Completion::ParameterError,
                // A state in range has one of these six.
                _ => Completion::ProcessingError,
            };
            Owed::Acknowledgement { seq_no, completion }
        })
    }

    /// The management port, while an ONU-ID is held, and the added ports, by their slots.
    pub fn ports(&self) -> impl Iterator<Item = Port> + '_ {
        (0..SLOTS).filter_map(|slot| {
            let id = match slot {
                0 => self.onu_id()?.management_port(),
                _ => PortId(Some(self.number(at::PORT_IDS + 2 * (slot - 1))).filter(|n| *n != 0)?),
            };
            let unfinished = self.number(at::PARTIALS + 2 * slot).into();
            Some(Port { id, slot, unfinished, waiting: self.state[at::WAITING + slot] == 1 })
        })
    }

    /// Words that the last burst takes of the next frame.
    pub fn carried_words(&self) -> u16 {
        self.number(at::CARRIED)
    }

    /// A frame arrives, descrambled, error-corrected and without PSBd: its first byte is HLend's. Nothing happens before it is
    /// [received](Arriving::receive).
    pub fn arriving<'s, 'f>(&'s mut self, frame: &'f [u8]) -> Arriving<'s, 'f> {
        Arriving { station: self, frame }
    }

    /// A frame time in which the synchroniser reports LODS.
    pub fn lost(&mut self) {
        // A state in range, with its length: the answer is 0.
        raw::lost(&mut self.state);
    }

    /// An XGEM port of 1,023 to 65,534, into the lowest empty slot. It waits for the next SDU to begin.
    pub fn add_port(&mut self, port: PortId) -> Result<(), Error> {
        done(raw::add_port(&mut self.state, port.0))
    }

    pub fn remove_port(&mut self, port: PortId) -> Result<(), Error> {
        done(raw::remove_port(&mut self.state, port.0))
    }

    /// The PLOAM integrity key: taken in O4, O5 and O6.
    pub fn give_key(&mut self, key: &[u8; 16]) -> Result<(), Error> {
        done(raw::give_key(&mut self.state, key))
    }
}

/// A frame and the station at which it arrives, before anything of it has acted.
#[must_use = "a frame acts when it is received"]
pub struct Arriving<'s, 'f> {
    station: &'s mut Station,
    frame: &'f [u8],
}

impl std::fmt::Debug for Arriving<'_, '_> {
    fn fmt(&self, f: &mut std::fmt::Formatter<'_>) -> std::fmt::Result {
        f.debug_struct("Arriving").field("station", &self.station).field("frame_bytes", &self.frame.len()).finish()
    }
}

impl<'f> Arriving<'_, 'f> {
    /// The SDU that will be delivery `k` (from 0) as its own stretch of the frame, padding cut off. `None` where it is put together
    /// from fragments, and where there is no such delivery.
    pub fn stretch(&self, k: usize) -> Result<Option<&'f [u8]>, Error> {
        let mut place = [0; 2];
        match Error::of(raw::stretch(&self.station.state, self.frame, k, &mut place)) {
            None | Some(Error::DelineationLost) => {}
            Some(e) => return Err(e),
        }
        let [at, bytes] = place;
        Ok(Some(&self.frame[at..at + bytes]).filter(|s| !s.is_empty()))
    }

    /// Every SDU that will be delivered, in order, each as [`stretch`](Arriving::stretch) has it, in one walk over the frame. `places`
    /// is lent for it, [`places`] numbers for the frame's bytes; what it holds afterwards is of no use.
    ///
    /// ```
    /// # use lingbarrow::{places, write_hlend, Station};
    /// # let mut station = Station::power_on([0; 8], [0; 36]);
    /// # let mut frame = [0; 1024];
    /// # write_hlend(0, 0, &mut frame)?;
    /// let mut lent = [0; places(1024)];
    /// for sdu in station.arriving(&frame).stretches(&mut lent)?.flatten() {
    ///     println!("{} bytes in one piece", sdu.len());
    /// }
    /// # Ok::<(), lingbarrow::Error>(())
    /// ```
    pub fn stretches<'p>(&self, places: &'p mut [usize]) -> Result<Stretches<'f, 'p>, Error> {
        let mut count = [0];
        match Error::of(raw::stretches(&self.station.state, self.frame, places, &mut count)) {
            None | Some(Error::DelineationLost) => {}
            Some(e) => return Err(e),
        }
        Ok(Stretches { frame: self.frame, places: places[..2 * count[0]].chunks_exact(2) })
    }

    /// What became of each structure of the frame's map, in map order. Those that are [planned](Name::Planned) are the plan's
    /// [records](Received::records), in the same order. `lent` holds the names while they are looked at.
    ///
    /// ```
    /// # use lingbarrow::{write_hlend, Name, Station, NAMES};
    /// # let mut station = Station::power_on([0; 8], [0; 36]);
    /// # let mut frame = [0; 1024];
    /// # write_hlend(1, 0, &mut frame)?;
    /// let mut lent = [0; NAMES];
    /// for (structure, name) in station.arriving(&frame).why_dark(&mut lent)?.enumerate() {
    ///     println!("{structure} {name}");
    /// #   assert_eq!(name, Name::Silent);
    /// }
    /// # Ok::<(), lingbarrow::Error>(())
    /// ```
    pub fn why_dark<'n>(&self, lent: &'n mut [u8; NAMES]) -> Result<impl ExactSizeIterator<Item = Name> + 'n, Error> {
        let mut count = [0];
        match Error::of(raw::why_dark(&self.station.state, self.frame, lent, &mut count)) {
            None => Ok(lent[..count[0]].iter().map(|&number| Name::of(number))),
            Some(e) => Err(e),
        }
    }

    /// The frame acts: its plan, replies and deliveries go to the buffers, and the station to its next state. `random_delay` is what the
    /// caller drew for a burst in O2-3, in bit times of 2.48832 Gbit/s; the engine writes it into Serial_Number_ONU.
    ///
    /// After [`Error::FrameLengthUnfit`] and [`Error::BufferTooShort`] (a frame longer than the buffers are for) nothing has
    /// changed. After [`Error::HlendUnreadable`] and [`Error::HeaderTooLong`] a frame time has passed. Lost delineation is no error:
    /// the frame is otherwise done, and [`Received::delineation_lost`] says so.
    pub fn receive(self, random_delay: u32, buffers: &mut Buffers) -> Result<Received<'_>, Error> {
        let mut counts = [0; 3];
        let Station { state, memory } = self.station;
        let answer = raw::frame(state, memory, self.frame, random_delay, &mut buffers.plan, &mut buffers.replies, &mut buffers.deliveries, &mut counts);
        let delineation_lost = match Error::of(answer) {
            None => false,
            Some(Error::DelineationLost) => true,
            Some(e) => return Err(e),
        };
        let [records, replies, bytes] = counts;
        Ok(Received {
            plan: &buffers.plan[..4 * records],
            replies: &buffers.replies[..message::BYTES * replies],
            deliveries: &buffers.deliveries[..bytes],
            delineation_lost,
        })
    }
}

/// What became of a structure of the map: the first of these that is so, but for the last, which comes before all.
#[derive(Clone, Copy, PartialEq, Eq, Hash, Debug)]
#[repr(u8)]
pub enum Name {
    Planned = 0,
    /// No true word is near.
    Unreadable = 1,
    /// 9,720 to 65,534.
    StartTimeUnfit = 2,
    /// DBRu with GrantSize 0.
    DbruWithoutRoom = 3,
    /// Not ours in this state: another's Alloc-ID, or a grant that this state does not take.
    Foreign = 4,
    /// Ours and continuing, behind an entry of no burst of ours.
    ContinuingNothing = 5,
    /// Ours and continuing, straight behind the sixteen of a burst.
    Seventeenth = 6,
    /// Of a burst of more than 9,720 words.
    TooLong = 7,
    /// Of a burst that starts before the last planned one has ended.
    Overlapping = 8,
    /// Of a burst behind four planned ones.
    AfterTheFourth = 9,
    /// A state that sends nothing: O1, O6, O7.
    Silent = 10,
}

impl Name {
    /// The number in the list of names.
    pub const fn number(self) -> u8 {
        self as u8
    }

    fn of(number: u8) -> Name {
        match number {
            0 => Name::Planned,
            1 => Name::Unreadable,
            2 => Name::StartTimeUnfit,
            3 => Name::DbruWithoutRoom,
            4 => Name::Foreign,
            5 => Name::ContinuingNothing,
            6 => Name::Seventeenth,
            7 => Name::TooLong,
            8 => Name::Overlapping,
            9 => Name::AfterTheFourth,
            // The proved library names 0 to 10 and nothing else.
            _ => Name::Silent,
        }
    }
}

impl std::fmt::Display for Name {
    fn fmt(&self, f: &mut std::fmt::Formatter<'_>) -> std::fmt::Result {
        f.pad(match self {
            Name::Planned => "planned",
            Name::Unreadable => "unreadable",
            Name::StartTimeUnfit => "StartTime unfit",
            Name::DbruWithoutRoom => "DBRu without room",
            Name::Foreign => "foreign",
            Name::ContinuingNothing => "continuing nothing",
            Name::Seventeenth => "seventeenth",
            Name::TooLong => "too long",
            Name::Overlapping => "overlapping",
            Name::AfterTheFourth => "after the fourth",
            Name::Silent => "a state that sends nothing",
        })
    }
}

/// Numbers that [`Arriving::stretches`] is lent for a frame of so many bytes: an SDU takes 16 of them at least, and two numbers.
pub const fn places(frame_bytes: usize) -> usize {
    frame_bytes / 8
}

/// The SDUs of a frame, in the order of its deliveries, each as its own stretch of the frame; `None` for one that is put together from
/// fragments.
#[derive(Clone)]
pub struct Stretches<'f, 'p> {
    frame: &'f [u8],
    places: std::slice::ChunksExact<'p, usize>,
}

impl<'f> Iterator for Stretches<'f, '_> {
    type Item = Option<&'f [u8]>;

    fn next(&mut self) -> Option<Option<&'f [u8]>> {
        let place = self.places.next()?;
        Some(Some(&self.frame[place[0]..place[0] + place[1]]).filter(|s| !s.is_empty()))
    }

    fn size_hint(&self) -> (usize, Option<usize>) {
        self.places.size_hint()
    }
}

impl ExactSizeIterator for Stretches<'_, '_> {}
impl std::iter::FusedIterator for Stretches<'_, '_> {}

impl std::fmt::Debug for Stretches<'_, '_> {
    fn fmt(&self, f: &mut std::fmt::Formatter<'_>) -> std::fmt::Result {
        f.debug_struct("Stretches").field("left", &self.len()).finish_non_exhaustive()
    }
}

/// What a frame's plan, replies and deliveries are written to. Nothing in it is a station's: any frame of any station may use it next.
#[derive(Clone)]
pub struct Buffers {
    plan: Box<[u16]>,
    replies: Box<[u8]>,
    deliveries: Box<[u8]>,
}

impl Buffers {
    /// Buffers for frames of up to so many bytes.
    pub fn new(frame_most: usize) -> Buffers {
        Buffers {
            plan: vec![0; PLAN_NUMBERS].into(),
            replies: vec![0; REPLY_BYTES].into(),
            deliveries: vec![0; frame_most.min(FRAME_MOST) + MEMORY_BYTES].into(),
        }
    }
}

impl std::fmt::Debug for Buffers {
    fn fmt(&self, f: &mut std::fmt::Formatter<'_>) -> std::fmt::Result {
        f.debug_struct("Buffers").field("frame_most", &(self.deliveries.len() - MEMORY_BYTES)).finish_non_exhaustive()
    }
}

/// What a frame has brought, borrowed from the buffers.
#[derive(Clone, Copy)]
pub struct Received<'b> {
    plan: &'b [u16],
    replies: &'b [u8],
    deliveries: &'b [u8],
    delineation_lost: bool,
}

impl<'b> Received<'b> {
    /// The plan: the bursts in order, each a head and the records that continue it.
    pub fn records(&self) -> impl ExactSizeIterator<Item = Record> + 'b {
        self.plan.chunks_exact(4).map(|r| Record { alloc: AllocId(r[0]), flags: r[1], start: r[2], grant: r[3] })
    }

    /// Messages as they are sent, one for each planned burst with PLOAMu, in order. A Registration among them carries the Registration
    /// ID, which is secret.
    pub fn replies(&self) -> impl ExactSizeIterator<Item = &'b [u8; message::BYTES]> + 'b {
        self.replies.chunks_exact(message::BYTES).map(|m| m.try_into().expect("a chunk has this length"))
    }

    /// The SDUs, in the order in which their last bytes arrived.
    pub fn deliveries(&self) -> Deliveries<'b> {
        Deliveries { left: self.deliveries }
    }

    /// Whether an XGEM header was unreadable or its payload longer than what was left (answer 6): what came before it is here.
    pub fn delineation_lost(&self) -> bool {
        self.delineation_lost
    }
}

impl std::fmt::Debug for Received<'_> {
    fn fmt(&self, f: &mut std::fmt::Formatter<'_>) -> std::fmt::Result {
        f.debug_struct("Received")
            .field("records", &self.records().len())
            .field("replies", &self.replies().len())
            .field("deliveries", &self.deliveries().count())
            .field("delineation_lost", &self.delineation_lost)
            .finish()
    }
}

/// One record of a plan.
#[derive(Clone, Copy, PartialEq, Eq, Debug, Hash)]
pub struct Record {
    pub alloc: AllocId,
    /// As the laser reads them; the methods have each by its name.
    pub flags: u16,
    /// The burst's start, on each of its records: the word of 4 bytes in the upstream frame, 0 to 9,719, where its first byte stands (PSBu
    /// goes in front of it). Counted before any delay: the sender adds its response time and the equalization delay, and in O2-3 the
    /// random delay.
    pub start: u16,
    /// GrantSize in words of 4 bytes.
    pub grant: u16,
}

impl Record {
    /// The first record of a burst.
    pub const fn is_head(&self) -> bool {
        self.flags & 1 != 0
    }

    /// On a head: the burst sends the next reply.
    pub const fn ploamu(&self) -> bool {
        self.flags & 2 != 0
    }

    pub const fn dbru(&self) -> bool {
        self.flags & 4 != 0
    }

    /// The head's, on each record of the burst.
    pub const fn fwi(&self) -> bool {
        self.flags & 8 != 0
    }

    /// The burst profile, 0 to 3: the head's, on each record of the burst.
    pub const fn profile(&self) -> u8 {
        (self.flags >> 4) as u8
    }
}

/// One SDU.
#[derive(Clone, Copy, PartialEq, Eq, Debug, Hash)]
pub struct Delivery<'b> {
    pub port: PortId,
    pub bytes: &'b [u8],
}

/// The SDUs of a frame.
#[derive(Clone)]
pub struct Deliveries<'b> {
    left: &'b [u8],
}

impl<'b> Iterator for Deliveries<'b> {
    type Item = Delivery<'b>;

    fn next(&mut self) -> Option<Delivery<'b>> {
        // Port-ID, length, bytes: the proved library writes whole deliveries and nothing else.
        let (head, rest) = (self.left.get(..4)?, &self.left[4..]);
        let length = u16::from_be_bytes([head[2], head[3]]).into();
        let bytes = rest.get(..length)?;
        self.left = &rest[length..];
        Some(Delivery { port: PortId(u16::from_be_bytes([head[0], head[1]])), bytes })
    }
}

impl std::iter::FusedIterator for Deliveries<'_> {}

/// The fields of an allocation structure. Numbers are as wide as a caller counts; [`write_allocation`] refuses those that their fields do
/// not hold.
#[derive(Clone, Copy, PartialEq, Eq, Debug)]
pub struct Allocation {
    /// 14 bits.
    pub alloc: AllocId,
    pub dbru: bool,
    pub ploamu: bool,
    /// StartTime, 16 bits; 65,535 continues a burst.
    pub start: u32,
    /// GrantSize in words of 4 bytes, 16 bits.
    pub grant: u32,
    pub fwi: bool,
    /// 2 bits.
    pub profile: u32,
}

/// HLend at the start of a target: how many allocation structures, at most 2,047, and how many messages, at most 255.
/// [`Error::NotWritten`] where there are more, or the target has fewer than 4 bytes; it is then as it was.
///
/// ```
/// use lingbarrow::{write_hlend, Error};
///
/// let mut target = [0xee; 4];
/// assert_eq!(write_hlend(2048, 0, &mut target), Err(Error::NotWritten));
/// assert_eq!(write_hlend(0, 256, &mut target), Err(Error::NotWritten));
/// assert_eq!(target, [0xee; 4]);
/// write_hlend(0, 1, &mut target)?;
/// assert_eq!(target, [0x00, 0x00, 0x2a, 0x73]);
/// # Ok::<(), lingbarrow::Error>(())
/// ```
pub fn write_hlend(bwmap: u32, ploam: u32, target: &mut [u8]) -> Result<(), Error> {
    done(raw::write_hlend(bwmap, ploam, target))
}

/// An allocation structure at the start of a target. [`Error::NotWritten`] where a number is too wide for its field, or the target has
/// fewer than 8 bytes; it is then as it was.
///
/// ```
/// use lingbarrow::{write_allocation, AllocId, Allocation, Error};
///
/// let mut target = [0xee; 8];
/// let fits = Allocation { alloc: AllocId(16_383), dbru: true, ploamu: false, start: 65_535, grant: 65_535, fwi: false, profile: 3 };
/// let wide = [Allocation { alloc: AllocId(16_384), ..fits }, Allocation { start: 65_536, ..fits }, Allocation { profile: 4, ..fits }];
/// for a in wide {
///     assert_eq!(write_allocation(a, &mut target), Err(Error::NotWritten));
/// }
/// assert_eq!(target, [0xee; 8]);
/// write_allocation(fits, &mut target)?;
/// # Ok::<(), lingbarrow::Error>(())
/// ```
pub fn write_allocation(a: Allocation, target: &mut [u8]) -> Result<(), Error> {
    done(raw::write_allocation(a.alloc.0, a.dbru, a.ploamu, a.start, a.grant, a.fwi, a.profile, target))
}

/// An XGEM frame at the start of a target: header, SDU and padding. [`Error::NotWritten`] where the key index is over 3, the options have
/// more than 18 bits or the SDU more than 16,383 bytes, or the target is shorter than the frame; it is then as it was.
///
/// ```
/// use lingbarrow::{write_xgem_frame, Error, PortId};
///
/// let mut target = [0xee; 16];
/// assert_eq!(write_xgem_frame(4, PortId(2000), 0, true, b"SDU", &mut target), Err(Error::NotWritten));
/// assert_eq!(write_xgem_frame(0, PortId(2000), 1 << 18, true, b"SDU", &mut target), Err(Error::NotWritten));
/// assert_eq!(target, [0xee; 16]);
/// write_xgem_frame(3, PortId(2000), 0, true, b"SDU", &mut target)?;
/// assert_eq!(&target[8..], b"SDUUUUUU");
/// # Ok::<(), lingbarrow::Error>(())
/// ```
pub fn write_xgem_frame(key: u32, port: PortId, options: u32, last: bool, sdu: &[u8], target: &mut [u8]) -> Result<(), Error> {
    done(raw::write_xgem_frame(key, port.0, options, last, sdu, target))
}
