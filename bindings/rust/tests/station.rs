//! The wrappers over whole runs: the bench run's sample, line for line, and what the types are for.
use lingbarrow::{
    at, message, places, write_allocation, write_hlend, write_xgem_frame, Activation, AllocId, Allocation, Arriving, Buffers, Completion, Error, Name, OnuId, Owed,
    Port, PortId, Station, MEMORY_BYTES, NAMES, SAVED_BYTES, STATE_VERSION,
};

const SERIAL: [u8; 8] = *b"LBRW\x00\x00\x00\x01";
const REGISTRATION: [u8; 36] = [b'Q'; 36];
const KEY: [u8; 16] = [b'Z'; 16];

fn receive(arriving: Arriving, buffers: &mut Buffers) -> Vec<(u16, Vec<u8>)> {
    let received = arriving.receive(0, buffers).unwrap();
    received.deliveries().map(|d| (d.port.0, d.bytes.to_vec())).collect()
}

fn ploam(front: &[u8], integrity: [u8; 8]) -> [u8; message::BYTES] {
    let mut m = [0; message::BYTES];
    m[..front.len()].copy_from_slice(front);
    m[message::INTEGRITY..].copy_from_slice(&integrity);
    m
}

// In O5 with ONU-ID 5 and an equalization delay of 1,000, by the messages of the example.
fn operating(buffers: &mut Buffers) -> Station {
    let mut station = Station::power_on(SERIAL, REGISTRATION);
    let mut frame = vec![0; 4];
    write_hlend(0, 0, &mut frame).unwrap();
    receive(station.arriving(&frame), buffers);
    write_hlend(0, 2, &mut frame).unwrap();
    frame.extend(ploam(b"\x03\xff\x03\x01\x00\x05LBRW\x00\x00\x00\x01", [0xf0, 0x66, 0x17, 0x51, 0x26, 0xb0, 0x04, 0xa1]));
    frame.extend(ploam(&[0, 5, 4, 2, 1, 0, 0, 3, 0xe8], [0xd2, 0xc5, 0xec, 0x7e, 0x42, 0x93, 0x6a, 0xc3]));
    receive(station.arriving(&frame), buffers);
    assert_eq!(station.activation(), Activation::Operation);
    station
}

// A frame of fragments to the management port, each of 8 bytes.
fn fragments(of: &[(&[u8; 8], bool)]) -> Vec<u8> {
    let mut frame = vec![0; 4];
    write_hlend(0, 0, &mut frame).unwrap();
    for (bytes, last) in of {
        let at = frame.len();
        frame.resize(at + 16, 0);
        write_xgem_frame(0, PortId(5), 0, *last, *bytes, &mut frame[at..]).unwrap();
    }
    frame
}

#[test]
fn stations_that_share_buffers_keep_their_own_bytes() {
    let mut buffers = Buffers::new(1024);
    let (mut a, mut b) = (operating(&mut buffers), operating(&mut buffers));
    assert_eq!(receive(a.arriving(&fragments(&[(b"a, first", false)])), &mut buffers), []);
    assert_eq!(receive(b.arriving(&fragments(&[(b"b, first", false)])), &mut buffers), []);
    assert_eq!(receive(a.arriving(&fragments(&[(b", a last", true)])), &mut buffers), [(5, b"a, first, a last".to_vec())]);
    assert_eq!(receive(b.arriving(&fragments(&[(b", b last", true)])), &mut buffers), [(5, b"b, first, b last".to_vec())]);
}

#[test]
fn stretches_are_those_of_the_state_in_which_the_frame_arrives() {
    let mut buffers = Buffers::new(1024);
    let mut station = operating(&mut buffers);
    receive(station.arriving(&fragments(&[(b"a first ", false)])), &mut buffers);
    let frame = fragments(&[(b"and last", true), (b"a whole.", true)]);
    let arriving = station.arriving(&frame);
    let stretches = [0, 1, 2].map(|k| arriving.stretch(k).unwrap());
    assert_eq!(stretches, [None, Some(&b"a whole."[..]), None]);
    let mut lent = vec![0; places(frame.len())];
    assert_eq!(arriving.stretches(&mut lent).unwrap().collect::<Vec<_>>(), stretches[..2]);
    assert_eq!(arriving.stretches(&mut lent[1..]).err(), Some(Error::BufferTooShort));
    assert_eq!(receive(arriving, &mut buffers), [(5, b"a first and last".to_vec()), (5, b"a whole.".to_vec())]);
    assert_eq!(station.arriving(&frame[..6]).stretch(0), Err(Error::FrameLengthUnfit));
}

#[test]
fn every_structure_of_a_map_has_its_name() {
    let mut buffers = Buffers::new(1024);
    let mut station = operating(&mut buffers);
    let grant = |alloc, start, grant| Allocation { alloc: AllocId(alloc), dbru: false, ploamu: false, start, grant, fwi: false, profile: 0 };
    let map = [
        (grant(5, 100, 10), Name::Planned),
        (grant(5, 65535, 10), Name::Planned),
        (grant(6, 200, 10), Name::Foreign),
        (grant(5, 65535, 10), Name::ContinuingNothing),
        (grant(5, 110, 10), Name::Overlapping),
        (grant(5, 9720, 10), Name::StartTimeUnfit),
        (grant(5, 200, 9719), Name::TooLong),
        (Allocation { dbru: true, ..grant(5, 200, 0) }, Name::DbruWithoutRoom),
        (grant(5, 200, 0), Name::Planned),
    ];
    let mut frame = vec![0; 4 + 8 * map.len()];
    write_hlend(map.len() as u32, 0, &mut frame).unwrap();
    for ((structure, _), into) in map.iter().zip(frame[4..].chunks_exact_mut(8)) {
        write_allocation(*structure, into).unwrap();
    }
    let mut lent = [0xee; NAMES];
    let arriving = station.arriving(&frame);
    let names: Vec<_> = arriving.why_dark(&mut lent).unwrap().collect();
    assert_eq!(names, map.map(|(_, name)| name));
    assert!(lent[map.len()..].iter().all(|name| *name == 0xee));
    assert_eq!(names.iter().map(|name| name.to_string()).collect::<Vec<_>>()[2..4], ["foreign", "continuing nothing"]);
    let received = arriving.receive(0, &mut buffers).unwrap();
    let planned = map.iter().filter(|(_, name)| *name == Name::Planned);
    assert!(received.records().map(|r| (r.alloc, u32::from(r.grant))).eq(planned.map(|(a, _)| (a.alloc, a.grant))));
    assert_eq!(station.arriving(&frame[..6]).why_dark(&mut lent).err(), Some(Error::FrameLengthUnfit));
    station.lost();
    assert!(station.arriving(&frame).why_dark(&mut lent).unwrap().all(|name| name == Name::Silent));
}

#[test]
fn what_a_station_holds() {
    let mut buffers = Buffers::new(1024);
    let mut station = Station::power_on(SERIAL, REGISTRATION);
    assert_eq!((station.activation(), station.onu_id(), station.ports().count()), (Activation::Initial, None, 0));
    assert_eq!(station.give_key(&KEY), Err(Error::KeyRefused));
    station = operating(&mut buffers);
    assert_eq!((station.serial_number(), station.onu_id(), station.equalization_delay()), (SERIAL, Some(OnuId(5)), 1000));
    assert_eq!(station.owed().collect::<Vec<_>>(), [Owed::Acknowledgement { seq_no: 2, completion: Completion::Ok }]);
    assert!(!station.key_held());
    station.give_key(&KEY).unwrap();
    assert!(station.key_held());
    for port in [2000, 3000, 4000] {
        station.add_port(PortId(port)).unwrap();
    }
    assert_eq!(station.add_port(PortId(2000)), Err(Error::PortHeldOrNotHeld));
    station.remove_port(PortId(3000)).unwrap();
    receive(station.arriving(&fragments(&[(b"a first ", false)])), &mut buffers);
    let port = |id, slot, unfinished, waiting| Port { id: PortId(id), slot, unfinished, waiting };
    assert_eq!(station.ports().collect::<Vec<_>>(), [port(5, 0, 8, false), port(2000, 1, 0, true), port(4000, 3, 0, true)]);
    assert_eq!(&station.memory()[..8], b"a first ");
    station.lost();
    assert_eq!(station.activation(), Activation::Intermittent(800));
    assert_eq!((station.activation().time_left(), station.carried_words()), (Some(800), 0));
    assert_eq!(station.activation().number(), station.state_bytes()[at::STATE]);
    assert_eq!((station.state_version(), station.state_bytes()[at::VERSION]), (STATE_VERSION, STATE_VERSION));
    assert_eq!(station.ports().next(), Some(port(5, 0, 0, true)));
}

#[test]
fn a_station_does_not_print_its_secrets() {
    let mut buffers = Buffers::new(1024);
    let mut station = operating(&mut buffers);
    station.give_key(&KEY).unwrap();
    let frame = fragments(&[]);
    let printed = [format!("{station:?}"), format!("{station:#?}"), format!("{:?}", station.arriving(&frame)), format!("{buffers:?}")].concat();
    let received = station.arriving(&frame).receive(0, &mut buffers).unwrap();
    let printed = printed + &format!("{received:?}");
    // as text, in decimal, in hexadecimal
    for secret in ["Q", "Z", "81", "90", "51", "5a", "5A"] {
        assert!(!printed.contains(secret), "{secret} in {printed}");
    }
    assert!(printed.contains("key_held: true"));
}

#[test]
fn what_is_no_saved_station_is_refused() {
    let mut buffers = Buffers::new(1024);
    let saved = operating(&mut buffers).save();
    assert_eq!(saved.len(), SAVED_BYTES);
    assert!(Station::restore(&saved).is_ok());
    assert_eq!(Station::restore(&saved[1..]), Err(Error::StateOutOfRange));
    assert_eq!(Station::restore(&[&saved[..], &[0]].concat()), Err(Error::StateOutOfRange));
    // an older library's first octet was the state's number
    let versions = [0, 1, 2, 4, 5, 6, 7, STATE_VERSION + 1].map(|version| (at::VERSION, version));
    for (at, octet) in [(at::STATE, 3), (at::ALLOC_COUNT, 17), (at::KEY_HELD, 2), (at::OWED, 3)].into_iter().chain(versions) {
        let mut other = saved.clone();
        other[at] = octet;
        assert_eq!(Station::restore(&other), Err(Error::StateOutOfRange), "octet {at}");
    }
}

// The bench run's sample, and two stations in turn, one record apart, each saved and restored between records.
#[test]
fn the_sample_of_the_bench_run() {
    let records: Vec<&[u8]> = include_bytes!("../../../crates/trace/stdin").chunks_exact(1024).filter(|r| r[0] < 2).collect();
    let lines: Vec<&str> = include_str!("../../../crates/trace/stdout").lines().collect();
    assert_eq!((records.len(), lines.len()), (11, 12));
    let mut buffers = Buffers::new(1020);
    let mut lent = [0; places(1020)];
    let mut stations = [Station::power_on([0; 8], [0; 36]), Station::power_on([0; 8], [0; 36])];
    for turn in 0..=records.len() {
        for (k, station) in stations.iter_mut().enumerate() {
            let Some(n) = turn.checked_sub(k).filter(|n| *n < records.len()) else { continue };
            *station = Station::restore(&station.save()).unwrap();
            let mut said = (0, 0, 0, 0);
            if records[n][0] == 0 {
                station.lost();
            } else {
                let arriving = station.arriving(&records[n][4..]);
                let each = |k| arriving.stretch(k);
                match arriving.stretches(&mut lent) {
                    Ok(all) => {
                        assert_eq!(each(all.len()), Ok(None));
                        assert!(all.enumerate().all(|(k, sdu)| each(k) == Ok(sdu)));
                    }
                    Err(e) => assert_eq!(each(0), Err(e)),
                }
                said = match arriving.receive(0, &mut buffers) {
                    Ok(r) => {
                        assert_eq!(r.records().filter(|r| r.is_head() && r.ploamu()).count(), r.replies().len());
                        let bytes = r.deliveries().map(|d| 4 + d.bytes.len()).sum();
                        (if r.delineation_lost() { 6 } else { 0 }, r.records().len(), r.replies().len(), bytes)
                    }
                    Err(e) => (e.number(), 0, 0, 0),
                };
            }
            let (answer, plan, replies, bytes) = said;
            assert_eq!(format!("{n} {answer} {} {plan} {replies} {bytes}", station.activation().number()), lines[n]);
            match n {
                2 => assert_eq!((station.activation(), station.onu_id()), (Activation::Ranging(80_000), Some(OnuId(5)))),
                4 => assert_eq!(station.alloc_ids().collect::<Vec<_>>(), [AllocId(1024)]),
                5 => assert_eq!(station.ports().next(), Some(Port { id: PortId(5), slot: 0, unfinished: 30, waiting: false })),
                _ => {}
            }
        }
    }
    assert_eq!(stations[0].state_bytes(), stations[1].state_bytes());
    assert_eq!(stations[0].memory().len(), MEMORY_BYTES);
}
