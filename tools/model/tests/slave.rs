//! Frames found on a line, by length and silence.

use model::modbus;
use model::slave::Collector;

const READ: [u8; 6] = [1, 3, 0, 0, 0, 2];
const WRITE: [u8; 11] = [1, 16, 0, 24, 0, 2, 4, 0, 7, 0, 0];

fn frame(bytes: &[u8]) -> Vec<u8> {
    modbus::sealed(bytes[0], &bytes[1..])
}

/// The frames that node 1 finds in bytes without silence.
fn found(collector: &mut Collector, bytes: &[u8]) -> Vec<Vec<u8>> {
    bytes.iter().filter_map(|&byte| collector.byte(byte)).collect()
}

fn node_1() -> Collector {
    Collector::new(1)
}

#[test]
fn frames_end_at_their_lengths() {
    let (read, write) = (frame(&READ), frame(&WRITE));
    let line = [&read[..], &write, &read].concat();
    assert_eq!(found(&mut node_1(), &line), [read.clone(), write, read]);
}

#[test]
fn unknown_functions_end_at_silence() {
    let mut collector = node_1();
    let unknown = frame(&[1, 4, 0, 0, 0, 2]);
    assert_eq!(found(&mut collector, &unknown), Vec::<Vec<u8>>::new());
    assert_eq!(collector.silence(), Some(unknown));
    assert_eq!(collector.silence(), None);
}

#[test]
fn broken_frames_drop_all_until_silence() {
    let mut collector = node_1();
    let mut broken = frame(&READ);
    broken[7] ^= 1;
    let line = [&broken[..], &frame(&READ)].concat();
    assert_eq!(found(&mut collector, &line), Vec::<Vec<u8>>::new());
    assert_eq!(collector.silence(), None);
    assert_eq!(found(&mut collector, &frame(&READ)), [frame(&READ)]);
}

#[test]
fn more_than_256_bytes_are_dropped() {
    let mut collector = node_1();
    let mut long = vec![1, 4];
    long.resize(255, 0);
    found(&mut collector, &frame(&long));
    assert_eq!(collector.silence(), None);
}

#[test]
fn poll_behind_another_nodes_reply_is_found() {
    let poll = frame(&READ);
    let replies: [&[u8]; 4] =
        [&[2, 3, 4, 0, 9, 0, 0], &[2, 16, 0, 24, 0, 2], &[2, 0x83, 2], &[2, 3, 2, 0, 9]];
    for reply in replies {
        let request = if reply[1] & 0x10 == 0 { READ.to_vec() } else { WRITE.to_vec() };
        let request = frame(&[&[2], &request[1..]].concat());
        let line = [&request[..], &frame(reply), &poll].concat();
        assert_eq!(found(&mut node_1(), &line).last(), Some(&poll), "{reply:02X?}");
    }
}
