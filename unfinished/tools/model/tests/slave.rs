//! Requests found on a shared line: lengths, places where a frame may begin, pauses, silence, echoes.

use model::differ::Counts;
use model::generate::traffic::{self, Met};
use model::line::{self, Line, FRAME};
use model::modbus;
use model::rng::Rng;

/// A poll of node 1, a write to it, and a write to all.
const POLL: [u8; 6] = [1, 3, 0x10, 0, 0, 2];
const WRITE: [u8; 11] = [1, 16, 0, 24, 0, 2, 4, 0, 7, 0, 0];
const TO_ALL: [u8; 11] = [0, 16, 0, 24, 0, 2, 4, 0, 7, 0, 0];
/// Shown values of node 2 whose reply begins with 8 bytes that are a frame.
const TWO_ENDS: [i32; 5] = [240, 243, 305, 306, 1_036];

fn frame(bytes: &[u8]) -> Vec<u8> {
    modbus::sealed(bytes[0], &bytes[1..])
}

/// The reply of a node to a read of a word.
fn word_reply(node: u8, word: i32) -> Vec<u8> {
    frame(&[&[node, 3, 4][..], &modbus::registers(word)].concat())
}

/// The line of node 1 behind silence.
fn quiet() -> Line {
    let mut line = Line::new(1);
    assert_eq!(line.silence(), None);
    line
}

/// What is heard of bytes without silence.
fn heard(line: &mut Line, bytes: &[u8]) -> Vec<Vec<u8>> {
    bytes.iter().filter_map(|&byte| line.byte(byte)).collect()
}

/// What is heard of frames right behind each other, behind silence.
fn heard_of(frames: &[Vec<u8>]) -> Vec<Vec<u8>> {
    heard(&mut quiet(), &frames.concat())
}

fn data(rng: &mut Rng, count: usize) -> Vec<u8> {
    (0..count).map(|_| rng.draw() as u8).collect()
}

/// Request and reply of a node, of one function of the public documents, with any data.
fn exchange(rng: &mut Rng, node: u8, function: u8) -> [Vec<u8>; 2] {
    let count = rng.between(1, 240) as u8;
    let (head, counted) = (data(rng, 4), data(rng, count.into()));
    let body = [&[node, function][..], &head].concat();
    let with_count = [&[node, function, count][..], &counted].concat();
    let (request, reply) = match function {
        1..=4 => (body, with_count),
        5 | 6 => (body.clone(), body),
        15 | 16 => ([&body[..], &[count], &counted].concat(), body),
        22 => {
            let both = [&body[..], &data(rng, 2)].concat();
            (both.clone(), both)
        }
        _ => ([&body[..], &data(rng, 4), &[count], &counted].concat(), with_count),
    };
    [frame(&request), frame(&reply)]
}

const FUNCTIONS: [u8; 10] = [1, 2, 3, 4, 5, 6, 15, 16, 22, 23];

#[test]
fn requests_end_at_their_lengths() {
    let frames = [frame(&POLL), frame(&WRITE), frame(&TO_ALL), frame(&POLL)];
    assert_eq!(heard_of(&frames), frames);
}

#[test]
fn lengths_are_the_public_documents() {
    let mut rng = Rng::new(1);
    for function in FUNCTIONS {
        for _ in 0..20 {
            let [request, reply] = exchange(&mut rng, 2, function);
            assert!(line::is_whole(1, &request) && line::is_whole(1, &reply), "{function}");
            let halves = (1..request.len()).map(|length| &request[..length]);
            assert!(halves.into_iter().all(|half| line::goes_on(2, half)), "{function}");
            assert!(line::is_whole(2, &request) && !line::goes_on(2, &request), "{function}");
        }
    }
    let refusal = frame(&[2, 0x96, 2]);
    assert!(line::is_whole(1, &refusal));
    // A reply of this node, or to all, is none.
    assert!(!line::is_whole(2, &refusal) && !line::is_whole(2, &word_reply(2, 7)));
    assert!(!line::is_whole(1, &frame(&[0, 0x96, 2])));
    let over = frame(&[&[2, 16, 0, 0, 0, 124, 248][..], &[0; 248]].concat());
    assert!(over.len() > FRAME && !line::is_whole(1, &over));
}

#[test]
fn poll_behind_any_exchange_of_another_node_is_heard() {
    let mut rng = Rng::new(2);
    let poll = frame(&POLL);
    for function in FUNCTIONS {
        for _ in 0..100 {
            let node = rng.between(2, 247) as u8;
            let [request, reply] = exchange(&mut rng, node, function);
            let refusal = frame(&[node, function | 0x80, 2]);
            let line = [request.clone(), reply, poll.clone(), request, refusal, poll.clone()];
            assert_eq!(heard_of(&line), [poll.clone(), poll.clone()], "{line:02X?}");
        }
    }
}

#[test]
fn reply_that_ends_twice_is_followed_to_both_ends() {
    let (read, poll) = (frame(&[2, 3, 0x10, 0, 0, 2]), frame(&POLL));
    for value in TWO_ENDS {
        let reply = word_reply(2, value);
        assert!(line::is_whole(1, &reply[..8]) && line::is_whole(1, &reply), "{value}");
        let line = [read.clone(), reply, poll.clone(), poll.clone()];
        assert_eq!(heard_of(&line), [poll.clone(), poll.clone()], "{value}");
    }
}

#[test]
fn broadcast_behind_a_read_of_another_node_is_heard() {
    let (to_all, poll) = (frame(&TO_ALL), frame(&POLL));
    for register in (0x0200u16..0x0300).chain(0x0400..0x0500) {
        for node in [2, 3, 17, 247] {
            let read = modbus::sealed(node, &modbus::read_body(register));
            let line = [read, to_all.clone(), poll.clone()];
            assert_eq!(heard_of(&line), [to_all.clone(), poll.clone()], "{node} {register:04X}");
        }
    }
}

#[test]
fn broadcasts_of_other_functions_pass_by() {
    let poll = frame(&POLL);
    let others: [&[u8]; 6] = [
        &[0, 5, 0, 1, 0xFF, 0],
        &[0, 6, 0, 1, 0, 3],
        &[0, 15, 0, 0, 0, 8, 1, 0xCD],
        &[0, 22, 0, 4, 0, 0xF2, 0, 0x25],
        &[0, 1, 0, 0, 0, 8],
        &[0, 23, 0, 0, 0, 1, 0, 0, 0, 1, 2, 0, 7],
    ];
    for other in others {
        assert_eq!(heard_of(&[frame(other), poll.clone()]), [&poll[..]], "{other:02X?}");
    }
}

/// Bytes behind which a CRC begins anew, so that a whole frame behind them is the end of a longer one.
fn before(body: impl Fn(u8, u8) -> Vec<u8>) -> Vec<u8> {
    let bodies = (0..=u16::MAX).map(|number| body((number >> 8) as u8, number as u8));
    bodies.into_iter().find(|body| modbus::crc(body) == 0xFFFF).unwrap()
}

#[test]
fn of_two_requests_that_end_at_one_byte_the_shorter_is_heard() {
    // A write to this node whose last 8 bytes are a read to all, which does nothing and is none.
    let (from, inner) = (before(|a, b| vec![1, 16, 0, 0, a, b, 6]), frame(&[0, 3, 0, 0, 0, 2]));
    let outer = [&from[..], &inner].concat();
    assert!(line::is_whole(1, &outer));
    let mut line = quiet();
    assert_eq!(heard(&mut line, &from), Vec::<Vec<u8>>::new());
    line.pause();
    assert_eq!(heard(&mut line, &inner), [outer]);
    // Of two to this node the shorter.
    let mut line = quiet();
    heard(&mut line, &from);
    line.pause();
    assert_eq!(heard(&mut line, &frame(&[1, 3, 0, 0, 0, 2])), [frame(&[1, 3, 0, 0, 0, 2])]);
}

#[test]
fn half_a_frame_hides_no_poll_behind_a_pause() {
    let poll = frame(&POLL);
    let long = frame(&[&[2, 16, 0, 0, 0, 100, 200][..], &[0x55; 200]].concat());
    let halves: [&[u8]; 6] = [&poll[..3], &long[..7], &long[..100], &[2, 3, 0xFF], &[1, 16], &[2]];
    for half in halves {
        let mut line = quiet();
        assert_eq!(heard(&mut line, half), Vec::<Vec<u8>>::new());
        line.pause();
        assert_eq!(heard(&mut line, &poll), [&poll[..]], "{half:02X?}");
        assert_eq!(heard(&mut line, &poll), [&poll[..]], "{half:02X?}, the second");
    }
}

#[test]
fn pause_inside_a_frame_does_no_harm() {
    for request in [frame(&POLL), frame(&WRITE)] {
        for cut in 0..request.len() {
            let mut line = quiet();
            heard(&mut line, &request[..cut]);
            line.pause();
            assert_eq!(heard(&mut line, &request[cut..]), [&request[..]], "{cut}");
        }
    }
}

#[test]
fn line_that_is_lost_is_found_again() {
    let poll = frame(&POLL);
    // A wrong CRC: nothing can go on at its last byte, and the next poll is heard.
    let mut broken = poll.clone();
    broken[7] ^= 1;
    assert_eq!(heard_of(&[broken, poll.clone()]), [&poll[..]]);
    // A lone byte before it, with a length that ends within the poll.
    assert_eq!(heard_of(&[vec![1], poll.clone()]), [&poll[..]]);
    // An unknown function ends nowhere.
    assert_eq!(heard_of(&[vec![9, 99, 5, 5], poll.clone()]), [&poll[..]]);
    // Half a frame with a long count: lost after 257 bytes at the latest, then found.
    let half = vec![2, 16, 0, 0, 0, 123, 246, 9, 9];
    let line = [half, poll.repeat(40)];
    let count = heard_of(&line).len();
    assert!((40 - 33..40).contains(&count), "{count}");
}

#[test]
fn frame_that_ends_where_the_line_is_lost_is_not_heard() {
    // Function 22 has 10 bytes: at the last byte of the poll nothing goes on, so it is lost from there.
    let poll = frame(&POLL);
    let line = [vec![2, 22], poll.clone(), poll.clone()];
    assert_eq!(heard_of(&line), [poll]);
}

#[test]
fn random_lines_lose_no_poll_behind_whole_frames() {
    let mut rng = Rng::new(3);
    for _ in 0..200 {
        let (mut line, mut polls) = (Vec::new(), Vec::new());
        for _ in 0..rng.between(1, 20) {
            for _ in 0..rng.between(0, 3) {
                let (node, function) = (rng.between(2, 247) as u8, rng.pick(&FUNCTIONS));
                let value = rng.pick(&TWO_ENDS);
                match rng.below(3) {
                    0 => line.extend(exchange(&mut rng, node, function)),
                    1 => {
                        line.push(exchange(&mut rng, node, function)[rng.below(2) as usize].clone())
                    }
                    _ => line.push(word_reply(2, value)),
                }
            }
            polls.push(frame(rng.pick(&[&POLL[..], &WRITE])));
            line.extend(polls.last().cloned());
        }
        assert_eq!(heard_of(&line), polls);
    }
}

#[test]
fn other_functions_are_heard_at_silence() {
    let bodies: [&[u8]; 9] = [
        &[1, 1, 0, 0, 0, 8],
        &[1, 4, 0, 0, 0, 2],
        &[1, 6, 0, 1, 0, 3],
        &[1, 15, 0, 0, 0, 8, 1, 0xCD],
        &[1, 22, 0, 4, 0, 0xF2, 0, 0x25],
        &[1, 7],
        &[1, 43, 14, 1, 0],
        &[1, 0x83, 2],
        &[1, 0xFF],
    ];
    for body in bodies {
        let mut line = quiet();
        let unknown = frame(body);
        assert_eq!(heard(&mut line, &[frame(&POLL), unknown.clone()].concat()), [frame(&POLL)]);
        assert_eq!(line.silence(), Some(unknown.clone()));
        assert_eq!(line.silence(), None);
        // Not where something stands behind it.
        heard(&mut line, &[unknown.clone(), vec![9]].concat());
        assert_eq!(line.silence(), None, "{body:02X?}");
        // A wait that only the clock tells answers nothing, and a poll behind it is heard.
        heard(&mut line, &unknown);
        line.late();
        assert_eq!(heard(&mut line, &frame(&POLL)), [frame(&POLL)]);
        assert_eq!(line.silence(), None);
    }
}

#[test]
fn nothing_else_is_heard_at_silence() {
    let long = |count: usize| {
        let body = [&[1, 7][..], &vec![5; count - 4]].concat();
        frame(&body)
    };
    let mut broken = frame(&[1, 7]);
    broken[3] ^= 1;
    for (bytes, expected) in [
        (long(256), true),
        (long(257), false),
        (broken, false),
        (frame(&[1]), false),
        (frame(&[0, 7]), false),
        (frame(&[2, 7]), false),
        (frame(&POLL)[..7].to_vec(), false),
        (frame(&[1, 3, 0, 0, 0, 2, 0]), false),
        (frame(&[1, 16, 0, 0, 0, 2]), false),
    ] {
        let mut line = quiet();
        heard(&mut line, &bytes);
        assert_eq!(line.silence().is_some(), expected, "{bytes:02X?}");
    }
}

#[test]
fn shortest_of_several_is_heard_at_silence() {
    // A frame of function 7 whose last four bytes are one too; it is lost at the second byte, so that
    // each byte may begin one.
    let inner = frame(&[1, 7]);
    let outer = [&before(|a, b| vec![1, 7, a, b])[..], &inner].concat();
    assert_eq!(modbus::crc(&outer), 0);
    let mut line = quiet();
    heard(&mut line, &outer);
    assert_eq!(line.silence(), Some(inner));
    assert_eq!(line.silence(), None);
}

#[test]
fn silence_drops_all() {
    let poll = frame(&POLL);
    let mut line = quiet();
    heard(&mut line, &poll[..3]);
    assert_eq!(line.silence(), None);
    assert_eq!(heard(&mut line, &poll[3..]), Vec::<Vec<u8>>::new());
    assert_eq!(line.silence(), None);
    assert_eq!(heard(&mut line, &poll), [poll]);
}

#[test]
fn nothing_is_heard_before_the_first_silence() {
    let (poll, unknown) = (frame(&POLL), frame(&[1, 7]));
    let mut line = Line::new(1);
    assert_eq!(heard(&mut line, &poll), Vec::<Vec<u8>>::new());
    line.pause();
    assert_eq!(heard(&mut line, &[&poll[..], &unknown].concat()), Vec::<Vec<u8>>::new());
    assert_eq!(line.silence(), None);
    assert_eq!(heard(&mut line, &poll), [&poll[..]]);
    // A silence that the clock tells is one.
    let mut line = Line::new(1);
    heard(&mut line, &poll[..3]);
    line.late();
    assert_eq!(heard(&mut line, &poll), [poll]);
}

/// A line behind a poll that was answered so.
fn answered(reply: &[u8]) -> Line {
    let mut line = quiet();
    assert_eq!(heard(&mut line, &frame(&POLL)).len(), 1);
    line.sent(reply);
    line
}

#[test]
fn echo_is_dropped() {
    let poll = frame(&POLL);
    for reply in [word_reply(1, 240), word_reply(1, 5), frame(&[1, 0x83, 2]), frame(&WRITE[..6])] {
        let mut line = answered(&reply);
        assert_eq!(heard(&mut line, &[&reply[..], &poll].concat()), [&poll[..]]);
        // An exception that comes back is no frame of an unknown function.
        let mut line = answered(&reply);
        heard(&mut line, &reply);
        assert_eq!(line.silence(), None, "{reply:02X?}");
    }
}

#[test]
fn echo_that_is_none_counts_as_it_stands() {
    let (poll, reply) = (frame(&POLL), word_reply(1, 5));
    // Nothing comes back.
    let mut line = answered(&reply);
    assert_eq!(heard(&mut line, &poll.repeat(2)), [poll.clone(), poll.clone()]);
    // Half of it, then silence.
    let mut line = answered(&reply);
    heard(&mut line, &reply[..4]);
    assert_eq!(line.silence(), None);
    assert_eq!(heard(&mut line, &poll), [&poll[..]]);
    // Half of it, and a pause before the poll.
    let mut line = answered(&reply);
    heard(&mut line, &reply[..4]);
    line.pause();
    assert_eq!(heard(&mut line, &poll), [&poll[..]]);
    // A read of register hex 0400 begins as the reply does.
    let other = frame(&[1, 3, 4, 0, 0, 2]);
    let mut line = answered(&reply);
    assert_eq!(heard(&mut line, &other), [other]);
    // It is forgotten behind the first other byte: the reply that comes then is no echo.
    let exception = frame(&[1, 0x83, 2]);
    let mut line = answered(&exception);
    heard(&mut line, &poll);
    heard(&mut line, &exception);
    assert_eq!(line.silence(), Some(exception));
}

#[test]
fn request_that_is_a_replys_beginning_is_taken_for_its_echo() {
    // The first 8 bytes of such a reply of this node are a read; they are heard unless it was just sent.
    let reply = (0..1 << 20).map(|value| word_reply(1, value));
    let reply = reply.into_iter().find(|reply| line::is_whole(1, &reply[..8])).unwrap();
    let read = reply[..8].to_vec();
    assert_eq!(heard(&mut quiet(), &read), [&read[..]]);
    assert_eq!(heard(&mut answered(&reply), &read), Vec::<Vec<u8>>::new());
    assert_eq!(heard(&mut answered(&reply), &[&read[..], &frame(&POLL)].concat()), [frame(&POLL)]);
}

#[test]
fn random_lines_meet_everything() {
    let mut met = Met::default();
    (0..300).for_each(|index| met.add(&traffic::traffic(1, index).met));
    for name in Met::names() {
        assert!(met.of(name) > 0, "{name}");
    }
}
