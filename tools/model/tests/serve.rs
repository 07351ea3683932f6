//! The timed slave against the reference: the same sums on the timed frames and on random ones.

use model::console::{self, Command};
use model::generate::sessions;
use model::modbus;
use model::panelrun;
use model::serve;
use model::table;

/// The sum of the reference over frames, some rounds of them.
fn reference(words: &[i32; 104], frames: &[Vec<u8>], rounds: u64) -> u64 {
    let mut slave = modbus::start(1, words).unwrap();
    let mut sum = 0u64;
    for frame in (0..rounds).flat_map(|_| frames) {
        let answered = slave.answer(frame);
        for byte in answered.reply.into_iter().chain([answered.number]) {
            sum = sum.wrapping_mul(31).wrapping_add(byte.into());
        }
    }
    sum
}

/// The frames behind the table of an input.
fn frames(mut input: &[u8]) -> Vec<Vec<u8>> {
    let mut frames = Vec::new();
    input = &input[416..];
    while let [low, high, rest @ ..] = input {
        let (frame, behind) = rest.split_at(u16::from_le_bytes([*low, *high]).into());
        frames.push(frame.to_vec());
        input = behind;
    }
    frames
}

#[test]
fn timed_frames_are_served_alike() {
    for kind in serve::KINDS {
        let input = serve::input(kind, 400);
        let frames = frames(&input);
        assert_eq!(frames.len(), 400);
        assert_eq!(serve::sum(&input, 3), reference(&table::defaults(), &frames, 3));
    }
}

#[test]
fn timed_writes_are_carried_out() {
    let mut slave = modbus::start(1, &table::defaults()).unwrap();
    for frame in frames(&serve::input("write", 4_000)) {
        let outcome = slave.answer(&frame).outcome;
        assert!(matches!(outcome, modbus::Outcome::Written(..)));
    }
}

#[test]
fn random_frames_are_served_alike() {
    let mut frames = Vec::new();
    for index in 0..200 {
        let (text, _) = sessions::text(7, index);
        frames.extend(console::lines(&text).filter_map(|line| match console::command(line) {
            Ok(Command::Frame(mut frame)) => {
                readdress(&mut frame);
                Some(frame)
            }
            _ => None,
        }));
    }
    let mut input = panelrun::input_of(&table::defaults(), &[]);
    for frame in &frames {
        input.extend((frame.len() as u16).to_le_bytes());
        input.extend(frame);
    }
    assert!(frames.len() > 5_000);
    assert_eq!(serve::sum(&input, 2), reference(&table::defaults(), &frames, 2));
}

/// Most good frames go to node 1.
fn readdress(frame: &mut Vec<u8>) {
    if modbus::fault(frame).is_none() && frame[0] > 1 && frame[2] % 8 != 7 {
        let body = frame[1..frame.len() - 2].to_vec();
        *frame = modbus::sealed(1, &body);
    }
}
