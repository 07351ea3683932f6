//! K8: turning, worked out by hand; the five rounds against the table of bits, the recorded text, the
//! sums, the carriage's log, and random inputs.

use std::{env, fs, process};

use model::carriage;
use model::differ::{planes_case, Counts};
use model::generate::planes::{Met, BYTES};
use model::planes::{
    bytes_of, list, recording, turn_into, turned, turned_bytes, words_of, LENGTHS,
};
use model::record::Recording;
use model::rng::Rng;
use model::telegram;
use model::turn;

/// What a slice holds before.
const OLD: u32 = 0xABCD_1234;

fn random(rng: &mut Rng, length: usize) -> Vec<u32> {
    (0..length).map(|_| rng.draw() as u32).collect()
}

/// A group with one bit set.
fn single(word: usize, bit: usize) -> Vec<u32> {
    let mut group = vec![0; 32];
    group[word] = 1 << bit;
    group
}

/// A group that has a word at one place and zeros elsewhere.
fn plane(place: usize, word: u32) -> Vec<u32> {
    (0..32).map(|i| if i == place { word } else { 0 }).collect()
}

#[test]
fn words_of_7_give_three_planes_of_ones() {
    let planes = [vec![u32::MAX; 3], vec![0; 29]].concat();
    assert_eq!(turned(&[7; 32]), planes);
    assert_eq!(turned(&planes), [7; 32]);
}

#[test]
fn bit_17_of_word_3_goes_to_bit_3_of_word_17() {
    assert_eq!(turned(&single(3, 17)), single(17, 3));
    assert_eq!(turned(&single(17, 3)), single(3, 17));
}

#[test]
fn bits_are_numbered_from_0() {
    assert_eq!(turned(&single(0, 0)), single(0, 0));
    assert_eq!(turned(&single(0, 31)), single(31, 0));
    assert_eq!(turned(&single(31, 31)), single(31, 31));
}

#[test]
fn every_bit_goes_to_its_place() {
    for i in 0..32 {
        for j in 0..32 {
            assert_eq!(turned(&single(i, j)), single(j, i), "bit {j} of word {i}");
        }
    }
}

#[test]
fn a_row_of_ones_becomes_a_column() {
    assert_eq!(turned(&plane(5, u32::MAX)), [1 << 5; 32]);
    // Every other word of ones: every other bit of all words.
    let rows: Vec<u32> = (0..32).map(|i| if i % 2 == 0 { u32::MAX } else { 0 }).collect();
    assert_eq!(turned(&rows), [0x5555_5555; 32]);
}

#[test]
fn fewer_than_32_words_stay() {
    let mut rng = Rng::new(1);
    for length in 0..32 {
        let words = random(&mut rng, length);
        assert_eq!(turned(&words), words);
    }
}

#[test]
fn the_33rd_word_stays() {
    let words = [vec![7; 32], vec![0x1234_5678]].concat();
    let expected = [vec![u32::MAX; 3], vec![0; 29], vec![0x1234_5678]].concat();
    assert_eq!(turned(&words), expected);
}

#[test]
fn each_group_is_turned_for_itself() {
    let words = [[1; 32], [1 << 31; 32]].concat();
    assert_eq!(turned(&words), [plane(0, u32::MAX), plane(31, u32::MAX)].concat());
    let words = [single(3, 17), single(30, 2), vec![9; 31]].concat();
    assert_eq!(turned(&words), [single(17, 3), single(2, 30), vec![9; 31]].concat());
}

#[test]
fn turning_again_brings_back_the_list() {
    let mut rng = Rng::new(2);
    for length in (0..=100).chain([1_000]) {
        let words = random(&mut rng, length);
        let mut once = vec![OLD; length];
        let mut again = vec![OLD; length];
        assert_eq!(turn_into(&words, &mut once), 0);
        assert_eq!(turn_into(&once, &mut again), 0);
        assert_eq!(again, words, "{length}");
        assert_eq!(once == words, length < 32, "{length}");
    }
}

#[test]
fn a_shorter_slice_is_left_alone() {
    let mut rng = Rng::new(3);
    for length in [1, 2, 31, 32, 33, 64, 65, 1_000] {
        for short in [0, length / 2, length - 1] {
            let words = random(&mut rng, length);
            for turn in [turn_into, turn::turn] {
                let mut output = vec![OLD; short];
                assert_eq!(turn(&words, &mut output), 22, "{length} into {short}");
                assert_eq!(output, vec![OLD; short], "{length} into {short}");
            }
        }
    }
}

#[test]
fn a_longer_slice_keeps_its_tail() {
    let mut rng = Rng::new(4);
    for length in [0, 1, 31, 32, 33, 64, 1_000] {
        for tail in [1, 2, 31, 32, 100] {
            let words = random(&mut rng, length);
            for turn in [turn_into, turn::turn] {
                let mut output = vec![OLD; length + tail];
                assert_eq!(turn(&words, &mut output), 0);
                assert_eq!(output, [turned(&words), vec![OLD; tail]].concat(), "{length}, {tail}");
            }
        }
    }
}

#[test]
fn an_empty_list_writes_nothing() {
    for turn in [turn_into, turn::turn] {
        assert_eq!(turn(&[], &mut []), 0);
        let mut output = [OLD; 40];
        assert_eq!(turn(&[], &mut output), 0);
        assert_eq!(output, [OLD; 40]);
    }
    assert_eq!(turned(&[]), Vec::<u32>::new());
}

#[test]
fn five_rounds_turn_alike() {
    let mut rng = Rng::new(5);
    for length in 0..=200 {
        let words = random(&mut rng, length);
        let mut output = vec![OLD; length];
        assert_eq!(turn::turn(&words, &mut output), 0);
        assert_eq!(output, turned(&words), "{length}");
    }
}

#[test]
fn words_are_read_lowest_byte_first() {
    // Words of 7: three planes of ones are 12 bytes.
    let sevens = [7, 0, 0, 0].repeat(32);
    assert_eq!(turned_bytes(&sevens), [vec![0xFF; 12], vec![0; 116]].concat());
    // Bit 17 of word 3 is bit 1 of byte 14; bit 3 of word 17 is bit 3 of byte 68.
    let mut bytes = [0; 128];
    bytes[14] = 1 << 1;
    let mut expected = [0; 128];
    expected[68] = 1 << 3;
    assert_eq!(turned_bytes(&bytes), expected);
}

#[test]
fn left_over_bytes_stay() {
    let sevens = [7, 0, 0, 0].repeat(32);
    let planes = [vec![0xFF; 12], vec![0; 116]].concat();
    for rest in [&[9][..], &[9, 8], &[9, 8, 6], &[9, 8, 6, 5], &[9, 8, 6, 5, 4]] {
        assert_eq!(turned_bytes(rest), rest);
        assert_eq!(turned_bytes(&[&sevens, rest].concat()), [&planes, rest].concat());
    }
    // 31 words and 3 bytes are no full group.
    assert_eq!(turned_bytes(&sevens[..127]), &sevens[..127]);
    assert_eq!(turned_bytes(&[]), Vec::<u8>::new());
}

#[test]
fn bytes_turn_back_at_every_length() {
    let mut rng = Rng::new(6);
    for length in 0..=400 {
        let bytes: Vec<u8> = (0..length).map(|_| rng.draw() as u8).collect();
        let once = turned_bytes(&bytes);
        assert_eq!(once.len(), length);
        assert_eq!(turned_bytes(&once), bytes);
    }
}

#[test]
fn recorded_text_begins_as_worked_out() {
    // 1,664,525 + 1,013,904,223 = 1,015,568,748 = hex 3c88596c.
    let text = "length 0
input
turned 0
c0ffee00 c0ffee00
again 0
c0ffee00 c0ffee00
length 1
input
3c88596c
turned 0
3c88596c c0ffee00 c0ffee00
again 0
3c88596c c0ffee00 c0ffee00
short 22
0 words as they were
length 31
input
3c88596c ";
    assert!(recording().output.starts_with(text));
}

/// The lines of a recorded length, its first line left out.
fn recorded(length: usize) -> Vec<String> {
    let text = recording().output;
    let (_, behind) = text.split_once(&format!("length {length}\n")).unwrap();
    behind.split("length").next().unwrap().lines().map(String::from).collect()
}

#[test]
fn recorded_lists_follow_the_rule() {
    assert_eq!(list(1), [1_015_568_748]);
    let words = list(1_000);
    for pair in words.windows(2) {
        let next = u64::from(pair[0]) * 1_664_525 + 1_013_904_223;
        assert_eq!(u64::from(pair[1]), next % (1 << 32));
    }
    assert_eq!(list(33), words[..33]);
}

#[test]
fn recorded_planes_of_the_lowest_bits() {
    // x modulo 4 runs 0, 3, 2, 1 from x(1) on: bit 0 is 0, 1, 0, 1 and bit 1 is 0, 1, 1, 0.
    let lines = recorded(32);
    assert_eq!(lines[5], "turned 0");
    assert!(lines[6].starts_with("aaaaaaaa 66666666 "));
}

#[test]
fn recorded_slices_keep_two_words() {
    // 4 lines of 8 are the turned group, and the 33rd word stays.
    let lines = recorded(33);
    let last = format!("{:08x}", list(33)[32]);
    assert_eq!(lines[5], last);
    assert_eq!(lines[11], format!("{last} c0ffee00 c0ffee00"));
    assert_eq!(lines[12], "again 0");
    assert_eq!(lines[13..18], [&lines[1..5], &lines[11..12]].concat());
    assert_eq!(lines[18..], ["short 22", "32 words as they were"]);
}

#[test]
fn recorded_text_has_every_length() {
    let text = recording().output;
    let heads: Vec<&str> = text.lines().filter(|line| line.starts_with("length")).collect();
    assert_eq!(heads, LENGTHS.map(|length| format!("length {length}")));
    // 6 lines of length 0, then 9, 20, 20, 21, 32 and 383.
    assert_eq!(text.lines().count(), 491);
    assert_eq!(text.lines().filter(|&line| line == "short 22").count(), 6);
    assert!(text.ends_with("short 22\n999 words as they were\n"));
}

#[test]
fn recording_without_input_is_one_file() {
    let folder = env::temp_dir().join(format!("model-planes-{}", process::id()));
    let recording = recording();
    recording.write(&folder).unwrap();
    assert!(!folder.join("stdin").exists());
    assert_eq!(fs::read_to_string(folder.join("stdout")).unwrap(), recording.output);
    assert!(recording.is_in(&folder).unwrap());
    assert!(!Recording::printed("planes", "length 0\n".into()).is_in(&folder).unwrap());
    fs::remove_dir_all(&folder).unwrap();
}

/// 31 times the sum and the next word, the two numbers (0) behind the last.
fn sum_of(words: &[u32]) -> u64 {
    let add = |sum: u64, &word: &u32| sum.wrapping_mul(31).wrapping_add(word.into());
    words.iter().chain([&0]).fold(0, add)
}

#[test]
fn sums_worked_out_by_hand() {
    for sum in [turn::sum, turn::sum_of_copies] {
        assert_eq!(sum(&[], 3), 0);
        assert_eq!(sum(&bytes_of(&[5]), 1), 155);
        assert_eq!(sum(&bytes_of(&[1, 2]), 1), (31 + 2) * 31);
        assert_eq!(sum(&bytes_of(&[1, 2]), 0), 0);
    }
}

#[test]
fn sums_are_those_of_the_turned_words() {
    let sevens = bytes_of(&[7; 32]);
    assert_eq!(turn::sum(&sevens, 1), sum_of(&[vec![u32::MAX; 3], vec![0; 29]].concat()));
    assert_eq!(turn::sum_of_copies(&sevens, 1), sum_of(&[7; 32]));
    for length in [31, 32, 33, 64, 1_000, 4_096] {
        let words = list(length);
        for rounds in [1, 2, 5] {
            assert_eq!(turn::sum(&bytes_of(&words), rounds), sum_of(&turned(&words)));
            assert_eq!(turn::sum_of_copies(&bytes_of(&words), rounds), sum_of(&words));
        }
    }
}

#[test]
fn sums_leave_out_what_is_behind_4096_words() {
    let words = list(4_200);
    let head = bytes_of(&words[..4_096]);
    assert_eq!(turn::sum(&bytes_of(&words), 1), turn::sum(&head, 1));
    assert_eq!(turn::sum_of_copies(&bytes_of(&words), 1), sum_of(&words[..4_096]));
    assert_eq!(turn::sum(&bytes_of(&words[..40])[..158], 1), sum_of(&turned(&words[..39])));
}

/// An hour of a carriage.
const HOUR: usize = 360_000;

/// The positions that a log's telegrams read.
fn positions(kind: &str, count: usize) -> Vec<i64> {
    let table = carriage::table(kind);
    let words = words_of(&carriage::log(kind, count));
    let reading = |word| telegram::read(&table, word).unwrap();
    words.into_iter().map(|word| reading(word).position).collect()
}

#[test]
fn a_log_has_so_many_telegrams() {
    for kind in carriage::KINDS {
        let long = carriage::log(kind, 1_000);
        for count in [0, 1, 31, 1_000] {
            assert_eq!(carriage::log(kind, count), long[..4 * count]);
        }
    }
}

#[test]
fn a_log_has_25_bits_and_no_error_bit() {
    for kind in carriage::KINDS {
        assert_eq!(carriage::table(kind).error_bit, 0);
        assert!(words_of(&carriage::log(kind, HOUR)).iter().all(|word| word >> 25 == 0));
    }
}

#[test]
fn neighbours_are_near_each_other() {
    for kind in carriage::KINDS {
        let positions = positions(kind, HOUR);
        assert!(positions.windows(2).all(|pair| (pair[1] - pair[0]).abs() <= 6));
    }
}

#[test]
fn both_formats_tell_the_same_way() {
    assert_eq!(positions("gray", HOUR), positions("binary", HOUR));
    let first = words_of(&carriage::log("gray", 1))[0];
    assert_eq!(first, 10_000_000 ^ 5_000_000);
}

#[test]
fn the_carriage_goes_stands_and_comes_back() {
    let positions = positions("binary", HOUR);
    assert!(positions.iter().all(|position| (9_980_000..=10_220_000).contains(position)));
    // Two seconds within a position, some of them trembling and some not.
    let still = |seconds: &&[i64]| seconds.iter().all(|p| (p - seconds[0]).abs() <= 1);
    let stands: Vec<_> = positions.chunks(200).filter(still).collect();
    assert!((100..900).contains(&stands.len()), "{}", stands.len());
    assert!(stands.iter().any(|seconds| seconds.iter().any(|p| *p != seconds[0])));
    // From one end to the other and back.
    let far = positions.iter().position(|&p| p >= 10_200_000).unwrap();
    assert!(positions[far..].iter().any(|&p| p <= 10_000_000));
}

#[test]
fn upper_planes_of_a_log_hardly_move() {
    for kind in carriage::KINDS {
        let planes = turned(&words_of(&carriage::log(kind, HOUR)));
        let even = |group: &&[u32]| group[13..].iter().all(|&word| word == 0 || word == u32::MAX);
        let groups = planes.len() / 32;
        assert!(planes.chunks_exact(32).filter(even).count() > groups * 9 / 10);
    }
}

#[test]
fn random_inputs_meet_every_name() {
    let mut met = Met::default();
    for index in 0..400 {
        let case = planes_case(1, index);
        assert!(case.input.len() as i64 <= BYTES);
        met.add(&case.met);
    }
    for (name, count) in met.counts() {
        assert!(count > 0, "{name}");
    }
}

#[test]
fn same_inputs_from_the_same_seed() {
    let inputs = |seed| (0..30).map(|index| planes_case(seed, index).input).collect::<Vec<_>>();
    assert_eq!(inputs(1), inputs(1));
    assert_ne!(inputs(1), inputs(2));
}
