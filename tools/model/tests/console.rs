//! console's lines, by request K2: words, numbers, messages and what a start and a write leave.
//! K7: the marks that it prints; K6: the record. K5's bursts are in `bursts.rs`.

use model::console::{self, Wrong};

/// The text of some lines.
fn run(text: &str) -> String {
    console::run(text.as_bytes())
}

fn message(kind: usize) -> String {
    format!("? {}\n", Wrong::ALL[kind - 1].words())
}

/// What one line says once a panel runs.
fn said(line: &[u8]) -> String {
    let text = console::run(&[b"start\n", line, b"\n"].concat());
    text.strip_prefix("start 0 0\n").unwrap().into()
}

fn assert_kind(kind: usize, lines: &[&str]) {
    for line in lines {
        assert_eq!(said(line.as_bytes()), message(kind), "{line}");
    }
}

#[test]
fn worked_example_without_its_header() {
    let text = "slot 2 1\nslot 49 1\nstart\nt 3E7\nt 3e8\ni 1\nt 000003E6\nc 65535\n";
    let expected = "\
start 0 0
1 T 999 999 0 0000 3273 0
2 T 1000 1000 0 1000 3277 0
3 I 0 0 0 0000 0 0
4 T -2 -2 0 0000 -7 0
5 C -2 -2 0 0000 -7 0
";
    assert_eq!(run(text), expected);
}

#[test]
fn lines_that_are_none() {
    assert_kind(2, &["x", "Start", "nodes 1", " #", "\t", "t\t5", "start\r\r", "frame 01", "ü"]);
    assert_kind(3, &["node", "node 65536", "node -1", "node 01", "node +1", "node 1 2", "node x"]);
    assert_kind(3, &["node 1000000000000000000", "node 99999999999999999999", "node -0"]);
    assert_kind(4, &["slot", "slot 1", "slot 104 0", "slot -1 0", "slot 1 2 3", "slot 00 1"]);
    assert_kind(4, &["slot 5 2147483648", "slot 5 -2147483649", "slot 5 -0", "slot 5 1.0"]);
    assert_kind(5, &["start 1", "start start"]);
    assert_kind(6, &["t", "t 123456789", "t 0x1", "t g", "t 1 2", "t -1", "t +1"]);
    assert_kind(7, &["i", "i 256", "i -1", "i 07", "i 1 1", "i A"]);
    assert_kind(8, &["c", "c 65536", "c -1", "c 0 0", "c 1e3"]);
    assert_kind(9, &["f 1", "f 123", "f 0103", "f 01 g3", "f 01 +3", "f 01,03"]);
    assert_kind(2, &["Halves", "halve", "halves\t", "halves\r\r", "halves1", " #halves"]);
    assert_kind(11, &["halves 1", "halves 0 0 0", "  halves  halves \r", "halves #", "halves \t"]);
    assert_kind(2, &["Record", "recor", "records", "record\t", "record\r\r", " #record"]);
    assert_kind(12, &["record 1", "record empty", "  record  record \r", "record #", "record \t"]);
}

#[test]
fn messages_of_halves() {
    let words =
        "? no such word; the words are node, slot, start, halves, record, t, b, i, c and f\n";
    assert_eq!(said(b"x"), words);
    assert_eq!(said(b"halves 1"), "? halves takes nothing\n");
    assert_eq!(run("halves\n"), "? no panel runs yet; start one\n");
}

#[test]
fn messages_of_record() {
    assert_eq!(said(b"record 1"), "? record takes nothing\n");
    assert_eq!(said(b"  record \r"), "record 00000000 empty\n");
    assert_eq!(run("record\n"), "? no panel runs yet; start one\n");
}

#[test]
fn lines_that_say_nothing() {
    for line in
        ["", "    ", "\r", "  \r", "#", "#\t", "# start 1", "node 0", "slot 103 -2147483648"]
    {
        assert_eq!(said(line.as_bytes()), "", "{line}");
    }
}

#[test]
fn spaces_and_carriage_returns() {
    let text = "  slot  2   1 \r\n\r\nstart \r\n t 5\r\nf\r\nt 7\r";
    let expected = "start 0 0\n1 T 5 5 0 0000 16 0\nframe 20 -\n2 T 7 7 0 0000 23 0\n";
    assert_eq!(run(text), expected);
}

#[test]
fn a_line_has_at_most_1024_bytes() {
    let padded =
        |start: &str, length: usize| format!("{start}{}", " ".repeat(length - start.len()));
    let answer = "1 T 2 2 0 0000 7 0\n";
    assert_eq!(said(padded("t 3", 1_024).as_bytes()), answer);
    assert_eq!(said(format!("{}\r", padded("t 3", 1_024)).as_bytes()), answer);
    assert_eq!(said(padded("t 3", 1_025).as_bytes()), message(1));
    assert_eq!(said(format!("{}\r\r", padded("t 3", 1_023)).as_bytes()), message(6));
    assert_eq!(said(format!("{}\r\r", padded("t 3", 1_024)).as_bytes()), message(1));
    assert_eq!(said(padded("#", 1_024).as_bytes()), "");
    assert_eq!(said(padded("#", 1_025).as_bytes()), message(1));
    assert_eq!(said(padded("", 1_024).as_bytes()), "");
    assert_eq!(said(padded("", 1_025).as_bytes()), message(1));
    assert_eq!(said(&[b'x'; 9_000]), message(1));
}

#[test]
fn a_frame_has_at_most_300_bytes() {
    let frame = |count: usize| format!("f{}", " 00".repeat(count));
    assert_eq!(said(frame(300).as_bytes()), "frame 20 -\n");
    assert_eq!(said(frame(301).as_bytes()), message(9));
}

#[test]
fn before_the_first_start() {
    let text = "t 5\ni 8\nc 1\nf\nb 5\nt x\nf 1\nb x\n#\n";
    let none = message(10);
    let wrong = [message(6), message(9), message(13)].concat();
    assert_eq!(run(text), format!("{}{wrong}", none.repeat(5)));
    // A refused start starts nothing.
    assert_eq!(run("node 0\nstart\nt 5\n"), format!("start 33 0\n{none}"));
    let asked = "halves\nhalves 1\nnode 0\nstart\nhalves\n";
    assert_eq!(run(asked), format!("{none}{}start 33 0\n{none}", message(11)));
    let asked = "record\nrecord 1\nnode 0\nstart\nrecord\n";
    assert_eq!(run(asked), format!("{none}{}start 33 0\n{none}", message(12)));
}

#[test]
fn refused_start_leaves_the_panel_as_it_is() {
    let text = "\
slot 2 1
node 7
start
t 5
node 248
slot 17 2147483647
start
node 8
start
t 6
f 07 03 00 22 00 02 64 67
slot 17 4
start
t 6
f 07 03 00 22 00 02 64 67
f 08 03 00 22 00 02 64 98
start
t 6
";
    let expected = "\
start 0 0
1 T 5 5 0 0000 16 0
start 33 0
start 2 17
2 T 6 6 0 0000 20 0
frame 0 07 03 04 03 E8 00 00 1C 43
start 0 0
1 T 6 6 0 1000 20 0
frame 0 -
frame 0 08 03 04 00 04 00 00 22 F2
start 0 0
1 T 6 6 0 1000 20 0
";
    assert_eq!(run(text), expected);
}

#[test]
fn events_are_counted_from_1_after_a_write() {
    // A write of slot 12, a broadcast of it, and one that is refused.
    let text = "\
slot 2 1
start
t 5
f 01 10 00 18 00 02 04 00 01 00 00 A2 C5
t 5
t 5
f 00 10 00 18 00 02 04 00 02 00 00 56 39
i 8
f 01 10 00 00 00 02 04 00 00 00 00 F3 AF
t 5
";
    let expected = "\
start 0 0
1 T 5 5 0 0000 16 0
frame 0 01 10 00 18 00 02 C1 CF
1 T 6 6 0 0000 20 0
2 T 6 6 0 0000 20 0
frame 0 -
1 I 0 0 0 0000 off 10
frame 0 01 90 03 0C 01
2 T 7 7 0 0000 23 0
";
    assert_eq!(run(text), expected);
}

/// Factor 1.5, so that d = 1 gives 1.5.
const BY_3_HALVES: &str = "slot 2 1\nslot 10 150000\nstart\n";

#[test]
fn halves_of_the_last_answer() {
    let text = "\
halves
t 1
halves
  halves \r
#
node 9
slot 12 5
t x
halves 1
halves
c 5
halves
t 1
t 4000000
halves
t 1
i 8
halves
t 1
i 1
halves
";
    let expected = format!(
        "\
start 0 0
halves 0 0 0
1 T 2 2 0 0000 7 0
halves 1 0 0
halves 1 0 0
{}{}halves 1 0 0
2 C 2 2 0 0000 7 0
halves 0 0 0
3 T 2 2 0 0000 7 0
4 T 2 2 0 0000 7 11
halves 0 0 0
5 T 2 2 0 0000 7 0
6 I 2 2 0 0000 7 10
halves 0 0 0
7 T 2 2 0 0000 7 0
8 I 2 2 0 0000 7 0
halves 0 0 0
",
        message(6),
        message(11)
    );
    assert_eq!(run(&format!("{BY_3_HALVES}{text}")), expected);
}

#[test]
fn halves_in_all_three_places() {
    // (−100, −50), (0, 0), (200, 300), A = 1, analog end 10, reset on input 1. d = 1: 1.5, v = 3,
    // 4.5, r = 5, 16,383.5. After the reset v = 1, 1.5, r = 2, 6,553.4.
    let text = "\
slot 12 1
slot 13 2
slot 55 3
slot 56 -100
slot 57 -50
slot 60 200
slot 61 300
slot 16 10
slot 49 1
start
t 1
halves
i 1
halves
i 0
halves
";
    let expected = "\
start 0 0
start 0 0
1 T 5 5 0 0000 16384 0
halves 1 1 1
2 I 2 2 0 0000 6553 0
halves 0 1 0
3 I 2 2 0 0000 6553 0
halves 0 0 0
";
    assert_eq!(run(&format!("{BY_3_HALVES}{text}")), expected);
}

#[test]
fn halves_over_frames_and_writes() {
    // No bytes, another node, a read, a refused write; a write of slot 12, and one to all.
    let text = "\
t 1
f
halves
f 07 03 00 22 00 02 64 67
halves
f 01 03 00 00 00 02 C4 0B
halves
f 01 10 00 00 00 02 04 00 00 00 00 F3 AF
halves
f 01 10 00 18 00 02 04 00 01 00 00 A2 C5
halves
t 1
halves
f 00 10 00 18 00 02 04 00 02 00 00 56 39
halves
";
    let expected = "\
start 0 0
1 T 2 2 0 0000 7 0
frame 20 -
halves 1 0 0
frame 0 -
halves 1 0 0
frame 0 01 03 04 00 19 00 00 2B F4
halves 1 0 0
frame 0 01 90 03 0C 01
halves 1 0 0
frame 0 01 10 00 18 00 02 C1 CF
halves 0 0 0
1 T 3 3 0 0000 10 0
halves 1 0 0
frame 0 -
halves 0 0 0
";
    assert_eq!(run(&format!("{BY_3_HALVES}{text}")), expected);
}

#[test]
fn halves_over_starts() {
    let text =
        "t 1\nnode 0\nstart\nhalves\nnode 1\nslot 0 9\nstart\nhalves\nslot 0 25\nstart\nhalves\n";
    let expected = "\
start 0 0
1 T 2 2 0 0000 7 0
start 33 0
halves 1 0 0
start 2 0
halves 1 0 0
start 0 0
halves 0 0 0
";
    assert_eq!(run(&format!("{BY_3_HALVES}{text}")), expected);
}

/// Clear on input 1, error bit 25 above 24 bits.
const CLEARING: &str = "slot 2 1\nslot 3 24\nslot 8 25\nslot 49 4\nstart\n";

#[test]
fn record_of_the_drive() {
    // 5,000 is 5 V, 0 is 0 V, 2,500 is 8,191.75, 8,192, 2.5 V. 1000000 is the error bit.
    let text = "\
record
t 1388
record
t 0
t 9C4
record
record 1
  record \r
c 5
i 8
t 2000000
record
t 1000000
record
i 1
record
t 1388
record
";
    let expected = format!(
        "\
start 0 0
record 00000000 empty
1 T 5000 5000 0 1111 16384 0
record 40A00000 40A00000 40A00000
2 T 0 0 0 0000 0 0
3 T 2500 2500 0 1100 8192 0
record 40200000 00000000 40A00000
{}record 40200000 00000000 40A00000
4 C 2500 2500 0 1100 8192 0
5 I 2500 2500 0 1100 8192 10
6 T 2500 2500 0 1100 8192 11
record 40200000 00000000 40A00000
7 T 0 0 3 0000 off 0
record 00000000 00000000 40A00000
8 I 0 0 3 0000 off 0
record 00000000 empty
9 T 5000 5000 0 1111 16384 0
record 40A00000 40A00000 40A00000
",
        message(12)
    );
    assert_eq!(run(&format!("{CLEARING}{text}")), expected);
}

#[test]
fn record_over_frames_and_writes() {
    // No bytes, another node, a read, a refused write; a write of slot 12, and one to all. 1 and 2 are
    // the codes 3 and 7: 30 ÷ 2^15 is 1.875 × 2^−11, 70 ÷ 2^15 is 1.09375 × 2^−9.
    let text = "\
t 1388
f
record
f 07 03 00 22 00 02 64 67
record
f 01 03 00 00 00 02 C4 0B
record
f 01 10 00 00 00 02 04 00 00 00 00 F3 AF
record
f 01 10 00 18 00 02 04 00 01 00 00 A2 C5
record
t 0
record
f 00 10 00 18 00 02 04 00 02 00 00 56 39
record
t 0
record
";
    let expected = "\
start 0 0
1 T 5000 5000 0 1111 16384 0
frame 20 -
record 40A00000 40A00000 40A00000
frame 0 -
record 40A00000 40A00000 40A00000
frame 0 01 03 04 00 19 00 00 2B F4
record 40A00000 40A00000 40A00000
frame 0 01 90 03 0C 01
record 40A00000 40A00000 40A00000
frame 0 01 10 00 18 00 02 C1 CF
record 00000000 empty
1 T 1 1 0 0000 3 0
record 3A700000 3A700000 3A700000
frame 0 -
record 00000000 empty
1 T 2 2 0 0000 7 0
record 3B0C0000 3B0C0000 3B0C0000
";
    assert_eq!(run(&format!("{CLEARING}{text}")), expected);
}

#[test]
fn record_over_starts() {
    let text =
        "t 1388\nnode 0\nstart\nrecord\nnode 1\nslot 0 9\nstart\nrecord\nslot 0 25\nstart\nrecord\n";
    let expected = "\
start 0 0
1 T 5000 5000 0 1111 16384 0
start 33 0
record 40A00000 40A00000 40A00000
start 2 0
record 40A00000 40A00000 40A00000
start 0 0
record 00000000 empty
";
    assert_eq!(run(&format!("{CLEARING}{text}")), expected);
}

#[test]
fn last_line_with_and_without_its_newline() {
    assert_eq!(run("start"), "start 0 0\n");
    assert_eq!(run("start\r"), "start 0 0\n");
    assert_eq!(run("start\n\n"), "start 0 0\n");
    assert_eq!(run(""), "");
}

#[test]
fn served_as_run() {
    let text = b"slot 2 1\nstart\nt 5\nt\nf 01\nt 6".as_slice();
    let mut output = Vec::new();
    console::serve(text, &mut output).unwrap();
    assert_eq!(output, console::run(text).into_bytes());
}

#[test]
fn session_worked_out_by_hand() {
    let input = include_bytes!("../../../crates/console/stdin");
    let expected = include_str!("../../../crates/console/stdout");
    assert_eq!(console::run(input), expected);
}
