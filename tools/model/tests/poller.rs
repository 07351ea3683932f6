//! K12: polling up to 32 panels, worked out by hand; poller's lines and messages; the bound of 2n picks by
//! search and on random runs; mistakes that texts tell; the recorded text; the timed dispatcher.

use std::collections::{HashMap, HashSet};

use model::differ::{poller_case, Counts};
use model::dispatcher::{Dispatcher, Group};
use model::poller::{self, Command, Said, Wrong};
use model::polling::{self, Polling, OVER, TIGHT};
use model::polls::{self, Polls};
use model::recorded_polls;
use model::rng::Rng;

/// Answers to lines, both parted by semicolons; `pick 3` in the answers is an address.
fn said(lines: &str) -> String {
    let text = poller::run(lines.replace("; ", "\n").as_bytes());
    text.trim_end().replace('\n', "; ")
}

/// The addresses of so many picks behind lines, 0 for none.
fn picks(lines: &str, count: usize) -> Vec<u16> {
    let mut dispatcher = after(lines);
    (0..count).map(|_| dispatcher.pick().unwrap_or(0)).collect()
}

/// The dispatcher that lines leave.
fn after(lines: &str) -> Dispatcher {
    let mut dispatcher = Dispatcher::default();
    poller::run_with(&mut dispatcher, lines.replace("; ", "\n").as_bytes(), |_, _, _, _| ());
    dispatcher
}

/// Joins at some addresses.
fn joins(addresses: impl IntoIterator<Item = u16>) -> String {
    addresses.into_iter().map(|address| format!("join {address}; ")).collect()
}

fn message(kind: usize) -> String {
    format!("? {}", Wrong::ALL[kind - 1].words())
}

#[test]
fn nobody_is_polled_where_nobody_is_registered() {
    assert_eq!(said("pick; pick"), "pick none; pick none");
    assert_eq!(said("pick; report 5 1; pick"), "pick none; report 32; pick none");
    assert_eq!(after("pick; pick"), Dispatcher::default());
    assert_eq!(said("pick; join 5; pick"), "pick none; join 0; pick 5");
}

#[test]
fn one_panel_is_polled_at_each_pick() {
    assert_eq!(picks("join 5", 3), [5, 5, 5]);
    assert_eq!(picks("join 5; report 5 1", 3), [5, 5, 5]);
}

#[test]
fn ordinary_panels_take_turns() {
    assert_eq!(picks("join 9; join 200; join 3", 7), [3, 9, 200, 3, 9, 200, 3]);
    assert_eq!(picks("join 247; join 1", 4), [1, 247, 1, 247]);
}

#[test]
fn a_new_panel_has_its_turn_by_address() {
    assert_eq!(picks("join 5; join 9; pick; join 7", 4), [7, 9, 5, 7]);
    assert_eq!(picks("join 5; join 9; pick; join 3", 4), [9, 3, 5, 9]);
    // The highest was polled last; the lowest is new.
    assert_eq!(picks("join 5; join 9; pick; pick; join 3", 3), [3, 5, 9]);
    assert_eq!(picks("join 5; join 9; pick; pick; join 12", 3), [12, 5, 9]);
}

#[test]
fn panels_in_error_take_turns_where_no_panel_is_ordinary() {
    let lines = "join 9; join 200; join 3; report 3 1; report 9 1; report 200 1";
    assert_eq!(picks(lines, 7), [3, 9, 200, 3, 9, 200, 3]);
}

#[test]
fn both_groups_take_turns_by_turns() {
    // 2 and 8 in error, 4, 5 and 6 ordinary.
    let lines = "join 2; join 4; join 5; join 6; join 8; report 2 1; report 8 1";
    assert_eq!(picks(lines, 12), [2, 4, 8, 5, 2, 6, 8, 4, 2, 5, 8, 6]);
    assert_eq!(picks("join 1; join 2; report 1 1", 5), [1, 2, 1, 2, 1]);
}

#[test]
fn a_panel_in_error_goes_first() {
    assert_eq!(picks("join 1; join 2; join 3; report 3 1", 4), [3, 1, 3, 2]);
    // Behind an ordinary poll too.
    assert_eq!(picks("join 1; join 2; join 3; pick; report 3 1", 4), [3, 2, 3, 1]);
}

#[test]
fn a_panel_is_in_error_until_it_reports_none() {
    let lines = "join 1; join 2; report 2 1; report 2 1; pick; pick; report 2 0";
    assert_eq!(picks(lines, 4), [2, 1, 2, 1]);
    let lines = "join 1; join 2; join 3; report 3 1; pick; report 3 0";
    assert_eq!(picks(lines, 4), [1, 2, 3, 1]);
    // A second report of an error does not turn it back.
    assert_eq!(picks("join 1; join 2; report 2 1; report 2 1", 4), [2, 1, 2, 1]);
    assert_eq!(picks("join 1; join 2; report 2 0; report 2 0", 4), [1, 2, 1, 2]);
}

#[test]
fn a_new_panel_is_ordinary_beside_panels_in_error() {
    let lines = "join 1; join 2; report 1 1; report 2 1; join 3";
    assert_eq!(after(lines).group_of(3), Some(Group::Ordinary));
    assert_eq!(picks(lines, 4), [1, 3, 2, 3]);
}

#[test]
fn no_two_in_error_in_a_row_while_one_is_ordinary() {
    let lines = "join 1; join 2; join 3; join 4; report 1 1; report 2 1; report 3 1";
    assert_eq!(picks(lines, 6), [1, 4, 2, 4, 3, 4]);
}

#[test]
fn in_a_row_where_none_is_ordinary() {
    let lines = "join 1; join 2; join 3; report 1 1; report 2 1; pick; report 3 1";
    assert_eq!(picks(lines, 4), [2, 3, 1, 2]);
}

#[test]
fn the_second_is_barred_where_an_ordinary_one_joined_in_between() {
    assert_eq!(picks("join 1; join 2; report 1 1; report 2 1; pick; join 9", 4), [9, 2, 9, 1]);
    // The same without the join.
    assert_eq!(picks("join 1; join 2; report 1 1; report 2 1; pick", 3), [2, 1, 2]);
}

#[test]
fn the_second_is_barred_where_one_reported_none_in_between() {
    let lines = "join 1; join 2; join 3; report 1 1; report 2 1; report 3 1; pick";
    assert_eq!(picks(&format!("{lines}; report 3 0"), 4), [3, 2, 3, 1]);
    // The group at the poll counts: 1 was in error when it was polled, and is ordinary now.
    assert_eq!(picks(&format!("{lines}; report 1 0"), 4), [1, 2, 1, 3]);
}

#[test]
fn the_second_is_not_barred_where_the_only_ordinary_one_reported_an_error() {
    let lines = "join 1; join 2; report 1 1; pick; report 2 1";
    assert_eq!(picks(lines, 3), [2, 1, 2]);
    // 2 was polled as ordinary and reports an error: polled in error right behind.
    assert_eq!(picks("join 1; join 2; pick; pick; report 2 1", 3), [2, 1, 2]);
}

#[test]
fn the_turn_goes_by_address_though_the_panel_changed_group() {
    // Ordinary: 2 was polled last and is in error then; 3 is next, not 1.
    let lines = "join 1; join 2; join 3; join 4; pick; pick; report 2 1";
    assert_eq!(picks(lines, 6), [2, 3, 2, 4, 2, 1]);
    // In error: 6 was polled last and is ordinary then; 7 is next, not 5.
    let lines = "join 5; join 6; join 7; join 8; report 5 1; report 6 1; report 7 1; \
                 pick; pick; pick; report 6 0";
    assert_eq!(said(lines).rsplit("; ").nth(1), Some("pick 6"));
    assert_eq!(picks(lines, 6), [6, 7, 8, 5, 6, 7]);
}

#[test]
fn a_panel_that_comes_back_waits_for_its_turn() {
    // 2 is polled as ordinary, as in error, and is ordinary again: 3 and 1 come before it.
    let lines = "join 1; join 2; join 3; pick; pick; report 2 1; pick; report 2 0";
    assert_eq!(picks(lines, 4), [3, 1, 2, 3]);
}

#[test]
fn each_group_has_a_turn_of_its_own() {
    // Polled last: 8 in error, 1 ordinary.
    let lines = "join 1; join 2; join 3; join 8; join 9; report 8 1; report 9 1; pick; pick";
    assert_eq!(picks(lines, 4), [9, 2, 8, 3]);
}

#[test]
fn the_turn_is_kept_while_a_group_is_empty() {
    let ordinary = "join 1; join 2; join 3; pick; pick; report 1 1; report 2 1; report 3 1; pick";
    assert_eq!(picks(ordinary, 3), [2, 3, 1]);
    // 2 was the ordinary one polled last; 3 is behind it.
    let back = format!("{ordinary}; report 1 0; report 2 0; report 3 0");
    assert_eq!(picks(&back, 3), [3, 1, 2]);
    let in_error = "join 1; join 2; join 3; report 1 1; report 2 1; pick; report 1 0; report 2 0; \
                    pick; report 2 1; report 3 1; report 1 1";
    assert_eq!(picks(in_error, 3), [2, 3, 1]);
}

#[test]
fn addresses_from_1_to_247() {
    assert_eq!(said("join 0; join 1; join 247; join 248"), "join 32; join 0; join 0; join 32");
    assert_eq!(said("join 65535; join 256; join 257; join 503"), ["join 32"; 4].join("; "));
    assert_eq!(picks("join 0; join 248; join 257; join 503", 1), [0]);
}

#[test]
fn reports_from_those_that_are_not_registered() {
    assert_eq!(said("report 5 0; report 5 1"), "report 32; report 32");
    assert_eq!(said("join 5; report 6 1; report 261 1; report 0 0"), {
        "join 0; report 32; report 32; report 32"
    });
    assert_eq!(said("join 5; report 5 1; report 5 0"), "join 0; report 0; report 0");
    assert_eq!(said("report 248 1; report 65535 0"), "report 32; report 32");
}

#[test]
fn an_address_is_registered_once() {
    assert_eq!(said("join 5; join 5; report 5 1; join 5"), {
        "join 0; join 29; report 0; join 29"
    });
    // It stays in its group.
    assert_eq!(picks("join 5; join 6; report 6 1; join 6", 3), [6, 5, 6]);
}

#[test]
fn the_33rd_panel_is_refused() {
    let full = joins(1..=32);
    assert_eq!(said(&format!("{full}join 33; pick")), {
        format!("{}join 28; pick 1", "join 0; ".repeat(32))
    });
    // 32, then 29, then 28.
    let tail = "join 0; join 248; join 65535; join 1; join 32; join 33; join 247";
    let numbers = "join 32; join 32; join 32; join 29; join 29; join 28; join 28";
    assert!(said(&format!("{full}{tail}")).ends_with(numbers));
    // Those in error count too.
    assert!(said(&format!("{full}report 7 1; join 7; join 40")).ends_with("join 29; join 28"));
    assert!(said(&format!("{}join 40; join 41", joins(1..=31))).ends_with("join 0; join 28"));
}

#[test]
fn all_32_take_turns() {
    let full = joins((0..32).map(|i| 240 - 7 * i));
    let in_turn: Vec<u16> = (0..32).rev().map(|i| 240 - 7 * i).collect();
    assert_eq!(picks(&full, 64), [&in_turn[..], &in_turn].concat());
}

#[test]
fn what_is_refused_changes_nothing() {
    let refused = ["join 0", "join 248", "join 65535", "join 1", "join 32", "join 33"];
    let strange = ["report 0 1", "report 33 1", "report 248 0", "report 257 1", "report 65535 1"];
    let lines = format!("{}report 5 1; report 9 1; pick; pick; pick", joins(1..=32));
    let before = after(&lines);
    for line in refused.iter().chain(&strange) {
        assert_eq!(after(&format!("{lines}; {line}")), before, "{line}");
    }
    for line in ["x", "join", "join 33 33", "join 65536", "report 5", "report 5 2", "pick 1", "#"] {
        assert_eq!(after(&format!("{lines}; {line}")), before, "{line}");
    }
    let few = "join 5; join 9; report 9 1; pick";
    for line in ["join 0", "join 5", "join 9", "report 6 1", "report 6 0", "report 265 0"] {
        assert_eq!(after(&format!("{few}; {line}")), after(few), "{line}");
    }
}

#[test]
fn every_message() {
    let texts = [
        "? line has more than 1024 bytes",
        "? no such word; the words are join, report and pick",
        "? join takes a number from 0 to 65535",
        "? report takes a number from 0 to 65535 and 0 or 1",
        "? pick takes nothing",
    ];
    assert_eq!([1, 2, 3, 4, 5].map(message), texts);
    let lines = ["x".repeat(1_025), "x".into(), "join".into(), "report 1".into(), "pick 1".into()];
    assert_eq!(said(&lines.join("; ")), texts.join("; "));
}

fn assert_kind(kind: usize, lines: &[&str]) {
    for line in lines {
        let text = poller::run(&[b"join 5\n", line.as_bytes(), b"\n"].concat());
        assert_eq!(text, format!("join 0\n{}\n", message(kind)), "{line}");
    }
}

#[test]
fn lines_that_are_none() {
    assert_kind(2, &["x", "Pick", "picks", "pic", "pick\t", "pick\r\r", " #", "\t", "join\t1"]);
    assert_kind(2, &["joins 1", "JOIN 1", "join1", "reports 5 1", "report\t5 1", "ü", "5", "none"]);
    assert_kind(2, &["\tpick", "pick,", "pick#", " # pick", "join5 1", "leave 5", "\u{a0}pick"]);
    assert_kind(
        3,
        &["join", "join x", "join 65536", "join 5 6", "join 5 5 5", "join 05", "join 00"],
    );
    assert_kind(
        3,
        &["join -1", "join -0", "join +5", "join 5.", "join 0x5", "join 5\t", "join 5 #"],
    );
    assert_kind(
        3,
        &["join 4294967301", "join 18446744073709551621", "join 99999999999999999999999"],
    );
    assert_kind(
        4,
        &["report", "report 5", "report 5 2", "report 5 x", "report 5 00", "report 5 01"],
    );
    assert_kind(
        4,
        &["report 5 1 1", "report 5 0 #", "report 65536 0", "report 05 1", "report x 1"],
    );
    assert_kind(4, &["report -5 1", "report 5 -0", "report 5 10", "report 5 +1", "report 5\t1"]);
    assert_kind(5, &["pick 1", "pick pick", "pick #", "pick \t", "  pick  5 ", "pick 0"]);
}

#[test]
fn numbers_up_to_65535() {
    assert_eq!(said("join 65535; report 65535 1; report 0 0"), "join 32; report 32; report 32");
}

#[test]
fn lines_that_say_nothing() {
    for line in ["", "    ", "\r", "  \r", "#", "#\t", "# pick", "#join 1", "##", "#\r"] {
        assert_eq!(poller::run(format!("{line}\npick\n").as_bytes()), "pick none\n", "{line}");
    }
}

#[test]
fn spaces_and_carriage_returns() {
    let text = "  join  5 \r\n\r\n report 5   1\r\npick \r\n   pick\r";
    assert_eq!(poller::run(text.as_bytes()), "join 0\nreport 0\npick 5\npick 5\n");
}

#[test]
fn a_line_has_at_most_1024_bytes() {
    let padded =
        |start: &str, length: usize| format!("{start}{}", " ".repeat(length - start.len()));
    let run = |line: &str| poller::run(format!("{line}\n").as_bytes());
    let long = format!("{}\n", message(1));
    for (line, answer) in [("pick", "pick none\n"), ("join 5", "join 0\n"), ("#", ""), ("", "")] {
        assert_eq!(run(&padded(line, 1_024)), answer);
        assert_eq!(run(&format!("{}\r", padded(line, 1_024))), answer);
        assert_eq!(run(&padded(line, 1_025)), long);
        assert_eq!(run(&format!("{}\r", padded(line, 1_025))), long);
    }
    // Of two carriage returns one is taken off.
    assert_eq!(run(&format!("{}\r\r", padded("pick", 1_023))), format!("{}\n", message(5)));
    assert_eq!(run(&format!("{}\r\r", padded("pick", 1_024))), long);
    assert_eq!(run(&"x".repeat(9_000)), long);
    assert_eq!(run(&format!("{}pick", " ".repeat(1_020))), "pick none\n");
    // A line that is too long registers nobody.
    assert_eq!(run(&format!("{}\npick", padded("join 5", 1_025))), format!("{long}pick none\n"));
}

#[test]
fn last_line_with_and_without_its_newline() {
    assert_eq!(poller::run(b"pick"), "pick none\n");
    assert_eq!(poller::run(b"pick\r"), "pick none\n");
    assert_eq!(poller::run(b"pick\n\n"), "pick none\n");
    assert_eq!(poller::run(b"join 5\npick"), "join 0\npick 5\n");
    assert_eq!(poller::run(b""), "");
}

#[test]
fn served_as_run() {
    for index in 0..40 {
        let text = poller_case(3, index).input;
        let mut output = Vec::new();
        poller::serve(&text[..], &mut output).unwrap();
        assert_eq!(output, poller::run(&text).into_bytes());
    }
}

#[test]
fn waits_of_2n_picks_worked_out_by_hand() {
    // n = 2. 1 is ordinary and was polled; 2 goes as in error, as ordinary and as in error before it.
    let lines = "join 1; join 2; pick; report 2 1; pick; report 2 0; pick; report 2 1; pick; pick";
    let answers = "pick 1; report 0; pick 2; report 0; pick 2; report 0; pick 2; pick 1";
    assert!(said(lines).ends_with(answers));
    // n = 3. 2 is in error and was polled; 1 is ordinary but for its turn among those in error.
    let lines = "join 1; join 2; join 3; report 2 1; report 3 1; \
                 pick; pick; pick; pick; pick; report 1 1; pick; report 1 0; pick; pick";
    let answers =
        "pick 2; pick 1; pick 3; pick 1; pick 2; report 0; pick 3; report 0; pick 1; pick 2";
    assert!(said(lines).ends_with(answers), "{}", said(lines));
}

/// The dispatcher with each panel in the group that its bit of a mask says, set for in error.
fn reported(dispatcher: &Dispatcher, mask: u32) -> Dispatcher {
    let mut reported = dispatcher.clone();
    for address in dispatcher.addresses() {
        reported.report(address, mask >> address & 1 == 1);
    }
    reported
}

/// Every dispatcher that n panels at 1 to n bring about, all of them ordinary again.
fn reachable(panels: u16) -> HashSet<Dispatcher> {
    let mut found = HashSet::from([after(&joins(1..=panels))]);
    let mut open: Vec<Dispatcher> = found.iter().cloned().collect();
    while let Some(dispatcher) = open.pop() {
        for mask in (0..1 << (panels + 1)).step_by(2) {
            let mut next = reported(&dispatcher, mask);
            next.pick();
            let next = reported(&next, 0);
            if found.insert(next.clone()) {
                open.push(next);
            }
        }
    }
    found
}

/// The most picks that a panel which stays in its group waits, the others reporting anything in between.
struct Longest {
    panels: u16,
    waits: u16,
    group: Group,
    known: HashMap<Dispatcher, u32>,
}

impl Longest {
    fn of(&mut self, dispatcher: &Dispatcher, picks: u32) -> u32 {
        assert!(picks < 2 * u32::from(self.panels));
        if let Some(&wait) = self.known.get(dispatcher) {
            return wait;
        }
        let own = u32::from(self.group == Group::InError) << self.waits;
        let mut longest = 1;
        for mask in (0..1 << (self.panels + 1)).step_by(2) {
            if mask & 1 << self.waits != own {
                continue;
            }
            let mut next = reported(dispatcher, mask);
            if next.pick() != Some(self.waits) {
                longest = longest.max(1 + self.of(&reported(&next, 0), picks + 1));
            }
        }
        self.known.insert(dispatcher.clone(), longest);
        longest
    }
}

#[test]
fn waits_reach_2n_picks_and_no_more() {
    for panels in 1..=6 {
        let dispatchers = reachable(panels);
        for waits in 1..=panels {
            for group in [Group::Ordinary, Group::InError] {
                let mut search = Longest { panels, waits, group, known: HashMap::new() };
                let longest = dispatchers.iter().map(|dispatcher| search.of(dispatcher, 0)).max();
                let most = if panels == 1 { 1 } else { 2 * u32::from(panels) };
                assert_eq!(longest, Some(most), "{panels} panels, {waits} waits in {group:?}");
            }
        }
    }
}

#[test]
fn no_wait_over_2n_picks_on_random_runs() {
    let mut rng = Rng::new(1);
    let mut met = Polling::default();
    for round in 0..300 {
        let panels = 1 + round % 32;
        let mut text = joins((0..panels).map(|i| 1 + 7 * i)).replace("; ", "\n");
        let often = rng.between(0, 90) as u64;
        for _ in 0..400 {
            while rng.chance(often) {
                let (place, error) = (rng.below(panels.into()), rng.chance(50));
                text += &format!("report {} {}\n", 1 + 7 * place, u8::from(error));
            }
            text += "pick\n";
        }
        met.add(&polling::observe(text.as_bytes()).1);
    }
    assert_eq!(met.of(OVER), 0);
    assert_eq!(met.longest(1), 1);
    assert!((2..=4).all(|panels| met.longest(panels) == 2 * panels as u64));
}

#[test]
fn a_wait_over_2n_picks_is_seen() {
    let (mut dispatcher, mut run) = (Dispatcher::default(), polling::Run::default());
    polling::observe_from(&mut dispatcher, &mut run, b"join 1\njoin 2\n");
    // A dispatcher that forgets each poll: 1 is polled again and again.
    let mut pick = || {
        let (text, met) = polling::observe_from(&mut dispatcher.clone(), &mut run, b"pick\n");
        assert_eq!(text, "pick 1\n");
        met.of(OVER)
    };
    assert_eq!([pick(), pick(), pick(), pick()], [0, 0, 0, 1]);
}

/// What a dispatcher may get wrong.
#[derive(Clone, Copy, Debug, PartialEq, Eq)]
enum Mistake {
    Nothing,
    OneTurnForBothGroups,
    TurnLostWithThePanel,
    TurnLostWhileEmpty,
    TurnLostByAJoin,
    NeverBarred,
    BarredWithoutOrdinary,
    BarredForThePanelAlone,
    BarredByTheGroupNow,
    BarForgottenByAJoin,
    OrdinaryAtFirst,
    NewInError,
    PresentIsOrdinaryAgain,
    ErrorTurnsOver,
    ReportRegisters,
    FullBeforePresent,
    FullBeforeAddress,
    FullRegisters,
    Only31,
    LowByte,
    Without247,
    With248,
    LowestAgainAtTheHighest,
}

const MISTAKES: [Mistake; 22] = [
    Mistake::OneTurnForBothGroups,
    Mistake::TurnLostWithThePanel,
    Mistake::TurnLostWhileEmpty,
    Mistake::TurnLostByAJoin,
    Mistake::NeverBarred,
    Mistake::BarredWithoutOrdinary,
    Mistake::BarredForThePanelAlone,
    Mistake::BarredByTheGroupNow,
    Mistake::BarForgottenByAJoin,
    Mistake::OrdinaryAtFirst,
    Mistake::NewInError,
    Mistake::PresentIsOrdinaryAgain,
    Mistake::ErrorTurnsOver,
    Mistake::ReportRegisters,
    Mistake::FullBeforePresent,
    Mistake::FullBeforeAddress,
    Mistake::FullRegisters,
    Mistake::Only31,
    Mistake::LowByte,
    Mistake::Without247,
    Mistake::With248,
    Mistake::LowestAgainAtTheHighest,
];

/// A dispatcher by a table of all addresses, with one mistake or none.
struct Mistaken {
    mistake: Mistake,
    /// In error or not, where registered.
    panels: Vec<Option<bool>>,
    /// The addresses polled last, ordinary and in error; 0 at first.
    polled: [usize; 2],
    /// The last poll, and whether it was in error.
    last: Option<(usize, bool)>,
}

impl Mistaken {
    fn new(mistake: Mistake) -> Mistaken {
        Mistaken { mistake, panels: vec![None; 65_536], polled: [0; 2], last: None }
    }

    fn is(&self, mistake: Mistake) -> bool {
        self.mistake == mistake
    }

    fn has(&self, error: bool) -> bool {
        self.panels[..256].contains(&Some(error))
    }

    fn address(&self, address: u16) -> usize {
        usize::from(if self.is(Mistake::LowByte) { address % 256 } else { address })
    }

    fn join(&mut self, address: u16) -> u8 {
        let address = self.address(address);
        let most = if self.is(Mistake::Only31) { 31 } else { 32 };
        let full = self.panels[..256].iter().flatten().count() >= most;
        let highest = match self.mistake {
            Mistake::Without247 => 246,
            Mistake::With248 => 248,
            _ => 247,
        };
        if full && self.is(Mistake::FullBeforeAddress) {
            return 28;
        }
        if address < 1 || address > highest {
            return 32;
        }
        if full && self.is(Mistake::FullBeforePresent) {
            return 28;
        }
        if self.panels[address].is_some() {
            if self.is(Mistake::PresentIsOrdinaryAgain) {
                self.panels[address] = Some(false);
            }
            return 29;
        }
        if full && !self.is(Mistake::FullRegisters) {
            return 28;
        }
        self.panels[address] = Some(self.is(Mistake::NewInError));
        if self.is(Mistake::TurnLostByAJoin) {
            self.polled = [0; 2];
        }
        if self.is(Mistake::BarForgottenByAJoin) {
            self.last = None;
        }
        if full {
            28
        } else {
            0
        }
    }

    fn report(&mut self, address: u16, error: bool) -> u8 {
        let address = self.address(address);
        let Some(was) = self.panels[address] else {
            if self.is(Mistake::ReportRegisters) && (1..248).contains(&address) {
                self.panels[address] = Some(error);
            }
            return 32;
        };
        let error = error && !(was && self.is(Mistake::ErrorTurnsOver));
        self.panels[address] = Some(error);
        let left = usize::from(was);
        let lost = self.is(Mistake::TurnLostWithThePanel) && self.polled[left] == address;
        let empty = self.is(Mistake::TurnLostWhileEmpty) && !self.has(was);
        if was != error && (lost || empty) {
            self.polled[left] = 0;
        }
        0
    }

    fn pick(&mut self) -> Option<u16> {
        let twice = self.last.is_some_and(|(panel, error)| match self.mistake {
            Mistake::BarredByTheGroupNow => self.panels[panel] == Some(true),
            Mistake::BarredForThePanelAlone => error && self.next(true) == Some(panel),
            Mistake::NeverBarred => false,
            _ => error,
        });
        let alone = !self.has(false) && !self.is(Mistake::BarredWithoutOrdinary);
        let error = match self.is(Mistake::OrdinaryAtFirst) {
            true => !self.has(false) || self.has(true) && self.last.is_some_and(|last| !last.1),
            false => self.has(true) && (alone || !twice),
        };
        let Some(address) = self.next(error) else {
            self.last = None;
            return None;
        };
        self.last = Some((address, error));
        self.polled[usize::from(error)] = address;
        if self.is(Mistake::OneTurnForBothGroups) {
            self.polled = [address; 2];
        }
        Some(address as u16)
    }

    fn next(&self, error: bool) -> Option<usize> {
        let members: Vec<usize> = (0..256).filter(|&i| self.panels[i] == Some(error)).collect();
        let polled = self.polled[usize::from(error)];
        let ends = self.is(Mistake::LowestAgainAtTheHighest) && members.last() > members.first();
        match members.iter().find(|&&member| member > polled) {
            Some(next) if ends && Some(next) == members.last() => members.first().copied(),
            Some(next) => Some(*next),
            None => members.first().copied(),
        }
    }
}

/// Whether a text tells a mistaken dispatcher from the reference.
fn tells(text: &[u8], mistake: Mistake) -> bool {
    let mut mistaken = Mistaken::new(mistake);
    let mut told = false;
    poller::run_with(&mut Dispatcher::default(), text, |line, _, said, _| {
        told |= match poller::command(line) {
            Ok(Command::Join(address)) => said != Said::Join(mistaken.join(address)),
            Ok(Command::Report(address, error)) => {
                said != Said::Report(mistaken.report(address, error))
            }
            Ok(Command::Pick) => said != Said::Pick(mistaken.pick()),
            _ => false,
        };
    });
    told
}

#[test]
fn a_dispatcher_by_a_table_of_addresses_says_the_same() {
    for index in 0..400 {
        let text = poller_case(2, index).input;
        assert!(!tells(&text, Mistake::Nothing), "{index}");
    }
}

#[test]
fn random_texts_tell_every_mistake() {
    let texts: Vec<Vec<u8>> = (0..400).map(|index| poller_case(1, index).input).collect();
    for mistake in MISTAKES {
        let told = texts.iter().filter(|text| tells(text, mistake)).count();
        assert!(told >= 8, "{mistake:?}: {told}");
    }
}

#[test]
fn random_texts_meet_every_name() {
    let mut met = Polling::default();
    (0..400).for_each(|index| met.add(&poller_case(1, index).met));
    assert_eq!(met.missing(), Vec::<String>::new());
    assert_eq!(met.of(OVER), 0);
    assert_eq!(met.longest(1), 1);
    TIGHT.iter().for_each(|&panels| assert_eq!(met.longest(panels), 2 * panels as u64));
    assert!(met.of("texts with 32 panels") > 20);
}

#[test]
fn same_texts_from_the_same_seed() {
    let texts = |seed| (0..30).map(|index| poller_case(seed, index).input).collect::<Vec<_>>();
    assert_eq!(texts(1), texts(1));
    assert_ne!(texts(1), texts(2));
}

/// The recorded text and what is written for it.
fn recording() -> (Vec<u8>, String) {
    let recording = recorded_polls::recording(1, 50);
    (recording.input, recording.output)
}

#[test]
fn recorded_sessions_meet_every_name() {
    let (input, output) = recording();
    let (text, met) = polling::observe(&input);
    assert_eq!(text, output);
    assert_eq!(met.missing(), Vec::<String>::new());
    assert_eq!(met.of(OVER), 0);
    assert_eq!(met.longest(1), 1);
    TIGHT.iter().for_each(|&panels| assert_eq!(met.longest(panels), 2 * panels as u64));
}

#[test]
fn recorded_sessions_tell_every_mistake() {
    let (input, _) = recording();
    assert!(!tells(&input, Mistake::Nothing));
    // Its first poll is of the only panel, so that it does not matter which group goes first.
    let told = |mistake: &Mistake| *mistake != Mistake::OrdinaryAtFirst;
    for mistake in MISTAKES.into_iter().filter(told) {
        assert!(tells(&input, mistake), "{mistake:?}");
    }
}

#[test]
fn recorded_sessions_are_short_and_named() {
    let (input, _) = recording();
    let text = String::from_utf8(input).unwrap();
    let heads: Vec<&str> = text.lines().filter(|line| line.starts_with("# ")).collect();
    for number in 1..=50 {
        let head = format!("# {number}. ");
        assert!(heads.iter().any(|line| line.starts_with(&head)), "{number}");
    }
    assert!(text.lines().count() < 1_500);
    assert!(!text.ends_with('\n'));
}

/// The sum of the reference over steps.
fn reference(steps: &[u8], rounds: u64) -> u64 {
    let steps: Vec<&[u8]> = steps.chunks_exact(2).take(4_096).collect();
    let once = steps.len().min(64);
    let mut dispatcher = Dispatcher::default();
    let mut sum = 0u64;
    let again = (0..rounds).flat_map(|_| &steps[once..]);
    for step in steps[..once].iter().chain(again) {
        let address = u16::from(step[1]);
        let answer = match step[0] {
            0 => dispatcher.pick().unwrap_or(0),
            1 => dispatcher.join(address).into(),
            2 => dispatcher.report(address, false).into(),
            3 => dispatcher.report(address, true).into(),
            _ => continue,
        };
        sum = sum.wrapping_mul(31).wrapping_add(answer.into());
    }
    sum
}

#[test]
fn timed_steps_have_the_sums_of_the_reference() {
    for kind in polls::KINDS {
        for count in [0, 1, 63, 64, 65, 400, 4_032, 5_000] {
            let input = polls::input(kind, count);
            for rounds in [0, 1, 3] {
                assert_eq!(polls::sum(&input, rounds), reference(&input, rounds), "{kind} {count}");
            }
        }
    }
}

#[test]
fn random_steps_have_the_answers_of_the_reference() {
    let mut rng = Rng::new(4);
    for _ in 0..200 {
        let (mut fast, mut dispatcher) = (Polls::default(), Dispatcher::default());
        let low = rng.pick(&[0, 56, 120, 184, 225]);
        let span = rng.pick(&[4, 12, 31]);
        let kinds =
            rng.pick(&[[40, 10, 25, 25], [10, 5, 40, 45], [70, 10, 10, 10], [30, 40, 15, 15]]);
        for _ in 0..500 {
            let address = match rng.chance(5) {
                true => rng.below(256) as u8,
                false => (low + rng.below(span)) as u8,
            };
            let kind = rng.weighted(&kinds) as u8;
            let wide = u16::from(address);
            let expected = match kind {
                polls::PICK => dispatcher.pick().unwrap_or(0) as u8,
                polls::JOIN => dispatcher.join(wide),
                _ => dispatcher.report(wide, kind == polls::ERROR),
            };
            assert_eq!(fast.step(kind, address), Some(expected));
        }
    }
}

#[test]
fn sums_worked_out_by_hand() {
    assert_eq!(polls::sum(&[], 5), 0);
    // A pick of none, 32, 0 and a pick of 7; bytes 4 and 9 are no steps, one byte is left over.
    assert_eq!(polls::sum(&[0, 0, 1, 0, 1, 7, 4, 7, 9, 9, 0, 0, 0], 5), (32 * 31) * 31 + 7);
    // 64 picks of none, then a join of 9, its report and a pick of it, twice.
    let steps = [vec![0; 128], vec![1, 9, 3, 9, 0, 0]].concat();
    let again = ((9 * 31 + 29) * 31) * 31 + 9;
    assert_eq!(polls::sum(&steps, 2), again);
    assert_eq!(polls::sum(&steps, 1), 9);
    assert_eq!(polls::sum(&steps, 0), 0);
    // A join of the 32 addresses, and of the first four once more.
    let joins: Vec<u8> = (1..=32).flat_map(|address| [1, address]).collect();
    assert_eq!(polls::sum(&[&joins[..], &[1, 1, 1, 33]].concat(), 1), 29 * 31 + 28);
}

#[test]
fn timed_steps_are_as_their_kinds_say() {
    let steps = |kind| polls::input(kind, 100).chunks(2).map(<[u8]>::to_vec).collect::<Vec<_>>();
    for kind in ["ordinary", "errors", "reports", "spread"] {
        let steps = steps(kind);
        assert_eq!(steps.len(), 164);
        assert!(steps[..32].iter().all(|step| step[0] == polls::JOIN));
        let addresses = |steps: &[Vec<u8>]| steps.iter().map(|step| step[1]).collect::<Vec<_>>();
        assert_eq!(addresses(&steps[..32]), addresses(&steps[32..64]));
        let errors = steps[32..64].iter().filter(|step| step[0] == polls::ERROR).count();
        let first_last = (steps[0][1], steps[31][1]);
        let picks = steps[64..].iter().filter(|step| **step == [polls::PICK, 0]).count();
        let (expected, ends, polled) = match kind {
            "ordinary" => (0, (1, 218), 100),
            "errors" => (16, (1, 218), 100),
            "reports" => (16, (1, 218), 50),
            _ => (8, (216, 247), 100),
        };
        assert_eq!((errors, first_last, picks), (expected, ends, polled), "{kind}");
    }
    let mixed = polls::input("mixed", 400);
    assert_eq!(mixed.len(), 800);
    for kind in [0, 1, 2, 3, 4, 255] {
        assert!(mixed.chunks(2).any(|step| step[0] == kind), "{kind}");
    }
}
