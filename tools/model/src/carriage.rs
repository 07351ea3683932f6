//! K8: the log of a slow carriage, as a recorder would turn and store it: telegrams alone, of an encoder
//! of 25 bits without an error bit, 100 a second.

use crate::planes;
use crate::rng::Rng;
use crate::table::{self, slot, Table};
use crate::telegram;

/// The formats of a log, Gray first as in slot 2.
pub const KINDS: [&str; 2] = ["gray", "binary"];

/// Telegrams of a second.
const SECOND: i64 = 100;
/// Places, speeds and their changes are in 64ths of a position.
const POSITION: i64 = 64;
/// The ends of the track, a good 24 turns of 8,192 positions apart.
const NEAR_END: i64 = 10_000_000 * POSITION;
const FAR_END: i64 = 10_200_000 * POSITION;
/// Slowest and fastest speed a telegram.
const SLOW: i64 = 2 * POSITION;
const FAST: i64 = 6 * POSITION;
/// One telegram of so many reads one position more while the carriage stands.
const TREMBLES: u64 = 20;

/// A carriage on its track.
///
/// It starts from rest at the near end and goes to the far end and back, again and again. On its way it
/// wants a speed of 2 to 6 positions a telegram, another one every 5 to 20 seconds. Each telegram brings
/// its speed nearer to the wanted one by a 64th of a position. At one change in four, and at the first
/// behind the end it goes to, it wants to stand, for 6 to 15 seconds; slowing down takes less than 4 of
/// them. Then it goes on, behind that end the other way. While it stands, one telegram in 20 reads one
/// position more.
struct Carriage {
    place: i64,
    /// Never below 0.
    speed: i64,
    wanted: i64,
    /// 1 to the far end, -1 back.
    way: i64,
    /// Telegrams until it wants another speed.
    left: i64,
}

impl Carriage {
    fn new() -> Carriage {
        Carriage { place: NEAR_END, speed: 0, wanted: 0, way: 1, left: 0 }
    }

    /// The position of the next telegram.
    fn next(&mut self, rng: &mut Rng) -> u64 {
        if self.left == 0 {
            self.want(rng);
        }
        self.left -= 1;
        self.speed += (self.wanted - self.speed).signum();
        self.place += self.way * self.speed;
        let trembles = self.speed == 0 && rng.below(TREMBLES) == 0;
        (self.place / POSITION) as u64 + u64::from(trembles)
    }

    /// Goes on behind a stand, else wants another speed or to stand.
    fn want(&mut self, rng: &mut Rng) {
        let behind = if self.way > 0 { self.place >= FAR_END } else { self.place <= NEAR_END };
        let stood = self.wanted == 0;
        if stood && behind {
            self.way = -self.way;
        }
        let stands = !stood && (behind || rng.chance(25));
        self.wanted = if stands { 0 } else { rng.between(SLOW, FAST) };
        self.left = if stands { rng.between(6, 15) } else { rng.between(5, 20) } * SECOND;
    }
}

/// The table of a log: the defaults, with its format.
pub fn table(kind: &str) -> Table {
    let mut words = table::defaults();
    words[slot::FORMAT] = KINDS.iter().position(|&name| name == kind).unwrap() as i32;
    table::load(&words).unwrap()
}

/// This many telegrams of a carriage.
pub fn telegrams(rng: &mut Rng, kind: &str, count: usize) -> Vec<u32> {
    let table = table(kind);
    let mut carriage = Carriage::new();
    let mut telegram = || telegram::build(&table, carriage.next(rng), false).unwrap();
    (0..count).map(|_| telegram()).collect()
}

/// The log of this many telegrams, 4 bytes each, the lowest first.
pub fn log(kind: &str, count: usize) -> Vec<u8> {
    planes::bytes_of(&telegrams(&mut Rng::new(1), kind, count))
}
