//! The driver: the calls of a seed.

mod dice;
pub mod maker;
pub mod sample;
mod short;
mod styles;

use crate::record::Record;
use maker::Maker;
use short::Theme;
use styles::Style;

/// How many calls a seed has, about, where no number is given.
pub const CALLS: u64 = 2_000;

/// How the sequences of a family are made.
enum Way {
    Short(fn() -> Theme),
    Styled(Style),
    Own(fn(&mut Maker)),
}

/// A family: its name, how many seeds of a round it has, and how its sequences are made.
struct Family {
    name: &'static str,
    share: u64,
    way: Way,
}

/// The families. A round has 20 seeds.
static FAMILIES: [Family; 18] = [
    family("short: one timer", 2, Way::Short(short::one_timer)),
    family("short: two timers", 2, Way::Short(short::two_timers)),
    family("short: ticks", 1, Way::Short(short::ticks)),
    family("short: heap", 1, Way::Short(short::heap)),
    family("short: clock", 1, Way::Short(short::clock)),
    family("mixed", 1, Way::Styled(styles::MIXED)),
    family("long session", 1, Way::Styled(styles::LONG)),
    family("ties", 1, Way::Styled(styles::TIES)),
    family("reset storms", 1, Way::Styled(styles::STORMS)),
    family("cancels", 1, Way::Styled(styles::CANCELS)),
    family("stale entries", 1, Way::Styled(styles::STALE)),
    family("full sets", 1, Way::Styled(styles::FULL)),
    family("ends of time", 1, Way::Styled(styles::EXTREMES)),
    family("words that wrap", 1, Way::Styled(styles::WRAPS)),
    family("ticks", 1, Way::Styled(styles::TICKS)),
    family("closes", 1, Way::Styled(styles::CLOSES)),
    family("clock", 1, Way::Styled(styles::CLOCK)),
    family("heap", 1, Way::Own(styles::heap)),
];

/// A row of the families.
const fn family(name: &'static str, share: u64, way: Way) -> Family {
    Family { name, share, way }
}

/// The family of a seed, and how many seeds of that family come before it.
fn family_of(seed: u64) -> (&'static Family, u64) {
    let round: u64 = FAMILIES.iter().map(|family| family.share).sum();
    let mut left = seed % round;
    for family in &FAMILIES {
        if left < family.share {
            return (family, seed / round * family.share + left);
        }
        left -= family.share;
    }
    unreachable!("the shares make up the round")
}

/// The name of a seed's family.
pub fn name(seed: u64) -> &'static str {
    family_of(seed).0.name
}

/// The calls of a seed: about `calls` of them, and the same each time.
pub fn records(seed: u64, calls: u64) -> Vec<Record> {
    let (family, before) = family_of(seed);
    let mut maker = Maker::new(seed);
    match &family.way {
        Way::Short(theme) => {
            let start = before.saturating_mul(calls);
            theme().make(&mut maker, start, start.saturating_add(calls));
        }
        Way::Styled(style) => many(&mut maker, calls, |maker| style.make(maker)),
        Way::Own(make) => many(&mut maker, calls, make),
    }
    maker.records
}

/// Makes sequences until there are so many calls, and cuts the last one off there.
fn many(maker: &mut Maker, calls: u64, make: impl Fn(&mut Maker)) {
    while (maker.records.len() as u64) < calls {
        make(maker);
    }
    maker.records.truncate(calls as usize);
}
