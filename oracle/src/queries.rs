//! What the two queries answered, as a line has it: how long each timer has to go, and the least of that.

/// Whom a query is asked about.
#[derive(Clone, Copy, Debug, PartialEq, Eq)]
pub enum Query {
    /// A place, whatever stands there.
    Place,
    /// A place where a timer stands that has fired; it is counted as a place too.
    Fired,
    /// The whole set.
    Least,
}

/// What a query answered, by kinds that are told apart.
#[derive(Clone, Copy, Debug, PartialEq, Eq)]
pub enum Outcome {
    Closed,
    Dead,
    Nothing,
    TooLow,
    Lowest,
    Overdue,
    Zero,
    Ahead,
    Highest,
    TooHigh,
}

/// The queries, with their names.
pub const QUERIES: [(Query, &str); 3] = [
    (Query::Place, "time left"),
    (Query::Fired, "- of fired ones"),
    (Query::Least, "least left"),
];

/// The outcomes, with their names.
pub const OUTCOMES: [(Outcome, &str); 10] = [
    (Outcome::Closed, "ref. 2"),
    (Outcome::Dead, "ref. 3"),
    (Outcome::Nothing, "none"),
    (Outcome::TooLow, "6 below"),
    (Outcome::Lowest, "-2^63"),
    (Outcome::Overdue, "overdue"),
    (Outcome::Zero, "zero"),
    (Outcome::Ahead, "ahead"),
    (Outcome::Highest, "2^63-1"),
    (Outcome::TooHigh, "6 above"),
];

/// What the queries of a line answered. A line that does not show a set has none.
pub fn answers(line: &str) -> Vec<(Query, Outcome)> {
    let parts: Vec<&str> = line.split(" |").collect();
    let [_, wakes, _, places, _] = parts[..] else {
        return Vec::new();
    };
    let places: Vec<Shown> = places.split_whitespace().filter_map(Shown::read).collect();
    let least = wakes.split_whitespace().nth(1);
    let least = least.and_then(|least| outcome(least, earliest(&places)));
    let mut all: Vec<_> = least
        .map(|least| (Query::Least, least))
        .into_iter()
        .collect();
    for place in &places {
        let left = outcome(place.left, place.due);
        all.extend(left.map(|left| (Query::Place, left)));
        let of_fired = left.filter(|_| place.fired == Some(true));
        all.extend(of_fired.map(|left| (Query::Fired, left)));
    }
    all
}

/// A place as a line shows it.
struct Shown<'a> {
    /// Of a live timer alone.
    fired: Option<bool>,
    due: Option<u64>,
    left: &'a str,
}

impl Shown<'_> {
    /// The place that a text shows.
    fn read(text: &str) -> Option<Shown<'_>> {
        let mut parts = text.split(':').skip(2);
        let is_live = parts.next()? == "L";
        let word: Option<u32> = parts.next()?.parse().ok();
        Some(Shown {
            fired: word.filter(|_| is_live).map(|word| word & 1 == 1),
            due: parts.next()?.parse().ok(),
            left: parts.nth(1)?,
        })
    }
}

/// The earliest deadline of those that have not fired.
fn earliest(places: &[Shown]) -> Option<u64> {
    let pending = places.iter().filter(|place| place.fired == Some(false));
    pending.filter_map(|place| place.due).min()
}

/// Of which kind an answer is. The deadline tells on which side a number does not fit: above only what is due at 2^63 or later, below
/// only what is due before.
fn outcome(answer: &str, due: Option<u64>) -> Option<Outcome> {
    Some(match (answer, answer.parse::<i64>()) {
        ("!2", _) => Outcome::Closed,
        ("!3", _) => Outcome::Dead,
        ("!6", _) if due? < 1 << 63 => Outcome::TooLow,
        ("!6", _) => Outcome::TooHigh,
        ("-", _) => Outcome::Nothing,
        (_, Ok(i64::MIN)) => Outcome::Lowest,
        (_, Ok(i64::MAX)) => Outcome::Highest,
        (_, Ok(0)) => Outcome::Zero,
        (_, Ok(left)) if left < 0 => Outcome::Overdue,
        (_, Ok(_)) => Outcome::Ahead,
        _ => return None,
    })
}
