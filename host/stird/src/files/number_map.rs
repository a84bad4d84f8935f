//! Which of many blocks decides of a number: the most special one.
use super::numbers::{number_of, Numbers};
use std::collections::BTreeSet;

/// How a block stands to others that have one of its numbers.
#[derive(Clone, Copy, Debug, PartialEq, Eq, PartialOrd, Ord)]
pub enum Standing {
    /// The one with the fewest numbers decides.
    BySize,
    /// One that is by its size goes before it, and so does an earlier one of its kind.
    InOrder,
}

/// Two blocks of one size that have a number in common, by their places: neither is more special.
#[derive(Clone, Copy, Debug, PartialEq, Eq)]
pub struct Ambiguous {
    /// The place of the earlier one.
    pub earlier: usize,
    /// That of the later one.
    pub later: usize,
}

/// A value for each number of many blocks, that of the block that decides. A look-up halves a
/// sorted list, so that ten thousand blocks take a dozen steps.
///
/// ```
/// use stird::files::number_map::{NumberMap, Standing};
///
/// let blocks = [("1215555xxxx", "all"), ("121555500xx", "a hundred")];
/// let blocks = blocks.map(|(text, value)| (text.parse().unwrap(), Standing::BySize, value));
/// let map = NumberMap::new(blocks.into()).unwrap();
/// assert_eq!(map.at("12155550001"), Some(&"a hundred"));
/// assert_eq!(map.at("12155550100"), Some(&"all"));
/// assert_eq!(map.at("012155550001"), None, "it is another text");
/// ```
#[derive(Debug)]
pub struct NumberMap<T> {
    /// Numbers that follow each other, with the place of the value that they have: in their order,
    /// and none of them twice.
    stretches: Vec<(Numbers, usize)>,
    values: Vec<T>,
}

impl<T> Default for NumberMap<T> {
    fn default() -> NumberMap<T> {
        NumberMap { stretches: Vec::new(), values: Vec::new() }
    }
}

/// What decides between blocks that have a number: the least of these.
type Rank = (Standing, u64, usize);

impl<T> NumberMap<T> {
    /// Of these blocks.
    ///
    /// # Errors
    ///
    /// Two are as special, and have a number for which no other block is more so.
    pub fn new(blocks: Vec<(Numbers, Standing, T)>) -> Result<NumberMap<T>, Ambiguous> {
        let rank = |place: usize| -> Option<Rank> {
            let (numbers, standing, _) = blocks.get(place)?;
            let size = if *standing == Standing::BySize { numbers.more() } else { 0 };
            Some((*standing, size, place))
        };
        let mut stretches: Vec<(Numbers, usize)> = Vec::new();
        let mut open: BTreeSet<Rank> = BTreeSet::new();
        let edges = edges(blocks.iter().map(|(numbers, ..)| *numbers));
        for (at, edge) in edges.iter().enumerate() {
            open.extend(edge.begin.iter().filter_map(|place| rank(*place)));
            for rank in edge.end.iter().filter_map(|place| rank(*place)) {
                open.remove(&rank);
            }
            let next = edges.get(at + 1).map(|edge| edge.number);
            let (Some(decides), Some(next)) = (decides(&open)?, next) else { continue };
            stretches.extend(stretch(edge.number, next).map(|numbers| (numbers, decides)));
        }
        let values = blocks.into_iter().map(|(_, _, value)| value).collect();
        Ok(NumberMap { stretches, values })
    }

    /// The value of a number, by its text.
    pub fn at(&self, number: &str) -> Option<&T> {
        let number = number_of(number)?;
        let after = self.stretches.partition_point(|(numbers, _)| numbers.first() <= number);
        let (numbers, place) = self.stretches.get(after.checked_sub(1)?)?;
        numbers.all().contains(&number).then(|| self.values.get(*place))?
    }

    /// The values of all blocks, in their order.
    pub fn values(&self) -> impl Iterator<Item = &T> {
        self.values.iter()
    }
}

/// The place of the block that decides.
fn decides(open: &BTreeSet<Rank>) -> Result<Option<usize>, Ambiguous> {
    let mut least = open.iter();
    match (least.next(), least.next()) {
        (Some((Standing::BySize, size, one)), Some((Standing::BySize, same, other)))
            if size == same =>
        {
            Err(Ambiguous { earlier: *one, later: *other })
        }
        (first, _) => Ok(first.map(|(.., place)| *place)),
    }
}

/// A number at which blocks begin, or directly before which some end.
struct Edge {
    /// One past the last number of 64 bits may be an edge too.
    number: u128,
    begin: Vec<usize>,
    end: Vec<usize>,
}

/// The edges of all blocks, in order.
fn edges(blocks: impl Iterator<Item = Numbers>) -> Vec<Edge> {
    let mut all: Vec<(u128, bool, usize)> = blocks
        .enumerate()
        .flat_map(|(place, numbers)| {
            let (first, last) = (u128::from(numbers.first()), u128::from(numbers.last()));
            [(first, true, place), (last + 1, false, place)]
        })
        .collect();
    all.sort_unstable();
    let mut edges: Vec<Edge> = Vec::new();
    for (number, begins, place) in all {
        if edges.last().is_none_or(|edge| edge.number != number) {
            edges.push(Edge { number, begin: Vec::new(), end: Vec::new() });
        }
        let Some(edge) = edges.last_mut() else { continue };
        if begins { &mut edge.begin } else { &mut edge.end }.push(place);
    }
    edges
}

/// The numbers from one edge to the next.
fn stretch(from: u128, to: u128) -> Option<Numbers> {
    Numbers::new(u64::try_from(from).ok()?, u64::try_from(to.checked_sub(1)?).ok()?)
}

#[cfg(test)]
mod tests {
    use super::*;
    use Standing::{BySize, InOrder};

    fn map(blocks: &[(&str, Standing)]) -> Result<NumberMap<String>, Ambiguous> {
        let blocks = blocks.iter().map(|(text, standing)| {
            (text.parse().expect("a block"), *standing, (*text).to_owned())
        });
        NumberMap::new(blocks.collect())
    }

    #[test]
    fn the_most_special_block_decides_wherever_it_stands() {
        let texts = ["1215555xxxx", "12155550007", "121555500xx", "12155550000-12155550019"];
        for turn in 0..texts.len() {
            let mut turned = texts.map(|text| (text, BySize));
            turned.rotate_left(turn);
            let map = map(&turned).expect("blocks");
            for (number, wanted) in [
                ("12155550007", Some("12155550007")),
                ("12155550006", Some("12155550000-12155550019")),
                ("12155550008", Some("12155550000-12155550019")),
                ("12155550019", Some("12155550000-12155550019")),
                ("12155550020", Some("121555500xx")),
                ("12155550099", Some("121555500xx")),
                ("12155550100", Some("1215555xxxx")),
                ("12155559999", Some("1215555xxxx")),
                ("12155560000", None),
                ("12155549999", None),
                ("121555500070", None),
                ("1215555000", None),
                ("012155550007", None),
                ("+12155550007", None),
                ("", None),
            ] {
                assert_eq!(map.at(number).map(String::as_str), wanted, "{number} of {turned:?}");
            }
        }
    }

    #[test]
    fn of_blocks_in_order_the_first_decides_and_those_by_size_go_before_them() {
        let texts = [
            ("1215555xxxx", InOrder),
            ("121555500xx", InOrder),
            ("121555xxxxx", BySize),
            ("12155550007", InOrder),
            ("13105550007", InOrder),
            ("1310555xxxx", InOrder),
        ];
        let all = map(&texts).expect("blocks");
        assert_eq!(all.at("12155550007").map(String::as_str), Some("121555xxxxx"));
        assert_eq!(all.at("13105550007").map(String::as_str), Some("13105550007"));
        assert_eq!(all.at("13105550008").map(String::as_str), Some("1310555xxxx"));
        let ordered: Vec<_> =
            texts.into_iter().filter(|(_, standing)| *standing == InOrder).collect();
        let ordered = map(&ordered).expect("blocks");
        assert_eq!(ordered.at("12155550007").map(String::as_str), Some("1215555xxxx"));
    }

    #[test]
    fn two_blocks_as_special_as_each_other_are_refused_unless_another_decides() {
        let one = ("12155550000-12155550009", BySize);
        let other = ("12155550005-12155550014", BySize);
        let fault = map(&[("1310555xxxx", BySize), one, other]).err();
        assert_eq!(fault, Some(Ambiguous { earlier: 1, later: 2 }));
        assert_eq!(map(&[one, one]).err(), Some(Ambiguous { earlier: 0, later: 1 }));
        let between = ("12155550005-12155550009", BySize);
        let settled = map(&[one, other, between]).expect("one is more special");
        for (number, wanted) in [("12155550004", 0), ("12155550005", 2), ("12155550010", 1)] {
            let wanted = [one, other, between].get(wanted).map(|(text, _)| *text);
            assert_eq!(settled.at(number).map(String::as_str), wanted, "{number}");
        }
        let same = ("1215555xxxx", InOrder);
        assert!(map(&[same, same]).is_ok(), "of those in order the first decides");
    }

    #[test]
    fn all_numbers_of_64_bits_can_be_had() {
        let all = Numbers::new(1, u64::MAX).expect("numbers");
        let last = Numbers::new(u64::MAX, u64::MAX).expect("a number");
        let blocks = vec![(all, InOrder, "all"), (last, BySize, "last")];
        let map = NumberMap::new(blocks).expect("blocks");
        for (number, wanted) in [
            ("1", Some(&"all")),
            ("18446744073709551614", Some(&"all")),
            ("18446744073709551615", Some(&"last")),
            ("18446744073709551616", None),
            ("0", None),
        ] {
            assert_eq!(map.at(number), wanted, "{number}");
        }
    }

    #[test]
    fn ten_thousand_blocks_are_looked_up_without_going_through_them() {
        let block = |first: u64| (Numbers::new(first, first + 9).expect("numbers"), BySize, first);
        let blocks: Vec<_> = (0..10_000).map(|at| block(12_000_000_000 + at * 10)).collect();
        let plainly = |number: u64| {
            let found = blocks.iter().find(|(numbers, ..)| numbers.all().contains(&number));
            found.map(|(.., first)| *first)
        };
        let map = NumberMap::new(blocks.clone()).expect("blocks");
        // The shortest of several times, since other work may stop one of them.
        let least = |look_up: &dyn Fn(u64) -> Option<u64>| {
            let round = |_| {
                let begin = std::time::Instant::now();
                for at in 0..500 {
                    let number = 12_000_000_000 + at * 7919 % 100_000;
                    assert_eq!(look_up(number), Some(number / 10 * 10), "{number}");
                }
                begin.elapsed()
            };
            (0..5).map(round).min()
        };
        let (by_map, by_going) =
            (least(&|number| map.at(&number.to_string()).copied()), least(&plainly));
        let is_less = by_map.zip(by_going).is_some_and(|(map, going)| map * 10 < going);
        assert!(is_less, "{by_map:?}, and by going through them {by_going:?}");
    }

    #[test]
    fn a_map_says_what_going_through_all_blocks_says() {
        let mut seed: u64 = 20_261_201;
        let mut draw = |most: u64| {
            seed = seed.wrapping_mul(6_364_136_223_846_793_005).wrapping_add(1);
            (seed >> 33) % most
        };
        for round in 0..300 {
            let blocks: Vec<(Numbers, Standing, usize)> = (0..draw(12) as usize)
                .map(|place| {
                    let first = 100 + draw(80);
                    let numbers = Numbers::new(first, first + draw(20)).expect("numbers");
                    let standing = if draw(2) == 0 { BySize } else { InOrder };
                    (numbers, standing, place)
                })
                .collect();
            let plainly = |number: u64| {
                let has = blocks.iter().filter(|(numbers, ..)| numbers.all().contains(&number));
                has.min_by_key(|(numbers, standing, place)| {
                    (*standing, if *standing == BySize { numbers.more() } else { 0 }, *place)
                })
            };
            let Ok(map) = NumberMap::new(blocks.clone()) else { continue };
            for number in 95..210 {
                let wanted = plainly(number).map(|(.., place)| place);
                assert_eq!(map.at(&number.to_string()), wanted, "{round}: {number}, {blocks:?}");
            }
        }
    }
}
