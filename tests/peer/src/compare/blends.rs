//! Blends handed in, true and nonsense, and lists of calls against the book of demand 3.

use super::{fail, Source, Tally, OF_LIMITS};
use crate::generate::{blend, counts, exact_mixture, fuel_text, parts, spelled, temperature, tie, Random};
use crate::library::*;
use peer::blend::{Blend, USUAL_TEMPERATURE};
use peer::book::Book;
use peer::formula;
use peer::refusal::{Answer, Refusal};

pub fn run(source: &mut Source) -> u64 {
    empty() + add(source) + join(source) + limits(source) + lists(source) + routes(source)
}

fn empty() -> u64 {
    let mut tally = Tally::new("jlw_empty_blend", &[0]);
    let shown = |blend| blended_of(Ok(blend), Blend::EMPTY);
    tally.compare(shown(empty_blend()), shown(Blend::EMPTY), || "nothing".to_string());
    tally.finish()
}

fn add(source: &mut Source) -> u64 {
    let mut tally = Tally::new("jlw_add_fuel", &[0, 1, 2, 3, 4, 8, 28]);
    for _ in 0..120_000 {
        let (blend, text) = (blend(&mut source.random), fuel_text(&mut source.random));
        let parts = parts(&mut source.random);
        let lent = source.bytes.hold(&text);
        let peer = blended_of(blend.add_text(&text, parts), blend);
        tally.compare(add_fuel(blend, lent, parts), peer, || format!("{blend:?} {} parts {parts}", text.escape_ascii()));
    }
    tally.finish() + add_counts(source)
}

fn add_counts(source: &mut Source) -> u64 {
    let mut tally = Tally::new("jlt_add_fuel", &[0, 2, 3, 4, 8, 28]);
    for _ in 0..120_000 {
        let (blend, fuel) = (blend(&mut source.random), counts(&mut source.random));
        let parts = parts(&mut source.random);
        let peer = blended_of(blend.add(&fuel, parts), blend);
        tally.compare(add_fuel_by_counts(blend, &fuel, parts), peer, || format!("{blend:?} {fuel:?} parts {parts}"));
    }
    tally.finish()
}

fn join(source: &mut Source) -> u64 {
    let mut tally = Tally::new("jlw_join_blends", &[0, 8, 28]);
    for _ in 0..120_000 {
        let first = blend(&mut source.random);
        let second = if source.random.one_in(8) { first } else { blend(&mut source.random) };
        let peer = blended_of(first.join(second), first);
        tally.compare(join_blends(first, second), peer, || format!("{first:?} {second:?}"));
    }
    tally.finish()
}

fn limits(source: &mut Source) -> u64 {
    let mut plain = Tally::marked("jlw_blend_limits", &[0, 9, 28], OF_LIMITS);
    let mut at = Tally::marked("jlw_blend_limits_at", &[0, 9, 10, 28], OF_LIMITS);
    for round in 0..150_000 {
        let (blend, t) = match round % 10 {
            0 | 5 => tie(&mut source.random),
            1 => exact_blend(&mut source.random),
            _ => (blend(&mut source.random), temperature(&mut source.random)),
        };
        plain.compare(blend_limits(blend), limits_of(blend.limits()), || format!("{blend:?}"));
        at.compare(blend_limits_at(blend, t), limits_of(blend.limits_at(t)), || format!("{blend:?} at {t}"));
    }
    plain.finish() + at.finish()
}

/// The temperature that is meant where none is named, or any.
fn usual_or_any(random: &mut Random) -> i64 {
    if random.one_in(2) {
        return USUAL_TEMPERATURE;
    }
    random.within(0, 20_000)
}

fn exact_blend(random: &mut Random) -> (Blend, i64) {
    let t = usual_or_any(random);
    (exact_mixture(random, t).iter().fold(Blend::EMPTY, |blend, (fuel, parts)| blend.add(fuel, *parts).unwrap_or(blend)), t)
}

#[derive(Debug)]
enum Call {
    Add { page: usize, fuel: usize, parts: u64, by_counts: bool },
    Join { first: usize, second: usize },
    Ask { page: usize },
    AskAt { page: usize, temperature: i64 },
}

/// One list of calls on a few blends, with a few fuels.
struct List {
    blends: Vec<Blend>,
    book: Book,
    fuels: Vec<Vec<u8>>,
    calls: Vec<Call>,
}

impl List {
    fn new(random: &mut Random) -> List {
        let pages = random.index(4) + 1;
        let fuels = (0..=random.below(5)).map(|_| fuel_text(random)).collect();
        List { blends: vec![empty_blend(); pages], book: Book::new(pages), fuels, calls: Vec::new() }
    }

    fn next_call(&self, random: &mut Random, most_parts: u64) -> Call {
        let page = random.index(self.blends.len());
        match random.below(8) {
            0..=3 => {
                let parts = if random.one_in(8) { parts(random) } else { random.below(most_parts) };
                Call::Add { page, fuel: random.index(self.fuels.len()), parts, by_counts: random.one_in(2) }
            }
            4 => Call::Join { first: page, second: random.index(self.blends.len()) },
            5 => Call::Ask { page },
            _ => Call::AskAt { page, temperature: temperature(random) },
        }
    }

    /// Calls on empty blends: the fuels of an exact mixture go into the first and the last, these are joined, and the first is asked.
    fn exact_calls(&mut self, random: &mut Random) -> Vec<Call> {
        let t = usual_or_any(random);
        let last = self.blends.len() - 1;
        let mut calls = Vec::new();
        for (page, (fuel, parts)) in [0, last].into_iter().zip(exact_mixture(random, t)) {
            calls.push(Call::Add { page, fuel: self.fuels.len(), parts, by_counts: random.one_in(2) });
            self.fuels.push(spelled(random, &fuel));
        }
        if last > 0 {
            calls.push(Call::Join { first: 0, second: last });
        }
        calls.extend([Call::Ask { page: 0 }, Call::AskAt { page: 0, temperature: t }]);
        calls
    }

    /// The library's answer to a call on the blends as the calls before left them, and the book's.
    fn answers(&mut self, call: &Call) -> (Told, Told) {
        match *call {
            Call::Add { page, fuel, parts, by_counts } => {
                let library = self.add(page, fuel, parts, by_counts);
                (Told::Change(library), changed(self.book.add_text(page, &self.fuels[fuel], parts)))
            }
            Call::Join { first, second } => {
                let library = join_blends(self.blends[first], self.blends[second]);
                self.blends[first] = library.blend;
                (Told::Change(library.refusal), changed(self.book.join(first, second)))
            }
            Call::Ask { page } => (Told::Limits(blend_limits(self.blends[page])), Told::Limits(limits_of(self.book.limits(page)))),
            Call::AskAt { page, temperature } => {
                let library = blend_limits_at(self.blends[page], temperature);
                (Told::Limits(library), Told::Limits(limits_of(self.book.limits_at(page, temperature))))
            }
        }
    }

    /// By text, or by the counts that a text reads to.
    fn add(&mut self, page: usize, fuel: usize, parts: u64, by_counts: bool) -> Refusal {
        let (blend, text) = (self.blends[page], &self.fuels[fuel]);
        let library = match formula::read(text) {
            Ok(atoms) if by_counts => add_fuel_by_counts(blend, &atoms, parts),
            _ => add_fuel(blend, text, parts),
        };
        self.blends[page] = library.blend;
        library.refusal
    }

    fn make(&mut self, tally: &mut Tally, call: Call) {
        let (library, book) = self.answers(&call);
        self.calls.push(call);
        let fuels = || self.fuels.iter().map(|text| text.escape_ascii().to_string()).collect::<Vec<_>>();
        tally.compare(library, book, || format!("fuels {:?}, calls {:?}", fuels(), self.calls));
    }
}

/// What a call of a list is told: of a change whether it is refused, of a question the limits.
#[derive(PartialEq, Debug)]
enum Told {
    Change(Refusal),
    Limits(Limits),
}

impl Shown for Told {
    fn refusal(&self) -> Refusal {
        match self {
            Told::Change(refusal) => *refusal,
            Told::Limits(limits) => limits.refusal,
        }
    }

    fn marks(&self) -> Marks {
        match self {
            Told::Change(_) => [None; 2],
            Told::Limits(limits) => limits.marks(),
        }
    }
}

fn changed(answer: Answer<()>) -> Told {
    Told::Change(answer.err().unwrap_or(ANSWERED))
}

fn lists(source: &mut Source) -> u64 {
    let mut tally = Tally::marked("lists of calls, the book", &[0, 1, 2, 3, 4, 8, 9, 10], OF_LIMITS);
    for _ in 0..12_000 {
        let mut list = List::new(&mut source.random);
        if source.random.one_in(4) {
            list.exact_calls(&mut source.random).into_iter().for_each(|call| list.make(&mut tally, call));
        }
        let most_parts = source.random.pick(&[3, 1_000, 50_000, 600_000]);
        for _ in 0..=source.random.below(50) {
            let call = list.next_call(&mut source.random, most_parts);
            list.make(&mut tally, call);
        }
    }
    tally.finish()
}

/// Every entry once, in any order, on blends that are joined in any grouping until one is left: the book's answer, or a refusal somewhere.
fn routes(source: &mut Source) -> u64 {
    let mut tally = Tally::marked("routes, the book", &[0, 8], OF_LIMITS);
    for _ in 0..8_000 {
        let t = source.random.within(0, 20_000);
        let entries = if source.random.one_in(4) { exact_entries(&mut source.random, t) } else { entries(&mut source.random) };
        let mut book = Book::new(1);
        let refused = entries.iter().find_map(|(text, parts)| book.add_text(0, text, *parts).err());
        let wanted = limits_of(refused.map_or_else(|| book.limits_at(0, t), Err));
        for _ in 0..3 {
            let found = route(&mut source.random, entries.clone(), t);
            tally.compare(found, wanted, || format!("{entries:?} at {t}"));
        }
    }
    tally.finish()
}

type Entries = Vec<(Vec<u8>, u64)>;

/// Admitted fuels with parts that total about a million at most, or at least 1.
fn entries(random: &mut Random) -> Entries {
    let mut entries = Entries::new();
    while entries.len() < 2 || random.below(8) > 0 {
        let text = fuel_text(random);
        if Blend::EMPTY.add_text(&text, 1).is_ok() {
            entries.push((text, random.below(300_000) + 1));
        }
    }
    if random.one_in(4) {
        let others: u64 = entries[1..].iter().map(|(_, parts)| parts).sum();
        entries[0].1 = (1_000_000 + random.below(2)).saturating_sub(others).max(1);
    }
    entries
}

/// An exact mixture, each fuel's parts in two entries.
fn exact_entries(random: &mut Random, t: i64) -> Entries {
    let mut entries = Entries::new();
    for (fuel, parts) in exact_mixture(random, t) {
        let first = random.below(parts + 1);
        entries.extend([first, parts - first].map(|parts| (spelled(random, &fuel), parts)));
    }
    entries
}

/// Places are 0 with refusal 8, so that the first refusal of any route is the book's.
fn route(random: &mut Random, mut entries: Entries, t: i64) -> Limits {
    random.shuffle(&mut entries);
    let mut blends = vec![empty_blend(); random.index(4) + 1];
    for (text, parts) in &entries {
        let page = random.index(blends.len());
        let added = add_fuel(blends[page], text, *parts);
        if added.refusal != ANSWERED {
            return limits_of(Err(added.refusal));
        }
        blends[page] = added.blend;
    }
    while blends.len() > 1 {
        let second = blends.swap_remove(random.index(blends.len()));
        let first = random.index(blends.len());
        let joined = join_blends(blends[first], second);
        if joined.refusal != ANSWERED {
            return limits_of(Err(joined.refusal));
        }
        blends[first] = joined.blend;
    }
    if !blends[0].in_bounds() {
        fail(&format!("a route left {:?}", blends[0]));
    }
    blend_limits_at(blends[0], t)
}
