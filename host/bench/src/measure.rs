//! Several ways to do one thing, timed in turn: ours, theirs, ours, theirs. A ratio is taken within a round, so that what slows the
//! machine for a while slows all; the table shows the median round, and the rounds at a tenth and at nine tenths of them.

use crate::clock;
use std::hint::black_box;

/// Rounds of each measurement, and the fewest where they take long.
const ROUNDS: usize = 31;
const FEWEST: usize = 7;

/// How long all rounds of a measurement may take, in ns, as long as there are not fewer than the fewest.
const MOST: f64 = 600_000_000.0;

/// How long one side of a round takes at least, in ns.
const LEAST: f64 = 1_000_000.0;

/// A way to do something.
pub struct Way<'a> {
    /// Does it so many times, and answers the ns that this took.
    run: Box<dyn FnMut(usize) -> f64 + 'a>,
    /// How many things are done at once, of which one is told.
    things: usize,
}

impl<'a> Way<'a> {
    fn new(run: impl FnMut(usize) -> f64 + 'a) -> Self {
        Way {
            run: Box::new(run),
            things: 1,
        }
    }

    /// The time of one of so many things that are done at once.
    pub fn one_of(self, things: usize) -> Self {
        Way { things, ..self }
    }

    /// Done so many times: the ns of each of them.
    fn timed(&mut self, times: usize) -> f64 {
        (self.run)(times) / times as f64
    }
}

/// What is done again and again, by the time that this thread runs.
pub fn way<'a>(work: impl FnMut() + 'a) -> Way<'a> {
    by(clock::ran, work)
}

/// What is done again and again, by the time on the clock.
pub fn on_the_clock<'a>(work: impl FnMut() + 'a) -> Way<'a> {
    by(clock::passed, work)
}

fn by<'a>(clock: fn() -> f64, mut work: impl FnMut() + 'a) -> Way<'a> {
    Way::new(move |times| {
        let start = clock();
        for _ in 0..times {
            work();
        }
        clock() - start
    })
}

/// What has to be made ready each time: the work answers the ns that count ([`clock::of`]). What reading the clock takes is taken off.
pub fn readied<'a>(mut work: impl FnMut() -> f64 + 'a) -> Way<'a> {
    let reading = median((0..1000).map(|_| clock::of(|| ())));
    Way::new(move |times| (0..times).map(|_| (work() - reading).max(1.0)).sum())
}

/// What takes exactly so many ns.
pub fn exactly(ns: f64) -> Way<'static> {
    Way::new(move |times| ns * times as f64)
}

/// What is measured: the case in words, and how many items the arena holds, where that is asked.
pub struct Case {
    group: &'static str,
    words: String,
    items: usize,
}

impl Case {
    /// A case without an arena.
    pub fn new(group: &'static str, words: impl Into<String>) -> Self {
        let words = words.into();
        Case {
            group,
            words,
            items: 0,
        }
    }

    /// A case on an arena of so many items.
    pub fn on(self, items: usize) -> Self {
        Case { items, ..self }
    }
}

/// A line of the table.
struct Row {
    case: String,
    group: &'static str,
    items: usize,
    against: &'static str,
    ours: f64,
    theirs: f64,
    ratio: [f64; 3],
}

/// The measurements so far.
pub struct Table {
    rows: Vec<Row>,
    /// Groups, each with a part of the case's words, that alone are measured; all where there are none.
    wanted: Vec<(String, String)>,
    /// Nothing is timed: each case is done so many times.
    once: Option<usize>,
}

impl Table {
    /// An empty table, whose head is printed.
    pub fn begin(filters: &[String], once: Option<usize>) -> Self {
        if once.is_none() {
            println!(
                "{:<12} {:<46} {:<16} {:>10} {:>10} {:>8}   10% to 90% of rounds",
                "group", "case", "against", "ours", "theirs", "ratio"
            );
        }
        let wanted = filters.iter().map(|filter| {
            let (group, words) = filter.split_once('/').unwrap_or((filter, ""));
            (group.into(), words.into())
        });
        Table {
            rows: Vec::new(),
            wanted: wanted.collect(),
            once,
        }
    }

    /// Whether it is times that are asked for.
    pub fn times(&self) -> bool {
        self.once.is_none()
    }

    /// Whether cases of this group are asked for.
    pub fn wants(&self, group: &str) -> bool {
        self.wanted.is_empty() || self.wanted.iter().any(|(wanted, _)| wanted == group)
    }

    /// Whether cases of this group on an arena of this length may be asked for: its length stands first in their words.
    pub fn wants_on(&self, group: &str, arena: usize) -> bool {
        let on = |words: &str| !words.contains("iB") || words.starts_with(&bytes(arena));
        self.wanted.is_empty()
            || self
                .wanted
                .iter()
                .any(|(wanted, words)| wanted == group && on(words))
    }

    fn wants_case(&self, case: &Case) -> bool {
        let asked =
            |(group, words): &(String, String)| group == case.group && case.words.contains(words);
        self.wanted.is_empty() || self.wanted.iter().any(asked)
    }

    /// Measures a case against one other way, and prints its line.
    pub fn measure(
        &mut self,
        group: &'static str,
        words: String,
        against: &'static str,
        ours: impl FnMut(),
        theirs: impl FnMut(),
    ) {
        self.measure_all(
            Case::new(group, words),
            way(ours),
            vec![(against, way(theirs))],
        );
    }

    /// Measures a case against other ways, all in the same rounds, and prints a line for each; the median ratios.
    pub fn measure_all(
        &mut self,
        case: Case,
        mut ours: Way<'_>,
        mut others: Vec<(&'static str, Way<'_>)>,
    ) -> Vec<f64> {
        if !self.wants_case(&case) {
            return Vec::new();
        }
        if let Some(times) = self.once {
            ours.timed(times);
            println!("{}: {} ({times} times)", case.group, case.words);
            return Vec::new();
        }
        let times = repetitions(&mut ours);
        let other_times: Vec<usize> = others.iter_mut().map(|(_, way)| repetitions(way)).collect();
        let mut rounds: Vec<(f64, Vec<f64>)> = Vec::new();
        let began = clock::ran();
        while rounds.len() < ROUNDS && (rounds.len() < FEWEST || clock::ran() - began < MOST) {
            let mine = timed(&mut ours, times);
            let each = others.iter_mut().zip(&other_times);
            let each = each.map(|((_, way), &times)| timed(way, times));
            rounds.push((mine, each.collect()));
        }
        let names: Vec<&'static str> = others.iter().map(|(name, _)| *name).collect();
        let compared = names.iter().enumerate();
        compared
            .map(|(place, against)| self.row(&case, against, &rounds, place))
            .collect()
    }

    /// Adds and prints the line against one of the other ways; its median ratio.
    fn row(
        &mut self,
        case: &Case,
        against: &'static str,
        rounds: &[(f64, Vec<f64>)],
        place: usize,
    ) -> f64 {
        let mut ratios: Vec<f64> = rounds
            .iter()
            .map(|(ours, others)| ours / others[place])
            .collect();
        ratios.sort_by(f64::total_cmp);
        let (last, tenth) = (ratios.len() - 1, ratios.len() / 10);
        let ratio = [tenth, ratios.len() / 2, last - tenth].map(|at| ratios[at]);
        let row = Row {
            group: case.group,
            case: case.words.clone(),
            items: case.items,
            against,
            ours: median(rounds.iter().map(|round| round.0)),
            theirs: median(rounds.iter().map(|round| round.1[place])),
            ratio,
        };
        println!(
            "{:<12} {:<46} {:<16} {:>10} {:>10} {:>8}   {} to {}{}",
            row.group,
            row.case,
            row.against,
            shown(row.ours),
            shown(row.theirs),
            three(ratio[1]),
            three(ratio[0]),
            three(ratio[2]),
            an_item(&row),
        );
        self.rows.push(row);
        ratio[1]
    }

    /// The table as comma-separated values, the words of the case last; times in ns.
    pub fn csv(&self) -> String {
        let mut out =
            String::from("group,against,items,ours_ns,theirs_ns,ratio,ratio_10,ratio_90,case\n");
        for row in &self.rows {
            let [low, ratio, high] = row.ratio;
            out += &format!(
                "{},{},{},{:.2},{:.2},{ratio:.4},{low:.4},{high:.4},\"{}\"\n",
                row.group, row.against, row.items, row.ours, row.theirs, row.case
            );
        }
        out
    }
}

/// What one item of the arena costs, where there are some.
fn an_item(row: &Row) -> String {
    match row.items {
        0 => String::new(),
        items => format!("   {:.1} ns an item", row.ours / items as f64),
    }
}

/// How often a thing is done in one round, so that it takes long enough to be timed.
fn repetitions(way: &mut Way<'_>) -> usize {
    let mut times = 1;
    loop {
        let taken = way.timed(times) * times as f64;
        if taken >= LEAST || times >= 1 << 20 {
            return times;
        }
        times *= if taken * 8.0 < LEAST { 8 } else { 2 };
    }
}

/// The time of one repetition in ns, or of one of the things that it does. Where few are timed, one that is not comes before, so that all ways are warm.
fn timed(way: &mut Way<'_>, times: usize) -> f64 {
    if times < 8 {
        way.timed(1);
    }
    way.timed(times) / way.things as f64
}

fn median(times: impl Iterator<Item = f64>) -> f64 {
    let mut times: Vec<f64> = times.collect();
    times.sort_by(f64::total_cmp);
    times[times.len() / 2]
}

fn shown(ns: f64) -> String {
    match ns {
        ns if ns < 1e4 => format!("{ns:.1} ns"),
        ns if ns < 1e7 => format!("{:.1} us", ns / 1e3),
        ns => format!("{:.1} ms", ns / 1e6),
    }
}

/// About three figures of a ratio.
pub fn three(ratio: f64) -> String {
    match ratio {
        ratio if ratio < 0.1 => format!("{ratio:.4}"),
        ratio if ratio < 10.0 => format!("{ratio:.2}"),
        ratio if ratio < 100.0 => format!("{ratio:.1}"),
        ratio => format!("{ratio:.0}"),
    }
}

/// Uses a result, so that the work for it is not left out.
pub fn used<T>(result: T) {
    black_box(result);
}

/// A length in words.
pub fn bytes(length: usize) -> String {
    match length {
        n if n >= 1 << 20 => format!("{} MiB", n >> 20),
        n if n >= 1 << 10 => format!("{} KiB", n >> 10),
        n => format!("{n} B"),
    }
}

/// A number with its thousands apart.
pub fn thousands(number: usize) -> String {
    match number {
        n if n >= 1000 => format!("{},{:03}", n / 1000, n % 1000),
        n => n.to_string(),
    }
}
