//! What the programs that measure have in common: lines, each worked on the product and on a twin, so many times.
//!
//!   times ROUNDS [NAME]    the least processor time of a unit on each side, taken in turn; with NAME the lines alone that begin so
//!   check                  that all sides answer the same
//!   sides, lines           their names, for benches/instructions
//!   one LINE SIDE TIMES    works a line on a side, for a count of its instructions
use crate::clock::now;
use std::hint::black_box;

/// A line that is ready to run so many times: works it on a side, and answers a number that has to be the same on all of them.
pub type Run = Box<dyn Fn(usize) -> u64>;

/// A line of the table.
pub struct Line {
    pub name: String,
    /// The part of the subject that works: an end, or a call.
    pub part: String,
    pub unit: &'static str,
    /// Units of one time.
    pub units: u32,
    /// How many times it is worked where it is timed; what a fifth of them costs is taken off.
    pub times: u32,
    pub ready: Box<dyn Fn(u32) -> Run>,
    /// Checks more than `check` does of all sides' answers, over so many times.
    pub check: Box<dyn Fn(u32)>,
}

/// What is measured: the product is the first of the sides.
pub struct Subject {
    pub sides: &'static [&'static str],
    pub lines: Vec<Line>,
}

/// What is between the entry and the exit of this function is counted, by its name; what makes a line ready is done before.
#[unsafe(no_mangle)]
#[inline(never)]
extern "Rust" fn counted(run: &Run, side: usize) -> u64 { black_box(run(side)) }

impl Subject {
    fn check(&self, line: &Line, times: u32) {
        let run = (line.ready)(times);
        for side in 1..self.sides.len() { assert_eq!(run(side), run(0), "{} of {}", self.sides[side], line.name); }
        (line.check)(times);
    }

    /// The least time of a unit on each side, over so many rounds.
    fn least(&self, line: &Line, rounds: u32) -> Vec<f64> {
        let few = (line.times / 5).max(1);
        let runs = [(line.ready)(line.times), (line.ready)(few)];
        let mut least = vec![[f64::MAX; 2]; self.sides.len()];
        for _ in 0..rounds {
            for (side, least) in least.iter_mut().enumerate() {
                for (run, least) in runs.iter().zip(least) {
                    let begin = now();
                    black_box(run(black_box(side)));
                    *least = least.min(now() - begin);
                }
            }
        }
        let units = (line.times - few) as f64 * line.units as f64;
        least.into_iter().map(|[many, few]| (many - few) / units).collect()
    }

    fn times(&self, rounds: u32, only: &str) {
        let twins = &self.sides[1..];
        let columns = self.sides.iter().map(|side| format!("{side} ns")).chain(twins.iter().map(|twin| format!("product / {twin}")));
        println!("| what | part | unit | {} |", columns.collect::<Vec<_>>().join(" | "));
        println!("|{}", "---|".repeat(3 + self.sides.len() + twins.len()));
        for line in self.lines.iter().filter(|line| line.name.starts_with(only)) {
            self.check(line, 3);
            let least = self.least(line, rounds);
            let digits = if least[0] < 100.0 { 2 } else { 0 };
            let shown = least.iter().map(|each| format!("{each:.digits$}")).chain(least[1..].iter().map(|each| format!("{:.2}", least[0] / each)));
            println!("| {} | {} | {} | {} |", line.name, line.part, line.unit, shown.collect::<Vec<_>>().join(" | "));
        }
    }

    fn one(&self, line: usize, side: &str, times: u32) {
        let side = self.sides.iter().position(|one| *one == side).expect("a side");
        println!("{}", counted(&(self.lines[line].ready)(times), side));
    }

    /// Does what the program's words say.
    pub fn main(&self) {
        let words: Vec<String> = std::env::args().skip(1).collect();
        let words: Vec<&str> = words.iter().map(String::as_str).collect();
        let number = |word: &str| word.parse().expect("a number");
        match words[..] {
            ["times", rounds] => self.times(number(rounds), ""),
            ["times", rounds, only] => self.times(number(rounds), only),
            ["check"] => self.lines.iter().for_each(|line| self.check(line, line.times)),
            ["sides"] => println!("{}", self.sides.join("\n")),
            ["lines"] => for line in &self.lines { println!("{}\t{}\t{}\t{}", line.name, line.part, line.unit, line.units); },
            ["one", line, side, times] => self.one(number(line) as usize, side, number(times)),
            _ => panic!("times ROUNDS [NAME] | check | sides | lines | one LINE SIDE TIMES"),
        }
    }
}
