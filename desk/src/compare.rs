//! `desk/compare`: generated commands to the crate and the port, answer against answer.
//! Arguments: seed, scale, then the words that start the crate's side, `--`, and those that start the port's.
mod cases;
#[allow(dead_code)]
mod language;
mod lent;
mod pipes;
mod random;

use cases::{Case, Cases};
use pipes::{Both, ENDED};
use std::collections::BTreeMap;
use std::io::Write;
use std::time::Instant;

const BATCH_LINES: usize = 4_000;
const BATCH_BYTES: usize = 1 << 20;

struct Run {
    sides: [Vec<String>; 2],
    both: Both,
    waiting: Vec<Case>,
    lines: usize,
    bytes: usize,
    agreed: BTreeMap<String, u64>,
    total: u64,
    began: Instant,
    shown: Instant,
}

fn kind(line: &str) -> String {
    line.split(' ').next().unwrap_or("").to_string()
}

/// What the port has to answer to a line, and who says so: the crate, or document 02 where it changed the crate's answer.
struct Wanted {
    who: &'static str,
    answer: String,
}

const BY_REQUEST: &str = "document 02";

impl Wanted {
    fn new(krate: String) -> Wanted {
        match krate.strip_prefix("request ") {
            Some(answer) => Wanted { who: BY_REQUEST, answer: answer.into() },
            None => Wanted { who: "crate", answer: krate },
        }
    }
}

/// A line on which the port answers otherwise.
struct Difference {
    at: usize,
    wanted: Wanted,
    port: String,
}

/// What was wanted on each line, where the port answers so; else the first on which it does not.
fn asked(both: &mut Both, lines: &[String]) -> Result<Vec<Wanted>, Difference> {
    let (krate, mut port) = both.ask(lines);
    let mut wanted: Vec<Wanted> = krate.into_iter().map(Wanted::new).collect();
    match wanted.iter().zip(&port).position(|(wanted, port)| wanted.answer != *port || port == ENDED) {
        Some(at) => Err(Difference { at, wanted: wanted.swap_remove(at), port: port.swap_remove(at) }),
        None => Ok(wanted),
    }
}

impl Run {
    fn new(sides: [Vec<String>; 2]) -> std::io::Result<Run> {
        let both = Both::start(&sides[0], &sides[1])?;
        let now = Instant::now();
        Ok(Run { sides, both, waiting: Vec::new(), lines: 0, bytes: 0, agreed: BTreeMap::new(), total: 0, began: now, shown: now })
    }

    fn add(&mut self, case: Case) {
        self.lines += case.len();
        self.bytes += case.iter().map(String::len).sum::<usize>();
        self.waiting.push(case);
        if self.lines >= BATCH_LINES || self.bytes >= BATCH_BYTES {
            self.flush();
        }
    }

    fn flush(&mut self) {
        let cases = std::mem::take(&mut self.waiting);
        (self.lines, self.bytes) = (0, 0);
        let lines: Vec<String> = cases.concat();
        let wanted = match asked(&mut self.both, &lines) {
            Ok(wanted) => wanted,
            Err(found) => self.report(&cases, found),
        };
        for (line, wanted) in lines.iter().zip(&wanted) {
            let word = match wanted.answer.as_str() {
                // The generator emits nothing else outside the domain but where a damaged text is read, which the crate says.
                "outside" | "bad" => "(outside)".into(),
                _ if wanted.who == BY_REQUEST => "(by request)".into(),
                _ => kind(line),
            };
            *self.agreed.entry(word).or_default() += 1;
        }
        self.total += lines.len() as u64;
        self.progress();
    }

    fn progress(&mut self) {
        if self.shown.elapsed().as_secs() >= 2 {
            self.shown = Instant::now();
            eprint!("\rcompare: {} commands agreed, {} s ", self.total, self.began.elapsed().as_secs());
            let _ = std::io::stderr().flush();
        }
    }

    /// Whether a case run alone still shows a difference, and which. One that lies outside the domain shows none.
    fn alone(&self, case: &[String]) -> Option<Difference> {
        let mut both = Both::start(&self.sides[0], &self.sides[1]).ok()?;
        asked(&mut both, case).err().filter(|found| found.wanted.answer != "outside")
    }

    fn report(&mut self, cases: &[Case], found: Difference) -> ! {
        let line = found.at;
        let (mut before, mut around) = (0, &cases[0]);
        for case in cases {
            around = case;
            if line < before + case.len() {
                break;
            }
            before += case.len();
        }
        let case = around[..=line - before].to_vec();
        eprintln!("\ncompare: they differ; looking for a smaller input");
        let smallest = self.smallest(case);
        println!("DIFFERED after {} commands that agreed", self.total);
        let Difference { wanted: Wanted { who, answer }, port, .. } = self.alone(&smallest).unwrap_or(found);
        println!("{}\n  {who}: {answer}\n  port: {port}", smallest.join("\n"));
        std::process::exit(1);
    }

    fn smallest(&self, mut case: Case) -> Case {
        let mut tries = 300;
        let mut better = true;
        while better && tries > 0 {
            better = false;
            for smaller in smaller_cases(&case) {
                tries -= 1;
                if let Some(Difference { at, .. }) = self.alone(&smaller) {
                    case = smaller[..=at].to_vec();
                    better = true;
                    break;
                }
                if tries == 0 {
                    break;
                }
            }
        }
        case
    }

    /// Commands on lent memory: the port against what is expected of it.
    fn lent(&mut self, case: &lent::LentCase) {
        if let Err((at, ..)) = lent_answers(&mut self.both, case) {
            eprintln!("\ncompare: it differs; looking for a smaller input");
            let smallest = self.smallest_lent(case.clone());
            println!("DIFFERED after {} commands that agreed", self.total);
            let mut both = Both::start(&self.sides[0], &self.sides[1]).ok();
            let found = both.as_mut().and_then(|both| lent_answers(both, &smallest).err());
            let (at, expected, port) = found.unwrap_or((at, "(not found again)".into(), String::new()));
            let lines: Vec<&str> = smallest.lines.iter().take(at + 1).map(|(line, _)| line.as_str()).collect();
            println!("{}\n  expected: {expected}\n  port:     {port}", lines.join("\n"));
            std::process::exit(1);
        }
        let looked_at = case.lines.iter().filter(|(_, expect)| !matches!(expect, lent::Expect::Any)).count() as u64;
        *self.agreed.entry(format!("({})", case.kind)).or_default() += looked_at;
        self.total += looked_at;
        self.progress();
    }

    fn smallest_lent(&self, mut case: lent::LentCase) -> lent::LentCase {
        let differs = |case: &lent::LentCase| {
            let both = Both::start(&self.sides[0], &self.sides[1]).ok();
            both.is_some_and(|mut both| lent_answers(&mut both, case).is_err())
        };
        for _ in 0..40 {
            let Some(smaller) = case.smaller(shorter_lines).into_iter().find(|smaller| differs(smaller)) else { break };
            case = smaller;
        }
        case
    }

    fn summary(&self) {
        eprintln!();
        println!("{:>10}  command", "agreed");
        for (word, count) in &self.agreed {
            println!("{count:>10}  {word}");
        }
        println!("{:>10}  in all, 0 differed, {} s", self.total, self.began.elapsed().as_secs());
    }
}

/// Whether the port answers a case as it has to; else where it does not, what was expected, and its answer.
fn lent_answers(both: &mut Both, case: &lent::LentCase) -> Result<(), (usize, String, String)> {
    let lines: Vec<String> = case.lines.iter().map(|(line, _)| line.clone()).collect();
    let (krate, port) = both.ask(&lines);
    let krate: Vec<String> = krate.into_iter().map(|answer| Wanted::new(answer).answer).collect();
    for (at, answer) in port.iter().enumerate() {
        let Some(expected) = lent::expected(case, at, &krate) else { continue };
        // Of `held`, the rooms and the output are looked at by turns.
        let same = match lines[at].as_str() {
            "held" if answer.starts_with(&(expected.clone() + " ")) || answer.rsplit(' ').next() == Some(&expected) => true,
            _ => *answer == expected,
        };
        if !same {
            return Err((at, expected, answer.clone()));
        }
    }
    Ok(())
}

/// Cases with a stretch of commands left out, longest stretches first; then with a word of the last command made shorter.
fn smaller_cases(case: &[String]) -> Vec<Case> {
    let mut found = Vec::new();
    let mut stretch = case.len() / 2;
    while stretch > 0 {
        for start in (0..case.len()).step_by(stretch) {
            let end = (start + stretch).min(case.len());
            found.push([&case[..start], &case[end..]].concat());
        }
        stretch /= 2;
    }
    for (at, line) in case.iter().enumerate().rev().take(4) {
        for shorter in shorter_lines(line) {
            let mut copy = case.to_vec();
            copy[at] = shorter;
            found.push(copy);
        }
    }
    found.retain(|smaller| !smaller.is_empty());
    found
}

fn shorter_lines(line: &str) -> Vec<String> {
    let words: Vec<&str> = line.split(' ').collect();
    let mut found = Vec::new();
    for at in 1..words.len() {
        for shorter in shorter_words(words[at]) {
            let mut copy = words.clone();
            copy[at] = &shorter;
            found.push(copy.join(" "));
        }
    }
    found
}

/// A word of hexadecimal digits or a list, cut by halves, then by one unit or item at either end.
fn shorter_words(word: &str) -> Vec<String> {
    let parts: Vec<&str> = match word.contains(',') {
        true => word.split(',').collect(),
        false if word.len() >= 4 && word.len() % 2 == 0 => word.as_bytes().chunks(2).filter_map(|two| std::str::from_utf8(two).ok()).collect(),
        false => return Vec::new(),
    };
    let glue = if word.contains(',') { "," } else { "" };
    let (half, all) = (parts.len() / 2, parts.len());
    [(0, half), (half, all), (0, all - 1), (1, all), (0, all.saturating_sub(2)), (2.min(all), all)]
        .map(|(start, end)| if start < end { parts[start..end].join(glue) } else { "-".into() })
        .to_vec()
}

fn main() {
    let words: Vec<String> = std::env::args().skip(1).collect();
    if let [option, of] = &words[..] {
        if option == "--short-list" {
            Cases { random: random::Random::new(1), scale: 1 }.short_list(of == "tables", &mut |line| println!("{line}"));
            return;
        }
    }
    let number = |at: usize| words.get(at).and_then(|word| word.parse::<u64>().ok());
    let (Some(seed), Some(scale)) = (number(0), number(1)) else {
        eprintln!("usage: desk/compare [SEED [SCALE]], both numbers; SCALE 100 is the default");
        std::process::exit(2);
    };
    let mut sides = words[2..].split(|word| word == "--").map(<[String]>::to_vec);
    let sides = [sides.next().unwrap_or_default(), sides.next().unwrap_or_default()];
    let mut run = Run::new(sides).unwrap_or_else(|error| {
        eprintln!("desk/compare: a side could not be started: {error}");
        std::process::exit(2);
    });
    let mut cases = Cases { random: random::Random::new(seed), scale: scale as usize };
    cases.all(&mut |case| run.add(case));
    run.flush();
    let times = (20 * scale) as usize;
    lent::cases(&mut cases.random, times, &mut |case| run.lent(&case));
    run.summary();
}
