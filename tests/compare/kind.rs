//! What a kind of comparison has to bring, and what a run of it has seen.

use crate::rng::Rng;
use crate::sizes;
use crate::words::thousands;
use paper::Paper;
use std::ops::Range;

/// One kind of comparison. A case is one call; its whole answer is compared.
pub trait Kind {
    const NAME: &'static str;
    /// What is counted besides comparisons: calls, events, datagrams.
    const UNIT: &'static str;
    type Case: Clone + Send;
    type Answer: PartialEq;
    /// What the next `SHARED` cases are made on. A model costs more to make
    /// than to try, so several events are tried on each.
    type Ground;
    const SHARED: u64;

    fn tables() -> Vec<Table>;
    /// Ground number `number`, that of the cases `number * SHARED` and on.
    fn ground(rng: &mut Rng, number: u64) -> Self::Ground;
    /// Case number `index`: what must be gone through completely is taken
    /// from the index, the rest from chance.
    fn make(rng: &mut Rng, ground: &Self::Ground, index: u64) -> Self::Case;
    /// What the proved library answers.
    fn library(case: &Self::Case) -> Self::Answer;
    /// What the independent program answers. It also notes what was reached.
    fn paper(paper: &Paper, case: &Self::Case, seen: &mut Seen) -> Self::Answer;
    /// Smaller cases, the boldest first.
    fn smaller(case: &Self::Case) -> Box<dyn Iterator<Item = Self::Case> + '_>;
    fn words(case: &Self::Case) -> Vec<String>;
    fn answer_words(answer: &Self::Answer) -> Vec<String>;
    fn to_octets(case: &Self::Case) -> Vec<u8>;
    fn from_octets(octets: &[u8]) -> Option<Self::Case>;
}

/// How often each of some values was reached, and which ones must be.
#[derive(Clone)]
pub struct Table {
    pub name: &'static str,
    pub label: fn(usize) -> String,
    pub must: Vec<usize>,
    pub counts: Vec<u64>,
}

impl Table {
    pub fn new(name: &'static str, size: usize, must: Vec<usize>, label: fn(usize) -> String) -> Table {
        Table {
            name,
            label,
            must,
            counts: vec![0; size],
        }
    }

    fn missing(&self) -> Vec<String> {
        let never = self.must.iter().filter(|v| self.counts[**v] == 0);
        never
            .map(|v| format!("{}: {} was never reached", self.name, (self.label)(*v)))
            .collect()
    }

    fn print(&self) {
        let reached = self.must.iter().filter(|v| self.counts[**v] > 0).count();
        if self.must.len() > 24 {
            let fewest = self.must.iter().map(|v| self.counts[*v]).min().unwrap_or(0);
            println!(
                "  {}: {} of {}, the rarest {} times",
                self.name,
                reached,
                self.must.len(),
                thousands(fewest)
            );
            return;
        }
        let mut each: Vec<String> = self.must.iter().map(|v| self.one(*v)).collect();
        // what need not be reached is shown too, if it is not too much
        let others: Vec<usize> = (0..self.counts.len())
            .filter(|v| self.counts[*v] > 0 && !self.must.contains(v))
            .collect();
        if others.len() <= 8 {
            each.extend(others.iter().map(|v| self.one(*v)));
        } else {
            let all = others.iter().map(|v| self.counts[*v]).sum();
            each.push(format!("{} others {}", others.len(), thousands(all)));
        }
        println!("  {}: {}", self.name, each.join(" | "));
    }

    fn one(&self, value: usize) -> String {
        format!("{} {}", (self.label)(value), thousands(self.counts[value]))
    }
}

/// What a run has seen so far.
#[derive(Clone)]
pub struct Seen {
    pub tables: Vec<Table>,
    pub units: u64,
}

impl Seen {
    pub fn new(tables: Vec<Table>) -> Seen {
        Seen { tables, units: 0 }
    }

    /// Values beyond the table are not counted: a table says what it holds.
    pub fn mark(&mut self, table: usize, value: usize) {
        if let Some(count) = self.tables[table].counts.get_mut(value) {
            *count += 1;
        }
    }

    pub fn add(&mut self, other: &Seen) {
        self.units += other.units;
        for (mine, theirs) in self.tables.iter_mut().zip(&other.tables) {
            for (a, b) in mine.counts.iter_mut().zip(&theirs.counts) {
                *a += b;
            }
        }
    }

    pub fn missing(&self) -> Vec<String> {
        self.tables.iter().flat_map(|t| t.missing()).collect()
    }

    pub fn print(&self) {
        for table in &self.tables {
            table.print();
        }
    }

    /// For a line of progress: values reached of those that must be.
    pub fn reached(&self) -> (usize, usize) {
        let must: usize = self.tables.iter().map(|t| t.must.len()).sum();
        (must - self.missing().len(), must)
    }
}

pub fn number(n: usize) -> String {
    n.to_string()
}

/// All values of a table must be reached.
pub fn every(n: usize) -> Vec<usize> {
    (0..n).collect()
}

// ---- tables that several kinds have

pub const SENT: [&str; 6] = ["none", "SYN", "SYN,ACK", "ACK", "RST", "RST,ACK"];

/// Which of the six, by the control bits of what was sent.
pub fn sent_number(sent: Option<u8>) -> usize {
    match sent {
        None => 0,
        Some(0x02) => 1,
        Some(0x12) => 2,
        Some(0x10) => 3,
        Some(0x04) => 4,
        Some(0x14) => 5,
        Some(_) => SENT.len(),
    }
}

pub fn sent_table(must: &[usize]) -> Table {
    Table::new("sent", SENT.len(), must.to_vec(), |v| SENT[v].to_string())
}

/// A step from one state to another, as one number.
pub fn pair(from: u8, to: u8) -> usize {
    from as usize * 5 + to as usize
}

fn pair_label(v: usize) -> String {
    const SHORT: [&str; 5] = ["CL", "LI", "SS", "SR", "ES"];
    format!("{}→{}", SHORT[v / 5], SHORT[v % 5])
}

/// Every step that 01 has: the calls, the power cut and the arrivals.
pub const ALL_PAIRS: [(u8, u8); 17] = [
    (0, 0),
    (0, 1),
    (0, 2),
    (1, 0),
    (1, 1),
    (1, 2),
    (1, 3),
    (2, 0),
    (2, 2),
    (2, 3),
    (2, 4),
    (3, 0),
    (3, 1),
    (3, 3),
    (3, 4),
    (4, 0),
    (4, 4),
];

pub fn pair_table(must: &[(u8, u8)]) -> Table {
    let must = must.iter().map(|(from, to)| pair(*from, *to)).collect();
    Table::new("steps (from→to)", 25, must, pair_label)
}

pub fn refusal_label(v: usize) -> String {
    match v {
        0 => "taken".to_string(),
        n => format!("no. {n}"),
    }
}

pub fn refusal_table(name: &'static str, must: &[usize]) -> Table {
    Table::new(name, 256, must.to_vec(), refusal_label)
}

pub fn control_label(v: usize) -> String {
    format!("{v:02x}")
}

/// Sizes of octets read or of room to write to: all of `sizes`.
pub fn size_table(name: &'static str) -> Table {
    Table::new(name, sizes::NUMBERS, every(sizes::NUMBERS), |v| {
        thousands(sizes::of_number(v) as u64)
    })
}

/// Places in a `bit_table` for each of its numbers.
const BITS: usize = 64;

/// Bits of some numbers; of each number these bits must be reached.
pub fn bit_table(name: &'static str, bits: &[Range<usize>], label: fn(usize) -> String) -> Table {
    let of =
        |(i, bits): (usize, &Range<usize>)| bits.clone().map(move |bit| i * BITS + bit).collect::<Vec<_>>();
    let must = bits.iter().enumerate().flat_map(of).collect();
    Table::new(name, bits.len() * BITS, must, label)
}

/// "what, bit 7": for the labels of a `bit_table`.
pub fn bit_label(names: &[&str], v: usize) -> String {
    format!("{}, bit {}", names[v / BITS], v % BITS)
}

/// Every bit that is on in the number `which` of a `bit_table`.
pub fn mark_bits(seen: &mut Seen, table: usize, which: usize, bits: u64) {
    (0..BITS)
        .filter(|bit| bits >> bit & 1 == 1)
        .for_each(|bit| seen.mark(table, which * BITS + bit));
}

/// Of some numbers one alone has one bit on: the differences of what must
/// be the same, say.
pub fn mark_one_bit(seen: &mut Seen, table: usize, numbers: &[u32]) {
    if numbers.iter().map(|n| n.count_ones()).sum::<u32>() == 1 {
        for (which, n) in numbers.iter().enumerate() {
            mark_bits(seen, table, which, *n as u64);
        }
    }
}
