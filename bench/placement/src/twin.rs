//! The window and the scores in plain Rust, step by step as the crate does them.

use std::collections::VecDeque;

#[derive(Clone, Copy)]
pub struct PartSet {
    words: [u64; 4],
}

impl PartSet {
    pub fn of(parts: &[u16]) -> PartSet {
        let mut words = [0; 4];
        for part in parts {
            words[(part / 64) as usize] |= 1 << (part % 64);
        }
        PartSet { words }
    }

    fn holds(&self, part: u16) -> bool {
        (self.words[(part / 64) as usize] >> (part % 64)) & 1 == 1
    }
}

pub type Vector = [u64; 8];

#[derive(Clone, Copy)]
pub struct Weights {
    pub balance: u32,
    pub delay: u32,
    pub together: u32,
}

pub struct Window {
    sets: VecDeque<PartSet>,
}

impl Window {
    pub fn new() -> Window {
        Window {
            sets: VecDeque::with_capacity(256),
        }
    }

    pub fn note(&mut self, set: PartSet) {
        if self.sets.len() == 256 {
            self.sets.pop_front();
        }
        self.sets.push_back(set);
    }

    fn weight(&self, part: u16) -> u32 {
        self.sets.iter().filter(|set| set.holds(part)).count() as u32
    }

    fn together(&self, homes: &[u8], wanted: &PartSet) -> [u32; 8] {
        let parts = homes.len() as u16;
        let mut counts = [0; 8];
        for set in &self.sets {
            if (0..parts).any(|part| set.holds(part) && wanted.holds(part)) {
                for (part, home) in homes.iter().enumerate() {
                    if set.holds(part as u16) && !wanted.holds(part as u16) {
                        counts[*home as usize - 1] += 1;
                    }
                }
            }
        }
        counts
    }
}

struct Loads {
    held: [u32; 8],
    others: [u32; 8],
    wanted: u32,
}

impl Loads {
    fn new(window: &Window, homes: &[u8], wanted: &PartSet) -> Loads {
        let mut loads = Loads {
            held: [0; 8],
            others: [0; 8],
            wanted: 0,
        };
        for (part, home) in homes.iter().enumerate() {
            let at = *home as usize - 1;
            let weight = window.weight(part as u16);
            loads.held[at] += weight;
            if wanted.holds(part as u16) {
                loads.wanted += weight;
            } else {
                loads.others[at] += weight;
            }
        }
        loads
    }

    fn moved_to(&self, at: usize) -> [u32; 8] {
        let mut loads = self.others;
        loads[at] += self.wanted;
        loads
    }
}

fn uneven(loads: &[u32]) -> u32 {
    let sites = loads.len() as u32;
    let total: u32 = loads.iter().sum();
    loads.iter().map(|load| (sites * load).abs_diff(total)).sum()
}

fn need(homes: &[u8], vectors: &[Vector], wanted: &PartSet) -> Vector {
    let mut need = [0; 8];
    for (part, home) in homes.iter().enumerate() {
        if wanted.holds(part as u16) {
            for (most, n) in need.iter_mut().zip(&vectors[*home as usize - 1]) {
                *most = (*most).max(*n);
            }
        }
    }
    need
}

fn lag(need: &Vector, vector: &Vector) -> u128 {
    need.iter().zip(vector).map(|(need, has)| u128::from(need.saturating_sub(*has))).sum()
}

pub fn scores(window: &Window, homes: &[u8], vectors: &[Vector], weights: Weights, wanted: PartSet) -> [i128; 8] {
    let sites = vectors.len();
    let loads = Loads::new(window, homes, &wanted);
    let uneven_now = uneven(&loads.held[..sites]);
    let together = window.together(homes, &wanted);
    let need = need(homes, vectors, &wanted);
    let mut scores = [0; 8];
    for (at, vector) in vectors.iter().enumerate() {
        let gain = i128::from(uneven_now) - i128::from(uneven(&loads.moved_to(at)[..sites]));
        scores[at] = i128::from(weights.balance) * gain - i128::from(weights.delay) * lag(&need, vector) as i128
            + i128::from(weights.together) * i128::from(together[at]);
    }
    scores
}
