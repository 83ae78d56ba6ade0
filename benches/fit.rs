//! The fit in plain Rust, written apart from the proved one: pools adjacent points, with the best whole level of a block
//! in the place of its mean.
pub trait Loss {
    type Point;

    /// The cost one level up less the cost at this level.
    fn step(&self, point: &Self::Point, level: u16) -> i64;
}

#[derive(Clone, Copy)]
pub struct Reading {
    pub level: u16,
    pub weight: u16,
}

#[derive(Clone, Copy)]
pub struct Band {
    pub low: u16,
    pub high: u16,
    pub weight: u16,
}

pub struct Squares;

impl Loss for Squares {
    type Point = Reading;

    fn step(&self, p: &Reading, level: u16) -> i64 {
        let off = i64::from(level) - i64::from(p.level);
        i64::from(p.weight) * (2 * off + 1)
    }
}

pub struct Absolute;

impl Loss for Absolute {
    type Point = Reading;

    fn step(&self, p: &Reading, level: u16) -> i64 {
        let weight = i64::from(p.weight);
        if level >= p.level { weight } else { -weight }
    }
}

pub struct Bands;

impl Loss for Bands {
    type Point = Band;

    fn step(&self, p: &Band, level: u16) -> i64 {
        let weight = i64::from(p.weight);
        if level < p.low {
            -weight
        } else if level >= p.high {
            weight
        } else {
            0
        }
    }
}

pub struct Limited<L>(pub L, pub u32);

impl<L: Loss> Loss for Limited<L> {
    type Point = L::Point;

    fn step(&self, p: &L::Point, level: u16) -> i64 {
        let limit = i64::from(self.1);
        self.0.step(p, level).clamp(-limit, limit)
    }
}

pub struct Entry<P> {
    pub count: u32,
    pub point: P,
}

fn sum_at<L: Loss>(loss: &L, run: &[Entry<L::Point>], level: u16) -> i64 {
    run.iter().map(|e| loss.step(&e.point, level)).sum()
}

/// Points `start..end` at one level, with their sums one below it and at it, or 0 where no probe asked.
struct Block {
    start: usize,
    end: usize,
    level: u16,
    below: i64,
    at: i64,
}

impl Block {
    /// The least level of `low..high` with a sum of 0 or more, else `high`: tries `hint`, its neighbour, then the middle.
    fn best<L: Loss>(
        loss: &L,
        entries: &[Entry<L::Point>],
        start: usize,
        end: usize,
        (mut low, mut high): (u16, u16),
        hint: u16,
    ) -> Block {
        let run = &entries[start..end];
        let (mut below, mut at) = (0, 0);
        let mut tries = 0;
        while low < high {
            let level = if tries < 2 {
                hint.clamp(low, high - 1)
            } else {
                low + (high - low) / 2
            };
            tries += 1;
            let sum = sum_at(loss, run, level);
            if sum < 0 {
                low = level + 1;
                below = sum;
            } else {
                high = level;
                at = sum;
            }
        }
        Block {
            start,
            end,
            level: low,
            below,
            at,
        }
    }

    /// Where the sums of two blocks would cross 0 together, were they straight lines.
    fn hint(older: &Block, newer: &Block) -> u16 {
        let (a, b) = (older.at - older.below, newer.at - newer.below);
        if a + b <= 0 {
            return newer.level;
        }
        let span = i64::from(older.level) - i64::from(newer.level);
        let lack = a * span - older.at - newer.at;
        let rise = (lack + a + b - 1) / (a + b);
        u16::try_from(i64::from(newer.level) + rise).unwrap_or(newer.level)
    }
}

pub fn fit<L: Loss>(loss: &L, entries: &[Entry<L::Point>], top: u16, levels: &mut [u16]) {
    let mut blocks: Vec<Block> = Vec::with_capacity(entries.len());
    for i in 0..entries.len() {
        let mut newest = Block::best(loss, entries, i, i + 1, (0, top), top / 2);
        while let Some(older) = blocks.pop_if(|b| newest.level < b.level) {
            let hint = Block::hint(&older, &newest);
            let between = (newest.level, older.level);
            newest = Block::best(loss, entries, older.start, newest.end, between, hint);
        }
        blocks.push(newest);
    }
    for block in &blocks {
        levels[block.start..block.end].fill(block.level);
    }
}
