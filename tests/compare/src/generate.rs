//! Random sheets of each kind, edge sheets, and sheets from a seed.

use peer::row::{Row, Status, EPOCH_MAX, LOG_MAX};
use peer::RECORDS_MAX;
use std::iter;

/// A small generator of numbers (SplitMix64).
pub struct Rng(u64);

impl Rng {
    pub fn new(seed: u64) -> Rng {
        Rng(seed)
    }

    pub fn draw(&mut self) -> u64 {
        self.0 = self.0.wrapping_add(0x9e37_79b9_7f4a_7c15);
        let mut z = self.0;
        z = (z ^ (z >> 30)).wrapping_mul(0xbf58_476d_1ce4_e5b9);
        z = (z ^ (z >> 27)).wrapping_mul(0x94d0_49bb_1331_11eb);
        z ^ (z >> 31)
    }

    /// A number below n.
    pub fn below(&mut self, n: usize) -> usize {
        (((self.draw() >> 32) * n as u64) >> 32) as usize
    }

    pub fn one_in(&mut self, n: usize) -> bool {
        self.below(n) == 0
    }

    pub fn one_of<T: Copy>(&mut self, these: &[T]) -> T {
        these[self.below(these.len())]
    }
}

#[derive(Clone, Copy, Debug)]
pub enum Kind {
    /// Any steps on any boards, all well formed.
    Uniform,
    /// A guided sheet with malformed records between.
    Malformed,
    /// Mostly accepted steps: changes of leader, replaced leaders that go on
    /// writing, joins that cut, boards added again.
    Guided,
    /// Guided, with few values and more changes of leader: two leaders append the
    /// same value at the same place, and a join must tell the two entries apart.
    Sales,
    /// Guided, with logs near 512.
    Logs,
    /// Guided, with epochs near 4,000.
    Epochs,
    /// A sheet of a wrong length or without a valid opening: to be refused with 2, but for
    /// the listing of the empty one (document 02, Paper 9).
    Broken,
    /// The sheet of a seed (document 02, Paper 2): as it is drawn, all well formed.
    Seeded { seed: u32, count: usize },
    /// A sheet at the limits of the paper.
    Edge,
}

pub fn record(step: u8, a: u8, b: u8, value: u32) -> [u8; 8] {
    let [v0, v1, v2, v3] = value.to_le_bytes();
    [step, a, b, 0, v0, v1, v2, v3]
}

/// A random sheet and its kind.
pub fn random(mut rng: Rng) -> (Kind, Vec<u8>) {
    let some = |rng: &mut Rng| 1 + rng.below(800);
    let some_or_most = |rng: &mut Rng| match rng.one_in(10) {
        true => RECORDS_MAX,
        false => some(rng),
    };
    match rng.below(100) {
        0..=19 => {
            let records = some(&mut rng);
            (Kind::Uniform, uniform(&mut rng, records))
        }
        20..=39 => {
            let records = some(&mut rng);
            let guide = Guide::new(rng, records).maybe_few_values();
            (Kind::Malformed, guide.maybe_crowd().finish(Some(6)))
        }
        40..=59 => {
            let records = some_or_most(&mut rng);
            let guide = Guide::new(rng, records);
            (Kind::Guided, guide.maybe_crowd().finish(None))
        }
        60..=74 => {
            let records = some_or_most(&mut rng);
            let guide = Guide::new(rng, records).few_values().more_changes();
            (Kind::Sales, guide.maybe_crowd().finish(None))
        }
        75..=82 => {
            let records = 1000 + rng.below(RECORDS_MAX - 999);
            let guide = Guide::new(rng, records).maybe_few_values();
            (Kind::Logs, guide.fill_log().finish(None))
        }
        83..=94 => {
            let records = RECORDS_MAX - rng.below(20);
            let guide = Guide::new(rng, records).maybe_few_values();
            (Kind::Epochs, guide.use_epochs().finish(None))
        }
        _ => random_broken(rng),
    }
}

/// A random sheet that is broken, and its kind.
pub fn random_broken(mut rng: Rng) -> (Kind, Vec<u8>) {
    let records = 1 + rng.below(800);
    (Kind::Broken, broken(&mut rng, records))
}

/// The sheet of a random seed, mostly a short one, and its kind.
pub fn random_seeded(mut rng: Rng) -> (Kind, Vec<u8>) {
    let seed = rng.draw() as u32;
    let count = match rng.below(100) {
        0 => RECORDS_MAX,
        1..=5 => 1 + rng.below(RECORDS_MAX),
        _ => 1 + rng.below(40),
    };
    seeded(seed, count)
}

/// The sheet of a seed as the second program makes it, and its kind.
pub fn seeded(seed: u32, count: usize) -> (Kind, Vec<u8>) {
    let mut sheet = vec![0; 8 * count];
    peer::seed::make(seed, count, &mut sheet);
    (Kind::Seeded { seed, count }, sheet)
}

/// A guided sheet of so many records.
pub fn guided(rng: Rng, records: usize) -> Vec<u8> {
    Guide::new(rng, records).finish(None)
}

/// Sheets at the limits of the paper.
pub fn edges() -> Vec<Vec<u8>> {
    let opening = record(0, 1, 0, 0);
    let mut sheets = Vec::new();
    // An opening with any step and any board, and with unused bytes that are not 0.
    let used = (0..=255).flat_map(|byte| [(0, byte), (1, byte)]);
    let unused = (2..8).flat_map(|place| [(place, 1), (place, 128), (place, 255)]);
    for (place, byte) in used.chain(unused) {
        let mut sheet = opening.to_vec();
        sheet[place] = byte;
        sheets.push(sheet);
    }
    // Board 2 becomes leader, as in trials P7 to P9.
    let change = [
        (3, 2),
        (6, 1),
        (10, 0),
        (11, 0),
        (12, 2),
        (13, 0),
        (5, 0),
        (6, 2),
    ];
    let change = change.map(|(step, b)| record(step, b, 0, 0));
    // The longest text in words (document 02, Paper 5): a board that is no member is to
    // receive, again and again. It stands first among the longest sheets, so that
    // tests/mutants/try takes it.
    let receives = iter::repeat(record(8, 2, 0, 0));
    let records = iter::once(opening).chain(receives);
    sheets.push(records.take(RECORDS_MAX).flatten().collect());
    // Lengths about 0, 1 record, 4,095 records, and far too long.
    let longest = RECORDS_MAX * 8;
    for length in (0..=17).chain(longest - 9..=longest + 9).chain([100_000]) {
        let records = opening
            .into_iter()
            .chain(record(3, 2, 0, 0).into_iter().cycle());
        sheets.push(records.take(length).collect());
    }
    // Every step with each field in turn at and beyond its limits.
    let mut fields = Vec::new();
    for step in 0..=255 {
        for place in 1..8 {
            for byte in [0, 1, 2, 8, 9, 128, 255] {
                let mut r = well_formed(&mut Rng::new(step.into()), step, 8, &[]);
                r[place] = byte;
                fields.push(r);
            }
        }
    }
    for part in fields.chunks(RECORDS_MAX - 1) {
        sheets.push([&[opening], part].concat().concat());
    }
    // One append and one receipt too many; eight members.
    let full = |step, b, value| iter::repeat_n(record(step, b, 0, value), LOG_MAX + 1);
    let members = (2..=8).map(|b| record(3, b, 0, 0));
    let steps = full(1, 1, u32::MAX).chain(full(2, 1, 0)).chain(members);
    sheets.push(iter::once(opening).chain(steps).flatten().collect());
    // Adding and removing in turn until no epoch is left.
    let turns = [record(3, 2, 0, 0), record(4, 2, 0, 0)];
    let turns = |number| turns.into_iter().cycle().take(number);
    let late = [record(3, 3, 0, 0)];
    let steps = turns(EPOCH_MAX.into()).chain(late);
    sheets.push(iter::once(opening).chain(steps).flatten().collect());
    // The longest receipts: board 2 becomes leader under leader epoch 1,002, and appends
    // values of ten digits.
    let steps = turns(998).chain(change);
    let steps = steps.chain(full(1, 2, u32::MAX)).chain(full(2, 2, 0));
    sheets.push(iter::once(opening).chain(steps).flatten().collect());
    sheets.push(longest_lines().concat());
    sheets
}

/// The longest lines of records: their numbers have four digits, and all members stand
/// behind set normal, a receipt and an install (document 02, Paper 6).
fn longest_lines() -> Vec<[u8; 8]> {
    let steps = [
        (3, 2..=8),
        (6, 1..=8),
        (10, 0..=0),
        (11, 0..=0),
        (12, 2..=8),
        (13, 0..=0),
        (1, 1..=1),
        (8, 2..=8),
        (9, 2..=8),
        (2, 1..=1),
        (5, 0..=0),
        (10, 0..=0),
        (6, 2..=8),
        (14, 2..=8),
        (15, 8..=8),
    ];
    let mut sheet = vec![record(0, 1, 0, 0)];
    // Refused: there is no news.
    sheet.resize(1000, record(10, 0, 0, 0));
    for (step, boards) in steps {
        sheet.extend(boards.map(|b| match step {
            9 => record(9, 1, b, 0),
            _ => record(step, b, 0, 0),
        }));
    }
    sheet
}

/// A well-formed record of this step on boards 1 to `most`, with a value as below.
fn well_formed(rng: &mut Rng, step: u8, most: usize, few: &[u32]) -> [u8; 8] {
    let b = rng.below(most) as u8 + 1;
    match step {
        1 => record(1, b, 0, value(rng, few)),
        5 | 10 | 11 | 13 => record(step, 0, 0, 0),
        9 => {
            // any board but b
            let c = rng.below(most - 1) as u8 + 1;
            record(9, b, c + u8::from(c >= b), 0)
        }
        _ => record(step, b, 0, 0),
    }
}

/// A value, one of these few if there are some: often one that other logs have too, so
/// that entries differ in their epochs alone.
fn value(rng: &mut Rng, few: &[u32]) -> u32 {
    if !few.is_empty() {
        return rng.one_of(few);
    }
    let any = rng.draw() as u32;
    rng.one_of(&[0, u32::MAX, 41, 42, any, any, any, any])
}

fn any_step(rng: &mut Rng) -> u8 {
    1 + rng.below(15) as u8
}

fn uniform(rng: &mut Rng, records: usize) -> Vec<u8> {
    // With fewer boards more steps meet.
    let most = rng.one_of(&[2, 3, 4, 8]);
    let mut sheet = well_formed(rng, 0, most, &[]).to_vec();
    for _ in 1..records {
        let step = any_step(rng);
        sheet.extend(well_formed(rng, step, most, &[]));
    }
    sheet
}

/// A sheet of wrong length or without a valid opening.
fn broken(rng: &mut Rng, records: usize) -> Vec<u8> {
    let mut sheet = uniform(rng, records);
    let some = 1 + rng.below(255) as u8;
    match rng.below(8) {
        0 => sheet.clear(),
        1 => sheet.truncate(1 + rng.below(7)),
        2 => sheet.truncate(sheet.len() - 1 - rng.below(7)),
        3 => sheet.resize(sheet.len() + 1 + rng.below(7), some),
        4 => sheet.resize(8 * (RECORDS_MAX + 1 + rng.below(100)), some),
        5 => sheet[1] = rng.one_of(&[0, 9, some | 8 | 1]),
        6 => sheet[0] = some,
        _ => sheet[2 + rng.below(6)] = some,
    }
    sheet
}

/// A well-formed record spoiled: mostly one that is answered 1, now and then one
/// that is still well formed.
fn spoiled(rng: &mut Rng) -> [u8; 8] {
    let step = any_step(rng);
    let mut r = well_formed(rng, step, 8, &[]);
    let any = rng.draw() as u8;
    match rng.below(7) {
        0 => r[0] = 0,
        1 => r[0] = 16 + any % 240,
        2 => r[1] = rng.one_of(&[0, 9, any]),
        3 => r[2] = rng.one_of(&[0, 9, any, r[1]]),
        4 => r[3 + rng.below(5)] = any,
        5 => r[rng.below(8)] ^= 1 << (any % 8),
        _ => r = rng.draw().to_le_bytes(),
    }
    r
}

/// Plays the row along and takes mostly records that are accepted.
struct Guide {
    rng: Rng,
    row: Row,
    sheet: Vec<u8>,
    records: usize,
    /// Boards 1 to `most` are used.
    most: usize,
    /// The values that are appended; any, where there are none.
    few: Vec<u32>,
    /// How often each step is tried.
    weights: [usize; 16],
    /// Does the controller often hear more members than it needs?
    hears_more: bool,
}

impl Guide {
    fn new(mut rng: Rng, records: usize) -> Guide {
        let most = rng.one_of(&[2, 3, 3, 4, 4, 5, 6, 8]);
        let opening = well_formed(&mut rng, 0, most, &[]);
        // Some steps are rarer or commoner in this sheet.
        let mut weights = [0, 12, 12, 6, 3, 6, 24, 24, 40, 30, 16, 16, 20, 16, 20, 16];
        for weight in &mut weights {
            *weight = *weight * rng.one_of(&[1, 2, 2, 4]) / 2;
        }
        Guide {
            rng,
            row: Row::open(opening[1]).expect("a board of 1 to 8 opens"),
            sheet: opening.to_vec(),
            records,
            most,
            few: Vec::new(),
            weights,
            hears_more: false,
        }
    }

    fn full(&self) -> bool {
        self.sheet.len() >= self.records * 8
    }

    /// Takes a record if it is accepted; a refused one leaves the row as it was.
    fn take(&mut self, r: [u8; 8]) -> bool {
        let accepted = !self.full() && self.row.step(&r).answer == 0;
        if accepted {
            self.sheet.extend(r);
        }
        accepted
    }

    /// Takes a record whatever its answer, if there is room. Says whether it is accepted.
    fn keep(&mut self, r: [u8; 8]) -> bool {
        if self.full() {
            return false;
        }
        self.sheet.extend(r);
        self.row.step(&r).answer == 0
    }

    fn well_formed(&mut self, step: u8) -> [u8; 8] {
        well_formed(&mut self.rng, step, self.most, &self.few)
    }

    fn append(&mut self, b: u8) -> [u8; 8] {
        record(1, b, 0, value(&mut self.rng, &self.few))
    }

    /// A board that holds itself leader, the registry's or a replaced one.
    fn some_leader(&mut self) -> u8 {
        let named = self.row.registry.leader;
        if named != 0 && self.rng.one_in(2) {
            return named;
        }
        let from = self.rng.below(8) as u8;
        let mut turn = (0..8).map(|i| (from + i) % 8 + 1);
        turn.find(|&b| self.row.board(b).view.leader == b)
            .unwrap_or(from + 1)
    }

    /// A step drawn by weight.
    fn step(&mut self) -> u8 {
        // While a change waits, further ones are rare, so that it gets through.
        // With three members or more a change of leader leaves a choice.
        let busy = self.row.status != Status::Normal;
        let members = self.row.registry.size();
        let mut weights = self.weights;
        if busy {
            weights[3] = weights[3].div_ceil(8);
            weights[4] = weights[4].div_ceil(8);
        } else if members < 3 {
            weights[3] *= 4;
        }
        if members < 3 {
            weights[5] = weights[5].div_ceil(4);
        } else {
            weights[5] *= 4;
        }
        let mut left = self.rng.below(weights.iter().sum());
        let mut step = 0;
        while left >= weights[step] {
            left -= weights[step];
            step += 1;
        }
        step as u8
    }

    fn propose(&mut self) -> [u8; 8] {
        let step = self.step();
        let mut r = self.well_formed(step);
        let b = r[1];
        match step {
            1 | 2 if !self.rng.one_in(8) => r[1] = self.some_leader(),
            9 if !self.rng.one_in(8) => {
                let a = self.some_leader();
                if r[2] != a {
                    r[1] = a;
                }
            }
            // A replaced leader hears of it late, and writes meanwhile.
            6 if self.row.board(b).view.leader == b
                && self.row.registry.leader != b
                && !self.rng.one_in(8) =>
            {
                r = self.append(b);
            }
            // The controller does not always decide as soon as it can.
            13 | 15 if self.hears_more && self.rng.one_in(2) => {
                if let Some(m) = self.unheard() {
                    r = record(step - 1, m, 0, 0);
                }
            }
            _ => {}
        }
        r
    }

    /// A member that the controller has not heard.
    fn unheard(&mut self) -> Option<u8> {
        let control = &self.row.control;
        let from = self.rng.below(8) as u8;
        let mut turn = (0..8).map(|i| (from + i) % 8 + 1);
        turn.find(|&b| control.view.has(b) && control.heard[usize::from(b) - 1].length.is_none())
    }

    /// Fills the sheet: one record in eight is kept whatever its answer, the
    /// others are accepted where such a one is found. One in `spoil` is malformed.
    fn finish(mut self, spoil: Option<usize>) -> Vec<u8> {
        while !self.full() {
            if spoil.is_some_and(|n| self.rng.one_in(n)) {
                let r = spoiled(&mut self.rng);
                self.keep(r);
                continue;
            }
            let r = match self.rng.below(16) {
                0 => {
                    let step = any_step(&mut self.rng);
                    self.well_formed(step)
                }
                1 => self.propose(),
                _ => {
                    let found = (0..100).any(|_| {
                        let r = self.propose();
                        self.take(r)
                    });
                    if found {
                        continue;
                    }
                    self.propose()
                }
            };
            self.keep(r);
        }
        self.sheet
    }

    /// One to three values, so that two leaders often append the same one.
    fn few_values(mut self) -> Guide {
        let number = 1 + self.rng.below(3);
        let values = iter::repeat_with(|| value(&mut self.rng, &[]));
        self.few = values.take(number).collect();
        self
    }

    /// Few values in every other sheet.
    fn maybe_few_values(mut self) -> Guide {
        match self.rng.one_in(2) {
            true => self.few_values(),
            false => self,
        }
    }

    /// With fewer appends the boards soon have all, normal is set, and the leader can
    /// be changed again.
    fn more_changes(mut self) -> Guide {
        self.weights[1] = self.weights[1].div_ceil(4);
        self.weights[5] *= 4;
        self
    }

    /// In some sheets five to eight boards go through changes of leader first: more than a
    /// majority stands behind receipts, set normal and installs.
    fn maybe_crowd(mut self) -> Guide {
        if !self.rng.one_in(4) {
            return self;
        }
        self.most = 5 + self.rng.below(4);
        self.hears_more = true;
        for _ in 0..1 + self.rng.below(4) {
            // Half of the boards miss a step, or some, or hardly one.
            let miss = self.rng.one_of(&[2, 4, 8, 1000]);
            self.add_all();
            self.settle(miss);
            self.sell(miss);
            self.choose(miss);
        }
        self
    }

    /// Boards follow their leader, and the controller sets normal.
    fn settle(&mut self, miss: usize) {
        let leader = self.row.registry.leader;
        self.take(record(6, leader, 0, 0));
        self.each(miss, &[6, 7, 8, 8]);
        self.take(record(10, 0, 0, 0));
        self.take(record(11, 0, 0, 0));
        self.each(miss, &[12]);
        self.keep(record(13, 0, 0, 0));
    }

    /// The leader appends, counts its members and gives receipts.
    fn sell(&mut self, miss: usize) {
        let leader = self.row.registry.leader;
        for _ in 0..2 {
            let r = self.append(leader);
            self.take(r);
            self.each(miss, &[6, 8]);
            for b in self.members() {
                self.take(record(9, leader, b, 0));
            }
        }
        self.take(record(2, leader, 0, 0));
        self.take(record(2, leader, 0, 0));
    }

    /// The leader is changed, and the controller chooses among those that it hears.
    fn choose(&mut self, miss: usize) {
        self.take(record(5, 0, 0, 0));
        self.take(record(10, 0, 0, 0));
        self.each(miss, &[6]);
        self.each(miss, &[14]);
        let members = self.members();
        members.into_iter().any(|b| self.keep(record(15, b, 0, 0)));
    }

    /// Takes these steps of every member, in any order; one in `miss` misses them.
    fn each(&mut self, miss: usize, steps: &[u8]) {
        for b in self.members() {
            if !self.rng.one_in(miss) {
                for &step in steps {
                    self.take(record(step, b, 0, 0));
                }
            }
        }
    }

    /// The registry's members, in any order.
    fn members(&mut self) -> Vec<u8> {
        let mut boards: Vec<u8> = (1..=8).filter(|&b| self.row.registry.has(b)).collect();
        for n in (1..boards.len()).rev() {
            boards.swap(n, self.rng.below(n + 1));
        }
        boards
    }

    /// As many members as there may be.
    fn add_all(&mut self) {
        for b in 1..=self.most as u8 {
            self.take(record(3, b, 0, 0));
        }
    }

    /// Some boards are added, then the leader's log nears 512.
    fn fill_log(mut self) -> Guide {
        for _ in 0..self.rng.below(120) {
            let r = self.propose();
            self.take(r);
        }
        let b = self.row.registry.leader;
        let near = LOG_MAX - self.rng.below(16);
        while b != 0 && self.row.board(b).log.len() < near {
            let r = self.append(b);
            if !self.take(r) {
                break;
            }
        }
        // The others have far to go.
        self.weights[8] *= 12;
        self.weights[2] *= 4;
        self
    }

    /// Adds and removes until few epochs are left.
    fn use_epochs(mut self) -> Guide {
        let near = EPOCH_MAX - 1 - self.rng.below(20) as u16;
        while self.row.registry.epoch < near && !self.full() {
            let step = 3 + self.rng.below(2) as u8;
            let r = self.well_formed(step);
            self.take(r);
        }
        // Then as many members as there may be, and mostly what brings a change
        // of leader.
        self.add_all();
        self.weights[1..=4].fill(1);
        self
    }
}
