//! Along document 02, Paper 10, once more: what stands in the list of a row and what is left
//! out of it, or why there is none. It says what the comparison met.

use peer::plan::PLAN_MAX;
use peer::row::{has, majority_size, Row, Stage, Status};

/// What the lists should meet.
#[derive(Clone, Copy)]
pub enum Met {
    News,
    Join,
    Receive,
    ControllerNews,
    ReadLeader,
    Read,
    SetNormal,
    Hear,
    Install,
    NewsOut,
    JoinOut,
    ControllerNewsOut,
    ReadLeaderOut,
    ReadOut,
    HearOut,
    NewsAgain,
    Tie,
    NotLowest,
    RankedAbove,
    LongerHeard,
    MoreThanHeard,
    Longer,
    HeardBefore,
    Most,
}

pub const MET: [&str; 24] = [
    "news of a board",
    "a join",
    "a receive",
    "controller news",
    "the leader's reading",
    "a reading",
    "set normal",
    "a hearing",
    "an install",
    "news left out",
    "a join left out",
    "controller news left out",
    "the leader's reading left out in stage boards",
    "a reading left out",
    "a hearing left out",
    "news of a board that was read before",
    "an install on a tie",
    "an install of a board that is not the lowest",
    "an install with a board heard that ranks above the majority",
    "an install over a longer log heard",
    "receives past the leader's length as heard",
    "a board longer than the leader",
    "an unheard board though a majority is heard",
    "2,064 records",
];

/// Why there is no list.
#[derive(Clone, Copy)]
pub enum Why {
    Join,
    Receive,
    ReadLeader,
    Read,
    SetNormal,
    Hear,
    Install,
    EpochsUsedUp,
    OneTooMany,
    TooMany,
    NoMember,
    LeaderNoMember,
    LeadersView,
    BoardsView,
}

pub const WHY: [&str; 14] = [
    "a join would be refused",
    "a receive would be refused",
    "the leader's reading would be refused",
    "a reading would be refused",
    "set normal would be refused",
    "a hearing would be refused",
    "the install would be refused",
    "the epochs are used up",
    "there are 2,065 records",
    "there are more",
    "there is no member to name",
    "the leader is no member",
    "the leader has another leader in its view",
    "a board has another leader in its view",
];

/// A list as far as it goes.
pub struct Course {
    /// The row after its records.
    row: Row,
    pub records: Vec<[u8; 8]>,
    pub met: Vec<Met>,
}

/// The list of a row, or why it has none.
pub fn course(row: &Row) -> Result<Course, Why> {
    let mut course = Course {
        row: row.clone(),
        records: Vec::new(),
        met: Vec::new(),
    };
    if row.status == Status::Choosing {
        course.choose()?;
    }
    if row.status != Status::Normal {
        course.wait()?;
    }
    match course.records.len() {
        ..PLAN_MAX => Ok(course),
        PLAN_MAX => {
            course.met.push(Met::Most);
            Ok(course)
        }
        n if n == PLAN_MAX + 1 => Err(Why::OneTooMany),
        _ => Err(Why::TooMany),
    }
}

/// The first n boards of a set.
fn first(set: u8, n: u8) -> Vec<u8> {
    let boards = (1..=8).filter(|&b| has(set, b));
    boards.take(n.into()).collect()
}

impl Course {
    fn heard(&self, b: u8) -> (u16, Option<usize>) {
        let heard = self.row.control.heard[usize::from(b) - 1];
        (heard.joined, heard.length)
    }

    fn choose(&mut self) -> Result<(), Why> {
        self.controller_news();
        let members = self.row.registry.members;
        let majority = first(members, majority_size(members));
        for &b in &majority {
            self.news(b);
            self.unless(12, (14, b), [Met::Hear, Met::HearOut], Why::Hear)?;
        }
        let ranks = majority.iter().map(|&b| self.heard(b));
        let highest = ranks.max().ok_or(Why::NoMember)?;
        let tied = majority.iter().filter(|&&b| self.heard(b) == highest);
        let tied: Vec<u8> = tied.copied().collect();
        if tied.len() > 1 {
            self.met.push(Met::Tie);
        }
        if tied[0] != majority[0] {
            self.met.push(Met::NotLowest);
        }
        if (1..=8).any(|b| has(members, b) && self.heard(b) > highest) {
            self.met.push(Met::RankedAbove);
        }
        if majority.iter().any(|&b| self.heard(b).1 > highest.1) {
            self.met.push(Met::LongerHeard);
        }
        self.must((15, tied[0]), Met::Install, Why::Install)
    }

    fn wait(&mut self) -> Result<(), Why> {
        let (leader, members) = (self.row.registry.leader, self.row.registry.members);
        if !has(members, leader) {
            return Err(Why::LeaderNoMember);
        }
        self.controller_news();
        self.news(leader);
        self.follows(leader, Why::LeadersView)?;
        match self.row.control.stage {
            Stage::Boards => self.met.push(Met::ReadLeaderOut),
            _ => self.must((11, 0), Met::ReadLeader, Why::ReadLeader)?,
        }
        let length = |row: &Row, b| row.board(b).log.len();
        let others = members & !(1 << (leader - 1));
        for b in first(others, majority_size(members) - 1) {
            let before = self.records.len();
            let was_heard = self.heard(b).1.is_some();
            self.news(b);
            if was_heard && self.records.len() > before {
                self.met.push(Met::NewsAgain);
            }
            if !was_heard && self.row.clone().step(&[13, 0, 0, 0, 0, 0, 0, 0]).answer == 0 {
                self.met.push(Met::HeardBefore);
            }
            self.follows(b, Why::BoardsView)?;
            self.unless(11, (7, b), [Met::Join, Met::JoinOut], Why::Join)?;
            if length(&self.row, b) > length(&self.row, leader) {
                self.met.push(Met::Longer);
            }
            while length(&self.row, b) < length(&self.row, leader) {
                if Some(length(&self.row, b)) >= self.heard(leader).1 {
                    self.met.push(Met::MoreThanHeard);
                }
                self.must((8, b), Met::Receive, Why::Receive)?;
            }
            self.unless(12, (12, b), [Met::Read, Met::ReadOut], Why::Read)?;
        }
        self.must((13, 0), Met::SetNormal, Why::SetNormal)
    }

    /// Has the board the registry's leader in its view?
    fn follows(&self, b: u8, why: Why) -> Result<(), Why> {
        match self.row.board(b).view.leader == self.row.registry.leader {
            true => Ok(()),
            false => Err(why),
        }
    }

    /// It is accepted or refused 12.
    fn controller_news(&mut self) {
        match self.answer((10, 0)) {
            0 => self.met.push(Met::ControllerNews),
            _ => self.met.push(Met::ControllerNewsOut),
        }
    }

    /// The same of a board.
    fn news(&mut self, b: u8) {
        match self.answer((6, b)) {
            0 => self.met.push(Met::News),
            _ => self.met.push(Met::NewsOut),
        }
    }

    fn must(&mut self, record: (u8, u8), met: Met, why: Why) -> Result<(), Why> {
        match self.answer(record) {
            0 => self.met.push(met),
            7 => return Err(Why::EpochsUsedUp),
            _ => return Err(why),
        }
        Ok(())
    }

    /// A record that is left out if it would be refused with this number.
    fn unless(
        &mut self,
        number: u8,
        record: (u8, u8),
        [met, out]: [Met; 2],
        why: Why,
    ) -> Result<(), Why> {
        match self.answer(record) {
            0 => self.met.push(met),
            answer if answer == number => self.met.push(out),
            _ => return Err(why),
        }
        Ok(())
    }

    /// The answer of a step on a board; a record that is accepted joins the list.
    fn answer(&mut self, (step, b): (u8, u8)) -> u8 {
        let record = [step, b, 0, 0, 0, 0, 0, 0];
        let answer = self.row.step(&record).answer;
        if answer == 0 {
            self.records.push(record);
        }
        answer
    }
}
