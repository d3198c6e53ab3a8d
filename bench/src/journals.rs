//! Journals to compare on: valid runs, damaged ones and truncated ones, always the same for the same seed.

use crate::twin::{CardAction, CommandAction, Denial, Hub, LONGEST_JOURNAL, Size, State, Step, Sum};
use std::ops::RangeInclusive;

/// A small random generator (splitmix64).
pub struct Random(u64);

impl Random {
    pub fn new(seed: u64) -> Self {
        Random(seed)
    }

    fn next(&mut self) -> u64 {
        self.0 = self.0.wrapping_add(0x9e37_79b9_7f4a_7c15);
        let mut z = self.0;
        z = (z ^ (z >> 30)).wrapping_mul(0xbf58_476d_1ce4_e5b9);
        z = (z ^ (z >> 27)).wrapping_mul(0x94d0_49bb_1331_11eb);
        z ^ (z >> 31)
    }

    /// A number below `end`, which is not 0.
    pub fn below(&mut self, end: usize) -> usize {
        ((u128::from(self.next()) * end as u128) >> 64) as usize
    }

    fn within(&mut self, range: RangeInclusive<usize>) -> usize {
        range.start() + self.below(range.end() - range.start() + 1)
    }

    /// True `of` times in `all`.
    pub fn chance(&mut self, of: usize, all: usize) -> bool {
        self.below(all) < of
    }

    fn one_of<T: Copy>(&mut self, these: &[T]) -> T {
        these[self.below(these.len())]
    }
}

#[derive(Clone, Copy, PartialEq, Eq, Debug)]
pub enum Kind {
    /// Every line is accepted.
    Valid,
    /// A valid run, and after it steps that are drawn without asking whether the hub accepts them.
    Probed,
    /// A valid or probed one with one to three places changed.
    Damaged,
    /// One that is cut at some byte, or after some line.
    Truncated,
    /// One that is filled up to about the greatest length.
    Filled,
}

impl Kind {
    pub const ALL: [Kind; 5] = [Kind::Valid, Kind::Probed, Kind::Damaged, Kind::Truncated, Kind::Filled];
}

/// What a run is to be like.
struct Manner {
    /// At most so many steps.
    longest: usize,
    /// Of 1,000 steps so many are losses, as long as the hub accepts them.
    losses: usize,
    /// Of 1,000 steps so many make a new card, where the hub accepts it.
    renewals: usize,
    /// Only so many commands are under way at once.
    window: usize,
}

pub struct Generator {
    random: Random,
    /// How many steps of each letter the hub accepted in all runs that were made.
    pub taken: [u64; 18],
}

impl Generator {
    pub fn new(seed: u64) -> Self {
        Generator { random: Random::new(seed), taken: [0; 18] }
    }

    /// The next journal.
    pub fn journal(&mut self) -> (Kind, Vec<u8>) {
        match self.random.below(100) {
            0..30 => (Kind::Valid, self.valid()),
            30..55 => (Kind::Probed, self.probed()),
            55..80 => (Kind::Damaged, self.damaged()),
            80..99 => (Kind::Truncated, self.truncated()),
            _ => (Kind::Filled, self.filled()),
        }
    }

    fn valid(&mut self) -> Vec<u8> {
        let size = self.size();
        let manner = self.manner();
        self.run(size, &manner).0
    }

    /// A valid run of middle size that comes to success or to many steps.
    pub fn middling(&mut self) -> Vec<u8> {
        let kills = self.random.within(0..=5);
        let size = Size { commands: self.random.within(8..=32), losses: kills, cards: kills + 1 };
        let manner = Manner { longest: 500, losses: 10, renewals: 200, window: self.random.within(4..=32) };
        self.run(size, &manner).0
    }

    fn size(&mut self) -> Size {
        let commands = match self.random.below(10) {
            0..4 => self.random.within(1..=3),
            4..8 => self.random.within(4..=16),
            8 => self.random.within(17..=63),
            _ => 64,
        };
        let losses = self.random.within(0..=7);
        let cards = if self.random.chance(1, 3) { self.random.within(1..=8) } else { losses + 1 };
        Size { commands, losses, cards }
    }

    fn manner(&mut self) -> Manner {
        let longest = match self.random.below(10) {
            0..3 => self.random.within(0..=20),
            3..6 => self.random.within(0..=300),
            _ => 3000,
        };
        Manner {
            longest,
            losses: self.random.one_of(&[0, 5, 20, 100, 250]),
            renewals: self.random.one_of(&[20, 300, 800]),
            window: self.random.one_of(&[1, 2, 3, 8, 64]),
        }
    }

    fn a_move(&mut self) -> i32 {
        // The ends of the classes, on both sides.
        const ENDS: [usize; 16] = [0, 49, 50, 99, 100, 249, 250, 499, 500, 999, 1000, 2499, 2500, 4999, 5000, 9000];
        let size = match self.random.below(3) {
            0 => self.random.one_of(&ENDS),
            1 => self.random.within(0..=9000),
            _ => self.random.within(0..=300),
        };
        if self.random.chance(1, 2) { size as i32 } else { -(size as i32) }
    }

    /// A run of accepted steps, and the hub that it leads to.
    fn run(&mut self, size: Size, manner: &Manner) -> (Vec<u8>, Hub<Sum>) {
        let register = self.random.one_of(&["sum", "classes", "peak"]);
        let moves: Vec<i32> = (0..size.commands).map(|_| self.a_move()).collect();
        let mut journal = header(size, register, &moves);
        // Which steps are accepted does not depend on the register.
        let mut hub = Hub::<Sum>::new(size, &moves);
        let mut open: Vec<usize> = (1..=size.commands).collect();
        for _ in 0..manner.longest {
            let Some(step) = self.accepted_step(&mut hub, &mut open, manner) else { break };
            self.taken[usize::from(step.letter() - b'A')] += 1;
            put_step(&mut journal, step);
        }
        (journal, hub)
    }

    /// Draws a step that the hub accepts, and carries it out. There may be none. `open` has the commands that may still
    /// be under way.
    fn accepted_step(&mut self, hub: &mut Hub<Sum>, open: &mut Vec<usize>, manner: &Manner) -> Option<Step> {
        use CardAction::*;
        if hub.state != State::Running {
            return None;
        }
        let mut wanted = Vec::with_capacity(4);
        if self.random.chance(manner.losses, 1000) {
            wanted.push(self.random.one_of(&[LoseMaster, LoseBackup]));
        }
        if self.random.chance(manner.renewals, 1000) {
            wanted.extend([CreateBackup, CreateMaster]);
        }
        if let Some(step) = first_accepted(hub, wanted.into_iter().map(Step::Card)) {
            return Some(step);
        }
        while !open.is_empty() {
            let under_way = open.len().min(manner.window.max(1));
            let first = self.random.below(under_way);
            let turn = self.random.below(CommandAction::ALL.len());
            for place in (first..under_way).chain(0..first) {
                let command = open[place];
                let actions = CommandAction::ALL[turn..].iter().chain(&CommandAction::ALL[..turn]);
                let steps = actions.map(|&action| Step::Command(action, command));
                if let Some(step) = first_accepted(hub, steps) {
                    return Some(step);
                }
            }
            // None of these can go on now: they are done or wait for a new card.
            let cards = [CreateBackup, CreateMaster];
            if let Some(step) = first_accepted(hub, cards.into_iter().map(Step::Card)) {
                return Some(step);
            }
            // Then none of them can go on later either, unless a card is lost.
            open.drain(..under_way);
        }
        first_accepted(hub, [LoseMaster, LoseBackup].into_iter().map(Step::Card))
    }

    fn any_step(&mut self, commands: usize) -> Step {
        if self.random.chance(1, 5) {
            return Step::Card(self.random.one_of(&CardAction::ALL));
        }
        let command = match self.random.below(20) {
            0 => self.random.within(1..=64),
            1 => (commands + 1).min(64),
            _ => self.random.within(1..=commands),
        };
        Step::Command(self.random.one_of(&CommandAction::ALL), command)
    }

    fn probed(&mut self) -> Vec<u8> {
        let size = self.size();
        let mut manner = self.manner();
        // Mostly somewhere within a run, where a wrongly accepted step would do harm.
        if self.random.chance(3, 4) {
            manner.longest = self.random.within(0..=5 * size.commands);
        }
        let (mut journal, mut hub) = self.run(size, &manner);
        // Some end with a step that is denied for a cause that is seldom met.
        if self.random.chance(1, 4) {
            let cause = self.random.one_of(&[Denial::WrongCardStatus, Denial::WrongCardNumber, Denial::NoPlaceLeft]);
            let mut denied: Vec<Step> = all_steps(size.commands).collect();
            denied.retain(|&step| hub.clone().step(step) == Err(cause));
            if !denied.is_empty() {
                let step = self.random.one_of(&denied);
                put_step(&mut journal, step);
                return journal;
            }
        }
        // Half of the time a step that is denied for its command's phase is drawn again, so that other causes come up.
        let draws_again = self.random.chance(1, 2);
        for _ in 0..self.random.within(1..=40) {
            let step = self.any_step(size.commands);
            let answer = hub.step(step);
            if draws_again && answer == Err(Denial::WrongPhaseOrMessage) {
                continue;
            }
            put_step(&mut journal, step);
            match answer {
                Ok(()) => self.taken[usize::from(step.letter() - b'A')] += 1,
                Err(_) if self.random.chance(3, 4) => break,
                Err(_) => {}
            }
        }
        journal
    }

    fn truncated(&mut self) -> Vec<u8> {
        let mut journal = self.valid();
        let steps = journal.windows(5).position(|part| part == b"step=").unwrap_or(journal.len());
        let end = if self.random.chance(1, 3) { steps } else { journal.len() };
        let cut = self.random.within(0..=end);
        journal.truncate(cut);
        if self.random.chance(1, 3) {
            // Back to the last line feed.
            let kept = journal.iter().rposition(|&byte| byte == b'\n').map_or(0, |place| place + 1);
            journal.truncate(kept);
        }
        journal
    }

    fn filled(&mut self) -> Vec<u8> {
        let mut journal = if self.random.chance(1, 2) { self.valid() } else { self.damaged() };
        let length = match self.random.below(4) {
            0 => LONGEST_JOURNAL + 1,
            1 => self.random.within(LONGEST_JOURNAL + 1..=LONGEST_JOURNAL + 5000),
            _ => self.random.within(LONGEST_JOURNAL - 2..=LONGEST_JOURNAL),
        };
        let filling = self.random.one_of(&[&b"step=A1\n"[..], b"move=1\n", b"\n", b"0", b"step=A64\n", b"step=R\n"]);
        let missing = length.saturating_sub(journal.len());
        journal.extend(filling.iter().cycle().take(missing));
        journal
    }

    fn damaged(&mut self) -> Vec<u8> {
        let mut journal = if self.random.chance(1, 4) { self.probed() } else { self.valid() };
        let times = if self.random.chance(3, 4) { 1 } else { self.random.within(2..=3) };
        for _ in 0..times {
            if journal.is_empty() {
                break;
            }
            match self.random.below(4) {
                0 => self.damage_byte(&mut journal),
                1 => self.damage_lines(&mut journal),
                _ => self.damage_value(&mut journal),
            }
        }
        journal
    }

    fn any_byte(&mut self) -> u8 {
        const TELLING: &[u8] = b"\n=-+0123456789AFGNORSa /:@\r\0\x7f\xff";
        if self.random.chance(2, 3) { self.random.one_of(TELLING) } else { self.random.below(256) as u8 }
    }

    fn damage_byte(&mut self, journal: &mut Vec<u8>) {
        // Half of them near the start, where each byte means something else.
        let end = if self.random.chance(1, 2) { journal.len().min(60) } else { journal.len() };
        let place = self.random.below(end);
        match self.random.below(4) {
            0 => journal[place] = self.any_byte(),
            1 => journal[place] ^= 1 << self.random.below(8),
            2 => {
                let byte = self.any_byte();
                let place = if self.random.chance(1, 10) { journal.len() } else { place };
                journal.insert(place, byte);
            }
            _ => {
                let place = if self.random.chance(1, 10) { journal.len() - 1 } else { place };
                journal.remove(place);
            }
        }
    }

    /// The number of a line, half of the time of one near the start.
    fn a_line(&mut self, lines: usize) -> usize {
        let end = if self.random.chance(1, 2) { lines.min(8) } else { lines };
        self.random.below(end)
    }

    fn damage_lines(&mut self, journal: &mut Vec<u8>) {
        let mut lines: Vec<Vec<u8>> = journal.split_inclusive(|&byte| byte == b'\n').map(<[u8]>::to_vec).collect();
        let line = self.a_line(lines.len());
        match self.random.below(6) {
            0 => {
                let other = self.a_line(lines.len());
                lines.swap(line, other);
            }
            1 if line + 1 < lines.len() => lines.swap(line, line + 1),
            2 => lines.insert(line, lines[line].clone()),
            3 => lines.insert(line, b"\n".to_vec()),
            _ => {
                lines.remove(line);
            }
        }
        *journal = lines.concat();
    }

    /// Changes what stands on both sides of an equals sign.
    fn damage_value(&mut self, journal: &mut Vec<u8>) {
        let mut lines: Vec<Vec<u8>> = journal.split_inclusive(|&byte| byte == b'\n').map(<[u8]>::to_vec).collect();
        let line = self.a_line(lines.len());
        let text = &mut lines[line];
        let feed = if text.ends_with(b"\n") { text.pop() } else { None };
        if let Some(equals) = text.iter().position(|&byte| byte == b'=') {
            let value = text.split_off(equals + 1);
            let digits = value.iter().position(u8::is_ascii_digit).unwrap_or(value.len());
            let (front, number) = value.split_at(digits);
            let known: u128 = std::str::from_utf8(number).ok().and_then(|number| number.parse().ok()).unwrap_or(1);
            let mut front = front.to_vec();
            let number = match self.random.below(14) {
                0 => format!("0{known}"),
                1 => format!("{}{known}", "0".repeat(self.random.within(2..=40))),
                2 => format!("-{known}"),
                3 => format!("+{known}"),
                4 => "-0".to_string(),
                5 => String::new(),
                // What would be the same number in a narrower type.
                6 => format!("{}", known + (1 << self.random.one_of(&[8, 16, 31, 32, 63, 64, 80]))),
                7 => format!("{known}{}", "9".repeat(self.random.within(1..=40))),
                8 => "7".repeat(self.random.within(1..=5000)),
                9 | 10 => {
                    let near = [0, 1, 7, 8, 9, 10, 63, 64, 65, 99, 100, 8999, 9000, 9001, 9999, 10000, 65536, 90000];
                    format!("{}", self.random.one_of(&near))
                }
                11 => {
                    front = self.random.one_of(&[&b"sum"[..], b"classes", b"peak", b"summ", b"Sum", b"pea"]).to_vec();
                    String::new()
                }
                12 => {
                    front = vec![self.random.within(usize::from(b'@')..=usize::from(b'T')) as u8];
                    format!("{known}")
                }
                _ => format!("{known}{}", char::from(self.random.one_of(b"\r \t.,eA-\0"))),
            };
            text.extend(front);
            text.extend(number.bytes());
            match self.random.below(30) {
                0 => text[0] = text[0].to_ascii_uppercase(),
                1 => text.insert(equals, b' '),
                2 => {
                    text.remove(equals);
                }
                3 => {
                    text.remove(equals - equals.min(1));
                }
                _ => {}
            }
        }
        text.extend(feed);
        *journal = lines.concat();
    }
}

fn header(size: Size, register: &str, moves: &[i32]) -> Vec<u8> {
    let mut text =
        format!("commands={}\nkills={}\ncards={}\nregister={register}\n", size.commands, size.losses, size.cards);
    for hundredths in moves {
        text.push_str(&format!("move={hundredths}\n"));
    }
    text.into_bytes()
}

fn put_step(journal: &mut Vec<u8>, step: Step) {
    journal.extend(format!("step={step}\n").bytes());
}

/// Every step that concerns cards, or one of so many commands.
fn all_steps(commands: usize) -> impl Iterator<Item = Step> {
    let of_command = |command| CommandAction::ALL.map(|action| Step::Command(action, command));
    (1..=commands).flat_map(of_command).chain(CardAction::ALL.map(Step::Card))
}

/// Carries out the first of these steps that the hub accepts.
fn first_accepted(hub: &mut Hub<Sum>, mut steps: impl Iterator<Item = Step>) -> Option<Step> {
    steps.find(|&step| hub.step(step).is_ok())
}

/// The longest run: all commands are brought to wait for the backup, then the master is lost and a new one made from the
/// backup, so that all start again, as often as losses are allowed; then all are done. Answers the number of steps too.
pub fn longest(register: &str) -> Result<(Vec<u8>, u32), Denial> {
    use CommandAction::*;
    let size = Size { commands: 64, losses: 7, cards: 8 };
    let moves: Vec<i32> = (0..size.commands as i32).map(|place| (place * 2857 + 1234) % 18001 - 9000).collect();
    let mut journal = header(size, register, &moves);
    let mut hub = Hub::<Sum>::new(size, &moves);
    let mut take = |step: Step| {
        put_step(&mut journal, step);
        hub.step(step)
    };
    let all = 1..=size.commands;
    for _ in 0..size.losses {
        for command in all.clone() {
            for action in [Start, MasterDoes, HandleMasterDone] {
                take(Step::Command(action, command))?;
            }
        }
        take(Step::Card(CardAction::LoseMaster))?;
        take(Step::Card(CardAction::CreateMaster))?;
        for command in all.clone() {
            for action in [BackupDetectsOldMaster, UpdateMaster] {
                take(Step::Command(action, command))?;
            }
        }
    }
    for command in all {
        for action in [Start, MasterDoes, HandleMasterDone, BackupDoes, HandleBackupDone] {
            take(Step::Command(action, command))?;
        }
    }
    Ok((journal, hub.steps))
}
