//! The twin: from the bytes of a journal to the text that is shown of it.
//!
//! Written from docs/ alone, as an ordinary Rust program. It shares no code with the library and is not verified.

use std::fmt;
use std::iter;
use std::ops::RangeInclusive;

/// The most bytes that a journal may have.
pub const LONGEST_JOURNAL: usize = 65_536;

/// Writes to `out`, in place of what it held, the report of the hub that the journal leads to, or the fault print.
pub fn show(journal: &[u8], out: &mut Vec<u8>) -> Result<State, Fault> {
    out.clear();
    let shown = read_and_report(journal, out);
    if let Err(fault) = &shown {
        put_line(out, "fault", i64::from(fault.number()));
        put_line(out, "line", fault.line() as i64);
    }
    shown
}

fn read_and_report(journal: &[u8], out: &mut Vec<u8>) -> Result<State, Fault> {
    if journal.len() > LONGEST_JOURNAL {
        return Err(Fault::TooLong);
    }
    let mut lines = Lines { rest: journal, line: 0 };
    let commands = lines.count(b"commands=", 1..=64)?;
    let losses = lines.count(b"kills=", 0..=7)?;
    let cards = lines.count(b"cards=", 1..=8)?;
    let size = Size { commands, losses, cards };
    match lines.value(b"register=")? {
        b"sum" => replay::<Sum>(size, lines, out),
        b"classes" => replay::<Classes>(size, lines, out),
        b"peak" => replay::<Peak>(size, lines, out),
        _ => Err(lines.not_allowed()),
    }
}

/// Reads the moves and the steps, and reports on the hub at the journal's end.
fn replay<R: Register>(size: Size, mut lines: Lines, out: &mut Vec<u8>) -> Result<State, Fault> {
    let moves = (0..size.commands).map(|_| lines.a_move()).collect::<Result<Vec<i32>, Fault>>()?;
    let mut hub = Hub::<R>::new(size, &moves);
    while let Some(step) = lines.step()? {
        hub.step(step).map_err(|denial| Fault::Denied { line: lines.line, denial })?;
    }
    hub.report(out);
    Ok(hub.state)
}

// ---- Writing ------------------------------------------------------------------------------------------------------

/// Appends the number in decimal digits.
fn put_number(out: &mut Vec<u8>, number: i64) {
    let mut digits = [0; 20];
    let mut start = digits.len();
    let mut rest = number.unsigned_abs();
    loop {
        start -= 1;
        digits[start] = b'0' + (rest % 10) as u8;
        rest /= 10;
        if rest == 0 {
            break;
        }
    }
    if number < 0 {
        out.push(b'-');
    }
    out.extend_from_slice(&digits[start..]);
}

/// Appends a line whose value is a number.
fn put_line(out: &mut Vec<u8>, key: &str, number: i64) {
    out.extend_from_slice(key.as_bytes());
    out.push(b'=');
    put_number(out, number);
    out.push(b'\n');
}

/// Appends a line whose value is a word.
fn put_word(out: &mut Vec<u8>, key: &str, word: &str) {
    out.extend_from_slice(key.as_bytes());
    out.push(b'=');
    out.extend_from_slice(word.as_bytes());
    out.push(b'\n');
}

/// Appends a line whose value is a list of numbers with commas between them.
fn put_list(out: &mut Vec<u8>, key: &str, numbers: impl Iterator<Item = i64>) {
    out.extend_from_slice(key.as_bytes());
    for (place, number) in numbers.enumerate() {
        out.push(if place == 0 { b'=' } else { b',' });
        put_number(out, number);
    }
    out.push(b'\n');
}

// ---- Faults -------------------------------------------------------------------------------------------------------

/// Why a journal has no report. Lines count from 1.
#[derive(Clone, Copy, PartialEq, Eq, Debug)]
pub enum Fault {
    TooLong,
    LineNotDue { line: usize },
    ValueNotAllowed { line: usize },
    Denied { line: usize, denial: Denial },
}

impl Fault {
    pub fn number(&self) -> u8 {
        match self {
            Fault::TooLong => 13,
            Fault::LineNotDue { .. } => 14,
            Fault::ValueNotAllowed { .. } => 15,
            Fault::Denied { .. } => 16,
        }
    }

    pub fn line(&self) -> usize {
        match *self {
            Fault::TooLong => 0,
            Fault::LineNotDue { line } | Fault::ValueNotAllowed { line } | Fault::Denied { line, .. } => line,
        }
    }
}

/// Why the hub refuses a step, with the numbers of docs/refusals.md. (6, an unknown letter, cannot come from a journal.)
#[derive(Clone, Copy, PartialEq, Eq, Debug)]
pub enum Denial {
    HubFinished = 5,
    NoSuchCommand = 7,
    LossesUsedUp = 8,
    WrongPhaseOrMessage = 9,
    WrongCardStatus = 10,
    WrongCardNumber = 11,
    NoPlaceLeft = 12,
}

// ---- Reading ------------------------------------------------------------------------------------------------------

/// The lines of a journal that are not read yet, and the number of the last one that was asked for.
struct Lines<'a> {
    rest: &'a [u8],
    line: usize,
}

impl<'a> Lines<'a> {
    fn not_due(&self) -> Fault {
        Fault::LineNotDue { line: self.line }
    }

    fn not_allowed(&self) -> Fault {
        Fault::ValueNotAllowed { line: self.line }
    }

    /// The value of the next line, which must begin with `key` (its equals sign included) and end with a line feed.
    fn value(&mut self, key: &[u8]) -> Result<&'a [u8], Fault> {
        self.line += 1;
        let after_key = self.rest.strip_prefix(key).ok_or(self.not_due())?;
        let length = after_key.iter().position(|&byte| byte == b'\n').ok_or(self.not_due())?;
        self.rest = &after_key[length + 1..];
        Ok(&after_key[..length])
    }

    fn count(&mut self, key: &[u8], limits: RangeInclusive<u32>) -> Result<usize, Fault> {
        let value = self.value(key)?;
        let number = number(value, limits).ok_or(self.not_allowed())?;
        Ok(number as usize)
    }

    fn a_move(&mut self) -> Result<i32, Fault> {
        let value = self.value(b"move=")?;
        let number = match value.strip_prefix(b"-") {
            Some(size) => number(size, 1..=9000).map(|size| -(size as i32)),
            None => number(value, 0..=9000).map(|size| size as i32),
        };
        number.ok_or(self.not_allowed())
    }

    /// The next step, or `None` at the end of the journal.
    fn step(&mut self) -> Result<Option<Step>, Fault> {
        if self.rest.is_empty() {
            return Ok(None);
        }
        let value = self.value(b"step=")?;
        Step::parse(value).map(Some).ok_or(self.not_allowed())
    }
}

/// A number without a sign and without a zero in front of another digit, within limits of at most four digits.
fn number(text: &[u8], limits: RangeInclusive<u32>) -> Option<u32> {
    let well_formed = match text {
        [] => false,
        [b'0', _, ..] => false,
        _ => text.len() <= 4 && text.iter().all(u8::is_ascii_digit),
    };
    if !well_formed {
        return None;
    }
    let number = text.iter().fold(0, |number, &digit| 10 * number + u32::from(digit - b'0'));
    limits.contains(&number).then_some(number)
}

/// A step of a journal.
#[derive(Clone, Copy, PartialEq, Eq, Debug)]
pub enum Step {
    Command(CommandAction, usize),
    Card(CardAction),
}

/// What a step can do about a command: the letters A to N.
#[derive(Clone, Copy, PartialEq, Eq, Debug)]
pub enum CommandAction {
    Start,
    MasterDoes,
    HandleMasterDone,
    BackupDoes,
    BackupDetectsOldMaster,
    HandleBackupDone,
    HandleMasterDoFailed,
    HandleBackupDoFailed,
    MasterGetsNewBackup,
    BackupGetsNewMaster,
    HandleGetNewMasterFailed,
    HandleGetNewBackupFailed,
    UpdateBackup,
    UpdateMaster,
}

/// What a step can do about cards alone: the letters O to R.
#[derive(Clone, Copy, PartialEq, Eq, Debug)]
pub enum CardAction {
    CreateBackup,
    CreateMaster,
    LoseMaster,
    LoseBackup,
}

impl CommandAction {
    /// All of them, in the order of their letters.
    pub const ALL: [CommandAction; 14] = [
        CommandAction::Start,
        CommandAction::MasterDoes,
        CommandAction::HandleMasterDone,
        CommandAction::BackupDoes,
        CommandAction::BackupDetectsOldMaster,
        CommandAction::HandleBackupDone,
        CommandAction::HandleMasterDoFailed,
        CommandAction::HandleBackupDoFailed,
        CommandAction::MasterGetsNewBackup,
        CommandAction::BackupGetsNewMaster,
        CommandAction::HandleGetNewMasterFailed,
        CommandAction::HandleGetNewBackupFailed,
        CommandAction::UpdateBackup,
        CommandAction::UpdateMaster,
    ];
}

impl CardAction {
    /// All of them, in the order of their letters.
    pub const ALL: [CardAction; 4] =
        [CardAction::CreateBackup, CardAction::CreateMaster, CardAction::LoseMaster, CardAction::LoseBackup];
}

impl Step {
    fn parse(value: &[u8]) -> Option<Step> {
        let (&letter, rest) = value.split_first()?;
        match letter {
            b'A'..=b'N' => {
                let command = number(rest, 1..=64)?;
                Some(Step::Command(CommandAction::ALL[usize::from(letter - b'A')], command as usize))
            }
            b'O'..=b'R' if rest.is_empty() => Some(Step::Card(CardAction::ALL[usize::from(letter - b'O')])),
            _ => None,
        }
    }

    pub fn letter(self) -> u8 {
        match self {
            Step::Command(action, _) => b'A' + action as u8,
            Step::Card(action) => b'O' + action as u8,
        }
    }
}

impl fmt::Display for Step {
    fn fmt(&self, to: &mut fmt::Formatter) -> fmt::Result {
        let letter = char::from(self.letter());
        match self {
            Step::Command(_, command) => write!(to, "{letter}{command}"),
            Step::Card(_) => write!(to, "{letter}"),
        }
    }
}

// ---- Registers ----------------------------------------------------------------------------------------------------

/// What a card keeps of the moves that it has taken.
pub trait Register: Copy + Default {
    fn take(&mut self, hundredths: i32);

    fn figures(&self) -> impl Iterator<Item = i64>;

    /// The mean of the moves, of which there were `version`, for a register that has one.
    fn mean(&self, _version: u32) -> Option<i64> {
        None
    }
}

#[derive(Clone, Copy, Default)]
pub struct Sum(i64);

impl Register for Sum {
    fn take(&mut self, hundredths: i32) {
        self.0 = self.0.wrapping_add(i64::from(hundredths));
    }

    fn figures(&self) -> impl Iterator<Item = i64> {
        iter::once(self.0)
    }

    fn mean(&self, version: u32) -> Option<i64> {
        mean(self.0, version)
    }
}

#[derive(Clone, Copy, Default)]
pub struct Classes([u32; 8]);

impl Classes {
    /// The largest size of each class but the last.
    const ENDS: [u32; 7] = [49, 99, 249, 499, 999, 2499, 4999];
}

impl Register for Classes {
    fn take(&mut self, hundredths: i32) {
        let size = hundredths.unsigned_abs();
        let class = Self::ENDS.iter().filter(|&&end| size > end).count();
        self.0[class] = self.0[class].saturating_add(1);
    }

    fn figures(&self) -> impl Iterator<Item = i64> {
        self.0.iter().map(|&count| i64::from(count))
    }
}

#[derive(Clone, Copy, Default)]
pub struct Peak(u32);

impl Register for Peak {
    fn take(&mut self, hundredths: i32) {
        self.0 = self.0.max(hundredths.unsigned_abs());
    }

    fn figures(&self) -> impl Iterator<Item = i64> {
        iter::once(i64::from(self.0))
    }
}

/// The whole number nearest to `sum / version`; of two that are equally near, the one farther from zero.
pub fn mean(sum: i64, version: u32) -> Option<i64> {
    if version == 0 {
        return None;
    }
    let size = u128::from(sum.unsigned_abs());
    let version = u128::from(version);
    let rounded = ((2 * size + version) / (2 * version)) as i128;
    Some(if sum < 0 { -rounded } else { rounded } as i64)
}

// ---- The hub ------------------------------------------------------------------------------------------------------

/// How large a hub is.
#[derive(Clone, Copy, Debug)]
pub struct Size {
    pub commands: usize,
    pub losses: usize,
    pub cards: usize,
}

#[derive(Clone, Copy, PartialEq, Eq, Debug)]
pub enum State {
    Running,
    Success,
    Fatal,
}

/// The number of a card in its role, from 1. 0 means that none is known.
type CardNumber = u8;

#[derive(Clone, Copy, PartialEq, Eq)]
enum Status {
    Unused,
    Active,
    Lost,
}

#[derive(Clone, Copy)]
struct Card<R> {
    status: Status,
    partner: CardNumber,
    version: u32,
    register: R,
}

impl<R: Register> Card<R> {
    fn unused() -> Self {
        Card { status: Status::Unused, partner: 0, version: 0, register: R::default() }
    }

    fn take(&mut self, hundredths: i32) {
        self.register.take(hundredths);
        self.version += 1;
    }
}

/// The cards of one role.
#[derive(Clone)]
struct Role<R>(Vec<Card<R>>);

impl<R: Register> Role<R> {
    fn new(places: usize) -> Self {
        let mut cards = vec![Card::unused(); places];
        cards[0] = Card { status: Status::Active, partner: 1, ..Card::unused() };
        Role(cards)
    }

    /// The card with this number, if its status is the one asked for.
    fn card(&mut self, number: CardNumber, status: Status) -> Result<&mut Card<R>, Denial> {
        usize::from(number)
            .checked_sub(1)
            .and_then(|place| self.0.get_mut(place))
            .filter(|card| card.status == status)
            .ok_or(Denial::WrongCardStatus)
    }

    fn active(&self) -> Option<CardNumber> {
        self.0.iter().position(|card| card.status == Status::Active).map(|place| place as CardNumber + 1)
    }

    fn last_lost(&self) -> Option<CardNumber> {
        self.0.iter().rposition(|card| card.status == Status::Lost).map(|place| place as CardNumber + 1)
    }

    fn last(&self) -> Option<(CardNumber, &Card<R>)> {
        let place = self.0.iter().rposition(|card| card.status != Status::Unused)?;
        Some((place as CardNumber + 1, &self.0[place]))
    }

    fn lose_active(&mut self) -> Result<(), Denial> {
        let number = self.active().ok_or(Denial::WrongCardStatus)?;
        self.card(number, Status::Active)?.status = Status::Lost;
        Ok(())
    }

    /// Puts a copy of the active card of this role in the place after the last lost one of the other.
    fn create_partner(&mut self, other: &mut Role<R>) -> Result<(), Denial> {
        let number = self.active().ok_or(Denial::WrongCardStatus)?;
        if other.active().is_some() {
            return Err(Denial::WrongCardStatus);
        }
        let place = usize::from(other.last_lost().ok_or(Denial::WrongCardStatus)?);
        let new = other.0.get_mut(place).ok_or(Denial::NoPlaceLeft)?;
        let maker = self.card(number, Status::Active)?;
        *new = Card { partner: number, ..*maker };
        maker.partner = place as CardNumber + 1;
        Ok(())
    }

    /// Appends three lines about the last card.
    fn report(&self, keys: [&str; 3], out: &mut Vec<u8>) {
        match self.last() {
            Some((number, card)) => {
                put_line(out, keys[0], i64::from(number));
                put_line(out, keys[1], i64::from(card.version));
                put_list(out, keys[2], card.register.figures());
            }
            None => {
                put_line(out, keys[0], 0);
                put_line(out, keys[1], 0);
                put_word(out, keys[2], "none");
            }
        }
    }
}

/// What a working command waits for, with the numbers of the master and of the backup concerned.
#[derive(Clone, Copy)]
enum Message {
    MasterDo { master: CardNumber },
    MasterDone { master: CardNumber, backup: CardNumber },
    BackupDo { master: CardNumber, backup: CardNumber },
    BackupDone,
    MasterGetNewBackup { master: CardNumber, backup: CardNumber },
    BackupGetNewMaster { master: CardNumber, backup: CardNumber },
    NewBackupId { backup: CardNumber },
    NewMasterId { master: CardNumber },
}

/// How far a command has come. A working command always waits for a message.
#[derive(Clone, Copy)]
enum Phase {
    Pending,
    Working(Message),
    Done,
    GaveUp,
}

/// A command, with the numbers of the master and the backup that it takes for its own.
#[derive(Clone, Copy)]
struct Command {
    hundredths: i32,
    phase: Phase,
    master: CardNumber,
    backup: CardNumber,
}

#[derive(Clone)]
pub struct Hub<R> {
    pub state: State,
    pub steps: u32,
    pub losses: usize,
    rated: usize,
    done: usize,
    commands: Vec<Command>,
    masters: Role<R>,
    backups: Role<R>,
}

impl<R: Register> Hub<R> {
    pub fn new(size: Size, moves: &[i32]) -> Self {
        let command = |&hundredths: &i32| Command { hundredths, phase: Phase::Pending, master: 1, backup: 0 };
        Hub {
            state: State::Running,
            steps: 0,
            losses: 0,
            rated: size.losses,
            done: 0,
            commands: moves.iter().map(command).collect(),
            masters: Role::new(size.cards),
            backups: Role::new(size.cards),
        }
    }

    /// Carries out a step. A step that is denied changes nothing.
    #[inline]
    pub fn step(&mut self, step: Step) -> Result<(), Denial> {
        if self.state != State::Running {
            return Err(Denial::HubFinished);
        }
        match step {
            Step::Command(action, number) => self.command_step(action, number)?,
            Step::Card(action) => self.card_step(action)?,
        }
        self.steps += 1;
        Ok(())
    }

    #[inline]
    fn command_step(&mut self, action: CommandAction, number: usize) -> Result<(), Denial> {
        let place = number.checked_sub(1).ok_or(Denial::NoSuchCommand)?;
        let command = self.commands.get_mut(place).ok_or(Denial::NoSuchCommand)?;
        let (masters, backups) = (&mut self.masters, &mut self.backups);

        use CommandAction::*;
        use Message::*;
        use Phase::*;
        command.phase = match (action, command.phase) {
            (Start, Pending) => Working(MasterDo { master: command.master }),
            (MasterDoes, Working(MasterDo { master })) => {
                let card = masters.card(master, Status::Active)?;
                card.take(command.hundredths);
                Working(MasterDone { master, backup: card.partner })
            }
            (HandleMasterDone, Working(MasterDone { master, backup })) => {
                command.backup = backup;
                Working(BackupDo { master, backup })
            }
            (BackupDoes, Working(BackupDo { master, backup })) => {
                let card = backups.card(backup, Status::Active)?;
                if card.partner != master {
                    return Err(Denial::WrongCardNumber);
                }
                card.take(command.hundredths);
                Working(BackupDone)
            }
            (BackupDetectsOldMaster, Working(BackupDo { master, backup }))
            | (BackupGetsNewMaster, Working(BackupGetNewMaster { master, backup })) => {
                let partner = backups.card(backup, Status::Active)?.partner;
                if partner == master {
                    return Err(Denial::WrongCardNumber);
                }
                Working(NewMasterId { master: partner })
            }
            (HandleBackupDone, Working(BackupDone)) => Done,
            (HandleMasterDoFailed, Working(MasterDo { master })) => {
                masters.card(master, Status::Lost)?;
                match backups.active() {
                    Some(backup) => Working(BackupGetNewMaster { master, backup }),
                    None => GaveUp,
                }
            }
            (HandleBackupDoFailed, Working(BackupDo { backup, .. })) => {
                backups.card(backup, Status::Lost)?;
                Working(MasterGetNewBackup { master: command.master, backup: command.backup })
            }
            (MasterGetsNewBackup, Working(MasterGetNewBackup { master, backup })) => {
                let partner = masters.card(master, Status::Active)?.partner;
                if partner == backup {
                    return Err(Denial::WrongCardNumber);
                }
                Working(NewBackupId { backup: partner })
            }
            (HandleGetNewMasterFailed, Working(BackupGetNewMaster { backup, .. })) => {
                backups.card(backup, Status::Lost)?;
                match masters.active() {
                    Some(master) if master == command.master => return Err(Denial::WrongCardNumber),
                    Some(master) => {
                        command.master = master;
                        Pending
                    }
                    None => GaveUp,
                }
            }
            (HandleGetNewBackupFailed, Working(MasterGetNewBackup { master, .. })) => {
                masters.card(master, Status::Lost)?;
                GaveUp
            }
            (UpdateBackup, Working(NewBackupId { backup })) => {
                command.backup = backup;
                Done
            }
            (UpdateMaster, Working(NewMasterId { master })) => {
                command.master = master;
                Pending
            }
            _ => return Err(Denial::WrongPhaseOrMessage),
        };

        match command.phase {
            Done => {
                self.done += 1;
                if self.done == self.commands.len() {
                    self.state = State::Success;
                }
            }
            GaveUp => self.state = State::Fatal,
            Pending | Working(_) => {}
        }
        Ok(())
    }

    fn card_step(&mut self, action: CardAction) -> Result<(), Denial> {
        match action {
            CardAction::CreateBackup => self.masters.create_partner(&mut self.backups),
            CardAction::CreateMaster => self.backups.create_partner(&mut self.masters),
            CardAction::LoseMaster | CardAction::LoseBackup => {
                if self.losses == self.rated {
                    return Err(Denial::LossesUsedUp);
                }
                match action {
                    CardAction::LoseMaster => self.masters.lose_active()?,
                    _ => self.backups.lose_active()?,
                }
                self.losses += 1;
                Ok(())
            }
        }
    }

    fn report(&self, out: &mut Vec<u8>) {
        let state = match self.state {
            State::Running => "running",
            State::Success => "success",
            State::Fatal => "fatal",
        };
        put_word(out, "state", state);
        put_line(out, "steps", i64::from(self.steps));
        put_line(out, "losses", self.losses as i64);
        self.masters.report(["master", "master-version", "master-register"], out);
        self.backups.report(["backup", "backup-version", "backup-register"], out);
        match self.masters.last().and_then(|(_, card)| card.register.mean(card.version)) {
            Some(mean) => put_line(out, "mean", mean),
            None => put_word(out, "mean", "none"),
        }
    }
}

#[cfg(test)]
mod tests {
    use super::*;

    fn shown(journal: &str) -> String {
        let mut out = Vec::new();
        let _ = show(journal.as_bytes(), &mut out);
        String::from_utf8(out).unwrap()
    }

    #[test]
    fn the_worked_report() {
        let journal = "commands=2\nkills=0\ncards=1\nregister=sum\nmove=150\nmove=-125\nstep=A1\nstep=A2\nstep=B2\n\
                       step=B1\nstep=C1\nstep=C2\nstep=D1\nstep=D2\nstep=F2\nstep=F1\n";
        let report = "state=success\nsteps=10\nlosses=0\nmaster=1\nmaster-version=2\nmaster-register=25\nbackup=1\n\
                      backup-version=2\nbackup-register=25\nmean=13\n";
        assert_eq!(shown(journal), report);
    }

    #[test]
    fn faults() {
        assert_eq!(shown(""), "fault=14\nline=1\n");
        assert_eq!(shown("commands=2\r\n"), "fault=15\nline=1\n");
        assert_eq!(shown("commands=2\nkills=0\ncards=01\n"), "fault=15\nline=3\n");
        assert_eq!(shown(&"x".repeat(LONGEST_JOURNAL + 1)), "fault=13\nline=0\n");
    }

    #[test]
    fn means() {
        assert_eq!(mean(25, 2), Some(13));
        assert_eq!(mean(-25, 2), Some(-13));
        assert_eq!(mean(7, 3), Some(2));
        assert_eq!(mean(i64::MIN, 1), Some(i64::MIN));
        assert_eq!(mean(1, 0), None);
    }
}
