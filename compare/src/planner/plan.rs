//! A plan in memory: the size record, and three lent tables.

/// The entry that stands for no practice, no command and no rank.
pub const NONE: u16 = 0xFFFF;

pub const ORDINARY: u16 = 0;
pub const FAILING: u16 = 1;
pub const REST: u16 = 2;

#[derive(Clone, Copy, Debug, Default, PartialEq, Eq)]
pub struct Size {
    pub n: usize,
    pub m: usize,
    pub t: usize,
    pub start: usize,
}

impl Size {
    pub const STATES: usize = 1024;
    pub const COMMANDS: usize = 4096;
    pub const OUTCOMES: usize = 16384;
}

#[derive(Clone, Copy, Debug, Default, PartialEq, Eq)]
pub struct Row {
    pub kind: u16,
    pub first: u16,
    pub practice: u16,
}

/// The tables are exactly as long as the counts of the size record say.
#[derive(Clone, Copy)]
pub struct Plan<'a> {
    pub size: Size,
    pub rows: &'a [Row],
    pub firsts: &'a [u16],
    pub outcomes: &'a [u16],
}

impl<'a> Plan<'a> {
    /// Where the commands of state `s` begin and end.
    pub fn commands(&self, s: usize) -> (usize, usize) {
        let end = match self.rows.get(s + 1) {
            Some(next) => usize::from(next.first),
            None => self.size.m,
        };
        (usize::from(self.rows[s].first), end)
    }

    /// Whether a state counts as failing: by its kind, or as a stuck chamber, which is ordinary and has no command.
    pub fn fails(&self, s: usize) -> bool {
        let (first, end) = self.commands(s);
        match self.rows[s].kind {
            ORDINARY => first == end,
            kind => kind == FAILING,
        }
    }

    /// How many states have commands: no search walks more rounds.
    pub fn with_commands(&self) -> usize {
        let bounds = (0..self.size.n).map(|s| self.commands(s));
        bounds.filter(|(first, end)| first < end).count()
    }

    /// Where the outcomes of a command begin, and those of all commands end if it is one past the last.
    fn first_outcome(&self, command: usize) -> usize {
        match self.firsts.get(command) {
            Some(&first) => usize::from(first),
            None => self.size.t,
        }
    }

    pub fn outcomes(&self, command: usize) -> &'a [u16] {
        &self.outcomes[usize::from(self.firsts[command])..self.first_outcome(command + 1)]
    }

    /// Where the outcomes of these commands begin and end: those of neighbours stand side by side.
    pub fn stretch(&self, first: usize, end: usize) -> (usize, usize) {
        (self.first_outcome(first), self.first_outcome(end))
    }
}
