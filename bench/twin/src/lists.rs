//! Random step lists, defined exactly in LISTS.md, and their digests.

use crate::store::*;

pub const LISTS: u64 = 3600;
pub const GROUP: u64 = 100;

const GOLD: u64 = 0x9E37_79B9_7F4A_7C15;

pub const BEGIN: usize = 0;
pub const STORE: usize = 1;
pub const LOG_UNDO: usize = 2;
pub const LOG_REDO: usize = 3;
pub const SET_DOWN: usize = 4;
pub const WRITE_HOME: usize = 5;
pub const COMMIT: usize = 6;
pub const DELETE: usize = 7;
pub const RECOVER: usize = 8;
pub const NAMES: [&str; 9] = [
    "begin",
    "store",
    "log undo",
    "log redo",
    "set down",
    "write home",
    "commit",
    "delete",
    "recover",
];

/// The kinds of the runs, by the profile of the list.
const SCRIPTS: [[usize; 16]; 8] = [
    [1, 2, 1, 2, 4, 5, 6, 7, 0, 1, 2, 1, 4, 3, 6, 8],
    [1, 6, 5, 1, 7, 6, 1, 6, 5, 7, 1, 7, 2, 6, 5, 7],
    [1, 1, 6, 1, 2, 1, 8, 0, 1, 2, 1, 4, 6, 1, 6, 8],
    [1, 1, 1, 2, 4, 2, 4, 3, 1, 1, 1, 2, 4, 2, 4, 6],
    [1, 1, 6, 1, 6, 1, 1, 6, 1, 6, 5, 1, 1, 6, 1, 6],
    [1, 1, 1, 2, 2, 4, 2, 4, 1, 1, 1, 2, 4, 2, 4, 4],
    [1, 2, 1, 2, 4, 4, 2, 4, 1, 2, 1, 2, 4, 2, 4, 4],
    [1, 2, 1, 2, 4, 1, 6, 5, 7, 7, 1, 2, 1, 6, 5, 7],
];
/// The most steps of a run of each kind, by the profile of the list.
const LONGEST_RUN: [[u64; 9]; 8] = [
    [1, 8, 4, 3, 3, 4, 1, 8, 1],
    [1, 8, 4, 3, 3, 4, 1, 8, 1],
    [1, 24, 12, 6, 8, 8, 1, 8, 1],
    [1, 64, 20, 6, 16, 8, 1, 8, 1],
    [1, 24, 12, 6, 8, 8, 1, 8, 1],
    [1, 64, 20, 6, 16, 8, 1, 8, 1],
    [1, 16, 16, 3, 3, 8, 1, 8, 1],
    [1, 5, 5, 3, 3, 4, 1, 8, 1],
];
/// The odds of a small supply are better by this many powers of two.
const SMALL_SHIFT: [u64; 9] = [0, 1, 0, 4, 6, 1, 3, 3, 4];

/// Cases below this shorten the lent buffers for one step and do nothing else.
const SHORT_CASES: u64 = 5;
/// Cases up to this are often followed by a recover.
const LAST_LOG_CASE: u64 = 12;

pub struct Rng(u64);

impl Rng {
    pub fn new(list: u64) -> Rng {
        let mut rng = Rng(GOLD.wrapping_add(list));
        for _ in 0..16 {
            rng.raw();
        }
        rng
    }

    pub fn raw(&mut self) -> u64 {
        self.0 ^= self.0 << 13;
        self.0 ^= self.0 >> 7;
        self.0 ^= self.0 << 17;
        self.0
    }

    fn draw(&mut self, below: u64) -> u64 {
        (self.raw() >> 16) % below
    }

    fn pick(&mut self, from: [u64; 4]) -> u64 {
        from[self.draw(4) as usize]
    }
}

pub fn fold(digest: u64, value: u64) -> u64 {
    (digest.rotate_left(5) ^ value).wrapping_add(GOLD)
}

/// What a list draws before its first step.
#[derive(Clone, Copy)]
pub struct Setup {
    pub words: usize,
    pub slots: usize,
    pub threads: u64,
    pub profile: usize,
    pub steps: u64,
    pub span: u64,
    pub base: u64,
    pub small_odds: u64,
    pub disturb_odds: u64,
    pub first_case: u64,
    pub cases: u64,
    pub values: u64,
    pub head: u64,
}

impl Setup {
    fn draw(rng: &mut Rng, list: u64) -> Setup {
        let mut words = rng.pick([8, 16, 64, 512]);
        let mut slots = rng.pick([8, 9, 40, 1024]);
        let most = 1 + rng.draw(8);
        let mut threads = 1 + rng.draw(most);
        let mut profile = rng.draw(4);
        let mut steps = 40 + rng.draw(61);
        let mut span = rng.pick([8, 16, 64, 512]);
        let mut small_odds = rng.pick([16, 32, 128, 512]);
        let mut disturb_odds = rng.pick([16, 32, 128, 1024]);
        let (mut first_case, mut cases) = (0, 30);
        let values = rng.pick([2, 4, 4, 64]);
        if list % 200 == 199 {
            (slots, profile, steps) = (1024, 4, 2500);
            (small_odds, disturb_odds) = (4096, 4096);
        } else if list % 16 == 15 {
            (words, span) = (words.max(64), 512);
            slots = if slots == 40 { 40 } else { 1024 };
            (profile, steps) = (3, 300);
            (small_odds, disturb_odds) = (128, 256);
        } else if list % 16 == 7 {
            (words, span) = (words.max(64), 512);
            (slots, profile, steps) = (1024, 5, 600);
            (small_odds, disturb_odds) = (512, 1024);
        } else if list % 16 == 3 {
            (words, span, slots) = (words.max(16), 16, 1024);
            (profile, steps) = (6, 250);
            (small_odds, disturb_odds) = (512, 8);
            (first_case, cases) = (18, 12);
        } else if list % 16 == 11 {
            (profile, steps) = (7, 150);
            (small_odds, disturb_odds) = (512, 4);
            (first_case, cases) = (5, 8);
        }
        span = span.min(words);
        threads = threads.min(1 + span / 8);
        let base = rng.draw(2) * (words - span);
        let near_end = NUMBER_END - rng.draw(3 * slots);
        let head = rng.pick([0, 0, 5 * slots + 3, near_end]);
        Setup {
            words: words as usize,
            slots: slots as usize,
            threads,
            profile: profile as usize,
            steps,
            span,
            base,
            small_odds,
            disturb_odds,
            first_case,
            cases,
            values,
            head,
        }
    }
}

/// One step as it is asked for.
#[derive(Clone, Copy)]
pub struct Step {
    pub kind: usize,
    pub thread: u64,
    /// A word number, or a line number for set down and write home.
    pub place: u64,
    pub value: u64,
    pub supply: u64,
    /// The case of the disturbance just before this step.
    pub case: Option<u64>,
    /// It is the recover that ends a disturbance or follows a cut.
    pub forced: bool,
}

/// One step with its outcome.
pub struct Event<'a> {
    pub setup: &'a Setup,
    pub step: Step,
    pub answer: u64,
    pub left: u64,
    /// The digest of the list so far.
    pub digest: u64,
    pub before: &'a State,
    pub after: &'a State,
    /// The home words before the first step and after this one.
    pub start_home: &'a [u64],
    pub home: &'a [u64],
}

struct Player {
    rng: Rng,
    setup: Setup,
    home: [u64; MAX_WORDS],
    working: [u64; MAX_WORDS],
    log: [u64; MAX_LOG],
    state: State,
    /// Steps until a recover is forced; 0 if none is due.
    mend: u64,
    /// The last forced recover was answered 13 or 14.
    spoiled: bool,
    /// An overwritten log word: its index, its old and its new value.
    patch: Option<(usize, u64, u64)>,
    /// Where in its script the list is.
    at: usize,
    kind: usize,
    run: u64,
    /// The next step of a store run is a begin instead.
    opening: bool,
    thread: u64,
    /// The word a run starts with, less the base.
    start: u64,
    /// Steps since the run started.
    index: u64,
}

impl Player {
    fn new(list: u64) -> Player {
        let mut rng = Rng::new(list);
        let setup = Setup::draw(&mut rng, list);
        let mut player = Player {
            rng,
            setup,
            home: [0; MAX_WORDS],
            working: [0; MAX_WORDS],
            log: [0; MAX_LOG],
            state: State::DARK,
            mend: 1,
            spoiled: false,
            patch: None,
            at: 0,
            kind: RECOVER,
            run: 0,
            opening: false,
            thread: 0,
            start: 0,
            index: 0,
        };
        player.fill_buffers();
        player
    }

    fn fill_buffers(&mut self) {
        for word in &mut self.home[..self.setup.words] {
            *word = self.rng.draw(4);
        }
        for word in &mut self.working[..self.setup.words] {
            *word = self.rng.raw();
        }
        let slots = self.setup.slots as u64;
        self.log[0] = self.setup.head;
        for number in self.setup.head..self.setup.head + slots {
            let header = 3 + 3 * (number % slots) as usize;
            self.log[header] = (number / slots % 2) << 58;
        }
    }

    /// Whether this step is the recover that ends a disturbance or a cut.
    fn forced(&mut self) -> bool {
        if self.mend == 0 {
            return false;
        }
        self.mend -= 1;
        if self.mend > 0 {
            return false;
        }
        let patch = self.patch.take();
        if self.spoiled {
            self.log.fill(0);
        } else if let Some((index, old, new)) = patch {
            if self.log[index] == new {
                self.log[index] = old;
            }
        }
        true
    }

    fn new_run(&mut self) {
        let profile = self.setup.profile;
        let steady = matches!(profile, 3 | 5 | 6);
        self.at = (self.at + 1) % 16;
        if !steady && self.rng.draw(4) == 0 {
            self.at = self.rng.draw(16) as usize;
        }
        let moves = if steady {
            self.at % 8 == 0
        } else {
            self.rng.draw(4) == 0
        };
        if moves {
            self.thread = self.rng.draw(self.setup.threads);
            self.start = self.rng.draw(self.setup.span);
        }
        self.kind = SCRIPTS[profile][self.at];
        let longest = LONGEST_RUN[profile][self.kind];
        let half = (longest + 1) / 2;
        self.run = if steady {
            half + self.rng.draw(half)
        } else {
            1 + self.rng.draw(longest)
        };
        self.opening = self.rng.draw(16) != 0;
        self.index = 0;
    }

    fn step_kind(&mut self, forced: bool, case: Option<u64>) -> usize {
        let cuts_in = case.is_some_and(|c| c <= LAST_LOG_CASE) && self.rng.draw(2) == 0;
        if forced || cuts_in {
            self.run = 0;
            return RECOVER;
        }
        if self.run == 0 {
            self.new_run();
        }
        self.run -= 1;
        if self.kind == STORE && self.opening {
            self.opening = false;
            return BEGIN;
        }
        self.kind
    }

    fn step_thread(&mut self) -> u64 {
        let r = self.rng.raw();
        if r % 32 == 0 {
            [8, 9, 256, u64::MAX][(r >> 16) as usize % 4]
        } else {
            self.thread
        }
    }

    /// A line number for set down and write home, else a word number.
    fn step_place(&mut self, kind: usize) -> u64 {
        let by_line = matches!(kind, SET_DOWN | WRITE_HOME);
        let unit = if by_line { 8 } else { 1 };
        let limit = self.setup.words as u64 / unit;
        let (base, span) = (self.setup.base / unit, self.setup.span / unit);
        let r = self.rng.raw();
        let place = match r % 32 {
            0 => [limit, limit + 1, 1 << 61, u64::MAX][(r >> 16) as usize % 4],
            1 | 2 => base + (r >> 16) % span,
            _ if by_line => base + self.own_line(self.start / 8 + self.index),
            _ => {
                let next = self.start + self.index;
                base + 8 * self.own_line(next / 8) + next % 8
            }
        };
        self.index += 1;
        place
    }

    /// The threads take turns at the lines of the span.
    fn own_line(&self, turn: u64) -> u64 {
        (turn * self.setup.threads + self.thread) % (self.setup.span / 8)
    }

    fn step_value(&mut self) -> u64 {
        let r = self.rng.raw();
        if r % 16 == 0 {
            r
        } else {
            (r >> 16) % self.setup.values
        }
    }

    fn step_supply(&mut self, kind: usize) -> u64 {
        let r = self.rng.raw();
        let odds = self.setup.small_odds >> SMALL_SHIFT[kind];
        if r % odds.max(1) == 0 {
            (r >> 24) % (1 << ((r >> 16) % 8))
        } else {
            u64::MAX
        }
    }

    /// Draws whether and how to disturb.
    fn disturb(&mut self) -> Option<u64> {
        let barred = match self.setup.profile {
            6 => self.kind != SET_DOWN,
            7 => self.kind != DELETE,
            _ => false,
        };
        if barred || self.rng.raw() % self.setup.disturb_odds != 0 {
            return None;
        }
        if self.mend > 0 {
            return Some(self.rng.draw(SHORT_CASES));
        }
        let Setup {
            first_case, cases, ..
        } = self.setup;
        let case = first_case + self.rng.draw(cases);
        let a = self.rng.raw() >> 16;
        let b = self.rng.raw() >> 16;
        if case >= SHORT_CASES {
            self.mend = 1 + self.rng.draw(6);
            self.change(case, a, b);
        }
        Some(case)
    }

    fn change(&mut self, case: u64, a: u64, b: u64) {
        match case {
            5..=12 => self.change_log(case, a, b),
            13..=17 => self.change_numbers(case, a),
            18..=23 => self.change_lines(case, a, b),
            _ => self.change_entries(case, a, b),
        }
    }

    fn change_log(&mut self, case: u64, a: u64, b: u64) {
        let State { head, tail, .. } = self.state;
        let number = head + a % (tail - head).max(1);
        let slot = 1 + 3 * (number % self.setup.slots as u64) as usize;
        let any = slot + (b % 3) as usize;
        let heads = [head + 1, NUMBER_END, NUMBER_END + 1, u64::MAX];
        let (index, new) = match case {
            5 => (0, heads[a as usize % 4]),
            6..=8 => (any, self.log[any] ^ 1 << (b / 3 % 4)),
            9 => (any, self.log[any] ^ 1 << (b / 3 % 64)),
            10 | 11 => (slot + 2, self.log[slot + 2] ^ 1 << (48 + b % 16)),
            _ => (slot + 2, self.log[slot + 2] ^ 1 << 58),
        };
        self.patch = Some((index, self.log[index], new));
        self.log[index] = new;
    }

    fn change_numbers(&mut self, case: u64, a: u64) {
        let state = &mut self.state;
        let State { head, tail, .. } = *state;
        let (words, slots, pick) = (state.words, state.slots, a as usize % 4);
        let end = head + slots as u64;
        match case {
            13 => state.words = [0, 4, words + 1, 520][pick],
            14 => state.slots = [7, 1025, 8, 1024][pick],
            15 => state.head = [head + 1, tail + 1, NUMBER_END + 1, u64::MAX][pick],
            16 => state.tail = [tail + 1, end + 1, NUMBER_END + 1, head.saturating_sub(1)][pick],
            _ => state.tail = end,
        }
    }

    fn change_lines(&mut self, case: u64, a: u64, b: u64) {
        let word = (self.setup.base + a % self.setup.span) as usize;
        let (state, line) = (&mut self.state, word / 8);
        match case {
            18 => state.holder[line] = [8, 9, 254, NOBODY][b as usize % 4],
            19 => state.holder[line] = (b % 8) as u8,
            20 => state.set_word_state(word, (b % 4) as u16),
            21 => state.dirty[line] = !state.dirty[line],
            22 => state.open[(b % self.setup.threads) as usize] = false,
            _ => state.open[(b % 8) as usize] = true,
        }
    }

    fn change_entries(&mut self, case: u64, a: u64, b: u64) {
        let limit = self.setup.words;
        let entries = match case {
            24..=26 => self.state.undo.entries_mut(),
            _ => self.state.redo.entries_mut(),
        };
        let len = entries.len();
        if len == 0 {
            return;
        }
        let index = a as usize % len;
        let next = entries[(index + 1) % len].word;
        let words = [limit as u16, 65535, (b / 4 % limit as u64) as u16, next];
        let entry = &mut entries[index];
        match case {
            24 | 27 => entry.thread = [8, 255, (b / 4 % 8) as u8, 9][b as usize % 4],
            25 | 28 => entry.word = words[b as usize % 4],
            _ => {
                let holder = [8, NOBODY][b as usize % 2];
                let line = entry.word / 8;
                let same_line = entries.iter_mut().filter(|e| e.word / 8 == line);
                same_line.for_each(|e| e.thread = holder);
                self.state.holder[line as usize] = holder;
            }
        }
    }

    /// Lengths of home, working and log lent to a step.
    fn lengths(&self, case: Option<u64>) -> (usize, usize, usize) {
        let (words, slots) = (self.setup.words, self.setup.slots);
        let log = 1 + 3 * slots;
        match case {
            Some(0) => (words - 1, words, log),
            Some(1) => (words, words - 8, log),
            Some(2) => (words - 8, words - 8, log),
            Some(3) => (words, words, log - 1),
            Some(4) if slots == 8 => (words, words, 22),
            Some(4) => (words, words, 25),
            _ => (words, words, log),
        }
    }

    fn next_step(&mut self) -> Step {
        let forced = self.forced();
        let case = if forced { None } else { self.disturb() };
        let kind = self.step_kind(forced, case);
        Step {
            kind,
            thread: self.step_thread(),
            place: self.step_place(kind),
            value: self.step_value(),
            supply: self.step_supply(kind),
            case,
            forced,
        }
    }

    fn perform(&mut self, step: &Step) -> Outcome {
        let Step {
            supply,
            thread,
            place,
            ..
        } = *step;
        let (home, working, log) = self.lengths(step.case);
        let lent = &mut Lent {
            home: &mut self.home[..home],
            working: &mut self.working[..working],
            log: &mut self.log[..log],
        };
        let state = &mut self.state;
        match step.kind {
            BEGIN => state.begin(supply, thread),
            STORE => state.store(lent, supply, thread, place, step.value),
            LOG_UNDO => state.log_undo(lent, supply),
            LOG_REDO => state.log_redo(lent, supply),
            SET_DOWN => state.set_down(lent, supply, place),
            WRITE_HOME => state.write_home(lent, supply, place),
            COMMIT => state.commit(lent, supply, thread),
            DELETE => state.delete(lent, supply),
            _ => state.recover(lent, supply),
        }
    }

    /// Sees to it that the run goes on after this step.
    fn look_after(&mut self, step: &Step, answer: u64) {
        if step.forced {
            self.spoiled = answer == HEAD || answer == DAMAGED;
        }
        let short = step.case.is_some_and(|c| c < SHORT_CASES);
        let strayed = step.kind == RECOVER && (answer != DONE || short);
        if (answer == CUT || strayed) && self.mend == 0 {
            self.mend = 1 + self.rng.draw(3);
        }
    }

    /// Whether the buffers go into the digest even if this step is not the last.
    fn folds_buffers(&self, step: &Step, answer: u64) -> bool {
        let small = self.setup.words < 512 && self.setup.slots < 1024;
        small || answer == CUT || step.kind == RECOVER
    }

    fn fold_buffers(&self, digest: u64) -> u64 {
        let words = self.setup.words;
        let home = self.home[..words].iter();
        let working = self.working[..words].iter();
        let log = self.log[..1 + 3 * self.setup.slots].iter();
        let all = home.chain(working).chain(log);
        all.fold(digest, |d, &value| fold(d, value))
    }
}

/// Plays one list, shows each step and returns the digest.
pub fn play(list: u64, mut seen: impl FnMut(&Event)) -> u64 {
    let mut player = Player::new(list);
    let Setup { steps, words, .. } = player.setup;
    let start_home = player.home;
    let mut digest = 0;
    for number in 1..=steps {
        let step = player.next_step();
        let before = player.state;
        let (answer, left) = player.perform(&step);
        player.look_after(&step, answer);
        digest = fold(fold(digest, answer), left);
        if number == steps || player.folds_buffers(&step, answer) {
            digest = player.fold_buffers(digest);
        }
        seen(&Event {
            setup: &player.setup,
            step,
            answer,
            left,
            digest,
            before: &before,
            after: &player.state,
            start_home: &start_home[..words],
            home: &player.home[..words],
        });
    }
    digest
}
