//! A crash-safe word store: home, working copy, log and recovery.
//!
//! Each step judges its input first and changes nothing if it refuses. Then it
//! makes its stores to home and log one by one while the supply lasts.

use std::ops::Range;

pub const MAX_WORDS: usize = 512;
pub const MAX_LINES: usize = MAX_WORDS / 8;
pub const MAX_SLOTS: usize = 1024;
pub const MAX_LOG: usize = 1 + 3 * MAX_SLOTS;
pub const THREADS: usize = 8;
pub const UNDO_PLACES: usize = 16;
pub const REDO_PLACES: usize = 32;

/// Record numbers are below this; head and tail are at most this.
pub const NUMBER_END: u64 = 1 << 48;
/// The holder of a line that nobody holds.
pub const NOBODY: u8 = 255;
/// A supply that no step uses up.
pub const AMPLE: u64 = u64::MAX;

pub const DONE: u64 = 0;
pub const SIZE: u64 = 1;
pub const DARK: u64 = 2;
pub const UNSOUND: u64 = 3;
pub const THREAD: u64 = 4;
pub const PLACE: u64 = 5;
pub const IDLE: u64 = 6;
pub const BUSY: u64 = 7;
pub const HELD: u64 = 8;
pub const PENDING: u64 = 9;
pub const FULL: u64 = 10;
pub const WORN: u64 = 11;
pub const NOTHING: u64 = 12;
pub const HEAD: u64 = 13;
pub const DAMAGED: u64 = 14;
pub const NEEDED: u64 = 15;
/// Full, and the oldest record is open.
pub const FULL_OPEN: u64 = 16;
/// Full, and the oldest record is closed, but its line is dirty.
pub const FULL_DIRTY: u64 = 17;
pub const CUT: u64 = 255;

/// Answer number and supply count left.
pub type Outcome = (u64, u64);
/// Passed, or the number of the refusal.
type Verdict<T = ()> = Result<T, u64>;

fn refuse_if(bad: bool, number: u64) -> Verdict {
    if bad {
        Err(number)
    } else {
        Ok(())
    }
}

/// The three buffers a step is lent.
pub struct Lent<'a> {
    pub home: &'a mut [u64],
    pub working: &'a mut [u64],
    pub log: &'a mut [u64],
}

fn words_ok(words: usize) -> bool {
    words % 8 == 0 && (8..=MAX_WORDS).contains(&words)
}

fn slots_ok(slots: usize) -> bool {
    (8..=MAX_SLOTS).contains(&slots)
}

impl Lent<'_> {
    /// W and L as the lengths tell them, if these are within the limits.
    fn sizes(&self) -> Verdict<(usize, usize)> {
        let (words, len) = (self.home.len(), self.log.len());
        refuse_if(!words_ok(words) || self.working.len() != words, SIZE)?;
        refuse_if(len % 3 != 1 || !slots_ok(len / 3), SIZE)?;
        Ok((words, len / 3))
    }
}

/// Makes stores to home and log until the count is spent.
struct Supply {
    left: u64,
    cut: bool,
}

impl Supply {
    fn new(left: u64) -> Self {
        Supply { left, cut: false }
    }

    fn put(&mut self, place: &mut u64, value: u64) {
        if self.left == 0 {
            self.cut = true;
        } else {
            self.left -= 1;
            *place = value;
        }
    }
}

#[derive(Clone, Copy, PartialEq, Eq, Debug)]
enum Kind {
    UndoRedo = 1,
    Redo = 2,
    Commit = 3,
}

#[derive(Clone, Copy)]
struct Record {
    kind: Kind,
    thread: u8,
    word: usize,
    undo: u64,
    redo: u64,
}

const TORN: u64 = 1 << 58;

/// The slots of a log from its head on; only `new` divides.
struct Window {
    slots: usize,
    /// Slot and torn bit of the record at the head.
    first: usize,
    torn: u64,
}

impl Window {
    fn new(head: u64, slots: usize) -> Window {
        let (pass, first) = (head / slots as u64, head % slots as u64);
        let torn = if pass % 2 == 0 { TORN } else { 0 };
        Window {
            slots,
            first: first as usize,
            torn,
        }
    }

    /// The words of the slot `index` records after the head.
    fn slot(&self, index: usize) -> Range<usize> {
        let slot = self.first + index;
        let slot = if slot < self.slots {
            slot
        } else {
            slot - self.slots
        };
        1 + 3 * slot..4 + 3 * slot
    }

    /// The torn bit of the record `index` records after the head.
    fn torn(&self, index: usize) -> u64 {
        if self.first + index < self.slots {
            self.torn
        } else {
            self.torn ^ TORN
        }
    }
}

impl Record {
    fn header(&self, torn: u64) -> u64 {
        self.word as u64 | (self.thread as u64) << 48 | (self.kind as u64) << 56 | torn
    }

    fn write(&self, supply: &mut Supply, slot: &mut [u64], torn: u64) {
        supply.put(&mut slot[0], self.undo);
        supply.put(&mut slot[1], self.redo);
        supply.put(&mut slot[2], self.header(torn));
    }

    /// Reads a slot back; a bad record is none.
    fn read(slot: &[u64], words: usize) -> Option<Record> {
        let (undo, redo, header) = (slot[0], slot[1], slot[2]);
        let word = header & (NUMBER_END - 1);
        let thread = (header >> 48) as u8;
        if header >> 59 != 0 || thread as usize >= THREADS || word >= words as u64 {
            return None;
        }
        let kind = match header >> 56 & 3 {
            1 => Kind::UndoRedo,
            2 if undo == 0 => Kind::Redo,
            3 if undo == 0 && redo == 0 && word == 0 => Kind::Commit,
            _ => return None,
        };
        let word = word as usize;
        Some(Record {
            kind,
            thread,
            word,
            undo,
            redo,
        })
    }
}

/// Whether the oldest record may be deleted, and if not, why.
enum Oldest {
    /// The log has no record.
    Absent,
    Bad,
    /// No commit, and no later commit of its thread is in the log.
    Open,
    /// No commit; a later one of its thread is there, but its line is dirty.
    Needed,
    Deletable,
}

/// A change that waits to be logged. Redo entries leave `undo` 0.
#[derive(Clone, Copy, PartialEq, Eq, Debug)]
pub struct Entry {
    pub thread: u8,
    pub word: u16,
    pub undo: u64,
    pub redo: u64,
}

impl Entry {
    const BLANK: Entry = Entry {
        thread: 0,
        word: 0,
        undo: 0,
        redo: 0,
    };

    fn record(&self, kind: Kind) -> Record {
        Record {
            kind,
            thread: self.thread,
            word: self.word as usize,
            undo: self.undo,
            redo: self.redo,
        }
    }
}

/// First in, first out; the oldest entry lies at index 0.
#[derive(Clone, Copy, PartialEq, Eq, Debug)]
pub struct Queue<const N: usize> {
    len: usize,
    entries: [Entry; N],
}

impl<const N: usize> Queue<N> {
    const EMPTY: Self = Queue {
        len: 0,
        entries: [Entry::BLANK; N],
    };

    pub fn entries(&self) -> &[Entry] {
        &self.entries[..self.len]
    }

    pub fn entries_mut(&mut self) -> &mut [Entry] {
        &mut self.entries[..self.len]
    }

    fn push(&mut self, entry: Entry) {
        self.entries[self.len] = entry;
        self.len += 1;
    }

    fn pop(&mut self) -> Entry {
        let oldest = self.entries[0];
        self.remove(0);
        oldest
    }

    fn remove(&mut self, index: usize) {
        self.entries.copy_within(index + 1..self.len, index);
        self.len -= 1;
    }

    fn discard(&mut self, word: usize) {
        if let Some(index) = self.entries().iter().position(|e| e.word as usize == word) {
            self.remove(index);
        }
    }
}

pub const CLEAN: u16 = 0;
pub const DIRTY: u16 = 1;
pub const URLOG: u16 = 2;
pub const ULOG: u16 = 3;

/// The low bit of each of the eight two-bit fields of a line's state.
const LOW_BITS: u16 = 0x5555;

/// One low bit for each Dirty word.
fn dirty_bits(line: u16) -> u16 {
    line & !(line >> 1) & LOW_BITS
}

/// One low bit for each ULog word.
fn ulog_bits(line: u16) -> u16 {
    line & line >> 1 & LOW_BITS
}

/// One low bit for each word that is not Clean.
fn used_bits(line: u16) -> u16 {
    (line | line >> 1) & LOW_BITS
}

fn ulog_count(line: u16) -> usize {
    ulog_bits(line).count_ones() as usize
}

/// The numbers of the ULog words of line `index`, rising.
fn ulog_words(index: usize, line: u16) -> impl Iterator<Item = usize> {
    let bits = ulog_bits(line);
    let words = (0..8).filter(move |i| bits >> (2 * i) & 1 == 1);
    words.map(move |i| 8 * index + i)
}

#[derive(Clone, Copy, PartialEq, Eq, Debug)]
pub struct State {
    pub dark: bool,
    pub words: usize,
    pub slots: usize,
    pub head: u64,
    pub tail: u64,
    pub open: [bool; THREADS],
    pub holder: [u8; MAX_LINES],
    pub dirty: [bool; MAX_LINES],
    /// Two bits for each word of a line, word 0 lowest.
    pub states: [u16; MAX_LINES],
    pub undo: Queue<UNDO_PLACES>,
    pub redo: Queue<REDO_PLACES>,
}

/// What recovery learns before it stores anything.
struct Found {
    words: usize,
    slots: usize,
    head: u64,
    /// How many records were read.
    count: usize,
    /// The place after the head of each thread's last commit; 0 if it has none.
    last_commit: [usize; THREADS],
}

impl Found {
    /// Reads records from the head on, as far as the torn bit is right.
    fn scan(lent: &Lent) -> Verdict<Found> {
        let (words, slots) = lent.sizes()?;
        let head = lent.log[0];
        refuse_if(head > NUMBER_END, HEAD)?;
        let window = Window::new(head, slots);
        let most = (NUMBER_END - head).min(slots as u64) as usize;
        let (mut count, mut last_commit) = (0, [0; THREADS]);
        while count < most {
            let slot = &lent.log[window.slot(count)];
            if slot[2] & TORN != window.torn(count) {
                break;
            }
            let record = Record::read(slot, words).ok_or(DAMAGED)?;
            if record.kind == Kind::Commit {
                last_commit[record.thread as usize] = count;
            }
            count += 1;
        }
        Ok(Found {
            words,
            slots,
            head,
            count,
            last_commit,
        })
    }

    /// The closed records' redo words in log order, then the open undo+redo
    /// records' undo words in reverse order.
    fn restore(&self, lent: &mut Lent, supply: &mut Supply) {
        let window = Window::new(self.head, self.slots);
        let read = |log: &[u64], index: usize| {
            let record = Record::read(&log[window.slot(index)], self.words)?;
            let closed = index < self.last_commit[record.thread as usize];
            Some((record, closed))
        };
        for index in 0..self.count {
            match read(lent.log, index) {
                Some((r, true)) if r.kind != Kind::Commit => {
                    supply.put(&mut lent.home[r.word], r.redo)
                }
                _ => {}
            }
        }
        for index in (0..self.count).rev() {
            match read(lent.log, index) {
                Some((r, false)) if r.kind == Kind::UndoRedo => {
                    supply.put(&mut lent.home[r.word], r.undo)
                }
                _ => {}
            }
        }
    }
}

impl State {
    /// The state after a cut or a refused recover; no step takes it.
    pub const DARK: State = State {
        dark: true,
        words: 0,
        slots: 0,
        head: 0,
        tail: 0,
        open: [false; THREADS],
        holder: [0; MAX_LINES],
        dirty: [false; MAX_LINES],
        states: [CLEAN; MAX_LINES],
        undo: Queue::EMPTY,
        redo: Queue::EMPTY,
    };

    fn fresh(words: usize, slots: usize, number: u64) -> State {
        State {
            dark: false,
            words,
            slots,
            head: number,
            tail: number,
            holder: [NOBODY; MAX_LINES],
            ..State::DARK
        }
    }

    // Soundness.

    /// Sound but for log word 0. Takes one pass over entries and lines.
    fn sound(&self) -> bool {
        if !self.numbers_sound() {
            return false;
        }
        let undo = self.marks(self.undo.entries());
        let redo = self.marks(self.redo.entries());
        match (undo, redo) {
            (Some(undo), Some(redo)) => self.lines_sound(&undo, &redo),
            _ => false,
        }
    }

    fn numbers_sound(&self) -> bool {
        words_ok(self.words)
            && slots_ok(self.slots)
            && self.tail <= NUMBER_END
            && self.head <= self.tail
            && self.tail - self.head <= self.slots as u64
    }

    /// One low bit for each word that has an entry. None if a word has two, or
    /// if an entry's word or thread is out of place.
    fn marks(&self, entries: &[Entry]) -> Option<[u16; MAX_LINES]> {
        let mut marks = [0; MAX_LINES];
        for entry in entries {
            let word = entry.word as usize;
            if word >= self.words || entry.thread as usize >= THREADS {
                return None;
            }
            let (line, bit) = (word / 8, 1 << (2 * (word % 8)));
            let twice = marks[line] & bit != 0;
            if twice || self.holder[line] != entry.thread {
                return None;
            }
            marks[line] |= bit;
        }
        Some(marks)
    }

    /// Exactly the Dirty words have undo+redo entries, only Clean words have
    /// redo entries, unheld lines are Clean, and every holder is allowed.
    fn lines_sound(&self, undo: &[u16; MAX_LINES], redo: &[u16; MAX_LINES]) -> bool {
        let mut allowed = [false; 256];
        allowed[..THREADS].copy_from_slice(&self.open);
        allowed[NOBODY as usize] = true;
        let lines = self.words / 8;
        let (holder, states) = (&self.holder[..lines], &self.states[..lines]);
        let (undo, redo) = (&undo[..lines], &redo[..lines]);
        let mut wrong = 0;
        for i in 0..lines {
            let loose = if holder[i] == NOBODY { states[i] } else { 0 };
            wrong |= undo[i] ^ dirty_bits(states[i]);
            wrong |= redo[i] & used_bits(states[i]) | loose;
        }
        wrong == 0 && holder.iter().all(|&h| allowed[h as usize])
    }

    pub fn word_state(&self, word: usize) -> u16 {
        self.states[word / 8] >> (2 * (word % 8)) & 3
    }

    pub fn set_word_state(&mut self, word: usize, state: u16) {
        let (line, shift) = (&mut self.states[word / 8], 2 * (word % 8));
        *line = *line & !(3 << shift) | state << shift;
    }

    // Judging.

    fn judge_state(&self) -> Verdict {
        refuse_if(self.dark, DARK)?;
        refuse_if(!self.sound(), UNSOUND)
    }

    /// What every step but begin and recover asks first.
    fn judge(&self, lent: &Lent) -> Verdict {
        let sizes = lent.sizes()?;
        refuse_if(!self.dark && sizes != (self.words, self.slots), SIZE)?;
        self.judge_state()?;
        refuse_if(lent.log[0] != self.head, UNSOUND)
    }

    fn judge_thread(thread: u64) -> Verdict<usize> {
        refuse_if(thread >= THREADS as u64, THREAD)?;
        Ok(thread as usize)
    }

    /// The line of this number, if it has no Dirty word.
    fn judge_line(&self, line: u64) -> Verdict<usize> {
        refuse_if(line >= self.words as u64 / 8, PLACE)?;
        let line = line as usize;
        refuse_if(dirty_bits(self.states[line]) != 0, PENDING)?;
        Ok(line)
    }

    /// The one rule about the oldest record, for a delete and for a full log.
    /// It reads by decoding alone: a bad record is no commit.
    fn oldest(&self, log: &[u64]) -> Oldest {
        let count = (self.tail - self.head) as usize;
        if count == 0 {
            return Oldest::Absent;
        }
        let window = Window::new(self.head, self.slots);
        let read = |index| Record::read(&log[window.slot(index)], self.words);
        let Some(oldest) = read(0) else {
            return Oldest::Bad;
        };
        if oldest.kind == Kind::Commit {
            return Oldest::Deletable;
        }
        let closes = |r: Record| r.kind == Kind::Commit && r.thread == oldest.thread;
        let closed = (1..count).any(|index| read(index).is_some_and(closes));
        if !closed {
            Oldest::Open
        } else if self.dirty[oldest.word / 8] {
            Oldest::Needed
        } else {
            Oldest::Deletable
        }
    }

    /// The number for a log without room: 10 unless a delete would be refused
    /// because the oldest record is needed.
    fn why_full(&self, log: &[u64]) -> u64 {
        match self.oldest(log) {
            Oldest::Open => FULL_OPEN,
            Oldest::Needed => FULL_DIRTY,
            Oldest::Absent | Oldest::Bad | Oldest::Deletable => FULL,
        }
    }

    /// Whether there is room for the records, and numbers. The oldest record is
    /// looked at only where there is no room.
    fn judge_records(&self, lent: &Lent, records: usize) -> Verdict {
        let after = self.tail + records as u64;
        if after > self.head + self.slots as u64 {
            return Err(self.why_full(lent.log));
        }
        refuse_if(after > NUMBER_END, WORN)
    }

    fn judge_begin(&self, thread: u64) -> Verdict<usize> {
        self.judge_state()?;
        let thread = Self::judge_thread(thread)?;
        refuse_if(self.open[thread], BUSY)?;
        Ok(thread)
    }

    fn judge_store(&self, lent: &Lent, thread: u64, word: u64, value: u64) -> Verdict {
        self.judge(lent)?;
        let thread = Self::judge_thread(thread)?;
        refuse_if(word >= self.words as u64, PLACE)?;
        let word = word as usize;
        refuse_if(!self.open[thread], IDLE)?;
        let holder = self.holder[word / 8];
        let free = holder == NOBODY || holder as usize == thread;
        refuse_if(!free, HELD)?;
        let adds = value != lent.working[word] && self.word_state(word) == CLEAN;
        let logs = adds && self.undo.len == UNDO_PLACES;
        self.judge_records(lent, logs as usize)
    }

    fn judge_log(&self, lent: &Lent, waiting: usize) -> Verdict {
        self.judge(lent)?;
        self.judge_records(lent, waiting.min(1))?;
        refuse_if(waiting == 0, NOTHING)
    }

    /// The line, and how many redo entries must be logged to make places.
    fn judge_set_down(&self, lent: &Lent, line: u64) -> Verdict<(usize, usize)> {
        self.judge(lent)?;
        let line = self.judge_line(line)?;
        let new = ulog_count(self.states[line]);
        let lacking = (self.redo.len + new).saturating_sub(REDO_PLACES);
        self.judge_records(lent, lacking)?;
        Ok((line, lacking))
    }

    fn judge_write_home(&self, lent: &Lent, line: u64) -> Verdict<usize> {
        self.judge(lent)?;
        self.judge_line(line)
    }

    fn judge_commit(&self, lent: &Lent, thread: u64) -> Verdict<u8> {
        self.judge(lent)?;
        let thread = Self::judge_thread(thread)?;
        refuse_if(!self.open[thread], IDLE)?;
        let thread = thread as u8;
        let held = self.held_lines(thread);
        let ulog: usize = held.map(|line| ulog_count(self.states[line])).sum();
        self.judge_records(lent, self.undo.len + self.redo.len + ulog + 1)?;
        Ok(thread)
    }

    fn judge_delete(&self, lent: &Lent) -> Verdict {
        self.judge(lent)?;
        match self.oldest(lent.log) {
            Oldest::Absent => Err(NOTHING),
            Oldest::Bad => Err(DAMAGED),
            Oldest::Open | Oldest::Needed => Err(NEEDED),
            Oldest::Deletable => Ok(()),
        }
    }

    // Doing.

    fn append(&mut self, log: &mut [u64], supply: &mut Supply, record: Record) {
        let window = Window::new(self.tail, self.slots);
        record.write(supply, &mut log[window.slot(0)], window.torn);
        self.tail += 1;
    }

    fn log_oldest_undo(&mut self, log: &mut [u64], supply: &mut Supply) {
        let entry = self.undo.pop();
        let word = entry.word as usize;
        self.set_word_state(word, URLOG);
        self.append(log, supply, entry.record(Kind::UndoRedo));
    }

    fn log_oldest_redo(&mut self, log: &mut [u64], supply: &mut Supply) {
        let entry = self.redo.pop();
        self.append(log, supply, entry.record(Kind::Redo));
    }

    fn log_both_queues(&mut self, log: &mut [u64], supply: &mut Supply) {
        for index in 0..self.undo.len {
            let entry = self.undo.entries[index];
            let word = entry.word as usize;
            self.set_word_state(word, URLOG);
            self.append(log, supply, entry.record(Kind::UndoRedo));
        }
        for index in 0..self.redo.len {
            let entry = self.redo.entries[index];
            self.append(log, supply, entry.record(Kind::Redo));
        }
        self.undo.len = 0;
        self.redo.len = 0;
    }

    /// Puts a changed word's new value where recovery will find it.
    fn note_change(&mut self, log: &mut [u64], supply: &mut Supply, entry: Entry) {
        let word = entry.word as usize;
        match self.word_state(word) {
            CLEAN => {
                self.redo.discard(word);
                if self.undo.len == UNDO_PLACES {
                    self.log_oldest_undo(log, supply);
                }
                self.undo.push(entry);
                self.set_word_state(word, DIRTY);
            }
            DIRTY => {
                let mut waiting = self.undo.entries_mut().iter_mut();
                if let Some(old) = waiting.find(|e| e.word == entry.word) {
                    old.redo = entry.redo;
                }
            }
            _ => self.set_word_state(word, ULOG),
        }
    }

    fn held_lines(&self, thread: u8) -> impl Iterator<Item = usize> + '_ {
        (0..self.words / 8).filter(move |&line| self.holder[line] == thread)
    }

    /// Logs what only working holds of the thread's lines, and frees these.
    fn log_and_free_lines(&mut self, lent: &mut Lent, supply: &mut Supply, thread: u8) {
        for index in 0..self.words / 8 {
            if self.holder[index] != thread {
                continue;
            }
            for word in ulog_words(index, self.states[index]) {
                let entry = redo_entry(thread, word, lent.working[word]);
                self.append(lent.log, supply, entry.record(Kind::Redo));
            }
            self.holder[index] = NOBODY;
            self.states[index] = CLEAN;
        }
    }

    /// Done, or cut: then working is wiped and the state is dark.
    fn finish(&mut self, lent: &mut Lent, supply: Supply) -> Outcome {
        if supply.cut {
            lent.working.fill(0);
            *self = State::DARK;
            return (CUT, 0);
        }
        (DONE, supply.left)
    }

    // The nine steps.

    /// Lent no buffers; the count is handed back as it came.
    pub fn begin(&mut self, supply: u64, thread: u64) -> Outcome {
        match self.judge_begin(thread) {
            Err(number) => (number, supply),
            Ok(thread) => {
                self.open[thread] = true;
                (DONE, supply)
            }
        }
    }

    pub fn store(
        &mut self,
        lent: &mut Lent,
        supply: u64,
        thread: u64,
        word: u64,
        value: u64,
    ) -> Outcome {
        if let Err(number) = self.judge_store(lent, thread, word, value) {
            return (number, supply);
        }
        let mut supply = Supply::new(supply);
        let (thread, index) = (thread as u8, word as usize);
        self.holder[index / 8] = thread;
        let undo = lent.working[index];
        if value != undo {
            self.dirty[index / 8] = true;
            lent.working[index] = value;
            let entry = Entry {
                thread,
                word: index as u16,
                undo,
                redo: value,
            };
            self.note_change(lent.log, &mut supply, entry);
        }
        self.finish(lent, supply)
    }

    pub fn log_undo(&mut self, lent: &mut Lent, supply: u64) -> Outcome {
        if let Err(number) = self.judge_log(lent, self.undo.len) {
            return (number, supply);
        }
        let mut supply = Supply::new(supply);
        self.log_oldest_undo(lent.log, &mut supply);
        self.finish(lent, supply)
    }

    pub fn log_redo(&mut self, lent: &mut Lent, supply: u64) -> Outcome {
        if let Err(number) = self.judge_log(lent, self.redo.len) {
            return (number, supply);
        }
        let mut supply = Supply::new(supply);
        self.log_oldest_redo(lent.log, &mut supply);
        self.finish(lent, supply)
    }

    pub fn set_down(&mut self, lent: &mut Lent, supply: u64, line: u64) -> Outcome {
        let (index, lacking) = match self.judge_set_down(lent, line) {
            Err(number) => return (number, supply),
            Ok(plan) => plan,
        };
        let mut supply = Supply::new(supply);
        for _ in 0..lacking {
            self.log_oldest_redo(lent.log, &mut supply);
        }
        for word in ulog_words(index, self.states[index]) {
            let entry = redo_entry(self.holder[index], word, lent.working[word]);
            self.redo.push(entry);
        }
        self.states[index] = CLEAN;
        self.finish(lent, supply)
    }

    pub fn write_home(&mut self, lent: &mut Lent, supply: u64, line: u64) -> Outcome {
        let index = match self.judge_write_home(lent, line) {
            Err(number) => return (number, supply),
            Ok(index) => index,
        };
        let mut supply = Supply::new(supply);
        for word in 8 * index..8 * index + 8 {
            supply.put(&mut lent.home[word], lent.working[word]);
        }
        self.dirty[index] = false;
        self.finish(lent, supply)
    }

    pub fn commit(&mut self, lent: &mut Lent, supply: u64, thread: u64) -> Outcome {
        let thread = match self.judge_commit(lent, thread) {
            Err(number) => return (number, supply),
            Ok(thread) => thread,
        };
        let mut supply = Supply::new(supply);
        self.log_both_queues(lent.log, &mut supply);
        self.log_and_free_lines(lent, &mut supply, thread);
        let last = redo_entry(thread, 0, 0).record(Kind::Commit);
        self.append(lent.log, &mut supply, last);
        self.open[thread as usize] = false;
        self.finish(lent, supply)
    }

    pub fn delete(&mut self, lent: &mut Lent, supply: u64) -> Outcome {
        if let Err(number) = self.judge_delete(lent) {
            return (number, supply);
        }
        let mut supply = Supply::new(supply);
        self.head += 1;
        supply.put(&mut lent.log[0], self.head);
        self.finish(lent, supply)
    }

    /// Looks at nothing of the state it replaces.
    pub fn recover(&mut self, lent: &mut Lent, supply: u64) -> Outcome {
        let found = match Found::scan(lent) {
            Err(number) => {
                *self = State::DARK;
                return (number, supply);
            }
            Ok(found) => found,
        };
        let mut supply = Supply::new(supply);
        found.restore(lent, &mut supply);
        let tail = found.head + found.count as u64;
        supply.put(&mut lent.log[0], tail);
        lent.working.copy_from_slice(lent.home);
        *self = State::fresh(found.words, found.slots, tail);
        self.finish(lent, supply)
    }
}

fn redo_entry(thread: u8, word: usize, redo: u64) -> Entry {
    Entry {
        thread,
        word: word as u16,
        undo: 0,
        redo,
    }
}
