//! The exact book of demand 3, section "State and retunings" of document 01:
//! the state in whole powers of declared numbers instead of pitches.

use crate::frames::Made;
use crate::numbers;
use crate::state::Change;
use crate::text::tree::{
    Amount, IntervalForm, Numbers, PositionForm, Resolved, Retuning, RetuningForm, Sum, SystemForm,
    Target, ToneForm,
};

/// What can keep the book from going on.
#[derive(Clone, Copy, Debug, PartialEq, Eq)]
pub enum Halt {
    /// A power beyond 127 bits.
    TooLarge,
    /// A call with number 0 that meets a muted end, a division by zero or a
    /// name of no declaration; the rules exclude all three.
    Impossible,
}

/// "A declared number is one declaration's frequency, `p : q` or `A ROOT B`."
#[derive(Clone, Copy, Debug, PartialEq, Eq)]
pub enum Declaration {
    Interval(usize),
    Tone(usize),
}

/// "An entry gives a whole power to each of these, to the start's 440 and to
/// the twelfth root of 2."
#[derive(Clone, Debug, PartialEq, Eq)]
pub struct Entry {
    pub four_forty: i128,
    pub root_of_two: i128,
    /// The powers of the declared numbers, in the order of the book's list.
    pub declared: Vec<i128>,
}

impl Entry {
    fn nothing(count: usize) -> Self {
        Entry { four_forty: 0, root_of_two: 0, declared: vec![0; count] }
    }

    fn single(count: usize, number: usize) -> Self {
        let mut entry = Self::nothing(count);
        if let Some(power) = entry.declared.get_mut(number) {
            *power = 1;
        }
        entry
    }

    /// This entry plus so many times another.
    pub fn plus(&self, times: i64, other: &Entry) -> Result<Entry, Halt> {
        let add = |a: i128, b: i128| {
            let product = b.checked_mul(times.into());
            product.and_then(|product| a.checked_add(product)).ok_or(Halt::TooLarge)
        };
        let pairs = self.declared.iter().zip(&other.declared);
        Ok(Entry {
            four_forty: add(self.four_forty, other.four_forty)?,
            root_of_two: add(self.root_of_two, other.root_of_two)?,
            declared: pairs.map(|(&a, &b)| add(a, b)).collect::<Result<_, _>>()?,
        })
    }

    /// "w adds up the declared numbers' powers without their signs."
    pub fn weight(&self) -> Result<i128, Halt> {
        let add = |sum: i128, power: &i128| sum.checked_add(power.checked_abs()?);
        self.declared.iter().try_fold(0, add).ok_or(Halt::TooLarge)
    }
}

/// "The book holds anchor, width, for each position an entry or nothing
/// (muted), and the period's entry."
pub struct Book {
    tree: Resolved,
    /// The declared numbers, and the entries of all intervals and tones.
    pub numbers: Vec<Declaration>,
    intervals: Vec<Entry>,
    tone_entries: Vec<Entry>,
    anchor: i64,
    width: i64,
    tones: Vec<Option<Entry>>,
    period: Entry,
}

impl Book {
    /// "It starts with 60, 12, at position i 440 once and the root i - 9
    /// times, as period the root 12 times."
    pub fn new(tree: &Resolved) -> Result<Self, Halt> {
        let numbers = declared_numbers(tree);
        let count = numbers.len();
        let intervals = interval_entries(tree, &numbers)?;
        let tone_entries = tone_entries(tree, &numbers, &intervals)?;
        let roots = |root_of_two| Entry { root_of_two, ..Entry::nothing(count) };
        let tone = |i: i128| Some(Entry { four_forty: 1, ..roots(i - 9) });
        Ok(Book {
            tree: tree.clone(),
            numbers,
            intervals,
            tone_entries,
            anchor: 60,
            width: 12,
            tones: (0..12).map(tone).collect(),
            period: roots(12),
        })
    }

    /// The entry of position r, nothing if it is muted.
    pub fn tone(&self, r: i64) -> Option<&Entry> {
        usize::try_from(r).ok().and_then(|r| self.tones.get(r)?.as_ref())
    }

    pub fn tones(&self) -> &[Option<Entry>] {
        &self.tones
    }

    pub fn period(&self) -> &Entry {
        &self.period
    }

    /// q and r of a key: x - a = q·w + r with r from 0 to w-1.
    pub fn place_of(&self, key: i64) -> (i64, i64) {
        let (distance, width) = (key - self.anchor, self.width.max(1));
        (distance.div_euclid(width), distance.rem_euclid(width))
    }

    /// "Key x has the entry of r plus q times the period's."
    pub fn entry(&self, key: i64) -> Result<Option<Entry>, Halt> {
        let (q, r) = self.place_of(key);
        self.tone(r).map(|tone| tone.plus(q, &self.period)).transpose()
    }

    /// "A call with number 0 does what its line above says, with entries for
    /// pitches and intervals and no checks. Any other number, or no call,
    /// changes nothing."
    pub fn take(&mut self, made: Made) -> Result<(), Halt> {
        if made.number != numbers::DONE {
            return Ok(());
        }
        match made.called.target {
            Target::System(i) => {
                let system = self.tree.systems.get(i).ok_or(Halt::Impossible)?;
                self.set_system(&system.form.clone())
            }
            Target::Retuning(i) => {
                let retuning = self.tree.retunings.get(i).ok_or(Halt::Impossible)?;
                self.retune(&retuning.form.clone(), &made.called.numbers)
            }
            Target::Logic(_) => Err(Halt::Impossible),
        }
    }

    /// "Demands 2 and 3 read the retuning so filled in."
    fn retune(&mut self, retuning: &Retuning<usize>, handed: &Numbers) -> Result<(), Halt> {
        let number = |n: &Amount| n.number(&retuning.placeholders, handed);
        let filled = |change: &Change<Amount>| change.filled(number).ok_or(Halt::Impossible);
        match &retuning.form {
            RetuningForm::Anchor(change) => self.set_anchor(filled(change)?),
            RetuningForm::Width(change) => self.set_width(filled(change)?),
            RetuningForm::PeriodTo(sum) => {
                self.period = self.sum(sum)?;
                Ok(())
            }
            RetuningForm::PeriodBy(sum) => {
                self.period = self.period.plus(1, &self.sum(sum)?)?;
                Ok(())
            }
            RetuningForm::Tones(positions) => self.set_tones(positions),
        }
    }

    fn sum(&self, sum: &Sum<usize>) -> Result<Entry, Halt> {
        add_up(Entry::nothing(self.numbers.len()), sum, &self.intervals)
    }

    fn tone_entry(&self, tone: usize) -> Result<&Entry, Halt> {
        self.tone_entries.get(tone).ok_or(Halt::Impossible)
    }

    /// Request 2/13: q times the period's entry where the key falls on
    /// position 0; else the entry of the key less that of position 0.
    fn distance_to(&self, key: i64) -> Result<Entry, Halt> {
        let (q, r) = self.place_of(key);
        if r == 0 {
            return Entry::nothing(self.numbers.len()).plus(q, &self.period);
        }
        let first = self.tone(0).ok_or(Halt::Impossible)?;
        let entry = self.entry(key)?.ok_or(Halt::Impossible)?;
        entry.plus(-1, first)
    }

    /// "Anchor to b: every sounding tone shifts by pitch(b) - t(0)."
    fn set_anchor(&mut self, change: Change) -> Result<(), Halt> {
        let anchor = change.of(self.anchor).map_err(|_| Halt::Impossible)?;
        let shift = self.distance_to(anchor)?;
        for tone in self.tones.iter_mut().flatten() {
            *tone = tone.plus(1, &shift)?;
        }
        self.anchor = anchor;
        Ok(())
    }

    /// "Width to v: new t(i) is the old pitch of key a+i; the new period is
    /// pitch(a+v) - t(0)."
    fn set_width(&mut self, change: Change) -> Result<(), Halt> {
        let width = change.of(self.width).map_err(|_| Halt::Impossible)?;
        let period = self.distance_to(self.anchor + width)?;
        let tones = (0..width).map(|i| self.entry(self.anchor + i));
        self.tones = tones.collect::<Result<_, _>>()?;
        self.period = period;
        self.width = width;
        Ok(())
    }

    /// "Positions beyond the width have no effect, tones beyond the list stay.
    /// `@` with terms on a muted tone stays muted."
    fn set_tones(&mut self, positions: &[PositionForm<usize>]) -> Result<(), Halt> {
        let mut tones = self.tones.clone();
        for (tone, position) in tones.iter_mut().zip(positions) {
            *tone = match position {
                PositionForm::Muted => None,
                PositionForm::At(named, sum) => {
                    Some(add_up(self.tone_entry(*named)?.clone(), sum, &self.intervals)?)
                }
                PositionForm::By(sum) => {
                    let old = tone.take();
                    old.map(|old| add_up(old, sum, &self.intervals)).transpose()?
                }
            };
        }
        self.tones = tones;
        Ok(())
    }

    /// "Calling a tone system sets all four parts."
    fn set_system(&mut self, form: &SystemForm<usize>) -> Result<(), Halt> {
        let entry = |tone: &Option<usize>| match tone {
            Some(tone) => self.tone_entry(*tone).cloned().map(Some),
            None => Ok(None),
        };
        let tones = form.tones.iter().map(entry).collect::<Result<Vec<_>, _>>()?;
        self.period = self.sum(&form.period)?;
        self.anchor = form.anchor.into();
        self.width = tones.len() as i64;
        self.tones = tones;
        Ok(())
    }
}

fn declared_numbers(tree: &Resolved) -> Vec<Declaration> {
    let intervals = tree.intervals.iter().enumerate();
    let intervals = intervals.filter(|(_, d)| !matches!(d.form, IntervalForm::Sum(_)));
    let tones = tree.tones.iter().enumerate();
    let tones = tones.filter(|(_, d)| matches!(d.form, ToneForm::Frequency(_)));
    let intervals = intervals.map(|(i, _)| Declaration::Interval(i));
    intervals.chain(tones.map(|(i, _)| Declaration::Tone(i))).collect()
}

/// "Sequences and tones add entries, by factor and sign."
fn add_up(start: Entry, sum: &Sum<usize>, intervals: &[Entry]) -> Result<Entry, Halt> {
    sum.iter().try_fold(start, |total, term| {
        let interval = intervals.get(term.interval).ok_or(Halt::Impossible)?;
        total.plus(term.times, interval)
    })
}

fn interval_entries(tree: &Resolved, numbers: &[Declaration]) -> Result<Vec<Entry>, Halt> {
    let uses = |i: usize| match &tree.intervals[i].form {
        IntervalForm::Sum(sum) => sum.iter().map(|term| term.interval).collect(),
        _ => Vec::new(),
    };
    let mut entries = vec![Entry::nothing(numbers.len()); tree.intervals.len()];
    for i in users_last(tree.intervals.len(), uses) {
        entries[i] = match &tree.intervals[i].form {
            IntervalForm::Sum(sum) => add_up(Entry::nothing(numbers.len()), sum, &entries)?,
            _ => single_of(numbers, Declaration::Interval(i)),
        };
    }
    Ok(entries)
}

fn tone_entries(
    tree: &Resolved,
    numbers: &[Declaration],
    intervals: &[Entry],
) -> Result<Vec<Entry>, Halt> {
    let uses = |i: usize| match &tree.tones[i].form {
        ToneForm::From(tone, _) => vec![*tone],
        ToneForm::Frequency(_) => Vec::new(),
    };
    let mut entries = vec![Entry::nothing(numbers.len()); tree.tones.len()];
    for i in users_last(tree.tones.len(), uses) {
        entries[i] = match &tree.tones[i].form {
            ToneForm::From(tone, sum) => {
                let from = entries.get(*tone).ok_or(Halt::Impossible)?;
                add_up(from.clone(), sum, intervals)?
            }
            ToneForm::Frequency(_) => single_of(numbers, Declaration::Tone(i)),
        };
    }
    Ok(entries)
}

fn single_of(numbers: &[Declaration], declaration: Declaration) -> Entry {
    let number = numbers.iter().position(|&number| number == declaration);
    Entry::single(numbers.len(), number.unwrap_or(numbers.len()))
}

/// The numbers below `count` in an order in which each comes after the ones
/// that it uses. An accepted text has no cycles, so all are placed at last.
fn users_last(count: usize, uses: impl Fn(usize) -> Vec<usize>) -> Vec<usize> {
    let mut order = Vec::with_capacity(count);
    let mut placed = vec![false; count];
    loop {
        let before = order.len();
        for i in 0..count {
            let ready = || uses(i).into_iter().all(|used| placed.get(used) == Some(&true));
            if !placed[i] && ready() {
                placed[i] = true;
                order.push(i);
            }
        }
        if order.len() == before {
            return order;
        }
    }
}

#[cfg(test)]
mod tests {
    use super::*;
    use crate::frames::tests::made;
    use crate::text::{self, tests::CASE_S};

    fn book() -> Book {
        Book::new(&text::read(CASE_S.as_bytes()).unwrap().declared).unwrap()
    }

    fn call(book: &mut Book, target: Target) {
        book.take(made(target, &[], 0)).unwrap();
    }

    #[test]
    fn the_start() {
        let entry = book().entry(69).unwrap().unwrap();
        assert_eq!((entry.four_forty, entry.root_of_two), (1, 0));
        let entry = book().entry(47).unwrap().unwrap();
        assert_eq!((entry.four_forty, entry.root_of_two), (1, -22));
        assert_eq!(entry.weight(), Ok(0));
    }

    /// In `Two` key 71 is the tone 440 and the octave; after `Up` it is the
    /// tone and two fifths.
    #[test]
    fn case_s() {
        let mut book = book();
        let tone = Declaration::Tone(0);
        assert_eq!(book.numbers, [Declaration::Interval(0), Declaration::Interval(1), tone]);
        call(&mut book, Target::System(0));
        assert_eq!(book.entry(71).unwrap().unwrap().declared, [1, 0, 1]);
        book.take(made(Target::Retuning(0), &[], 10)).unwrap();
        assert_eq!(book.entry(71).unwrap().unwrap().declared, [1, 0, 1]);
        call(&mut book, Target::Retuning(0));
        assert_eq!(book.entry(71).unwrap().unwrap().declared, [0, 2, 1]);
        assert_eq!(book.entry(71).unwrap().unwrap().weight(), Ok(3));
    }

    /// Request 1/13: the number handed over is that of the placeholder's name;
    /// a call with 25 changes nothing.
    #[test]
    fn numbers_handed_over() {
        let text = b"RETUNING A ( x, y ) = @ - y [ ] W ( x ) = [ << @ / x >> ]";
        let mut book = Book::new(&text::read(text).unwrap().declared).unwrap();
        book.take(made(Target::Retuning(0), &[3, 7], 0)).unwrap();
        book.take(made(Target::Retuning(1), &[0], 25)).unwrap();
        assert_eq!((book.anchor, book.width), (53, 12));
        book.take(made(Target::Retuning(1), &[5], 0)).unwrap();
        assert_eq!((book.width, book.period.root_of_two), (2, 2));
        let zero = book.take(made(Target::Retuning(1), &[0], 0));
        assert_eq!(zero, Err(Halt::Impossible));
    }

    /// Powers of 999 to the tenth fit, to the fourteenth they don't.
    #[test]
    fn great_powers() {
        let chain = |length: usize| {
            let links: String = (0..length).map(|i| format!("z{} = 999 z{i} ", i + 1)).collect();
            let text = format!("INTERVAL z0 = 1 : 1 {links}");
            Book::new(&text::read(text.as_bytes()).unwrap().declared).err()
        };
        assert_eq!(chain(10), None);
        assert_eq!(chain(14), Some(Halt::TooLarge));
    }

    #[test]
    fn users_come_last() {
        let uses = |i: usize| if i < 3 { vec![i + 1] } else { Vec::new() };
        assert_eq!(users_last(4, uses), [3, 2, 1, 0]);
    }
}
