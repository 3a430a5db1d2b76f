//! Lists of calls on two tallies.

use crate::apart::Apart;
use crate::calls::Call;
use crate::card::{Card, HIGHEST_X, Lot, MOST_ROWS};
use crate::comma;
use crate::generate::commas;
use crate::generate::entry::Entry;
use crate::generate::plan::Plan;
use crate::generate::weighings;
use crate::prng::Prng;
use crate::report;
use crate::sheet::{self, LONGEST_WRITTEN};
use crate::tally::{MOST_HELD, Tally};

/// A list of calls, what they answer, and the room that all the answers need.
#[derive(Default)]
pub struct List {
    pub calls: Vec<Call>,
    /// Each call's name with 0 or the refusal's number.
    pub answers: Vec<(&'static str, u8)>,
    pub room: usize,
    /// The reports that are not refused.
    pub apart: Apart,
}

/// What the cards and calls of a list may be.
#[derive(Clone, Copy, PartialEq, Eq)]
pub enum Form {
    /// Any.
    Any,
    /// At most one critical value, all 96 places alike, no join of a tally with itself, comma lists of words, and no
    /// sums: what one line of text can say.
    Text,
}

/// A list that is followed as it grows, so that its calls can lie close to a refusal.
struct Followed<'a> {
    prng: &'a mut Prng,
    form: Form,
    tallies: [Tally; 2],
    /// The lot and card that both tallies are mostly opened with, so that they can be joined.
    plan: Plan,
    list: List,
}

/// Makes a list of up to some hundred calls.
pub fn list(prng: &mut Prng, form: Form) -> List {
    let mut plan = some_plan(prng);
    if prng.once_in(2) {
        // Few containers, so that the two tallies meet often.
        let least = plan.results.iter().map(|entry| entry.container).max().unwrap_or(1);
        plan.lot.containers =
            least.max(prng.pick(&[5, 20, 61, 120, MOST_HELD as u16 + 1, 2 * MOST_HELD as u16]));
    }
    if form == Form::Text {
        let kept = prng.below(plan.criticals.len() + 1);
        plan.criticals = plan.criticals.get(kept).copied().into_iter().collect();
        plan.rows = plan.rows.first().map_or(Vec::new(), |&row| vec![row; plan.rows.len()]);
    }
    let list = List::default();
    let mut followed = Followed { prng, form, tallies: [Tally::fresh(), Tally::fresh()], plan, list };
    followed.some_calls();
    // At the end all of both tallies is shown.
    for on in [0, 1] {
        followed.make(Call::Write { on, room: LONGEST_WRITTEN as u16 });
        followed.make(Call::WriteList { on, room: comma::LONGEST_WRITTEN as u16 });
        followed.make(Call::Report { on, room: 100 });
        followed.sums(on);
    }
    followed.list
}

fn some_plan(prng: &mut Prng) -> Plan {
    if prng.once_in(3) {
        return Plan::close(prng);
    }
    let held = prng.pick(&[0, 1, 5, 20, 60, 60, MOST_HELD]);
    // Every other list is of purity, so that what is weighed can be held.
    if prng.once_in(2) { Plan::weighed(prng, held) } else { Plan::judged(prng, held) }
}

impl Followed<'_> {
    fn some_calls(&mut self) {
        // One list in eight begins on a fresh tally.
        if !self.prng.once_in(8) {
            self.open(0);
            self.open(1);
        }
        if self.prng.once_in(2) {
            self.enter_plan(0);
        }
        for _ in 0..self.prng.pick(&[3, 10, 30, 80, 200]) {
            let on = self.prng.below(2);
            match self.prng.below(44) {
                0 => self.open(on),
                1 => self.open_badly(on),
                2..=4 => self.join(on),
                5..=9 => self.withdraw(on),
                10..=13 => self.report(on),
                14 => self.write(on),
                15 => self.fill(on),
                16..=23 => self.weigh(on),
                24..=27 => self.enter_list(on),
                28 => self.write_list(on),
                _ => self.enter(on),
            }
        }
    }

    fn make(&mut self, call: Call) {
        let room = call.room().unwrap_or(0);
        self.list.room += 3 + room;
        let answer = call.make(&mut self.tallies, &mut vec![0; room]);
        if let (Call::Report { on, .. }, 0) = (&call, answer.number) {
            self.list.apart.look_at(&self.tallies[*on]);
        }
        self.list.answers.push((call.name(), answer.number));
        self.list.calls.push(call);
    }

    fn open(&mut self, on: usize) {
        let lot = self.plan.lot;
        let mut card = Box::new(self.plan.card());
        // Places past the last row count for nothing.
        if self.form == Form::Any && self.prng.once_in(2) {
            for place in &mut card.places[self.plan.rows.len()..] {
                place.lowest = self.prng.draw() as u16;
                place.mean_bound = self.prng.draw() as u16;
            }
        }
        self.make_open(on, lot, card);
    }

    fn make_open(&mut self, on: usize, lot: Lot, mut card: Box<Card>) {
        if self.form == Form::Text {
            card.places = [card.places[0]; MOST_ROWS];
        }
        self.make(Call::Open { on, lot, card });
    }

    /// An open with one value changed: bad, at its limit, or merely another.
    fn open_badly(&mut self, on: usize) {
        let mut lot = self.plan.lot;
        let mut card = Box::new(self.plan.card());
        let prng = &mut *self.prng;
        match prng.below(9) {
            0 => lot.attribute = prng.pick(&[0, 1, 2, 3, 255, 256, 65_535]),
            1 => lot.containers = prng.pick(&[0, 1, 4, 65_535]),
            2 => card.factor = prng.pick(&[0, 9, 10, 50, 51, 65_535]),
            3 => card.offset = prng.pick(&[0, 50, 51, 65_535]),
            4 => card.seeds = prng.pick(&[0, 1, 1_000, 1_001, 65_535]),
            5 => {
                let n = prng.pick(&[0, 1, 4, 5, 6, 60, MOST_HELD - 1, MOST_HELD]);
                if self.form == Form::Text {
                    card.criticals = Card::default().criticals;
                }
                card.criticals[n] =
                    prng.pick(&[None, Some(0), Some(65_535), Some(65_536), Some(u32::MAX - 1)]);
            }
            6 => change_row(prng, &mut card),
            _ => {
                card.row_count = prng.pick(&[0, 1, MOST_ROWS - 1, MOST_ROWS, MOST_ROWS + 1, 65_535]);
                let good = self.plan.rows.first().copied();
                let filled = prng.once_in(2);
                for place in card.places.iter_mut().skip(self.plan.rows.len()) {
                    if let Some(row) = good.filter(|_| filled) {
                        *place = row;
                    }
                }
            }
        }
        self.make_open(on, lot, card);
    }

    /// Enters the plan's own results, which its critical values and rows lie close to, and has them reported.
    fn enter_plan(&mut self, on: usize) {
        for entry in self.plan.results.clone() {
            self.make(entry.call(on));
        }
        self.make(Call::Report { on, room: 100 });
    }

    fn join(&mut self, on: usize) {
        let with_itself = self.prng.once_in(6) && self.form == Form::Any;
        let other = if with_itself { on } else { 1 - on };
        self.make(Call::Join { on, other });
    }

    fn withdraw(&mut self, on: usize) {
        let container = self.some_container(on);
        self.make(Call::Withdraw { on, container });
    }

    fn enter(&mut self, on: usize) {
        let container = self.some_container(on);
        let x = self.some_x();
        self.make(Call::Enter { on, container, x });
    }

    fn weigh(&mut self, on: usize) {
        let container = self.some_container(on);
        let weighing = weighings::any(self.prng);
        self.make(Call::Weigh { on, container, weighing });
    }

    /// Enters a comma list, or tries to.
    fn enter_list(&mut self, on: usize) {
        let make = if self.form == Form::Text { commas::of_words } else { commas::any };
        let mut lines = make(self.prng, &self.tallies[on]);
        // A call has two bytes for the length.
        lines.truncate(u16::MAX.into());
        self.make(Call::List { on, lines });
    }

    /// Enters or weighs until a number close to the most, or to the most for both together, is held.
    fn fill(&mut self, on: usize) {
        let other = self.tallies[1 - on].held().len();
        let wanted = self.prng.pick(&[
            5,
            MOST_HELD / 2,
            MOST_HELD / 2 + 1,
            MOST_HELD - 1,
            MOST_HELD,
            MOST_HELD - other,
            MOST_HELD + 1 - other,
        ]);
        // The two tallies fill from either end, and so share nothing at first.
        let last = self.tallies[on].lot().containers;
        let free = |tally: &Tally, container| tally.held().iter().all(|held| held.container != container);
        for step in 0..last.min(2 * MOST_HELD as u16 + 10) {
            if self.tallies[on].held().len() >= wanted {
                break;
            }
            let container = if on == 0 { 1 + step } else { last - step };
            if free(&self.tallies[on], container) {
                let x = self.some_x();
                let weighed = self.tallies[on].lot().attribute == 0 && self.prng.once_in(2);
                let entry = if weighed {
                    Entry::weighed(container, weighings::of_share(self.prng, x.min(HIGHEST_X)))
                } else {
                    Entry::entered(container, x)
                };
                self.make(entry.call(on));
            }
        }
    }

    /// A report into a buffer that is often just long enough, or one byte too short.
    fn report(&mut self, on: usize) {
        let length = report::text(&self.tallies[on]).map_or(0, |text| text.len());
        let room = self.room_for(length);
        self.make(Call::Report { on, room });
        self.sums(on);
    }

    /// The sums, which a line of text cannot ask for.
    fn sums(&mut self, on: usize) {
        if self.form == Form::Any {
            self.make(Call::Sums { on, room: 12 });
        }
    }

    fn write(&mut self, on: usize) {
        let length = sheet::text(&self.tallies[on]).map_or(0, |text| text.len());
        let room = self.room_for(length);
        self.make(Call::Write { on, room });
    }

    fn write_list(&mut self, on: usize) {
        let room = self.room_for(comma::text(&self.tallies[on]).len());
        self.make(Call::WriteList { on, room });
    }

    fn room_for(&mut self, length: usize) -> u16 {
        let length = length as u16;
        self.prng.pick(&[0, length.saturating_sub(1), length, length, length + 1, length + 40])
    }

    /// A container that is held, one that is not, or none of the lot.
    fn some_container(&mut self, on: usize) -> u16 {
        let tally = &self.tallies[self.prng.pick(&[on, on, 1 - on])];
        let last = tally.lot().containers;
        match self.prng.below(12) {
            0 => self.prng.pick(&[0, 1, last, last.saturating_add(1), 65_535]),
            1..=3 if !tally.held().is_empty() => tally.held()[self.prng.below(tally.held().len())].container,
            _ => self.prng.within(1..=last.max(1)),
        }
    }

    fn some_x(&mut self) -> u16 {
        match self.prng.below(12) {
            0 => self.prng.near(&[0, 2, 20, 100, 9_900, 9_980, HIGHEST_X, 65_535]),
            1..=4 if !self.plan.results.is_empty() => {
                self.plan.results[self.prng.below(self.plan.results.len())].x()
            }
            5..=8 => self.prng.within(0..=20),
            _ => self.prng.within(9_000..=HIGHEST_X),
        }
    }
}

fn change_row(prng: &mut Prng, card: &mut Card) {
    let place = if prng.once_in(4) { 0 } else { prng.below(card.row_count.clamp(1, MOST_ROWS)) };
    let row = &mut card.places[place];
    match prng.below(4) {
        0 => row.lowest = prng.pick(&[0, 4, 5, 6, MOST_HELD as u16, 65_535]),
        1 => row.highest = prng.pick(&[4, 5, 61, MOST_HELD as u16, MOST_HELD as u16 + 1, 65_535]),
        2 => row.mean_bound = prng.pick(&[0, HIGHEST_X, HIGHEST_X + 1, 65_535]),
        _ => row.tolerated = prng.pick(&[0, 1, 65_535]),
    }
}
