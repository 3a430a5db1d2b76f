//! The tally: a lot, a card and a map from container to X.

use crate::card::{Attribute, Card, HIGHEST_X, Lot, MOST_ON_CARD};
use crate::refusal::Refusal;
use crate::weights::Weighing;

/// Most results held.
pub const MOST_HELD: usize = MOST_ON_CARD as usize;

/// One result: X of a container.
#[derive(Clone, Copy, Debug, PartialEq, Eq)]
pub struct Held {
    pub container: u16,
    pub x: u16,
}

/// A tally is reached only by the calls below, so its fields are not open.
#[derive(Clone, Debug, Default, PartialEq, Eq)]
pub struct Tally {
    lot: Lot,
    card: Card,
    /// In ascending order of container, each once.
    held: Vec<Held>,
    sums: Sums,
}

/// S and Q of what is held: the sum of X, and the sum of the squares of X.
#[derive(Clone, Copy, Debug, Default, PartialEq, Eq)]
pub struct Sums {
    pub sum: u64,
    pub squares: u64,
}

impl Sums {
    fn of_one(x: u16) -> Self {
        let x = u64::from(x);
        Self { sum: x, squares: x * x }
    }

    fn add(&mut self, more: Self) {
        self.sum += more.sum;
        self.squares += more.squares;
    }

    fn subtract(&mut self, less: Self) {
        self.sum -= less.sum;
        self.squares -= less.squares;
    }
}

impl Tally {
    /// A fresh tally: every field 0, nothing held.
    pub fn fresh() -> Self {
        Self::default()
    }

    pub fn lot(&self) -> &Lot {
        &self.lot
    }

    pub fn card(&self) -> &Card {
        &self.card
    }

    /// The results in ascending order of container.
    pub fn held(&self) -> &[Held] {
        &self.held
    }

    /// S and Q of the results.
    pub fn sums(&self) -> Sums {
        self.sums
    }

    /// Replaces lot, card and map; answers 3, 4 or 5.
    pub fn open(&mut self, lot: &Lot, card: &Card) -> Result<(), Refusal> {
        let attribute = lot.check()?;
        card.check(attribute)?;
        self.lot = *lot;
        self.card = *card;
        self.held.clear();
        self.sums = Sums::default();
        Ok(())
    }

    /// Adds a result; answers 6, 7, 8 or 9, the lowest that applies.
    pub fn enter(&mut self, container: u16, x: u16) -> Result<(), Refusal> {
        self.check_container(container)?;
        if x > HIGHEST_X {
            return Err(Refusal::ResultTooHigh);
        }
        let place = self.free_place(container)?;
        self.hold(place, container, x);
        Ok(())
    }

    /// The same for numbers of any size, each none where 16 bits do not carry it: no lot has such a container,
    /// and such an X is too high.
    pub fn enter_wide(&mut self, container: Option<u16>, x: Option<u16>) -> Result<(), Refusal> {
        let container = container.ok_or(Refusal::NoSuchContainer)?;
        self.check_container(container)?;
        self.enter(container, x.ok_or(Refusal::ResultTooHigh)?)
    }

    /// Makes several enters, all or none: where they end in a refusal, what is held is as before them.
    pub fn together<E>(&mut self, enters: impl FnOnce(&mut Self) -> Result<(), E>) -> Result<(), E> {
        let before = (self.held.clone(), self.sums);
        let answer = enters(self);
        if answer.is_err() {
            (self.held, self.sums) = before;
        }
        answer
    }

    /// Adds the result that a balance's weights give; answers 2 where the lot's attribute is not purity, then
    /// 6, 8, 9, 18 or 19. A fresh tally's attribute is that of purity, so that it answers 6.
    pub fn weigh(&mut self, container: u16, weighing: &Weighing) -> Result<(), Refusal> {
        if Attribute::of(self.lot.attribute) != Some(Attribute::Purity) {
            return Err(Refusal::OutOfTurn);
        }
        self.check_container(container)?;
        let place = self.free_place(container)?;
        self.hold(place, container, weighing.x()?);
        Ok(())
    }

    /// Removes a result; answers 10 alone.
    pub fn withdraw(&mut self, container: u16) -> Result<(), Refusal> {
        let place = self.find(container).map_err(|_| Refusal::NotHeld)?;
        let gone = self.held.remove(place);
        self.sums.subtract(Sums::of_one(gone.x));
        Ok(())
    }

    /// Adds all of the other's results; answers 11, 12 or 13, the lowest that applies.
    pub fn join(&mut self, other: &Tally) -> Result<(), Refusal> {
        if self.lot != other.lot || self.card != other.card {
            return Err(Refusal::OtherLot);
        }
        if other.held.iter().any(|held| self.find(held.container).is_ok()) {
            return Err(Refusal::SharedContainer);
        }
        if self.held.len() + other.held.len() > MOST_HELD {
            return Err(Refusal::TooManyTogether);
        }
        self.held.extend_from_slice(&other.held);
        self.held.sort_unstable_by_key(|held| held.container);
        self.sums.add(other.sums);
        Ok(())
    }

    fn hold(&mut self, place: usize, container: u16, x: u16) {
        self.held.insert(place, Held { container, x });
        self.sums.add(Sums::of_one(x));
    }

    /// 6 where the lot has no such container.
    fn check_container(&self, container: u16) -> Result<(), Refusal> {
        if container == 0 || container > self.lot.containers { Err(Refusal::NoSuchContainer) } else { Ok(()) }
    }

    /// The place where a container's result would go; answers 8 or 9.
    fn free_place(&self, container: u16) -> Result<usize, Refusal> {
        match self.find(container) {
            Ok(_) => Err(Refusal::AlreadyHeld),
            Err(_) if self.held.len() >= MOST_HELD => Err(Refusal::Full),
            Err(place) => Ok(place),
        }
    }

    /// The place of a container, or the place where it would go.
    fn find(&self, container: u16) -> Result<usize, usize> {
        self.held.binary_search_by_key(&container, |held| held.container)
    }
}

#[cfg(test)]
mod tests {
    use super::*;
    use crate::card::{MOST_ROWS, Row};

    fn lot(containers: u16) -> Lot {
        Lot { attribute: 0, containers }
    }

    fn card() -> Card {
        Card { factor: 10, offset: 10, seeds: 1_000, ..Card::default() }
    }

    fn opened(containers: u16) -> Tally {
        let mut tally = Tally::fresh();
        tally.open(&lot(containers), &card()).unwrap();
        tally
    }

    const GOOD: Row = Row { lowest: 5, highest: 200, mean_bound: 10_000, tolerated: 65_535 };

    #[test]
    fn a_fresh_tally_answers_as_the_document_says() {
        let mut tally = Tally::fresh();
        assert_eq!(tally.enter(0, 0), Err(Refusal::NoSuchContainer));
        assert_eq!(tally.enter(1, 65_535), Err(Refusal::NoSuchContainer));
        assert_eq!(tally.withdraw(0), Err(Refusal::NotHeld));
        assert_eq!(tally.join(&Tally::fresh()), Ok(()));
        assert_eq!(tally.join(&opened(1)), Err(Refusal::OtherLot));
        assert_eq!(tally, Tally::fresh());
    }

    #[test]
    fn open_answers_3_then_4_then_5() {
        let mut tally = Tally::fresh();
        let mut bad = card();
        bad.row_count = 97;
        bad.places = [GOOD; MOST_ROWS];
        assert_eq!(tally.open(&lot(1), &bad), Err(Refusal::CardFull));
        bad.places[95].mean_bound = 10_001;
        assert_eq!(tally.open(&lot(1), &bad), Err(Refusal::BadCard));
        assert_eq!(tally.open(&lot(0), &bad), Err(Refusal::BadLot));
        assert_eq!(tally.open(&Lot { attribute: 3, containers: 1 }, &bad), Err(Refusal::BadLot));
        bad.row_count = 95;
        assert_eq!(tally.open(&lot(1), &bad), Ok(()));
        bad.criticals[4] = Some(0);
        assert_eq!(tally.open(&lot(1), &bad), Err(Refusal::BadCard));
    }

    #[test]
    fn enter_gives_the_lowest_number() {
        let mut tally = opened(200);
        for container in 1..=200 {
            assert_eq!(tally.enter(container, 10_000), Ok(()));
        }
        assert_eq!(tally.enter(201, 10_001), Err(Refusal::NoSuchContainer));
        assert_eq!(tally.enter(200, 10_001), Err(Refusal::ResultTooHigh));
        assert_eq!(tally.enter(200, 0), Err(Refusal::AlreadyHeld));
        let mut wide = opened(201);
        for container in 1..=200 {
            assert_eq!(wide.enter(container, 0), Ok(()));
        }
        assert_eq!(wide.enter(201, 0), Err(Refusal::Full));
        assert_eq!(wide.withdraw(30), Ok(()));
        assert_eq!(wide.enter(201, 0), Ok(()));
    }

    #[test]
    fn join_gives_the_lowest_number() {
        let mut left = opened(300);
        let mut right = opened(300);
        for container in 1..=101 {
            left.enter(container, 0).unwrap();
            right.enter(300 - container, 0).unwrap();
        }
        assert_eq!(left.join(&right), Err(Refusal::TooManyTogether));
        right.withdraw(299).unwrap();
        right.enter(1, 0).unwrap();
        assert_eq!(left.join(&right), Err(Refusal::SharedContainer));
        right.withdraw(1).unwrap();
        right.withdraw(298).unwrap();
        assert_eq!(left.join(&right), Ok(()));
        assert_eq!(left.held().len(), 200);
        let same = left.clone();
        assert_eq!(left.join(&same), Err(Refusal::SharedContainer));
    }

    #[test]
    fn the_sums_are_those_of_what_is_held() {
        let sums = |sum, squares| Sums { sum, squares };
        let mut tally = opened(60);
        assert_eq!(tally.sums(), sums(0, 0));
        for (container, x) in [(1, 3), (2, 10_000), (3, 0)] {
            tally.enter(container, x).unwrap();
        }
        assert_eq!(tally.sums(), sums(10_003, 100_000_009));
        tally.enter(2, 5).unwrap_err();
        tally.withdraw(9).unwrap_err();
        let listed = tally.together(|tally| {
            tally.enter(8, 7).unwrap();
            tally.enter(8, 7)
        });
        assert_eq!(listed, Err(Refusal::AlreadyHeld));
        assert_eq!(tally.sums(), sums(10_003, 100_000_009));
        tally.withdraw(1).unwrap();
        assert_eq!(tally.sums(), sums(10_000, 100_000_000));
        let mut other = opened(60);
        other.enter(1, 2).unwrap();
        other.enter(60, 4).unwrap();
        tally.join(&other).unwrap();
        assert_eq!(tally.sums(), sums(10_006, 100_000_020));
        assert_eq!(other.sums(), sums(6, 20));
        tally.join(&other).unwrap_err();
        assert_eq!(tally.sums(), sums(10_006, 100_000_020));
        tally.open(&lot(0), &card()).unwrap_err();
        assert_eq!(tally.sums(), sums(10_006, 100_000_020));
        tally.open(&lot(5), &card()).unwrap();
        assert_eq!(tally, opened(5));
    }
}
