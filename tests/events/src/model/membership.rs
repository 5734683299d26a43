//! learn, reset, crash, lose, rise, join: proxies and bricks that come and go.
use super::step::{ask, done, Told};
use super::{Brick, State, View, LAST_ID};

impl State {
    pub(super) fn learn(&mut self, proxy: usize) -> Told {
        self.proxies[proxy].known = self.view;
        done(0)
    }

    pub(super) fn reset(&mut self, proxy: usize) -> Told {
        self.proxies[proxy].items.clear();
        self.proxies[proxy].known = View(0);
        done(0)
    }

    pub(super) fn crash(&mut self, place: usize) -> Told {
        ask(13, self.at(place).is_some_and(|b| b.up))?;
        let brick = self.at_mut(place).unwrap();
        brick.log.retain(|c| c.saved);
        brick.buffer.clear();
        brick.copies.iter_mut().for_each(|c| c.memory = c.disk.clone());
        brick.up = false;
        brick.member = false;
        brick.next = brick.ceiling;
        done(0)
    }

    pub(super) fn lose(&mut self, place: usize) -> Told {
        ask(13, self.places[place].is_some())?;
        let id = self.places[place].take().unwrap();
        self.bricks.remove(&id);
        done(0)
    }

    pub(super) fn rise(&mut self, place: usize) -> Told {
        ask(13, self.at(place).is_some_and(|b| !b.up))?;
        self.at_mut(place).unwrap().up = true;
        done(0)
    }

    pub(super) fn join(&mut self, place: usize) -> Told {
        ask(12, self.given < LAST_ID)?;
        ask(13, self.places[place].is_none())?;
        self.given += 1;
        self.places[place] = Some(self.given);
        self.bricks.insert(self.given, Brick::blank(self.given));
        done(0)
    }
}
