//! An LRU list with constant work for each touch: a map from page to place,
//! and the order of use as links between the places of one vector.

use crate::page_map::{PageMap, PageState};
use std::hash::BuildHasher;
use types::Frame;

struct Place {
    frame: Frame,
    newer: u32,
    older: u32,
}

/// Stands where a link leads nowhere.
const NONE: u32 = u32::MAX;

/// The map has room for more entries than there are pages: with each fetch
/// one goes and one comes, and a tight map would tidy up all the time.
const SPARE: usize = 4;

/// `S` is the hash of its map.
pub struct Lru<S = PageState> {
    size: usize,
    place_of: PageMap<u32, S>,
    places: Vec<Place>,
    newest: u32,
    oldest: u32,
}

/// What touching a page did.
pub enum Touch {
    Hit,
    Fetch { evicted: Option<Frame> },
}

impl<S: BuildHasher + Default> Lru<S> {
    /// A list with room for `size` pages, holding these distinct ones, most
    /// recently used first.
    pub fn start(size: usize, frames: &[Frame]) -> Self {
        let mut list = Lru {
            size,
            place_of: PageMap::with_capacity_and_hasher(SPARE * size, S::default()),
            places: Vec::with_capacity(size),
            newest: NONE,
            oldest: NONE,
        };
        for frame in frames.iter().rev() {
            list.touch(frame.page, frame.written);
        }
        list
    }

    pub fn len(&self) -> usize {
        self.places.len()
    }

    /// Moves the page to the front, bringing it in if it is not there. What
    /// was written stays so until it goes.
    pub fn touch(&mut self, page: u64, written: bool) -> Touch {
        if let Some(&place) = self.place_of.get(&page) {
            self.places[place as usize].frame.written |= written;
            if place != self.newest {
                self.unlink(place);
                self.link_as_newest(place);
            }
            return Touch::Hit;
        }
        let (place, evicted) = self.free_place(Frame { page, written });
        self.place_of.insert(page, place);
        self.link_as_newest(place);
        Touch::Fetch { evicted }
    }

    /// The resident frames, most recently used first.
    pub fn frames(&self) -> impl Iterator<Item = Frame> {
        let mut next = self.newest;
        std::iter::from_fn(move || {
            let place = self.places.get(next as usize)?;
            next = place.older;
            Some(place.frame)
        })
    }

    /// A place for a new page: the oldest page's if the list is full.
    fn free_place(&mut self, frame: Frame) -> (u32, Option<Frame>) {
        if self.places.len() < self.size {
            let place = self.places.len() as u32;
            self.places.push(Place {
                frame,
                newer: NONE,
                older: NONE,
            });
            return (place, None);
        }
        let place = self.oldest;
        self.unlink(place);
        let evicted = std::mem::replace(&mut self.places[place as usize].frame, frame);
        self.place_of.remove(&evicted.page);
        (place, Some(evicted))
    }

    fn unlink(&mut self, place: u32) {
        let Place { newer, older, .. } = self.places[place as usize];
        match newer {
            NONE => self.newest = older,
            _ => self.places[newer as usize].older = older,
        }
        match older {
            NONE => self.oldest = newer,
            _ => self.places[older as usize].newer = newer,
        }
    }

    fn link_as_newest(&mut self, place: u32) {
        let before = std::mem::replace(&mut self.newest, place);
        self.places[place as usize].newer = NONE;
        self.places[place as usize].older = before;
        match before {
            NONE => self.oldest = place,
            _ => self.places[before as usize].newer = place,
        }
    }
}
