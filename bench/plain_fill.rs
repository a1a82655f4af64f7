//! A plain fill and a plain playthrough, to hold the figures of `generate` against: each list of places is made anew from nothing,
//! for each item in turn. The worlds are those of worlds.py; words come from a small generator of its own, so it places
//! other items than `generate`.
//!
//! usage: plain_fill chain KEYS | last KEYS | regions PLAYERS
use std::time::Instant;

/// A way from a place to a place, which may want a key, and may wait for another place.
struct Step {
    from: usize,
    to: usize,
    key: Option<usize>,
    waits: Option<usize>,
}

/// A world's steps, those at each place and those that want each key, and its locations. Places 0.. are where players begin.
struct World {
    places: usize,
    keys: usize,
    origins: Vec<usize>,
    steps: Vec<Step>,
    at_place: Vec<Vec<usize>>,
    at_key: Vec<Vec<usize>>,
    locations: Vec<usize>,
}

impl World {
    fn new(places: usize, keys: usize, origins: Vec<usize>, steps: Vec<Step>, locations: Vec<usize>) -> World {
        let mut at_place = vec![vec![]; places];
        let mut at_key = vec![vec![]; keys];
        for (number, step) in steps.iter().enumerate() {
            at_place[step.from].push(number);
            if let Some(place) = step.waits.filter(|&place| place != step.from) {
                at_place[place].push(number);
            }
            if let Some(key) = step.key {
                at_key[key].push(number);
            }
        }
        World { places, keys, origins, steps, at_place, at_key, locations }
    }

    /// A chain of keys: the way into each region wants its own key; the first region has room for all keys.
    fn chain(keys: usize) -> World {
        let mut steps: Vec<Step> =
            (1..=keys).map(|r| Step { from: r - 1, to: r, key: Some(r - 1), waits: None }).collect();
        let first = keys + 1;
        for location in 0..2 * keys + 1 {
            let home = if location <= keys { location } else { 0 };
            steps.push(Step { from: home, to: first + location, key: None, waits: None });
        }
        World::new(first + 2 * keys + 1, keys, vec![0], steps, (first..first + 2 * keys + 1).collect())
    }

    /// A chain of regions without keys, in each of which a way with its own key leads to a dead end; all locations are in the last.
    fn last(keys: usize) -> World {
        let mut steps: Vec<Step> =
            (1..=keys).map(|r| Step { from: r - 1, to: r, key: None, waits: Some(r - 1) }).collect();
        steps.extend((1..=keys).map(|r| Step { from: r, to: keys + r, key: Some(r - 1), waits: None }));
        let first = 2 * keys + 1;
        steps.extend((first..first + 2 * keys).map(|to| Step { from: keys, to, key: None, waits: None }));
        World::new(first + 2 * keys, keys, vec![0], steps, (first..first + 2 * keys).collect())
    }

    /// For each player a chain of 1,000 regions of nine locations each, where every way but the first five wants one of 2,000 keys.
    fn regions(players: usize) -> World {
        let mut steps = vec![];
        let mut locations = vec![];
        for player in 0..players {
            let (first, key) = (player * 10_000, player * 2_000);
            for r in 1..1_000 {
                let key = Some(key + r % 2_000).filter(|_| r > 5);
                steps.push(Step { from: first + r - 1, to: first + r, key, waits: None });
            }
            for location in 0..9_000 {
                let to = first + 1_000 + location;
                steps.push(Step { from: first + location / 9, to, key: None, waits: None });
                locations.push(to);
            }
        }
        let origins = (0..players).map(|player| player * 10_000).collect();
        World::new(players * 10_000, players * 2_000, origins, steps, locations)
    }
}

/// A list of places, and the keys that are in hand or were found there.
struct Reached {
    done: Vec<bool>,
    listed: Vec<bool>,
    counts: Vec<u32>,
    queue: Vec<usize>,
}

impl Reached {
    fn new(world: &World) -> Reached {
        Reached {
            done: vec![false; world.places],
            listed: vec![false; world.places],
            counts: vec![0; world.keys],
            queue: vec![],
        }
    }

    fn ask(&mut self, world: &World, number: usize) {
        let step = &world.steps[number];
        let is_open = self.done[step.from]
            && step.key.is_none_or(|key| self.counts[key] > 0)
            && step.waits.is_none_or(|place| self.done[place]);
        if is_open && !self.listed[step.to] {
            self.listed[step.to] = true;
            self.queue.push(step.to);
        }
    }

    /// Makes the least list for these keys in hand and what is placed.
    fn reach(&mut self, world: &World, base: &[u32], placed: &[Option<usize>]) {
        self.done.fill(false);
        self.listed.fill(false);
        self.counts.copy_from_slice(base);
        self.queue.clear();
        for &origin in &world.origins {
            self.listed[origin] = true;
            self.queue.push(origin);
        }
        let mut head = 0;
        while head < self.queue.len() {
            let place = self.queue[head];
            head += 1;
            self.done[place] = true;
            if let Some(key) = placed[place] {
                self.counts[key] += 1;
            }
            for &number in &world.at_place[place] {
                self.ask(world, number);
            }
            if let Some(key) = placed[place] {
                for &number in &world.at_key[key] {
                    self.ask(world, number);
                }
            }
        }
    }
}

fn shuffle(list: &mut [usize], state: &mut u64) {
    for i in (1..list.len()).rev() {
        *state ^= *state << 13;
        *state ^= *state >> 7;
        *state ^= *state << 17;
        list.swap(i, (*state % (i as u64 + 1)) as usize);
    }
}

/// Puts each key at the first free location that is reached with the later ones in hand.
fn fill(world: &World, reached: &mut Reached) -> Vec<Option<usize>> {
    let mut state = 88_172_645_463_325_252;
    let mut order: Vec<usize> = (0..world.keys).collect();
    shuffle(&mut order, &mut state);
    let mut openings = world.locations.clone();
    shuffle(&mut openings, &mut state);
    let mut placed = vec![None; world.places];
    let mut base = vec![1; world.keys];
    for key in order {
        base[key] -= 1;
        reached.reach(world, &base, &placed);
        let place = openings.iter().find(|&&place| placed[place].is_none() && reached.done[place]).expect("no location is left");
        placed[*place] = Some(key);
    }
    placed
}

/// How many entries are needed for the first key, asked from the last place to the first.
fn playthrough(world: &World, reached: &mut Reached, placed: &[Option<usize>]) -> usize {
    let base = vec![0; world.keys];
    let mut shown = placed.to_vec();
    let mut needed = 0;
    for place in (0..world.places).rev().filter(|&place| placed[place].is_some()) {
        shown[place] = None;
        reached.reach(world, &base, &shown);
        if reached.counts[0] == 0 {
            shown[place] = placed[place];
            needed += 1;
        }
    }
    needed
}

fn main() {
    let words: Vec<String> = std::env::args().collect();
    let count = words[2].parse().expect("a number");
    let world = match words[1].as_str() {
        "chain" => World::chain(count),
        "last" => World::last(count),
        _ => World::regions(count),
    };
    let mut reached = Reached::new(&world);
    let begin = Instant::now();
    let placed = fill(&world, &mut reached);
    let filled = begin.elapsed().as_secs_f64();
    let needed = playthrough(&world, &mut reached, &placed);
    let asked = begin.elapsed().as_secs_f64() - filled;
    println!("plain, {} {count}: fill {filled:.2} s, playthrough {asked:.2} s with {needed} entries", words[1]);
}
