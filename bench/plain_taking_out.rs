//! A plain fill and a plain playthrough of deep worlds, to hold the figures of `generate` against. One list of places is kept
//! whole: a key is taken out of it with all that hung on it, and goes back at the location that it finds. Each key has one
//! copy, so a step that is open by a key never hangs on itself. The worlds are those of worlds.py; words come from a small
//! generator of its own, so it places other items than `generate`.
//!
//! usage: plain_taking_out FILE
use std::time::Instant;

const NOBODY: usize = usize::MAX;

/// A way from a place to a place, which may want a key.
struct Step {
    from: usize,
    to: usize,
    key: Option<usize>,
}

/// A world's steps, those from and into each place and those that want each key, and its locations.
struct World {
    places: usize,
    keys: usize,
    origins: Vec<usize>,
    goals: Vec<usize>,
    steps: Vec<Step>,
    from_place: Vec<Vec<usize>>,
    into_place: Vec<Vec<usize>>,
    at_key: Vec<Vec<usize>>,
    locations: Vec<usize>,
}

impl World {
    fn read(text: &str) -> World {
        let mut lines = text.lines().map(|line| line.split(' ').map(|word| word.parse::<i64>().expect("a number")).collect::<Vec<_>>());
        let head = lines.next().expect("a first line");
        let (places, keys, players) = (head[0] as usize, head[1] as usize, head[2] as usize);
        let mut world = World {
            places,
            keys,
            origins: vec![],
            goals: (0..players).map(|player| player * keys / players).collect(),
            steps: vec![],
            from_place: vec![vec![]; places],
            into_place: vec![vec![]; places],
            at_key: vec![vec![]; keys],
            locations: vec![],
        };
        for line in lines {
            match line[..] {
                [origin] => world.origins.push(origin as usize),
                _ => world.add(line[0] as usize, line[1] as usize, Some(line[2] as usize).filter(|_| line[2] >= 0), line[3] == 1),
            }
        }
        world
    }

    fn add(&mut self, from: usize, to: usize, key: Option<usize>, is_location: bool) {
        let number = self.steps.len();
        self.from_place[from].push(number);
        self.into_place[to].push(number);
        if let Some(key) = key {
            self.at_key[key].push(number);
        }
        if is_location {
            self.locations.push(to);
        }
        self.steps.push(Step { from, to, key });
    }
}

/// The list of places, by which step each is in it, and how many of each key are in hand or lie there.
struct Reached {
    done: Vec<bool>,
    by: Vec<usize>,
    counts: Vec<u32>,
    placed: Vec<Option<usize>>,
    queue: Vec<usize>,
    removed: Vec<usize>,
}

impl Reached {
    fn is_open(&self, step: &Step) -> bool {
        self.done[step.from] && step.key.is_none_or(|key| self.counts[key] > 0)
    }

    fn ask(&mut self, world: &World, number: usize) {
        let step = &world.steps[number];
        if !self.done[step.to] && self.is_open(step) {
            self.list(step.to, number);
        }
    }

    fn list(&mut self, place: usize, by: usize) {
        self.done[place] = true;
        self.by[place] = by;
        self.queue.push(place);
    }

    /// One more of a key counts.
    fn gain(&mut self, world: &World, key: usize) {
        self.counts[key] += 1;
        if self.counts[key] == 1 {
            for &number in &world.at_key[key] {
                self.ask(world, number);
            }
        }
    }

    /// Lists what the places that wait open.
    fn walk(&mut self, world: &World) {
        while let Some(place) = self.queue.pop() {
            for &number in &world.from_place[place] {
                self.ask(world, number);
            }
            if let Some(key) = self.placed[place] {
                self.gain(world, key);
            }
        }
    }

    fn remove(&mut self, world: &World, number: usize) {
        let to = world.steps[number].to;
        if self.done[to] && self.by[to] == number {
            self.done[to] = false;
            self.removed.push(to);
        }
    }

    fn lose(&mut self, world: &World, key: usize) {
        self.counts[key] -= 1;
        if self.counts[key] == 0 {
            for &number in &world.at_key[key] {
                self.remove(world, number);
            }
        }
    }

    /// One less of a key counts: what hung on it leaves the list, and what is open another way comes back.
    fn take_out(&mut self, world: &World, key: usize) {
        self.removed.clear();
        self.lose(world, key);
        let mut next = 0;
        while next < self.removed.len() {
            let place = self.removed[next];
            next += 1;
            for &number in &world.from_place[place] {
                self.remove(world, number);
            }
            if let Some(key) = self.placed[place] {
                self.lose(world, key);
            }
        }
        for place in std::mem::take(&mut self.removed) {
            for &number in &world.into_place[place] {
                self.ask(world, number);
            }
        }
        self.walk(world);
    }
}

fn shuffle(list: &mut [usize], state: &mut u64) {
    for i in (1..list.len()).rev() {
        *state ^= *state << 13;
        *state ^= *state >> 7;
        *state ^= *state << 17;
        list.swap(i, (*state % (i as u64 + 1)) as usize);
    }
}

/// Everything in hand, nothing placed.
fn everything(world: &World) -> Reached {
    let mut reached = Reached {
        done: vec![false; world.places],
        by: vec![NOBODY; world.places],
        counts: vec![1; world.keys],
        placed: vec![None; world.places],
        queue: vec![],
        removed: vec![],
    };
    for &origin in &world.origins {
        reached.list(origin, NOBODY);
    }
    reached.walk(world);
    reached
}

/// Puts each key at the first free location that is reached without it; gives the places in the order of the keys.
fn fill(world: &World, reached: &mut Reached) {
    let mut state = 88_172_645_463_325_252;
    let mut order: Vec<usize> = (0..world.keys).collect();
    shuffle(&mut order, &mut state);
    let mut openings = world.locations.clone();
    shuffle(&mut openings, &mut state);
    let mut taken = 0;
    for key in order {
        reached.take_out(world, key);
        while reached.placed[openings[taken]].is_some() {
            taken += 1;
        }
        let place = openings[taken..].iter().find(|&&place| reached.placed[place].is_none() && reached.done[place]).expect("no location is left");
        reached.placed[*place] = Some(key);
        reached.gain(world, key);
        reached.walk(world);
    }
}

/// How many entries are needed for the goals, asked from the last place to the first.
fn playthrough(world: &World, reached: &mut Reached) -> usize {
    let mut needed = 0;
    for place in (0..world.places).rev() {
        let Some(key) = reached.placed[place] else { continue };
        if !reached.done[place] {
            continue;
        }
        reached.placed[place] = None;
        reached.take_out(world, key);
        if world.goals.iter().any(|&goal| reached.counts[goal] == 0) {
            reached.placed[place] = Some(key);
            needed += 1;
            if reached.done[place] {
                reached.gain(world, key);
                reached.walk(world);
            }
        }
    }
    needed
}

fn main() {
    let file = std::env::args().nth(1).expect("a file");
    let world = World::read(&std::fs::read_to_string(&file).expect("a file"));
    let begin = Instant::now();
    let mut reached = everything(&world);
    fill(&world, &mut reached);
    let filled = begin.elapsed().as_secs_f64();
    let needed = playthrough(&world, &mut reached);
    let asked = begin.elapsed().as_secs_f64() - filled;
    println!("plain, {file}: fill {filled:.2} s, playthrough {asked:.2} s with {needed} entries");
}
