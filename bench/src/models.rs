//! Models of given sizes whose mechanisms touch checks near one another, as circuits have them.

use oracle::exact::drive;
use oracle::model::{Model, even_degree, offsets};
use oracle::splitmix::SplitMix64;
use proved::{Lists, Size};

/// Edges of the rows, up to the limit; 24,000 is that of a usual circuit.
pub const EDGES: [usize; 5] = [512, 4096, 24_000, 131_072, 1_048_576];

/// A model in both shapes: as the Rust takes it, and flat.
pub struct Sized {
    pub size: Size,
    pub model: Model,
    pub priors: Vec<f64>,
    pub offsets: Vec<u32>,
    pub detectors: Vec<u32>,
}

/// Three detectors a mechanism, and more where the mechanisms reach their limit; half as many checks as mechanisms. A
/// mechanism's detectors are drawn within 64 checks and rise.
pub fn sized(edges: usize) -> Sized {
    let mechanisms = (edges / 3).min(65_536);
    let checks = mechanisms / 2;
    let mut random = SplitMix64::new(edges as u64);
    let mut detectors: Vec<Vec<u32>> = Vec::new();
    for mechanism in 0..mechanisms {
        let degree = even_degree(mechanism, mechanisms, edges);
        let first = (mechanism / 2).min(checks - 64);
        let mut near: Vec<u32> = (first..first + 64).map(|check| check as u32).collect();
        random.draw_front(&mut near, degree);
        near.truncate(degree);
        near.sort_unstable();
        detectors.push(near);
    }
    flat(Model {
        checks,
        probabilities: (0..mechanisms)
            .map(|_| 1e-3 + 0.1 * random.unit())
            .collect(),
        detectors,
    })
}

/// Mechanisms and checks at their limits, with 16 detectors each that are drawn among all checks and rise.
pub fn spread() -> Sized {
    const MOST: usize = 65_536;
    let mut random = SplitMix64::new(16);
    let mut all: Vec<u32> = (0..MOST as u32).collect();
    let detectors = (0..MOST).map(|_| {
        random.draw_front(&mut all, 16);
        let mut front = all[..16].to_vec();
        front.sort_unstable();
        front
    });
    flat(Model {
        checks: MOST,
        detectors: detectors.collect(),
        probabilities: vec![1e-3; MOST],
    })
}

/// Detectors of the one mechanism of a hub, up to the limit of checks.
pub const HUBS: [usize; 3] = [1_000, 8_000, 65_536];

/// One mechanism on as many checks; its detectors rise before they are put into another order.
pub fn hub(detectors: usize, order: fn(&mut [u32])) -> Sized {
    let mut list: Vec<u32> = (0..detectors as u32).collect();
    order(&mut list);
    flat(Model {
        checks: detectors,
        detectors: vec![list],
        probabilities: vec![1e-3],
    })
}

/// Of each row's model its size, and the bytes of its graph's lists.
pub fn bytes() -> Vec<(Size, usize)> {
    let of = |edges: usize| {
        let sized = sized(edges);
        let lists = sized
            .lists()
            .each()
            .map(|list| size_of_val(list.as_slice()));
        (sized.size, lists.into_iter().sum())
    };
    EDGES.into_iter().map(of).collect()
}

pub fn nothing() -> Sized {
    flat(Model::nothing())
}

fn flat(model: Model) -> Sized {
    let detectors = model.detectors.concat();
    Sized {
        size: Size {
            checks: model.checks,
            mechanisms: model.probabilities.len(),
            edges: detectors.len(),
        },
        priors: drive::priors(&model.probabilities),
        offsets: offsets(&model.detectors),
        detectors,
        model,
    }
}

impl Sized {
    /// How many runs a turn has, one after the other. A processor learns the branches of one small run by heart, and a lab's shots
    /// differ; so a turn has several where they are small.
    pub fn runs(&self) -> usize {
        (100_000 / self.size.edges.max(1)).clamp(1, 64)
    }

    /// The syndromes of a turn: in each one mechanism in `rarity` happened, more or less.
    pub fn syndromes(&self, rarity: usize) -> Vec<Vec<u8>> {
        let syndrome = |seed: u64| {
            let mut random = SplitMix64::new(seed);
            let happened = random.flags(self.size.mechanisms, rarity);
            self.model.syndrome_of(&happened)
        };
        (3..3 + self.runs() as u64).map(syndrome).collect()
    }

    /// So many syndromes of checks drawn at random: nothing makes them, or nothing that a few iterations find.
    pub fn drawn(&self, count: usize) -> Vec<Vec<u8>> {
        let mut random = SplitMix64::new(11);
        (0..count).map(|_| random.bits(self.size.checks)).collect()
    }

    /// The graph's lists.
    pub fn lists(&self) -> Lists {
        let mut lists = Lists::filled(self.size, 0);
        let answer = proved::build_sparse(
            self.size,
            &self.priors,
            &self.offsets,
            &self.detectors,
            &mut lists,
        );
        assert_eq!(answer, Ok(()));
        lists
    }

    pub fn index_order(&self) -> Vec<u32> {
        (0..self.size.checks as u32).collect()
    }

    /// The checks in an order that was drawn.
    pub fn shuffled_order(&self) -> Vec<u32> {
        let mut random = SplitMix64::new(13);
        let mut order = self.index_order();
        random.shuffle(&mut order);
        order
    }

    /// An order that every decode takes, and not the index order: neighbours that share no mechanism are exchanged.
    pub fn kept_order(&self, lists: &Lists) -> Vec<u32> {
        let mut order = self.index_order();
        for _ in 0..4 {
            for at in 1..order.len() {
                if !share(lists, order[at - 1], order[at]) {
                    order.swap(at - 1, at);
                }
            }
        }
        order
    }

    /// An order that CheckSerial refuses at its last place: the highest check that shares a mechanism with the last one is moved behind all.
    pub fn late_order(&self, lists: &Lists) -> Vec<u32> {
        let mut order = self.index_order();
        let last = order.len() - 1;
        let other = (0..last)
            .rev()
            .find(|&other| share(lists, order[other], order[last]))
            .expect("the last check shares a mechanism");
        order[other..].rotate_left(1);
        order
    }
}

fn share(lists: &Lists, one: u32, other: u32) -> bool {
    let part = |check: u32| {
        let at = check as usize;
        &lists.check_var[lists.check_offset[at] as usize..lists.check_offset[at + 1] as usize]
    };
    // Both rise.
    part(one)
        .iter()
        .any(|mechanism| part(other).binary_search(mechanism).is_ok())
}
