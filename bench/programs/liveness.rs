//! Which variables are live where each block of a function begins, and how many are live at once: a set of variables for each block, and a
//! worklist that goes backward through the control flow graph to a fixed point.

use super::random::{added, Random};

/// An instruction reads two variables and writes one.
pub struct Inst {
    reads: [u32; 2],
    writes: u32,
}

#[derive(Default)]
pub struct Block {
    insts: Vec<Inst>,
    successors: Vec<usize>,
    predecessors: Vec<usize>,
}

/// The blocks of a function.
pub type Function = Vec<Block>;

const BLOCKS: u32 = 50;
const INSTS: u32 = 8;
/// A function has so many variables that live from block to block, and each instruction may write one of its own, which its block reads.
const LOCALS: u32 = 40;
/// Of the first, each block reads and writes so many.
const NEAR: u32 = 12;

/// So many functions, each with a random graph.
pub fn input(functions: u32) -> Vec<Function> {
    let mut random = Random::new(1);
    (0..functions).map(|_| function(&mut random)).collect()
}

fn function(random: &mut Random) -> Function {
    let mut blocks: Function = (0..BLOCKS).map(|at| block(at, random)).collect();
    for at in 0..blocks.len() {
        for to in blocks[at].successors.clone() {
            blocks[to].predecessors.push(at);
        }
    }
    blocks
}

/// A block that goes on to the next one, where there is one, and often to one that is near, before or behind.
fn block(at: u32, random: &mut Random) -> Block {
    let mut insts = Vec::new();
    for index in 0..INSTS {
        insts.push(inst(at, index, &insts, random));
    }
    let mut successors: Vec<usize> = (at + 1..BLOCKS).take(1).map(|next| next as usize).collect();
    if random.below(2) == 0 {
        successors.push(((at + random.below(16)).saturating_sub(4).min(BLOCKS - 1)) as usize);
    }
    Block { insts, successors, predecessors: Vec::new() }
}

/// An instruction that reads near variables, or what those before it in its block write.
fn inst(block: u32, index: u32, before: &[Inst], random: &mut Random) -> Inst {
    let mut near = || (block + random.below(NEAR)) % LOCALS;
    let mut reads = [near(), near()];
    let mut writes = near();
    for read in &mut reads {
        if let Some(inst) = before.get(random.below(2 * INSTS) as usize) {
            *read = inst.writes;
        }
    }
    if random.below(2) == 0 {
        writes = LOCALS + block * INSTS + index;
    }
    Inst { reads, writes }
}

/// The sets of a function's blocks, all empty at first.
pub trait Sets {
    fn new() -> Self;
    /// Empties all sets, of which there are `blocks` then.
    fn begin(&mut self, blocks: usize);
    /// A block reads a variable: it is live at its beginning if the block has not written it before.
    fn read(&mut self, block: usize, variable: u32);
    fn write(&mut self, block: usize, variable: u32);
    /// What is live where `next` begins and is not written by `block` is live where `block` begins. Whether that is more than before.
    fn flow(&mut self, next: usize, block: usize) -> bool;
    /// Makes what is live at the end of a block from what is live where the next blocks begin, and counts it.
    fn end(&mut self, next: &[usize]) -> u32;
    /// A variable is live at the place that `end` began, or is not. Whether this is new.
    fn set_live(&mut self, variable: u32, is_live: bool) -> bool;
    /// Adds what is live where a block begins to a checksum.
    fn add_live(&self, block: usize, sum: u64) -> u64;
}

/// Analyses all functions, and returns a checksum.
pub fn run<S: Sets>(functions: &[Function]) -> u64 {
    let mut sets = S::new();
    functions.iter().fold(0, |sum, blocks| {
        solve(&mut sets, blocks);
        let sum = (0..blocks.len()).fold(sum, |sum, at| sets.add_live(at, sum));
        blocks.iter().fold(sum, |sum, block| added(sum, pressure(&mut sets, block)))
    })
}

fn solve<S: Sets>(sets: &mut S, blocks: &[Block]) {
    sets.begin(blocks.len());
    for (at, block) in blocks.iter().enumerate() {
        for inst in &block.insts {
            inst.reads.iter().for_each(|variable| sets.read(at, *variable));
            sets.write(at, inst.writes);
        }
    }
    let mut work: Vec<usize> = (0..blocks.len()).collect();
    let mut waits = vec![true; blocks.len()];
    while let Some(at) = work.pop() {
        waits[at] = false;
        let mut grew = false;
        for next in &blocks[at].successors {
            grew |= sets.flow(*next, at);
        }
        for before in blocks[at].predecessors.iter().filter(|_| grew) {
            if !std::mem::replace(&mut waits[*before], true) {
                work.push(*before);
            }
        }
    }
}

/// The greatest number of variables that are live at once in a block.
fn pressure<S: Sets>(sets: &mut S, block: &Block) -> u32 {
    let mut live = sets.end(&block.successors);
    let mut most = live;
    for inst in block.insts.iter().rev() {
        live -= u32::from(sets.set_live(inst.writes, false));
        for variable in inst.reads {
            live += u32::from(sets.set_live(variable, true));
        }
        most = most.max(live);
    }
    most
}

pub mod standard {
    use super::{added, Sets};
    use std::collections::BTreeSet;

    #[derive(Default)]
    pub struct Live {
        live: Vec<BTreeSet<u32>>,
        written: Vec<BTreeSet<u32>>,
        now: BTreeSet<u32>,
        /// Variables on their way from set to set.
        moved: Vec<u32>,
    }

    impl Sets for Live {
        fn new() -> Self {
            Live::default()
        }

        fn begin(&mut self, blocks: usize) {
            for sets in [&mut self.live, &mut self.written] {
                sets.clear();
                sets.resize_with(blocks, BTreeSet::new);
            }
        }

        fn read(&mut self, block: usize, variable: u32) {
            if !self.written[block].contains(&variable) {
                self.live[block].insert(variable);
            }
        }

        fn write(&mut self, block: usize, variable: u32) {
            self.written[block].insert(variable);
        }

        fn flow(&mut self, next: usize, block: usize) -> bool {
            let (own, written) = (&self.live[block], &self.written[block]);
            self.moved.clear();
            self.moved.extend(self.live[next].difference(own).filter(|it| !written.contains(it)));
            self.live[block].extend(&self.moved);
            !self.moved.is_empty()
        }

        fn end(&mut self, next: &[usize]) -> u32 {
            self.now.clear();
            next.iter().for_each(|at| self.now.extend(&self.live[*at]));
            self.now.len() as u32
        }

        fn set_live(&mut self, variable: u32, is_live: bool) -> bool {
            if is_live {
                self.now.insert(variable)
            } else {
                self.now.remove(&variable)
            }
        }

        fn add_live(&self, block: usize, sum: u64) -> u64 {
            self.live[block].iter().fold(sum, |sum, variable| added(sum, *variable))
        }
    }
}

#[cfg(package)]
pub mod package {
    use super::{added, Sets};
    use bforest::{Set, SetForest};

    const ROOM: &str = "there is memory";

    #[derive(Default)]
    pub struct Live {
        forest: SetForest<u32>,
        live: Vec<Set<u32>>,
        written: Vec<Set<u32>>,
        now: Set<u32>,
        /// Variables on their way from set to set.
        moved: Vec<u32>,
    }

    impl Sets for Live {
        fn new() -> Self {
            Live::default()
        }

        fn begin(&mut self, blocks: usize) {
            self.forest.clear();
            self.now = Set::new();
            for sets in [&mut self.live, &mut self.written] {
                sets.clear();
                sets.resize_with(blocks, Set::new);
            }
        }

        fn read(&mut self, block: usize, variable: u32) {
            if !self.written[block].contains(variable, &self.forest, &()) {
                self.live[block].insert(variable, &mut self.forest, &()).expect(ROOM);
            }
        }

        fn write(&mut self, block: usize, variable: u32) {
            self.written[block].insert(variable, &mut self.forest, &()).expect(ROOM);
        }

        fn flow(&mut self, next: usize, block: usize) -> bool {
            let (forest, own, written) = (&self.forest, &self.live[block], &self.written[block]);
            self.moved.clear();
            self.moved.extend(self.live[next].difference(own, forest, &()).filter(|it| !written.contains(*it, forest, &())));
            for variable in &self.moved {
                self.live[block].insert(*variable, &mut self.forest, &()).expect(ROOM);
            }
            !self.moved.is_empty()
        }

        fn end(&mut self, next: &[usize]) -> u32 {
            self.now.clear(&mut self.forest);
            for at in next {
                self.now.union_with(&self.live[*at], &mut self.forest, &()).expect(ROOM);
            }
            self.now.len(&self.forest) as u32
        }

        fn set_live(&mut self, variable: u32, is_live: bool) -> bool {
            if is_live {
                self.now.insert(variable, &mut self.forest, &()).expect(ROOM)
            } else {
                self.now.remove(variable, &mut self.forest, &())
            }
        }

        fn add_live(&self, block: usize, sum: u64) -> u64 {
            self.live[block].iter(&self.forest).fold(sum, added)
        }
    }
}

#[cfg(original)]
pub mod original {
    use super::{added, Sets};
    use cranelift_bforest::{Set, SetForest};

    pub struct Live {
        forest: SetForest<u32>,
        live: Vec<Set<u32>>,
        written: Vec<Set<u32>>,
        now: Set<u32>,
        /// Variables on their way from set to set.
        moved: Vec<u32>,
    }

    impl Sets for Live {
        fn new() -> Self {
            Live { forest: SetForest::new(), live: Vec::new(), written: Vec::new(), now: Set::new(), moved: Vec::new() }
        }

        fn begin(&mut self, blocks: usize) {
            self.forest.clear();
            self.now = Set::new();
            for sets in [&mut self.live, &mut self.written] {
                sets.clear();
                sets.resize_with(blocks, Set::new);
            }
        }

        fn read(&mut self, block: usize, variable: u32) {
            if !self.written[block].contains(variable, &self.forest, &()) {
                self.live[block].insert(variable, &mut self.forest, &());
            }
        }

        fn write(&mut self, block: usize, variable: u32) {
            self.written[block].insert(variable, &mut self.forest, &());
        }

        fn flow(&mut self, next: usize, block: usize) -> bool {
            let (forest, own, written) = (&self.forest, &self.live[block], &self.written[block]);
            let is_new = |it: &u32| !written.contains(*it, forest, &()) && !own.contains(*it, forest, &());
            self.moved.clear();
            self.moved.extend(self.live[next].iter(forest).filter(is_new));
            for variable in &self.moved {
                self.live[block].insert(*variable, &mut self.forest, &());
            }
            !self.moved.is_empty()
        }

        fn end(&mut self, next: &[usize]) -> u32 {
            self.now.clear(&mut self.forest);
            let mut count = 0;
            for at in next {
                self.moved.clear();
                self.moved.extend(self.live[*at].iter(&self.forest));
                for variable in &self.moved {
                    count += u32::from(self.now.insert(*variable, &mut self.forest, &()));
                }
            }
            count
        }

        fn set_live(&mut self, variable: u32, is_live: bool) -> bool {
            if is_live {
                self.now.insert(variable, &mut self.forest, &())
            } else {
                self.now.remove(variable, &mut self.forest, &())
            }
        }

        fn add_live(&self, block: usize, sum: u64) -> u64 {
            self.live[block].iter(&self.forest).fold(sum, added)
        }
    }
}
