//! The control flow graph of a function: predecessors and successors of each block, all in one forest.

use bforest::{Map, MapForest, OutOfMemory};
use std::collections::BTreeSet;

#[derive(Clone, Copy, Debug, PartialEq, Eq, PartialOrd, Ord)]
struct Block(u32);

/// An instruction. The numbers increase within a block.
#[derive(Clone, Copy, Debug, PartialEq, Eq, PartialOrd, Ord)]
struct Inst(u32);

impl Block {
    fn index(self) -> usize {
        self.0 as usize
    }
}

/// The edges of one block, by their branches: where they come from, and where they go.
#[derive(Default)]
struct Edges {
    preds: Map<Inst, Block>,
    succs: Map<Inst, Block>,
}

#[derive(Default)]
struct Cfg {
    forest: MapForest<Inst, Block>,
    blocks: Vec<Edges>,
}

impl Cfg {
    fn add_block(&mut self) -> Block {
        self.blocks.push(Edges::default());
        Block(self.blocks.len() as u32 - 1)
    }

    fn preds(&self, block: Block) -> impl Iterator<Item = (Inst, Block)> {
        self.blocks[block.index()].preds.iter(&self.forest)
    }

    fn succs(&self, block: Block) -> impl Iterator<Item = (Inst, Block)> {
        self.blocks[block.index()].succs.iter(&self.forest)
    }

    /// Adds the edge of a new branch to both maps, or to neither.
    fn add_edge(&mut self, from: Block, branch: Inst, to: Block) -> Result<(), OutOfMemory> {
        let (forest, blocks) = (&mut self.forest, &mut self.blocks);
        let old = blocks[from.index()].succs.insert(branch, to, forest, &())?;
        assert_eq!(old, None, "{branch:?} has an edge already");
        let added = blocks[to.index()].preds.insert(branch, from, forest, &());
        if added.is_err() {
            // A removal is never refused.
            blocks[from.index()].succs.remove(branch, forest, &());
        }
        added.map(drop)
    }

    fn remove_edge(&mut self, from: Block, branch: Inst) -> Option<Block> {
        let (forest, blocks) = (&mut self.forest, &mut self.blocks);
        let to = blocks[from.index()].succs.remove(branch, forest, &())?;
        blocks[to.index()].preds.remove(branch, forest, &());
        Some(to)
    }

    /// Lets an existing branch go to another block. Returns the old one.
    fn redirect(&mut self, from: Block, branch: Inst, to: Block) -> Result<Block, OutOfMemory> {
        let (forest, blocks) = (&mut self.forest, &mut self.blocks);
        // Only this call can be refused: the branch is in the other map.
        blocks[to.index()].preds.insert(branch, from, forest, &())?;
        let old = blocks[from.index()].succs.insert(branch, to, forest, &())?;
        let old = old.expect("the branch has an edge");
        if old != to {
            blocks[old.index()].preds.remove(branch, forest, &());
        }
        Ok(old)
    }

    /// Moves the branches from `at` on to a new block, and jumps there. Changes nothing where it is refused.
    fn split(&mut self, block: Block, at: Inst, jump: Inst) -> Result<Block, OutOfMemory> {
        let old = &self.blocks[block.index()].succs;
        let moved: Vec<_> = old.range(at.., &self.forest, &()).collect();
        // For the moved branches, the jump, and the predecessor of the new block.
        let most = moved.len().div_ceil(2) + old.levels(&self.forest) + 1 + 1;
        self.forest.reserve_nodes(most as u32)?;

        let new = self.add_block();
        for &(branch, to) in &moved {
            self.remove_edge(block, branch);
            self.add_edge(new, branch, to)?;
        }
        self.add_edge(block, jump, new)?;
        Ok(new)
    }

    /// The blocks that can be reached from the entry without one of them.
    fn reachable(&self, entry: Block, without: Option<Block>) -> BTreeSet<Block> {
        let (mut seen, mut work) = (BTreeSet::new(), vec![entry]);
        while let Some(block) = work.pop() {
            if Some(block) != without && seen.insert(block) {
                work.extend(self.succs(block).map(|(_, to)| to));
            }
        }
        seen
    }

    /// Whether each way from the entry to a block goes over another one.
    fn dominates(&self, entry: Block, over: Block, block: Block) -> bool {
        !self.reachable(entry, Some(over)).contains(&block)
    }

    /// Makes room for the next function. The memory is kept.
    fn clear(&mut self) {
        self.forest.clear();
        self.blocks.clear();
    }

    /// Tests that each edge is in both maps, and returns how many there are.
    fn check(&self) -> usize {
        let blocks = || (0..self.blocks.len() as u32).map(Block);
        let out = blocks().flat_map(|from| self.succs(from).map(move |(by, to)| (by, from, to)));
        let into = blocks().flat_map(|to| self.preds(to).map(move |(by, from)| (by, from, to)));
        let (out, into) = (BTreeSet::from_iter(out), BTreeSet::from_iter(into));
        assert_eq!(out, into);
        out.len()
    }
}

#[test]
fn edit_and_clear() -> Result<(), OutOfMemory> {
    let mut cfg = Cfg::default();
    for _ in 0..3 {
        // A loop of `b` and `c`, which `d` follows.
        let [a, b, c, d] = [(); 4].map(|()| cfg.add_block());
        for (from, branch, to) in [(a, 9, b), (b, 18, c), (b, 19, d), (c, 29, b)] {
            cfg.add_edge(from, Inst(branch), to)?;
        }
        assert!(cfg.preds(b).eq([(Inst(9), a), (Inst(29), c)]));
        assert!(cfg.dominates(a, b, d) && !cfg.dominates(a, c, d));
        let e = cfg.split(b, Inst(19), Inst(17))?;
        assert!(cfg.succs(b).eq([(Inst(17), e), (Inst(18), c)]));
        assert!(cfg.preds(d).eq([(Inst(19), e)]));
        assert_eq!(cfg.redirect(c, Inst(29), d), Ok(b));
        assert!(cfg.preds(b).eq([(Inst(9), a)]));
        assert_eq!(cfg.remove_edge(b, Inst(17)), Some(e));
        assert_eq!(cfg.reachable(a, None), BTreeSet::from([a, b, c, d]));
        assert_eq!(cfg.check(), 4);
        cfg.clear();
        assert_eq!(cfg.forest.slots(), 0);
    }
    Ok(())
}

#[test]
fn both_maps_or_neither() {
    for limit in 0..60 {
        let forest = MapForest::with_node_limit(limit);
        let blocks = Vec::new();
        let mut cfg = Cfg { forest, blocks };
        let blocks = [(); 9].map(|()| cfg.add_block());
        let (mut edges, mut refused) = (0, 0);
        for branch in 0..400 {
            let (from, to) = (blocks[branch * branch % 7], blocks[branch * 5 % 9]);
            let done = match branch % 10 {
                9 => cfg
                    .split(from, Inst(branch as u32 / 2), Inst(branch as u32))
                    .map(drop),
                _ => cfg.add_edge(from, Inst(branch as u32), to),
            };
            edges += usize::from(done.is_ok());
            refused += usize::from(done == Err(OutOfMemory::Full));
            assert_eq!(cfg.check(), edges);
        }
        assert!(refused > 0 && cfg.forest.slots() <= limit);
    }
}
