//! The plain list on a `BTreeMap` keyed by base: same answers, faster look-ups.

use std::collections::BTreeMap;
use std::iter::once;

use crate::block::{footprint, meet, placement_as, Beginning, Block};
use crate::call::{refusal, Answer, Call, Outcome, NO_FIELDS};
use crate::map::{Area, Map, NULL};
use crate::plain::{not_literal, not_zero, totals, List};

/// The plain list on a balanced tree, a peer for timing.
#[derive(Clone, Debug)]
pub struct PlainTree {
    map: Map,
    blocks: BTreeMap<u32, Block>,
}

impl List for PlainTree {
    fn new(map: Map) -> Self {
        assert!(map.good(), "a plain list is built for a good map");
        PlainTree {
            map,
            blocks: BTreeMap::new(),
        }
    }

    fn step(&mut self, call: Call) -> Answer {
        self.outcome(call).into()
    }

    fn listed(&self) -> Vec<Block> {
        self.blocks.values().cloned().collect()
    }
}

impl PlainTree {
    fn outcome(&mut self, call: Call) -> Outcome {
        match call {
            Call::Clear => {
                self.blocks.clear();
                Ok(NO_FIELDS)
            }
            Call::Record { base, length } => self.record(base, length, Beginning::Unwritten),
            Call::RecordWritten { base, length } => self.record(base, length, Beginning::Written),
            Call::RecordLiteral { base, length } => self.record(base, length, Beginning::Literal),
            Call::Free { base } => self.free(base),
            Call::Remove { base } => self.remove(base),
            Call::Written { address, n } => self.written(address, n),
            Call::Ask { address } => self.ask(address),
            Call::Valid { address, n, from } => self.valid(address, n, from),
            Call::ValidRead { address, n, from } => self.valid_read(address, n, from),
            Call::Initialised { address, n } => self.initialised(address, n),
            Call::Next { address } => self.next(address),
            Call::Place { length, budget } => self.place(length, budget),
            Call::Audit => Ok(totals(self.map, self.blocks.values())),
        }
    }

    /// The three ways to record.
    fn record(&mut self, base: u32, length: u32, beginning: Beginning) -> Outcome {
        let area = placement_as(beginning, self.map, base, length)?;
        let form = self.map.form;
        let place = footprint(form, area, base, length);
        // Footprints are disjoint and in base order, so only neighbours can meet.
        let before = self.blocks.range(..base).next_back();
        let after = self.blocks.range(base..).next();
        let taken = before.into_iter().chain(after).any(|(_, block)| {
            self.map.area(block.base) == Some(area)
                && meet(&footprint(form, area, block.base, block.length), &place)
        });
        if taken {
            return Err(refusal::TAKEN);
        }
        let block = Block::begun(base, length, beginning);
        self.blocks.insert(base, block);
        Ok(NO_FIELDS)
    }

    fn free(&mut self, base: u32) -> Outcome {
        // As in C, freeing the null pointer does nothing (S-2).
        if base == NULL {
            return Ok(NO_FIELDS);
        }
        let area = self.map.area(base).ok_or(refusal::OUTSIDE)?;
        if area == Area::Stack {
            return Err(refusal::IN_STACK);
        }
        self.end(base)
    }

    fn remove(&mut self, base: u32) -> Outcome {
        let stack = self.map.bounds(Area::Stack);
        if !stack.contains(&u64::from(base)) {
            return Err(refusal::OUTSIDE);
        }
        self.end(base)
    }

    fn end(&mut self, base: u32) -> Outcome {
        self.blocks.remove(&base).ok_or(refusal::NO_BLOCK)?;
        Ok(NO_FIELDS)
    }

    fn written(&mut self, address: u32, n: u32) -> Outcome {
        not_zero(n)?;
        self.map.area(address).ok_or(refusal::OUTSIDE)?;
        let (_, block) = self
            .blocks
            .range_mut(..=address)
            .next_back()
            .filter(|(_, block)| block.holds(address, n))
            .ok_or(refusal::NO_BLOCK)?;
        not_literal(block.literal)?;
        block.marks(address, n).fill(true);
        Ok(NO_FIELDS)
    }

    fn ask(&self, address: u32) -> Outcome {
        self.map.area(address).ok_or(refusal::OUTSIDE)?;
        let block = self.holder(address, 1).ok_or(refusal::NO_BLOCK)?;
        let offset = address - block.base;
        let written = u32::from(block.written[offset as usize]);
        Ok([block.base, block.length, offset, written])
    }

    fn valid(&self, address: u32, n: u32, from: u32) -> Outcome {
        not_zero(n)?;
        let block = self.holder(address, n);
        let same = block.is_some_and(|block| !block.literal && block.holds(from, 1));
        Ok([u32::from(same), 0, 0, 0])
    }

    fn valid_read(&self, address: u32, n: u32, from: u32) -> Outcome {
        not_zero(n)?;
        let block = self.holder(address, n);
        let same = block.is_some_and(|block| block.holds(from, 1));
        Ok([u32::from(same), 0, 0, 0])
    }

    fn initialised(&self, address: u32, n: u32) -> Outcome {
        not_zero(n)?;
        let all_written = self.holder(address, n).is_some_and(|block| {
            let offset = (address - block.base) as usize;
            !block.written[offset..][..n as usize].contains(&false)
        });
        Ok([u32::from(all_written), 0, 0, 0])
    }

    fn next(&self, address: u32) -> Outcome {
        let following = self.blocks.range(address..).next();
        let (_, block) = following.ok_or(refusal::NO_BLOCK)?;
        Ok([block.base, block.length, 0, 0])
    }

    /// A footprint has no zero segment and all others are zero, so that a gap is
    /// the room between two footprints, or between one and an end of the heap.
    fn place(&self, length: u32, budget: u32) -> Outcome {
        not_zero(length)?;
        let heap = self.map.bounds(Area::Heap);
        let blocks = self.blocks.range(heap.start as u32..heap.end as u32);
        let mut free_from = heap.start;
        let mut looked_at = 0;
        let mut chosen: Option<(u64, u32)> = None;
        let footprint = |base, length| footprint(self.map.form, Area::Heap, base, length);
        let taken = blocks.map(|(&base, block)| footprint(base, block.length));
        for next in taken.chain(once(heap.end..heap.end)) {
            let gap = free_from..next.start;
            free_from = next.end;
            if gap.is_empty() || looked_at == budget {
                continue;
            }
            looked_at += 1;
            let base = (gap.start + self.map.form.whole()) as u32;
            // The block's own footprint would begin where the gap does.
            let end = footprint(base, length).end;
            let surplus = gap.end.checked_sub(end);
            // For one length the smaller gap is the one with less surplus.
            chosen = match (surplus, chosen) {
                (Some(less), Some((least, _))) if less < least => Some((less, base)),
                (Some(first), None) => Some((first, base)),
                _ => chosen,
            };
        }
        let (surplus, base) = chosen.ok_or(refusal::NO_GAP)?;
        Ok([base, looked_at, surplus as u32, 0])
    }

    /// The last block at or below the address is the only one that can hold it.
    fn holder(&self, address: u32, n: u32) -> Option<&Block> {
        let (_, block) = self.blocks.range(..=address).next_back()?;
        Some(block).filter(|block| block.holds(address, n))
    }
}
