//! The plain list: live blocks in address order, and no shadow anywhere.
//!
//! It is fed the map and each call's arguments, nothing else. What the paper
//! defines by shadow bytes is worked out on the list's own image.

use crate::block::{footprint, meet, placement_as, Beginning, Block};
use crate::call::{refusal, Answer, Call, Outcome, NO_FIELDS};
use crate::image::image;
use crate::map::{Area, Map, NULL};

/// What the paper calls the plain list, whatever holds its blocks.
pub trait List {
    /// The empty list; the map must be good.
    fn new(map: Map) -> Self;
    /// One call: its answer, and the list as it is afterwards.
    fn step(&mut self, call: Call) -> Answer;
    /// The live blocks in address order.
    fn listed(&self) -> Vec<Block>;
}

/// The plain list on a vector in address order.
#[derive(Clone, Debug)]
pub struct PlainList {
    map: Map,
    blocks: Vec<Block>,
}

impl List for PlainList {
    fn new(map: Map) -> Self {
        assert!(map.good(), "a plain list is built for a good map");
        PlainList {
            map,
            blocks: Vec::new(),
        }
    }

    fn step(&mut self, call: Call) -> Answer {
        self.outcome(call).into()
    }

    fn listed(&self) -> Vec<Block> {
        self.blocks.clone()
    }
}

impl PlainList {
    /// The live blocks in address order, without a copy.
    pub fn blocks(&self) -> &[Block] {
        &self.blocks
    }

    /// The map the list was built for.
    pub fn map(&self) -> Map {
        self.map
    }

    fn outcome(&mut self, call: Call) -> Outcome {
        match call {
            Call::Clear => {
                self.blocks.clear();
                Ok(NO_FIELDS)
            }
            Call::Record { base, length } => self.record(base, length, Beginning::Unwritten),
            Call::RecordWritten { base, length } => self.record(base, length, Beginning::Written),
            Call::RecordLiteral { base, length } => self.record(base, length, Beginning::Literal),
            Call::Free { base } => self.free(base),
            Call::Remove { base } => self.remove(base),
            Call::Written { address, n } => self.written(address, n),
            Call::Ask { address } => self.ask(address),
            Call::Valid { address, n, from } => self.valid(address, n, from),
            Call::ValidRead { address, n, from } => self.valid_read(address, n, from),
            Call::Initialised { address, n } => self.initialised(address, n),
            Call::Next { address } => self.next(address),
            Call::Place { length, budget } => self.place(length, budget),
            Call::Audit => Ok(self.audit()),
        }
    }

    /// The three ways to record.
    fn record(&mut self, base: u32, length: u32, beginning: Beginning) -> Outcome {
        let area = placement_as(beginning, self.map, base, length)?;
        let form = self.map.form;
        let place = footprint(form, area, base, length);
        let taken = self.blocks.iter().any(|block| {
            self.map.area(block.base) == Some(area)
                && meet(&footprint(form, area, block.base, block.length), &place)
        });
        if taken {
            return Err(refusal::TAKEN);
        }
        let index = self.blocks.partition_point(|block| block.base < base);
        let block = Block::begun(base, length, beginning);
        self.blocks.insert(index, block);
        Ok(NO_FIELDS)
    }

    fn free(&mut self, base: u32) -> Outcome {
        // As in C, freeing the null pointer does nothing (S-2).
        if base == NULL {
            return Ok(NO_FIELDS);
        }
        match self.map.area(base).ok_or(refusal::OUTSIDE)? {
            Area::Heap => self.end(base),
            // C forbids to free an automatic object (S-7).
            Area::Stack => Err(refusal::IN_STACK),
        }
    }

    /// What free is in the heap, without a case for the null pointer (S-7).
    fn remove(&mut self, base: u32) -> Outcome {
        match self.map.area(base) {
            Some(Area::Stack) => self.end(base),
            _ => Err(refusal::OUTSIDE),
        }
    }

    /// The block of this base goes.
    fn end(&mut self, base: u32) -> Outcome {
        let index = self.blocks.iter().position(|block| block.base == base);
        self.blocks.remove(index.ok_or(refusal::NO_BLOCK)?);
        Ok(NO_FIELDS)
    }

    fn written(&mut self, address: u32, n: u32) -> Outcome {
        not_zero(n)?;
        self.map.area(address).ok_or(refusal::OUTSIDE)?;
        let holder = self.blocks.iter_mut().find(|b| b.holds(address, n));
        let block = holder.ok_or(refusal::NO_BLOCK)?;
        not_literal(block.literal)?;
        block.marks(address, n).fill(true);
        Ok(NO_FIELDS)
    }

    fn ask(&self, address: u32) -> Outcome {
        self.map.area(address).ok_or(refusal::OUTSIDE)?;
        let block = self.holder(address, 1).ok_or(refusal::NO_BLOCK)?;
        let offset = address - block.base;
        let written = u32::from(block.written[offset as usize]);
        Ok([block.base, block.length, offset, written])
    }

    fn valid(&self, address: u32, n: u32, from: u32) -> Outcome {
        not_zero(n)?;
        let block = self.holder(address, n);
        let same = block.is_some_and(|block| !block.literal && block.holds(from, 1));
        Ok([u32::from(same), 0, 0, 0])
    }

    fn valid_read(&self, address: u32, n: u32, from: u32) -> Outcome {
        not_zero(n)?;
        let block = self.holder(address, n);
        let same = block.is_some_and(|block| block.holds(from, 1));
        Ok([u32::from(same), 0, 0, 0])
    }

    fn initialised(&self, address: u32, n: u32) -> Outcome {
        not_zero(n)?;
        let all_written = self.holder(address, n).is_some_and(|block| {
            let offset = (address - block.base) as usize;
            block.written[offset..][..n as usize]
                .iter()
                .all(|&mark| mark)
        });
        Ok([u32::from(all_written), 0, 0, 0])
    }

    fn next(&self, address: u32) -> Outcome {
        let mut following = self.blocks.iter().filter(|block| block.base >= address);
        let block = following.next().ok_or(refusal::NO_BLOCK)?;
        Ok([block.base, block.length, 0, 0])
    }

    /// Gaps are defined by shadow bytes, so they are those of the list's own image.
    fn place(&self, length: u32, budget: u32) -> Outcome {
        not_zero(length)?;
        let gaps = self.gaps();
        let looked_at = &gaps[..gaps.len().min(budget as usize)];
        let segment = self.map.form.whole();
        let taken = segment + u64::from(length);
        let fitting = looked_at.iter().filter(|&&(_, size)| size >= taken);
        // Of equal gaps this is the first, and so the lowest.
        let chosen = fitting.min_by_key(|&&(_, size)| size);
        let &(start, size) = chosen.ok_or(refusal::NO_GAP)?;
        let surplus = size - taken.next_multiple_of(segment);
        let base = (start + segment) as u32;
        Ok([base, looked_at.len() as u32, surplus as u32, 0])
    }

    /// Address and bytes of each gap: what the image has between two segments
    /// that are not zero, or between one and an end of the heap.
    fn gaps(&self) -> Vec<(u64, u64)> {
        let heap = image(self.map, &self.blocks).heap;
        let segments: Vec<&[u8]> = heap.chunks(self.map.form.bytes()).collect();
        let mut start = self.map.bounds(Area::Heap).start;
        let mut gaps = Vec::new();
        let taken = |segment: &&[u8]| segment.iter().any(|&byte| byte != 0);
        for between in segments.split(taken) {
            let size = self.map.form.whole() * between.len() as u64;
            if size > 0 {
                gaps.push((start, size));
            }
            start += size + self.map.form.whole();
        }
        gaps
    }

    fn audit(&self) -> [u32; 4] {
        totals(self.map, &self.blocks)
    }

    fn holder(&self, address: u32, n: u32) -> Option<&Block> {
        self.blocks.iter().find(|block| block.holds(address, n))
    }
}

/// Number 3, which comes before the address is looked at.
pub(crate) fn not_zero(n: u32) -> Result<(), u32> {
    if n == 0 {
        return Err(refusal::ZERO);
    }
    Ok(())
}

/// Number 13, which comes after 7 (S5.3).
pub(crate) fn not_literal(literal: bool) -> Result<(), u32> {
    if literal {
        return Err(refusal::LITERAL);
    }
    Ok(())
}

/// Audit's fields: heap blocks, stack blocks, live bytes, written bytes.
pub fn totals<'a>(map: Map, blocks: impl IntoIterator<Item = &'a Block>) -> [u32; 4] {
    let mut fields = NO_FIELDS;
    for block in blocks {
        match map.area(block.base) {
            Some(Area::Heap) => fields[0] += 1,
            _ => fields[1] += 1,
        }
        fields[2] += block.length;
        fields[3] += block.written_count();
    }
    fields
}
