//! Lists of calls: a list of one kind has a loop of its own, so that no dispatch is timed with it.

use model::call::Call;
use model::origins::call::OriginsCall;

pub enum Calls {
    Asks(Vec<u32>),
    Valids(Vec<(u32, u32, u32)>),
    ValidReads(Vec<(u32, u32, u32)>),
    Initialised(Vec<(u32, u32)>),
    Written(Vec<(u32, u32)>),
    Records(Vec<(u32, u32)>),
    RecordsWritten(Vec<(u32, u32)>),
    RecordsLiteral(Vec<(u32, u32)>),
    Frees(Vec<u32>),
    Removes(Vec<u32>),
    Nexts(Vec<u32>),
    Audits(usize),
    Clears(usize),
    /// A length and a budget.
    Places(Vec<(u32, u32)>),
    /// A cell and an address.
    Points(Vec<(u32, u32)>),
    /// A cell, and the cell that it is copied from.
    Copies(Vec<(u32, u32)>),
    Lives(Vec<(u32, u32)>),
    Mixed(Vec<Call>),
}

impl Calls {
    pub fn new(calls: &[Call]) -> Self {
        let kind = std::mem::discriminant(&calls[0]);
        if calls
            .iter()
            .any(|call| std::mem::discriminant(call) != kind)
        {
            return Calls::Mixed(calls.to_vec());
        }
        let all = calls.iter().copied();
        match calls[0] {
            Call::Ask { .. } => Calls::Asks(all.map(first).collect()),
            Call::Valid { .. } => Calls::Valids(all.map(three).collect()),
            Call::ValidRead { .. } => Calls::ValidReads(all.map(three).collect()),
            Call::Initialised { .. } => Calls::Initialised(all.map(both).collect()),
            Call::Written { .. } => Calls::Written(all.map(both).collect()),
            Call::Record { .. } => Calls::Records(all.map(both).collect()),
            Call::RecordWritten { .. } => Calls::RecordsWritten(all.map(both).collect()),
            Call::RecordLiteral { .. } => Calls::RecordsLiteral(all.map(both).collect()),
            Call::Free { .. } => Calls::Frees(all.map(first).collect()),
            Call::Remove { .. } => Calls::Removes(all.map(first).collect()),
            Call::Next { .. } => Calls::Nexts(all.map(first).collect()),
            Call::Audit => Calls::Audits(calls.len()),
            Call::Clear => Calls::Clears(calls.len()),
            Call::Place { .. } => Calls::Places(all.filter_map(length_and_budget).collect()),
        }
    }

    /// Makes each call in its order.
    #[inline(always)]
    pub fn each(&self, maker: &mut impl Maker) {
        match self {
            Calls::Asks(list) => {
                for &address in list {
                    maker.one(Call::Ask { address });
                }
            }
            Calls::Valids(list) => {
                for &(address, n, from) in list {
                    maker.one(Call::Valid { address, n, from });
                }
            }
            Calls::ValidReads(list) => {
                for &(address, n, from) in list {
                    maker.one(Call::ValidRead { address, n, from });
                }
            }
            Calls::Initialised(list) => {
                for &(address, n) in list {
                    maker.one(Call::Initialised { address, n });
                }
            }
            Calls::Written(list) => {
                for &(address, n) in list {
                    maker.one(Call::Written { address, n });
                }
            }
            Calls::Records(list) => {
                for &(base, length) in list {
                    maker.one(Call::Record { base, length });
                }
            }
            Calls::RecordsWritten(list) => {
                for &(base, length) in list {
                    maker.one(Call::RecordWritten { base, length });
                }
            }
            Calls::RecordsLiteral(list) => {
                for &(base, length) in list {
                    maker.one(Call::RecordLiteral { base, length });
                }
            }
            Calls::Frees(list) => {
                for &base in list {
                    maker.one(Call::Free { base });
                }
            }
            Calls::Removes(list) => {
                for &base in list {
                    maker.one(Call::Remove { base });
                }
            }
            Calls::Nexts(list) => {
                for &address in list {
                    maker.one(Call::Next { address });
                }
            }
            Calls::Audits(count) => {
                for _ in 0..*count {
                    maker.one(Call::Audit);
                }
            }
            Calls::Clears(count) => {
                for _ in 0..*count {
                    maker.one(Call::Clear);
                }
            }
            Calls::Places(list) => {
                for &(length, budget) in list {
                    maker.one(Call::Place { length, budget });
                }
            }
            Calls::Points(list) => {
                for &(cell, address) in list {
                    maker.pointer(OriginsCall::Point { cell, address });
                }
            }
            Calls::Copies(list) => {
                for &(to, from) in list {
                    maker.pointer(OriginsCall::Copy { to, from });
                }
            }
            Calls::Lives(list) => {
                for &(cell, address) in list {
                    maker.pointer(OriginsCall::Live { cell, address });
                }
            }
            Calls::Mixed(list) => {
                for &call in list {
                    maker.one(call);
                }
            }
        }
    }
}

/// What makes one call. To be inlined always: in a loop of one kind its choice between kinds then falls away.
pub trait Maker {
    fn one(&mut self, call: Call);

    /// A call of a pointer. A side that has none asks for the address.
    #[inline(always)]
    fn pointer(&mut self, call: OriginsCall) {
        match call {
            OriginsCall::Point { address, .. } | OriginsCall::Live { address, .. } => {
                self.one(Call::Ask { address })
            }
            OriginsCall::Copy { from, .. } => self.one(Call::Ask { address: from }),
            OriginsCall::Plain(call) => self.one(call),
        }
    }
}

/// place has no kind, and so no fields in a calls file.
fn length_and_budget(call: Call) -> Option<(u32, u32)> {
    match call {
        Call::Place { length, budget } => Some((length, budget)),
        _ => None,
    }
}

/// A call's fields in a calls file; clear has none.
fn field(call: Call, index: usize) -> u32 {
    call.record_fields().map_or(0, |(_, fields)| fields[index])
}

fn first(call: Call) -> u32 {
    field(call, 0)
}

fn second(call: Call) -> u32 {
    field(call, 1)
}

fn both(call: Call) -> (u32, u32) {
    (first(call), second(call))
}

fn three(call: Call) -> (u32, u32, u32) {
    (first(call), second(call), field(call, 2))
}

/// The sum of the answers, by which all sides are held to have answered the same. Bases are left out: E-ACSL's are other addresses.
#[derive(Default)]
pub struct Weight(u64);

impl Weight {
    #[inline(always)]
    pub fn add(&mut self, call: Call, number: u32, fields: &[u32; 4]) {
        let told = match call {
            Call::Ask { .. } => fields[1] + fields[2] + fields[3],
            Call::Next { .. } => fields[1],
            Call::Valid { .. } | Call::ValidRead { .. } => fields[0],
            Call::Initialised { .. } | Call::Audit => fields[0],
            // All sides that have place know the map's addresses: the base is compared too.
            Call::Place { .. } => fields[0] + fields[1] + fields[2],
            _ => 0,
        };
        self.0 += (u64::from(number) << 32) + u64::from(told);
    }

    #[inline(always)]
    pub fn add_pointer(&mut self, number: u32, fields: &[u32; 4]) {
        self.0 += (u64::from(number) << 32) + u64::from(fields[0]);
    }

    pub fn total(self) -> u64 {
        self.0
    }
}
