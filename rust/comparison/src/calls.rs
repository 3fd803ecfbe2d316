//! The implementations of document 01 side by side: the proved library, the second program, and the fast one. Every call comes
//! without a tariff and by one (paper 3 of document 02).
use crate::{fast, literal};
use planner::{library, Answer, Counts, Second, Tariff, Written};

/// The calls of one implementation.
pub struct Calls {
    pub name: &'static str,
    pub read: fn(&[u8]) -> Answer<Counts>,
    pub price: fn(&[u8], u32, &mut [u8]) -> Answer<Written>,
    pub open_plan: fn(&[u8], &mut [u8]) -> Answer<Written>,
    pub limited_plan: fn(&[u8], usize, &mut [u8]) -> Answer<Written>,
    pub read_by: fn(&[u8], Tariff) -> Answer<Counts>,
    pub price_by: fn(&[u8], Tariff, u32, &mut [u8]) -> Answer<Written>,
    pub open_plan_by: fn(&[u8], Tariff, &mut [u8]) -> Answer<Written>,
    pub limited_plan_by: fn(&[u8], Tariff, usize, &mut [u8]) -> Answer<Written>,
    /// Paper 10 of document 02, by a tariff or by none.
    pub floor_by: fn(&[u8], Tariff, &[u8]) -> Answer<u64>,
}

pub const LIBRARY: Calls = Calls {
    name: "library",
    read: library::read,
    price: library::price,
    open_plan: library::open_plan,
    limited_plan: library::limited_plan,
    read_by: library::read_by,
    price_by: library::price_by,
    open_plan_by: library::open_plan_by,
    limited_plan_by: library::limited_plan_by,
    floor_by: library::floor_by,
};

/// Each call without a tariff made through the one by a tariff, which is given none.
pub const LIBRARY_BY_NONE: Calls = Calls {
    name: "library by no tariff",
    read: |sheet| library::read_by(sheet, Tariff::None),
    price: |sheet, set, area| library::price_by(sheet, Tariff::None, set, area),
    open_plan: |sheet, area| library::open_plan_by(sheet, Tariff::None, area),
    limited_plan: |sheet, k, area| library::limited_plan_by(sheet, Tariff::None, k, area),
    ..LIBRARY
};

pub const LITERAL: Calls = Calls {
    name: "literal",
    read: literal::read,
    price: literal::price,
    open_plan: literal::open_plan,
    limited_plan: literal::limited_plan,
    read_by: literal::read_by,
    price_by: literal::price_by,
    open_plan_by: literal::open_plan_by,
    limited_plan_by: literal::limited_plan_by,
    floor_by: literal::floor_by,
};

/// With sums of 64 bits and distances priced by lines, as the library has them.
pub const FAST: Calls = Calls {
    name: "fast",
    read: fast::read,
    price: fast::price,
    open_plan: fast::open_plan::<u64>,
    limited_plan: fast::limited_plan::<u64>,
    read_by: fast::read_by::<u64>,
    price_by: fast::price_by::<u64>,
    open_plan_by: fast::open_plan_by::<u64>,
    limited_plan_by: fast::limited_plan_by::<u64>,
    floor_by: fast::floor_by::<u64>,
};

/// With sums of 32 bits, and distances priced in numbers of 16 where they fit.
pub const FAST_32: Calls = Calls {
    name: "fast, sums of 32 bits",
    read: fast::read,
    price: fast::price,
    open_plan: fast::open_plan::<u32>,
    limited_plan: fast::limited_plan::<u32>,
    read_by: fast::read_by::<u32>,
    price_by: fast::price_by::<u32>,
    open_plan_by: fast::open_plan_by::<u32>,
    limited_plan_by: fast::limited_plan_by::<u32>,
    floor_by: fast::floor_by::<u32>,
};

pub const ALL: [Calls; 4] = [LIBRARY, LITERAL, FAST, FAST_32];

/// A call on a sheet, by a tariff or by none, with a set of its yards and the number of a farm or a yard.
pub type OnSet<T> = fn(&[u8], Tariff, u32, usize) -> Answer<T>;

/// The calls of paper 5 of document 02, of one implementation. They are lent no area. The fast program does not have them.
pub struct ShutCalls {
    pub name: &'static str,
    pub second_by: OnSet<Option<Second>>,
    pub shut_by: OnSet<i64>,
}

pub const SHUT_LIBRARY: ShutCalls =
    ShutCalls { name: "library", second_by: library::second_by, shut_by: library::shut_by };

pub const SHUT_LITERAL: ShutCalls =
    ShutCalls { name: "literal", second_by: literal::second_by, shut_by: literal::shut_by };

/// A call that is lent an area for a plan.
#[derive(Clone, Copy, Debug)]
pub enum PlanCall {
    Price { set: u32 },
    OpenPlan,
    LimitedPlan { k: usize },
}

impl PlanCall {
    /// The answer of an implementation to the call.
    pub fn put_to(self, calls: &Calls, sheet: &[u8], area: &mut [u8]) -> Answer<Written> {
        match self {
            PlanCall::Price { set } => (calls.price)(sheet, set, area),
            PlanCall::OpenPlan => (calls.open_plan)(sheet, area),
            PlanCall::LimitedPlan { k } => (calls.limited_plan)(sheet, k, area),
        }
    }

    /// The same by a tariff.
    pub fn put_by(self, calls: &Calls, sheet: &[u8], tariff: Tariff, area: &mut [u8]) -> Answer<Written> {
        match self {
            PlanCall::Price { set } => (calls.price_by)(sheet, tariff, set, area),
            PlanCall::OpenPlan => (calls.open_plan_by)(sheet, tariff, area),
            PlanCall::LimitedPlan { k } => (calls.limited_plan_by)(sheet, tariff, k, area),
        }
    }
}
