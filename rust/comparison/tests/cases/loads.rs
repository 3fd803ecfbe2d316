//! Cases of paper 2 of document 02: loads in costs, and question 10.
//!
//! What the sets of S cost, hauls and fees, with the loads of farms 0, 1 and 2; `hauls times loads` are by yard:
//!
//! | loads     | hauls times loads                 | {0}    | {1}    | {2}     | {0, 1} | {0, 2} | {1, 2} | {0, 1, 2} |
//! |-----------|-----------------------------------|--------|--------|---------|--------|--------|--------|-----------|
//! | none      | 1 3 9, 5 1 5, 9 5 1               | 15 + 1 | 9 + 4  | 15 + 2  | 7 + 5  | 7 + 3  | 5 + 6  | 3 + 7     |
//! | 2, 1, 3   | 2 6 18, 5 1 5, 27 15 3            | 34 + 1 | 22 + 4 | 26 + 2  | 18 + 5 | 10 + 3 | 10 + 6 | 6 + 7     |
//! | 20, 1, 1  | 20 60 180, 5 1 5, 9 5 1           | 34 + 1 | 66 + 4 | 186 + 2 | 26 + 5 | 26 + 3 | 62 + 6 | 22 + 7    |
//!
//! So with 2, 1, 3 the searches go as without loads: {1}, {1, 2}, then all; for k = 2 from {0, 1} to {1, 2}, as {0, 2} but
//! earlier. With 20, 1, 1 the open search goes from {0} to {0, 2}, where no move lowers 29, and limited ones stay at their
//! starts.
use crate::planning::{limited_case, open_case, price_case, unread, S_AREA};
use crate::reading::{farm_case, read_case};
use crate::sheets::{changed_s, haul, haul_place, of_length, paper_1_table, s_with_loads, yard, yard_place, S_LENGTH};
use crate::FarmHauls;
use comparison::calls::Calls;
use planner::format::{record, HIGHEST_FEE, HIGHEST_HAUL, MOST_AREA, MOST_FARMS, MOST_LOADS, MOST_YARDS, RECORD};
use planner::table::Table;

pub fn all(calls: &Calls) -> Vec<String> {
    let refused = unread(calls, "loads that differ", &s_with_bytes(1, [5, 6, 5]));
    [bytes(calls), beside_others(calls), rule(calls), plans(calls), other_sets(calls), largest(calls), refused].concat()
}

/// S with these bytes 3 in the hauls of one farm.
fn s_with_bytes(farm: usize, bytes: [u8; 3]) -> Vec<u8> {
    let mut sheet = s_with_loads([0, 0, 0]);
    for (yard, byte) in bytes.into_iter().enumerate() {
        sheet[haul_place(farm, yard) + 3] = byte;
    }
    sheet
}

fn bytes(calls: &Calls) -> Vec<String> {
    let case = |name, farm, bytes| read_case(calls, name, &s_with_bytes(farm, bytes));
    vec![
        read_case(calls, "S, loads 2, 1, 3", &s_with_loads([2, 1, 3])),
        case("S, farm 2 with 20, 20, 20", 2, [20, 20, 20]),
        case("S, farm 2 with 21, 21, 21", 2, [21, 21, 21]),
        case("S, farm 0 with 255, 255, 255", 0, [255, 255, 255]),
        case("S, farm 1 with 148, 148, 148", 1, [148, 148, 148]),
        case("S, farm 0 with 1, 0, 0", 0, [1, 0, 0]),
        case("S, farm 0 with 0, 1, 1", 0, [0, 1, 1]),
        case("S, farm 1 with 5, 6, 5", 1, [5, 6, 5]),
        case("S, farm 2 with 20, 20, 19", 2, [20, 20, 19]),
        case("S, farm 2 with 20, 20, 21", 2, [20, 20, 21]),
    ]
}

/// Farm 2 has 0, 0 and 19, and something else is wrong too: the earlier question answers, and 10 stands between 4 and 5.
fn beside_others(calls: &Calls) -> Vec<String> {
    let last = (haul_place(2, 2), [b'H', 2, 2, 19, 1, 0, 0, 0]);
    let case = |name, at, record| read_case(calls, name, &changed_s(&[(at, record), last], S_LENGTH));
    vec![
        read_case(calls, "loads and length", &of_length(s_with_bytes(2, [0, 0, 19]), S_LENGTH + 1)),
        case("loads and kind", yard_place(1), record(0, 1, 0, 4)),
        case("loads and byte 3 of a yard", yard_place(1), [b'Y', 1, 0, 1, 4, 0, 0, 0]),
        case("loads and yard number", yard_place(1), yard(2, 4)),
        case("loads and place", haul_place(1, 0), haul(1, 1, 5)),
        case("loads and fee", yard_place(0), yard(0, HIGHEST_FEE + 1)),
        case("loads and haul", haul_place(1, 0), haul(1, 0, HIGHEST_HAUL + 1)),
        case("loads and rule", haul_place(0, 2), haul(0, 2, 10)),
    ]
}

/// Two yards without fees, hauls 1, 1 and 1, 3 or 1, 4: the rule is about one load.
fn rule(calls: &Calls) -> Vec<String> {
    let case = |name, last, loads: [u8; 2]| {
        let table = Table::new(vec![0, 0], vec![vec![1, 1], vec![1, last]]);
        read_case(calls, name, &Table { loads: loads.to_vec(), ..table }.sheet())
    };
    vec![
        case("1, 1 and 1, 3, loads 1, 20", 3, [1, 20]),
        case("1, 1 and 1, 4, loads 1, 20", 4, [1, 20]),
        case("1, 1 and 1, 4, loads 20, 1", 4, [20, 1]),
    ]
}

/// The stretches of S with loads, and of sheets that question 10 refuses, whose bytes come as they stand.
pub fn farms(farm_hauls: FarmHauls) -> Vec<String> {
    vec![
        farm_case(farm_hauls, "farm 2 of S, loads 2, 1, 3", &s_with_loads([2, 1, 3]), 2),
        farm_case(farm_hauls, "farm 1, refused by 10", &s_with_bytes(1, [5, 6, 0]), 1),
        farm_case(farm_hauls, "farm 0, farm 1 refused by 10", &s_with_bytes(1, [255, 255, 255]), 0),
    ]
}

/// S with loads 2, 1, 3, with 1 for each farm, and with 1 for farm 1 alone; and the two yards of paper 1 with 7 loads.
fn plans(calls: &Calls) -> Vec<String> {
    let s = s_with_loads([2, 1, 3]);
    let with_7 = Table { loads: vec![7], ..paper_1_table() }.sheet();
    vec![
        open_case(calls, "S, loads 2, 1, 3, open plan", &s, S_AREA),
        limited_case(calls, "S, loads 2, 1, 3, k = 1", &s, 1, S_AREA),
        limited_case(calls, "S, loads 2, 1, 3, k = 2", &s, 2, S_AREA),
        limited_case(calls, "S, loads 2, 1, 3, k = 3", &s, 3, S_AREA),
        price_case(calls, "S, loads 2, 1, 3, pricing {0, 2}", &s, 0b101, S_AREA),
        limited_case(calls, "S, loads 2, 1, 3, k = 4", &s, 4, S_AREA),
        price_case(calls, "S, loads 2, 1, 3, no yard", &s, 0, S_AREA),
        open_case(calls, "S, loads 2, 1, 3, area of 63", &s, S_AREA - 1),
        open_case(calls, "S, loads 1, 1, 1, open plan", &s_with_loads([1, 1, 1]), S_AREA),
        limited_case(calls, "S, loads 0, 1, 0, k = 1", &s_with_loads([0, 1, 0]), 1, S_AREA),
        price_case(calls, "paper 1, 7 loads, pricing {0, 1}", &with_7, 0b11, S_AREA),
    ]
}

/// S with loads 20, 1, 1, which send every search to other yards than without loads.
fn other_sets(calls: &Calls) -> Vec<String> {
    let s = s_with_loads([20, 1, 1]);
    vec![
        open_case(calls, "S, loads 20, 1, 1, open plan", &s, S_AREA),
        limited_case(calls, "S, loads 20, 1, 1, k = 1", &s, 1, S_AREA),
        limited_case(calls, "S, loads 20, 1, 1, k = 2", &s, 2, S_AREA),
    ]
}

/// The most yards, farms and loads, at the highest amounts: the hauls are 128 times 20 times 1,000,000.
fn largest(calls: &Calls) -> Vec<String> {
    let even = Table::even(MOST_YARDS, MOST_FARMS, HIGHEST_FEE, HIGHEST_HAUL);
    let sheet = Table { loads: vec![MOST_LOADS; MOST_FARMS], ..even }.sheet();
    let room = MOST_AREA + RECORD;
    vec![
        open_case(calls, "32 yards, 128 farms of 20 loads, open plan", &sheet, room),
        limited_case(calls, "32 yards, 128 farms of 20 loads, k = 32", &sheet, MOST_YARDS, room),
        price_case(calls, "32 yards, 128 farms of 20 loads, pricing all", &sheet, u32::MAX, room),
    ]
}
