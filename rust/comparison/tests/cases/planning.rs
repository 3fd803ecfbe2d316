//! Cases of pricing and of the two plans. The area holds a pattern before each call, so that every byte written shows.
use crate::sheets::{
    changed_s, dropping, equal_hauls, even, haul, haul_place, loads_shown, lowest, of_length, paper_1, s, yard,
    yard_place, KIND_5A, S_LENGTH,
};
use comparison::calls::{Calls, PlanCall};
use planner::format::{amount, record, FARM, HIGHEST_FEE, HIGHEST_HAUL, MOST_AREA, MOST_FARMS, MOST_YARDS, RECORD};
use planner::{Answer, Written};

pub const PATTERN: u8 = 0xa5;

/// The area that question 9 asks for S.
pub const S_AREA: usize = 64;

/// A plan of fewer bytes is shown whole, a longer one from its total on.
const LONG_PLAN: usize = 100;

pub fn all(calls: &Calls) -> Vec<String> {
    [areas(calls), questions(calls), moves(calls), ties(calls), unread_sheets(calls), largest(calls)].concat()
}

pub fn price_case(calls: &Calls, name: &str, sheet: &[u8], set: u32, room: usize) -> String {
    plan_case(calls, name, sheet, PlanCall::Price { set }, room)
}

pub fn open_case(calls: &Calls, name: &str, sheet: &[u8], room: usize) -> String {
    plan_case(calls, name, sheet, PlanCall::OpenPlan, room)
}

pub fn limited_case(calls: &Calls, name: &str, sheet: &[u8], k: usize, room: usize) -> String {
    plan_case(calls, name, sheet, PlanCall::LimitedPlan { k }, room)
}

fn plan_case(calls: &Calls, name: &str, sheet: &[u8], call: PlanCall, room: usize) -> String {
    let mut area = vec![PATTERN; room];
    let answer = call.put_to(calls, sheet, &mut area);
    answer_line(name, answer, &area)
}

/// What a call answered and left, with the records of the plan where they are few, else the last two.
pub fn answer_line(name: &str, answer: Answer<Written>, area: &[u8]) -> String {
    match answer {
        Ok(Written { bytes, moves }) => {
            let (records, rest) = (records_shown(area, bytes), rest(area, bytes));
            format!("{name}: bytes {bytes}, moves {moves}{records}; {rest}")
        }
        Err(number) => format!("{name}: refused {number}; {}", rest(area, 0)),
    }
}

fn records_shown(area: &[u8], bytes: usize) -> String {
    let count = bytes / RECORD;
    let first = if bytes < LONG_PLAN { 0 } else { count - 2 };
    area.chunks_exact(RECORD).take(count).skip(first).map(record_shown).collect()
}

/// A record as its kind, which is a letter, its numbers, its amount and the loads of a farm; a mark where byte 3 of another
/// kind is not zero.
fn record_shown(record: &[u8]) -> String {
    let mark = if record[3] == 0 || record[0] == FARM { loads_shown(record) } else { " byte 3!".to_string() };
    format!("; {} {} {} {}{mark}", record[0] as char, record[1], record[2], amount(record))
}

/// Does the area hold the pattern from an offset on?
fn rest(area: &[u8], from: usize) -> &'static str {
    if area.iter().skip(from).all(|&byte| byte == PATTERN) {
        "rest unchanged"
    } else {
        "rest CHANGED"
    }
}

/// S with areas one byte too short, just long enough, and two records longer.
fn areas(calls: &Calls) -> Vec<String> {
    let price = |name, set, room| price_case(calls, name, &s(), set, room);
    let open = |name, room| open_case(calls, name, &s(), room);
    let limited = |name, k, room| limited_case(calls, name, &s(), k, room);
    let (short, long) = (S_AREA - 1, S_AREA + 2 * RECORD);
    vec![
        open("S, open plan, area of 63", short),
        limited("S, k = 2, area of 63", 2, short),
        price("S, pricing {0, 2}, area of 63", 0b101, short),
        open("S, open plan, area of 64", S_AREA),
        limited("S, k = 3, area of 64", 3, S_AREA),
        price("S, pricing {0, 2}, area of 64", 0b101, S_AREA),
        open("S, open plan, area of 80", long),
        limited("S, k = 1, area of 80", 1, long),
        limited("S, k = 2, area of 80", 2, long),
        price("S, pricing {1}, area of 80", 0b010, long),
        price("S, pricing {0, 1}, area of 80", 0b011, long),
    ]
}

/// Questions 7, 8 and 9, alone and together: the earlier one answers.
fn questions(calls: &Calls) -> Vec<String> {
    let price = |name, set, room| price_case(calls, name, &s(), set, room);
    let limited = |name, k, room| limited_case(calls, name, &s(), k, room);
    vec![
        limited("S, k = 0", 0, S_AREA),
        limited("S, k = 4", 4, S_AREA),
        limited("S, k = 18446744073709551615", usize::MAX, S_AREA),
        price("S, no yard", 0, S_AREA),
        price("S, yard 3", 1 << 3, S_AREA),
        price("S, yards 0 and 31", 1 << 31 | 1, S_AREA),
        price("S, 32 yards", u32::MAX, S_AREA),
        open_case(calls, "S, no area", &s(), 0),
        limited("S, k = 4, no area", 4, 0),
        price("S, no yard, no area", 0, 0),
        price("S, all yards, no area", 0b111, 0),
    ]
}

/// A sheet whose open plan makes moves of every kind, and one on which the first lowering move is not the lowest.
fn moves(calls: &Calls) -> Vec<String> {
    let room = S_AREA + 2 * RECORD;
    vec![
        open_case(calls, "a yard is dropped, open plan", &dropping(), room),
        limited_case(calls, "the same sheet, k = 2", &dropping(), 2, room),
        open_case(calls, "the lowest move is taken, open plan", &lowest(), room),
    ]
}

/// Of yards with equal hauls a farm is given the one with the lower fee, of these the lower number.
fn ties(calls: &Calls) -> Vec<String> {
    let room = S_AREA + 4 * RECORD;
    vec![
        price_case(calls, "paper 1, pricing {0, 1}", &paper_1(), 0b11, room),
        limited_case(calls, "paper 1, k = 2", &paper_1(), 2, room),
        price_case(calls, "equal hauls, pricing {0, 2}", &equal_hauls(), 0b101, room),
        price_case(calls, "equal hauls, pricing {1, 2}", &equal_hauls(), 0b110, room),
        limited_case(calls, "equal hauls, k = 2", &equal_hauls(), 2, room),
        open_case(calls, "equal hauls, open plan", &equal_hauls(), room),
    ]
}

/// A sheet that reading turns down, with everything else wrong too.
pub fn unread(calls: &Calls, name: &str, sheet: &[u8]) -> Vec<String> {
    let room = 2 * RECORD;
    vec![
        open_case(calls, &format!("{name}, open plan"), sheet, room),
        limited_case(calls, &format!("{name}, k = 0"), sheet, 0, room),
        price_case(calls, &format!("{name}, no yard"), sheet, 0, room),
    ]
}

fn unread_sheets(calls: &Calls) -> Vec<String> {
    let fault = |name, at, record| unread(calls, name, &changed_s(&[(at, record)], S_LENGTH));
    [
        unread(calls, "S cut short", &of_length(s(), S_LENGTH - 1)),
        fault("kind 5a", yard_place(1), record(KIND_5A, 1, 0, 4)),
        fault("a yard among the hauls", haul_place(1, 0), yard(3, 5)),
        fault("another farm's number", haul_place(1, 0), haul(2, 0, 5)),
        fault("a fee too high", yard_place(0), yard(0, HIGHEST_FEE + 1)),
        fault("the rule broken", haul_place(0, 2), haul(0, 2, 10)),
    ]
    .concat()
}

/// The most yards and farms, at the highest amounts: one yard is opened, and 32 are kept.
fn largest(calls: &Calls) -> Vec<String> {
    let sheet = even(MOST_YARDS, MOST_FARMS, HIGHEST_FEE, HIGHEST_HAUL);
    let room = MOST_AREA + RECORD;
    vec![
        open_case(calls, "32 yards, 128 farms, open plan", &sheet, room),
        limited_case(calls, "32 yards, 128 farms, k = 32", &sheet, MOST_YARDS, room),
        limited_case(calls, "32 yards, 128 farms, k = 33", &sheet, MOST_YARDS + 1, room),
        price_case(calls, "32 yards, 128 farms, pricing all", &sheet, u32::MAX, room),
        open_case(calls, "32 yards, 128 farms, area of 1295", &sheet, MOST_AREA - 1),
    ]
}
