//! The calls of `include/planner.h` as C has them, which says what they ask of pointers and lengths. `library` and `Sheet` are safe.
extern "C" {
    pub fn planner_read(sheet: *const u8, sheet_len: usize) -> u64;
    pub fn planner_farm_len(sheet: *const u8, sheet_len: usize, farm: usize) -> usize;
    pub fn planner_farm_from(sheet: *const u8, sheet_len: usize, farm: usize) -> usize;
    pub fn planner_farm_byte(sheet: *const u8, sheet_len: usize, farm: usize, at: usize) -> u8;
    pub fn planner_price(sheet: *const u8, sheet_len: usize, set: u32, area: *mut u8, area_len: usize) -> u64;
    pub fn planner_open_plan(sheet: *const u8, sheet_len: usize, area: *mut u8, area_len: usize) -> u64;
    pub fn planner_limited_plan(sheet: *const u8, sheet_len: usize, k: usize, area: *mut u8, area_len: usize) -> u64;
    pub fn planner_read_by(sheet: *const u8, sheet_len: usize, hauls: u8, tariff: *const u8, tariff_len: usize) -> u64;
    pub fn planner_price_by(
        sheet: *const u8,
        sheet_len: usize,
        hauls: u8,
        tariff: *const u8,
        tariff_len: usize,
        set: u32,
        area: *mut u8,
        area_len: usize,
    ) -> u64;
    pub fn planner_open_plan_by(
        sheet: *const u8,
        sheet_len: usize,
        hauls: u8,
        tariff: *const u8,
        tariff_len: usize,
        area: *mut u8,
        area_len: usize,
    ) -> u64;
    pub fn planner_limited_plan_by(
        sheet: *const u8,
        sheet_len: usize,
        hauls: u8,
        tariff: *const u8,
        tariff_len: usize,
        k: usize,
        area: *mut u8,
        area_len: usize,
    ) -> u64;
    pub fn planner_second(
        sheet: *const u8,
        sheet_len: usize,
        hauls: u8,
        tariff: *const u8,
        tariff_len: usize,
        set: u32,
        farm: usize,
    ) -> u64;
    pub fn planner_shut(
        sheet: *const u8,
        sheet_len: usize,
        hauls: u8,
        tariff: *const u8,
        tariff_len: usize,
        set: u32,
        yard: usize,
    ) -> u64;
    pub fn planner_floor(
        sheet: *const u8,
        sheet_len: usize,
        hauls: u8,
        tariff: *const u8,
        tariff_len: usize,
        offers: *const u8,
        offers_len: usize,
    ) -> u64;
}
