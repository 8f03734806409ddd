//! The functions of include/donzibrau.h, declared as the header has them. What it asks of a caller (no pointer is null, each points to as many
//! elements as are said, nothing lent to be written overlaps another argument) is what references give, and each call here takes its pointers
//! from references.

/// Both ends of a pair, as the library writes them.
pub type Ends = [i32; 2];

#[rustfmt::skip]
unsafe extern "C" {
    pub fn dzb_negation(lower: i32, upper: i32, result: *mut Ends) -> u32;
    pub fn dzb_opposite(lower: i32, upper: i32, result: *mut Ends) -> u32;
    pub fn dzb_dual(lower: i32, upper: i32, result: *mut Ends) -> u32;
    pub fn dzb_join(a_lower: i32, a_upper: i32, b_lower: i32, b_upper: i32, result: *mut Ends) -> u32;
    pub fn dzb_meet(a_lower: i32, a_upper: i32, b_lower: i32, b_upper: i32, result: *mut Ends) -> u32;
    pub fn dzb_sum(a_lower: i32, a_upper: i32, b_lower: i32, b_upper: i32, inward: bool, result: *mut Ends) -> u32;
    pub fn dzb_difference(a_lower: i32, a_upper: i32, b_lower: i32, b_upper: i32, inward: bool, result: *mut Ends) -> u32;
    pub fn dzb_product(a_lower: i32, a_upper: i32, b_lower: i32, b_upper: i32, inward: bool, result: *mut Ends) -> u32;
    pub fn dzb_quotient(a_lower: i32, a_upper: i32, b_lower: i32, b_upper: i32, inward: bool, result: *mut Ends) -> u32;
    pub fn dzb_equation(a_lower: i32, a_upper: i32, c_lower: i32, c_upper: i32, b_lower: i32, b_upper: i32, inward: bool, result: *mut Ends) -> u32;
    pub fn dzb_read(text: *const u8, length: usize, result: *mut Ends) -> u32;
    pub fn dzb_write(lower: i32, upper: i32, buffer: *mut u8, length: usize, written: *mut usize) -> u32;
    pub fn dzb_list(list: *const u8, length: usize, inward: bool, result: *mut Ends) -> u32;
    pub fn dzb_list_within(list: *const u8, length: usize, inward: bool, values: usize, steps: usize, result: *mut Ends) -> u32;
    pub fn dzb_line(line: *const u8, length: usize, result: *mut Ends) -> u32;
    pub fn dzb_begin_block(number: u32, layout: u32, block: *mut u8, length: usize) -> u32;
    pub fn dzb_add_record(r#box: u32, line: u32, lower: i32, upper: i32, block: *mut u8, length: usize) -> u32;
    pub fn dzb_sheet(ends: *const i32, count: usize, inward: bool, result: *mut Ends) -> u32;
    pub fn dzb_burnin_list(list: *const u8, length: usize, inward: bool, values: usize, steps: usize, result: *mut Ends) -> u32;
    pub fn dzb_first_list(constants: usize, buffer: *mut u8, length: usize, written: *mut usize) -> u32;
    pub fn dzb_next_list(constants: usize, list: *const u8, list_length: usize, buffer: *mut u8, length: usize, written: *mut usize) -> u32;
    pub fn dzb_claim(a_lower: i32, a_upper: i32, c_lower: i32, c_upper: i32, b_lower: i32, b_upper: i32, claim_lower: i32, claim_upper: i32, replies: *mut [u8; 2]) -> u32;
    pub fn dzb_read_centre(text: *const u8, length: usize, result: *mut Ends) -> u32;
    pub fn dzb_write_centre(lower: i32, upper: i32, buffer: *mut u8, length: usize, written: *mut usize) -> u32;
}
