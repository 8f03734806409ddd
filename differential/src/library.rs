//! The archive's functions (include/donzibrau.h), declared as the header has them, and safe to call.

use crate::paper::{Operation, Way};

#[rustfmt::skip]
unsafe extern "C" {
    fn dzb_sum(a_lower: i32, a_upper: i32, b_lower: i32, b_upper: i32, inward: bool, result: &mut [i32; 2]) -> u32;
    fn dzb_difference(a_lower: i32, a_upper: i32, b_lower: i32, b_upper: i32, inward: bool, result: &mut [i32; 2]) -> u32;
    fn dzb_product(a_lower: i32, a_upper: i32, b_lower: i32, b_upper: i32, inward: bool, result: &mut [i32; 2]) -> u32;
    fn dzb_quotient(a_lower: i32, a_upper: i32, b_lower: i32, b_upper: i32, inward: bool, result: &mut [i32; 2]) -> u32;
    fn dzb_equation(a_lower: i32, a_upper: i32, c_lower: i32, c_upper: i32, b_lower: i32, b_upper: i32, inward: bool, result: &mut [i32; 2]) -> u32;
    fn dzb_negation(lower: i32, upper: i32, result: &mut [i32; 2]) -> u32;
    fn dzb_opposite(lower: i32, upper: i32, result: &mut [i32; 2]) -> u32;
    fn dzb_dual(lower: i32, upper: i32, result: &mut [i32; 2]) -> u32;
    fn dzb_join(a_lower: i32, a_upper: i32, b_lower: i32, b_upper: i32, result: &mut [i32; 2]) -> u32;
    fn dzb_meet(a_lower: i32, a_upper: i32, b_lower: i32, b_upper: i32, result: &mut [i32; 2]) -> u32;
    fn dzb_read(text: *const u8, length: usize, result: &mut [i32; 2]) -> u32;
    fn dzb_write(lower: i32, upper: i32, buffer: *mut u8, length: usize, written: &mut usize) -> u32;
    fn dzb_list(list: *const u8, length: usize, inward: bool, result: &mut [i32; 2]) -> u32;
    fn dzb_list_within(list: *const u8, length: usize, inward: bool, values: usize, steps: usize, result: &mut [i32; 2]) -> u32;
    fn dzb_line(line: *const u8, length: usize, result: &mut [i32; 2]) -> u32;
    fn dzb_begin_block(number: u32, layout: u32, block: *mut u8, length: usize) -> u32;
    fn dzb_burnin_list(list: *const u8, length: usize, inward: bool, values: usize, steps: usize, result: &mut [i32; 2]) -> u32;
    fn dzb_add_record(case: u32, line: u32, lower: i32, upper: i32, block: *mut u8, length: usize) -> u32;
    fn dzb_sheet(ends: *const i32, count: usize, inward: bool, result: &mut [i32; 2]) -> u32;
    fn dzb_first_list(constants: usize, buffer: *mut u8, length: usize, written: &mut usize) -> u32;
    fn dzb_next_list(constants: usize, list: *const u8, list_length: usize, buffer: *mut u8, length: usize, written: &mut usize) -> u32;
    fn dzb_claim(a_lower: i32, a_upper: i32, c_lower: i32, c_upper: i32, b_lower: i32, b_upper: i32, claim_lower: i32, claim_upper: i32, replies: &mut [u8; 2]) -> u32;
    fn dzb_read_centre(text: *const u8, length: usize, result: &mut [i32; 2]) -> u32;
    fn dzb_write_centre(lower: i32, upper: i32, buffer: *mut u8, length: usize, written: &mut usize) -> u32;
}

/// The ends of the pairs in the order of the call: two for each pair that the operation takes.
pub fn operation(operation: Operation, e: &[i32; 6], way: Way, result: &mut [i32; 2]) -> u32 {
    let inward = way == Way::Inward;
    // Every function takes any numbers; `result` is an exclusive reference of the length that is declared.
    unsafe {
        match operation {
            Operation::Sum => dzb_sum(e[0], e[1], e[2], e[3], inward, result),
            Operation::Difference => dzb_difference(e[0], e[1], e[2], e[3], inward, result),
            Operation::Product => dzb_product(e[0], e[1], e[2], e[3], inward, result),
            Operation::Quotient => dzb_quotient(e[0], e[1], e[2], e[3], inward, result),
            Operation::Equation => dzb_equation(e[0], e[1], e[2], e[3], e[4], e[5], inward, result),
            Operation::Negation => dzb_negation(e[0], e[1], result),
            Operation::Opposite => dzb_opposite(e[0], e[1], result),
            Operation::Dual => dzb_dual(e[0], e[1], result),
            Operation::Join => dzb_join(e[0], e[1], e[2], e[3], result),
            Operation::Meet => dzb_meet(e[0], e[1], e[2], e[3], result),
        }
    }
}

pub fn read(text: &[u8], result: &mut [i32; 2]) -> u32 {
    unsafe { dzb_read(text.as_ptr(), text.len(), result) }
}

pub fn write(lower: i32, upper: i32, buffer: &mut [u8], written: &mut usize) -> u32 {
    unsafe { dzb_write(lower, upper, buffer.as_mut_ptr(), buffer.len(), written) }
}

pub fn list(list: &[u8], way: Way, result: &mut [i32; 2]) -> u32 {
    unsafe { dzb_list(list.as_ptr(), list.len(), way == Way::Inward, result) }
}

pub fn list_within(list: &[u8], way: Way, limits: (usize, usize), result: &mut [i32; 2]) -> u32 {
    unsafe { dzb_list_within(list.as_ptr(), list.len(), way == Way::Inward, limits.0, limits.1, result) }
}

pub fn burnin_list(list: &[u8], way: Way, limits: (usize, usize), result: &mut [i32; 2]) -> u32 {
    unsafe { dzb_burnin_list(list.as_ptr(), list.len(), way == Way::Inward, limits.0, limits.1, result) }
}

pub fn line(line: &[u8], result: &mut [i32; 2]) -> u32 {
    unsafe { dzb_line(line.as_ptr(), line.len(), result) }
}

pub fn begin_block(number: u32, layout: u32, block: &mut [u8]) -> u32 {
    unsafe { dzb_begin_block(number, layout, block.as_mut_ptr(), block.len()) }
}

/// The ends are lower, then upper.
pub fn add_record(case: u32, line: u32, ends: (i32, i32), block: &mut [u8]) -> u32 {
    unsafe { dzb_add_record(case, line, ends.0, ends.1, block.as_mut_ptr(), block.len()) }
}

pub fn sheet(ends: &[i32], way: Way, result: &mut [i32; 2]) -> u32 {
    unsafe { dzb_sheet(ends.as_ptr(), ends.len(), way == Way::Inward, result) }
}

pub fn first_list(constants: usize, buffer: &mut [u8], written: &mut usize) -> u32 {
    unsafe { dzb_first_list(constants, buffer.as_mut_ptr(), buffer.len(), written) }
}

pub fn next_list(constants: usize, list: &[u8], buffer: &mut [u8], written: &mut usize) -> u32 {
    unsafe { dzb_next_list(constants, list.as_ptr(), list.len(), buffer.as_mut_ptr(), buffer.len(), written) }
}

/// The ends of a, c, b and the claim.
pub fn claim(e: &[i32], replies: &mut [u8; 2]) -> u32 {
    unsafe { dzb_claim(e[0], e[1], e[2], e[3], e[4], e[5], e[6], e[7], replies) }
}

pub fn read_centre(text: &[u8], result: &mut [i32; 2]) -> u32 {
    unsafe { dzb_read_centre(text.as_ptr(), text.len(), result) }
}

pub fn write_centre(lower: i32, upper: i32, buffer: &mut [u8], written: &mut usize) -> u32 {
    unsafe { dzb_write_centre(lower, upper, buffer.as_mut_ptr(), buffer.len(), written) }
}
