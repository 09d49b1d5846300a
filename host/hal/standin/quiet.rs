//! The chip for measuring time: each field is one word of a bank, written as volatile; every poll succeeds at once.
use std::ptr::{addr_of, addr_of_mut, read_volatile, write_volatile};

static mut BANK: [u32; 82] = [0; 82];

pub struct Op;

impl Op {
    pub fn set() -> Op {
        Op
    }

    #[inline(always)]
    pub fn add(&mut self, field: u32, value: u32) {
        // one thread measures
        unsafe { write_volatile(addr_of_mut!(BANK).cast::<u32>().add(field as usize), value) }
    }

    pub fn done(self) {}
}

pub fn poll(_field: u32) -> bool {
    true
}

pub fn poll_first(_field: u32, _second: u32) -> bool {
    true
}

pub fn poll_second(_field: u32) -> bool {
    true
}

#[inline(always)]
pub fn poll_value(_field: u32, as_set: u32) -> u32 {
    unsafe { read_volatile(addr_of!(BANK).cast::<u32>().add(as_set as usize)) }
}

pub fn check(_field: u32) -> bool {
    true
}

pub fn hsion() -> bool {
    true
}

pub fn hsidiv() -> u32 {
    2
}

pub fn actvos(_field: u32) -> u32 {
    0
}

pub fn reset_flags() -> u32 {
    0
}

pub fn write_reset_flags(_word: u32) {}
