//! The functions of `libarchive.a`. A slice is a pointer and a length.
use super::{Answer, RECORD};

extern "C" {
    pub fn script_read(
        script: *const u8,
        script_length: usize,
        edition: u32,
        reserved: *const u8,
        reserved_length: usize,
        currencies: *const u8,
        currencies_length: usize,
        day_counters: *const u8,
        day_counters_length: usize,
        records: *mut u32,
        records_length: usize,
        directory: *mut u32,
        directory_length: usize,
        answer: *mut Answer,
    );

    pub fn script_amend(
        script: *mut u8,
        script_length: usize,
        statement: u32,
        text: *const u8,
        text_length: usize,
        reserved: *const u8,
        reserved_length: usize,
        currencies: *const u8,
        currencies_length: usize,
        day_counters: *const u8,
        day_counters_length: usize,
        records: *mut u32,
        records_length: usize,
        directory: *mut u32,
        directory_length: usize,
        answer: *mut Answer,
    );

    pub fn script_part(
        script: *const u8,
        script_length: usize,
        currencies: *const u8,
        currencies_length: usize,
        record: *const [u32; RECORD],
        start: u32,
        second: bool,
        place: *mut [u32; 3],
    );
}
