//! The proved code, through its C names.
use crate::calls::{Answer, Calls};

extern "C" {
    fn masked_check(
        table: *const u16,
        table_len: usize,
        notes: *mut u16,
        notes_len: usize,
        a: *mut u64,
        b: *mut u64,
        c: *mut u64,
    ) -> u64;
    fn masked_evaluate(
        table: *const u16,
        table_len: usize,
        notes: *mut u16,
        notes_len: usize,
        shares: *const u8,
        shares_len: usize,
        tape: *const u8,
        tape_len: usize,
        values: *mut u8,
        values_len: usize,
        a: *mut u64,
        b: *mut u64,
        c: *mut u64,
    ) -> u64;
    fn masked_read_probes(
        table: *const u16,
        table_len: usize,
        notes: *mut u16,
        notes_len: usize,
        shares: *const u8,
        shares_len: usize,
        tape: *const u8,
        tape_len: usize,
        values: *mut u8,
        values_len: usize,
        probes: *const u16,
        probes_len: usize,
        reading: *mut u8,
        reading_len: usize,
        a: *mut u64,
        b: *mut u64,
        c: *mut u64,
    ) -> u64;
    fn masked_read_text(
        text: *const u8,
        text_len: usize,
        table: *mut u16,
        table_len: usize,
        a: *mut u64,
        b: *mut u64,
    ) -> u64;
    fn masked_write_text(
        table: *const u16,
        table_len: usize,
        notes: *mut u16,
        notes_len: usize,
        text: *mut u8,
        text_len: usize,
        a: *mut u64,
        b: *mut u64,
        c: *mut u64,
    ) -> u64;
    fn masked_count(
        table: *const u16,
        table_len: usize,
        notes: *mut u16,
        notes_len: usize,
        secrets: *const u8,
        secrets_len: usize,
        probes: *const u16,
        probes_len: usize,
        counts: *mut u32,
        counts_len: usize,
        a: *mut u64,
        b: *mut u64,
        c: *mut u64,
    ) -> u64;
    fn masked_clock(
        table: *const u16,
        table_len: usize,
        notes: *mut u16,
        notes_len: usize,
        shares: *const u8,
        shares_len: usize,
        tape: *const u8,
        tape_len: usize,
        values: *mut u8,
        values_len: usize,
        bank: *mut u8,
        bank_len: usize,
        a: *mut u64,
        b: *mut u64,
        c: *mut u64,
    ) -> u64;
    fn masked_check_sharings(
        table: *const u16,
        table_len: usize,
        notes: *mut u16,
        notes_len: usize,
        a: *mut u64,
        b: *mut u64,
        c: *mut u64,
    ) -> u64;
}

/// What the numbers hold before a call: each must be written by it.
const JUNK: u64 = 0xA5A5_5A5A_DEAD_BEEF;

pub struct Proved;

impl Calls for Proved {
    fn check(&self, table: &[u16], notes: &mut [u16]) -> Answer {
        let [mut a, mut b, mut c] = [JUNK; 3];
        let result = unsafe {
            masked_check(
                table.as_ptr(),
                table.len(),
                notes.as_mut_ptr(),
                notes.len(),
                &mut a,
                &mut b,
                &mut c,
            )
        };
        Answer { result, numbers: [a, b, c] }
    }

    fn evaluate(
        &self,
        table: &[u16],
        notes: &mut [u16],
        shares: &[u8],
        tape: &[u8],
        values: &mut [u8],
    ) -> Answer {
        let [mut a, mut b, mut c] = [JUNK; 3];
        let result = unsafe {
            masked_evaluate(
                table.as_ptr(),
                table.len(),
                notes.as_mut_ptr(),
                notes.len(),
                shares.as_ptr(),
                shares.len(),
                tape.as_ptr(),
                tape.len(),
                values.as_mut_ptr(),
                values.len(),
                &mut a,
                &mut b,
                &mut c,
            )
        };
        Answer { result, numbers: [a, b, c] }
    }

    fn read_probes(
        &self,
        table: &[u16],
        notes: &mut [u16],
        shares: &[u8],
        tape: &[u8],
        values: &mut [u8],
        probes: &[u16],
        reading: &mut [u8],
    ) -> Answer {
        let [mut a, mut b, mut c] = [JUNK; 3];
        let result = unsafe {
            masked_read_probes(
                table.as_ptr(),
                table.len(),
                notes.as_mut_ptr(),
                notes.len(),
                shares.as_ptr(),
                shares.len(),
                tape.as_ptr(),
                tape.len(),
                values.as_mut_ptr(),
                values.len(),
                probes.as_ptr(),
                probes.len(),
                reading.as_mut_ptr(),
                reading.len(),
                &mut a,
                &mut b,
                &mut c,
            )
        };
        Answer { result, numbers: [a, b, c] }
    }

    fn read_text(&self, text: &[u8], table: &mut [u16]) -> Answer {
        let [mut a, mut b] = [JUNK; 2];
        let result = unsafe {
            masked_read_text(
                text.as_ptr(),
                text.len(),
                table.as_mut_ptr(),
                table.len(),
                &mut a,
                &mut b,
            )
        };
        Answer { result, numbers: [a, b, 0] }
    }

    fn write_text(&self, table: &[u16], notes: &mut [u16], text: &mut [u8]) -> Answer {
        let [mut a, mut b, mut c] = [JUNK; 3];
        let result = unsafe {
            masked_write_text(
                table.as_ptr(),
                table.len(),
                notes.as_mut_ptr(),
                notes.len(),
                text.as_mut_ptr(),
                text.len(),
                &mut a,
                &mut b,
                &mut c,
            )
        };
        Answer { result, numbers: [a, b, c] }
    }

    fn count(
        &self,
        table: &[u16],
        notes: &mut [u16],
        secrets: &[u8],
        probes: &[u16],
        counts: &mut [u32],
    ) -> Answer {
        let [mut a, mut b, mut c] = [JUNK; 3];
        let result = unsafe {
            masked_count(
                table.as_ptr(),
                table.len(),
                notes.as_mut_ptr(),
                notes.len(),
                secrets.as_ptr(),
                secrets.len(),
                probes.as_ptr(),
                probes.len(),
                counts.as_mut_ptr(),
                counts.len(),
                &mut a,
                &mut b,
                &mut c,
            )
        };
        Answer { result, numbers: [a, b, c] }
    }

    fn clock(
        &self,
        table: &[u16],
        notes: &mut [u16],
        shares: &[u8],
        tape: &[u8],
        values: &mut [u8],
        bank: &mut [u8],
    ) -> Answer {
        let [mut a, mut b, mut c] = [JUNK; 3];
        let result = unsafe {
            masked_clock(
                table.as_ptr(),
                table.len(),
                notes.as_mut_ptr(),
                notes.len(),
                shares.as_ptr(),
                shares.len(),
                tape.as_ptr(),
                tape.len(),
                values.as_mut_ptr(),
                values.len(),
                bank.as_mut_ptr(),
                bank.len(),
                &mut a,
                &mut b,
                &mut c,
            )
        };
        Answer { result, numbers: [a, b, c] }
    }

    fn check_sharings(&self, table: &[u16], notes: &mut [u16]) -> Answer {
        let [mut a, mut b, mut c] = [JUNK; 3];
        let result = unsafe {
            masked_check_sharings(
                table.as_ptr(),
                table.len(),
                notes.as_mut_ptr(),
                notes.len(),
                &mut a,
                &mut b,
                &mut c,
            )
        };
        Answer { result, numbers: [a, b, c] }
    }
}
