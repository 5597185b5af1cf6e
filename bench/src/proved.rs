//! The proved gateway: the static library of the crate `exports`, declared by hand after crates/exports/src/lib.rt, and a safe
//! function over each export. None of the three asks more of its caller than its types say.
use crate::plain::{Account, Fields, Hold};

#[allow(clashing_extern_declarations)]
unsafe extern "C" {
    fn gateway_open(
        message: *const u8,
        message_length: usize,
        strip: *mut u8,
        strip_length: usize,
        fields: &mut Fields,
    ) -> u8;

    fn gateway_write(
        fields: &Fields,
        buffer: *mut u8,
        buffer_length: usize,
        length: &mut usize,
    ) -> u8;

    // the allocator, its first parameter there, takes no bytes
    fn gateway_run(
        accounts: *const Account,
        accounts_length: usize,
        holds: *mut Hold,
        holds_length: usize,
        records: *const u8,
        records_length: usize,
        answers: *mut u8,
        answers_length: usize,
    ) -> usize;
}

pub fn open_into(message: &[u8], strip: &mut [u8], fields: &mut Fields) -> u8 {
    // SAFETY: each pointer and length are those of one slice, lent for the call.
    unsafe {
        gateway_open(
            message.as_ptr(),
            message.len(),
            strip.as_mut_ptr(),
            strip.len(),
            fields,
        )
    }
}

pub fn write_into(fields: &Fields, buffer: &mut [u8], length: &mut usize) -> u8 {
    // SAFETY: as above.
    unsafe { gateway_write(fields, buffer.as_mut_ptr(), buffer.len(), length) }
}

pub fn run(accounts: &[Account], holds: &mut [Hold], records: &[u8], answers: &mut [u8]) -> usize {
    // SAFETY: as above; memory comes from `malloc`, through the kit's own three functions.
    unsafe {
        gateway_run(
            accounts.as_ptr(),
            accounts.len(),
            holds.as_mut_ptr(),
            holds.len(),
            records.as_ptr(),
            records.len(),
            answers.as_mut_ptr(),
            answers.len(),
        )
    }
}
