//! The functions of the archives that are timed, as fbdp.h and probe.h declare them, each with slices for pointers and
//! lengths, and with the answers of the model's function of the same name.
#![allow(unsafe_code)]

use second::endpoint::{Heard, Send};

mod declared {
    extern "C" {
        pub fn fbdp_receive(
            block: *mut u8,
            block_length: usize,
            message: *const u8,
            message_length: usize,
            name: *const u8,
            name_length: usize,
            format: *const u8,
            format_length: usize,
            out: *mut u8,
            out_length: usize,
            heard: *mut u64,
        ) -> u32;

        pub fn fbdp_send_open(
            block: *mut u8,
            block_length: usize,
            name: *const u8,
            name_length: usize,
            format: *const u8,
            format_length: usize,
            out: *mut u8,
            out_length: usize,
            written: *mut u64,
        ) -> u32;

        pub fn fbdp_send_data(
            block: *mut u8,
            block_length: usize,
            type_data: u16,
            how: u8,
            body: *const u8,
            body_length: usize,
            out: *mut u8,
            out_length: usize,
            written: *mut u64,
        ) -> u32;

        pub fn fbdp_send_noop(
            block: *mut u8,
            block_length: usize,
            type_data: u16,
            how: u8,
            out: *mut u8,
            out_length: usize,
            written: *mut u64,
        ) -> u32;

        pub fn fbdp_lookup(
            client: *const u8,
            client_length: usize,
            defaults: *const u8,
            defaults_length: usize,
            key: *const u8,
            key_length: usize,
            term: *mut u64,
        ) -> u32;

        pub fn probe_text(bytes: *const u8, length: usize) -> bool;
    }
}

pub fn receive(block: &mut [u8], message: &[u8], name: &[u8], format: &[u8], out: &mut [u8], heard: &mut Heard) -> u64 {
    // Safe: the slices are real and lie apart, as no two references to what may be written do otherwise.
    let number = unsafe {
        declared::fbdp_receive(
            block.as_mut_ptr(),
            block.len(),
            message.as_ptr(),
            message.len(),
            name.as_ptr(),
            name.len(),
            format.as_ptr(),
            format.len(),
            out.as_mut_ptr(),
            out.len(),
            heard.as_mut_ptr(),
        )
    };
    number.into()
}

/// Only the sends that are timed: OPEN, DATA and NOOP.
pub fn send(block: &mut [u8], send: Send<&[u8]>, out: &mut [u8]) -> Result<usize, u64> {
    let (at, length, into, room) = (block.as_mut_ptr(), block.len(), out.as_mut_ptr(), out.len());
    let mut written = 0;
    // Safe: as above.
    let number = unsafe {
        match send {
            Send::Open { name, format } => {
                let (name_at, format_at) = (name.as_ptr(), format.as_ptr());
                let (names, formats) = (name.len(), format.len());
                declared::fbdp_send_open(at, length, name_at, names, format_at, formats, into, room, &mut written)
            }
            Send::Data { type_data, how, body } => {
                let (body, bytes) = (body.as_ptr(), body.len());
                declared::fbdp_send_data(at, length, type_data, how, body, bytes, into, room, &mut written)
            }
            Send::Noop { type_data, how } => {
                declared::fbdp_send_noop(at, length, type_data, how, into, room, &mut written)
            }
            Send::Ready { .. } | Send::Close { .. } => unreachable!("neither READY nor CLOSE is timed"),
        }
    };
    match number {
        0 => Ok(written as usize),
        number => Err(number.into()),
    }
}

pub fn lookup(client: &[u8], defaults: &[u8], key: &[u8]) -> (u64, [u64; 3]) {
    let mut term = [0; 3];
    // Safe: as above.
    let number = unsafe {
        declared::fbdp_lookup(
            client.as_ptr(),
            client.len(),
            defaults.as_ptr(),
            defaults.len(),
            key.as_ptr(),
            key.len(),
            term.as_mut_ptr(),
        )
    };
    (number.into(), term)
}

pub fn well_formed(bytes: &[u8]) -> bool {
    // Safe: as above.
    unsafe { declared::probe_text(bytes.as_ptr(), bytes.len()) }
}
