//! The base64 crate as the bench calls a peer: octets written, or usize::MAX.

extern crate base64;

use std::slice::{from_raw_parts, from_raw_parts_mut};

#[no_mangle]
pub unsafe extern "C" fn peer_decode(text: *const u8, length: usize, out: *mut u8, room: usize) -> usize {
    // SAFETY: the bench gives the pointers and lengths of slices, here and below.
    let (text, out) = unsafe { (from_raw_parts(text, length), from_raw_parts_mut(out, room)) };
    base64::decode_config_slice(text, base64::URL_SAFE_NO_PAD, out).unwrap_or(usize::MAX)
}

#[no_mangle]
pub unsafe extern "C" fn peer_encode(octets: *const u8, length: usize, out: *mut u8, room: usize) -> usize {
    let (octets, out) = unsafe { (from_raw_parts(octets, length), from_raw_parts_mut(out, room)) };
    base64::encode_config_slice(octets, base64::URL_SAFE_NO_PAD, out)
}
