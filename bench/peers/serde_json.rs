//! serde_json as the bench calls a peer: `IgnoredAny` reads a text and builds nothing. It does not look at UTF-8.

extern crate serde_json;
extern crate serde;

#[no_mangle]
pub unsafe extern "C" fn peer_json(text: *const u8, length: usize) -> i32 {
    // SAFETY: the bench gives the pointer and length of a slice.
    let text = unsafe { std::slice::from_raw_parts(text, length) };
    serde_json::from_slice::<serde::de::IgnoredAny>(text).is_ok() as i32
}
