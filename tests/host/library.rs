//! The functions for C that work on octets alone, called with slices.

extern "C" {
    fn jwe_judge(message: *const u8, message_len: usize, known: *const u8, known_len: usize, recipient: u32) -> u32;
    fn jwe_component(
        message: *const u8,
        message_len: usize,
        known: *const u8,
        known_len: usize,
        recipient: u32,
        component: u32,
        out: *mut u8,
        out_len: usize,
        octets: *mut usize,
    ) -> u32;
    fn jwe_write_compact(
        header: *const u8,
        header_len: usize,
        key: *const u8,
        key_len: usize,
        iv: *const u8,
        iv_len: usize,
        ciphertext: *const u8,
        ciphertext_len: usize,
        tag: *const u8,
        tag_len: usize,
        known: *const u8,
        known_len: usize,
        out: *mut u8,
        out_len: usize,
        octets: *mut usize,
    ) -> u32;
    fn jwe_write_flattened(
        protected: *const u8,
        protected_len: usize,
        shared: *const u8,
        shared_len: usize,
        aad: *const u8,
        aad_len: usize,
        iv: *const u8,
        iv_len: usize,
        ciphertext: *const u8,
        ciphertext_len: usize,
        tag: *const u8,
        tag_len: usize,
        known: *const u8,
        known_len: usize,
        recipients: *const u8,
        recipients_len: usize,
        out: *mut u8,
        out_len: usize,
        octets: *mut usize,
    ) -> u32;
    fn jwe_write_general(
        protected: *const u8,
        protected_len: usize,
        shared: *const u8,
        shared_len: usize,
        aad: *const u8,
        aad_len: usize,
        iv: *const u8,
        iv_len: usize,
        ciphertext: *const u8,
        ciphertext_len: usize,
        tag: *const u8,
        tag_len: usize,
        known: *const u8,
        known_len: usize,
        recipients: *const u8,
        recipients_len: usize,
        out: *mut u8,
        out_len: usize,
        octets: *mut usize,
    ) -> u32;
    fn jwe_aad(
        encoded_header: *const u8,
        header_len: usize,
        encoded_aad: *const u8,
        aad_len: usize,
        out: *mut u8,
        out_len: usize,
        octets: *mut usize,
    ) -> u32;
    fn jwe_differences(
        left: *const u8,
        left_len: usize,
        right: *const u8,
        right_len: usize,
        known: *const u8,
        known_len: usize,
        list: *mut u32,
        list_len: usize,
        left_refusal: *mut u32,
        right_refusal: *mut u32,
        lines: *mut usize,
    ) -> u32;
}

// SAFETY, of each call: the pointers and lengths are those of slices.

pub fn judge(message: &[u8], known: &[u8], recipient: u32) -> u32 {
    unsafe { jwe_judge(message.as_ptr(), message.len(), known.as_ptr(), known.len(), recipient) }
}

pub fn component(
    message: &[u8],
    known: &[u8],
    recipient: u32,
    component: u32,
    out: &mut [u8],
    octets: &mut usize,
) -> u32 {
    unsafe {
        jwe_component(
            message.as_ptr(),
            message.len(),
            known.as_ptr(),
            known.len(),
            recipient,
            component,
            out.as_mut_ptr(),
            out.len(),
            octets,
        )
    }
}

/// Header, key, iv, ciphertext, tag, and the known names.
pub fn write_compact(inputs: [&[u8]; 6], out: &mut [u8], octets: &mut usize) -> u32 {
    let [header, key, iv, ciphertext, tag, known] = inputs;
    unsafe {
        jwe_write_compact(
            header.as_ptr(),
            header.len(),
            key.as_ptr(),
            key.len(),
            iv.as_ptr(),
            iv.len(),
            ciphertext.as_ptr(),
            ciphertext.len(),
            tag.as_ptr(),
            tag.len(),
            known.as_ptr(),
            known.len(),
            out.as_mut_ptr(),
            out.len(),
            octets,
        )
    }
}

/// Protected and shared header, aad, iv, ciphertext, tag, the known names, and the table of recipients.
pub fn write_json(general: bool, inputs: [&[u8]; 8], out: &mut [u8], octets: &mut usize) -> u32 {
    let [protected, shared, aad, iv, ciphertext, tag, known, recipients] = inputs;
    let write = if general { jwe_write_general } else { jwe_write_flattened };
    unsafe {
        write(
            protected.as_ptr(),
            protected.len(),
            shared.as_ptr(),
            shared.len(),
            aad.as_ptr(),
            aad.len(),
            iv.as_ptr(),
            iv.len(),
            ciphertext.as_ptr(),
            ciphertext.len(),
            tag.as_ptr(),
            tag.len(),
            known.as_ptr(),
            known.len(),
            recipients.as_ptr(),
            recipients.len(),
            out.as_mut_ptr(),
            out.len(),
            octets,
        )
    }
}

pub fn aad(header: &[u8], aad: &[u8], out: &mut [u8], octets: &mut usize) -> u32 {
    let (header_len, aad_len) = (header.len(), aad.len());
    unsafe { jwe_aad(header.as_ptr(), header_len, aad.as_ptr(), aad_len, out.as_mut_ptr(), out.len(), octets) }
}

pub fn decode(text: &[u8], out: &mut [u8], octets: &mut usize) -> u32 {
    unsafe { crate::jwe_decode(text.as_ptr(), text.len(), out.as_mut_ptr(), out.len(), octets) }
}

/// Left, right and the known names; the list that is lent. Answers the own number, the refusals and how many lines there are.
pub fn differences(inputs: [&[u8]; 3], list: &mut [u32]) -> (u32, [u32; 2], usize) {
    let [left, right, known] = inputs;
    // What no answer is, so that a number that is not written shows.
    let (mut refusals, mut lines) = ([u32::MAX; 2], usize::MAX);
    let [left_refusal, right_refusal] = &mut refusals;
    let own = unsafe {
        jwe_differences(
            left.as_ptr(),
            left.len(),
            right.as_ptr(),
            right.len(),
            known.as_ptr(),
            known.len(),
            list.as_mut_ptr(),
            list.len(),
            left_refusal,
            right_refusal,
            &mut lines,
        )
    };
    (own, refusals, lines)
}
