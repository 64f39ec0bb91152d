//! Rattle's ciphers. Nothing checks these declarations against crates/capi/src/lib.rt: a `&[u8]`
//! there is an address and a length here. The functions there take any lengths, so the wrappers
//! test nothing.

extern "C" {
    fn bulwarkle_xts_encrypt(
        key: *const u8,
        key_len: usize,
        block_number: u64,
        block: *mut u8,
        block_len: usize,
    ) -> u8;
    fn bulwarkle_xts_decrypt(
        key: *const u8,
        key_len: usize,
        block_number: u64,
        block: *mut u8,
        block_len: usize,
    ) -> u8;
    fn bulwarkle_cts_encrypt(key: *const u8, key_len: usize, text: *mut u8, text_len: usize) -> u8;
    fn bulwarkle_cts_decrypt(key: *const u8, key_len: usize, text: *mut u8, text_len: usize) -> u8;
    fn bulwarkle_ecb_encrypt(key: *const u8, key_len: usize, text: *mut u8, text_len: usize) -> u8;
}

pub fn xts_encrypt(key: &[u8], block_number: u64, block: &mut [u8]) -> u8 {
    unsafe {
        bulwarkle_xts_encrypt(
            key.as_ptr(),
            key.len(),
            block_number,
            block.as_mut_ptr(),
            block.len(),
        )
    }
}

pub fn xts_decrypt(key: &[u8], block_number: u64, block: &mut [u8]) -> u8 {
    unsafe {
        bulwarkle_xts_decrypt(
            key.as_ptr(),
            key.len(),
            block_number,
            block.as_mut_ptr(),
            block.len(),
        )
    }
}

pub fn cts_encrypt(key: &[u8], text: &mut [u8]) -> u8 {
    unsafe { bulwarkle_cts_encrypt(key.as_ptr(), key.len(), text.as_mut_ptr(), text.len()) }
}

pub fn cts_decrypt(key: &[u8], text: &mut [u8]) -> u8 {
    unsafe { bulwarkle_cts_decrypt(key.as_ptr(), key.len(), text.as_mut_ptr(), text.len()) }
}

pub fn ecb_encrypt(key: &[u8], text: &mut [u8]) -> u8 {
    unsafe { bulwarkle_ecb_encrypt(key.as_ptr(), key.len(), text.as_mut_ptr(), text.len()) }
}
