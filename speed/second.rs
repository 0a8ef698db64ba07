//! The second implementation's bench and judge, for the measuring program in C.

/// # Safety
/// `file` has `file_len` bytes and `log` `log_len`.
#[no_mangle]
pub unsafe extern "C" fn second_run(
    file: *const u8,
    file_len: usize,
    log: *mut u8,
    log_len: usize,
    report: &mut [u16; 4],
    table: &mut [u16; second::TABLE],
) -> usize {
    let file = std::slice::from_raw_parts(file, file_len);
    let log = std::slice::from_raw_parts_mut(log, log_len);
    second::run(file, log, report, table)
}

/// # Safety
/// `log` has `length` bytes.
#[no_mangle]
pub unsafe extern "C" fn second_judge(log: *const u8, length: usize) -> u32 {
    second::judge(std::slice::from_raw_parts(log, length)).0
}
