//! What include/dringoleth.h declares.

#[link(name = "tag_c", kind = "static")]
extern "C" {
    pub fn dringoleth_power_up(session: *mut [u8; 54]);
    pub fn dringoleth_read(
        tag: *const u8,
        tag_len: usize,
        session: *const [u8; 54],
        address: usize,
        count: usize,
        output: *mut u8,
        output_len: usize,
    ) -> u8;
    pub fn dringoleth_write(
        tag: *mut u8,
        tag_len: usize,
        session: *mut [u8; 54],
        address: usize,
        data: *const u8,
        data_len: usize,
    ) -> u8;
    pub fn dringoleth_advance(tag: *mut u8, tag_len: usize, session: *const [u8; 54], segment: usize) -> u8;
    pub fn dringoleth_insert(
        tag: *mut u8,
        tag_len: usize,
        session: *const [u8; 54],
        segment: usize,
        id: *const [u8; 16],
    ) -> u8;
    pub fn dringoleth_run(
        tag: *mut u8,
        tag_len: usize,
        session: *mut [u8; 54],
        log: *const u8,
        log_len: usize,
        output: *mut u8,
        output_len: usize,
        bytes_read: *mut usize,
        bytes_written: *mut usize,
    ) -> u8;
}
