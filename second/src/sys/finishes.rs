//! The functions of the finish family, each with the arguments of its sibling.

extern "C" {
    pub fn nyo_finish_tables(
        trace: *const u8,
        trace_len: usize,
        depth: u64,
        sites: u64,
        scratch: *mut u64,
        scratch_len: usize,
        rows: *mut u64,
        rows_len: usize,
        answer: *mut u64,
        answer_len: usize,
    ) -> u64;
    pub fn nyo_finish_marks(
        trace: *const u8,
        trace_len: usize,
        depth: u64,
        sites: u64,
        scratch: *mut u64,
        scratch_len: usize,
        marks: *mut u8,
        marks_len: usize,
        rows: *mut u64,
        rows_len: usize,
        answer: *mut u64,
        answer_len: usize,
    ) -> u64;
    pub fn nyo_finish_read_line(line: *const u8, line_len: usize, frame: *mut u64, frame_len: usize) -> u64;
    pub fn nyo_finish_write_line(
        frame: *const u64,
        frame_len: usize,
        out: *mut u8,
        out_len: usize,
        written: *mut u64,
        written_len: usize,
    ) -> u64;
}
