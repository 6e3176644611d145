//! The proved library through its C interface. Every slice passes as a pointer and a length.

#![allow(unsafe_code)]

use crate::check::Limits;
use crate::forecast::Entry;
use crate::library::Library;
use crate::line::Family;

mod finishes;

extern "C" {
    fn nyo_tables(
        trace: *const u8,
        trace_len: usize,
        depth: u64,
        sites: u64,
        scratch: *mut u64,
        scratch_len: usize,
        rows: *mut u64,
        rows_len: usize,
        answer: *mut u64,
        answer_len: usize,
    ) -> u64;
    fn nyo_marks(
        trace: *const u8,
        trace_len: usize,
        depth: u64,
        sites: u64,
        scratch: *mut u64,
        scratch_len: usize,
        marks: *mut u8,
        marks_len: usize,
        rows: *mut u64,
        rows_len: usize,
        answer: *mut u64,
        answer_len: usize,
    ) -> u64;
    fn nyo_forecast_tables(
        trace: *const u8,
        trace_len: usize,
        depth: u64,
        sites: u64,
        entries: *const Entry,
        entries_len: usize,
        scratch: *mut u64,
        scratch_len: usize,
        rows: *mut u64,
        rows_len: usize,
        answer: *mut u64,
        answer_len: usize,
    ) -> u64;
    fn nyo_forecast_marks(
        trace: *const u8,
        trace_len: usize,
        depth: u64,
        sites: u64,
        entries: *const Entry,
        entries_len: usize,
        scratch: *mut u64,
        scratch_len: usize,
        marks: *mut u8,
        marks_len: usize,
        rows: *mut u64,
        rows_len: usize,
        answer: *mut u64,
        answer_len: usize,
    ) -> u64;
    fn nyo_read_line(line: *const u8, line_len: usize, frame: *mut u64, frame_len: usize) -> u64;
    fn nyo_write_line(
        frame: *const u64,
        frame_len: usize,
        out: *mut u8,
        out_len: usize,
        written: *mut u64,
        written_len: usize,
    ) -> u64;
    fn nyo_report(
        rows: *const u64,
        rows_len: usize,
        count: u64,
        out: *mut u8,
        out_len: usize,
        written: *mut u64,
        written_len: usize,
    ) -> u64;
    fn nyo_full_report(
        rows: *const u64,
        rows_len: usize,
        count: u64,
        out: *mut u8,
        out_len: usize,
        written: *mut u64,
        written_len: usize,
    ) -> u64;
    fn nyo_refusal(number: u64, line: u64, out: *mut u8, out_len: usize, written: *mut u64, written_len: usize) -> u64;
    fn nyo_csv_write(
        rows: *const u64,
        rows_len: usize,
        count: u64,
        out: *mut u8,
        out_len: usize,
        written: *mut u64,
        written_len: usize,
    ) -> u64;
    fn nyo_csv_read(
        text: *const u8,
        text_len: usize,
        rows: *mut u64,
        rows_len: usize,
        count: *mut u64,
        count_len: usize,
    ) -> u64;
    fn nyo_folded(
        trace: *const u8,
        trace_len: usize,
        depth: u64,
        sites: u64,
        project: *const u8,
        project_len: usize,
        stock: *const u8,
        stock_len: usize,
        scratch: *mut u64,
        scratch_len: usize,
        out: *mut u8,
        out_len: usize,
        written: *mut u64,
        written_len: usize,
    ) -> u64;
    fn nyo_compact(
        trace: *const u8,
        trace_len: usize,
        depth: u64,
        sites: u64,
        out: *mut u8,
        out_len: usize,
        written: *mut u64,
        written_len: usize,
    ) -> u64;
    fn nyo_why(
        trace: *const u8,
        trace_len: usize,
        depth: u64,
        sites: u64,
        line: u32,
        scratch: *mut u64,
        scratch_len: usize,
        marks: *mut u8,
        marks_len: usize,
        answer: *mut u64,
        answer_len: usize,
    ) -> u64;
}

/// The proved library.
pub struct Proved;

// SAFETY of every call below: each pointer comes with the length of the slice that it was taken from, slices that are
// lent for writing are borrowed for it alone, and the library reads and writes only within them and keeps none of them.
impl Library for Proved {
    fn tables(
        &self,
        family: Family,
        trace: &[u8],
        limits: Limits,
        scratch: &mut [u64],
        rows: &mut [u64],
        answer: &mut [u64],
    ) -> u64 {
        let tables = match family {
            Family::Base => nyo_tables,
            Family::Finishes => finishes::nyo_finish_tables,
        };
        unsafe {
            tables(
                trace.as_ptr(),
                trace.len(),
                limits.depth,
                limits.sites,
                scratch.as_mut_ptr(),
                scratch.len(),
                rows.as_mut_ptr(),
                rows.len(),
                answer.as_mut_ptr(),
                answer.len(),
            )
        }
    }

    fn marks(
        &self,
        family: Family,
        trace: &[u8],
        limits: Limits,
        scratch: &mut [u64],
        marks: &mut [u8],
        rows: &mut [u64],
        answer: &mut [u64],
    ) -> u64 {
        let run = match family {
            Family::Base => nyo_marks,
            Family::Finishes => finishes::nyo_finish_marks,
        };
        unsafe {
            run(
                trace.as_ptr(),
                trace.len(),
                limits.depth,
                limits.sites,
                scratch.as_mut_ptr(),
                scratch.len(),
                marks.as_mut_ptr(),
                marks.len(),
                rows.as_mut_ptr(),
                rows.len(),
                answer.as_mut_ptr(),
                answer.len(),
            )
        }
    }

    fn forecast_tables(
        &self,
        trace: &[u8],
        limits: Limits,
        entries: &[Entry],
        scratch: &mut [u64],
        rows: &mut [u64],
        answer: &mut [u64],
    ) -> u64 {
        unsafe {
            nyo_forecast_tables(
                trace.as_ptr(),
                trace.len(),
                limits.depth,
                limits.sites,
                entries.as_ptr(),
                entries.len(),
                scratch.as_mut_ptr(),
                scratch.len(),
                rows.as_mut_ptr(),
                rows.len(),
                answer.as_mut_ptr(),
                answer.len(),
            )
        }
    }

    fn forecast_marks(
        &self,
        trace: &[u8],
        limits: Limits,
        entries: &[Entry],
        scratch: &mut [u64],
        marks: &mut [u8],
        rows: &mut [u64],
        answer: &mut [u64],
    ) -> u64 {
        unsafe {
            nyo_forecast_marks(
                trace.as_ptr(),
                trace.len(),
                limits.depth,
                limits.sites,
                entries.as_ptr(),
                entries.len(),
                scratch.as_mut_ptr(),
                scratch.len(),
                marks.as_mut_ptr(),
                marks.len(),
                rows.as_mut_ptr(),
                rows.len(),
                answer.as_mut_ptr(),
                answer.len(),
            )
        }
    }

    fn read_line(&self, family: Family, line: &[u8], frame: &mut [u64]) -> u64 {
        let read = match family {
            Family::Base => nyo_read_line,
            Family::Finishes => finishes::nyo_finish_read_line,
        };
        unsafe { read(line.as_ptr(), line.len(), frame.as_mut_ptr(), frame.len()) }
    }

    fn write_line(&self, family: Family, frame: &[u64], out: &mut [u8], written: &mut [u64]) -> u64 {
        let write = match family {
            Family::Base => nyo_write_line,
            Family::Finishes => finishes::nyo_finish_write_line,
        };
        let (out_len, written_len) = (out.len(), written.len());
        let (out, written) = (out.as_mut_ptr(), written.as_mut_ptr());
        unsafe { write(frame.as_ptr(), frame.len(), out, out_len, written, written_len) }
    }

    fn report(&self, rows: &[u64], count: u64, out: &mut [u8], written: &mut [u64]) -> u64 {
        let (out_len, written_len) = (out.len(), written.len());
        let (out, written) = (out.as_mut_ptr(), written.as_mut_ptr());
        unsafe { nyo_report(rows.as_ptr(), rows.len(), count, out, out_len, written, written_len) }
    }

    fn full_report(&self, rows: &[u64], count: u64, out: &mut [u8], written: &mut [u64]) -> u64 {
        let (out_len, written_len) = (out.len(), written.len());
        let (out, written) = (out.as_mut_ptr(), written.as_mut_ptr());
        unsafe { nyo_full_report(rows.as_ptr(), rows.len(), count, out, out_len, written, written_len) }
    }

    fn refusal(&self, number: u64, line: u64, out: &mut [u8], written: &mut [u64]) -> u64 {
        let (out_len, written_len) = (out.len(), written.len());
        unsafe { nyo_refusal(number, line, out.as_mut_ptr(), out_len, written.as_mut_ptr(), written_len) }
    }

    fn csv_write(&self, rows: &[u64], count: u64, out: &mut [u8], written: &mut [u64]) -> u64 {
        let (out_len, written_len) = (out.len(), written.len());
        let (out, written) = (out.as_mut_ptr(), written.as_mut_ptr());
        unsafe { nyo_csv_write(rows.as_ptr(), rows.len(), count, out, out_len, written, written_len) }
    }

    fn csv_read(&self, text: &[u8], rows: &mut [u64], count: &mut [u64]) -> u64 {
        let (rows_len, count_len) = (rows.len(), count.len());
        let (rows, count) = (rows.as_mut_ptr(), count.as_mut_ptr());
        unsafe { nyo_csv_read(text.as_ptr(), text.len(), rows, rows_len, count, count_len) }
    }

    fn folded(
        &self,
        trace: &[u8],
        limits: Limits,
        [project, stock]: [&[u8]; 2],
        scratch: &mut [u64],
        out: &mut [u8],
        written: &mut [u64],
    ) -> u64 {
        unsafe {
            nyo_folded(
                trace.as_ptr(),
                trace.len(),
                limits.depth,
                limits.sites,
                project.as_ptr(),
                project.len(),
                stock.as_ptr(),
                stock.len(),
                scratch.as_mut_ptr(),
                scratch.len(),
                out.as_mut_ptr(),
                out.len(),
                written.as_mut_ptr(),
                written.len(),
            )
        }
    }

    fn compact(&self, trace: &[u8], limits: Limits, out: &mut [u8], written: &mut [u64]) -> u64 {
        let (out_len, written_len) = (out.len(), written.len());
        let (out, written) = (out.as_mut_ptr(), written.as_mut_ptr());
        let (depth, sites) = (limits.depth, limits.sites);
        unsafe { nyo_compact(trace.as_ptr(), trace.len(), depth, sites, out, out_len, written, written_len) }
    }

    fn why(
        &self,
        trace: &[u8],
        limits: Limits,
        line: u32,
        scratch: &mut [u64],
        marks: &mut [u8],
        answer: &mut [u64],
    ) -> u64 {
        unsafe {
            nyo_why(
                trace.as_ptr(),
                trace.len(),
                limits.depth,
                limits.sites,
                line,
                scratch.as_mut_ptr(),
                scratch.len(),
                marks.as_mut_ptr(),
                marks.len(),
                answer.as_mut_ptr(),
                answer.len(),
            )
        }
    }
}
