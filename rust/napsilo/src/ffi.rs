//! The calls of the proved library. All unsafe code of this crate is here.

/// The functions of `libexports.a`. Each slice is a pointer and then a length.
mod library {
    unsafe extern "C" {
        /// Judges a sheet into four lent buffers: 0 for an accepted sheet, else the number of the refusal.
        ///
        /// It reads the sheet and reads and writes the buffers, nothing else, and keeps no pointer. It takes every length and whatever
        /// the buffers hold. Pointers must be as those of Rust's slices are: not null and aligned also for length 0, and a buffer must
        /// overlap nothing else.
        pub fn napsilo_judge(
            sheet: *const u8,
            sheet_length: usize,
            records: *mut u8,
            records_length: usize,
            places: *mut u32,
            places_length: usize,
            rows: *mut u32,
            rows_length: usize,
            answers: *mut u32,
            answers_length: usize,
        ) -> u32;

        /// Writes whole lines of a sheet's printout, from the number `from` on and as many as fit, into a lent buffer: the place behind them.
        ///
        /// It reads the sheet and reads and writes the buffer, nothing else, and keeps no pointer. It takes every length, every number and
        /// whatever the buffer holds. Pointers must be as for `napsilo_judge`.
        pub fn napsilo_text(
            sheet: *const u8,
            sheet_length: usize,
            from: usize,
            out: *mut u8,
            out_length: usize,
        ) -> usize;

        /// Writes whole lines of a sheet's pages, as `napsilo_text` those of its printout, with the same preconditions.
        pub fn napsilo_page_text(
            sheet: *const u8,
            sheet_length: usize,
            from: usize,
            out: *mut u8,
            out_length: usize,
        ) -> usize;
    }
}

/// Judges a sheet into the lent buffers: 0 for an accepted sheet, else the number of the refusal.
pub fn judge(sheet: &[u8], records: &mut [u8], places: &mut [u32], rows: &mut [u32], answers: &mut [u32]) -> u32 {
    // SAFETY: each pointer and length is a Rust slice's, so it is not null, aligned, and valid for its length: to read for the sheet, to
    // read and write for the four buffers. The buffers are borrowed exclusively, so they overlap neither each other nor the sheet, and
    // all five borrows last until the call returns. The function has no other precondition.
    unsafe {
        library::napsilo_judge(
            sheet.as_ptr(),
            sheet.len(),
            records.as_mut_ptr(),
            records.len(),
            places.as_mut_ptr(),
            places.len(),
            rows.as_mut_ptr(),
            rows.len(),
            answers.as_mut_ptr(),
            answers.len(),
        )
    }
}

/// Writes whole lines of a sheet's printout, from the number `from` on and as many as fit, into the lent buffer: the place behind them.
pub fn text(sheet: &[u8], from: usize, out: &mut [u8]) -> usize {
    // SAFETY: each pointer and length is a Rust slice's, so it is not null, aligned, and valid for its length: to read for the sheet, to
    // read and write for the buffer. The buffer is borrowed exclusively, so it does not overlap the sheet, and both borrows last until
    // the call returns. The function has no other precondition.
    unsafe { library::napsilo_text(sheet.as_ptr(), sheet.len(), from, out.as_mut_ptr(), out.len()) }
}

/// Writes whole lines of a sheet's pages, from the number `from` on and as many as fit, into the lent buffer: the place behind them.
pub fn page_text(sheet: &[u8], from: usize, out: &mut [u8]) -> usize {
    // SAFETY: as for `text`.
    unsafe { library::napsilo_page_text(sheet.as_ptr(), sheet.len(), from, out.as_mut_ptr(), out.len()) }
}
