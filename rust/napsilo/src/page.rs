//! The rows on pages, by the library.

use crate::ffi;

/// The length of a line of a page, with its newline: a buffer for it has a line at least, if one is left.
pub const PAGE_LINE: usize = 81;

/// The lines of a page.
pub const PAGE_LINES: usize = 60;

/// The pages of the first buffer that [`page`] lends, and of every other.
const FIRST_PAGES: usize = 16;
const MORE_PAGES: usize = 400;

/// The rows of a sheet on pages: for an accepted one lines of 80 columns, for a refused one the line `!n` with the number of the refusal.
///
/// A row has its term number, right-justified in 6 columns, a blank, the text of the inferred row in 36, a blank, and that of the checked row
/// in 36, filled with blanks. A longer text goes on below in its column, broken at every 36 bytes, beside a blank number. A page has
/// [`PAGE_LINES`] lines, the last one is filled up with lines of blanks. Questions are not printed; a sheet without terms has no page.
///
/// The text is the library's, whose every byte is proved; here its pieces are put together. The library judges the sheet, with the
/// buffers that the program lends, once for each piece. There are sheets whose pages have many gigabytes; [`page_into`] gives them piece
/// by piece.
///
/// # Panics
/// Never: the library writes ASCII.
pub fn page(sheet: &[u8]) -> String {
    let mut text = Vec::new();
    let mut buffer = vec![0; FIRST_PAGES * PAGE_LINES * PAGE_LINE];
    let mut line = 0;
    loop {
        let end = page_into(sheet, line, &mut buffer);
        text.extend_from_slice(&buffer[..end]);
        if buffer.len() - end >= PAGE_LINE {
            // Another line would have fitted.
            return String::from_utf8(text).expect("the library writes ASCII");
        }
        line += end / PAGE_LINE;
        buffer.resize(MORE_PAGES * PAGE_LINES * PAGE_LINE, 0);
    }
}

/// Writes the pages of a sheet into a lent buffer of any length, whatever it holds: their whole lines from the number `from` on, as many as
/// fit, from the start of the buffer on. Gives the place behind them; what lies there is as it was.
///
/// The number of the next line is `from` and as many more as newlines were written: every line has one, at its end. 0 says that there is
/// no line `from`, or that it does not fit; in a buffer of [`PAGE_LINE`] bytes every line fits.
///
/// The library judges the sheet anew at every call, with the buffers that the program lends, on the stack of the caller, of which
/// [`STACK`](crate::STACK) bytes must be left.
pub fn page_into(sheet: &[u8], from: usize, out: &mut [u8]) -> usize {
    ffi::page_text(sheet, from, out)
}
