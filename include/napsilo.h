/*
 * Napsilo from C: a sheet judged into four lent buffers, its printout as text, and its rows on pages.
 *
 * The functions stand in libexports.a, which `rt lib` in crates/exports writes to crates/exports/out. docs/FORMAT.md has the sheet, the
 * rows and all numbers; examples/c/judge.c and examples/c/page.c are programs over this header.
 *
 * The functions take any bytes, any lengths, and buffers that hold whatever they hold. They read the sheet, read and write the
 * buffers, touch nothing else and keep no pointer, so that several threads may call them at once over buffers of their own. What a
 * caller owes:
 *
 *   - each pointer is not null and aligned, also where its length is 0, and good for its length in entries;
 *   - no buffer overlaps the sheet or another buffer;
 *   - NAPSILO_STACK bytes of stack are left.
 */
#ifndef NAPSILO_H
#define NAPSILO_H

#include <stddef.h>
#include <stdint.h>

#ifdef __cplusplus
extern "C" {
#endif

/* The longest sheet, in bytes. A longer one is refused with 1. */
#define NAPSILO_SHEET 65536

/*
 * Lengths of the four buffers, in entries, that the program lends, so that rows and answers are those that it prints. With these no
 * sheet is refused with 8, and with 10 only one of more than 61,446 bytes: in the store each sort takes two bytes more than on a sheet
 * that does not say its tree size.
 */
#define NAPSILO_RECORDS 65536
#define NAPSILO_PLACES 4096
#define NAPSILO_ROWS 8192
#define NAPSILO_ANSWERS 1024

/* The length of a buffer for napsilo_text that holds every line of a printout. */
#define NAPSILO_LINE 1937856

/* The length of a line of a page with its newline, and the lines of a page. */
#define NAPSILO_PAGE_LINE 81
#define NAPSILO_PAGE_LINES 60

/* The bytes of stack on which every sheet can be judged and printed. Measured, not proved. */
#define NAPSILO_STACK 1835008

/* Of a row or an answer: 0 for a sort, else 20 to 29, why there is none. */
#define NAPSILO_CAUSE(word) ((uint32_t)(word) >> 16)

/* Of a row or an answer without a cause: the number of its sort in the store. The record of the sort starts at
 * records[places[number]]. */
#define NAPSILO_SORT(word) ((uint32_t)(word) & 0xffff)

/*
 * Judges a sheet into the four buffers.
 *
 * Returns 0 if the sheet is accepted, else why it is refused:
 *    1  it is under 6 or over 65,536 bytes
 *    2  a count of the header is over its limit
 *    3  a record runs past the end
 *    4  no kind, an unknown kind, or a bit map that is not the kind's; bit 128 in a term or a question
 *    5  a list's length, a number or names that the kind does not take
 *    6  a reference to no earlier record
 *    7  bytes after the last record
 *    8  fewer rows than two a term or fewer answers than questions are lent
 *    9  a sort's tree size is over 4,096
 *   10  the store cannot hold the sheet's sorts
 *   34  the tree size that a sort record says is not the sort's
 * Nothing else is returned.
 *
 * Accepted, T terms and Q questions:
 *   records  the store: the record of each distinct sort once, with its tree size (bit 128, two bytes at its end), back to back
 *   places   where each of these records starts
 *   rows     of term k the inferred row at 2k and the checked row at 2k + 1
 *   answers  of question k the answer at k; of a question for compatibility 1 or 0, which is no store number
 * and zeros behind, to the end of each buffer. Refused: all four are zeros over their whole length.
 */
uint32_t napsilo_judge(const uint8_t *sheet, size_t sheet_length,
                       uint8_t *records, size_t records_length,
                       uint32_t *places, size_t places_length,
                       uint32_t *rows, size_t rows_length,
                       uint32_t *answers, size_t answers_length);

/*
 * Writes whole lines of a sheet's printout, from the line with the number `from` on, as many as fit, into `out`, from its start on.
 * An accepted sheet has a line for each term and each question, a refused one the line `!n`. The lines are ASCII, each ends in one
 * newline, and no zero byte is put behind them. The sheet is judged anew at every call, over buffers of the function's own that have
 * the lengths above.
 *
 * Returns the place behind the last line written; what lies there in `out` is as it was. The number of the next line is `from` and as
 * many more as newlines were written. 0 says that the printout has no line `from`, or that the line does not fit; in a buffer of
 * NAPSILO_LINE bytes every line fits, so there 0 says that no line is left.
 */
size_t napsilo_text(const uint8_t *sheet, size_t sheet_length,
                    size_t from,
                    uint8_t *out, size_t out_length);

/*
 * Writes whole lines of a sheet's pages, from the line with the number `from` on, as many as fit, into `out`, from its start on.
 * On a page are the rows of an accepted sheet, on lines of 80 columns: the term number right-justified in 6, a blank, the text of the
 * inferred row in 36, a blank, that of the checked row in 36, filled with blanks. A longer text goes on below in its column, broken at
 * every 36 bytes, beside a blank number. NAPSILO_PAGE_LINES lines make a page, the last one filled up with lines of 80 blanks. Questions
 * are not printed, and a sheet without terms has no line. A refused sheet has the one line `!n`, which is shorter. The lines are ASCII,
 * each ends in one newline, which is no column, and no zero byte is put behind them. The sheet is judged anew at every call, as by
 * napsilo_text.
 *
 * Returns the place behind the last line written; what lies there in `out` is as it was. The number of the next line is `from` and as
 * many more as newlines were written. 0 says that the pages have no line `from`, or that the line does not fit; in a buffer of
 * NAPSILO_PAGE_LINE bytes every line fits, so there 0 says that no line is left.
 */
size_t napsilo_page_text(const uint8_t *sheet, size_t sheet_length,
                         size_t from,
                         uint8_t *out, size_t out_length);

#ifdef __cplusplus
}
#endif

#endif
