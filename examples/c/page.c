/*
 * Prints the rows of the sheet in a file on pages of 80 columns and 60 lines, eight pages at a time.
 *
 *   mkdir -p target && cc -I include examples/c/page.c -L crates/exports/out -lexports -o target/page
 *   target/page examples/session.sheet
 *
 * The exit status is 0, or 1 if the sheet cannot be read or its pages not be written.
 */
#include <napsilo.h>
#include <stdio.h>

/* One byte more than the longest sheet, so that a longer one is told. */
static uint8_t sheet[NAPSILO_SHEET + 1];
static uint8_t lines[8 * NAPSILO_PAGE_LINES * NAPSILO_PAGE_LINE];

/* Reads the sheet: its length, or -1 if the file cannot be read. */
static long read_sheet(const char *path)
{
    FILE *file = fopen(path, "rb");
    if (file == NULL)
        return -1;
    size_t length = fread(sheet, 1, sizeof sheet, file);
    int failed = ferror(file);
    fclose(file);
    return failed ? -1 : (long)length;
}

/* Prints the pages, piece by piece: 0, or -1 if they cannot be written. */
static int print_pages(size_t length)
{
    size_t line = 0, end;
    while ((end = napsilo_page_text(sheet, length, line, lines, sizeof lines)) != 0) {
        for (size_t at = 0; at < end; at++)
            line += lines[at] == '\n';
        if (fwrite(lines, 1, end, stdout) != end)
            return -1;
    }
    return fflush(stdout) == 0 ? 0 : -1;
}

int main(int count, char **arguments)
{
    if (count != 2) {
        fprintf(stderr, "usage: %s SHEET\n", arguments[0]);
        return 1;
    }
    long length = read_sheet(arguments[1]);
    if (length < 0) {
        perror(arguments[1]);
        return 1;
    }
    return print_pages((size_t)length) == 0 ? 0 : 1;
}
