/*
 * Judges the sheet in a file and prints its rows and answers as numbers, then the library's text.
 *
 *   mkdir -p target && cc -I include examples/c/judge.c -L crates/exports/out -lexports -o target/judge
 *   target/judge examples/session.sheet
 *
 * The exit status is 0 if every checked row is a sort, 1 if one is refused, 2 if the sheet is, 3 if it cannot be read or its text not
 * be written.
 */
#include <napsilo.h>
#include <stdio.h>

/* One byte more than the longest sheet, so that a longer one is told. */
static uint8_t sheet[NAPSILO_SHEET + 1];
static uint8_t records[NAPSILO_RECORDS];
static uint32_t places[NAPSILO_PLACES];
static uint32_t rows[NAPSILO_ROWS];
static uint32_t answers[NAPSILO_ANSWERS];
static uint8_t lines[NAPSILO_LINE];

/* Reads the sheet: its length, or -1 if the file cannot be read. */
static long read_sheet(const char *path)
{
    FILE *file = fopen(path, "rb");
    if (file == NULL)
        return -1;
    size_t length = fread(sheet, 1, sizeof sheet, file);
    int failed = ferror(file);
    fclose(file);
    return failed ? -1 : (long)length;
}

/* A number of the header, at this byte. */
static size_t count_at(size_t at)
{
    return sheet[at] + 256u * sheet[at + 1];
}

/* Prints a row: the store number of its sort, or the cause behind a `!`. */
static void print_row(uint32_t row)
{
    if (NAPSILO_CAUSE(row) == 0)
        printf(" %u", (unsigned)NAPSILO_SORT(row));
    else
        printf(" !%u", (unsigned)NAPSILO_CAUSE(row));
}

/* Prints the rows and answers of an accepted sheet: 1 if a checked row is refused, else 0. */
static int print_numbers(void)
{
    size_t terms = count_at(2), questions = count_at(4);
    int refused = 0;
    for (size_t k = 0; k < terms; k++) {
        printf("term %zu", k);
        print_row(rows[2 * k]);
        print_row(rows[2 * k + 1]);
        printf("\n");
        if (NAPSILO_CAUSE(rows[2 * k + 1]) != 0)
            refused = 1;
    }
    for (size_t k = 0; k < questions; k++) {
        printf("question %zu", k);
        print_row(answers[k]);
        printf("\n");
    }
    return refused;
}

/* Prints the library's text, piece by piece: 0, or -1 if it cannot be written. */
static int print_text(size_t length)
{
    size_t line = 0, end;
    while ((end = napsilo_text(sheet, length, line, lines, sizeof lines)) != 0) {
        for (size_t at = 0; at < end; at++)
            line += lines[at] == '\n';
        if (fwrite(lines, 1, end, stdout) != end)
            return -1;
    }
    return fflush(stdout) == 0 ? 0 : -1;
}

int main(int count, char **arguments)
{
    if (count != 2) {
        fprintf(stderr, "usage: %s SHEET\n", arguments[0]);
        return 3;
    }
    long length = read_sheet(arguments[1]);
    if (length < 0) {
        perror(arguments[1]);
        return 3;
    }
    uint32_t refusal = napsilo_judge(sheet, (size_t)length, records, NAPSILO_RECORDS, places, NAPSILO_PLACES,
                                     rows, NAPSILO_ROWS, answers, NAPSILO_ANSWERS);
    printf("outcome %u\n", (unsigned)refusal);
    int status = refusal != 0 ? 2 : print_numbers();
    return print_text((size_t)length) == 0 ? status : 3;
}
