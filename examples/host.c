/*
 * A host to start from: prints the listing of the empty sheet, builds the sample
 * sheet in memory, runs it, and prints its listing; then says why a record is
 * refused, and which records lead the sample's row to normal.
 *
 *   gcc -std=c99 -Iinclude examples/host.c target/staticlib/librow.a -o host
 */
#include <stdio.h>

#include "row.h"

enum { RECORDS = 4 };

/* Writes record n of a sheet. A field that the step does not use is 0. */
static void put(uint8_t *sheet, size_t n, enum row_step step, uint8_t board,
                uint8_t second, uint32_t value)
{
    uint8_t *record = sheet + n * ROW_RECORD_LEN;

    record[0] = (uint8_t)step;
    record[1] = board;
    record[2] = second;
    record[3] = 0;
    /* Low byte first, whatever the order of this machine. */
    record[4] = (uint8_t)value;
    record[5] = (uint8_t)(value >> 8);
    record[6] = (uint8_t)(value >> 16);
    record[7] = (uint8_t)(value >> 24);
}

/* Runs a sheet and prints what comes of it. Returns 0 if that is a listing. */
static int run(const uint8_t *sheet, size_t sheet_len,
               uint8_t *listing, size_t listing_len)
{
    size_t result = run_sheet(sheet, sheet_len, listing, listing_len);

    switch (result) {
    case ROW_BAD_SHEET:
        puts("refused 2: the sheet has a wrong length or no valid opening");
        return 1;
    case ROW_SHORT_LISTING:
        puts("refused 3: the listing slice is too short");
        return 1;
    default:
        /* The listing is not ended by a byte 0: go by its length. */
        return fwrite(listing, 1, result, stdout) != result;
    }
}

/*
 * The answer of record n, counted from 0, in the listing of a sheet that has it: the
 * third number of line n.
 */
static enum row_answer answer(const uint8_t *listing, size_t n)
{
    int before = 2, number = 0;

    while (n > 0)
        n -= *listing++ == '\n';
    while (before > 0)
        before -= *listing++ == ' ';
    /* A fourth, where there is one, has the boards behind the record. */
    for (; *listing != ' ' && *listing != '\n'; listing++)
        number = 10 * number + (*listing - '0');
    return (enum row_answer)number;
}

/* Prints a record and its answer in words. Returns 0 if all went well. */
static int tell(const uint8_t *record, enum row_answer answer)
{
    uint8_t line[ROW_LINE_LEN];
    size_t len = describe_record(record, ROW_RECORD_LEN, answer, line, sizeof line);

    /* Every line is longer than 3 bytes, and ends in byte 10. */
    if (len == ROW_NO_LINE || len == ROW_SHORT_LINE)
        return 1;
    return fwrite(line, 1, len, stdout) != len;
}

/* Prints the records that lead the row of a sheet to normal. Returns 0 if there are such. */
static int guide(const uint8_t *sheet, size_t sheet_len)
{
    static uint8_t list[ROW_PLAN_LEN];
    size_t n, len = plan_sheet(sheet, sheet_len, list, sizeof list);

    /* No refusal is a multiple of 8. A length of 0 is that of a normal row. */
    if (len % ROW_RECORD_LEN != 0)
        return 1;
    for (n = 0; n < len; n += ROW_RECORD_LEN)
        /* Each of them is accepted in turn. */
        if (tell(list + n, ROW_ACCEPTED) != 0)
            return 1;
    return 0;
}

int main(void)
{
    static uint8_t sheet[RECORDS * ROW_RECORD_LEN];
    static uint8_t listing[ROW_LISTING_LEN(RECORDS)];

    /* No record yet: the listing is one line, "unopened". */
    if (run(sheet, 0, listing, sizeof listing) != 0)
        return 1;

    put(sheet, 0, ROW_STEP_OPENING, 1, 0, 0);
    put(sheet, 1, ROW_STEP_APPEND, 1, 0, 41);
    put(sheet, 2, ROW_STEP_RECEIPT, 1, 0, 0);
    put(sheet, 3, ROW_STEP_ADD, 2, 0, 0);

    /* Both refusals of a sheet, on purpose: half a record, and no room. */
    run(sheet, ROW_RECORD_LEN / 2, listing, sizeof listing);
    run(sheet, sizeof sheet, listing, 16);

    if (run(sheet, sizeof sheet, listing, sizeof listing) != 0)
        return 1;

    /* Should the till print the receipt? */
    if (answer(listing, 2) != ROW_ACCEPTED)
        return 1;

    /* Another receipt in place of the last step is refused: no entry is left for it. */
    put(sheet, 3, ROW_STEP_RECEIPT, 1, 0, 0);
    if (run_sheet(sheet, sizeof sheet, listing, sizeof listing) <= ROW_SHORT_LISTING)
        return 1;
    if (tell(sheet + 3 * ROW_RECORD_LEN, answer(listing, 3)) != 0)
        return 1;

    /* The row waits since board 2 was added. What is to be done? */
    put(sheet, 3, ROW_STEP_ADD, 2, 0, 0);
    return guide(sheet, sizeof sheet);
}
