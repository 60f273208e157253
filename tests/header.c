/*
 * The header by itself, as C99, C11 and C++: its numbers are the papers', its
 * lengths stand in #if, and the calls link. Exits with 0 if all is right.
 */
#include "row.h"

#include <string.h>

#if ROW_LISTING_LEN(100) > 6000 && ROW_LISTING_LEN(ROW_RECORDS_MAX) == 86455
enum { LISTING_LEN = ROW_LISTING_LEN(4) };
#endif
#if ROW_RECORD_LEN * ROW_RECORDS_MAX != 32760 || ROW_SHEET_LEN(ROW_RECORDS_MAX) != 32760
#error "the longest sheet has 32,760 bytes"
#endif
#if ROW_SHEET_LEN(1) == 8 && ROW_SHEET_LEN(1 + 2) == 24
enum { SEEDED_LEN = ROW_SHEET_LEN(1 + 2) };
#endif
#if ROW_BAD_SHEET != 2 || ROW_SHORT_LISTING != 3
#error "the refusals of a sheet are 2 and 3"
#endif
#if ROW_UNOPENED_LEN != 9
#error "the empty sheet's listing is a word of 8 letters and byte 10"
#endif
#if ROW_BAD_COUNT != 2 || ROW_SHORT_SLICE != 3
#error "the refusals of a seed are 2 and 3"
#endif
#if ROW_LINE_LEN != 96 || ROW_TEXT_LEN(1) != 96 || ROW_TEXT_LEN(ROW_RECORDS_MAX) != 393120
#error "a line has at most 96 bytes"
#endif
#if ROW_TEXT_LEN(1 + 1) == 192
enum { TEXT_LEN = ROW_TEXT_LEN(1 + 1) };
#endif
#if ROW_NO_LINE != 1 || ROW_SHORT_LINE != 3 || ROW_SHORT_TEXT != 3
#error "the refusals of a line are 1 and 3, and that of a text, beside 2 for the sheet, is 3"
#endif

#if ROW_IMAGE_HEAD_LEN != 258 || ROW_IMAGE_LEN != 258 + 8 * 4608 || ROW_SCRATCH_LEN != 576
#error "an image has 258 bytes and 8 times 0 to 4,608, a scratch 576"
#endif
#if ROW_IMAGE_TEXT_LEN != ROW_LISTING_LEN(0)
#error "the lines of an image are a listing's after its records"
#endif
#if ROW_SHORT_IMAGE != 3 || ROW_SHORT_SCRATCH != 3 || ROW_SHORT_LIST != 3
#error "a slice too short is 3"
#endif
#if ROW_PLAN_MAX != 2064 || ROW_PLAN_LEN != 16512 || ROW_PLAN_LEN != ROW_PLAN_MAX * ROW_RECORD_LEN
#error "a list has at most 2,064 records of 8 bytes"
#endif

/* C99 has no static assertion: an array of a negative length does not compile. */
#define SAME(name, number) typedef char same_##name[(name) == (number) ? 1 : -1]

SAME(ROW_STEP_OPENING, 0);
SAME(ROW_STEP_APPEND, 1);
SAME(ROW_STEP_RECEIPT, 2);
SAME(ROW_STEP_ADD, 3);
SAME(ROW_STEP_REMOVE, 4);
SAME(ROW_STEP_CHANGE_LEADER, 5);
SAME(ROW_STEP_TAKE_NEWS, 6);
SAME(ROW_STEP_JOIN, 7);
SAME(ROW_STEP_RECEIVE, 8);
SAME(ROW_STEP_COUNT, 9);
SAME(ROW_STEP_CONTROLLER_NEWS, 10);
SAME(ROW_STEP_READ_LEADER, 11);
SAME(ROW_STEP_READ, 12);
SAME(ROW_STEP_SET_NORMAL, 13);
SAME(ROW_STEP_HEAR, 14);
SAME(ROW_STEP_INSTALL, 15);

SAME(ROW_ACCEPTED, 0);
SAME(ROW_REFUSED_FIELD, 1);
SAME(ROW_REFUSED_STATUS, 4);
SAME(ROW_REFUSED_MEMBERSHIP, 5);
SAME(ROW_REFUSED_LEADER, 6);
SAME(ROW_REFUSED_EPOCHS_USED_UP, 7);
SAME(ROW_REFUSED_NOT_LEADER, 8);
SAME(ROW_REFUSED_FOLLOWS_NO_OTHER, 9);
SAME(ROW_REFUSED_LEADER_EPOCHS_DIFFER, 10);
SAME(ROW_REFUSED_JOINING, 11);
SAME(ROW_REFUSED_NOTHING_DUE, 12);
SAME(ROW_REFUSED_LOG_FULL, 13);
SAME(ROW_REFUSED_NO_MAJORITY, 14);
SAME(ROW_REFUSED_STAGE, 15);
SAME(ROW_REFUSED_EPOCHS_DIFFER, 16);
SAME(ROW_REFUSED_IMAGE_LENGTH, 17);
SAME(ROW_REFUSED_IMAGE_NUMBER, 18);
SAME(ROW_REFUSED_IMAGE_LINKS, 19);
SAME(ROW_REFUSED_PLAN, 20);

/*
 * The sample's listing has so many bytes: document 01's 285, @1 after the receipt's value,
 * and a space and 1, the board behind the receipt, after its answer.
 */
enum { SAMPLE_LISTING = 289 };

/* Returns 0, or the number of the call that is wrong. */
static int run_sample(void)
{
    static const uint8_t sheet[4 * ROW_RECORD_LEN] = {
        ROW_STEP_OPENING, 1, 0, 0, 0, 0, 0, 0,
        ROW_STEP_APPEND, 1, 0, 0, 41, 0, 0, 0,
        ROW_STEP_RECEIPT, 1, 0, 0, 0, 0, 0, 0,
        ROW_STEP_ADD, 2, 0, 0, 0, 0, 0, 0,
    };
    /* Document 02, Paper 6: board 1 alone stands behind its receipt. */
    static const char records[] = "1 0 0\n2 1 0\n3 2 0 1\n4 3 0\nregistry ";
    /* Document 02, Paper 4. */
    static const char receipts[] = "\nreceipts 1 41@1\n";
    static uint8_t listing[LISTING_LEN];
    size_t n = 4, receipts_len = sizeof receipts - 1;

    /* A length of another type is as good. */
    if (ROW_LISTING_LEN(n) != sizeof listing)
        return 1;
    if (run_sheet(sheet, sizeof sheet - 1, listing, sizeof listing) != ROW_BAD_SHEET)
        return 2;
    if (run_sheet(sheet, sizeof sheet, listing, SAMPLE_LISTING - 1) != ROW_SHORT_LISTING)
        return 3;
    if (listing[0] != 0)
        return 4;
    if (run_sheet(sheet, sizeof sheet, listing, SAMPLE_LISTING) != SAMPLE_LISTING)
        return 5;
    if (memcmp(listing, records, sizeof records - 1) != 0)
        return 6;
    return memcmp(listing + SAMPLE_LISTING - receipts_len, receipts, receipts_len) == 0 ? 0 : 7;
}

/* Are all of these bytes this one? */
static int all(const uint8_t *bytes, size_t len, uint8_t byte)
{
    while (len > 0 && bytes[len - 1] == byte)
        len--;
    return len == 0;
}

/* The empty sheet has a listing, document 02, Paper 9; a part of a record has none. Returns as above. */
static int run_empty(void)
{
    static const uint8_t sheet[ROW_RECORD_LEN - 1] = {0};
    static const char line[] = "unopened\n";
    static uint8_t listing[ROW_UNOPENED_LEN + 1];
    const size_t room = sizeof listing;

    memset(listing, 7, room);
    if (run_sheet(sheet, 0, listing, 0) != ROW_SHORT_LISTING)
        return 71;
    if (run_sheet(sheet, 0, listing, ROW_UNOPENED_LEN - 1) != ROW_SHORT_LISTING)
        return 72;
    if (run_sheet(sheet, 1, listing, room) != ROW_BAD_SHEET)
        return 73;
    if (run_sheet(sheet, sizeof sheet, listing, room) != ROW_BAD_SHEET)
        return 73;
    if (explain_sheet(sheet, 0, listing, room) != ROW_BAD_SHEET || save_sheet(sheet, 0, listing, room) != ROW_BAD_SHEET)
        return 74;
    if (!all(listing, room, 7))
        return 75;
    if (run_sheet(sheet, 0, listing, ROW_UNOPENED_LEN) != ROW_UNOPENED_LEN)
        return 76;
    if (memcmp(listing, line, ROW_UNOPENED_LEN) != 0 || listing[ROW_UNOPENED_LEN] != 7)
        return 77;
    memset(listing, 7, room);
    if (run_sheet(sheet, 0, listing, room) != ROW_UNOPENED_LEN)
        return 78;
    return memcmp(listing, line, ROW_UNOPENED_LEN) == 0 && listing[ROW_UNOPENED_LEN] == 7 ? 0 : 79;
}

/* The first three records of seed 0 are made and run. Returns as above. */
static int run_seeded(void)
{
    /* Document 02, Paper 2: the draws by hand are in tests/peer/tests/seed.rs. */
    static const uint8_t made[SEEDED_LEN] = {
        ROW_STEP_OPENING, 7, 0, 0, 0, 0, 0, 0,
        ROW_STEP_COUNT, 6, 2, 0, 0, 0, 0, 0,
        ROW_STEP_RECEIPT, 3, 0, 0, 0, 0, 0, 0,
    };
    /* Neither board 6 nor board 3 is leader: refusal 8, document 01. */
    static const char answers[] = "1 0 0\n2 9 8\n3 2 8\nregistry 1 1 7 7 normal\n";
    static uint8_t sheet[SEEDED_LEN + 1], listing[ROW_LISTING_LEN(3)];
    const size_t n = 3;

    if (ROW_SHEET_LEN(n) != sizeof made)
        return 11;
    if (seed_sheet(0, 0, sheet, sizeof sheet) != ROW_BAD_COUNT)
        return 12;
    if (seed_sheet(0, ROW_RECORDS_MAX + 1, sheet, 0) != ROW_BAD_COUNT)
        return 13;
    if (seed_sheet(0, n, sheet, sizeof made - 1) != ROW_SHORT_SLICE)
        return 14;
    if (sheet[1] != 0)
        return 15;
    if (seed_sheet(0, n, sheet, sizeof sheet) != sizeof made)
        return 16;
    if (memcmp(sheet, made, sizeof made) != 0 || sheet[sizeof made] != 0)
        return 17;
    if (run_sheet(sheet, sizeof made, listing, sizeof listing) <= sizeof answers)
        return 18;
    return memcmp(listing, answers, sizeof answers - 1) == 0 ? 0 : 19;
}

/* Document 01's majority, half the boards rounded down plus 1, of every set. Returns as above. */
static int look_up(void)
{
    int set, left, boards;

    for (set = 0; set < 256; set++) {
        boards = 0;
        for (left = set; left > 0; left /= 2)
            boards += left % 2;
        if (look_up_majority((uint8_t)set) != boards / 2 + 1)
            return 21;
    }
    return 0;
}

/* A record and an answer in words, as docs/PHRASES.md has them. Returns as above. */
static int describe(void)
{
    static const uint8_t record[2 * ROW_RECORD_LEN] = {ROW_STEP_COUNT, 1, 2, 0, 0, 0, 0, 0};
    static const char words[] = "board 1 counts board 2: refused, "
                                "the counted board has not joined under its leader epoch yet\n";
    static uint8_t line[ROW_LINE_LEN];
    const size_t len = sizeof words - 1;

    if (describe_record(record, sizeof record, ROW_REFUSED_JOINING, line, sizeof line) != ROW_NO_LINE)
        return 31;
    if (describe_record(record, ROW_RECORD_LEN, 20, line, 0) != ROW_NO_LINE)
        return 32;
    if (describe_record(record, ROW_RECORD_LEN, ROW_REFUSED_JOINING, line, len - 1) != ROW_SHORT_LINE)
        return 33;
    if (line[0] != 0)
        return 34;
    if (describe_record(record, ROW_RECORD_LEN, ROW_REFUSED_JOINING, line, sizeof line) != len)
        return 35;
    return memcmp(line, words, len) == 0 && line[len] == 0 ? 0 : 36;
}

/* The same of a sheet: with an empty log a receipt is refused 12, document 01. Returns as above. */
static int explain(void)
{
    static const uint8_t sheet[2 * ROW_RECORD_LEN] = {
        ROW_STEP_OPENING, 1, 0, 0, 0, 0, 0, 0,
        ROW_STEP_RECEIPT, 1, 0, 0, 0, 0, 0, 0,
    };
    static const char words[] =
        "opening with board 1: accepted\n"
        "board 1 gives a receipt: refused, its log is not longer than the receipts\n";
    static uint8_t text[TEXT_LEN];
    const size_t n = 2, len = sizeof words - 1;

    if (ROW_TEXT_LEN(n) != sizeof text)
        return 41;
    if (explain_sheet(sheet, sizeof sheet - 1, text, 0) != ROW_BAD_SHEET)
        return 42;
    if (explain_sheet(sheet, sizeof sheet, text, len - 1) != ROW_SHORT_TEXT)
        return 43;
    if (text[0] != 0)
        return 44;
    if (explain_sheet(sheet, sizeof sheet, text, sizeof text) != len)
        return 45;
    return memcmp(text, words, len) == 0 && text[len] == 0 ? 0 : 46;
}

/* A row opened with board 1 is kept and shown, document 02, Papers 7 and 8. Returns as above. */
static int keep(void)
{
    static const uint8_t sheet[ROW_RECORD_LEN] = {ROW_STEP_OPENING, 1, 0, 0, 0, 0, 0, 0};
    /* Epoch 1, leader epoch 1, leader 1, members {1}, normal; then the controller. */
    static const uint8_t start[] = {1, 0, 1, 0, 1, 1, 0, 0, 1, 0, 1, 0, 1, 1, 0, 0, 255, 255, 0, 0};
    static const char first[] = "registry 1 1 1 1 normal\ncontrol 1 1 1 1 idle\nboard 1 1 1 1 1 1 0 current\n";
    static const char last[] = "board 8 1 1 1 1 1 0 current\nreceipts 0\n";
    static uint8_t image[ROW_IMAGE_LEN], text[ROW_IMAGE_TEXT_LEN], scratch[ROW_SCRATCH_LEN + 1];
    const size_t len = ROW_IMAGE_HEAD_LEN, last_len = sizeof last - 1;
    size_t n;

    if (save_sheet(sheet, 0, image, sizeof image) != ROW_BAD_SHEET)
        return 51;
    if (save_sheet(sheet, sizeof sheet, image, len - 1) != ROW_SHORT_IMAGE || image[0] != 0)
        return 52;
    if (save_sheet(sheet, sizeof sheet, image, len) != len || memcmp(image, start, sizeof start) != 0)
        return 53;
    memset(scratch, 7, sizeof scratch);
    n = show_image(image, 0, text, 0, scratch, ROW_SCRATCH_LEN - 1);
    if (n != ROW_SHORT_SCRATCH || !all(scratch, sizeof scratch, 7))
        return 54;
    if (show_image(image, len + 1, text, sizeof text, scratch, ROW_SCRATCH_LEN) != ROW_REFUSED_IMAGE_LENGTH)
        return 55;
    if (!all(scratch, ROW_SCRATCH_LEN, 0) || scratch[ROW_SCRATCH_LEN] != 7)
        return 56;
    image[7] = 1;
    memset(scratch, 7, sizeof scratch);
    n = show_image(image, len, text, sizeof text, scratch, sizeof scratch);
    if (n != ROW_REFUSED_IMAGE_NUMBER || !all(scratch, sizeof scratch, 0))
        return 57;
    image[7] = 0;
    image[256] = 1;
    memset(scratch, 7, sizeof scratch);
    n = show_image(image, len, text, sizeof text, scratch, sizeof scratch);
    if (n != ROW_REFUSED_IMAGE_LINKS || !all(scratch, sizeof scratch, 0))
        return 58;
    image[256] = 0;
    memset(scratch, 7, sizeof scratch);
    n = show_image(image, len, text, sizeof first, scratch, sizeof scratch);
    if (n != ROW_SHORT_TEXT || text[0] != 0 || !all(scratch, sizeof scratch, 0))
        return 59;
    memset(scratch, 7, sizeof scratch);
    n = show_image(image, len, text, sizeof text, scratch, sizeof scratch);
    if (n < 20 || memcmp(text, first, sizeof first - 1) != 0 || memcmp(text + n - last_len, last, last_len) != 0)
        return 60;
    if (!all(scratch, sizeof scratch, 0))
        return 61;
    return text[n] == 0 ? 0 : 62;
}

/* The list of a row, of a sheet and of its image, document 02, Paper 10. Returns as above. */
static int plan(void)
{
    /* Board 2 is added to a row of board 1, whose log is empty as its own is: it has joined, and nothing to receive. */
    static const uint8_t sheet[2 * ROW_RECORD_LEN] = {
        ROW_STEP_OPENING, 1, 0, 0, 0, 0, 0, 0,
        ROW_STEP_ADD, 2, 0, 0, 0, 0, 0, 0,
    };
    static const uint8_t records[6 * ROW_RECORD_LEN] = {
        ROW_STEP_CONTROLLER_NEWS, 0, 0, 0, 0, 0, 0, 0,
        ROW_STEP_TAKE_NEWS, 1, 0, 0, 0, 0, 0, 0,
        ROW_STEP_READ_LEADER, 0, 0, 0, 0, 0, 0, 0,
        ROW_STEP_TAKE_NEWS, 2, 0, 0, 0, 0, 0, 0,
        ROW_STEP_READ, 2, 0, 0, 0, 0, 0, 0,
        ROW_STEP_SET_NORMAL, 0, 0, 0, 0, 0, 0, 0,
    };
    static uint8_t image[ROW_IMAGE_LEN], list[ROW_PLAN_LEN + 1], scratch[ROW_SCRATCH_LEN];
    const size_t len = sizeof records, room = sizeof list;
    size_t image_len, n;

    memset(list, 7, room);
    if (plan_sheet(sheet, 0, list, 0) != ROW_BAD_SHEET || plan_sheet(sheet, sizeof sheet - 1, list, 0) != ROW_BAD_SHEET)
        return 81;
    if (plan_sheet(sheet, sizeof sheet, list, ROW_PLAN_LEN - 1) != ROW_SHORT_LIST)
        return 82;
    /* A normal row's list is empty, and asks for as long a slice. */
    if (plan_sheet(sheet, ROW_RECORD_LEN, list, ROW_PLAN_LEN - 1) != ROW_SHORT_LIST)
        return 83;
    if (plan_sheet(sheet, ROW_RECORD_LEN, list, ROW_PLAN_LEN) != 0 || !all(list, room, 7))
        return 84;
    if (plan_sheet(sheet, sizeof sheet, list, ROW_PLAN_LEN) != len || memcmp(list, records, len) != 0)
        return 85;
    if (!all(list + len, room - len, 7))
        return 86;

    image_len = save_sheet(sheet, sizeof sheet, image, sizeof image);
    memset(list, 7, room);
    memset(scratch, 7, sizeof scratch);
    if (plan_image(image, 0, list, ROW_PLAN_LEN - 1, scratch, sizeof scratch) != ROW_SHORT_LIST)
        return 87;
    if (plan_image(image, 0, list, room, scratch, sizeof scratch - 1) != ROW_SHORT_SCRATCH)
        return 88;
    if (!all(scratch, sizeof scratch, 7))
        return 89;
    if (plan_image(image, 0, list, room, scratch, sizeof scratch) != ROW_REFUSED_IMAGE_LENGTH)
        return 90;
    if (!all(scratch, sizeof scratch, 0))
        return 91;
    /* The leader is no member. */
    image[5] = 2;
    memset(scratch, 7, sizeof scratch);
    n = plan_image(image, image_len, list, room, scratch, sizeof scratch);
    if (n != ROW_REFUSED_PLAN || !all(scratch, sizeof scratch, 0) || !all(list, room, 7))
        return 92;
    image[5] = 3;
    memset(scratch, 7, sizeof scratch);
    n = plan_image(image, image_len, list, room, scratch, sizeof scratch);
    if (n != len || !all(scratch, sizeof scratch, 0) || memcmp(list, records, len) != 0)
        return 93;
    return all(list + len, room - len, 7) ? 0 : 94;
}

int main(void)
{
    int wrong = run_sample();

    if (wrong == 0)
        wrong = run_empty();
    if (wrong == 0)
        wrong = run_seeded();
    if (wrong == 0)
        wrong = look_up();
    if (wrong == 0)
        wrong = describe();
    if (wrong == 0)
        wrong = explain();
    if (wrong == 0)
        wrong = keep();
    return wrong != 0 ? wrong : plan();
}
