/*
 * A row of telemetry boards: runs a sheet of steps and writes its listing, or a
 * line in words for each record, describes a record and its answer in words, keeps
 * the row of a sheet in an image and shows that of an image, lists the records that
 * lead a row back to normal, makes sheets from a seed, and looks up how many boards
 * make a majority.
 *
 * Link with librow.a. docs/FORMATS.md has the same formats with an example of
 * every line, what each step asks and does, and who causes each refusal.
 *
 * Platform. The archive is for x86-64 with the System V calling convention:
 * ELF, position-independent, some 48 KiB of code and constants, no data that is
 * written. It asks for no instruction set beyond SSE2, which every x86-64 has.
 * (A tzcnt in it runs as bsf on older processors, and both agree wherever the
 * result is used.) It allocates nothing, makes no system call, and calls two
 * functions of the C library: memcpy and memset. There are no unwind tables,
 * and nothing in it throws or jumps out. It uses the 128 bytes below the stack
 * pointer that the convention gives a function (the red zone): a handler that
 * runs on the same stack must leave them alone.
 *
 * Stack. On every sheet that was tried a call of run_sheet took at most 45,840
 * bytes, with memcpy and memset bound beforehand (link with -z now; bound at
 * their first call, that call took 48,744). No proof bounds it. The pages are
 * touched in order, so a guard page is met before anything below it. A call of
 * explain_sheet took at most 37,104 bytes, one of describe_record 376, one of
 * save_sheet 37,552, one of show_image 37,888, one of plan_sheet 37,320, one of
 * plan_image 29,152, one of seed_sheet 40, one of look_up_majority 8.
 *
 * Reentrant. Nothing is kept between calls: calls may run in several threads,
 * or one inside a handler that interrupts another, each with its own slices.
 */
#ifndef ROW_H
#define ROW_H

#include <stddef.h>
#include <stdint.h>

#ifdef __cplusplus
extern "C" {
#endif

/*
 * A sheet is 1 to 4,095 records of 8 bytes (run_sheet also takes one with none):
 *
 *   byte 0       the step
 *   byte 1       the board, 1 to 8; in ROW_STEP_COUNT the leader that counts
 *   byte 2       in ROW_STEP_COUNT the board that is counted, another one
 *   byte 3       0
 *   bytes 4 - 7  in ROW_STEP_APPEND the value, any 32 bits, low byte first
 *
 * Fields that a step does not use are 0. The first record, and no other, is
 * the opening.
 */
#define ROW_RECORD_LEN 8
#define ROW_RECORDS_MAX 4095

/* The bytes of a sheet of n records, 32,760 for the longest. It may be used in #if. */
#define ROW_SHEET_LEN(n) (ROW_RECORD_LEN * (n))

/* The steps, and the fields that each uses. */
enum row_step {
    ROW_STEP_OPENING = 0,          /* board          opens the row, as its leader and only member */
    ROW_STEP_APPEND = 1,           /* board, value   the value is added to its log, with its leader epoch */
    ROW_STEP_RECEIPT = 2,          /* board          the next entry of its log joins the receipts */
    ROW_STEP_ADD = 3,              /* board          the board joins the members */
    ROW_STEP_REMOVE = 4,           /* board          the board leaves the members */
    ROW_STEP_CHANGE_LEADER = 5,    /* none           the leader leaves the members */
    ROW_STEP_TAKE_NEWS = 6,        /* board          the board copies the registry */
    ROW_STEP_JOIN = 7,             /* board          its log is cut to what its leader's shares with it */
    ROW_STEP_RECEIVE = 8,          /* board          it takes the next entry of its leader's log */
    ROW_STEP_COUNT = 9,            /* board, second  the first, a leader, counts the second's log */
    ROW_STEP_CONTROLLER_NEWS = 10, /* none           the controller copies the registry */
    ROW_STEP_READ_LEADER = 11,     /* none           the controller hears its leader's length */
    ROW_STEP_READ = 12,            /* board          the controller hears the board's length */
    ROW_STEP_SET_NORMAL = 13,      /* none           the registry's status becomes normal */
    ROW_STEP_HEAR = 14,            /* board          the controller hears its length and joined epoch */
    ROW_STEP_INSTALL = 15          /* board          the board becomes the registry's leader */
};

/*
 * The answers of a record in the listing: accepted, or the first check that
 * failed. A refused step changes nothing, and the sheet goes on. No record is
 * answered with the last four: three are of an image, one of a row whose records
 * back to normal are asked for.
 */
enum row_answer {
    ROW_ACCEPTED = 0,
    /* by the caller: a board outside 1 to 8, a step above 15, a board that is
       to count itself, an unused byte that is not 0, an opening after the first */
    ROW_REFUSED_FIELD = 1,
    /* by the registry */
    ROW_REFUSED_STATUS = 4,
    ROW_REFUSED_MEMBERSHIP = 5,
    ROW_REFUSED_LEADER = 6,         /* the leader is named, or not to be spared */
    ROW_REFUSED_EPOCHS_USED_UP = 7, /* the registry's epoch is 4,000 */
    /* by the boards */
    ROW_REFUSED_NOT_LEADER = 8,
    ROW_REFUSED_FOLLOWS_NO_OTHER = 9,
    ROW_REFUSED_LEADER_EPOCHS_DIFFER = 10,
    ROW_REFUSED_JOINING = 11,     /* not joined where it must be, or joined already */
    ROW_REFUSED_NOTHING_DUE = 12, /* nothing newer, longer or left to take */
    ROW_REFUSED_LOG_FULL = 13,    /* the log has 512 entries */
    /* by the controller, or a count */
    ROW_REFUSED_NO_MAJORITY = 14,
    ROW_REFUSED_STAGE = 15,
    ROW_REFUSED_EPOCHS_DIFFER = 16,
    /* by the caller, of the image of a row that is to be taken up again */
    ROW_REFUSED_IMAGE_LENGTH = 17, /* it is not 258 plus 8 times 0 to 4,608 */
    ROW_REFUSED_IMAGE_NUMBER = 18, /* outside its range, a zero byte that is not 0, or a row that 1 would turn away */
    ROW_REFUSED_IMAGE_LINKS = 19,  /* a chain past the last record or 512 entries, a record met twice or not at all */
    /* by the row whose records back to normal are asked for */
    ROW_REFUSED_PLAN = 20 /* no list of records leads the row to normal */
};

/* The results of run_sheet that are refusals. Every listing is longer than 3 bytes. */
#define ROW_BAD_SHEET 2     /* wrong length, or no valid opening */
#define ROW_SHORT_LISTING 3 /* the listing slice is shorter than the listing */

/*
 * The length of the empty sheet's listing, and of no other: every other one is longer.
 * It is a length and no refusal, though row_answer has a 9.
 */
#define ROW_UNOPENED_LEN 9

/*
 * The listing is ASCII. Each line ends in byte 10, fields are parted by one
 * space, numbers are in base ten, members are digits (124 is 1, 2 and 4):
 *
 *   RECORD STEP ANSWER [BEHIND]  a line a record: its number from 1 on, byte 0,
 *                                row_answer; some have BEHIND, see below
 *   registry EPOCH LEADER-EPOCH LEADER MEMBERS normal|waiting|choosing
 *   control EPOCH LEADER-EPOCH LEADER MEMBERS idle|leader|boards|choosing
 *   board B EPOCH LEADER-EPOCH LEADER MEMBERS JOINED LENGTH late|current
 *                                8 lines, boards 1 to 8
 *   receipts N VALUE@EPOCH ...   how many, then the value and the epoch of each,
 *                                as in 41@1
 *
 * The listing of the empty sheet, which has no records, is one line and nothing else:
 *
 *   unopened
 *
 * BEHIND is a set of boards, 1 to 8 digits in rising order: in the line 3 2 0 1 it
 * is the last 1, board 1. The line of a ROW_STEP_RECEIPT, ROW_STEP_SET_NORMAL or
 * ROW_STEP_INSTALL that was accepted has these four fields, every other one has
 * three, and no space at its end. In the set are all members that qualified for the
 * majority that the step asks for, not only as many as it needs: for a receipt the
 * members, in the view of the board that gives it, that it has counted above the
 * number of receipts given before; for set normal the controller's members that are
 * heard at the leader's heard length or more; for an install those that are heard
 * and not ranked above the new leader (by joined epoch first, then length), which
 * is one of them. docs/FORMATS.md says what may be relied on of their logs.
 *
 * The EPOCH of an entry is the LEADER-EPOCH of the board that appended it, when it
 * did. The entry keeps it in the logs of boards that receive it, and in its receipt.
 * Two entries are the same only if VALUE and EPOCH both are: a join cuts by that.
 *
 * A board is late if its EPOCH is below the registry's or its JOINED differs
 * from the registry's LEADER-EPOCH, else current. The log of one that is current
 * is a beginning of the log of the registry's LEADER, if that is not 0; the log
 * of one that is late may hold other entries.
 *
 * ROW_LISTING_LEN(n) bytes suffice for the listing of any sheet of n records:
 *
 *     19 n  n record lines of at most 4 + 2 + 1 + 8 digits, 3 spaces and byte 10
 *           (one without BEHIND has at most 4 + 3 + 2, 2 spaces and byte 10)
 *       39  the registry's line:   9 + 5 + 5 + 2 + 9 + 9
 *       38  the controller's line: 8 + 5 + 5 + 2 + 9 + 9
 *      368  8 board lines of at most 8 + 5 + 5 + 2 + 9 + 5 + 3 + 9 = 46
 *     8205  the receipts' line: 13, and 512 times a space, 10 digits, @ and 4 digits
 *
 * That is 19 n + 8650, and 86,455 for the longest sheet: an int of 32 bits
 * holds it for every n up to ROW_RECORDS_MAX. There is no cast, so that it
 * stands in #if too. The empty sheet's listing has ROW_UNOPENED_LEN.
 */
#define ROW_LISTING_LEN(n) (19 * (n) + 8650)

/*
 * Runs a sheet from its opening and writes the listing.
 *
 *   sheet        the records; they are only read
 *   sheet_len    their length in bytes, 8 times the number of records
 *   listing      where the listing goes, with no byte 0 at the end
 *   listing_len  the length of that slice in bytes
 *
 * Returns the listing's length in bytes, or ROW_BAD_SHEET, or, for a sheet that
 * is not refused so, ROW_SHORT_LISTING.
 *
 * A sheet_len of 0 is the empty sheet, which is no ROW_BAD_SHEET here: its listing has
 * ROW_UNOPENED_LEN bytes. (explain_sheet, save_sheet and plan_sheet refuse it with
 * ROW_BAD_SHEET.)
 *
 * Both refusals leave the listing slice untouched. Bytes of it past the end of
 * a listing keep their values.
 *
 * The slices must not overlap. Neither pointer may be null, even where the
 * length is 0.
 */
size_t run_sheet(const uint8_t *sheet, size_t sheet_len,
                 uint8_t *listing, size_t listing_len);

/*
 * A record and its answer in words is one line of ASCII, which ends in byte 10:
 *
 *   board 1 appends value 41: accepted
 *   add board 2: refused, the board is a member already
 *   record 09 02 02 00 00 00 00 00: refused, these eight bytes are no step
 *
 * A record that is malformed by itself shows its eight bytes. docs/PHRASES.md has
 * every phrase. Two different pairs of record and answer never give the same line.
 *
 * ROW_LINE_LEN bytes suffice for any line. So ROW_TEXT_LEN(n) suffice for a line
 * for each of n records: 393,120 for the longest sheet. Both may be used in #if.
 */
#define ROW_LINE_LEN 96
#define ROW_TEXT_LEN(n) (ROW_LINE_LEN * (n))

/* The results of describe_record that are refusals. Every line is longer than 3 bytes. */
#define ROW_NO_LINE 1    /* the record is not ROW_RECORD_LEN bytes long, or there is no such answer */
#define ROW_SHORT_LINE 3 /* the line slice is shorter than the line */

/*
 * Writes the line of a record and its answer.
 *
 *   record      the record; it is only read
 *   record_len  its length in bytes, ROW_RECORD_LEN
 *   answer      0 to 19: row_answer, or 2 or 3 of a refused sheet. It need not be
 *               one that the record could have: any answer goes with any record
 *   line        where the line goes, with no byte 0 at the end
 *   line_len    the length of that slice in bytes
 *
 * Returns the line's length in bytes, or ROW_NO_LINE, or, for a record and an
 * answer that are not refused so, ROW_SHORT_LINE.
 *
 * Both refusals leave the slice untouched. Bytes of it past the end of a line keep
 * their values. The slices must not overlap. Neither pointer may be null, even
 * where the length is 0.
 */
size_t describe_record(const uint8_t *record, size_t record_len, size_t answer,
                       uint8_t *line, size_t line_len);

/* explain_sheet is refused with ROW_BAD_SHEET, or with this. */
#define ROW_SHORT_TEXT 3 /* the text slice is shorter than the text */

/*
 * Runs a sheet from its opening and writes a line in words for each record, with
 * the answer that its run gave: what run_sheet has as numbers in its first lines.
 *
 *   sheet      the records; they are only read
 *   sheet_len  their length in bytes, 8 times the number of records
 *   text       where the lines go, with no byte 0 at the end
 *   text_len   the length of that slice in bytes
 *
 * Returns the text's length in bytes, or ROW_BAD_SHEET, or, for a sheet that is not
 * refused so, ROW_SHORT_TEXT. Every text is longer than 3 bytes.
 *
 * Both refusals leave the slice untouched. Bytes of it past the end of a text keep
 * their values. The slices must not overlap. Neither pointer may be null, even
 * where the length is 0.
 */
size_t explain_sheet(const uint8_t *sheet, size_t sheet_len,
                     uint8_t *text, size_t text_len);

/*
 * An image holds a row through a power cut: all that the row's next steps depend on,
 * in bytes that the hub may store and hand back later. It has a head of 258 bytes and
 * a record of 8 bytes for each entry of the eight logs and of the receipts; numbers
 * of 2 and 4 bytes have their low byte first:
 *
 *   bytes 0 - 7      the registry: epoch (2), leader epoch (2), leader, members (a bit
 *                    a board, 1 for board 1), status (0 normal, 1 waiting,
 *                    2 choosing), 0
 *   bytes 8 - 15     the controller: the same, with its stage (0 idle, 1 leader,
 *                    2 boards, 3 choosing) in place of the status
 *   bytes 16 - 47    for each board, 1 to 8, what the controller heard of it: length
 *                    (2), 65,535 for none, and joined (2)
 *   bytes 48 - 255   for each board, 26 bytes: epoch (2), leader epoch (2), joined (2),
 *                    leader, members, its counts for boards 1 to 8 (2 each), and the
 *                    number of its log's first record (2)
 *   bytes 256 - 257  the number of the receipts' first record
 *   from 258 on      the records 1, 2, ...: value (4), epoch (2), number of the next
 *                    record (2)
 *
 * A first record 0 is an empty list, a next record 0 ends one. save_sheet numbers
 * board 1's log first and the receipts last, each in order; show_image takes records
 * in any numbering. An image is for any machine and any later call. It has no
 * checksum: a byte that was changed in the store may give another row. docs/FORMATS.md
 * has each byte and each error.
 *
 * ROW_IMAGE_LEN bytes suffice for any image, ROW_IMAGE_TEXT_LEN for the lines of any
 * row. All four may be used in #if.
 */
#define ROW_IMAGE_HEAD_LEN 258  /* of every image, and all of one with empty lists */
#define ROW_IMAGE_LEN 37122     /* of the longest: 4,608 entries, 8 bytes each */
#define ROW_IMAGE_TEXT_LEN 8650 /* the longest registry, control, board and receipts lines */
#define ROW_SCRATCH_LEN 576     /* the least that show_image and plan_image are to be lent; more is taken too */

/* save_sheet is refused with ROW_BAD_SHEET, or with this. */
#define ROW_SHORT_IMAGE 3 /* the image slice is shorter than the image */

/*
 * Runs a sheet from its opening and writes the image of the row that it ends with.
 *
 *   sheet      the records; they are only read
 *   sheet_len  their length in bytes, 8 times the number of records
 *   image      where the image goes
 *   image_len  the length of that slice in bytes; just this image's is enough
 *
 * Returns the image's length in bytes, ROW_IMAGE_HEAD_LEN to ROW_IMAGE_LEN, or
 * ROW_BAD_SHEET, or, for a sheet that is not refused so, ROW_SHORT_IMAGE.
 *
 * Both refusals leave the slice untouched. Bytes of it past the end of an image keep
 * their values. The slices must not overlap. Neither pointer may be null, even where
 * the length is 0.
 */
size_t save_sheet(const uint8_t *sheet, size_t sheet_len,
                  uint8_t *image, size_t image_len);

/*
 * show_image is refused with ROW_SHORT_SCRATCH; or with ROW_REFUSED_IMAGE_LENGTH,
 * ROW_REFUSED_IMAGE_NUMBER or ROW_REFUSED_IMAGE_LINKS of row_answer, in this order; or with
 * ROW_SHORT_TEXT. The first and the last are one number: it is the scratch if that is
 * shorter than ROW_SCRATCH_LEN, and else the text slice. Every text has 20 bytes or
 * more, so a smaller result is a refusal.
 */
#define ROW_SHORT_SCRATCH 3 /* the scratch is shorter than ROW_SCRATCH_LEN */

/*
 * Takes up the row of an image and writes the lines that a listing has after those of
 * its records: registry, control, the eight boards, receipts. So the hub sees at boot
 * whether what it stored is a row, and which.
 *
 *   image        the image, from save_sheet or from elsewhere; it is only read
 *   image_len    its length in bytes, and not that of the slice it was written to
 *   text         where the lines go, with no byte 0 at the end
 *   text_len     the length of that slice in bytes
 *   scratch      memory for the call to work in, whatever it holds
 *   scratch_len  its length in bytes, ROW_SCRATCH_LEN or more
 *
 * Returns the lines' length in bytes, or one of the refusals above.
 *
 * Every refusal leaves the text slice untouched. Bytes of it past the end of a text
 * keep their values. A scratch that is too short is left untouched; else the whole of
 * it, scratch_len bytes, ends as zeros, also where the image or the text slice is
 * refused. No two of the slices may overlap. No pointer may be null, even where the
 * length is 0.
 */
size_t show_image(const uint8_t *image, size_t image_len,
                  uint8_t *text, size_t text_len,
                  uint8_t *scratch, size_t scratch_len);

/*
 * The list of a row: the records that lead it to status normal, each accepted in turn.
 * A normal row has the empty list. A choosing one has controller news; news and hearing
 * of each member of the lowest-numbered majority; the install of the highest ranked of
 * them; and then what a waiting row has: controller news, leader's news, read leader;
 * news, join, receives and read of the lowest-numbered members that make a majority with
 * the leader; set normal. Records that nothing is left to do for are left out. The row
 * itself is not changed. Every row of a sheet has a list while the registry's epoch is
 * at most 3,998. docs/FORMATS.md has the rule and what ROW_REFUSED_PLAN may mean.
 *
 * A list has at most ROW_PLAN_MAX records, ROW_PLAN_LEN bytes: those of a sheet, without
 * an opening. They may follow the records of the row's sheet, where these and they are
 * ROW_RECORDS_MAX or fewer. Both may be used in #if.
 */
#define ROW_PLAN_MAX 2064
#define ROW_PLAN_LEN 16512

/*
 * plan_sheet is refused with ROW_BAD_SHEET, plan_image with ROW_SHORT_SCRATCH or with one of
 * the three of an image; both with ROW_REFUSED_PLAN of row_answer, or with this. No refusal
 * is a multiple of ROW_RECORD_LEN, and every length of a list is: 0 is that of a normal row,
 * and no refusal.
 */
#define ROW_SHORT_LIST 3 /* the list slice is shorter than ROW_PLAN_LEN */

/*
 * Runs a sheet from its opening and writes the list of the row that it ends with.
 *
 *   sheet      the records; they are only read
 *   sheet_len  their length in bytes, 8 times the number of records
 *   list       where the list goes
 *   list_len   the length of that slice in bytes, ROW_PLAN_LEN or more, also for a row
 *              that is normal
 *
 * Returns the list's length in bytes, ROW_RECORD_LEN times the number of its records, 0
 * to ROW_PLAN_LEN; or ROW_BAD_SHEET, then ROW_SHORT_LIST, then ROW_REFUSED_PLAN.
 *
 * Every refusal leaves the slice untouched. Bytes of it past the end of a list keep their
 * values. The slices must not overlap. Neither pointer may be null, even where the length
 * is 0.
 *
 *     static uint8_t list[ROW_PLAN_LEN];
 *     size_t len = plan_sheet(sheet, sheet_len, list, sizeof list);
 *     if (len % ROW_RECORD_LEN == 0)
 *         show(list, len / ROW_RECORD_LEN);
 */
size_t plan_sheet(const uint8_t *sheet, size_t sheet_len,
                  uint8_t *list, size_t list_len);

/*
 * Takes up the row of an image and writes its list.
 *
 *   image        the image, from save_sheet or from elsewhere; it is only read
 *   image_len    its length in bytes, and not that of the slice it was written to
 *   list         where the list goes
 *   list_len     the length of that slice in bytes, ROW_PLAN_LEN or more
 *   scratch      memory for the call to work in, whatever it holds
 *   scratch_len  its length in bytes, ROW_SCRATCH_LEN or more
 *
 * Returns the list's length in bytes, as plan_sheet does; or 3, which is ROW_SHORT_LIST and
 * ROW_SHORT_SCRATCH; or ROW_REFUSED_IMAGE_LENGTH, ROW_REFUSED_IMAGE_NUMBER or
 * ROW_REFUSED_IMAGE_LINKS, in this order; or ROW_REFUSED_PLAN. An image from elsewhere may
 * have a row that no sheet gives, and such a row may have no list.
 *
 * Every refusal leaves the list slice untouched. Bytes of it past the end of a list keep
 * their values. At 3 the scratch is left untouched too; else the whole of it, scratch_len
 * bytes, ends as zeros, also where the image is refused or has no list. No two of the
 * slices may overlap. No pointer may be null, even where the length is 0.
 */
size_t plan_image(const uint8_t *image, size_t image_len,
                  uint8_t *list, size_t list_len,
                  uint8_t *scratch, size_t scratch_len);

/*
 * The results of seed_sheet that are refusals. Every sheet has ROW_RECORD_LEN
 * bytes or more, so a smaller result is a refusal.
 */
#define ROW_BAD_COUNT 2   /* the count is not 1 to ROW_RECORDS_MAX */
#define ROW_SHORT_SLICE 3 /* the sheet slice is shorter than the sheet */

/*
 * Makes the sheet of a seed, for benches: the same bytes for the same seed and
 * count on every machine, those that the program seedsheet writes. A smaller
 * count gives the first records of the same sheet. docs/FORMATS.md has the rule.
 *
 *   seed        any 32 bits
 *   count       how many records, the opening included: 1 to ROW_RECORDS_MAX
 *   sheet       where the sheet goes
 *   sheet_room  the length of that slice in bytes; the sheet may be shorter
 *
 * Returns the sheet's length in bytes, which is ROW_SHEET_LEN(count), or
 * ROW_BAD_COUNT, or, for a count that is not refused so, ROW_SHORT_SLICE.
 *
 * Both refusals leave the slice untouched. Bytes of it past the end of a sheet
 * keep their values. The pointer may not be null, even where the length is 0.
 *
 *     uint8_t sheet[ROW_SHEET_LEN(100)], listing[ROW_LISTING_LEN(100)];
 *     size_t len = seed_sheet(7, 100, sheet, sizeof sheet);
 *     if (len >= ROW_RECORD_LEN)
 *         run_sheet(sheet, len, listing, sizeof listing);
 *
 * run_sheet never gives ROW_BAD_SHEET for such a sheet, and no record of it is
 * ROW_REFUSED_FIELD. Steps, boards and values are drawn, so in the listing of a
 * long sheet most records are not ROW_ACCEPTED. The draws are no source of secrets.
 */
size_t seed_sheet(uint32_t seed, size_t count,
                  uint8_t *sheet, size_t sheet_room);

/*
 * How many boards make a majority of a set: half of them rounded down, plus 1.
 * The number is looked up; docs/MAJORITY.md prints the table for the manual.
 *
 *   set  a bit a board: 1 for board 1, 2 for board 2, up to 128 for board 8
 *
 * Every set has an answer, 1 to 5. The empty set has 1, more boards than it has:
 * it has no majority.
 */
uint8_t look_up_majority(uint8_t set);

#ifdef __cplusplus
}
#endif

#endif
