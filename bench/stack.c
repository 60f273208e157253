/*
 * stack IMAGE SHEET...: how deep run_sheet, explain_sheet, save_sheet and plan_sheet go
 * into the stack, for each sheet, show_image and plan_image, for the image of each sheet
 * and the one that is named, describe_record, for every answer, seed_sheet, for the
 * longest sheet of a seed, and look_up_majority, for every set.
 *
 * The call is made on a stack of its own, painted before; the first byte from
 * the far end that lost its paint is the high-water mark. It is counted from
 * the caller's frame, with the return address. Each sheet is run on two paints,
 * so that a byte that happens to have one of them is seen on the other.
 *
 * Link with -z now: a call that is bound when first made takes stack of its own.
 */
#define _XOPEN_SOURCE 600
#include <stdio.h>
#include <stdlib.h>
#include <string.h>
#include <ucontext.h>

#include "row.h"

enum { STACK_LEN = 1 << 20 };

typedef size_t (*runner)(const uint8_t *, size_t, uint8_t *, size_t);
typedef size_t (*describer)(const uint8_t *, size_t, size_t, uint8_t *, size_t);
typedef size_t (*maker)(uint32_t, size_t, uint8_t *, size_t);
typedef size_t (*shower)(const uint8_t *, size_t, uint8_t *, size_t, uint8_t *, size_t);
typedef uint8_t (*looker)(uint8_t);

static uint8_t stack[STACK_LEN];
static uint8_t sheet[ROW_SHEET_LEN(ROW_RECORDS_MAX) + 1];
static size_t sheet_len;
/* A listing, a list of records or, longer, the lines in words. */
static uint8_t listing[ROW_TEXT_LEN(ROW_RECORDS_MAX)];
static uint8_t image[ROW_IMAGE_LEN + 1];
static size_t image_len;
static uint8_t scratch[ROW_SCRATCH_LEN];

static ucontext_t here, there;
static runner run;
static describer describe;
static maker make;
static shower show;
static looker look;
static size_t result;

static void call_run(void)
{
    result = run(sheet, sheet_len, listing, sizeof listing);
}

static void call_describe(void)
{
    size_t answer;

    for (answer = 0; answer <= 19; answer++)
        result = describe(sheet, ROW_RECORD_LEN, answer, listing, ROW_LINE_LEN);
}

static void call_make(void)
{
    result = make(1, ROW_RECORDS_MAX, sheet, sizeof sheet);
}

static void call_show(void)
{
    result = show(image, image_len, listing, sizeof listing, scratch, sizeof scratch);
}

static void call_look(void)
{
    int set;

    for (set = 0; set <= UINT8_MAX; set++)
        result = look((uint8_t)set);
}

/* Calls that take nothing but their return address. */
static size_t run_nothing(const uint8_t *in, size_t in_len, uint8_t *out, size_t out_len)
{
    (void)in, (void)in_len, (void)out, (void)out_len;
    return 0;
}

static size_t describe_nothing(const uint8_t *in, size_t in_len, size_t answer, uint8_t *out,
                               size_t out_len)
{
    (void)in, (void)in_len, (void)answer, (void)out, (void)out_len;
    return 0;
}

static size_t make_nothing(uint32_t seed, size_t count, uint8_t *out, size_t out_len)
{
    (void)seed, (void)count, (void)out, (void)out_len;
    return 0;
}

static size_t show_nothing(const uint8_t *in, size_t in_len, uint8_t *out, size_t out_len,
                           uint8_t *lent, size_t lent_len)
{
    (void)in, (void)in_len, (void)out, (void)out_len, (void)lent, (void)lent_len;
    return 0;
}

static uint8_t look_nothing(uint8_t set)
{
    (void)set;
    return 0;
}

/* How many bytes at the stack's near end lose this paint. */
static size_t depth(void (*call)(void), int paint)
{
    size_t kept = 0;

    memset(stack, paint, sizeof stack);
    if (getcontext(&there) != 0) {
        perror("stack");
        exit(2);
    }
    there.uc_stack.ss_sp = stack;
    there.uc_stack.ss_size = sizeof stack;
    there.uc_link = &here;
    makecontext(&there, call, 0);
    if (swapcontext(&here, &there) != 0) {
        perror("stack");
        exit(2);
    }
    while (kept < sizeof stack && stack[kept] == paint)
        kept++;
    return sizeof stack - kept;
}

static size_t deepest(void (*call)(void))
{
    size_t a = depth(call, 0xa5), b = depth(call, 0x5a);

    return a > b ? a : b;
}

static size_t run_depth(runner r)
{
    run = r;
    return deepest(call_run);
}

static size_t describe_depth(describer d)
{
    describe = d;
    return deepest(call_describe);
}

static size_t make_depth(maker m)
{
    make = m;
    return deepest(call_make);
}

static size_t show_depth(shower s)
{
    show = s;
    return deepest(call_show);
}

static size_t look_depth(looker l)
{
    look = l;
    return deepest(call_look);
}

/* Reads a file into a slice: how many bytes it has, but no more than these. */
static size_t take(const char *name, uint8_t *to, size_t room)
{
    FILE *file = fopen(name, "rb");
    size_t len;

    if (file == NULL) {
        perror(name);
        exit(2);
    }
    len = fread(to, 1, room, file);
    fclose(file);
    return len;
}

int main(int argc, char **argv)
{
    const size_t address = sizeof(void (*)(void));
    size_t before = run_depth(run_nothing) - address;
    size_t before_show = show_depth(show_nothing) - address;
    size_t most = 0, told = 0, saved = 0, shown = 0, planned = 0, planned_image = 0, mark;
    int n;

    if (argc < 2) {
        fputs("usage: stack IMAGE SHEET...\n", stderr);
        return 2;
    }
    for (n = 2; n < argc; n++) {
        sheet_len = take(argv[n], sheet, sizeof sheet);
        mark = run_depth(run_sheet) - before;
        if (mark > most)
            most = mark;
        printf("%8zu  %s (%zu records, result %zu)\n", mark, argv[n],
               sheet_len / ROW_RECORD_LEN, result);
        mark = run_depth(explain_sheet) - before;
        if (mark > told)
            told = mark;
        mark = run_depth(save_sheet) - before;
        if (mark > saved)
            saved = mark;
        image_len = save_sheet(sheet, sheet_len, image, sizeof image);
        mark = show_depth(show_image) - before_show;
        if (mark > shown)
            shown = mark;
        mark = run_depth(plan_sheet) - before;
        if (mark > planned)
            planned = mark;
        mark = show_depth(plan_image) - before_show;
        if (mark > planned_image)
            planned_image = mark;
    }
    printf("%8zu  the most\n", most);
    printf("%8zu  explain_sheet, the most of these sheets\n", told);
    printf("%8zu  save_sheet, the most of these sheets\n", saved);
    printf("%8zu  show_image, the most of these sheets' images\n", shown);
    printf("%8zu  plan_sheet, the most of these sheets\n", planned);
    printf("%8zu  plan_image, the most of these sheets' images\n", planned_image);
    image_len = take(argv[1], image, sizeof image);
    mark = show_depth(show_image) - before_show;
    printf("%8zu  show_image, %s (%zu bytes, result %zu)\n", mark, argv[1], image_len, result);
    mark = show_depth(plan_image) - before_show;
    printf("%8zu  plan_image, %s (%zu bytes, result %zu)\n", mark, argv[1], image_len, result);
    before = describe_depth(describe_nothing) - address;
    mark = describe_depth(describe_record) - before;
    printf("%8zu  describe_record (every answer, the last result %zu)\n", mark, result);
    before = make_depth(make_nothing) - address;
    mark = make_depth(seed_sheet) - before;
    printf("%8zu  seed_sheet (seed 1, %d records, result %zu)\n", mark, ROW_RECORDS_MAX, result);
    before = look_depth(look_nothing) - address;
    mark = look_depth(look_up_majority) - before;
    printf("%8zu  look_up_majority (every set, the last result %zu)\n", mark, result);
    return 0;
}
