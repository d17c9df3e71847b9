/* What a planning tool does with the library. With an argument, the sample is read from that file. */
#include "hekudoja.h"

#include <inttypes.h>
#include <stdio.h>
#include <stdlib.h>
#include <string.h>

#define SCHEDULE "taps,a,b,c\n3,1,2,1\n"
#define PROFILE "station,height\n0,0\n1,0\n2,8\n3,0\n4,6\n5,0\n6,0\n"

static char out[HEKUDOJA_OUTPUT];

static void fail(const char *what)
{
    fprintf(stderr, "example: %s\n", what);
    exit(1);
}

/* The count of a call that has to go well. */
static size_t count_of(hekudoja_reply reply)
{
    if (reply.refusal != 0)
        fail("a call was refused");
    return (size_t)reply.count;
}

static void print_refusal(FILE *to, const char *what, hekudoja_reply reply)
{
    fprintf(to, "%s: refusal %" PRIu64 ", sheet %" PRIu64 ", line %" PRIu64 "\n", what, reply.refusal, reply.sheet,
            reply.line);
}

static void print_text(const char *what, size_t length)
{
    printf("%s:\n", what);
    fwrite(out, 1, length, stdout);
}

/* A byte more than may be handed on is enough to tell that a file is too long. */
static size_t read_file(const char *path, char *text, size_t room)
{
    FILE *file = fopen(path, "rb");
    size_t length;
    if (file == NULL)
        fail("the sample cannot be opened");
    length = fread(text, 1, room, file);
    if (ferror(file))
        fail("the sample cannot be read");
    fclose(file);
    return length;
}

static void list_sample(const char *path)
{
    static char text[HEKUDOJA_INPUT + 1] = SCHEDULE "\n" PROFILE;
    size_t length = path == NULL ? strlen(text) : read_file(path, text, sizeof text);
    print_text("all levels", count_of(hek_answer(text, length, out, sizeof out)));
}

static void check_schedules(void)
{
    static const char bad[] = "taps,a,b,c\n2,1,1,\n3,1,0,1\n";
    printf("passes: %zu\n", count_of(hek_check_schedule(SCHEDULE, strlen(SCHEDULE))));
    print_refusal(stdout, "bad schedule", hek_check_schedule(bad, strlen(bad)));
}

static void compare_with(const char *what, const char *second)
{
    size_t same = count_of(hek_compare(SCHEDULE, strlen(SCHEDULE), second, strlen(second)));
    printf("1,2,1 and %s: %s\n", what, same == 1 ? "equal" : "different");
}

static void reduce(void)
{
    static const char sheet[] = "taps,a,b,c\n3,2,4,2\n";
    print_text("2,4,2 reduced", count_of(hek_reduce_schedule(sheet, strlen(sheet), out, sizeof out)));
}

static void list_one_level(void)
{
    hekudoja_reply reply =
        hek_list_level(SCHEDULE, strlen(SCHEDULE), 1, PROFILE, strlen(PROFILE), out, sizeof out);
    print_text("level 1", count_of(reply));
    reply = hek_list_level(SCHEDULE, strlen(SCHEDULE), 2, PROFILE, strlen(PROFILE), out, sizeof out);
    print_refusal(stdout, "level 2", reply);
}

static void draw_and_count(void)
{
    int64_t heights[HEKUDOJA_HEIGHTS];
    int64_t work[HEKUDOJA_HEIGHTS];
    uint64_t counts[HEKUDOJA_LEVELS];
    uint64_t scale = 0;
    size_t i;
    size_t n = count_of(hek_read_profile(PROFILE, strlen(PROFILE), heights, HEKUDOJA_HEIGHTS));
    size_t length =
        count_of(hek_draw(SCHEDULE, strlen(SCHEDULE), 1, heights, n, work, HEKUDOJA_HEIGHTS, &scale));
    size_t levels = count_of(hek_count_turns(SCHEDULE, strlen(SCHEDULE), heights, n, counts, HEKUDOJA_LEVELS));
    printf("level 1 over %" PRIu64 ":", scale);
    for (i = 0; i < length; i++)
        printf(" %" PRId64, work[i]);
    printf("\nturns by level:");
    for (i = 0; i < levels; i++)
        printf(" %" PRIu64, counts[i]);
    printf("\n");
}

static void show_refusals(void)
{
    static char long_text[HEKUDOJA_INPUT + 1];
    print_refusal(stdout, "overlong input", hek_answer(long_text, sizeof long_text, out, sizeof out));
    print_refusal(stdout, "overlong sheet", hek_check_schedule(long_text, sizeof long_text));
    print_refusal(stdout, "empty sheet", hek_check_schedule(NULL, 0));
    print_refusal(stdout, "short output", hek_answer(SCHEDULE, strlen(SCHEDULE), out, 100));
}

/* What only C can get wrong is told apart from what both examples print. */
static void show_bad_arguments(void)
{
    hekudoja_reply null_text = hek_answer(NULL, 5, out, sizeof out);
    hekudoja_reply null_sheet = hek_compare(SCHEDULE, strlen(SCHEDULE), NULL, SIZE_MAX);
    hekudoja_reply overlap = hek_reduce_schedule(out, 20, out + 10, 20);
    hekudoja_reply no_scale = hek_draw(SCHEDULE, strlen(SCHEDULE), 0, NULL, 0, NULL, 0, NULL);
    print_refusal(stderr, "NULL input", null_text);
    print_refusal(stderr, "NULL sheet", null_sheet);
    print_refusal(stderr, "overlap", overlap);
    print_refusal(stderr, "NULL scale", no_scale);
    if (null_text.refusal != HEKUDOJA_BAD_ARGUMENT || null_sheet.refusal != HEKUDOJA_BAD_ARGUMENT
        || overlap.refusal != HEKUDOJA_BAD_ARGUMENT || no_scale.refusal != HEKUDOJA_BAD_ARGUMENT)
        fail("a bad argument was let through");
}

int main(int argc, char **argv)
{
    list_sample(argc > 1 ? argv[1] : NULL);
    check_schedules();
    compare_with("1,1 twice", "taps,a,b,c\n2,1,1,\n2,1,1,\n");
    compare_with("1,1 once", "taps,a,b,c\n2,1,1,\n");
    reduce();
    list_one_level();
    draw_and_count();
    show_refusals();
    show_bad_arguments();
    return 0;
}
