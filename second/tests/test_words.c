#include <string.h>

#include "check.h"
#include "words.h"

/* A command put together, or minus its refusal. */
static long command(uint32_t address, uint32_t transmit, uint32_t subaddress, uint32_t last)
{
    uint16_t word = 4711;
    enum refusal refusal = command_word(&(command_fields){address, transmit, subaddress, last}, &word);
    if (refusal != ACCEPTED) {
        CHECK_IS(word, 4711); /* a refused entry answers the number alone */
        return -(long)refusal;
    }
    return word;
}

static long status(uint32_t address, uint32_t error, uint32_t bits, uint32_t failure)
{
    uint16_t word = 4711;
    enum refusal refusal = status_word(&(status_fields){address, error, bits, failure}, &word);
    return refusal != ACCEPTED ? -(long)refusal : word;
}

static long judged(uint32_t image, uint32_t expected)
{
    verdict v = VERDICT_ERROR;
    enum refusal refusal = status_judge(image, expected, &v);
    return refusal != ACCEPTED ? -(long)refusal : (long)v;
}

static void starred_words(void)
{
    CHECK_IS(command(7, 0, 2, 32), 14400);
    CHECK_IS(command(5, 0, 1, 1), 10273);
    CHECK_IS(command(31, 1, 30, 32), 65472);
    CHECK_IS(status(7, 1, 0, 0), 15360);
    CHECK_IS(parity(14400), 1);
    CHECK_IS(parity(1), 0);
    CHECK_IS(command(7, 0, 2, 33), -11);
}

static void slip_32_is_reduced(void)
{
    CHECK(command(7, 0, 2, 32) != 14432);
    CHECK_IS(command(7, 0, 2, 32), command(7, 0, 2, 1) - 1);
}

static void fields_outside_sizes(void)
{
    CHECK_IS(command(32, 0, 1, 1), -11);
    CHECK_IS(command(0, 2, 1, 1), -11);
    CHECK_IS(command(0, 0, 32, 1), -11);
    CHECK_IS(command(0, 0, 1, 0), -11);
    CHECK_IS(command(0, 0, 0, 0), 0); /* mode number 0 */
    CHECK_IS(command(0, 0, 0, 31), 31);
    CHECK_IS(command(0, 0, 0, 32), -11);
    CHECK_IS(command(31, 1, 31, 32), 65504);
    CHECK_IS(command(4294967295u, 0, 1, 1), -11);
    CHECK_IS(status(32, 0, 0, 0), -11);
    CHECK_IS(status(0, 2, 0, 0), -11);
    CHECK_IS(status(0, 0, 512, 0), -11);
    CHECK_IS(status(0, 0, 0, 2), -11);
    CHECK_IS(status(31, 1, 511, 1), 65535);
    CHECK_IS(judged(131072, 0), -11);
    CHECK_IS(judged(0, 32), -11);
}

static void every_command_round_trips(void)
{
    unsigned wrong = 0;
    for (uint32_t w = 0; w <= UINT16_MAX; w++) {
        command_fields f = command_apart((uint16_t)w);
        bool mode = f.subaddress == 0;
        wrong += f.last > (mode ? 31u : 32u) || (!mode && f.last == 0);
        wrong += command(f.address, f.transmit, f.subaddress, f.last) != (long)w;
    }
    CHECK_IS(wrong, 0);
}

static unsigned ones(uint32_t n)
{
    unsigned count = 0;
    for (; n != 0; n >>= 1)
        count += n & 1;
    return count;
}

static void every_status_round_trips(void)
{
    unsigned wrong = 0;
    for (uint32_t w = 0; w <= UINT16_MAX; w++) {
        status_fields f = status_apart((uint16_t)w);
        wrong += status(f.address, f.error, f.status, f.failure) != (long)w;
        wrong += status_image((uint16_t)w) >> 1 != w;
        wrong += ones(status_image((uint16_t)w)) % 2 != 1;
    }
    CHECK_IS(wrong, 0);
}

/* The terminal's way to the parity and the monitor's, on every word; and both are odd parity. */
static void counting_and_table_agree(void)
{
    unsigned wrong = 0;
    for (uint32_t w = 0; w <= UINT16_MAX; w++) {
        wrong += counted_parity((uint16_t)w) != parity((uint16_t)w);
        wrong += (ones(w) + counted_parity((uint16_t)w)) % 2 != 1;
    }
    CHECK_IS(wrong, 0);
}

/* What the terminal sends is no error at its own address, and one wrong bit on the way makes it one. */
static void every_image_sent_is_judged(void)
{
    unsigned wrong = 0;
    for (uint32_t w = 0; w <= UINT16_MAX; w++) {
        uint32_t image = status_image((uint16_t)w);
        wrong += judged(image, w >> 11) != (w % 2048 == 0 ? VERDICT_CLEAN : VERDICT_EXCEPTION);
        wrong += judged(image ^ 1u << w % 17, w >> 11) != VERDICT_ERROR;
    }
    CHECK_IS(wrong, 0);
}

static void every_image_at_every_address(void)
{
    unsigned wrong = 0, clean = 0;
    for (uint32_t image = 0; image < 131072; image++) {
        for (uint32_t a = 0; a <= 31; a++) {
            long want = ones(image) % 2 == 0 || image >> 12 != a ? VERDICT_ERROR
                        : (image >> 1) % 2048 != 0              ? VERDICT_EXCEPTION
                                                                : VERDICT_CLEAN;
            wrong += judged(image, a) != want;
            clean += want == VERDICT_CLEAN;
        }
    }
    CHECK_IS(wrong, 0);
    CHECK_IS(clean, 32);
}

static void check_answers(const char *questions, const char *answers)
{
    text in = {NULL, 0, 0}, want = {NULL, 0, 0}, got = {NULL, 0, 0};
    tabbed(questions, &in);
    tabbed(answers, &want);
    text_add(&want, "", 1);
    run_bytes(MODE_WORDS, in.bytes, in.length, &got);
    check_text(&got, (const char *)want.bytes, questions, __FILE__, __LINE__);
    text_free(&in);
    text_free(&want);
    text_free(&got);
}

/* What follows the fields that are asked is no answer of ours, and is passed over. */
static void questions_on_words(void)
{
    check_answers("command 7 0 2 32\ncommand 7 0 2 33 0 5\n", "command 7 0 2 32 0 14400\ncommand 7 0 2 33 11\n");
    check_answers("fields 14400 x\nbits 15360\nparity 14400 1\n", "fields 14400 7 0 2 32\nbits 15360 7 1 0 0\nparity 14400 1\n");
    check_answers("status 7 1 0 0\nstatus 7 2 0 0\n", "status 7 1 0 0 0 15360 30721\nstatus 7 2 0 0 11\n");
    check_answers("image 14400\nimage 1 x\nimage 65535\nimage 65536\nimage\n",
                  "image 14400 28801\nimage 1 2\nimage 65535 131071\n?\n?\n");
    check_answers("judge 28672 7\njudge 28673 7\njudge 30721 7\n",
                  "judge 28672 7 0 clean\njudge 28673 7 0 error\njudge 30721 7 0 exception\n");
    check_answers("judge 131072 7\njudge 28672 32\n", "judge 131072 7 11\njudge 28672 32 11\n");
    check_answers("\nparity\nparity 65536\nparity 01\nsum 1\ncommand 7 0 2\nparity 1", "?\n?\n?\n?\n?\n?\n?\n");
}

/* The text of line `number`, from 1 on, without its LF; empty if there is none. */
static text line_of(const text *lines, size_t number)
{
    const uint8_t *at = lines->bytes, *end = at + lines->length, *lf = memchr(at, '\n', lines->length);
    text line = {NULL, 0, 0};
    for (; number > 1 && lf != NULL; number--) {
        at = lf + 1;
        lf = memchr(at, '\n', (size_t)(end - at));
    }
    if (lf != NULL)
        text_add(&line, at, (size_t)(lf - at));
    return line;
}

static void check_line(const text *lines, size_t number, const char *spaced)
{
    text line = line_of(lines, number), want = {NULL, 0, 0};
    tabbed(spaced, &want);
    text_add(&want, "", 1);
    check_text(&line, (const char *)want.bytes, spaced, __FILE__, __LINE__);
    text_free(&line);
    text_free(&want);
}

static size_t lines_in(const text *lines)
{
    size_t count = 0;
    for (size_t i = 0; i < lines->length; i++)
        count += lines->bytes[i] == '\n';
    return count;
}

enum { IMAGE_LINES = 65536, COMMAND_LINES = 34 * 3 * 34, STATUS_LINES = 34 * 3 * 520, JUDGE_LINES = 34 * 33 };

static void terminals_whole_output(void)
{
    text got = {NULL, 0, 0};
    size_t commands = IMAGE_LINES, statuses = commands + COMMAND_LINES, counts = statuses + STATUS_LINES;
    run_bytes(MODE_TERMINAL_ALL, NULL, 0, &got);
    CHECK_IS(lines_in(&got), counts + 3);
    check_line(&got, 1, "image 0 1");
    check_line(&got, IMAGE_LINES, "image 65535 131071");
    check_line(&got, commands + 1, "command 0 0 0 0 1 2 3 4 5 6 7 8 9 10 11 12 13 14 15 16 17 18 19 20 21 22 23 24 25 26 27 28 "
                                   "29 30 31 -11 -11 -11");
    check_line(&got, commands + 2, "command 0 0 1 -11 33 34 35 36 37 38 39 40 41 42 43 44 45 46 47 48 49 50 51 52 53 54 55 56 "
                                   "57 58 59 60 61 62 63 32 -11 -11");
    check_line(&got, statuses + 1, "status 0 0 0 0 1 -11");
    check_line(&got, statuses + 520 + 1, "status 0 1 0 1024 1025 -11");
    check_line(&got, statuses + 2 * 520 + 1, "status 0 2 0 -11 -11 -11");
    check_line(&got, counts, "status 33 2 519 -11 -11 -11");
    check_line(&got, counts + 1, "answers command 65536 55844"); /* each word once, of 34 * 3 * 34 * 35 commands */
    check_line(&got, counts + 2, "answers status 65536 93584");  /* of 34 * 3 * 520 * 3 */
    check_line(&got, counts + 3, "answers image 65536");
    text_free(&got);
}

static void monitors_whole_output(void)
{
    text got = {NULL, 0, 0};
    size_t judged_before = 2 * IMAGE_LINES;
    run_bytes(MODE_MONITOR_ALL, NULL, 0, &got);
    CHECK_IS(lines_in(&got), judged_before + JUDGE_LINES + 1);
    check_line(&got, 1, "fields 0 0 0 0 0");
    check_line(&got, 2, "bits 0 0 0 0 0");
    check_line(&got, 2 * 14400 + 1, "fields 14400 7 0 2 32");
    check_line(&got, 2 * 65535 + 2, "bits 65535 31 1 511 1");
    check_line(&got, judged_before + 33, "judge 0 131072 xxxx");
    check_line(&got, judged_before + JUDGE_LINES, "judge 33 131072 xxxx");
    check_line(&got, judged_before + JUDGE_LINES + 1, "answers judge 32 65504 4128768 262280");
    text first = line_of(&got, judged_before + 1);
    CHECK_IS(first.length, strlen("judge 0 0 ") + 4096);
    CHECK(first.length > 18 && memcmp(first.bytes, "judge\t0\t0\t20121221", 18) == 0);
    text_free(&first);
    text_free(&got);
}

void words_tests(void)
{
    RUN(questions_on_words);
    RUN(starred_words);
    RUN(slip_32_is_reduced);
    RUN(fields_outside_sizes);
    RUN(every_command_round_trips);
    RUN(every_status_round_trips);
    RUN(counting_and_table_agree);
    RUN(every_image_sent_is_judged);
    RUN(every_image_at_every_address);
    RUN(terminals_whole_output);
    RUN(monitors_whole_output);
}
