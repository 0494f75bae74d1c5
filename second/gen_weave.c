/* Lines put between those of a script. */
#include <string.h>

#include "entries.h"
#include "gen.h"
#include "runner.h"
#include "script.h"
#include "why.h"

/* One of these lines, which are none. */
static void add_wrong(chance *c, const char *const *wrong, size_t lines, text *out)
{
    text_print(out, "%s\n", wrong[pick(c, 0, (unsigned)lines - 1)]);
}

#define LINES(list) (sizeof(list) / sizeof(list)[0])

void add_question(chance *c, unsigned tasks, text *out)
{
    (void)tasks;
    static const char *const wrong[] = {"V\t", "V\t1", "V\t0", "V ", "VV", "V\r", "V\t1\t1", "v", " V"};
    if (likely(c, 90))
        text_print(out, "V\n");
    else
        add_wrong(c, wrong, LINES(wrong), out);
}

/* Mostly one of the rig's tasks; else 0, the next ones, or far above. */
static unsigned task_asked(chance *c, unsigned tasks)
{
    static const unsigned far[] = {0, 0, 64, 65, 255, 256, 65536, UINT32_MAX};
    if (likely(c, 85) && tasks > 0)
        return pick(c, 1, tasks);
    return likely(c, 50) ? tasks + pick(c, 1, 2) : far[pick(c, 0, LINES(far) - 1)];
}

unsigned gen_links_asked(chance *c)
{
    static const unsigned above[] = {5, 16, 64, 255, 256, 65536, UINT32_MAX};
    if (likely(c, 80))
        return pick(c, 0, LINKS_MAX);
    return likely(c, 50) ? LINKS_MAX + 1 : above[pick(c, 0, LINES(above) - 1)];
}

void add_overruns_question(chance *c, unsigned tasks, text *out)
{
    static const char *const wrong[] = {"O", "O\t", "O\t1\t", "O\t1\t1", "O\t01", "O\t4294967296", "O 1", "O1", "OO\t1",
                                        "O\t1\r", "O\t-1", "O\tx", "o\t1", "\tO\t1", "O\t\t1", "O\t1 "};
    if (likely(c, 90))
        text_print(out, "O\t%u\n", task_asked(c, tasks));
    else
        add_wrong(c, wrong, LINES(wrong), out);
}

void add_why_question(chance *c, unsigned tasks, text *out)
{
    static const char *const wrong[] = {"Y", "Y\t", "Y\t1", "Y\t1\t", "Y\t1\t1\t", "Y\t1\t1\t1", "Y\t01\t1", "Y\t1\t01",
                                        "Y\t4294967296\t1", "Y\t1\t4294967296", "Y 1 1", "Y\t1 1", "Y1\t1", "YY\t1\t1", "Y\t1\t1\r",
                                        "Y\t1\t-1", "Y\t1\tx", "Y\t\t1", "Y\t1\t\t1", "y\t1\t1", "\tY\t1\t1"};
    if (likely(c, 90))
        text_print(out, "Y\t%u\t%u\n", task_asked(c, tasks), gen_links_asked(c));
    else
        add_wrong(c, wrong, LINES(wrong), out);
}

void add_harmed_question(chance *c, unsigned tasks, text *out)
{
    (void)tasks;
    if (likely(c, 97))
        text_print(out, "H\t%u\n", pick(c, 0, HARMS - 1));
    else
        text_print(out, likely(c, 50) ? "H\n" : "H\t6\n");
}

static unsigned harm_or_none(chance *c)
{
    return likely(c, 40) ? HARM_NONE : pick(c, HARM_NONE + 1, HARMS - 1);
}

void add_harmed_overruns_question(chance *c, unsigned tasks, text *out)
{
    unsigned harm = harm_or_none(c);
    if (likely(c, 97))
        text_print(out, "P\t%u\t%u\n", harm, task_asked(c, tasks));
    else
        text_print(out, likely(c, 50) ? "P\t0\n" : "P\t6\t1\n");
}

void add_harmed_why_question(chance *c, unsigned tasks, text *out)
{
    static const char *const wrong[] = {"I", "I\t0", "I\t0\t2", "I\t6\t2\t1", "I\t0\t2\t1\t1", "I\t0\t2\t4294967296"};
    unsigned harm = harm_or_none(c);
    if (likely(c, 97))
        text_print(out, "I\t%u\t%u\t%u\n", harm, task_asked(c, tasks), gen_links_asked(c));
    else
        add_wrong(c, wrong, LINES(wrong), out);
}

/* Moves what stands behind the line RUN to `script`; false if there is no such line. */
static bool take_script(size_t start, text *out, text *script)
{
    input_parts parts = find_parts(out->bytes + start, out->length - start);
    size_t from = start + parts.rig_length + RUN_LINE_LENGTH;
    if (!parts.has_script)
        return false;
    text_clear(script);
    text_add(script, out->bytes + from, out->length - from);
    out->length = from;
    return true;
}

/* The tasks that the line RIG tells, 0 if it is no such line. */
static unsigned tasks_told(const uint8_t *file, size_t length)
{
    const uint8_t *at = file + 3, *end = file + length;
    uint32_t edition, tasks;
    bool told = length > 3 && memcmp(file, "RIG", 3) == 0 && script_number(&at, end, &edition) && script_number(&at, end, &tasks);
    return told && tasks <= TASKS_MAX ? tasks : 0;
}

void gen_weave(chance *c, unsigned percent, line_adder *add, size_t start, text *out)
{
    static text script;
    if (!take_script(start, out, &script))
        return;
    unsigned tasks = tasks_told(out->bytes + start, out->length - start);
    for (size_t at = 0; at < script.length;) {
        const uint8_t *lf = memchr(script.bytes + at, '\n', script.length - at);
        size_t next = lf != NULL ? (size_t)(lf - script.bytes) + 1 : script.length;
        if (likely(c, percent))
            add(c, tasks, out);
        text_add(out, script.bytes + at, next - at);
        at = next;
    }
}
