/*
 * Runs each exported function on a painted stack of its own, over inputs at every limit, refused ones and random ones, and prints how many
 * bytes of stack it has touched at its worst: from its caller's stack pointer down to the lowest byte that changed. `tools/sizes` reads that.
 */
#include <stdio.h>
#include <stdlib.h>
#include <string.h>
#include <ucontext.h>

#include "../include/tasgilfrem.h"

#define STACK 131072
#define TEXTS 1000
#define LISTS 32
#define RANDOM_TEXTS 600

typedef struct {
    uint8_t bytes[TASGILFREM_TEXT_MAX + 64];
    size_t len;
} text;

typedef struct {
    uint8_t bytes[TASGILFREM_LIST_MAX + 64];
    size_t len;
} list;

static text texts[TEXTS];
static size_t text_count;
static list lists[LISTS];
static size_t list_count;

/* ---- Texts ---- */

static text *new_text(void)
{
    if (text_count == TEXTS)
        abort();
    return &texts[text_count++];
}

/* What has no room any more is left out. */
static void add(text *t, const char *s)
{
    size_t n = strlen(s);
    if (t->len + n <= TASGILFREM_TEXT_MAX) {
        memcpy(t->bytes + t->len, s, n);
        t->len += n;
    }
}

static void add_times(text *t, const char *s, unsigned times)
{
    while (times-- > 0)
        add(t, s);
}

static void fill(text *t, const char *s)
{
    while (t->len + strlen(s) <= TASGILFREM_TEXT_MAX)
        add(t, s);
}

/* `first`, then `more` so many times, then `last`, then spaces up to 1,024 bytes. */
static void make(const char *first, const char *more, unsigned times, const char *last)
{
    text *t = new_text();
    add(t, first);
    add_times(t, more, times);
    add(t, last);
    t = new_text();
    *t = texts[text_count - 2];
    fill(t, " ");
}

static void make_full(const char *s)
{
    text *t = new_text();
    fill(t, s);
}

static void make_references(unsigned n, const char *joint)
{
    text *t = new_text();
    unsigned i;
    char one[64];
    for (i = 0; i < n; i++) {
        sprintf(one, "%sLicenseRef-%02u", i == 0 ? "" : joint, i);
        add(t, one);
    }
}

/* `a joint (a joint (..` of n leaves and a given depth. */
static void make_nested(const char *leaf, const char *one, const char *other, unsigned leaves, unsigned depth)
{
    text *t = new_text();
    unsigned i;
    for (i = 0; i < leaves; i++) {
        add(t, i == 0 ? "" : i % 2 == 0 ? one : other);
        if (i < depth)
            add(t, "(");
        add(t, leaf);
    }
    add_times(t, ")", depth < leaves ? depth : leaves);
}

static uint64_t seed = 0x9E3779B97F4A7C15u;

static unsigned below(unsigned n)
{
    seed ^= seed << 13;
    seed ^= seed >> 7;
    seed ^= seed << 17;
    return (unsigned)(seed >> 33) % n;
}

static const char *const leaves[] = {
    "MIT", "ISC", "0BSD", "Apache-2.0", "GPL-3.0-or-later", "GPL-2.0", "gplv2+", "apache", "mit", "GPL-2.0-only+", "MPL-1.1+", "OFL-1.1",
    "LicenseRef-", "LicenseRef-00", "LicenseRef-01", "LicenseRef-29", "LicenseRef-63", "DocumentRef-d:LicenseRef-00", "unknown-term", "x",
    "MIT WITH LLVM-exception", "Apache-2.0 WITH AdditionRef-a", "gpl-3.0+ with Classpath-exception-2.0", "x WITH y WITH AdditionRef-z",
    "GPL-2.0-only WITH DocumentRef-e:AdditionRef-f", "LicenseRef-00 WITH GCC-exception-3.1"};
static const char *const joints[] = {" AND ", " OR ", " and ", " or ", "/", "\xE2\x80\x83OR\xC2\xA0", " AND\t"};
static const char *const damage[] = {"+", " +", "(", ")", " WITH ", "AND", "\xC3\xA9", "\xE9", ";", "foo", " ", "\n", "MIT", "-or-later", ":", "\xF0\x9F\x92\xA9"};

#define ONE_OF(words) words[below(sizeof words / sizeof *words)]

static void random_expression(text *t, unsigned depth)
{
    if (depth == 0 || below(3) == 0) {
        add(t, ONE_OF(leaves));
        return;
    }
    if (below(3) == 0) {
        add(t, "(");
        random_expression(t, depth - 1);
        add(t, ")");
        return;
    }
    random_expression(t, depth - 1);
    add(t, ONE_OF(joints));
    random_expression(t, depth - 1);
}

static void make_random(void)
{
    text *t = new_text();
    unsigned i, n = below(40);
    switch (below(4)) {
    case 0: random_expression(t, below(10)); break;
    case 1:
        for (i = 0; i < n; i++) {
            add(t, ONE_OF(leaves));
            add(t, ONE_OF(joints));
        }
        add(t, ONE_OF(leaves));
        break;
    case 2:
        random_expression(t, below(6));
        add(t, ONE_OF(damage));
        random_expression(t, below(6));
        break;
    default:
        for (i = 0; i < n; i++)
            add(t, below(2) == 0 ? ONE_OF(damage) : ONE_OF(leaves));
    }
}

static void make_texts(void)
{
    unsigned i;
    make("", "", 0, "");
    make("MIT", "", 0, "");
    make("((MIT", "", 0, "");
    make("MIT", " AND MIT", 63, "");
    make("MIT", " OR MIT", 63, "");
    make("MIT", " AND MIT OR MIT", 31, "");
    make("MIT", " AND MIT", 64, "");
    make("GPL-2.0", "/GPL-2.0", 63, "");
    make("gplv2+", "/gplv2+", 63, "");
    make("x WITH y", " WITH z", 100, "");
    make("LicenseRef-a WITH AdditionRef-b", " OR LicenseRef-a WITH AdditionRef-b", 28, "");
    make("DocumentRef-d:LicenseRef-a WITH DocumentRef-e:AdditionRef-b", " OR DocumentRef-d:LicenseRef-a", 30, "");
    for (i = 31; i <= 33; i++) {
        text *t = new_text();
        add_times(t, "(", i);
        add(t, "MIT");
        add_times(t, ")", i);
        make_nested("MIT", " AND ", " OR ", 64, i);
        make_nested("MIT", " OR ", " AND ", 65, i);
        make_nested("gplv2+", "/", " AND ", 64, i);
        make_nested("LicenseRef-00", " AND ", " AND ", 50, i);
    }
    for (i = 29; i <= 64; i++) {
        make_references(i, " OR ");
        make_references(i, " AND ");
        make_references(i, "/");
    }
    make_full("/");
    make_full("(");
    make_full(")");
    make_full("+");
    make_full("a");
    make_full(":");
    make_full(" ");
    make_full("MIT ");
    make_full("MIT+");
    make_full("mit");
    make_full("apache2");
    make_full("gplv2+ ");
    make_full("gplv2+/");
    make_full("GPL-3.0-or-later+ ");
    make_full("\xC3\xA9");
    make_full("\xE2\x80\x83");
    make_full("\xF0\x9F\x92\xA9");
    make_full("\xE9");
    make("LicenseRef-", "a", 1013, "");
    make("DocumentRef-", "a", 900, ":LicenseRef-b");
    make("AdditionRef-", "a", 1012, "");
    make("MIT WITH AdditionRef-", "a", 1003, "");
    make("MIT", " ", 1016, "+");
    make("MIT AND GPL-2.0", "", 0, "");
    make("GPL-2.0-only+", "", 0, "");
    make("GPL-2.0-or-later+", "", 0, "");
    make("MIT)", "", 0, "");
    make("MIT OR", "", 0, "");
    make("MIT WITH", "", 0, "");
    for (i = 0; i < RANDOM_TEXTS; i++)
        make_random();
    /* over the limit */
    new_text()->len = TASGILFREM_TEXT_MAX + 1;
    memset(texts[text_count - 1].bytes, ' ', TASGILFREM_TEXT_MAX + 1);
}

/* ---- Lists ---- */

static list *make_list(const char *const *bodies, unsigned count)
{
    list *l = &lists[list_count++];
    size_t offset = 1 + 4 * (size_t)count;
    unsigned i;
    if (list_count == LISTS)
        abort();
    l->bytes[0] = (uint8_t)count;
    for (i = 0; i < count; i++) {
        size_t n = strlen(bodies[i]);
        l->bytes[1 + 4 * i] = (uint8_t)(offset & 0xFF);
        l->bytes[2 + 4 * i] = (uint8_t)(offset >> 8);
        l->bytes[3 + 4 * i] = (uint8_t)n;
        memcpy(l->bytes + offset, bodies[i], n);
        offset += n;
    }
    l->len = offset;
    return l;
}

static void make_lists(void)
{
    static const char *const listed[] = {
        "0BSD", "Apache-2.0", "BSD-2-Clause", "BSD-3-Clause", "BSL-1.0", "CC-BY-4.0", "CC0-1.0", "GPL-2.0-only", "GPL-2.0-or-later", "GPL-3.0-only",
        "GPL-3.0-or-later", "ISC", "LGPL-2.1-only", "LGPL-2.1-or-later", "LGPL-3.0-only", "LGPL-3.0-or-later", "MIT", "MPL-1.1", "MPL-2.0", "OFL-1.1",
        "Unicode-3.0", "Unlicense", "MIT WITH LLVM-exception", "Apache-2.0 WITH AdditionRef-a", "MIT", " MIT ", "LicenseRef-", "LicenseRef-x",
        "GPL-3.0-or-later WITH Classpath-exception-2.0", "LicenseRef-00 WITH GCC-exception-3.1", "DocumentRef-d:LicenseRef-00",
        "GPL-2.0-only WITH DocumentRef-e:AdditionRef-f"};
    static const char *const wrong[] = {"MIT", "MIT+", "(MIT)", "GPL-2.0", "foo", "\xE9", "", "MIT WITH LLVM-exception WITH x", "MIT MIT", "LLVM-exception"};
    static char names[64][201];
    const char *bodies[64];
    unsigned i;
    make_list(listed, 0);
    make_list(listed, 1);
    make_list(listed, sizeof listed / sizeof *listed);
    for (i = 0; i < 64; i++) {
        sprintf(names[i], "LicenseRef-%02u", i);
        bodies[i] = names[i];
    }
    make_list(bodies, 30);
    make_list(bodies, 31);
    make_list(bodies, 64)->bytes[0]++;
    make_list(bodies, 64)->len--;
    make_list(bodies, 64)->len++;
    make_list(bodies, 64);
    for (i = 0; i < sizeof wrong / sizeof *wrong; i++)
        make_list(wrong + i, 1);
    /* bodies of 200 bytes: a reference with an addition, both with a document part */
    for (i = 0; i < 64; i++) {
        sprintf(names[i], "DocumentRef-d:LicenseRef-%02u WITH DocumentRef-e:AdditionRef-%0140u", i % 40, i);
        bodies[i] = names[i];
    }
    make_list(bodies, 64);
}

/* ---- A call on a stack of its own ---- */

enum { NOTHING, STEP, PARSE, CANONICAL, ENTRY, LIST, CHOICE, LISTING, FOUND, NAME, FUNCTIONS };

static const char *const names_of[FUNCTIONS] = {"nothing",         "tasgilfrem_step",   "tasgilfrem_parse",  "tasgilfrem_canonical", "tasgilfrem_entry",
                                                "tasgilfrem_list", "tasgilfrem_choice", "tasgilfrem_listing", "tasgilfrem_found",    "tasgilfrem_name"};

static struct {
    int function;
    const text *text;
    const list *list;
    uint8_t mode;
    size_t room;
    uint64_t one, other;
} now;

static uint64_t stack[STACK / 8];
static uintptr_t caller;
static ucontext_t home, away;
static uint64_t answers;
static unsigned long calls;

/* Holds the measure itself to account: it touches a known number of bytes. */
#define KNOWN 1000
static uint64_t nothing(void)
{
    volatile char touched[KNOWN];
    touched[0] = 1;
    return (uint64_t)touched[0];
}

static void one_call(void)
{
    static uint16_t cells[TASGILFREM_NODES_MAX * TASGILFREM_NODE_CELLS];
    static uint8_t out[TASGILFREM_CANONICAL_MAX];
    static uint64_t numbers[2];
    const uint8_t *t = now.text->bytes, *l = now.list->bytes;
    size_t tn = now.text->len, ln = now.list->len;
    __asm__ volatile("movq %%rsp, %0" : "=r"(caller));
    switch (now.function) {
    case NOTHING: answers += nothing(); break;
    case STEP: answers += tasgilfrem_step(t, tn, now.mode, (size_t)now.one, cells); break;
    case PARSE: answers += tasgilfrem_parse(t, tn, now.mode, cells, now.room); break;
    case CANONICAL: answers += tasgilfrem_canonical(t, tn, out, now.room); break;
    case ENTRY: answers += tasgilfrem_entry(l, ln, (size_t)now.one); break;
    case LIST: answers += tasgilfrem_list(l, ln); break;
    case CHOICE: answers += tasgilfrem_choice(t, tn, now.mode, l, ln, now.other, numbers); break;
    case LISTING: answers += tasgilfrem_listing(t, tn, now.mode, l, ln, now.one, now.other, numbers); break;
    case FOUND: answers += tasgilfrem_found(t, tn, now.mode, l, ln, out); break;
    default: answers += tasgilfrem_name((uint8_t)now.mode, (size_t)now.one, out, now.room);
    }
    calls++;
}

static void call(void)
{
    if (getcontext(&away) != 0)
        abort();
    away.uc_stack.ss_sp = stack;
    away.uc_stack.ss_size = sizeof stack;
    away.uc_link = &home;
    makecontext(&away, one_call, 0);
    if (swapcontext(&home, &away) != 0)
        abort();
}

/* ---- All calls of a function ---- */

static const uint8_t modes[] = {TASGILFREM_STRICT, TASGILFREM_LAX, 31};
static const uint64_t budgets[] = {0, 1, 300};
static const uint64_t cursors[] = {0, 1, UINT64_C(1) << 29};

#define EACH(i, array) for (i = 0; i < sizeof array / sizeof *array; i++)

static void all_names(void)
{
    for (now.mode = 0; now.mode < 2; now.mode++)
        for (now.one = 0; now.one < 1000; now.one++)
            for (now.room = 0; now.room <= 64; now.room += 64)
                call();
}

static void all_lists(void)
{
    size_t i;
    for (i = 0; i < list_count; i++) {
        now.list = &lists[i];
        for (now.one = 0; now.one < 66; now.one++)
            call();
    }
}

static void all_places(void)
{
    uint64_t step = below(40) + 1;
    for (now.one = 0; now.one <= now.text->len + 1; now.one += step)
        call();
}

static void all_rooms(size_t most)
{
    for (now.room = 0; now.room <= most; now.room += most)
        call();
}

static void all_searches(void)
{
    size_t i, j, l;
    /* a random text meets three lists, any other all of them */
    size_t stride = (size_t)(now.text - texts) + RANDOM_TEXTS + 1 < text_count ? 1 : list_count / 3;
    for (l = below((unsigned)stride); l < list_count; l += stride) {
        now.list = &lists[l];
        EACH(i, budgets) {
            now.other = budgets[i];
            EACH(j, cursors) {
                now.one = cursors[j];
                if (now.function == LISTING || j == 0)
                    call();
            }
            if (now.function == FOUND)
                break;
        }
    }
}

static void all_texts(void)
{
    size_t i, m;
    for (i = 0; i < text_count; i++)
        EACH(m, modes) {
            now.text = &texts[i];
            now.mode = modes[m];
            switch (now.function) {
            case STEP: all_places(); break;
            case PARSE: all_rooms(TASGILFREM_NODES_MAX * TASGILFREM_NODE_CELLS); break;
            case CANONICAL:
                if (m == 0)
                    all_rooms(TASGILFREM_CANONICAL_MAX);
                break;
            default: all_searches();
            }
        }
}

/* How many bytes below its caller a function has touched. */
static size_t touched(int function, int paint)
{
    const uint8_t *bytes = (const uint8_t *)stack;
    size_t i = 0;
    memset(stack, paint, sizeof stack);
    now.function = function;
    now.text = texts;
    now.list = lists;
    calls = 0;
    switch (function) {
    case NOTHING: call(); break;
    case NAME: all_names(); break;
    case LIST:
    case ENTRY: all_lists(); break;
    default: all_texts();
    }
    while (bytes[i] == paint)
        i++;
    return (size_t)(caller - (uintptr_t)(bytes + i));
}

int main(void)
{
    int function;
    make_texts();
    make_lists();
    for (function = NOTHING; function < FUNCTIONS; function++) {
        size_t one = touched(function, 0xA5), other = touched(function, 0x5A), most = one > other ? one : other;
        if (function == NOTHING) {
            if (most < KNOWN || most > KNOWN + 64) {
                printf("the measure is wrong: %lu bytes for %d\n", (unsigned long)most, KNOWN);
                return 1;
            }
            continue;
        }
        printf("%s %lu %lu\n", names_of[function], (unsigned long)most, calls);
    }
    return answers == 1;
}
