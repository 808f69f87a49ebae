/*
 * Calls each exported function from C and holds its answer, and every byte that it was lent, to document 01's worked texts and limits.
 * All that is lent ends right before a page that cannot be touched, so a byte too far stops the run. What is written into is painted before
 * and compared whole after, with two paints. The last line is `N passed, M failed`.
 */
#include <stdio.h>
#include <stdlib.h>
#include <string.h>
#include <sys/mman.h>

#include "../include/tasgilfrem.h"

#define ARENA 65536
#define PAGE 4096

static unsigned passed, failed;

static void check(int ok, const char *function, const char *what, const void *text, size_t len)
{
    if (ok) {
        passed++;
        return;
    }
    failed++;
    printf("failed: %s: %s: `%.*s`\n", function, what, (int)(len > 60 ? 60 : len), len == 0 ? "" : (const char *)text);
}

/* ---- What is lent ---- */

/* An arena of its own for each thing that a call is lent. */
enum { TEXT, LIST, OUT, ARENAS };
static uint8_t *arenas[ARENAS];

static void make_arenas(void)
{
    int i;
    for (i = 0; i < ARENAS; i++) {
        void *at = mmap(NULL, ARENA + 2 * PAGE, PROT_READ | PROT_WRITE, MAP_PRIVATE | MAP_ANONYMOUS, -1, 0);
        if (at == MAP_FAILED || mprotect(at, PAGE, PROT_NONE) != 0 || mprotect((char *)at + PAGE + ARENA, PAGE, PROT_NONE) != 0) {
            puts("no memory for what is lent");
            exit(1);
        }
        arenas[i] = (uint8_t *)at + PAGE;
    }
}

/* `len` bytes that end where the arena does. */
static uint8_t *lend(int arena, size_t len) { return arenas[arena] + ARENA - len; }

static uint8_t *lend_copy(int arena, const void *bytes, size_t len)
{
    uint8_t *at = lend(arena, len);
    if (len > 0)
        memcpy(at, bytes, len);
    return at;
}

static uint8_t *lend_painted(size_t len, uint8_t paint) { return memset(lend(OUT, len), paint, len); }

/* Whether the lent bytes are `head` and then paint. */
static int is_painted(const uint8_t *lent, size_t len, const void *head, size_t head_len, uint8_t paint)
{
    size_t i;
    if (head_len > 0 && memcmp(lent, head, head_len) != 0)
        return 0;
    for (i = head_len; i < len; i++)
        if (lent[i] != paint)
            return 0;
    return 1;
}

static const uint8_t paints[2] = {0xAA, 0x55};

/* ---- Answers ---- */

static uint64_t at(unsigned status, uint64_t start, uint64_t end) { return status | start << 16 | end << 40; }
static uint64_t unexpected(unsigned set, uint64_t start, uint64_t end) { return at(TASGILFREM_UNEXPECTED, start, end) | (uint64_t)set << 8; }
static uint64_t with_number(unsigned status, uint64_t number) { return status | number << 8; }
static uint64_t answered(unsigned form, uint64_t value) { return (uint64_t)form << 8 | value << 16; }

static int is_answered(uint64_t answer) { return tasgilfrem_status_of(answer) == TASGILFREM_ANSWERED; }

/* ---- Texts ---- */

typedef struct {
    char bytes[16384];
    size_t len;
} text;

static text said(const char *s)
{
    text t;
    t.len = strlen(s);
    memcpy(t.bytes, s, t.len);
    return t;
}

static void add(text *t, const char *s)
{
    size_t n = strlen(s);
    memcpy(t->bytes + t->len, s, n);
    t->len += n;
}

static text repeated(const char *first, const char *s, size_t times)
{
    text t = said(first);
    while (times-- > 0)
        add(&t, s);
    return t;
}

/* `LicenseRef-00 OR LicenseRef-01 ..` of n references. */
static text references(unsigned n, const char *joint)
{
    text t = said("");
    unsigned i;
    char one[32];
    for (i = 0; i < n; i++) {
        sprintf(one, "%sLicenseRef-%02u", i == 0 ? "" : joint, i);
        add(&t, one);
    }
    return t;
}

/* A list file of bodies. */
static text list_of(const char *const *bodies, size_t count)
{
    text t;
    size_t i, offset = 1 + 4 * count;
    t.len = offset;
    t.bytes[0] = (char)count;
    for (i = 0; i < count; i++) {
        size_t n = strlen(bodies[i]);
        t.bytes[1 + 4 * i] = (char)(offset & 0xFF);
        t.bytes[2 + 4 * i] = (char)(offset >> 8);
        t.bytes[3 + 4 * i] = (char)n;
        t.bytes[4 + 4 * i] = 0;
        add(&t, bodies[i]);
        offset += n;
    }
    return t;
}

/* A list of n references, the same as `references`. */
static text list_of_references(unsigned n)
{
    static char names[64][16];
    const char *bodies[64];
    unsigned i;
    for (i = 0; i < n; i++) {
        sprintf(names[i], "LicenseRef-%02u", i);
        bodies[i] = names[i];
    }
    return list_of(bodies, n);
}

/* ---- One call and all that is to be held of it ---- */

static void expect_step(text t, uint8_t mode, size_t place, uint64_t want, tasgilfrem_token token)
{
    size_t i, written = is_answered(want) && tasgilfrem_form_of(want) == TASGILFREM_STEP_TOKEN ? sizeof token : 0;
    for (i = 0; i < 2; i++) {
        uint8_t *lent = lend_copy(TEXT, t.bytes, t.len), *out = lend_painted(sizeof token, paints[i]);
        uint64_t answer = tasgilfrem_step_token(lent, t.len, mode, place, (tasgilfrem_token *)(void *)out);
        check(answer == want, "step", "answer", t.bytes, t.len);
        check(is_painted(out, sizeof token, &token, written, paints[i]), "step", "token", t.bytes, t.len);
        check(memcmp(lent, t.bytes, t.len) == 0, "step", "text", t.bytes, t.len);
    }
}

static void parse_in(text t, uint8_t mode, size_t ncells, uint64_t want, const tasgilfrem_node *nodes, size_t count, const char *what)
{
    size_t i, bytes = ncells * sizeof(uint16_t), written = is_answered(want) ? count * sizeof(tasgilfrem_node) : 0;
    for (i = 0; i < 2; i++) {
        uint8_t *lent = lend_copy(TEXT, t.bytes, t.len), *out = lend_painted(bytes, paints[i]);
        uint64_t answer = tasgilfrem_parse(lent, t.len, mode, (uint16_t *)(void *)out, ncells);
        check(answer == want, "parse", what, t.bytes, t.len);
        check(is_painted(out, bytes, nodes, written, paints[i]), "parse: nodes", what, t.bytes, t.len);
        check(memcmp(lent, t.bytes, t.len) == 0, "parse: text", what, t.bytes, t.len);
    }
}

/* With more room than is needed, just enough, too little and none. */
static void expect_read(text t, uint8_t mode, const tasgilfrem_node *nodes, size_t count)
{
    uint64_t want = answered(0, count), small = with_number(TASGILFREM_SMALL, count);
    parse_in(t, mode, 16 * 127, want, nodes, count, "room for all");
    parse_in(t, mode, 16 * 127 + 5, want, nodes, count, "room for more");
    parse_in(t, mode, 16 * count, want, nodes, count, "just enough room");
    parse_in(t, mode, 16 * count + 15, want, nodes, count, "no whole record more");
    parse_in(t, mode, 16 * count - 1, small, nodes, count, "a cell too few");
    parse_in(t, mode, 0, small, nodes, count, "no cell");
    check(tasgilfrem_parse((const uint8_t *)t.bytes, t.len, mode, NULL, 0) == small, "parse", "no cell at NULL", t.bytes, t.len);
}

/* A refusal does not look at the room. */
static void expect_unread(text t, uint8_t mode, uint64_t want)
{
    parse_in(t, mode, 16 * 127, want, NULL, 0, "refusal");
    parse_in(t, mode, 0, want, NULL, 0, "refusal with no room");
}

static void canonical_in(text t, size_t room, uint64_t want, text written, const char *what)
{
    size_t i;
    for (i = 0; i < 2; i++) {
        uint8_t *lent = lend_copy(TEXT, t.bytes, t.len), *out = lend_painted(room, paints[i]);
        uint64_t answer = tasgilfrem_canonical(lent, t.len, out, room);
        check(answer == want, "canonical", what, t.bytes, t.len);
        check(is_painted(out, room, written.bytes, is_answered(want) ? written.len : 0, paints[i]), "canonical: buffer", what, t.bytes, t.len);
        check(memcmp(lent, t.bytes, t.len) == 0, "canonical: text", what, t.bytes, t.len);
    }
}

static void expect_written(text t, text canonical)
{
    uint64_t want = answered(TASGILFREM_CANONICAL_WRITTEN, canonical.len);
    canonical_in(t, TASGILFREM_CANONICAL_MAX, want, canonical, "room for all");
    canonical_in(t, canonical.len + 1, want, canonical, "a byte more");
    canonical_in(t, canonical.len, want, canonical, "just enough room");
    if (canonical.len > 0) {
        canonical_in(t, canonical.len - 1, with_number(TASGILFREM_NO_ROOM, canonical.len), canonical, "a byte too few");
        canonical_in(t, 0, with_number(TASGILFREM_NO_ROOM, canonical.len), canonical, "no room");
    }
}

static void expect_unchanged(text t)
{
    canonical_in(t, TASGILFREM_CANONICAL_MAX, 0, said(""), "unchanged");
    canonical_in(t, 0, 0, said(""), "unchanged, no room");
}

static void expect_no_canonical(text t, uint64_t want)
{
    canonical_in(t, TASGILFREM_CANONICAL_MAX, want, said(""), "refusal");
    canonical_in(t, 0, want, said(""), "refusal with no room");
}

static void expect_list(text file, uint64_t want, const char *what)
{
    uint8_t *lent = lend_copy(LIST, file.bytes, file.len);
    check(tasgilfrem_list(lent, file.len) == want, "list", what, what, strlen(what));
    check(memcmp(lent, file.bytes, file.len) == 0, "list: file", what, what, strlen(what));
}

/* An entry's body as the library hands it out, byte for byte, and that it is a part of the file. */
static void expect_entry(text file, size_t index, const char *body)
{
    uint8_t *lent = lend_copy(LIST, file.bytes, file.len);
    uint64_t answer = tasgilfrem_entry(lent, file.len, index);
    size_t offset = tasgilfrem_offset_of(answer), len = tasgilfrem_length_of(answer);
    if (body == NULL) {
        check(answer == 0, "entry", "none", file.bytes + 1, 0);
        return;
    }
    check(is_answered(answer) && tasgilfrem_form_of(answer) == TASGILFREM_ENTRY_BODY, "entry", "form", body, strlen(body));
    check(len == strlen(body) && offset + len <= file.len && memcmp(lent + offset, body, len) == 0, "entry", "body", body, strlen(body));
}

static void expect_choice(text t, uint8_t mode, text file, uint64_t budget, uint64_t want, uint64_t out_want)
{
    size_t i;
    for (i = 0; i < 2; i++) {
        uint8_t *lent = lend_copy(TEXT, t.bytes, t.len), *list = lend_copy(LIST, file.bytes, file.len), *out = lend_painted(8, paints[i]);
        uint64_t answer = tasgilfrem_choice(lent, t.len, mode, list, file.len, budget, (uint64_t *)(void *)out);
        check(answer == want, "choice", "answer", t.bytes, t.len);
        check(is_painted(out, 8, &out_want, is_answered(want) ? 8 : 0, paints[i]), "choice", "out", t.bytes, t.len);
        check(memcmp(lent, t.bytes, t.len) == 0 && memcmp(list, file.bytes, file.len) == 0, "choice", "text or list", t.bytes, t.len);
    }
}

static void expect_listing(text t, uint8_t mode, text file, uint64_t cursor, uint64_t budget, uint64_t want, uint64_t mask, uint64_t next)
{
    uint64_t out_want[2];
    size_t i;
    out_want[0] = mask;
    out_want[1] = next;
    for (i = 0; i < 2; i++) {
        uint8_t *lent = lend_copy(TEXT, t.bytes, t.len), *list = lend_copy(LIST, file.bytes, file.len), *out = lend_painted(16, paints[i]);
        uint64_t answer = tasgilfrem_listing(lent, t.len, mode, list, file.len, cursor, budget, (uint64_t *)(void *)out);
        check(answer == want, "listing", "answer", t.bytes, t.len);
        check(is_painted(out, 16, out_want, is_answered(want) ? 16 : 0, paints[i]), "listing", "out", t.bytes, t.len);
        check(memcmp(lent, t.bytes, t.len) == 0 && memcmp(list, file.bytes, file.len) == 0, "listing", "text or list", t.bytes, t.len);
    }
}

static void expect_found(text t, uint8_t mode, text file, uint64_t want, const uint8_t *entries)
{
    size_t i;
    for (i = 0; i < 2; i++) {
        uint8_t *lent = lend_copy(TEXT, t.bytes, t.len), *list = lend_copy(LIST, file.bytes, file.len), *out = lend_painted(30, paints[i]);
        uint64_t answer = tasgilfrem_found(lent, t.len, mode, list, file.len, out);
        check(answer == want, "found", "answer", t.bytes, t.len);
        check(is_painted(out, 30, entries, is_answered(want) ? tasgilfrem_value_of(want) : 0, paints[i]), "found", "out", t.bytes, t.len);
        check(memcmp(lent, t.bytes, t.len) == 0 && memcmp(list, file.bytes, file.len) == 0, "found", "text or list", t.bytes, t.len);
    }
}

static void name_in(uint8_t part, size_t place, size_t room, uint64_t want, const char *name, const char *what)
{
    size_t i;
    for (i = 0; i < 2; i++) {
        uint8_t *out = lend_painted(room, paints[i]);
        uint64_t answer = tasgilfrem_name(part, place, out, room);
        check(answer == want, "name", what, name, strlen(name));
        check(is_painted(out, room, name, is_answered(want) ? strlen(name) : 0, paints[i]), "name: buffer", what, name, strlen(name));
    }
}

/* ---- Names ---- */

/* A name's place, looked for in the table as a caller sees it; 65535 where it is not there. */
static uint16_t place_of(uint8_t part, const char *name)
{
    uint16_t place;
    for (place = 0; place < 65535; place++) {
        uint8_t out[256];
        uint64_t answer = tasgilfrem_name(part, place, out, sizeof out);
        if (answer == 0)
            return 65535;
        if (tasgilfrem_value_of(answer) == strlen(name) && memcmp(out, name, strlen(name)) == 0)
            return place;
    }
    return 65535;
}

static void expect_name(uint8_t part, const char *name)
{
    uint16_t place = place_of(part, name);
    size_t len = strlen(name);
    check(place != 65535, "name", "listed", name, len);
    if (place == 65535)
        return;
    name_in(part, place, 256, answered(0, len), name, "room for all");
    name_in(part, place, len, answered(0, len), name, "just enough room");
    name_in(part, place, len - 1, with_number(TASGILFREM_SMALL, len), name, "a byte too few");
    name_in(part, place, 0, with_number(TASGILFREM_SMALL, len), name, "no room");
    check(tasgilfrem_name(part, place, NULL, 0) == with_number(TASGILFREM_SMALL, len), "name", "no room at NULL", name, len);
    if (part != 0)
        name_in(255, place, 256, answered(0, len), name, "any part but 0");
}

static void test_names(void)
{
    static const char *const licences[] = {
        "0BSD", "Apache-2.0", "BSD-2-Clause", "BSD-3-Clause", "BSL-1.0", "CC-BY-4.0", "CC0-1.0", "GPL-2.0", "GPL-2.0-only", "GPL-2.0-or-later",
        "GPL-3.0", "GPL-3.0-only", "GPL-3.0-or-later", "ISC", "LGPL-2.1", "LGPL-2.1-only", "LGPL-2.1-or-later", "LGPL-3.0", "LGPL-3.0-only",
        "LGPL-3.0-or-later", "MIT", "MPL-1.1", "MPL-2.0", "OFL-1.1", "Unicode-3.0", "Unlicense"};
    static const char *const exceptions[] = {"Bison-exception-2.2", "Classpath-exception-2.0", "Font-exception-2.0", "GCC-exception-3.1",
                                             "LLVM-exception"};
    size_t i;
    for (i = 0; i < sizeof licences / sizeof *licences; i++)
        expect_name(TASGILFREM_LICENCES, licences[i]);
    for (i = 0; i < sizeof exceptions / sizeof *exceptions; i++)
        expect_name(TASGILFREM_EXCEPTIONS, exceptions[i]);
    for (i = 0; i < 2; i++) {
        name_in((uint8_t)i, 65535, 64, 0, "", "no such name");
        name_in((uint8_t)i, SIZE_MAX, 64, 0, "", "no such name, the largest place");
        name_in((uint8_t)i, SIZE_MAX, 0, 0, "", "no such name, no room");
    }
}

/* ---- Nodes and tokens ---- */

static tasgilfrem_node joint(uint16_t kind)
{
    tasgilfrem_node n;
    memset(&n, 0, sizeof n);
    n.kind = kind;
    return n;
}

static tasgilfrem_node leaf(const char *name, uint16_t start, uint16_t end)
{
    tasgilfrem_node n = joint(TASGILFREM_NODE_LEAF);
    n.licence = place_of(TASGILFREM_LICENCES, name);
    n.start = start;
    n.end = end;
    return n;
}

static tasgilfrem_token token(uint16_t kind, uint16_t start, uint16_t end)
{
    tasgilfrem_token t;
    memset(&t, 0, sizeof t);
    t.kind = kind;
    t.start = start;
    t.end = end;
    t.next = end;
    return t;
}

static tasgilfrem_token no_token(void) { return token(0, 0, 0); }

/* ---- The worked texts ---- */

static void test_step(void)
{
    tasgilfrem_token t;
    uint64_t got = answered(TASGILFREM_STEP_TOKEN, 0), done = answered(TASGILFREM_STEP_DONE, 0);
    text all = said("(MIT+ AND LLVM-exception) / or with");

    expect_step(all, TASGILFREM_LAX, 0, got, token(TASGILFREM_TOKEN_OPEN, 0, 1));
    t = token(TASGILFREM_TOKEN_LICENCE, 1, 4);
    t.listed = place_of(TASGILFREM_LICENCES, "MIT");
    expect_step(all, TASGILFREM_LAX, 1, got, t);
    expect_step(all, TASGILFREM_LAX, 4, got, token(TASGILFREM_TOKEN_PLUS, 4, 5));
    expect_step(all, TASGILFREM_LAX, 5, got, token(TASGILFREM_TOKEN_AND, 6, 9));
    t = token(TASGILFREM_TOKEN_EXCEPTION, 10, 24);
    t.listed = place_of(TASGILFREM_EXCEPTIONS, "LLVM-exception");
    expect_step(all, TASGILFREM_LAX, 9, got, t);
    expect_step(all, TASGILFREM_LAX, 24, got, token(TASGILFREM_TOKEN_CLOSE, 24, 25));
    expect_step(all, TASGILFREM_LAX, 25, got, token(TASGILFREM_TOKEN_OR, 26, 27));
    expect_step(all, TASGILFREM_LAX, 27, got, token(TASGILFREM_TOKEN_OR, 28, 30));
    expect_step(all, TASGILFREM_LAX, 30, got, token(TASGILFREM_TOKEN_WITH, 31, 35));
    expect_step(all, TASGILFREM_LAX, 35, done, no_token());
    expect_step(all, TASGILFREM_LAX, 36, with_number(TASGILFREM_BAD_CURSOR, 36), no_token());
    expect_step(all, TASGILFREM_LAX, SIZE_MAX, with_number(TASGILFREM_BAD_CURSOR, (UINT64_C(1) << 56) - 1), no_token());
    expect_step(all, TASGILFREM_STRICT, 25, at(TASGILFREM_INVALID_CHARACTERS, 26, 35), no_token());

    t = token(TASGILFREM_TOKEN_LICENSEREF, 0, 27);
    t.has_document = 1;
    t.doc_start = 12;
    t.doc_end = 14;
    t.name_start = 26;
    t.name_end = 27;
    expect_step(said("DocumentRef-ab:LicenseRef-c"), TASGILFREM_STRICT, 0, got, t);
    t = token(TASGILFREM_TOKEN_ADDITIONREF, 1, 14);
    t.name_start = 13;
    t.name_end = 14;
    expect_step(said(" AdditionRef-x"), TASGILFREM_STRICT, 0, got, t);
    t = token(TASGILFREM_TOKEN_LICENSEREF, 0, 11);
    t.name_start = t.name_end = 11;
    expect_step(said("LicenseRef-"), TASGILFREM_STRICT, 0, got, t);
    t = token(TASGILFREM_TOKEN_UNKNOWN, 1, 4);
    t.name_start = 1;
    t.name_end = 4;
    expect_step(said(" foo"), TASGILFREM_UNKNOWN_TERMS, 0, got, t);
    expect_step(said(" foo"), TASGILFREM_LAX, 0, at(TASGILFREM_UNKNOWN_TERM, 1, 4), no_token());
    t = token(TASGILFREM_TOKEN_LICENCE, 0, 3);
    t.listed = place_of(TASGILFREM_LICENCES, "MIT");
    expect_step(said("mitMIT"), TASGILFREM_LAX, 0, got, t);
    expect_step(said(""), TASGILFREM_STRICT, 0, done, no_token());
    expect_step(said("\xE2\x80\x83\xC2\x85"), TASGILFREM_STRICT, 0, done, no_token());
    expect_step(said("MIT \xC3\xA9"), TASGILFREM_STRICT, 3, at(TASGILFREM_INVALID_CHARACTERS, 4, 6), no_token());
    expect_step(said("MIT \xC3\xA9"), TASGILFREM_STRICT, 5, with_number(TASGILFREM_BAD_CURSOR, 5), no_token());
    expect_step(said("MIT \xE9"), TASGILFREM_STRICT, 0, at(TASGILFREM_NOT_UTF8, 4, 5), no_token());
    expect_step(said("MIT  +"), TASGILFREM_STRICT, 3, at(TASGILFREM_SEPARATED_PLUS, 3, 5), no_token());
    expect_step(said("MIT  +"), TASGILFREM_STRICT, 4, at(TASGILFREM_SEPARATED_PLUS, 4, 5), no_token());
    expect_step(repeated("MIT", " ", 1022), TASGILFREM_STRICT, 0, at(TASGILFREM_TOO_LONG, 0, 0), no_token());
    check(tasgilfrem_step(NULL, 0, 0, 0, (uint16_t *)(void *)lend(OUT, 20)) == 0, "step", "an empty text at NULL", "", 0);
}

static void test_parse(void)
{
    tasgilfrem_node nodes[TASGILFREM_NODES_MAX];
    const tasgilfrem_node both = joint(TASGILFREM_NODE_AND), either = joint(TASGILFREM_NODE_OR);
    text t;
    size_t i;

    nodes[0] = leaf("MIT", 0, 3);
    nodes[1] = leaf("ISC", 7, 10);
    nodes[2] = leaf("0BSD", 14, 18);
    nodes[3] = nodes[4] = either;
    expect_read(said("MIT OR ISC OR 0BSD"), TASGILFREM_STRICT, nodes, 5);

    nodes[2] = leaf("0BSD", 15, 19);
    nodes[3] = both;
    nodes[4] = leaf("MPL-2.0", 23, 30);
    nodes[5] = nodes[6] = either;
    expect_read(said("MIT OR ISC AND 0BSD OR MPL-2.0"), TASGILFREM_STRICT, nodes, 7);

    nodes[0] = joint(TASGILFREM_NODE_LEAF);
    nodes[0].licence_form = TASGILFREM_LICENCE_REFERENCE;
    nodes[0].licence_name_start = nodes[0].licence_name_end = nodes[0].end = 11;
    expect_read(said("LicenseRef-"), TASGILFREM_STRICT, nodes, 1);

    nodes[0] = leaf("MPL-2.0", 1, 8);
    nodes[0].plus = 1;
    nodes[0].addition_form = TASGILFREM_ADDITION_LISTED;
    nodes[0].addition = place_of(TASGILFREM_EXCEPTIONS, "LLVM-exception");
    nodes[1] = joint(TASGILFREM_NODE_LEAF);
    nodes[1].licence_form = TASGILFREM_LICENCE_OF_DOCUMENT;
    nodes[1].licence_doc_start = 46;
    nodes[1].licence_doc_end = 47;
    nodes[1].licence_name_start = 59;
    nodes[1].licence_name_end = 60;
    nodes[1].addition_form = TASGILFREM_ADDITION_OF_DOCUMENT;
    nodes[1].addition_doc_start = 78;
    nodes[1].addition_doc_end = 79;
    nodes[1].addition_name_start = 92;
    nodes[1].addition_name_end = 93;
    nodes[1].start = 34;
    nodes[1].end = 60;
    nodes[2] = both;
    expect_read(said("(MPL-2.0+ WITH LLVM-exception AND DocumentRef-d:LicenseRef-e WITH DocumentRef-f:AdditionRef-g)"), TASGILFREM_STRICT, nodes, 3);

    nodes[0] = leaf("GPL-2.0-or-later", 0, 5);
    nodes[1] = joint(TASGILFREM_NODE_LEAF);
    nodes[1].licence_form = TASGILFREM_LICENCE_REFERENCE;
    nodes[1].licence_name_start = nodes[1].start = 7;
    nodes[1].licence_name_end = nodes[1].end = 10;
    nodes[1].addition_form = TASGILFREM_ADDITION_REFERENCE;
    nodes[1].addition_name_start = 16;
    nodes[1].addition_name_end = 19;
    nodes[2] = either;
    expect_read(said("gplv2+/foo WITH bar"), 31, nodes, 3);
    expect_read(said("gplv2+/foo WITH bar"), 255, nodes, 3);

    nodes[0] = leaf("MIT", 0, 3);
    expect_read(repeated("MIT", " ", 1021), TASGILFREM_STRICT, nodes, 1);
    expect_unread(repeated("MIT", " ", 1022), TASGILFREM_STRICT, at(TASGILFREM_TOO_LONG, 0, 0));

    for (i = 0; i < 64; i++) {
        nodes[i] = leaf("ISC", (uint16_t)(i * 8), (uint16_t)(i * 8 + 3));
        nodes[64 + i - (i > 0)] = both;
    }
    expect_read(repeated("ISC", " AND ISC", 63), TASGILFREM_STRICT, nodes, 127);
    expect_unread(repeated("ISC", " AND ISC", 64), TASGILFREM_STRICT, at(TASGILFREM_TOO_MANY_LEAVES, 512, 515));

    t = repeated("", "(", 32);
    add(&t, "MIT");
    nodes[0] = leaf("MIT", 32, 35);
    for (i = 0; i < 32; i++)
        add(&t, ")");
    expect_read(t, TASGILFREM_STRICT, nodes, 1);
    expect_unread(repeated("", "(", 33), TASGILFREM_STRICT, at(TASGILFREM_TOO_DEEP, 32, 33));

    expect_unread(said("MIT +"), TASGILFREM_STRICT, at(TASGILFREM_SEPARATED_PLUS, 3, 4));
    expect_unread(said("+"), TASGILFREM_STRICT, unexpected(TASGILFREM_MAY_LICENCE | TASGILFREM_MAY_OPEN, 0, 1));
    expect_unread(said(""), TASGILFREM_STRICT, at(TASGILFREM_EMPTY, 0, 0));
    expect_unread(said("  "), TASGILFREM_STRICT, at(TASGILFREM_EMPTY, 0, 2));
    expect_unread(said("((MIT"), TASGILFREM_STRICT, at(TASGILFREM_UNCLOSED_PARENS, 1, 2));
    expect_unread(said("MIT OR ISC)"), TASGILFREM_STRICT, at(TASGILFREM_UNOPENED_PARENS, 10, 11));
    expect_unread(said("mitMIT"), TASGILFREM_LAX,
                  unexpected(TASGILFREM_MAY_AND | TASGILFREM_MAY_OR | TASGILFREM_MAY_WITH | TASGILFREM_MAY_CLOSE | TASGILFREM_MAY_PLUS, 3, 6));
    expect_unread(said("MIT WITH"), TASGILFREM_STRICT, unexpected(TASGILFREM_MAY_ADDITION, 8, 8));
    expect_unread(said("MIT \xC3\xA9"), TASGILFREM_STRICT, at(TASGILFREM_INVALID_CHARACTERS, 4, 6));
    expect_unread(said("MIT \xE9"), TASGILFREM_STRICT, at(TASGILFREM_NOT_UTF8, 4, 5));
    expect_unread(said("MIT Or ISC"), TASGILFREM_LAX, at(TASGILFREM_UNKNOWN_TERM, 4, 6));
    expect_unread(said("GPL-2.0"), TASGILFREM_STRICT, at(TASGILFREM_DEPRECATED_LICENSE_ID, 0, 7));
    expect_unread(said("GPL-2.0-only+"), TASGILFREM_STRICT, at(TASGILFREM_GNU_NO_PLUS, 12, 13));
    expect_unread(said("GPL-2.0-or-later+"), TASGILFREM_LAX, at(TASGILFREM_GNU_PLUS_WITH_SUFFIX, 16, 17));
    check(tasgilfrem_parse(NULL, 0, 0, NULL, 0) == TASGILFREM_EMPTY, "parse", "an empty text at NULL", "", 0);
}

static void test_parse_nodes(void)
{
    tasgilfrem_node nodes[3];
    text t = said("MIT OR ISC");
    const uint8_t *bytes = (const uint8_t *)t.bytes;
    memset(nodes, 0xAA, sizeof nodes);
    check(tasgilfrem_parse_nodes(bytes, t.len, 0, nodes, 2) == with_number(TASGILFREM_SMALL, 3), "parse_nodes", "two nodes", t.bytes, t.len);
    check(is_painted((const uint8_t *)nodes, sizeof nodes, NULL, 0, 0xAA), "parse_nodes", "two nodes stay", t.bytes, t.len);
    check(tasgilfrem_parse_nodes(bytes, t.len, 0, nodes, 3) == answered(0, 3), "parse_nodes", "three nodes", t.bytes, t.len);
    check(nodes[1].kind == TASGILFREM_NODE_LEAF && nodes[1].licence == place_of(0, "ISC") && nodes[1].start == 7 && nodes[1].end == 10
              && nodes[2].kind == TASGILFREM_NODE_OR, "parse_nodes", "fields", t.bytes, t.len);
    check(tasgilfrem_parse_nodes(bytes, t.len, 0, NULL, 0) == with_number(TASGILFREM_SMALL, 3), "parse_nodes", "no node", t.bytes, t.len);
}

static void test_canonical(void)
{
    text t = repeated("", "/", 1024), long_one = said("GPL-2.0-or-later");
    size_t i;

    expect_written(said("GPL-3.0-or-later+"), said("GPL-3.0-or-later-or-later"));
    expect_written(said("apache with LLVM-exception/gpl-3.0+ and gplv2"),
                   said("Apache-2.0 WITH LLVM-exception OR GPL-3.0-or-later AND GPL-2.0-only"));
    expect_written(said("MIT MIT"), said("MITMIT"));
    expect_written(said(" "), said(""));
    expect_written(said("mit"), said("MIT"));
    expect_unchanged(said("MIT"));
    expect_unchanged(said(""));
    expect_unchanged(said("Apache-2.0 WITH LLVM-exception OR (MIT AND ISC)"));
    expect_written(t, repeated("", " OR ", 1024));
    t = said("gplv2+");
    for (i = 1; i < 52; i++) {
        add(&t, "/gplv2+");
        add(&long_one, " OR GPL-2.0-or-later");
    }
    expect_written(t, long_one);
    expect_no_canonical(repeated("", "/", 1025), at(TASGILFREM_TOO_LONG, 0, 0));
    expect_no_canonical(said("MIT \xE9"), at(TASGILFREM_NOT_UTF8, 4, 5));
    expect_no_canonical(said("MIT \xC3\xA9"), at(TASGILFREM_INVALID_CHARACTERS, 4, 6));
    expect_no_canonical(said("MIT foo"), at(TASGILFREM_UNKNOWN_TERM, 4, 7));
    expect_no_canonical(said("MIT +"), at(TASGILFREM_SEPARATED_PLUS, 3, 4));
    expect_no_canonical(said("+"), unexpected(TASGILFREM_MAY_LICENCE, 0, 1));
    check(tasgilfrem_canonical(NULL, 0, NULL, 0) == 0, "canonical", "an empty text at NULL", "", 0);
}

static void test_list(void)
{
    static const char *const three[] = {"MIT", "ISC", "0BSD"};
    static const char *const wide[] = {" MIT ", "Apache-2.0\nWITH\tLLVM-exception", "DocumentRef-d:LicenseRef-e WITH AdditionRef-f"};
    static const char *const bad[] = {"MIT", "MIT+"};
    static const char *const deprecated[] = {"GPL-2.0"};
    text list = list_of(three, 3), t, longest;
    static char names[64][201];
    const char *bodies[64];
    size_t i;

    expect_list(list, answered(0, 3), "MIT, ISC, 0BSD");
    for (i = 0; i < 3; i++)
        expect_entry(list, i, three[i]);
    expect_entry(list, 3, NULL);
    expect_entry(list, SIZE_MAX, NULL);
    t = list_of(wide, 3);
    expect_list(t, answered(0, 3), "white space, additions, references");
    for (i = 0; i < 3; i++)
        expect_entry(t, i, wide[i]);
    expect_list(list_of(three, 0), answered(0, 0), "an empty list");
    expect_entry(list_of(three, 0), 0, NULL);

    for (i = 0; i < 64; i++) {
        sprintf(names[i], "LicenseRef-%0189u", (unsigned)i);
        bodies[i] = names[i];
    }
    longest = list_of(bodies, 64);
    check(longest.len == TASGILFREM_LIST_MAX, "list", "the longest file", "", 0);
    expect_list(longest, answered(0, 64), "64 entries of 200 bytes");
    expect_entry(longest, 63, names[63]);
    expect_entry(longest, 64, NULL);

    t = said("");
    expect_list(t, with_number(TASGILFREM_BAD_LIST, TASGILFREM_BAD_CONTENTS), "no byte");
    expect_entry(t, 0, NULL);
    check(tasgilfrem_list(NULL, 0) == with_number(TASGILFREM_BAD_LIST, TASGILFREM_BAD_CONTENTS), "list", "no byte at NULL", "", 0);
    check(tasgilfrem_entry(NULL, 0, 0) == 0, "entry", "no byte at NULL", "", 0);
    t = longest;
    t.bytes[0] = 65;
    expect_list(t, with_number(TASGILFREM_BAD_LIST, TASGILFREM_BAD_CONTENTS), "65 entries");
    t = list;
    t.len = 12;
    expect_list(t, with_number(TASGILFREM_BAD_LIST, TASGILFREM_BAD_CONTENTS), "contents cut short");
    t = list;
    add(&t, "x");
    expect_list(t, with_number(TASGILFREM_BAD_LIST, TASGILFREM_BAD_AFTER), "a byte after the end");
    expect_entry(t, 0, NULL);
    t = list;
    t.len--;
    expect_list(t, with_number(TASGILFREM_BAD_LIST, 2), "the last body cut short");
    expect_entry(t, 0, NULL);
    t = list;
    t.bytes[5]++;
    expect_list(t, with_number(TASGILFREM_BAD_LIST, 1), "a gap");
    expect_list(list_of(bad, 2), with_number(TASGILFREM_BAD_LIST, 1), "a plus");
    expect_list(list_of(deprecated, 1), with_number(TASGILFREM_BAD_LIST, 0), "a deprecated name");
}

static void test_choice_and_listing(void)
{
    static const char *const three[] = {"MIT", "ISC", "0BSD"};
    static const char *const others[] = {"OFL-1.1", "0BSD", "0BSD", "MIT", "ISC"};
    static const uint8_t first_three[] = {0, 1, 2}, spread[] = {1, 3, 4};
    text list = list_of(three, 3), other = list_of(others, 5), t = said("(MIT AND ISC) OR 0BSD"), bad = list;
    const uint8_t strict = TASGILFREM_STRICT;
    const uint64_t found = answered(TASGILFREM_LISTING_FOUND, 0), paused = answered(1, 0), finished = answered(TASGILFREM_LISTING_FINISHED, 0);

    add(&bad, "x");
    expect_found(t, strict, list, answered(0, 3), first_three);
    expect_choice(t, strict, list, 8, 0, 3);
    expect_choice(t, strict, list, UINT64_MAX, 0, 3);
    expect_choice(t, strict, list, 3, 0, 3);
    expect_choice(t, strict, list, 2, paused, 3);
    expect_listing(t, strict, list, 1, 8, found, 3, 4);
    expect_listing(t, strict, list, 4, 8, found, 4, 5);
    expect_listing(t, strict, list, 5, 8, finished, 0, 8);
    expect_listing(t, strict, list, 8, UINT64_MAX, finished, 0, 8);
    expect_listing(t, strict, list, 1, 1, paused, 0, 2);
    expect_listing(t, strict, list, 2, 1, paused, 0, 3);
    expect_listing(t, strict, list, 3, 1, found, 3, 4);

    /* entries that no leaf needs, and repeated ones, have no bit */
    expect_found(t, strict, other, answered(0, 3), spread);
    expect_choice(t, strict, other, 8, 0, 1);

    expect_found(said("OFL-1.1"), strict, list, answered(0, 0), NULL);
    expect_choice(said("OFL-1.1"), strict, list, 8, TASGILFREM_REQUIREMENTS_UNMET, 0);
    expect_choice(said("OFL-1.1"), strict, list, 0, TASGILFREM_REQUIREMENTS_UNMET, 0);
    expect_listing(said("OFL-1.1"), strict, list, 1, 8, finished, 0, 1);
    expect_choice(t, strict, list, 0, TASGILFREM_NO_BUDGET, 0);
    expect_listing(t, strict, list, 1, 0, TASGILFREM_NO_BUDGET, 0, 0);
    expect_listing(t, strict, list, 0, 0, with_number(TASGILFREM_BAD_CURSOR, 0), 0, 0);
    expect_listing(t, strict, list, 9, 8, with_number(TASGILFREM_BAD_CURSOR, 9), 0, 0);
    expect_listing(t, strict, list, UINT64_MAX, 8, with_number(TASGILFREM_BAD_CURSOR, (UINT64_C(1) << 56) - 1), 0, 0);
    expect_found(t, strict, bad, with_number(TASGILFREM_BAD_LIST, TASGILFREM_BAD_AFTER), NULL);
    expect_choice(t, strict, bad, 8, with_number(TASGILFREM_BAD_LIST, TASGILFREM_BAD_AFTER), 0);
    expect_listing(t, strict, bad, 1, 8, with_number(TASGILFREM_BAD_LIST, TASGILFREM_BAD_AFTER), 0, 0);
    t = said("((MIT");
    expect_found(t, strict, bad, at(TASGILFREM_UNCLOSED_PARENS, 1, 2), NULL);
    expect_choice(t, strict, bad, 0, at(TASGILFREM_UNCLOSED_PARENS, 1, 2), 0);
    expect_listing(t, strict, bad, 0, 0, at(TASGILFREM_UNCLOSED_PARENS, 1, 2), 0, 0);
    t = said("MIT MIT");
    expect_choice(t, strict, list, 8, unexpected(0x7C, 4, 7), 0);
}

/* 30 found and 31, in a list of 64. */
static void test_limits(void)
{
    text list = list_of_references(64), most = references(30, " OR "), over = references(31, " OR "), all = references(30, " AND ");
    uint8_t entries[30];
    uint64_t k = with_number(TASGILFREM_TOO_MANY_REQUIREMENTS, 31), top = (UINT64_C(1) << 30) - 1;
    uint8_t i;

    for (i = 0; i < 30; i++)
        entries[i] = i;
    expect_found(most, TASGILFREM_STRICT, list, answered(0, 30), entries);
    expect_choice(most, TASGILFREM_STRICT, list, 1, 0, 1);
    expect_listing(most, TASGILFREM_STRICT, list, 3, 2, answered(TASGILFREM_LISTING_FOUND, 0), 4, 5);
    expect_choice(all, TASGILFREM_STRICT, list, 1000, answered(TASGILFREM_CHOICE_PAUSED, 0), 1001);
    expect_listing(all, TASGILFREM_STRICT, list, top, 1, answered(TASGILFREM_LISTING_FOUND, 0), top, top + 1);
    expect_listing(all, TASGILFREM_STRICT, list, top + 1, 1, answered(TASGILFREM_LISTING_FINISHED, 0), 0, top + 1);
    expect_listing(all, TASGILFREM_STRICT, list, top + 2, 1, with_number(TASGILFREM_BAD_CURSOR, top + 2), 0, 0);
    expect_found(over, TASGILFREM_STRICT, list, k, NULL);
    expect_choice(over, TASGILFREM_STRICT, list, 0, k, 0);
    expect_listing(over, TASGILFREM_STRICT, list, 0, 0, k, 0, 0);
}

/* The inline functions on numbers made by hand. */
static void test_answers(void)
{
    uint64_t six = UINT64_C(0x0003FF0003F57C06), place = UINT64_C(0xFFFFFFFFFFFFFF14), body = UINT64_C(0x0000C80032390100);
    check(tasgilfrem_status_of(six) == TASGILFREM_UNEXPECTED && tasgilfrem_set_of(six) == 0x7C && tasgilfrem_start_of(six) == 0x3F5
              && tasgilfrem_end_of(six) == 0x3FF && tasgilfrem_has_span(six) && !tasgilfrem_has_number(six), "answer", "a span and a set", "", 0);
    check(tasgilfrem_status_of(place) == TASGILFREM_BAD_CURSOR && tasgilfrem_number_of(place) == (UINT64_C(1) << 56) - 1
              && tasgilfrem_has_number(place) && !tasgilfrem_has_span(place), "answer", "a number", "", 0);
    check(tasgilfrem_form_of(body) == 1 && tasgilfrem_offset_of(body) == 0x3239 && tasgilfrem_length_of(body) == 200
              && tasgilfrem_value_of(answered(1, 4096)) == 4096, "answer", "a body and a value", "", 0);
    check(!tasgilfrem_has_span(0) && !tasgilfrem_has_number(0) && !tasgilfrem_has_number(19) && !tasgilfrem_has_number(21)
              && tasgilfrem_has_number(with_number(255, 1)), "answer", "what has neither", "", 0);
}

int main(void)
{
    make_arenas();
    test_answers();
    test_names();
    test_step();
    test_parse();
    test_parse_nodes();
    test_canonical();
    test_list();
    test_choice_and_listing();
    test_limits();
    printf("%u passed, %u failed\n", passed, failed);
    return failed > 0 || passed == 0;
}
