/*
 * print_task LIST PACK | print_task LIST --field FIELD: the notice slip of a pack.
 *
 * LIST is an accept list, a file of the licences that the shop's owner accepts. PACK is a text file with lines `name: ...` and `licence: ...`;
 * with --field the licence field is given as it stands. The field is read in LAX.
 * Exit status: 0 the pack is shipped and its slip printed, 1 it is refused and the reason printed, 2 wrong usage or a file that cannot be read.
 */
#include <stdio.h>
#include <string.h>

#include "../include/tasgilfrem.h"

/* How many sets a choice may examine: a bound on its time. */
#define BUDGET 1048576

#define PACK_MAX 8192

/* Bytes of someone else's buffer. */
typedef struct {
    const uint8_t *bytes;
    size_t len;
} part;

static part part_of(const char *text)
{
    part p = {(const uint8_t *)text, strlen(text)};
    return p;
}

/* Reads at most `room` bytes of a file. Answers how many, or -1 with a message. */
static long read_file(const char *path, uint8_t *out, size_t room)
{
    FILE *file = fopen(path, "rb");
    size_t n;
    int bad;
    if (file == NULL) {
        perror(path);
        return -1;
    }
    n = fread(out, 1, room, file);
    bad = ferror(file);
    if (bad)
        perror(path);
    fclose(file);
    return bad ? -1 : (long)n;
}

static int is_blank(uint8_t byte) { return byte == ' ' || byte == '\t' || byte == '\r'; }

static part trimmed(part p)
{
    while (p.len > 0 && is_blank(p.bytes[0])) {
        p.bytes++;
        p.len--;
    }
    while (p.len > 0 && is_blank(p.bytes[p.len - 1]))
        p.len--;
    return p;
}

/* What follows `key` on the first line that begins with it, without blanks around it; its bytes are NULL where there is no such line. */
static part line_of(part pack, const char *key)
{
    part none = {NULL, 0};
    size_t at = 0, key_len = strlen(key);
    while (at < pack.len) {
        const uint8_t *line = pack.bytes + at;
        const uint8_t *newline = memchr(line, '\n', pack.len - at);
        size_t len = newline == NULL ? pack.len - at : (size_t)(newline - line);
        if (len >= key_len && memcmp(line, key, key_len) == 0) {
            part found = {line + key_len, len - key_len};
            return trimmed(found);
        }
        at += len + 1;
    }
    return none;
}

/* A slip has no control characters: each is printed as a space. */
static void print(const char *heading, part text)
{
    size_t i;
    printf("%-10s", heading);
    for (i = 0; i < text.len; i++)
        putchar(text.bytes[i] < 0x20 || text.bytes[i] == 0x7F ? ' ' : text.bytes[i]);
    putchar('\n');
}

/* Marks a range of a text that was printed one line above. A character has one byte that does not look like 10xxxxxx. */
static void mark(part text, size_t start, size_t end)
{
    size_t i;
    printf("%-10s", "");
    for (i = 0; i < start; i++)
        if ((text.bytes[i] & 0xC0) != 0x80)
            putchar(' ');
    for (i = start; i < end; i++)
        if ((text.bytes[i] & 0xC0) != 0x80)
            putchar('^');
    if (start == end)
        putchar('^');
    putchar('\n');
}

static const char *sentence(unsigned status)
{
    switch (status) {
    case TASGILFREM_NOT_UTF8: return "the field is not UTF-8";
    case TASGILFREM_TOO_LONG: return "the field has more than 1,024 bytes";
    case TASGILFREM_INVALID_CHARACTERS: return "no licence, operator or parenthesis begins like this";
    case TASGILFREM_UNKNOWN_TERM: return "this is no licence that the terminal knows";
    case TASGILFREM_SEPARATED_PLUS: return "a + must stand right behind its licence";
    case TASGILFREM_UNEXPECTED: return "this may not stand here";
    case TASGILFREM_UNOPENED_PARENS: return "this parenthesis was never opened";
    case TASGILFREM_UNCLOSED_PARENS: return "this parenthesis is never closed";
    case TASGILFREM_EMPTY: return "the field is empty";
    case TASGILFREM_DEPRECATED_LICENSE_ID: return "this name is deprecated";
    case TASGILFREM_GNU_NO_PLUS: return "a GNU licence takes no +";
    case TASGILFREM_GNU_PLUS_WITH_SUFFIX: return "the licence says \"or later\" already";
    case TASGILFREM_UNKNOWN_LICENSE: return "the licence has no \"or later\" name";
    case TASGILFREM_TOO_MANY_LEAVES: return "this licence is the 65th, and 64 may stand in a field";
    case TASGILFREM_TOO_DEEP: return "this parenthesis is the 33rd open one, and 32 may be";
    case TASGILFREM_NO_ROOM: return "the canonical text needs so many bytes";
    case TASGILFREM_BAD_LIST: return "the accept list is wrong";
    case TASGILFREM_TOO_MANY_REQUIREMENTS: return "so many accepted licences stand in the field, and 30 may";
    case TASGILFREM_REQUIREMENTS_UNMET: return "the accepted licences do not cover it";
    case TASGILFREM_BAD_CURSOR: return "there is no such place";
    case TASGILFREM_NO_BUDGET: return "no set may be examined";
    default: return "there is not enough room for the answer";
    }
}

static void print_expected(unsigned set)
{
    static const char *const members[] = {"a licence", "(", "AND", "OR", "WITH", ")", "+", "an addition"};
    unsigned i;
    const char *before = "";
    printf("%-10s", "expected");
    for (i = 0; i < 8; i++)
        if (set >> i & 1) {
            printf("%s%s", before, members[i]);
            before = ", ";
        }
    putchar('\n');
}

/* Prints a refusal of the field or of the list: number, sentence and place. */
static int refused(part field, uint64_t answer)
{
    unsigned status = tasgilfrem_status_of(answer);
    if (tasgilfrem_has_span(answer)) {
        size_t start = tasgilfrem_start_of(answer), end = tasgilfrem_end_of(answer);
        const char *why = status == TASGILFREM_UNEXPECTED && start == end ? "the field may not end here" : sentence(status);
        /* what is not UTF-8 or has no end cannot be printed on a line and marked */
        if (status != TASGILFREM_NOT_UTF8 && status != TASGILFREM_TOO_LONG) {
            print("licence", field);
            mark(field, start, end);
        }
        printf("%-10s%u at %lu..%lu: %s\n", "refused", status, (unsigned long)start, (unsigned long)end, why);
        if (status == TASGILFREM_UNEXPECTED)
            print_expected(tasgilfrem_set_of(answer));
    } else if (tasgilfrem_has_number(answer)) {
        printf("%-10s%u, %lu: %s\n", "refused", status, (unsigned long)tasgilfrem_number_of(answer), sentence(status));
    } else {
        printf("%-10s%u: %s\n", "refused", status, sentence(status));
    }
    return 1;
}

/* Prints the body of each list entry that a mask has. */
static uint64_t print_shipped(part field, part list, uint64_t mask)
{
    uint8_t entries[TASGILFREM_FOUND_MAX];
    uint64_t answer = tasgilfrem_found(field.bytes, field.len, TASGILFREM_LAX, list.bytes, list.len, entries);
    size_t bit, found = (size_t)tasgilfrem_value_of(answer);
    const char *heading = "ships as";
    if (tasgilfrem_status_of(answer) != TASGILFREM_ANSWERED)
        return answer;
    for (bit = 0; bit < found; bit++)
        if (mask >> bit & 1) {
            uint64_t entry = tasgilfrem_entry(list.bytes, list.len, entries[bit]);
            part body = {list.bytes + tasgilfrem_offset_of(entry), tasgilfrem_length_of(entry)};
            print(heading, body);
            heading = "";
        }
    return answer;
}

/* The canonical text, in `room` where it differs from the field. */
static uint64_t canonical_of(part field, uint8_t *room, part *canonical)
{
    uint64_t answer = tasgilfrem_canonical(field.bytes, field.len, room, TASGILFREM_CANONICAL_MAX);
    *canonical = field;
    if (tasgilfrem_status_of(answer) == TASGILFREM_ANSWERED && tasgilfrem_form_of(answer) == TASGILFREM_CANONICAL_WRITTEN) {
        canonical->bytes = room;
        canonical->len = (size_t)tasgilfrem_value_of(answer);
    }
    return answer;
}

/* The print task: exit status 0 or 1. */
static int print_slip(part name, part field, part list)
{
    static tasgilfrem_node nodes[TASGILFREM_NODES_MAX];
    static uint8_t room[TASGILFREM_CANONICAL_MAX];
    part canonical;
    uint64_t answer, mask;

    print("pack", name);
    answer = tasgilfrem_list(list.bytes, list.len);
    if (tasgilfrem_status_of(answer) != TASGILFREM_ANSWERED)
        return refused(field, answer);
    answer = tasgilfrem_parse_nodes(field.bytes, field.len, TASGILFREM_LAX, nodes, TASGILFREM_NODES_MAX);
    if (tasgilfrem_status_of(answer) != TASGILFREM_ANSWERED)
        return refused(field, answer);
    answer = canonical_of(field, room, &canonical);
    if (tasgilfrem_status_of(answer) != TASGILFREM_ANSWERED)
        return refused(field, answer);
    print("licence", canonical);
    answer = tasgilfrem_choice(field.bytes, field.len, TASGILFREM_LAX, list.bytes, list.len, BUDGET, &mask);
    if (tasgilfrem_status_of(answer) != TASGILFREM_ANSWERED)
        return refused(field, answer);
    if (tasgilfrem_form_of(answer) == TASGILFREM_CHOICE_PAUSED) {
        printf("%-10snone of the first %d sets covers it\n", "refused", BUDGET);
        return 1;
    }
    answer = print_shipped(field, list, mask);
    return tasgilfrem_status_of(answer) == TASGILFREM_ANSWERED ? 0 : refused(field, answer);
}

int main(int argc, char **argv)
{
    /* One byte more than any valid list has, and any pack: so a longer file is refused as it would be whole. */
    static uint8_t list_bytes[TASGILFREM_LIST_MAX + 1], pack_bytes[PACK_MAX + 1];
    part list = {list_bytes, 0}, pack = {pack_bytes, 0}, name, field;
    int is_field = argc == 4 && strcmp(argv[2], "--field") == 0;
    long n;

    if (argc != 3 && !is_field) {
        fputs("usage: print_task LIST PACK | print_task LIST --field FIELD\n", stderr);
        return 2;
    }
    n = read_file(argv[1], list_bytes, sizeof list_bytes);
    if (n < 0)
        return 2;
    list.len = (size_t)n;
    if (is_field)
        return print_slip(part_of("(none)"), part_of(argv[3]), list);

    n = read_file(argv[2], pack_bytes, sizeof pack_bytes);
    if (n < 0)
        return 2;
    pack.len = (size_t)n;
    name = line_of(pack, "name:");
    field = line_of(pack, "licence:");
    if (pack.len > PACK_MAX || name.bytes == NULL || field.bytes == NULL) {
        fprintf(stderr, "%s: no pack: it has lines `name: ...` and `licence: ...`, and at most %d bytes\n", argv[2], PACK_MAX);
        return 2;
    }
    return print_slip(name, field, list);
}
