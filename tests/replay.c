/*
 * Answers questions of the program `answers` through the C interface: step, parse, canonical, list, entry, choice and listing, a line each. The
 * answers must be that program's, so `tests/linked` holds the library to all recorded ones.
 */
#include <stdio.h>
#include <stdlib.h>
#include <string.h>

#include "../include/tasgilfrem.h"

/* A question has at most 65,535 bytes; behind it stand a line feed and a NUL. */
#define LINE 65537
#define FIELDS 7

typedef struct {
    uint8_t bytes[LINE / 2];
    size_t len;
} bytes;

static void unhex(const char *hex, bytes *out)
{
    out->len = 0;
    for (; hex[0] != '\0' && hex[0] != '-'; hex += 2) {
        char pair[3] = {hex[0], hex[1], '\0'};
        out->bytes[out->len++] = (uint8_t)strtoul(pair, NULL, 16);
    }
}

static void print_hex(const uint8_t *at, size_t len)
{
    size_t i;
    if (len == 0)
        putchar('-');
    for (i = 0; i < len; i++)
        printf("%02x", at[i]);
}

static void print_name(uint8_t part, uint16_t place)
{
    uint8_t name[256];
    uint64_t answer = tasgilfrem_name(part, place, name, sizeof name);
    printf("%.*s", (int)tasgilfrem_value_of(answer), (const char *)name);
}

static void print_reference(int has_document, unsigned doc_start, unsigned doc_end, unsigned start, unsigned end)
{
    if (has_document)
        printf("%u..%u %u..%u", doc_start, doc_end, start, end);
    else
        printf("- %u..%u", start, end);
}

/* The number of a refusal. An answer has 56 bits for it; a larger cursor or place that was given is printed as it was given. */
static uint64_t whole(uint64_t answer, uint64_t given)
{
    const uint64_t most = (UINT64_C(1) << 56) - 1;
    return tasgilfrem_number_of(answer) == most && given > most ? given : tasgilfrem_number_of(answer);
}

/* Whether the answer is a refusal, which is then printed. */
static int refused(uint64_t answer, uint64_t given)
{
    static const char *const members[] = {"licence", "(", "AND", "OR", "WITH", ")", "+", "addition"};
    unsigned i, set = tasgilfrem_set_of(answer);
    const char *before = " ";
    if (tasgilfrem_status_of(answer) == TASGILFREM_ANSWERED)
        return 0;
    printf("refused %u", tasgilfrem_status_of(answer));
    if (tasgilfrem_has_number(answer))
        printf(" %llu", (unsigned long long)whole(answer, given));
    if (!tasgilfrem_has_span(answer))
        return 1;
    printf(" %lu..%lu", (unsigned long)tasgilfrem_start_of(answer), (unsigned long)tasgilfrem_end_of(answer));
    for (i = 0; i < 8; i++)
        if (set >> i & 1) {
            printf("%s%s", before, members[i]);
            before = ",";
        }
    return 1;
}

static void print_token(const tasgilfrem_token *t)
{
    static const char *const words[] = {"", "AND", "OR", "WITH", "+", "(", ")", "licence ", "exception ", "licenseref ", "additionref ", "unknown "};
    printf("token %s", words[t->kind]);
    switch (t->kind) {
    case TASGILFREM_TOKEN_LICENCE: print_name(TASGILFREM_LICENCES, t->listed); break;
    case TASGILFREM_TOKEN_EXCEPTION: print_name(TASGILFREM_EXCEPTIONS, t->listed); break;
    case TASGILFREM_TOKEN_LICENSEREF:
    case TASGILFREM_TOKEN_ADDITIONREF: print_reference(t->has_document, t->doc_start, t->doc_end, t->name_start, t->name_end); break;
    case TASGILFREM_TOKEN_UNKNOWN: printf("%u..%u", t->name_start, t->name_end); break;
    default: break;
    }
    printf(" %u..%u next %u", t->start, t->end, t->next);
}

static void step(uint8_t mode, size_t place, const bytes *text)
{
    tasgilfrem_token token;
    uint64_t answer = tasgilfrem_step_token(text->bytes, text->len, mode, place, &token);
    if (refused(answer, place))
        return;
    if (tasgilfrem_form_of(answer) == TASGILFREM_STEP_DONE)
        printf("done");
    else
        print_token(&token);
}

static void print_leaf(const tasgilfrem_node *n)
{
    printf("leaf ");
    if (n->licence_form == TASGILFREM_LICENCE_LISTED) {
        printf("listed ");
        print_name(TASGILFREM_LICENCES, n->licence);
    } else {
        printf("ref ");
        print_reference(n->licence_form == TASGILFREM_LICENCE_OF_DOCUMENT, n->licence_doc_start, n->licence_doc_end, n->licence_name_start,
                        n->licence_name_end);
    }
    printf(n->plus ? " + " : " - ");
    if (n->addition_form == TASGILFREM_ADDITION_NONE) {
        printf("none");
    } else if (n->addition_form == TASGILFREM_ADDITION_LISTED) {
        printf("listed ");
        print_name(TASGILFREM_EXCEPTIONS, n->addition);
    } else {
        printf("ref ");
        print_reference(n->addition_form == TASGILFREM_ADDITION_OF_DOCUMENT, n->addition_doc_start, n->addition_doc_end, n->addition_name_start,
                        n->addition_name_end);
    }
    printf(" %u..%u", n->start, n->end);
}

static void parse(uint8_t mode, const bytes *text)
{
    tasgilfrem_node nodes[TASGILFREM_NODES_MAX];
    uint64_t answer = tasgilfrem_parse_nodes(text->bytes, text->len, mode, nodes, TASGILFREM_NODES_MAX);
    size_t i, count = (size_t)tasgilfrem_value_of(answer);
    if (refused(answer, 0))
        return;
    printf("read %lu", (unsigned long)count);
    for (i = 0; i < count; i++) {
        printf(" | ");
        if (nodes[i].kind == TASGILFREM_NODE_LEAF)
            print_leaf(&nodes[i]);
        else
            printf(nodes[i].kind == TASGILFREM_NODE_AND ? "AND" : "OR");
    }
}

static void canonical(size_t room, const bytes *text)
{
    uint8_t out[TASGILFREM_CANONICAL_MAX];
    uint64_t answer;
    memset(out, 0xAA, sizeof out);
    answer = tasgilfrem_canonical(text->bytes, text->len, out, room);
    if (!refused(answer, 0)) {
        if (tasgilfrem_form_of(answer) == TASGILFREM_CANONICAL_UNCHANGED)
            printf("unchanged");
        else
            printf("written %lu", (unsigned long)tasgilfrem_value_of(answer));
    }
    putchar(' ');
    print_hex(out, room);
}

static void list(const bytes *file)
{
    uint64_t answer = tasgilfrem_list(file->bytes, file->len);
    if (!refused(answer, 0))
        printf("valid %lu", (unsigned long)tasgilfrem_value_of(answer));
}

static void entry(size_t index, const bytes *file)
{
    uint64_t answer = tasgilfrem_entry(file->bytes, file->len, index);
    if (tasgilfrem_form_of(answer) == TASGILFREM_ENTRY_NONE) {
        printf(answer == 0 ? "empty" : "an entry with more than nothing");
        return;
    }
    printf("part %lu ", (unsigned long)tasgilfrem_offset_of(answer));
    print_hex(file->bytes + tasgilfrem_offset_of(answer), tasgilfrem_length_of(answer));
}

static void choice(uint8_t mode, uint64_t budget, const bytes *text, const bytes *file)
{
    uint64_t out, answer = tasgilfrem_choice(text->bytes, text->len, mode, file->bytes, file->len, budget, &out);
    if (!refused(answer, 0))
        printf("%s %llu", tasgilfrem_form_of(answer) == TASGILFREM_CHOICE_MASK ? "mask" : "paused", (unsigned long long)out);
}

static void listing(uint8_t mode, uint64_t cursor, uint64_t budget, const bytes *text, const bytes *file)
{
    uint64_t out[2], answer = tasgilfrem_listing(text->bytes, text->len, mode, file->bytes, file->len, cursor, budget, out);
    if (refused(answer, cursor))
        return;
    if (tasgilfrem_form_of(answer) == TASGILFREM_LISTING_FOUND)
        printf("found %llu next %llu", (unsigned long long)out[0], (unsigned long long)out[1]);
    else
        printf("%s %llu", tasgilfrem_form_of(answer) == TASGILFREM_LISTING_PAUSED ? "paused" : "finished", (unsigned long long)out[1]);
}

static uint64_t number(const char *s) { return strtoull(s, NULL, 10); }

int main(void)
{
    static char line[LINE];
    static bytes text, file;
    while (fgets(line, sizeof line, stdin) != NULL) {
        char *field[FIELDS] = {NULL};
        int n = 0, searches;
        char *at = strtok(line, " \n");
        while (at != NULL && n < FIELDS) {
            field[n++] = at;
            at = strtok(NULL, " \n");
        }
        if (n < 2)
            return 2;
        searches = strcmp(field[0], "choice") == 0 || strcmp(field[0], "listing") == 0;
        unhex(field[searches ? n - 2 : n - 1], &text);
        unhex(field[n - 1], &file);
        if (strcmp(field[0], "step") == 0)
            step((uint8_t)number(field[1]), (size_t)number(field[2]), &text);
        else if (strcmp(field[0], "parse") == 0)
            parse((uint8_t)number(field[1]), &text);
        else if (strcmp(field[0], "canonical") == 0)
            canonical((size_t)number(field[1]), &text);
        else if (strcmp(field[0], "list") == 0)
            list(&file);
        else if (strcmp(field[0], "entry") == 0)
            entry((size_t)number(field[1]), &file);
        else if (strcmp(field[0], "choice") == 0)
            choice((uint8_t)number(field[1]), number(field[2]), &text, &file);
        else if (strcmp(field[0], "listing") == 0)
            listing((uint8_t)number(field[1]), number(field[2]), number(field[3]), &text, &file);
        else
            return 2;
        putchar('\n');
    }
    return 0;
}
