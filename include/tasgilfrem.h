/*
 * tasgilfrem.h: SPDX licence expressions on the terminal. The C interface of libterminal.a, which `tools/library` makes, for x86-64.
 *
 * What holds of every function:
 *  - It takes any bytes, any lengths, any mode and any number. There is no call that it is not made for.
 *  - What it is lent it uses during the call and never after it. It keeps no pointer.
 *  - It reads what it is lent as const, and writes into what it is lent for an answer and nowhere else.
 *  - What is written into must not overlap what is read, and must be aligned as its type is. Two things that are only read may overlap.
 *  - The pointer of what has length 0 may be anything, NULL too. Any other pointer must have as many elements behind it as is said.
 *  - It answers one number, which the functions with `_of` take apart. Where the status is not 0, no lent byte has changed.
 *  - It has no heap, no global state and no lock. It is reentrant: interrupts and threads may call it at the same time, each with its own `out`.
 *  - It ends, and takes at most 24 KiB of stack. `tools/sizes` prints how much.
 *  - It asks the linker for memcpy, memset and their kind, and for nothing else.
 *
 * Places are counted in bytes from 0, in the caller's own text. A range `a..b` has the bytes from a up to, and without, b.
 *
 * Document 01, which is cited here, has the exact rules.
 */
#ifndef TASGILFREM_H
#define TASGILFREM_H

#include <stddef.h>
#include <stdint.h>

#ifdef __cplusplus
extern "C" {
#endif

/* A fact that the compiler checks. C99 has no word for it: there an array of -1 elements is refused. */
#if defined(__cplusplus) && __cplusplus >= 201103L
#define TASGILFREM_FACT(name, fact) static_assert(fact, #name)
#elif defined(__STDC_VERSION__) && __STDC_VERSION__ >= 201112L
#define TASGILFREM_FACT(name, fact) _Static_assert(fact, #name)
#else
#define TASGILFREM_FACT(name, fact) typedef char tasgilfrem_fact_##name[(fact) ? 1 : -1]
#endif

/* ---- Limits ---- */

enum tasgilfrem_limit {
    TASGILFREM_TEXT_MAX = 1024,       /* bytes of a text; a longer one is refused with 2 */
    TASGILFREM_LEAVES_MAX = 64,       /* licences of an expression, repeated ones counted; else 14 */
    TASGILFREM_NODES_MAX = 127,       /* nodes of an expression: 64 leaves and 63 operators */
    TASGILFREM_DEPTH_MAX = 32,        /* parentheses open at once; else 15 */
    TASGILFREM_CANONICAL_FACTOR = 4,  /* a canonical text is at most so many times as long as the text */
    TASGILFREM_CANONICAL_MAX = 4096,  /* so a buffer of this size never gets 16 */
    TASGILFREM_ENTRIES_MAX = 64,      /* entries of a list */
    TASGILFREM_ENTRY_MAX = 200,       /* bytes of an entry's body */
    TASGILFREM_LIST_MAX = 13057,      /* bytes of a list file: count, contents and bodies */
    TASGILFREM_FOUND_MAX = 30,        /* licensees found in a text; else 18 */
    TASGILFREM_TOKEN_CELLS = 10,      /* 16-bit numbers of a token */
    TASGILFREM_NODE_CELLS = 16        /* 16-bit numbers of a node */
};

/* ---- Modes ---- */

/* Flags, to be joined by `|`. Bits above them are not looked at. */
enum tasgilfrem_mode {
    TASGILFREM_SLASH_AS_OR = 1,        /* `/` is OR */
    TASGILFREM_IMPRECISE_NAMES = 2,    /* `apache`, `gplv2` and their kind are licences */
    TASGILFREM_PLUS_ON_GNU = 4,        /* `GPL-2.0+` is `GPL-2.0-or-later` */
    TASGILFREM_DEPRECATED_NAMES = 8,   /* `GPL-2.0` is a licence */
    TASGILFREM_UNKNOWN_TERMS = 16,     /* any run of letters, digits, `-`, `.` and `:` is a licence or an addition */
    TASGILFREM_STRICT = 0,             /* SPDX as it is written down */
    TASGILFREM_LAX = 15                /* all but unknown terms */
};

/* ---- The status of an answer ---- */

/* 0, a refusal's number in document 01, or 255. In brackets: what the answer says besides. */
enum tasgilfrem_status {
    TASGILFREM_ANSWERED = 0,                /* (form, value) */
    TASGILFREM_NOT_UTF8 = 1,                /* (span) one byte, where the first ill-formed sequence starts */
    TASGILFREM_TOO_LONG = 2,                /* (span 0..0) the text has over 1,024 bytes */
    TASGILFREM_INVALID_CHARACTERS = 3,      /* (span) from a character that no token begins with to the end */
    TASGILFREM_UNKNOWN_TERM = 4,            /* (span) a run that is no licence, addition or operator */
    TASGILFREM_SEPARATED_PLUS = 5,          /* (span) the white space before a `+` */
    TASGILFREM_UNEXPECTED = 6,              /* (span, set) a token that may not follow, or the end where the text may not end */
    TASGILFREM_UNOPENED_PARENS = 7,         /* (span) a `)` that has no partner */
    TASGILFREM_UNCLOSED_PARENS = 8,         /* (span) the innermost `(` that is open at the end */
    TASGILFREM_EMPTY = 9,                   /* (span) the whole text, which has no token */
    TASGILFREM_DEPRECATED_LICENSE_ID = 10,  /* (span) a deprecated name, and the mode has none */
    TASGILFREM_GNU_NO_PLUS = 11,            /* (span) a `+` on a GNU name, and the mode has none */
    TASGILFREM_GNU_PLUS_WITH_SUFFIX = 12,   /* (span) a `+` on a GNU name that ends in "-or-later" */
    TASGILFREM_UNKNOWN_LICENSE = 13,        /* (span) a `+` on a GNU name that has no "-or-later" name */
    TASGILFREM_TOO_MANY_LEAVES = 14,        /* (span) the 65th licence */
    TASGILFREM_TOO_DEEP = 15,               /* (span) the 33rd open parenthesis */
    TASGILFREM_NO_ROOM = 16,                /* (number) the length of the canonical text, which the buffer has no room for */
    TASGILFREM_BAD_LIST = 17,               /* (number) the entry of the list file that is wrong, or one of the two below */
    TASGILFREM_TOO_MANY_REQUIREMENTS = 18,  /* (number) how many licensees are found: more than 30 */
    TASGILFREM_REQUIREMENTS_UNMET = 19,     /* () all found licensees together do not satisfy the expression */
    TASGILFREM_BAD_CURSOR = 20,             /* (number) the cursor or place that was given; 2^56 - 1 where it is larger */
    TASGILFREM_NO_BUDGET = 21,              /* () a budget of 0 */
    TASGILFREM_SMALL = 255                  /* (number) what was lent is too small: so many records or bytes are needed */
};

/* Numbers of TASGILFREM_BAD_LIST that are no entry's. */
enum tasgilfrem_bad_list {
    TASGILFREM_BAD_CONTENTS = 255,  /* the count is over 64, or the contents are cut short */
    TASGILFREM_BAD_AFTER = 254      /* bytes stand after the last body */
};

/* What may stand where TASGILFREM_UNEXPECTED is given: members of its set. */
enum tasgilfrem_member {
    TASGILFREM_MAY_LICENCE = 1,
    TASGILFREM_MAY_OPEN = 2,
    TASGILFREM_MAY_AND = 4,
    TASGILFREM_MAY_OR = 8,
    TASGILFREM_MAY_WITH = 16,
    TASGILFREM_MAY_CLOSE = 32,
    TASGILFREM_MAY_PLUS = 64,
    TASGILFREM_MAY_ADDITION = 128
};

/* ---- An answer, taken apart ---- */

/* One of enum tasgilfrem_status. */
static inline unsigned tasgilfrem_status_of(uint64_t answer) { return (unsigned)(answer & 0xFF); }

/* Whether the answer is a refusal with a span: 1 to 15. */
static inline int tasgilfrem_has_span(uint64_t answer)
{
    return tasgilfrem_status_of(answer) >= TASGILFREM_NOT_UTF8 && tasgilfrem_status_of(answer) <= TASGILFREM_TOO_DEEP;
}

/* Whether the answer has a number: 16, 17, 18, 20 and 255. */
static inline int tasgilfrem_has_number(uint64_t answer)
{
    switch (tasgilfrem_status_of(answer)) {
    case TASGILFREM_NO_ROOM:
    case TASGILFREM_BAD_LIST:
    case TASGILFREM_TOO_MANY_REQUIREMENTS:
    case TASGILFREM_BAD_CURSOR:
    case TASGILFREM_SMALL: return 1;
    default: return 0;
    }
}

/* Of a refusal with a span: members of enum tasgilfrem_member, and 0 unless the status is TASGILFREM_UNEXPECTED. */
static inline unsigned tasgilfrem_set_of(uint64_t answer) { return (unsigned)(answer >> 8 & 0xFF); }

/* Of a refusal with a span: where it starts. */
static inline size_t tasgilfrem_start_of(uint64_t answer) { return (size_t)(answer >> 16 & 0xFFFFFF); }

/* Of a refusal with a span: where it ends. */
static inline size_t tasgilfrem_end_of(uint64_t answer) { return (size_t)(answer >> 40); }

/* Of a status with a number: that number. */
static inline uint64_t tasgilfrem_number_of(uint64_t answer) { return answer >> 8; }

/* Of status 0: which of the function's answers it is. */
static inline unsigned tasgilfrem_form_of(uint64_t answer) { return (unsigned)(answer >> 8 & 0xFF); }

/* Of status 0: its value. */
static inline uint64_t tasgilfrem_value_of(uint64_t answer) { return answer >> 16; }

/* Of tasgilfrem_entry's answer: where in the file the body starts. */
static inline size_t tasgilfrem_offset_of(uint64_t answer) { return (size_t)(answer >> 16 & 0xFFFFFF); }

/* Of tasgilfrem_entry's answer: how many bytes the body has; 0 where there is none. */
static inline size_t tasgilfrem_length_of(uint64_t answer) { return (size_t)(answer >> 40); }

/* ---- Tokens ---- */

enum tasgilfrem_token_kind {
    TASGILFREM_TOKEN_AND = 1,
    TASGILFREM_TOKEN_OR = 2,
    TASGILFREM_TOKEN_WITH = 3,
    TASGILFREM_TOKEN_PLUS = 4,
    TASGILFREM_TOKEN_OPEN = 5,
    TASGILFREM_TOKEN_CLOSE = 6,
    TASGILFREM_TOKEN_LICENCE = 7,
    TASGILFREM_TOKEN_EXCEPTION = 8,
    TASGILFREM_TOKEN_LICENSEREF = 9,
    TASGILFREM_TOKEN_ADDITIONREF = 10,
    TASGILFREM_TOKEN_UNKNOWN = 11
};

/* What a field does not apply to is 0. */
typedef struct tasgilfrem_token {
    uint16_t kind;          /* one of enum tasgilfrem_token_kind */
    uint16_t listed;        /* a licence's place among the licences, an exception's among the exceptions */
    uint16_t has_document;  /* whether a reference has a document part: 0 or 1 */
    uint16_t doc_start;     /* the document part's name, without its prefix; it may be empty */
    uint16_t doc_end;
    uint16_t name_start;    /* a reference's name, without its prefix; an unknown term's run */
    uint16_t name_end;
    uint16_t start;         /* the token's own range */
    uint16_t end;
    uint16_t next;          /* the place to step from next */
} tasgilfrem_token;

TASGILFREM_FACT(token_size, sizeof(tasgilfrem_token) == TASGILFREM_TOKEN_CELLS * sizeof(uint16_t));
TASGILFREM_FACT(token_kind, offsetof(tasgilfrem_token, kind) == 0);
TASGILFREM_FACT(token_listed, offsetof(tasgilfrem_token, listed) == 2);
TASGILFREM_FACT(token_has_document, offsetof(tasgilfrem_token, has_document) == 4);
TASGILFREM_FACT(token_doc_start, offsetof(tasgilfrem_token, doc_start) == 6);
TASGILFREM_FACT(token_doc_end, offsetof(tasgilfrem_token, doc_end) == 8);
TASGILFREM_FACT(token_name_start, offsetof(tasgilfrem_token, name_start) == 10);
TASGILFREM_FACT(token_name_end, offsetof(tasgilfrem_token, name_end) == 12);
TASGILFREM_FACT(token_start, offsetof(tasgilfrem_token, start) == 14);
TASGILFREM_FACT(token_end, offsetof(tasgilfrem_token, end) == 16);
TASGILFREM_FACT(token_next, offsetof(tasgilfrem_token, next) == 18);

/* ---- Nodes ---- */

enum tasgilfrem_node_kind { TASGILFREM_NODE_LEAF = 1, TASGILFREM_NODE_AND = 2, TASGILFREM_NODE_OR = 3 };

enum tasgilfrem_licence_form {
    TASGILFREM_LICENCE_LISTED = 0,
    TASGILFREM_LICENCE_REFERENCE = 1,    /* a LicenseRef, or an unknown term */
    TASGILFREM_LICENCE_OF_DOCUMENT = 2   /* a LicenseRef with a document part */
};

enum tasgilfrem_addition_form {
    TASGILFREM_ADDITION_NONE = 0,
    TASGILFREM_ADDITION_LISTED = 1,
    TASGILFREM_ADDITION_REFERENCE = 2,   /* an AdditionRef, or an unknown term */
    TASGILFREM_ADDITION_OF_DOCUMENT = 3  /* an AdditionRef with a document part */
};

/* What a field does not apply to is 0; of AND and OR that is all but the kind. */
typedef struct tasgilfrem_node {
    uint16_t kind;                 /* one of enum tasgilfrem_node_kind */
    uint16_t licence_form;         /* one of enum tasgilfrem_licence_form */
    uint16_t licence;              /* a listed licence's place among the licences */
    uint16_t licence_doc_start;    /* a reference's document part, without its prefix; it may be empty */
    uint16_t licence_doc_end;
    uint16_t licence_name_start;   /* a reference's name, without its prefix; it may be empty */
    uint16_t licence_name_end;
    uint16_t plus;                 /* whether a `+` follows: 0 or 1; a GNU name becomes its "-or-later" name instead */
    uint16_t addition_form;        /* one of enum tasgilfrem_addition_form */
    uint16_t addition;             /* a listed addition's place among the exceptions */
    uint16_t addition_doc_start;   /* as for the licence */
    uint16_t addition_doc_end;
    uint16_t addition_name_start;
    uint16_t addition_name_end;
    uint16_t start;                /* the range of the licence token, without its `+` and its addition */
    uint16_t end;
} tasgilfrem_node;

TASGILFREM_FACT(node_size, sizeof(tasgilfrem_node) == TASGILFREM_NODE_CELLS * sizeof(uint16_t));
TASGILFREM_FACT(node_array, sizeof(tasgilfrem_node[2]) == 2 * TASGILFREM_NODE_CELLS * sizeof(uint16_t));
TASGILFREM_FACT(node_kind, offsetof(tasgilfrem_node, kind) == 0);
TASGILFREM_FACT(node_licence_form, offsetof(tasgilfrem_node, licence_form) == 2);
TASGILFREM_FACT(node_licence, offsetof(tasgilfrem_node, licence) == 4);
TASGILFREM_FACT(node_licence_doc_start, offsetof(tasgilfrem_node, licence_doc_start) == 6);
TASGILFREM_FACT(node_licence_doc_end, offsetof(tasgilfrem_node, licence_doc_end) == 8);
TASGILFREM_FACT(node_licence_name_start, offsetof(tasgilfrem_node, licence_name_start) == 10);
TASGILFREM_FACT(node_licence_name_end, offsetof(tasgilfrem_node, licence_name_end) == 12);
TASGILFREM_FACT(node_plus, offsetof(tasgilfrem_node, plus) == 14);
TASGILFREM_FACT(node_addition_form, offsetof(tasgilfrem_node, addition_form) == 16);
TASGILFREM_FACT(node_addition, offsetof(tasgilfrem_node, addition) == 18);
TASGILFREM_FACT(node_addition_doc_start, offsetof(tasgilfrem_node, addition_doc_start) == 20);
TASGILFREM_FACT(node_addition_doc_end, offsetof(tasgilfrem_node, addition_doc_end) == 22);
TASGILFREM_FACT(node_addition_name_start, offsetof(tasgilfrem_node, addition_name_start) == 24);
TASGILFREM_FACT(node_addition_name_end, offsetof(tasgilfrem_node, addition_name_end) == 26);
TASGILFREM_FACT(node_start, offsetof(tasgilfrem_node, start) == 28);
TASGILFREM_FACT(node_end, offsetof(tasgilfrem_node, end) == 30);

/* The library's lengths and places are 64 bits wide. */
TASGILFREM_FACT(size_t_is_64_bits, sizeof(size_t) == 8);

/* ---- What the library exports ---- */

/* Forms of status 0, where a function has more than one. */
enum tasgilfrem_form {
    TASGILFREM_STEP_DONE = 0,
    TASGILFREM_STEP_TOKEN = 1,
    TASGILFREM_CANONICAL_UNCHANGED = 0,
    TASGILFREM_CANONICAL_WRITTEN = 1,
    TASGILFREM_ENTRY_NONE = 0,
    TASGILFREM_ENTRY_BODY = 1,
    TASGILFREM_CHOICE_MASK = 0,
    TASGILFREM_CHOICE_PAUSED = 1,
    TASGILFREM_LISTING_FOUND = 0,
    TASGILFREM_LISTING_PAUSED = 1,
    TASGILFREM_LISTING_FINISHED = 2
};

/* For tasgilfrem_name: which part of the table. */
enum tasgilfrem_part { TASGILFREM_LICENCES = 0, TASGILFREM_EXCEPTIONS = 1 };

/*
 * The token at a place of the text, behind white space. Begin at place 0 and go on from the token's `next`.
 * Form DONE: nothing but white space is left, and `out` is as it was. Form TOKEN: it is in `out`, in tasgilfrem_token's order.
 * Refusals: 2, 1, 20 (a place past the end or inside a character), 3, 4, 5.
 */
uint64_t tasgilfrem_step(const uint8_t *text, size_t len, uint8_t mode, size_t place, uint16_t out[TASGILFREM_TOKEN_CELLS]);

/*
 * Reads an expression. Value: the number N of nodes, 1 to 127, which stand in postfix at the front of `cells`, 16 cells each in
 * tasgilfrem_node's order; cells behind them are as they were. SMALL, with N, where 16 * N is over `ncells`.
 * Refusals: 1 to 15.
 */
uint64_t tasgilfrem_parse(const uint8_t *text, size_t len, uint8_t mode, uint16_t *cells, size_t ncells);

/*
 * The canonical text; the text is read in LAX. Form UNCHANGED: it is the text itself, and nothing is written. Form WRITTEN: it fills the
 * front of `out`, and the value is its length; bytes behind it are as they were. There is no NUL behind it.
 * It is made token by token: what the grammar refuses, as `MIT MIT`, has a canonical text too. Read the text first.
 * Refusals: 2, 1, 3 to 6, and 16 with the length that is needed.
 */
uint64_t tasgilfrem_canonical(const uint8_t *text, size_t len, uint8_t *out, size_t room);

/* Checks a list file: count, contents, bodies. Value: the number of its entries. Refusal: 17. */
uint64_t tasgilfrem_list(const uint8_t *file, size_t len);

/*
 * The body of an entry, as a part of the file itself: tasgilfrem_offset_of and tasgilfrem_length_of.
 * The whole answer is 0 where there is none: the file is not valid, or it has no such entry. The status is always 0.
 */
uint64_t tasgilfrem_entry(const uint8_t *file, size_t len, size_t index);

/*
 * The numerically least set of found licensees that satisfies the text. Sets are masks: bit 0 is the first found licensee, in the list's order.
 * Form MASK: it is in `*out`. Form PAUSED: it is not among the first `budget` masks, and `*out` is 1 + budget. 2^30 is always enough.
 * Refusals: the text's, 17, 18, 19, 21.
 */
uint64_t tasgilfrem_choice(const uint8_t *text, size_t len, uint8_t mode, const uint8_t *file, size_t file_len, uint64_t budget,
                           uint64_t *out);

/*
 * The next set, from a cursor on, that satisfies the text and would not if any member were taken out; at most `budget` masks are examined.
 * Begin at cursor 1 and go on from out[1]. Form FOUND: out[0] is the mask. Form PAUSED: none yet. Form FINISHED: there is none any more.
 * Unless it is found, out[0] is 0. out[1] is the next cursor, whatever the form.
 * Refusals: the text's, 17, 18, 20 (the cursor is 0 or over 2^k, with k licensees found), 21.
 */
uint64_t tasgilfrem_listing(const uint8_t *text, size_t len, uint8_t mode, const uint8_t *file, size_t file_len, uint64_t cursor,
                            uint64_t budget, uint64_t out[2]);

/*
 * Which entries of the list the bits of a mask are. Value: the number k of found licensees; out[0] to out[k - 1] are their entries,
 * bit 0's first. Bytes behind them are as they were.
 * Refusals: the text's, 17, 18.
 */
uint64_t tasgilfrem_found(const uint8_t *text, size_t len, uint8_t mode, const uint8_t *file, size_t file_len,
                          uint8_t out[TASGILFREM_FOUND_MAX]);

/*
 * A listed name: of a licence where `part` is 0, else of an exception. Value: its length, and it stands at the front of `out`; 0 where there is no
 * such name. There is no NUL behind it. SMALL, with the length, where the room is too small; so a room of 0 asks for the length.
 */
uint64_t tasgilfrem_name(uint8_t part, size_t place, uint8_t *out, size_t room);

/* ---- The same with records ---- */

/* tasgilfrem_step into a token. */
static inline uint64_t tasgilfrem_step_token(const uint8_t *text, size_t len, uint8_t mode, size_t place, tasgilfrem_token *out)
{
    return tasgilfrem_step(text, len, mode, place, (uint16_t *)(void *)out);
}

/* tasgilfrem_parse into `room` nodes. 127 are always enough, and no more are made use of. */
static inline uint64_t tasgilfrem_parse_nodes(const uint8_t *text, size_t len, uint8_t mode, tasgilfrem_node *nodes, size_t room)
{
    size_t used = room < TASGILFREM_NODES_MAX ? room : (size_t)TASGILFREM_NODES_MAX;
    return tasgilfrem_parse(text, len, mode, (uint16_t *)(void *)nodes, used * TASGILFREM_NODE_CELLS);
}

#ifdef __cplusplus
}
#endif

#endif
