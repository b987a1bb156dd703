/* The purpose gate, for hosts in C and C++ on x86-64 (libgate.a).
 *
 * A host lends a document, a query, a clock and a buffer, and gets back an answer or a refusal; or a document and a why line, and gets
 * back why a cell is open or closed; or a comma-separated file, and gets back the row lines that are made of it. A document that is
 * asked more than once is best loaded once, into a struct gate_document that the host lends. The gate allocates nothing, keeps no
 * state between calls but what it writes into that struct, reads no file and no clock of its own, and may be called from several
 * threads at once.
 *
 * What a caller owes, in every call:
 * - A text or buffer is a pointer and a length in bytes. The pointer is valid for that length: readable for `doc`, `query`,
 *   `line`, `file`, `table` and `label`, readable and writable for `out`. The length alone ends a text; a zero byte is a byte like any
 *   other. The buffer of gate_why and gate_why_loaded has no length beside it: it has GATE_WHY_BYTES bytes, or more.
 * - `figures` points to GATE_FIGURES numbers, aligned as uint64_t is.
 * - `out` overlaps no text, and `figures` overlaps nothing else. Texts are only read, so they may overlap.
 * - No pointer is null. Where a length is 0, any other pointer will do; nothing is read or written through it.
 * - Until the call returns, no other thread writes the texts, and none touches `out` or `figures`.
 * - The calling thread has room on its stack (measured): gate_check, gate_ask, gate_measure and gate_why take up to 371 KB,
 *   gate_load up to 23 KB, gate_ask_loaded and gate_measure_loaded up to 26 KB, gate_why_loaded up to 13 KB. Threads with small stacks
 *   need a larger one for the first four.
 * What a caller owes of a struct gate_document: see there.
 * Nothing is owed of what the texts, the clock and the buffer hold. Every input has an outcome, and every call returns.
 *
 * What the calls give is proved for every input, as crates/gate/specs/Exports.antt says it (ExportsCheck, ExportsAsk,
 * ExportsMeasure, ExportsImport, ExportsMeasureImport), crates/gate/specs/Arrays.antt of those over a loaded document (ExportsLoad,
 * ExportsAskArrays, ExportsMeasureArrays), and crates/gate/specs/Explaining.antt of why lines (ExportsWhy, ExportsWhyArrays). That
 * the caller keeps to the list above is not: a call that breaks it is undefined. Nothing outside the library is called but memset and
 * memcpy.
 */
#ifndef GATE_H
#define GATE_H

#include <stddef.h>
#include <stdint.h>

#ifdef __cplusplus
extern "C" {
#endif

/* Sizes, in bytes. A longer document is refused with 1, a longer query with 11; no reserve is larger than the last. */
#define GATE_DOCUMENT_BYTES 60000
#define GATE_QUERY_BYTES 4096
#define GATE_RESERVE_BYTES 60021

/* How long the buffer for the line of a reason is, in bytes: no line is longer. */
#define GATE_WHY_BYTES 39

/* How many figures a call hands back. It writes all of them, whatever the outcome. */
#define GATE_FIGURES 5

/* What the calls return: 0, or the number of a refusal. Where several hold, a document is refused for its first failing line
 * and there with the first of these, and a query with the first of its own. Each line says which part is handed back.
 * docs/refusals.tsv has the same with what to do about each; tests/refusals compares the two, and both with the definition. */
enum gate_outcome {
    GATE_ACCEPTED = 0,             /* nothing is refused */

    /* of the document, by every call */
    GATE_TOO_LONG = 1,             /* a text over 60,000 bytes; part: empty, at the start */
    GATE_WRONG_FORM = 2,           /* wrong form (line unfinished, blank, number out of range, too deep); part: the whole line */
    GATE_OVER_BOUND = 3,           /* a bound exceeded; part: the whole line */
    GATE_NAME_TAKEN = 4,           /* name taken; part: the later of two equal names; of a user and role given before,
                                      the role; of a table declared public before, the table */
    GATE_NAME_UNKNOWN = 5,         /* name unknown; part: the name */
    GATE_SECOND_ROOT = 6,          /* a second root purpose; part: the whole line */
    GATE_WRONG_VALUES = 7,         /* a row or user without the right count or set of values, or row items not shaped for the
                                      table's scheme; part: the whole line */
    GATE_WRONG_TYPE = 8,           /* a value or operator of the wrong type; part: the operator or the value */
    GATE_RANGE_REVERSED = 28,      /* a range with LOW above HIGH; part: the range, its bracket included */
    GATE_NO_SUCH_DATE = 31,        /* no such date; part: the date, its bracket included */
    GATE_LATE_ATTRIBUTE = 9,       /* an attr line after any user line; part: the whole line */
    GATE_NOTE_MISPLACED = 25,      /* a strong or weak line given twice, after a row or for a table of another scheme; part: the
                                      whole line */

    /* of the query, by gate_ask and, but for 18, by gate_measure */
    GATE_CLOCK_OUT_OF_RANGE = 10,  /* clock out of range; part: empty, at the start */
    GATE_NOT_A_QUERY = 11,         /* query not one form of a known shape, or over a bound; part: the whole query */
    GATE_UNKNOWN_PARTY = 12,       /* user, role or purpose unknown; part: that name */
    GATE_ROLE_NOT_GIVEN = 13,      /* role not given to the user; part: the role */
    GATE_NOT_AUTHORISED = 14,      /* purpose not authorised; part: the purpose */
    GATE_UNKNOWN_COLUMN = 15,      /* table or named column unknown; part: that name */
    GATE_MISTYPED_QUERY = 16,      /* wrong type in the condition; part: the operator or the value */
    GATE_RANGE_NOT_TAKEN = 27,     /* a range in any row of a named column in a select, blank or count; part: that column */
    /* GATE_NO_SUCH_DATE, 31 as above: no such date; part: the date, its bracket included */
    GATE_CLOSED = 17,              /* table or column closed; part: that table or column */
    GATE_BUFFER_TOO_SHORT = 18,    /* answer longer than the lent buffer; part: empty, at the start */

    /* of the why line, by gate_why and gate_why_loaded */
    /* GATE_NOT_A_QUERY, 11 as above: line not of the form `(why PURPOSE TABLE ROW COLUMN)`; part: the whole line */
    GATE_UNKNOWN_WHY = 23,         /* purpose, table or column unknown; part: that name */
    GATE_NO_SUCH_ROW = 24,         /* no such row; part: the row's number */
    GATE_NEST_EXPLAINED = 26,      /* a nest table; part: the table */

    /* of the file, by gate_import and, but for 21, by gate_measure_import */
    GATE_MALFORMED_RECORD = 19,    /* malformed record (another count of fields than the first, or quotes or a lone carriage
                                      return that break RFC 4180); part: empty, at the start of the record */
    GATE_UNFIT_FIELD = 20,         /* field not a name or number, or given table or label not a name; part: empty, at the start of
                                      the record; of the file for table or label */
    GATE_IMPORT_TOO_SHORT = 21     /* lent buffer too short; part: empty, at the start */
};

/* The text that holds the part of a refusal: figures[GATE_SOURCE]. */
enum gate_source {
    GATE_IN_DOCUMENT = 1,
    GATE_IN_QUERY = 2,             /* or in the why line */
    GATE_IN_FILE = 3
};

/* Where each figure stands. The rest are 0. */
enum gate_checked_figure {         /* gate_check, accepted */
    GATE_LINES = 0,                /* how many lines the document has */
    GATE_RESERVE = 1               /* how long the longest answer among tables is, each with all its columns once and all its rows; no
                                      answer whose query's column bracket repeats no column is longer */
};
enum gate_answered_figure {        /* gate_ask, accepted; of gate_measure, gate_why, gate_import and gate_measure_import the first alone */
    GATE_LENGTH = 0,               /* how many bytes of the buffer the answer, the line or the lines fill, from the first on */
    GATE_GRANT = 1,                /* the position, counted from 0, of the first grant that authorises the query */
    GATE_PASSED = 2,               /* the rows given */
    GATE_WITHHELD = 3,             /* the rows withheld */
    GATE_UNMATCHED = 4             /* the rows not withheld for which the condition fails */
};
enum gate_refused_figure {         /* any call, refused */
    GATE_SOURCE = 0,               /* the text that holds the part: an enum gate_source */
    GATE_START = 1,                /* where the part begins in that text, in bytes from 0 */
    GATE_PART = 2                  /* how many bytes it has */
};

/* What a call over a loaded document returns where the struct holds none of this version: no text was ever loaded into it, the last
 * one was refused, or a header of another version did it. All figures are 0 then, and `out` is as it was. No refusal has the number. */
#define GATE_NOT_LOADED 255

/* The version of the struct below, which gate_load tests and writes into it and the other calls test. It is another one whenever the layout changes:
 * a host is compiled against the header of the library that it links, and stores no struct. */
#define GATE_DOCUMENT_VERSION 7700003

/* A loaded document: 345,360 bytes, all known when a host is compiled, which puts it where it likes (static, on the heap). What
 * stands in it is the gate's own; a host only passes its address.
 * What a caller owes, beside the list above:
 * - The text that was loaded stays as it was, at the same or another address, as long as the struct is asked: each call gets the very
 *   bytes that gate_load got. The struct holds places in them, not the names themselves.
 * - Nobody but gate_load writes the struct; it may be copied as a whole. Several threads may ask one struct at once, none while it is
 *   being loaded. It overlaps no text, buffer or figures.
 * A call with another text, or over a struct that was written, still returns and stays within all that was lent; its answer is then
 * worth nothing. */
struct gate_document {
    uint64_t cells[10];
    uint64_t purposes[1792];
    uint64_t roles[1216];
    uint64_t attributes[96];
    uint64_t users[1536];
    uint64_t conds[384];
    uint64_t grants[256];
    uint64_t labels[64];
    uint64_t sets[512];
    uint64_t tables[440];
    uint64_t rows[36864];
};

/* Checks a document. Returns GATE_ACCEPTED, or the number of a refusal, 1 to 9, 25, 28 or 31. */
uint64_t gate_check(const uint8_t *doc, size_t doc_len, uint64_t *figures);

/* Asks a document with a query at the time of the clock: year 1 to 9999, day 1 to 365 or in a leap year 366, hour 0 to 23.
 * The document is checked each time, so gate_check need not come first; a host that asks it again loads it once (gate_load).
 * Returns GATE_ACCEPTED, the answer standing in the first bytes of `out` and the bytes behind it being as they were; or the
 * number of a refusal, 1 to 18, 25, 27, 28 or 31, every byte of `out` being as it was. */
uint64_t gate_ask(const uint8_t *doc, size_t doc_len, const uint8_t *query, size_t query_len, uint64_t year, uint64_t day,
                  uint64_t hour, uint8_t *out, size_t out_len, uint64_t *figures);

/* Measures the answer to a query at the time of the clock, so that a host can lend gate_ask exactly enough.
 * Returns GATE_ACCEPTED, with the answer's length in figures[GATE_LENGTH] and 0 in the others; or the number of a refusal, which
 * is never 18 and which gate_ask would give with every buffer. A buffer shorter than that length is refused with 18, no other. */
uint64_t gate_measure(const uint8_t *doc, size_t doc_len, const uint8_t *query, size_t query_len, uint64_t year, uint64_t day,
                      uint64_t hour, uint64_t *figures);

/* Says why a cell of a document is open or closed to a purpose. The line is `(why P T ROW COL)`: the purpose, a table, the number of a
 * row of that table, counted from 0, and a column. It ends with its bracket; with a line feed behind it, it is refused with 11.
 * Returns GATE_ACCEPTED, with the length of the reason's line in figures[GATE_LENGTH] and 0 in the others, the line standing in the
 * first bytes of `out` and the bytes behind it being as they were; or the number of a refusal, 1 to 9, 25, 28 or 31 for the document,
 * else 11, 23, 24 or 26, every byte of `out` being as it was. The document is checked each time.
 * The line is `(open)`; `(closed deny D)`, D being the first purpose that the cell's label denies and that is P, above it or below it;
 * `(closed allow)`, where the label denies none such and allows neither P nor one above it; or, in a table without labels that is not
 * declared public, `(closed none)`. A line feed ends it. */
uint64_t gate_why(const uint8_t *doc, size_t doc_len, const uint8_t *line, size_t line_len, uint8_t *out, uint64_t *figures);

/* What the four functions below call, with the arrays of a struct gate_document. */
uint64_t gate_document_version(void);
uint64_t gate_load_arrays(const uint8_t *doc, size_t doc_len, uint64_t *purposes, uint64_t *roles, uint64_t *attributes,
                          uint64_t *users, uint64_t *conds, uint64_t *grants, uint64_t *labels, uint64_t *sets, uint64_t *tables,
                          uint64_t *rows, uint64_t *cells, uint64_t *figures);
uint64_t gate_ask_arrays(const uint8_t *doc, size_t doc_len, const uint64_t *purposes, const uint64_t *roles,
                         const uint64_t *attributes, const uint64_t *users, const uint64_t *conds, const uint64_t *grants,
                         const uint64_t *sets, const uint64_t *tables, const uint64_t *rows, const uint64_t *cells,
                         const uint8_t *query, size_t query_len, const uint64_t *clock, uint8_t *out, size_t out_len,
                         uint64_t *figures);
uint64_t gate_measure_arrays(const uint8_t *doc, size_t doc_len, const uint64_t *purposes, const uint64_t *roles,
                             const uint64_t *attributes, const uint64_t *users, const uint64_t *conds, const uint64_t *grants,
                             const uint64_t *sets, const uint64_t *tables, const uint64_t *rows, const uint64_t *cells,
                             const uint8_t *query, size_t query_len, const uint64_t *clock, uint64_t *figures);
uint64_t gate_why_arrays(const uint8_t *doc, size_t doc_len, const uint64_t *purposes, const uint64_t *labels, const uint64_t *sets,
                         const uint64_t *tables, const uint64_t *rows, const uint64_t *cells, const uint8_t *line, size_t line_len,
                         uint8_t *out, uint64_t *figures);

/* Checks a document, as gate_check does and with the same figures, and holds it in the struct, whatever that held before.
 * Returns GATE_ACCEPTED, or the number of a refusal, 1 to 9, 25, 28 or 31; the struct then holds none. With a library of another version than
 * this header's it gives GATE_NOT_LOADED. */
static inline uint64_t gate_load(struct gate_document *loaded, const uint8_t *doc, size_t doc_len, uint64_t *figures)
{
    /* A library of another version has other arrays: nothing is lent to it. */
    if (gate_document_version() != GATE_DOCUMENT_VERSION) {
        int n;
        for (n = 0; n < GATE_FIGURES; n++)
            figures[n] = 0;
        loaded->cells[0] = 0;
        return GATE_NOT_LOADED;
    }
    return gate_load_arrays(doc, doc_len, loaded->purposes, loaded->roles, loaded->attributes, loaded->users, loaded->conds,
                            loaded->grants, loaded->labels, loaded->sets, loaded->tables, loaded->rows, loaded->cells, figures);
}

/* Asks a loaded document: gives what gate_ask with the same text, query, clock and buffer gives, in code, figures and bytes, without
 * checking the document again; or GATE_NOT_LOADED. */
static inline uint64_t gate_ask_loaded(const struct gate_document *loaded, const uint8_t *doc, size_t doc_len, const uint8_t *query,
                                       size_t query_len, uint64_t year, uint64_t day, uint64_t hour, uint8_t *out, size_t out_len,
                                       uint64_t *figures)
{
    uint64_t clock[3];
    clock[0] = year;
    clock[1] = day;
    clock[2] = hour;
    return gate_ask_arrays(doc, doc_len, loaded->purposes, loaded->roles, loaded->attributes, loaded->users, loaded->conds,
                           loaded->grants, loaded->sets, loaded->tables, loaded->rows, loaded->cells, query, query_len, clock, out,
                           out_len, figures);
}

/* Measures the answer of a loaded document: gives what gate_measure with the same text, query and clock gives; or GATE_NOT_LOADED. */
static inline uint64_t gate_measure_loaded(const struct gate_document *loaded, const uint8_t *doc, size_t doc_len,
                                           const uint8_t *query, size_t query_len, uint64_t year, uint64_t day, uint64_t hour,
                                           uint64_t *figures)
{
    uint64_t clock[3];
    clock[0] = year;
    clock[1] = day;
    clock[2] = hour;
    return gate_measure_arrays(doc, doc_len, loaded->purposes, loaded->roles, loaded->attributes, loaded->users, loaded->conds,
                               loaded->grants, loaded->sets, loaded->tables, loaded->rows, loaded->cells, query, query_len, clock,
                               figures);
}

/* Says why a cell of a loaded document is open or closed: gives what gate_why with the same text, line and buffer gives; or
 * GATE_NOT_LOADED. */
static inline uint64_t gate_why_loaded(const struct gate_document *loaded, const uint8_t *doc, size_t doc_len, const uint8_t *line,
                                       size_t line_len, uint8_t *out, uint64_t *figures)
{
    return gate_why_arrays(doc, doc_len, loaded->purposes, loaded->labels, loaded->sets, loaded->tables, loaded->rows, loaded->cells,
                           line, line_len, out, figures);
}

/* Writes one row line `(row TABLE LABEL v ..)` for each record of a comma-separated file (RFC 4180, both line endings, every record
 * data), for a table of scheme row. The file may have any length; no document is looked at, so that the lines are checked as part of
 * one. The part of a refusal is empty, at the start of the first record concerned, or at the file's start.
 * Returns GATE_ACCEPTED, the lines standing in the first bytes of `out` and the bytes behind them being as they were; or 19, 20 or
 * 21, every byte of `out` being as it was. */
uint64_t gate_import(const uint8_t *file, size_t file_len, const uint8_t *table, size_t table_len, const uint8_t *label,
                     size_t label_len, uint8_t *out, size_t out_len, uint64_t *figures);

/* Measures those lines, so that a host can lend gate_import exactly enough. Returns GATE_ACCEPTED, with their length in
 * figures[GATE_LENGTH] and 0 in the others; or 19 or 20, as gate_import would with every buffer; or 21 where the lines have more
 * than 2^63 - 1 bytes, which no buffer has. A buffer shorter than that length is refused with 21, no other. */
uint64_t gate_measure_import(const uint8_t *file, size_t file_len, const uint8_t *table, size_t table_len, const uint8_t *label,
                             size_t label_len, uint64_t *figures);

#ifdef __cplusplus
}
#endif

#endif
