/* A host in C: it lends texts and a buffer to the gate, and prints what it gets back. From the root of the repository:
 *     tools/library
 *     cc -std=c11 -I include -o host examples/host.c target/staticlib/libgate.a && ./host
 * examples/host.expected is what it prints. examples/host.rs is the same in Rust.
 */
#include <inttypes.h>
#include <stdio.h>
#include <stdlib.h>
#include <string.h>

#include "gate.h"

/* A text as the gate takes it. */
struct text {
    const uint8_t *bytes;
    size_t len;
};

#define POLICY_BEFORE_BO                                        \
    "(purpose all)\n"                                           \
    "(purpose bill all)\n"                                      \
    "(purpose ads all)\n"                                       \
    "(purpose post ads)\n"                                      \
    "(role desk)\n"                                             \
    "(attr desk level num)\n"                                   \
    "(user ana desk (level 5))\n"                               \
    "(cond-role senior desk (and (ge level 5) (lt hour 17)))\n" \
    "(grant ads senior)\n"                                      \
    "(label free (allow all) (deny))\n"                         \
    "(label noads (allow all) (deny ads))\n"                    \
    "(table sub cell (who name) (due num))\n"                   \
    "(row sub (Ida free) (40 free))\n"
#define POLICY_BEHIND_BO "(row sub (Cy free) (60 free))\n"

static const char policy[] = POLICY_BEFORE_BO "(row sub (Bo free) (75 noads))\n" POLICY_BEHIND_BO;
/* Bo's 75 made 10: the cell is closed to what the query is for. */
static const char policy10[] = POLICY_BEFORE_BO "(row sub (Bo free) (10 noads))\n" POLICY_BEHIND_BO;
/* No conditional role is called junior. */
static const char wrong_policy[] = POLICY_BEFORE_BO "(grant bill junior)\n";

static const char query[] = "(select ana desk post sub (who) (gt due 50))";
static const char query_bill[] = "(select ana desk bill sub (who) (gt due 50))";

/* Why lines about Bo, in row 1: an open cell and a closed one; and one about a row that is not there. */
static const char *const why_lines[] = {"(why post sub 1 who)", "(why post sub 1 due)", "(why post sub 3 due)"};

/* A list from the billing house, and the table for it; and one whose second record has a field too few. */
static const char list[] = "Ida,40\r\n\"Bo\",75\r\n";
static const char list_table[] = "(table list row (who name) (due num))\n";
static const char wrong_list[] = "Ida,40\r\nBo\r\n";

/* The clock of the sample: day 366 of a leap year, ten o'clock. */
enum { YEAR = 2028, DAY = 366, HOUR = 10 };

/* What stands in a buffer before it is lent, to see which bytes the gate leaves. */
enum { MARK = 0xA5 };

/* Static, so that the stack is left to the gate. No reserve is larger. */
static uint8_t buffer[GATE_RESERVE_BYTES];
static uint8_t buffer10[GATE_RESERVE_BYTES];
static uint8_t grown[GATE_DOCUMENT_BYTES];

/* Static too: a loaded document has 345 KB. */
static struct gate_document loaded;

/* A string constant as a text, without the zero byte at its end. */
static struct text text_of(const char *s)
{
    struct text t = {(const uint8_t *)s, strlen(s)};
    return t;
}

/* A figure, or the length that it must not exceed. The gate keeps to lengths; a host that holds it to them reads nothing
 * outside even with another library. */
static size_t least(uint64_t figure, size_t len)
{
    return figure < len ? (size_t)figure : len;
}

/* The part of a refusal, taken from the text that holds it. */
static struct text part_of(struct text doc, struct text asked, const uint64_t figures[GATE_FIGURES])
{
    struct text t = figures[GATE_SOURCE] == GATE_IN_DOCUMENT ? doc : asked; /* the query, or a list */
    size_t start = least(figures[GATE_START], t.len);
    struct text part = {t.bytes + start, least(figures[GATE_PART], t.len - start)};
    return part;
}

static uint64_t check(struct text doc, uint64_t figures[GATE_FIGURES])
{
    return gate_check(doc.bytes, doc.len, figures);
}

static uint64_t ask(struct text doc, struct text asked, uint8_t *out, size_t out_len, uint64_t figures[GATE_FIGURES])
{
    return gate_ask(doc.bytes, doc.len, asked.bytes, asked.len, YEAR, DAY, HOUR, out, out_len, figures);
}

static uint64_t measure(struct text doc, struct text asked, uint64_t figures[GATE_FIGURES])
{
    return gate_measure(doc.bytes, doc.len, asked.bytes, asked.len, YEAR, DAY, HOUR, figures);
}

static uint64_t load(struct text doc, uint64_t figures[GATE_FIGURES])
{
    return gate_load(&loaded, doc.bytes, doc.len, figures);
}

/* The document is the one that was loaded. */
static uint64_t ask_loaded(struct text doc, struct text asked, uint8_t *out, size_t out_len, uint64_t figures[GATE_FIGURES])
{
    return gate_ask_loaded(&loaded, doc.bytes, doc.len, asked.bytes, asked.len, YEAR, DAY, HOUR, out, out_len, figures);
}

static uint64_t measure_loaded(struct text doc, struct text asked, uint64_t figures[GATE_FIGURES])
{
    return gate_measure_loaded(&loaded, doc.bytes, doc.len, asked.bytes, asked.len, YEAR, DAY, HOUR, figures);
}

static uint64_t why(struct text doc, struct text line, uint8_t out[GATE_WHY_BYTES], uint64_t figures[GATE_FIGURES])
{
    return gate_why(doc.bytes, doc.len, line.bytes, line.len, out, figures);
}

static uint64_t why_loaded(struct text doc, struct text line, uint8_t out[GATE_WHY_BYTES], uint64_t figures[GATE_FIGURES])
{
    return gate_why_loaded(&loaded, doc.bytes, doc.len, line.bytes, line.len, out, figures);
}

static uint64_t import_list(struct text file, uint8_t *out, size_t out_len, uint64_t figures[GATE_FIGURES])
{
    struct text table = text_of("list");
    struct text label = text_of("free");
    return gate_import(file.bytes, file.len, table.bytes, table.len, label.bytes, label.len, out, out_len, figures);
}

static uint64_t measure_list(struct text file, uint64_t figures[GATE_FIGURES])
{
    struct text table = text_of("list");
    struct text label = text_of("free");
    return gate_measure_import(file.bytes, file.len, table.bytes, table.len, label.bytes, label.len, figures);
}

/* Copies a text behind what stands in `grown`, as far as there is room, and gives the new length. */
static size_t append(size_t at, const void *bytes, size_t len)
{
    size_t n = least(len, sizeof grown - at);
    memcpy(grown + at, bytes, n);
    return at + n;
}

/* Bytes as they are; a text may hold any. */
static void print_bytes(const uint8_t *bytes, size_t len)
{
    fwrite(bytes, 1, len, stdout);
}

static void print_refused(uint64_t number, struct text doc, struct text asked, const uint64_t figures[GATE_FIGURES])
{
    struct text part = part_of(doc, asked, figures);
    const char *source = figures[GATE_SOURCE] == GATE_IN_DOCUMENT ? "document" : figures[GATE_SOURCE] == GATE_IN_QUERY ? "query" : "file";
    printf("refused %" PRIu64 " %s %" PRIu64 " %" PRIu64 ": [", number, source, figures[GATE_START], figures[GATE_PART]);
    print_bytes(part.bytes, part.len);
    printf("]\n");
}

static void print_checked(uint64_t number, struct text doc, const uint64_t figures[GATE_FIGURES])
{
    if (number != GATE_ACCEPTED) {
        /* No query was there: a part can only stand in the document. */
        print_refused(number, doc, text_of(""), figures);
        return;
    }
    printf("accepted: %" PRIu64 " lines, a reserve of %" PRIu64 "\n", figures[GATE_LINES], figures[GATE_RESERVE]);
}

static void print_answered(uint64_t number, struct text doc, struct text asked, const uint8_t *out, size_t out_len,
                           const uint64_t figures[GATE_FIGURES])
{
    if (number != GATE_ACCEPTED) {
        print_refused(number, doc, asked, figures);
        return;
    }
    print_bytes(out, least(figures[GATE_LENGTH], out_len));
    printf("%" PRIu64 " bytes by grant %" PRIu64 "; passed %" PRIu64 ", withheld %" PRIu64 ", unmatched %" PRIu64 "\n",
           figures[GATE_LENGTH], figures[GATE_GRANT], figures[GATE_PASSED], figures[GATE_WITHHELD], figures[GATE_UNMATCHED]);
}

static void print_measured(uint64_t number, struct text doc, struct text asked, const uint64_t figures[GATE_FIGURES])
{
    if (number != GATE_ACCEPTED) {
        print_refused(number, doc, asked, figures);
        return;
    }
    printf("%" PRIu64 " bytes\n", figures[GATE_LENGTH]);
}

static void print_told(uint64_t number, struct text doc, struct text line, const uint8_t out[GATE_WHY_BYTES],
                       const uint64_t figures[GATE_FIGURES])
{
    if (number != GATE_ACCEPTED) {
        print_refused(number, doc, line, figures);
        return;
    }
    print_bytes(out, least(figures[GATE_LENGTH], GATE_WHY_BYTES));
}

static const char *yes(int b)
{
    return b ? "yes" : "no";
}

/* All the bytes from `at` on are still the mark. */
static int untouched(const uint8_t *bytes, size_t at, size_t len)
{
    for (; at < len; at++)
        if (bytes[at] != MARK)
            return 0;
    return 1;
}

int main(void)
{
    struct text doc = text_of(policy);
    struct text doc10 = text_of(policy10);
    struct text wrong = text_of(wrong_policy);
    struct text asked = text_of(query);
    struct text asked_bill = text_of(query_bill);
    struct text empty = text_of("");
    struct text document = {grown, 0};
    uint64_t figures[GATE_FIGURES];
    uint64_t figures10[GATE_FIGURES];
    uint8_t told[GATE_WHY_BYTES];
    uint8_t told_loaded[GATE_WHY_BYTES];
    uint64_t number;
    uint64_t number10;
    size_t reserve;
    size_t length;
    int turn;

    printf("-- the sample policy, checked\n");
    number = check(doc, figures);
    print_checked(number, doc, figures);
    if (number != GATE_ACCEPTED || figures[GATE_RESERVE] > sizeof buffer)
        return EXIT_FAILURE;
    /* A buffer of this length is never too short for a query whose column bracket repeats no column. */
    reserve = (size_t)figures[GATE_RESERVE];

    printf("-- the sample query, asked\n");
    memset(buffer, MARK, sizeof buffer);
    number = ask(doc, asked, buffer, reserve, figures);
    print_answered(number, doc, asked, buffer, reserve, figures);
    if (number != GATE_ACCEPTED || figures[GATE_LENGTH] == 0)
        return EXIT_FAILURE;
    length = least(figures[GATE_LENGTH], reserve);
    printf("the bytes behind the answer are as they were: %s\n", yes(untouched(buffer, length, sizeof buffer)));

    printf("-- the same, with Bo's 75 made 10\n");
    memset(buffer10, MARK, sizeof buffer10);
    number10 = ask(doc10, asked, buffer10, reserve, figures10);
    print_answered(number10, doc10, asked, buffer10, reserve, figures10);
    printf("the same number and figures: %s\n", yes(number10 == number && memcmp(figures10, figures, sizeof figures) == 0));
    printf("the same bytes in the buffer: %s\n", yes(memcmp(buffer10, buffer, sizeof buffer) == 0));

    printf("-- a buffer one byte shorter than the answer\n");
    memset(buffer, MARK, sizeof buffer);
    number = ask(doc, asked, buffer, length - 1, figures);
    print_answered(number, doc, asked, buffer, length - 1, figures);
    printf("the buffer is as it was: %s\n", yes(untouched(buffer, 0, sizeof buffer)));

    printf("-- a buffer just as long as the answer, which is measured\n");
    number = measure(doc, asked, figures);
    print_measured(number, doc, asked, figures);
    if (number != GATE_ACCEPTED)
        return EXIT_FAILURE;
    length = least(figures[GATE_LENGTH], sizeof buffer);
    number = ask(doc, asked, buffer, length, figures);
    print_answered(number, doc, asked, buffer, length, figures);
    memset(buffer, MARK, sizeof buffer);

    printf("-- a purpose that nothing authorises, asked and measured\n");
    number = ask(doc, asked_bill, buffer, reserve, figures);
    print_answered(number, doc, asked_bill, buffer, reserve, figures);
    number = measure(doc, asked_bill, figures);
    print_measured(number, doc, asked_bill, figures);

    printf("-- an empty query\n");
    number = ask(doc, empty, buffer, reserve, figures);
    print_answered(number, doc, empty, buffer, reserve, figures);

    printf("-- the sample policy, loaded once; asked twice, and measured\n");
    /* Nothing was loaded yet, which a zeroed struct tells. */
    if (ask_loaded(doc, asked, buffer, reserve, figures) != GATE_NOT_LOADED)
        return EXIT_FAILURE;
    number = load(doc, figures);
    print_checked(number, doc, figures);
    for (turn = 0; turn < 2; turn++) {
        memset(buffer, MARK, sizeof buffer);
        number = ask_loaded(doc, asked, buffer, reserve, figures);
        print_answered(number, doc, asked, buffer, reserve, figures);
        printf("the same as from the text: %s\n",
               yes(number == number10 && memcmp(figures, figures10, sizeof figures) == 0 && memcmp(buffer, buffer10, sizeof buffer) == 0));
    }
    number = measure_loaded(doc, asked, figures);
    print_measured(number, doc, asked, figures);
    number = ask_loaded(doc, asked_bill, buffer, reserve, figures);
    print_answered(number, doc, asked_bill, buffer, reserve, figures);

    printf("-- why cells are open or closed, by the text and by the loaded policy\n");
    for (turn = 0; turn < 3; turn++) {
        struct text line = text_of(why_lines[turn]);
        memset(told, MARK, sizeof told);
        memset(told_loaded, MARK, sizeof told_loaded);
        number = why(doc, line, told, figures);
        print_told(number, doc, line, told, figures);
        number10 = why_loaded(doc, line, told_loaded, figures10);
        printf("the same by the loaded policy: %s\n",
               yes(number10 == number && memcmp(figures10, figures, sizeof figures) == 0 && memcmp(told_loaded, told, sizeof told) == 0));
    }
    printf("the buffer of the refused line is as it was: %s\n", yes(untouched(told, 0, sizeof told)));
    memset(buffer, MARK, sizeof buffer);

    printf("-- a policy with an unknown name, loaded, checked and asked\n");
    number = load(wrong, figures);
    print_checked(number, wrong, figures);
    /* A struct that a refused document was loaded into holds none, not the one before. */
    if (ask_loaded(wrong, asked, buffer, reserve, figures) != GATE_NOT_LOADED)
        return EXIT_FAILURE;
    if (why_loaded(wrong, text_of(why_lines[0]), told, figures) != GATE_NOT_LOADED)
        return EXIT_FAILURE;
    number = check(wrong, figures);
    print_checked(number, wrong, figures);
    number = ask(wrong, asked, buffer, reserve, figures);
    print_answered(number, wrong, asked, buffer, reserve, figures);
    printf("the buffer is as it was: %s\n", yes(untouched(buffer, 0, sizeof buffer)));

    printf("-- a list, measured, imported, and checked behind its table\n");
    number = measure_list(text_of(list), figures);
    print_measured(number, doc, text_of(list), figures);
    if (number != GATE_ACCEPTED)
        return EXIT_FAILURE;
    length = least(figures[GATE_LENGTH], sizeof buffer);
    number = import_list(text_of(list), buffer, length, figures);
    if (number != GATE_ACCEPTED)
        return EXIT_FAILURE;
    print_bytes(buffer, length);
    document.len = append(append(append(0, doc.bytes, doc.len), list_table, strlen(list_table)), buffer, length);
    number = check(document, figures);
    print_checked(number, document, figures);

    printf("-- a list whose second record has a field too few\n");
    memset(buffer, MARK, sizeof buffer);
    number = import_list(text_of(wrong_list), buffer, sizeof buffer, figures);
    print_refused(number, doc, text_of(wrong_list), figures);
    printf("the buffer is as it was: %s\n", yes(untouched(buffer, 0, sizeof buffer)));

    /* A host that printed only half of it did not succeed. */
    return fflush(stdout) == 0 && !ferror(stdout) ? EXIT_SUCCESS : EXIT_FAILURE;
}
