/* Checks from C what the header says: all calls, every status, null pointers of length 0, what is left in the output, and lintelrye_view.
 * Compiles as C99 and as C++. Prints each check that fails; ends with 0 where none does. */
#include <stdio.h>
#include <string.h>

#include "lintelrye.h"

typedef lintelrye_answer (*call)(uint32_t, const uint8_t *, size_t, uint8_t *, size_t);

static const call calls[8] = {lintelrye_encode, lintelrye_encode_borrowing, lintelrye_decode, lintelrye_decode_borrowing,
                              lintelrye_take,   lintelrye_take_borrowing,   lintelrye_browse, lintelrye_browse_borrowing};

/* Whether a call has a context: encode has 0 to 15, decode and take all of these but script_raw, browse 0 to 6 and 15. */
static int has(uint32_t which, uint32_t context)
{
    return context == LINTELRYE_ASCII_QUOTED || (context < (which < 6 ? 15u : 7u) && (which < 2 || context != LINTELRYE_SCRIPT_RAW));
}

enum { OUTPUT = 32, UNTOUCHED = 0xEE };

static uint8_t output[OUTPUT];
static uint8_t letters[LINTELRYE_TEXT_LIMIT + 1];
static int failed;

static void check(int holds, const char *what, uint32_t which)
{
    if (!holds) {
        failed += 1;
        printf("c/check: %s does not hold (call or context %u)\n", what, (unsigned)which);
    }
}

/* Whether the answer is these five numbers, and no reference stayed. */
static int is(lintelrye_answer answer, uint64_t status, uint64_t length, uint64_t same, uint64_t replaced, uint64_t place)
{
    return answer.status == status && answer.length == length && answer.same == same && answer.replaced == replaced && answer.place == place
        && answer.left == 0 && answer.reason == 0;
}

/* Whether the output holds these bytes at its front and nothing new past them. */
static int holds(const char *front)
{
    size_t n = strlen(front);
    size_t i;
    for (i = n; i < OUTPUT; i++) {
        if (output[i] != UNTOUCHED) {
            return 0;
        }
    }
    return memcmp(output, front, n) == 0;
}

/* One call on a string, with the whole output or its first bytes, freshly filled. */
static lintelrye_answer of(uint32_t which, uint32_t context, const char *text, size_t room)
{
    memset(output, UNTOUCHED, OUTPUT);
    return calls[which](context, (const uint8_t *)text, strlen(text), output, room);
}

/* Null pointers of length 0, for the text, for the output, and for both. */
static void check_null(uint32_t which)
{
    uint32_t context;
    memset(output, UNTOUCHED, OUTPUT);
    for (context = 0; context < 17; context++) {
        if (!has(which, context)) {
            check(is(calls[which](context, NULL, 0, NULL, 0), LINTELRYE_BAD_CONTEXT, 0, 0, 0, 0), "bad context, null text", which);
            continue;
        }
        check(is(calls[which](context, NULL, 0, NULL, 0), LINTELRYE_PASSED, 0, 1, 0, 0), "null text, null output", which);
        check(is(calls[which](context, NULL, 0, output, OUTPUT), LINTELRYE_PASSED, 0, 1, 0, 0), "null text", which);
        if (which % 2 == 1) {
            check(is(calls[which](context, letters, 3, NULL, 0), LINTELRYE_PASSED, 3, 1, 0, 0), "null output, nothing replaced", which);
        } else {
            check(is(calls[which](context, letters, 3, NULL, 0), LINTELRYE_NO_ROOM, 3, 0, 0, 0), "null output", which);
        }
    }
    check(holds(""), "null pointers leave the output", which);
}

/* The refusals that every call has. */
static void check_refusals(uint32_t which)
{
    check(is(of(which, LINTELRYE_ASCII_QUOTED + 1, "a", OUTPUT), LINTELRYE_BAD_CONTEXT, 0, 0, 0, 0) && holds(""), "bad context", which);
    check(is(of(which, UINT32_MAX, "a", OUTPUT), LINTELRYE_BAD_CONTEXT, 0, 0, 0, 0) && holds(""), "worst context", which);
    check(is(of(which, 1, "a\xC3(", OUTPUT), LINTELRYE_NOT_UTF8, 0, 0, 0, 1) && holds(""), "not UTF-8", which);
    check(is(of(which, 1, "a\xE0\x9F", OUTPUT), LINTELRYE_NOT_UTF8, 0, 0, 0, 1) && holds(""), "not UTF-8, however it goes on", which);
    check(is(of(which, 1, "a\xE2\x82", OUTPUT), LINTELRYE_CUT_SHORT, 0, 0, 0, 1) && holds(""), "cut short", which);
    check(is(calls[which](1, letters, sizeof letters, output, OUTPUT), LINTELRYE_TOO_LONG, 0, 0, 0, 0) && holds(""), "too long", which);
    if (which % 2 == 0) {
        check(is(of(which, 1, "abc", 2), LINTELRYE_NO_ROOM, 3, 0, 0, 0) && holds(""), "no room to copy", which);
        check(is(of(which, 1, "abc", 3), LINTELRYE_PASSED, 3, 1, 0, 0) && holds("abc"), "room to copy", which);
    } else {
        check(is(of(which, 1, "abc", 0), LINTELRYE_PASSED, 3, 1, 0, 0) && holds(""), "nothing to replace", which);
    }
}

/* What an operation writes, and what it needs. */
static void check_written(uint32_t which, uint32_t context, const char *text, uint64_t replaced, const char *result)
{
    size_t n = strlen(result);
    check(is(of(which, context, text, OUTPUT), LINTELRYE_PASSED, n, 0, replaced, 0) && holds(result), "the result", which);
    check(is(of(which, context, text, n), LINTELRYE_PASSED, n, 0, replaced, 0) && holds(result), "the result in exact room", which);
    check(is(of(which, context, text, n - 1), LINTELRYE_NO_ROOM, n, 0, 0, 0) && holds(""), "one byte too few", which);
}

/* Whether closing_tag answers these three numbers for a string. */
static int closes(const char *text, uint64_t status, uint64_t found, uint64_t place)
{
    lintelrye_closing closing = lintelrye_closing_tag((const uint8_t *)text, strlen(text));
    return closing.status == status && closing.found == found && closing.place == place;
}

/* lintelrye_closing_tag: a place, none, the refusals; and that none is not enough to embed a text. */
static void check_closing(void)
{
    lintelrye_closing nothing = lintelrye_closing_tag(NULL, 0);
    lintelrye_closing longest = lintelrye_closing_tag(letters, LINTELRYE_TEXT_LIMIT);
    lintelrye_closing longer = lintelrye_closing_tag(letters, LINTELRYE_TEXT_LIMIT + 1);
    check(sizeof(lintelrye_closing) == 24, "the size of the answer about a script element", 0);
    check(nothing.status == LINTELRYE_PASSED && nothing.found == 0 && nothing.place == 0, "no end tag in a null text", 0);
    check(longest.status == LINTELRYE_PASSED && longest.found == 0 && longest.place == 0, "no end tag in the longest text", 0);
    check(longer.status == LINTELRYE_TOO_LONG && longer.found == 0 && longer.place == 0, "a script element's text that is too long", 0);
    check(closes("a<b</ScRiPt\t", LINTELRYE_PASSED, 1, 3), "an end tag", 0);
    check(closes("a</scripts>", LINTELRYE_PASSED, 0, 0), "no end tag", 0);
    check(closes("</script>\xC3(", LINTELRYE_NOT_UTF8, 0, 9), "a script element's text that is not UTF-8", 0);
    check(closes("</script>\xC3", LINTELRYE_CUT_SHORT, 0, 9), "a script element's text that is cut short", 0);
    check(closes("<!--<script>", LINTELRYE_PASSED, 0, 0), "no end tag in a text that hides the next", 0);
    check(closes("<!--<script></script>", LINTELRYE_PASSED, 0, 0), "the end tag after it is hidden", 0);
    check(closes("<!--<script>--></script>", LINTELRYE_PASSED, 1, 15), "an end tag after the end of the escape", 0);
    check(is(of(0, LINTELRYE_SCRIPT_RAW, "<!--<script>", OUTPUT), LINTELRYE_PASSED, 13, 0, 1, 0), "the same text in script_raw", 0);
    memcpy(output + 13, "</script>", sizeof "</script>");
    check(closes((const char *)output, LINTELRYE_PASSED, 1, 13), "the end tag after that is not hidden", 0);
}

/* Whether lintelrye_check says these three numbers of a text, and take the same of it in an output of any length, but for NO_ROOM. */
static void check_checked(uint32_t context, const char *text, size_t length, uint64_t status, uint64_t needed, uint64_t place)
{
    lintelrye_checked checked = lintelrye_check(context, (const uint8_t *)text, length);
    size_t room;
    check(checked.status == status && checked.length == needed && checked.place == place, "what check says", context);
    for (room = 0; room <= OUTPUT; room++) {
        lintelrye_answer answer = lintelrye_take(context, (const uint8_t *)text, length, output, room);
        if (answer.status == LINTELRYE_NO_ROOM) {
            check(status == LINTELRYE_PASSED && room < needed, "no room by what check says", context);
            answer.status = LINTELRYE_PASSED;
        } else {
            check(status != LINTELRYE_PASSED || room >= needed, "room by what check says", context);
        }
        check(checked.status == answer.status && checked.length == answer.length && checked.place == answer.place, "check beside take", context);
    }
}

/* check: a form, the empty text by a null pointer, and every refusal that it has. */
static void check_without_output(void)
{
    check_checked(LINTELRYE_QUOTED, "Mum &amp; Dad&#x27;s", 20, LINTELRYE_PASSED, 11, 0);
    check_checked(LINTELRYE_TEXT, "abc", 3, LINTELRYE_PASSED, 3, 0);
    check_checked(LINTELRYE_TEXT, NULL, 0, LINTELRYE_PASSED, 0, 0);
    check_checked(LINTELRYE_TEXT_MINIMAL, "a&lt;&gt;", 9, LINTELRYE_NOT_A_FORM, 0, 5);
    check_checked(LINTELRYE_TEXT, "a\xC3(", 3, LINTELRYE_NOT_UTF8, 0, 1);
    check_checked(LINTELRYE_TEXT, "a\xE2\x82", 3, LINTELRYE_CUT_SHORT, 0, 1);
    check_checked(LINTELRYE_SCRIPT_RAW, "a", 1, LINTELRYE_BAD_CONTEXT, 0, 0);
    check_checked(LINTELRYE_JSON, "a\\u003C", 7, LINTELRYE_PASSED, 2, 0);
    check_checked(LINTELRYE_JSON, "a\\u003c", 7, LINTELRYE_NOT_A_FORM, 0, 1);
    check_checked(LINTELRYE_ASCII_QUOTED, "&eacute;&#x1F600;", 17, LINTELRYE_PASSED, 6, 0);
    check_checked(LINTELRYE_ASCII_QUOTED, "a&#xE9;", 7, LINTELRYE_NOT_A_FORM, 0, 1);
    check_checked(LINTELRYE_TEXT, (const char *)letters, sizeof letters, LINTELRYE_TOO_LONG, 0, 0);
    check(lintelrye_check(LINTELRYE_TEXT, letters, LINTELRYE_TEXT_LIMIT).length == LINTELRYE_TEXT_LIMIT, "the longest text", 0);
}

/* Place and reason of the first reference that stays, in decode, copying and borrowing; take and browse tell none. */
static void check_left(void)
{
    static const struct {
        const char *text;
        uint64_t left, reason;
    } rows[] = {
        {"a & b", 2, LINTELRYE_NO_END}, {"&&;", 0, LINTELRYE_NO_END},        {"ab&#x;&", 2, LINTELRYE_EMPTY},       {"&nbps;", 0, LINTELRYE_UNKNOWN_NAME},
        {"&Amp;&;", 0, LINTELRYE_UNKNOWN_NAME}, {"a&#99999999999x;", 1, LINTELRYE_NO_DIGIT}, {"&#4294967296;", 0, LINTELRYE_NOT_ALLOWED},
    };
    size_t i;
    for (i = 0; i < sizeof rows / sizeof *rows; i++) {
        uint32_t which;
        for (which = 2; which < 8; which++) {
            lintelrye_answer answer = of(which, 1, rows[i].text, OUTPUT);
            int decodes = which == 2 || which == 3;
            check(answer.left == (decodes ? rows[i].left : 0) && answer.reason == (decodes ? rows[i].reason : 0), "the first reference that stays", which);
        }
    }
    check(of(2, 1, "&;&lt;", 2).reason == 0, "no reason without room", 2);
    check(of(2, 7, "&;", OUTPUT).reason == 0, "no reason in a string", 2);
}

/* One part of a raw script, with the first bytes of the output, freshly filled. */
static lintelrye_answer part(lintelrye_script_raw *state, const char *text, size_t room)
{
    memset(output, UNTOUCHED, OUTPUT);
    return lintelrye_script_raw_part(state, (const uint8_t *)text, strlen(text), output, room);
}

static lintelrye_answer finish(lintelrye_script_raw *state, size_t room)
{
    memset(output, UNTOUCHED, OUTPUT);
    return lintelrye_script_raw_finish(state, output, room);
}

/* Every cut of a text in three parts, each in the room that is enough, writes what one encode writes. */
static void check_cuts(const char *text)
{
    uint8_t whole[64], joined[64], room[LINTELRYE_SCRIPT_RAW_AT_MOST(32)];
    size_t n = strlen(text), a, b, k;
    lintelrye_answer encoded = lintelrye_encode(LINTELRYE_SCRIPT_RAW, (const uint8_t *)text, n, whole, sizeof whole);
    for (a = 0; a <= n; a++) {
        for (b = a; b <= n; b++) {
            size_t ends[4] = {0, a, b, n}, length = 0;
            uint64_t replaced = 0;
            lintelrye_script_raw state = LINTELRYE_SCRIPT_RAW_START;
            for (k = 0; k < 4; k++) {
                lintelrye_answer answer =
                    k < 3 ? lintelrye_script_raw_part(&state, (const uint8_t *)text + ends[k], ends[k + 1] - ends[k], room, LINTELRYE_SCRIPT_RAW_AT_MOST(ends[k + 1] - ends[k]))
                          : lintelrye_script_raw_finish(&state, room, LINTELRYE_SCRIPT_RAW_AT_MOST(0));
                check(answer.status == LINTELRYE_PASSED && answer.same == 0 && length + answer.length <= sizeof joined, "a part of a script", (uint32_t)a);
                memcpy(joined + length, room, answer.length);
                length += answer.length;
                replaced += answer.replaced;
            }
            check(length == encoded.length && replaced == encoded.replaced && memcmp(joined, whole, length) == 0, "a script by parts", (uint32_t)a);
        }
    }
}

/* The calls for parts: cuts, what is held, every status, and a state that a refused call leaves. */
static void check_parts(void)
{
    lintelrye_script_raw state, before;
    check(sizeof(lintelrye_script_raw) == 32, "the size of a state", 0);
    check_cuts("if (a<b) </ScRiPt >");
    check_cuts("<!-<!--</script");
    check_cuts("\xC3\xA9<\xE2\x82\xAC</script\xF0\x9F\x98\x80");
    memset(&state, 0xFF, sizeof state);
    lintelrye_script_raw_start(&state);
    check(is(part(&state, "ab</SCRIPT", OUTPUT), LINTELRYE_PASSED, 2, 0, 0, 0) && holds("ab"), "a part that ends in a pattern", 0);
    before = state;
    check(is(part(&state, ">", 9), LINTELRYE_NO_ROOM, 10, 0, 0, 0) && holds(""), "no room for a part", 0);
    check(is(part(&state, "\xFF", OUTPUT), LINTELRYE_NOT_UTF8, 0, 0, 0, 10) && holds(""), "a part that is not UTF-8", 0);
    check(is(lintelrye_script_raw_part(&state, letters, LINTELRYE_TEXT_LIMIT, output, OUTPUT), LINTELRYE_TOO_LONG, 0, 0, 0, 0), "parts that are too long", 0);
    check(is(finish(&state, 8), LINTELRYE_NO_ROOM, 9, 0, 0, 0) && holds(""), "no room to finish", 0);
    check(memcmp(&state, &before, sizeof state) == 0, "a refused call leaves the state", 0);
    check(is(part(&state, ">\xE2\x82", 10), LINTELRYE_PASSED, 10, 0, 1, 0) && holds("<\\/SCRIPT>"), "a pattern in two parts", 0);
    check(is(part(&state, "(", OUTPUT), LINTELRYE_NOT_UTF8, 0, 0, 0, 11) && holds(""), "a place in an earlier part", 0);
    check(is(finish(&state, OUTPUT), LINTELRYE_CUT_SHORT, 0, 0, 0, 11) && holds(""), "a script that is cut short", 0);
    check(is(part(&state, "\xAC", OUTPUT), LINTELRYE_PASSED, 3, 0, 0, 0) && holds("\xE2\x82\xAC"), "a part after a refused finish", 0);
    check(is(lintelrye_script_raw_part(&state, NULL, 0, NULL, 0), LINTELRYE_PASSED, 0, 0, 0, 0), "a null part", 0);
    check(is(lintelrye_script_raw_finish(&state, NULL, 0), LINTELRYE_PASSED, 0, 0, 0, 0), "finish without an output", 0);
    check(is(part(&state, "a", OUTPUT), LINTELRYE_FINISHED, 0, 0, 0, 0) && holds(""), "a part after finish", 0);
    check(is(finish(&state, OUTPUT), LINTELRYE_FINISHED, 0, 0, 0, 0) && holds(""), "finish after finish", 0);
    memset(&state, 0x7A, sizeof state);
    before = state;
    check(is(part(&state, "a", OUTPUT), LINTELRYE_FINISHED, 0, 0, 0, 0) && memcmp(&state, &before, sizeof state) == 0, "a forged state", 0);
}

/* lintelrye_view: the text, the front of the output, or none. */
static void check_view(void)
{
    const uint8_t *text = letters;
    lintelrye_answer answer = {LINTELRYE_PASSED, 3, 1, 0, 0, 0, 0};
    size_t n = 99;
    check(lintelrye_view(text, 7, output, 2, answer, &n) == text && n == 7, "view of the text", 0);
    answer.same = 0;
    check(lintelrye_view(text, 7, output, 3, answer, &n) == output && n == 3, "view of the output", 0);
    lintelrye_view(text, 7, output, 2, answer, &n);
    check(n == 0, "view of an output that is shorter", 0);
    answer.length = UINT64_MAX;
    lintelrye_view(text, 7, output, OUTPUT, answer, &n);
    check(n == 0, "view of the longest length", 0);
    answer.same = 2;
    answer.length = 1;
    check(lintelrye_view(text, 7, output, OUTPUT, answer, &n) == output && n == 1, "view of a same that is neither", 0);
    check(lintelrye_view(NULL, 0, NULL, 0, answer, &n) == NULL && n == 0, "view of nothing", 0);
}

/* A record that asks for a part, and holds 9 throughout of what a call sets. */
static lintelrye_field asks(uint32_t context, uint64_t start, uint64_t length)
{
    lintelrye_field field;
    memset(&field, 9, sizeof field);
    field.context = context;
    field.start = start;
    field.length = length;
    return field;
}

/* Whether a record still holds what `asks` gave it. */
static int untouched(lintelrye_field field)
{
    lintelrye_field fresh = asks(field.context, field.start, field.length);
    return field.begins == fresh.begins && memcmp(&field.answer, &fresh.answer, sizeof fresh.answer) == 0;
}

/* Fills a page of a string, with the whole output freshly filled. */
static lintelrye_filled page_of(lintelrye_field *fields, size_t count, const char *text, size_t room)
{
    memset(output, UNTOUCHED, OUTPUT);
    return lintelrye_fill_page(fields, count, (const uint8_t *)text, strlen(text), output, room);
}

/* A page: results one behind the other, the first refusal stops, and what is behind it stays. */
static void check_page(void)
{
    static lintelrye_field many[LINTELRYE_FIELD_LIMIT + 1];
    lintelrye_field fields[4];
    lintelrye_filled filled;
    size_t i;
    fields[0] = asks(LINTELRYE_TEXT, 1, 2);
    fields[1] = asks(LINTELRYE_SCRIPT_RAW, 0, 4);
    fields[2] = asks(LINTELRYE_QUOTED, 3, 1);
    fields[3] = asks(LINTELRYE_TEXT, 1, 2);
    filled = page_of(fields, 4, "a<b'", OUTPUT);
    check(filled.status == LINTELRYE_PASSED && filled.passed == 4 && holds("&lt;ba<b'&#x27;&lt;b"), "a page", 0);
    check(fields[0].begins == 0 && fields[1].begins == 5 && fields[2].begins == 9 && fields[3].begins == 15, "where results begin", 0);
    check(is(fields[0].answer, LINTELRYE_PASSED, 5, 0, 1, 0) && is(fields[1].answer, LINTELRYE_PASSED, 4, 1, 0, 0), "the records' answers", 0);
    fields[1] = asks(LINTELRYE_TEXT, 0, 2);
    fields[2] = asks(LINTELRYE_TEXT, 0, 1);
    filled = page_of(fields, 3, "a<b'", 9);
    check(filled.status == LINTELRYE_NO_ROOM && filled.passed == 1 && holds("&lt;b"), "a page without room", 0);
    check(is(fields[1].answer, LINTELRYE_NO_ROOM, 5, 0, 0, 0) && fields[1].begins == 0 && untouched(fields[2]), "the record without room", 0);
    fields[0] = asks(LINTELRYE_TEXT, 4, 0);
    fields[1] = asks(LINTELRYE_TEXT, 5, 0);
    filled = page_of(fields, 2, "a<b'", OUTPUT);
    check(filled.status == LINTELRYE_BAD_RANGE && filled.passed == 1 && holds(""), "the text's end", 0);
    check(is(fields[1].answer, LINTELRYE_BAD_RANGE, 0, 0, 0, 0) && fields[1].begins == 0, "a part past it", 0);
    fields[0] = asks(LINTELRYE_TEXT, UINT64_MAX, UINT64_MAX);
    check(page_of(fields, 1, "a", OUTPUT).status == LINTELRYE_BAD_RANGE && holds(""), "the worst part", 0);
    fields[0] = asks(UINT32_MAX, UINT64_MAX, 2);
    check(page_of(fields, 1, "a", OUTPUT).status == LINTELRYE_BAD_CONTEXT && holds(""), "a bad context goes first", 0);
    fields[0] = asks(LINTELRYE_TEXT, 1, 2);
    filled = page_of(fields, 1, "a\xC3\xA9\xC3\xA9", OUTPUT);
    check(filled.status == LINTELRYE_PASSED && holds("\xC3\xA9"), "a part with a character", 0);
    fields[0] = asks(LINTELRYE_TEXT, 1, 3);
    check(page_of(fields, 1, "a\xC3\xA9\xC3\xA9", OUTPUT).status == LINTELRYE_CUT_SHORT && fields[0].answer.place == 2, "a part that cuts one", 0);
    filled = lintelrye_fill_page(NULL, 0, NULL, 0, NULL, 0);
    check(filled.status == LINTELRYE_PASSED && filled.passed == 0, "no records", 0);
    for (i = 0; i <= LINTELRYE_FIELD_LIMIT; i++) {
        many[i] = asks(LINTELRYE_TEXT, 0, 0);
    }
    filled = page_of(many, LINTELRYE_FIELD_LIMIT + 1, "<", OUTPUT);
    check(filled.status == LINTELRYE_TOO_LONG && filled.passed == 0 && holds(""), "too many records", 0);
    for (i = 0; i <= LINTELRYE_FIELD_LIMIT; i++) {
        check(untouched(many[i]), "records of too long a list", (uint32_t)i);
    }
    filled = page_of(many, LINTELRYE_FIELD_LIMIT, "<", OUTPUT);
    check(filled.status == LINTELRYE_PASSED && filled.passed == LINTELRYE_FIELD_LIMIT && holds(""), "as many records as a page takes", 0);
}

/* The longest form there is: 21,845 times U+25AB, 22 bytes for 3, and a quotation mark. */
static void check_longest(void)
{
    static uint8_t text[LINTELRYE_TEXT_LIMIT];
    static uint8_t form[LINTELRYE_ASCII_ENCODED_AT_MOST(LINTELRYE_TEXT_LIMIT)];
    size_t i;
    for (i = 0; i < sizeof text / 3; i++) {
        memcpy(text + 3 * i, "\xE2\x96\xAB", 3);
    }
    text[sizeof text - 1] = '"';
    check(is(lintelrye_encode(LINTELRYE_ASCII_QUOTED, text, sizeof text, form, 480595), LINTELRYE_NO_ROOM, 480596, 0, 0, 0), "a byte short", 0);
    check(is(lintelrye_encode(LINTELRYE_ASCII_QUOTED, text, sizeof text, form, sizeof form), LINTELRYE_PASSED, 480596, 0, 21846, 0)
              && memcmp(form, "&EmptyVerySmallSquare;", 22) == 0 && memcmp(form + 480590, "&quot;", 6) == 0,
          "the longest form", 0);
}

int main(void)
{
    uint32_t which;
    memset(letters, 'a', sizeof letters);
    check(sizeof(lintelrye_answer) == 56, "the answer's size", 0);
    check(sizeof(lintelrye_checked) == 24, "the size of what check returns", 0);
    check(sizeof(lintelrye_field) == 32 + sizeof(lintelrye_answer) && sizeof(lintelrye_filled) == 16, "the sizes of a page's records", 0);
    check(offsetof(lintelrye_field, start) == 8 && offsetof(lintelrye_field, answer) == 32, "the places in a page's record", 0);
    for (which = 0; which < 8; which++) {
        check_null(which);
        check_refusals(which);
    }
    for (which = 0; which < 2; which++) {
        check_written(which, LINTELRYE_TEXT, "a<", 1, "a&lt;");
        check_written(which, LINTELRYE_SCRIPT_RAW, "</script>", 1, "<\\/script>");
        check_written(which, LINTELRYE_JSON, "\"<\n", 3, "\\\"\\u003C\\u000A");
        check_written(which, LINTELRYE_ASCII_QUOTED, "\xC3\xA9\xF0\x9F\x98\x80&", 3, "&eacute;&#x1F600;&amp;");
        check_written(6 + which, LINTELRYE_ASCII_QUOTED, "&eacute;", 1, "\xC3\xA9");
        check_written(2 + which, LINTELRYE_TEXT, "&nGt;", 1, "\xE2\x89\xAB\xE2\x83\x92");
        check_written(2 + which, LINTELRYE_SCRIPT_SINGLE, "it\\'s", 1, "it's");
        check_written(2 + which, LINTELRYE_JSON, "\\u003c\\uD83D\\uDE00\\/", 3, "<\xF0\x9F\x98\x80/");
        check(is(of(2 + which, LINTELRYE_JSON, "a\\uD83Db", OUTPUT), LINTELRYE_LONE_SURROGATE, 0, 0, 0, 1) && holds(""), "half a pair", 2 + which);
        check(is(of(2 + which, LINTELRYE_JSON, "ab\\x", OUTPUT), LINTELRYE_NOT_A_FORM, 0, 0, 0, 2) && holds(""), "no JSON string", 2 + which);
        check_written(4 + which, LINTELRYE_QUOTED, "Mum &amp; Dad&#x27;s", 2, "Mum & Dad's");
        check_written(6 + which, LINTELRYE_TEXT, "&#0;", 1, "\xEF\xBF\xBD");
        check(is(of(4 + which, LINTELRYE_TEXT_MINIMAL, "a&lt;&gt;", OUTPUT), LINTELRYE_NOT_A_FORM, 0, 0, 0, 5) && holds(""), "no form", 4 + which);
    }
    check_longest();
    check_without_output();
    check_closing();
    check_left();
    check_page();
    check_parts();
    check_view();
    printf("c/check: %s\n", failed ? "FAILED" : "what the header says holds");
    return failed != 0;
}
