/* Lintelrye for C and C++: HTML escaping and unescaping with proofs, into a buffer that the caller lends.
 *
 *     cc -Iinclude page.c "$(tools/archive)/liblintelrye_c.a" -o page         or, once installed (tools/install):
 *     cc page.c $(pkg-config --cflags --libs lintelrye) -o page
 *
 * Four operations, each as a copying and as a borrowing call. Every one of these takes a context by its number, a text, and an output that the caller
 * lends, and returns seven numbers. lintelrye_check needs no output: it tells whether lintelrye_take would take a text, and returns three numbers.
 * No call allocates, keeps a pointer or writes to a global, and every call ends.
 *
 * What a caller owes, and all that is owed:
 *   - `text` can be read for `text_length` bytes, and `output` read and written for `output_length` bytes, during the call;
 *   - these two do not overlap, and nobody else writes to them during the call.
 * A null pointer is fine where its length is 0. The text need not end in a NUL, no result does, and a NUL is a character like any other.
 * The text can be any bytes, the context any number: what does not fit is refused.
 *
 * What a call leaves:
 *   - status LINTELRYE_PASSED: the first `length` bytes of the output are the result, the others keep their values;
 *   - any other status: a refusal, and every byte of the output keeps its value;
 *   - a borrowing call, where nothing is replaced: `same` is 1, and every byte of the output keeps its value; the result is the text itself.
 * lintelrye_view gives the result in every case.
 *
 * Escaping depends on the place: choose the context of the place where the result goes. No context makes a text safe
 *   - as a URL (href, src, action): double_quoted keeps `javascript:alert(1)` as it is, so judge the URL itself first;
 *   - in a template literal of a script (between backticks): no context escapes ` or ${;
 *   - in script or CSS outside a string, in a comment, or as the name of a tag or attribute.
 * LINTELRYE_SAFE is no sanitizer: like LINTELRYE_QUOTED it is right between tags and in attributes with quotes, and nowhere else. An empty text in
 * LINTELRYE_UNQUOTED is nothing at all, and the attribute then takes what follows as its value: write quotes.
 * For a script string in an attribute, such as onclick="f('HERE')": inner context first, then the outer one. Encode the name by SCRIPT_SINGLE, put f(' and
 * ') around the result, and encode that whole handler by DOUBLE_QUOTED (c/event_button.c). The other order lets a quote in the name end the string.
 *
 * Which context goes where (tools/places_table.py --header):
 *
 *   place                    minimal  text     double   single   quoted   safe     unquoted  js '     js "     js both  css '     css "     css both  raw            json     ascii
 *   element text             NC       NC       NC       NC       NC       NC       N         s '      s "      s "      s '       s "       s "       x </           s "      NC27
 *   title                    NC       NC       NC       NC       NC       NC       N         s '      s "      s "      s '       s "       s "       x </title>     s "      NC27
 *   textarea                 NC       NC       NC       NC       NC       NC       N         s '      s "      s "      s '       s "       s "       x </textarea>  s "      NC27
 *   attribute "              x "      x "      NC       x "      NC       NC       N         x "      x "      x "      x "       x "       x "       x "            x "      NC27
 *   attribute '              x '      x '      x '      NC       NC       NC       N         x '      x '      x '      x '       x '       x '       x '            x '      NC27
 *   attribute, no quotes     x space  x space  x space  x space  x space  x space  N         x space  x space  x space  x space   x space   x space   x space        x space  x space
 *   script element           s &      s &      s "      s &      s "      s "      s space   s '      s "      s "      s '       s "       s "       s <!--         s "      s "
 *   style element            s &      s &      s "      s &      s "      s "      s space   s '      s "      s "      s '       s "       s "       x </style>     s "      s "
 *   JS string '              x '      x '      x '      x \      x \      x \      s space   yes      x '      yes      s <       x '       s <       x '            x '      x \
 *   JS string "              x "      x "      x \      x "      x \      x \      s space   x "      yes      yes      x "       s <       s <       x "            yes      x \
 *   JS string ' before 2019  x '      x '      x '      x \      x \      x \      x U+2028  yes      x '      yes      x U+2028  x '       x U+2028  x '            x '      x \
 *   JS string " before 2019  x "      x "      x \      x "      x \      x \      x U+2028  x "      yes      yes      x "       x U+2028  x U+2028  x "            yes      x \
 *   JS template              x \      x \      x \      x \      x \      x \      s space   x `      x `      x `      x `       x `       x `       x \            x `      x \
 *   CSS string '             x '      x '      x '      x \      x \      x \      s space   s <      x '      s <      N         x '       N         x '            x '      x \
 *   CSS string "             x "      x "      x \      x "      x \      x \      s space   x "      s <      s <      x "       N         N         x "            s <      x \
 *   JSON string              x "      x "      x \      x "      x \      x \      s space   x "      x <      x '      x "       x <       x '       x "            yes      x \
 *
 * End of the table.
 * In every cell "yes", "N", "NC" and "NC27" what encode writes stays in the place where it is put, whatever is typed and whatever follows, and the place holds the text, by
 * proof: yes every text, N all but NUL (it is held as U+FFFD), NC all but NUL (U+FFFD, or dropped) and CR (LF), NC27 all but these and 27 of the control
 * characters U+0080 to U+009F, whose numbers a browser takes for other characters. In a cell "s" every text stays, but the one that is shown is held as another one; in a cell "x" the text that is shown leaves the place. An attribute value without quotes cannot be empty.
 *
 * lintelrye_fill_page fills a whole page: it makes the copying call of encode for each record of a list, and writes the results one behind the other.
 *
 * Script text that others wrote is judged by lintelrye_closing_tag, at the end of this file. Its answer "none" does not make a text safe to put into a
 * page: judge the text together with the </script> that is to follow it.
 *
 * For firmware:
 *   - no heap, no static data that is written, no recursion, no floating point; every call is reentrant, and any number of threads can call at once;
 *   - the deepest stack of a call is below LINTELRYE_STACK_AT_MOST bytes. On x86-64 leaf functions use the red zone of 128 bytes below the stack pointer, as
 *     the System V convention allows: an interrupt that runs on the same stack has to keep clear of it;
 *   - the functions that the archive needs from outside are memcpy, memmove and memset: with -nostdlib, bring your own;
 *   - at most LINTELRYE_CODE_AT_MOST bytes of code and LINTELRYE_CONSTANTS_AT_MOST of constants, which can lie in read-only memory;
 *   - any x86-64 processor (SSE2, no AVX), any aarch64 processor (ARMv8-A with NEON, little-endian). Position-independent code for ELF.
 * tools/check_symbols finds these in the object code, and fails if a limit is passed.
 * docs/RULES.md has every rule, docs/TRUST.md what is proved, tested and trusted.
 */
#ifndef LINTELRYE_H
#define LINTELRYE_H

#if !defined(__ELF__) || !defined(__LP64__) || !(defined(__x86_64__) || (defined(__aarch64__) && !defined(__AARCH64EB__)))
#error "Lintelrye has archives for x86-64 and for little-endian aarch64 on ELF systems such as Linux, with 64-bit pointers, and none for this target"
#endif

#include <stddef.h>
#include <stdint.h>

/* The version of this header. The archive and the Rust crate have the same, or they do not fit together: a program that was compiled with this header refers
 * to a symbol of the archive that is named after the version, from an ELF note of 28 bytes in each object file, and does not link with an archive of another
 * one. Define LINTELRYE_ANY_VERSION to leave the note out. */
#define LINTELRYE_VERSION "1.0.0"
#define LINTELRYE_VERSION_MAJOR 1
#define LINTELRYE_VERSION_MINOR 0
#define LINTELRYE_VERSION_PATCH 0
#ifndef LINTELRYE_ANY_VERSION
__asm__(".pushsection .note.lintelrye,\"a\",%note\n\t.balign 4\n\t.long 10, 4, 1\n\t.asciz \"Lintelrye\"\n\t.balign 4\n\t"
        ".long lintelrye_version_1_0_0 - .\n\t.popsection");
#endif

/* Limits of the object code, in bytes, on every processor: see "For firmware" above. */
#define LINTELRYE_STACK_AT_MOST 8192
#define LINTELRYE_CODE_AT_MOST 131072
#define LINTELRYE_CONSTANTS_AT_MOST 49152

#ifdef __cplusplus
extern "C" {
#endif

/* The longest text that a call takes, in bytes. */
#define LINTELRYE_TEXT_LIMIT 65536

/* An output of so many bytes is enough for every text of n bytes: to encode it in contexts 0 to 14; to encode it in LINTELRYE_ASCII_QUOTED, whose longest
 * reference has 22 bytes for a character of 3; to decode or browse it. To take it, n bytes are enough, and lintelrye_check tells how many it needs. */
#define LINTELRYE_ENCODED_AT_MOST(n) (6 * (n))
#define LINTELRYE_ASCII_ENCODED_AT_MOST(n) (7 * (n) + (n) / 3)
#define LINTELRYE_DECODED_AT_MOST(n) ((n) + (n) / 5)

/* The contexts: where on the page the result goes. */
enum lintelrye_context {
    LINTELRYE_TEXT_MINIMAL = 0,  /* between tags, not in script or style elements: & and < are replaced */
    LINTELRYE_TEXT = 1,          /* between tags, not in script or style elements: > is replaced too */
    LINTELRYE_DOUBLE_QUOTED = 2, /* in an attribute between double quotes */
    LINTELRYE_SINGLE_QUOTED = 3, /* in an attribute between single quotes */
    LINTELRYE_QUOTED = 4,        /* in an attribute between quotes of either kind */
    LINTELRYE_SAFE = 5,          /* as QUOTED, and / is replaced; no sanitizer, see above */
    LINTELRYE_UNQUOTED = 6,      /* in an attribute without quotes; an empty text needs quotes */
    LINTELRYE_SCRIPT_SINGLE = 7, /* in a string of a script element, between single quotes */
    LINTELRYE_SCRIPT_DOUBLE = 8, /* in a string of a script element, between double quotes */
    LINTELRYE_SCRIPT_QUOTED = 9, /* in a string of a script element, between quotes of either kind */
    LINTELRYE_STYLE_SINGLE = 10, /* in a string of a style element, between single quotes; a NUL becomes U+FFFD */
    LINTELRYE_STYLE_DOUBLE = 11, /* in a string of a style element, between double quotes; a NUL becomes U+FFFD */
    LINTELRYE_STYLE_QUOTED = 12, /* in a string of a style element, between quotes of either kind; a NUL becomes U+FFFD */
    LINTELRYE_SCRIPT_RAW = 13,   /* the whole text of a script element, in one call, or by lintelrye_script_raw_part; encode only; no JSON encoder (<!-- becomes <\!--) */
    LINTELRYE_JSON = 14,         /* in a JSON string, inside a script element or in a JSON document; not in an attribute */
    LINTELRYE_ASCII_QUOTED = 15  /* as QUOTED, and every character above 7F as a reference: the result is ASCII. By name where HTML has one for that
                                  * character alone, the shortest and of several as short the first by bytes (&COPY;, &mldr;, &half;); else &#xE9; */
};

/* The statuses. What to do about each refusal:
 *   TOO_LONG        cut the text, at the end of a character (to undo escaping: not within a reference or escape); for raw script use the calls for parts
 *   NOT_UTF8        the text is no UTF-8: convert it from its encoding, or leave it out; `place` says where it goes wrong
 *   CUT_SHORT       read on: the text ends within a character; or cut it at `place`
 *   NO_ROOM         call again with `length` bytes of output, or leave this text out
 *   NOT_A_FORM      the stored text was not written by encode in this context: treat it as plain text and encode it, or report it
 *   LONE_SURROGATE  the JSON was cut or damaged at `place`: refuse it
 *   BAD_CONTEXT, BAD_RANGE, FINISHED: an error of the program that calls
 * Where several refusals apply, the first of this order is given: BAD_CONTEXT, BAD_RANGE, TOO_LONG, NOT_UTF8 or CUT_SHORT (never both),
 * NOT_A_FORM or LONE_SURROGATE (never both), NO_ROOM; in the calls for parts FINISHED goes before all others. */
enum lintelrye_status {
    LINTELRYE_PASSED = 0,
    LINTELRYE_TOO_LONG = 1,    /* the text is longer than LINTELRYE_TEXT_LIMIT bytes */
    LINTELRYE_NOT_UTF8 = 2,    /* the text is not valid UTF-8, and not cut short; `place` is the length of its longest valid prefix */
    LINTELRYE_NO_ROOM = 3,     /* the output is shorter than the result; `length` is the length needed; never from check */
    LINTELRYE_NOT_A_FORM = 4,  /* check and take: encode writes no such text; `place` is the length of its longest prefix that encode writes.
                                * decode of JSON: RFC 8259 allows no such string; `place` is the length of its longest prefix that it allows */
    LINTELRYE_BAD_CONTEXT = 5, /* the call has no such context: encode has 0 to 15, decode, check and take all of these but 13, browse 0 to 6 and 15 */
    LINTELRYE_CUT_SHORT = 7,   /* the text ends within a character that more bytes could complete; `place` is where that character begins */
    LINTELRYE_BAD_RANGE = 8,   /* a record of a page only: the part that it names leaves the text */
    LINTELRYE_FINISHED = 9,    /* the calls for parts only: a finish has passed */
    LINTELRYE_LONE_SURROGATE = 10 /* decode of JSON only: half a surrogate pair stands alone; `place` is where its backslash is */
};

/* The answer of a call. */
typedef struct lintelrye_answer {
    uint64_t status;   /* LINTELRYE_PASSED, or the refusal */
    uint64_t length;   /* the result's length; after NO_ROOM the length needed; after any other refusal 0 */
    uint64_t same;     /* 1 exactly if nothing was replaced, so that the result is the text; after a refusal 0 */
    uint64_t replaced; /* how many places were replaced: characters by encode and take, references or escapes by decode and browse; after a refusal 0 */
    uint64_t place;    /* after NOT_UTF8, CUT_SHORT, NOT_A_FORM and LONE_SURROGATE the length of the longest correct prefix; otherwise 0 */
    uint64_t left;     /* decode in contexts 0 to 6 and 15: the place of the `&` of the first reference that stayed; 0 if none did, and after a refusal */
    uint64_t reason;   /* why it stayed, see lintelrye_reason; 0 if none did, in every other call, and after a refusal */
} lintelrye_answer;

/* The answer of check. */
typedef struct lintelrye_checked {
    uint64_t status; /* LINTELRYE_PASSED, or the refusal; never LINTELRYE_NO_ROOM */
    uint64_t length; /* the length of what take gives; after a refusal 0 */
    uint64_t place;  /* after NOT_UTF8, CUT_SHORT and NOT_A_FORM the length of the longest correct prefix; otherwise 0 */
} lintelrye_checked;

/* Why a reference stayed. One that has both a byte that is no digit and too large a number has NO_DIGIT. */
enum lintelrye_reason {
    LINTELRYE_NO_END = 1,       /* there is no `;` before the next `&` or the end */
    LINTELRYE_EMPTY = 2,        /* its body is empty: `&;`, `&#;`, `&#x;` or `&#X;` */
    LINTELRYE_UNKNOWN_NAME = 3, /* its body is no name of the table */
    LINTELRYE_NO_DIGIT = 4,     /* a byte of its number is no digit of the base */
    LINTELRYE_NOT_ALLOWED = 5   /* decode does not allow its number */
};

/* The archive's names of the calls that return or write an answer end in how many numbers it has. A program that was compiled with a header of another
 * record does not link with this archive, nor one compiled with this header with another archive. */
#define lintelrye_encode lintelrye_encode_7
#define lintelrye_encode_borrowing lintelrye_encode_borrowing_7
#define lintelrye_decode lintelrye_decode_7
#define lintelrye_decode_borrowing lintelrye_decode_borrowing_7
#define lintelrye_take lintelrye_take_7
#define lintelrye_take_borrowing lintelrye_take_borrowing_7
#define lintelrye_browse lintelrye_browse_7
#define lintelrye_browse_borrowing lintelrye_browse_borrowing_7
#define lintelrye_fill_page lintelrye_fill_page_7
#define lintelrye_script_raw_part_in lintelrye_script_raw_part_7
#define lintelrye_script_raw_finish_in lintelrye_script_raw_finish_7

/* encode: escapes the text for the context. Every character that the context replaces is replaced, everything else is copied. */
lintelrye_answer lintelrye_encode(uint32_t context, const uint8_t *text, size_t text_length, uint8_t *output, size_t output_length);

/* encode as a borrowing call: where nothing is replaced it needs no room and leaves the output alone. */
lintelrye_answer lintelrye_encode_borrowing(uint32_t context, const uint8_t *text, size_t text_length, uint8_t *output, size_t output_length);

/* decode: undoes replacements: character references such as &amp; in contexts 0 to 6 and 15, escapes such as \x3C in the strings. All else is copied, and
 * what was decoded is not decoded again. The result can be longer than the text, by a fifth at most (&nGt; gives six bytes). */
lintelrye_answer lintelrye_decode(uint32_t context, const uint8_t *text, size_t text_length, uint8_t *output, size_t output_length);

/* decode as a borrowing call. */
lintelrye_answer lintelrye_decode_borrowing(uint32_t context, const uint8_t *text, size_t text_length, uint8_t *output, size_t output_length);

/* check: tells whether encode writes such a text in the context, and how long the text is that take gives. Status, length and place are those of take,
 * into whatever output; only where take gives NO_ROOM, check passes with that same length. */
lintelrye_checked lintelrye_check(uint32_t context, const uint8_t *text, size_t text_length);

/* take: undoes exactly what encode writes in the context. Every other text, if it is not too long and is valid UTF-8, is refused with NOT_A_FORM. */
lintelrye_answer lintelrye_take(uint32_t context, const uint8_t *text, size_t text_length, uint8_t *output, size_t output_length);

/* take as a borrowing call. */
lintelrye_answer lintelrye_take_borrowing(uint32_t context, const uint8_t *text, size_t text_length, uint8_t *output, size_t output_length);

/* browse, contexts 0 to 6 and 15: undoes character references as a browser does, by the HTML Standard. The longest name counts, 106 names need no `;`, and
 * any other byte ends a number. In 2, 3, 4, 6 and 15 (attributes) a name without `;` stays before `=` or an ASCII letter or digit; 0, 1 and 5 are text. Of
 * the numbers 0, surrogates and those above 10FFFF hex give U+FFFD, and 27 from 80 to 9F hex the character that windows-1252 has there. */
lintelrye_answer lintelrye_browse(uint32_t context, const uint8_t *text, size_t text_length, uint8_t *output, size_t output_length);

/* browse as a borrowing call. */
lintelrye_answer lintelrye_browse_borrowing(uint32_t context, const uint8_t *text, size_t text_length, uint8_t *output, size_t output_length);

/* The most records that a page takes. */
#define LINTELRYE_FIELD_LIMIT 256

/* A record of a page. */
typedef struct lintelrye_field {
    uint32_t context;        /* set by the caller: the context of the place where the result goes */
    uint64_t start;          /* set by the caller: where the record's part of the text begins */
    uint64_t length;         /* set by the caller: how many bytes it has */
    uint64_t begins;         /* set by the call: where the result begins in the output; after a refusal 0 */
    lintelrye_answer answer; /* set by the call: the answer of lintelrye_encode for the part, or BAD_RANGE */
} lintelrye_field;

/* What fill_page answers. */
typedef struct lintelrye_filled {
    uint64_t status; /* LINTELRYE_PASSED, or the refusal of the record that stopped the page, or LINTELRYE_TOO_LONG for a list that is too long */
    uint64_t passed; /* how many records passed; the refused one has this index */
} lintelrye_filled;

/* fill_page: encodes the parts of one text that the records name, in their order, each into the part of the output that is still free: what forty calls
 * of lintelrye_encode would leave, with one answer to look at. Two records can name the same part. The limit of the text is that of each part.
 *
 * The first refusal stops the page: that record holds it, the results before it stand, and the later records and the bytes past the last result keep
 * their values. After NO_ROOM the record's `length` is what that record needs. A part that leaves the text is BAD_RANGE (place and length 0), whatever its
 * start and length are; it goes after BAD_CONTEXT and before the other refusals. A list of more than LINTELRYE_FIELD_LIMIT records is TOO_LONG, with
 * `passed` 0, and nothing is touched.
 *
 * Beside what every caller owes: `fields` can be read and written for `count` records during the call, and overlaps neither text nor output. */
lintelrye_filled lintelrye_fill_page(lintelrye_field *fields, size_t count, const uint8_t *text, size_t text_length, uint8_t *output, size_t output_length);

/* The answer about a script element's text. */
typedef struct lintelrye_closing {
    uint64_t status; /* LINTELRYE_PASSED, or LINTELRYE_TOO_LONG, LINTELRYE_NOT_UTF8 or LINTELRYE_CUT_SHORT */
    uint64_t found;  /* 1 if an end tag in the text ends the element; 0 if none does, and after a refusal */
    uint64_t place;  /* found 1: where that tag's `<` is; after NOT_UTF8 and CUT_SHORT the length of the longest valid prefix; otherwise 0 */
} lintelrye_closing;

/* closing_tag: where the text of a script element ends, by the HTML Standard's script data states: at the first end tag that a browser takes for the
 * element's own. It takes the text after <script>, and no pages.
 *
 * FOUND 0 DOES NOT MAKE A TEXT SAFE TO EMBED. In <!--<script> there is no end tag, but it hides the </script> that you write after it, and the page goes on
 * inside the script. So do not judge a supplier's text alone: judge it with </script> after it. It is right exactly if the place is the text's length:
 *
 *     memcpy(page + n, "</script>", 9);                                    (page has the text, n bytes, and room for nine more)
 *     lintelrye_closing c = lintelrye_closing_tag(page, n + 9);
 *     int right = c.status == LINTELRYE_PASSED && c.found == 1 && c.place == n;
 *
 * What lintelrye_encode writes in LINTELRYE_SCRIPT_RAW is always right, within the limit. */
lintelrye_closing lintelrye_closing_tag(const uint8_t *text, size_t text_length);

/* A raw script by parts: LINTELRYE_SCRIPT_RAW for a text that is longer than your buffer.
 *
 * Start a state, give it the parts of the text one by one, and finish it. What the passed calls write, one after the other, is what one lintelrye_encode of the
 * parts joined would write, wherever the text is cut, within a character too. A call writes all but the last few bytes (at most eight) that more text could still
 * change; they are held in the state, and come first in what the next call writes. So each output is valid UTF-8 by itself and can be sent on at once.
 *
 *     lintelrye_script_raw state = LINTELRYE_SCRIPT_RAW_START;
 *     uint8_t page[LINTELRYE_SCRIPT_RAW_AT_MOST(4096)];
 *     while ((n = read_some(part, 4096)) > 0) {
 *         lintelrye_answer a = lintelrye_script_raw_part(&state, part, n, page, sizeof page);
 *         if (a.status != LINTELRYE_PASSED) { return a.status; }
 *         send(page, a.length);
 *     }
 *     a = lintelrye_script_raw_finish(&state, page, sizeof page);    (and send that too)
 *
 * The answer: `length` and `replaced` (the backslashes) count what this call writes; `same` is always 0; `place` counts from the start of the text and can lie in
 * an earlier part. Refusals, in this order: FINISHED, TOO_LONG (more than LINTELRYE_TEXT_LIMIT bytes in all), NOT_UTF8, CUT_SHORT (at finish only), NO_ROOM. A refused
 * call leaves the state and the output as they were: after NO_ROOM give the same part more room, or a shorter part; after a refused finish, more parts.
 *
 * The state is yours: 32 bytes, no pointers. All zeros is a started state. A copy of it is a place to come back to. Any value of it is safe to use. */
typedef struct lintelrye_script_raw {
    uint64_t opaque[4];
} lintelrye_script_raw;

/* A started state. */
#define LINTELRYE_SCRIPT_RAW_START {{0, 0, 0, 0}}

/* An output of so many bytes is enough for every part of n bytes; of LINTELRYE_SCRIPT_RAW_AT_MOST(0) bytes for finish. */
#define LINTELRYE_SCRIPT_RAW_AT_MOST(n) ((n) + (n) / 4 + 10)

/* The calls as the archive has them; the functions below make them. `held` is the eight bytes of opaque[0], `numbers` the other three numbers. */
lintelrye_answer lintelrye_script_raw_part_in(uint8_t *held, uint64_t *numbers, const uint8_t *text, size_t text_length, uint8_t *output, size_t output_length);
lintelrye_answer lintelrye_script_raw_finish_in(uint8_t *held, uint64_t *numbers, uint8_t *output, size_t output_length);

#ifdef __cplusplus
#define LINTELRYE_HELD(state) reinterpret_cast<uint8_t *>((state)->opaque)
#else
#define LINTELRYE_HELD(state) ((uint8_t *)(state)->opaque)
#endif

/* start: makes a state a started one. */
static inline void lintelrye_script_raw_start(lintelrye_script_raw *state)
{
    state->opaque[0] = 0;
    state->opaque[1] = 0;
    state->opaque[2] = 0;
    state->opaque[3] = 0;
}

/* part: encodes the next part of the text. The state overlaps neither the text nor the output. */
static inline lintelrye_answer lintelrye_script_raw_part(lintelrye_script_raw *state, const uint8_t *text, size_t text_length, uint8_t *output,
                                                         size_t output_length)
{
    return lintelrye_script_raw_part_in(LINTELRYE_HELD(state), state->opaque + 1, text, text_length, output, output_length);
}

/* finish: ends the text, and writes what is held. */
static inline lintelrye_answer lintelrye_script_raw_finish(lintelrye_script_raw *state, uint8_t *output, size_t output_length)
{
    return lintelrye_script_raw_finish_in(LINTELRYE_HELD(state), state->opaque + 1, output, output_length);
}

/* view: the result of a call, from the text, the output and the answer. It returns where the result begins and puts its length into *length: the whole
 * text where `same` is 1, otherwise the first `length` bytes of the output, or length 0 where the output is shorter. It never refuses; after a
 * refusal the length is 0. */
static inline const uint8_t *lintelrye_view(const uint8_t *text, size_t text_length, const uint8_t *output, size_t output_length, lintelrye_answer answer,
                                            size_t *length)
{
    if (answer.same == 1) {
        *length = text_length;
        return text;
    }
    *length = answer.length <= output_length ? answer.length : 0;
    return output;
}

#ifdef __cplusplus
}
#endif

#endif
