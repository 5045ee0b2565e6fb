/* Fills one page of a lift's journey log into one fixed buffer and prints it. The names of the landings are typed by the people who live there, so
 * each is encoded for the context of its place: an attribute, element text, a script string, and a script string inside an event attribute, which takes two
 * calls, the inner one first. All forty-eight fields of the page are encoded in one call, with one answer to look at. A line that no longer fits is left out whole, and the page says so. */
#include <stdbool.h>
#include <stdio.h>
#include <string.h>

#include "lintelrye.h"

struct journey {
    const char *time;
    const char *landing;
    const char *event;
};

static const struct journey journeys[] = {
    {"07:58", "Hall", "called"},
    {"07:59", "Mum & Dad's", "arrived"},
    {"08:14", "Attic\n(mind your head)", "door held > 30 s"},
    {"08:20", "The \"den\" </script>", "arrived"},
    {"08:31", "Salle \xC3\xA0 manger", "called"},
    {"08:32", "Mum & Dad's", "arrived"},
    {"08:47", "Hall", "arrived"},
    {"09:05", "Mum & Dad's", "called"},
};

/* The page, and how much of it is written and may be written. The last bytes are kept for its end, which must always fit. */
enum { PAGE = 1400, END = 104 };

struct page {
    uint8_t bytes[PAGE];
    size_t used;
    size_t room;
};

/* Appends words of our own as they are. Leaves the page as it was where they do not fit. */
static bool put(struct page *page, const char *words)
{
    size_t length = strlen(words);
    if (length > page->room - page->used) {
        return false;
    }
    memcpy(page->bytes + page->used, words, length);
    page->used += length;
    return true;
}

/* The fields of a line in the order in which they stand in it, and all fields of the page: each names its part of the one text. */
enum { TITLE, TIME, NAME, EVENT, SCRIPT, HANDLER, IN_LINE };
enum { LINES = sizeof journeys / sizeof journeys[0], FIELDS = LINES * IN_LINE, TEXT = 1024, RESULTS = 1536 };

struct log {
    uint8_t text[TEXT];
    size_t text_length;
    lintelrye_field fields[FIELDS];
    size_t count;
    uint8_t results[RESULTS];
};

/* Adds a field to the log: its text behind the others'. One that does not fit leaves the text, and the library refuses it. */
static void add(struct log *log, uint32_t context, const char *text)
{
    size_t length = strlen(text);
    lintelrye_field *field = &log->fields[log->count];
    field->context = context;
    field->start = log->text_length;
    field->length = length;
    log->count += 1;
    if (length <= TEXT - log->text_length) {
        memcpy(log->text + log->text_length, text, length);
        log->text_length += length;
    }
}

/* Adds the handler of a button, a script that has a name in a string: the name is written for the string here, and the whole handler for the attribute
 * with the other fields. A name that is too long for it gets a handler that does nothing. */
static void add_handler(struct log *log, const char *name)
{
    static const char before[] = "call('", after[] = "')";
    char handler[96];
    size_t used = sizeof before - 1;
    lintelrye_answer inner = lintelrye_encode(LINTELRYE_SCRIPT_SINGLE, (const uint8_t *)name, strlen(name), (uint8_t *)handler + used, sizeof handler - used - sizeof after);
    memcpy(handler, before, used);
    memcpy(handler + used + inner.length * (inner.status == LINTELRYE_PASSED), after, sizeof after);
    add(log, LINTELRYE_DOUBLE_QUOTED, inner.status == LINTELRYE_PASSED ? handler : "");
}

/* Adds the fields of a journey's line. */
static void add_journey(struct log *log, const struct journey *journey)
{
    add(log, LINTELRYE_DOUBLE_QUOTED, journey->landing);
    add(log, LINTELRYE_TEXT, journey->time);
    add(log, LINTELRYE_TEXT, journey->landing);
    add(log, LINTELRYE_TEXT, journey->event);
    add(log, LINTELRYE_SCRIPT_SINGLE, journey->landing);
    add_handler(log, journey->landing);
}

/* Appends the result of a field. Leaves the page as it was where it does not fit. */
static bool put_field(struct page *page, const struct log *log, const lintelrye_field *field)
{
    size_t length = (size_t)field->answer.length;
    if (length > page->room - page->used) {
        return false;
    }
    memcpy(page->bytes + page->used, log->results + field->begins, length);
    page->used += length;
    return true;
}

/* Appends a journey's line, all of whose fields passed. Where it does not fit, it is left out whole. */
static bool put_line(struct page *page, const struct log *log, const lintelrye_field *line)
{
    size_t before = page->used;
    bool whole = put(page, "<li title=\"") && put_field(page, log, &line[TITLE]) && put(page, "\">") && put_field(page, log, &line[TIME]) &&
                 put(page, " ") && put_field(page, log, &line[NAME]) && put(page, ": ") && put_field(page, log, &line[EVENT]) &&
                 put(page, "<script>landing('") && put_field(page, log, &line[SCRIPT]) && put(page, "')</script> <button onclick=\"") &&
                 put_field(page, log, &line[HANDLER]) && put(page, "\">call</button></li>\n");
    if (!whole) {
        page->used = before;
    }
    return whole;
}

int main(void)
{
    static struct page page;
    static struct log log;
    size_t shown = 0;
    char end[END];
    for (size_t i = 0; i < LINES; i += 1) {
        add_journey(&log, &journeys[i]);
    }
    lintelrye_filled filled = lintelrye_fill_page(log.fields, log.count, log.text, log.text_length, log.results, RESULTS);
    page.room = PAGE - END;
    bool begun = put(&page, "<!DOCTYPE html>\n<meta charset=\"utf-8\">\n<title>Journey log</title>\n"
                            "<script>\nconst seen = [];\nfunction landing(name) { seen.push(name) }\nfunction call(name) { alert('called: ' + name) }\n</script>\n"
                            "<ul>\n");
    while (shown < filled.passed / IN_LINE && put_line(&page, &log, &log.fields[shown * IN_LINE])) {
        shown += 1;
    }
    page.room = PAGE;
    snprintf(end, sizeof end, "</ul>\n<p>%zu lines; %zu did not fit and were left out</p>\n", shown, (size_t)LINES - shown);
    if (!begun || !put(&page, end)) {
        fputs("journey_log: the page is too short for its beginning and end\n", stderr);
        return 1;
    }
    return fwrite(page.bytes, 1, page.used, stdout) == page.used ? 0 : 1;
}
