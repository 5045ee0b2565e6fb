/* Writes a button for each landing, whose handler has the landing's name in a script string: a script string inside an attribute. Two encode calls, the
 * inner one first. The whole handler, not the name alone, is the text of the attribute. */
#include <stdbool.h>
#include <stdio.h>
#include <string.h>

#include "lintelrye.h"

static const char *const landings[] = {"Hall", "Mum & Dad's", "The \"den\" </script>", "Attic\n(mind your head)", "');alert('x"};

enum { NAME = 40, HANDLER = 16 + LINTELRYE_ENCODED_AT_MOST(NAME), ATTRIBUTE = LINTELRYE_ENCODED_AT_MOST(HANDLER) };

/* Appends bytes of our own to a handler. Leaves it as it was where they do not fit. */
static bool put(uint8_t *handler, size_t *used, const char *script)
{
    size_t length = strlen(script);
    if (length > HANDLER - *used) {
        return false;
    }
    memcpy(handler + *used, script, length);
    *used += length;
    return true;
}

/* Writes the text of an event attribute that calls landing with a name, and gives its length; 0 where the library refuses the name or the room. The
 * attribute goes between double quotes. */
static size_t write_handler(const char *name, uint8_t *output, size_t room)
{
    uint8_t handler[HANDLER];
    size_t used = 0;
    bool begun = put(handler, &used, "landing('");
    lintelrye_answer inner = lintelrye_encode(LINTELRYE_SCRIPT_SINGLE, (const uint8_t *)name, strlen(name), handler + used, HANDLER - used);
    if (!begun || inner.status != LINTELRYE_PASSED) {
        return 0;
    }
    used += inner.length;
    if (!put(handler, &used, "')")) {
        return 0;
    }
    lintelrye_answer outer = lintelrye_encode(LINTELRYE_DOUBLE_QUOTED, handler, used, output, room);
    return outer.status == LINTELRYE_PASSED ? outer.length : 0;
}

int main(void)
{
    uint8_t attribute[ATTRIBUTE];
    puts("<script>function landing(name) { alert(name) }</script>");
    for (size_t k = 0; k < sizeof landings / sizeof landings[0]; k++) {
        size_t length = write_handler(landings[k], attribute, sizeof attribute);
        if (length == 0) {
            fprintf(stderr, "event_button: landing %zu does not fit\n", k);
            return 1;
        }
        printf("<button onclick=\"%.*s\">%zu</button>\n", (int)length, (const char *)attribute, k);
    }
    return 0;
}
