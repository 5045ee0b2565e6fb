/* Judges the stored fields of a lift, as a nightly job does: whether each is what encode wrote for its context, and how long the name is that was typed.
 * Nothing is written back, so there is no buffer in this program at all. */
#include <stddef.h>
#include <stdio.h>
#include <string.h>

#include "lintelrye.h"

struct field {
    const char *name;
    uint32_t context;
    const char *stored;
};

static const struct field fields[] = {
    {"landing 1", LINTELRYE_TEXT, "Hall"},
    {"landing 2", LINTELRYE_QUOTED, "Mum &amp; Dad&#x27;s"},
    {"landing 3", LINTELRYE_QUOTED, "Mum &amp; Dad's"},
    {"landing 4", LINTELRYE_SCRIPT_SINGLE, "Dad\\'s \\x3Cden>"},
    {"landing 5", LINTELRYE_TEXT, "Salle \xC3\xA0 manger"},
    {"landing 6", LINTELRYE_TEXT, "Salle \xC3"},
    {"landing 7", LINTELRYE_TEXT, "Salle \xE0 manger"},
    {"landing 8", LINTELRYE_TEXT, ""},
    {"landing 9", LINTELRYE_SCRIPT_RAW, "f()"},
};

/* Says what is known of a field, and returns how many faults that is. */
static int judge(const struct field *field)
{
    lintelrye_checked checked = lintelrye_check(field->context, (const uint8_t *)field->stored, strlen(field->stored));
    switch (checked.status) {
    case LINTELRYE_PASSED:
        printf("%s: in form, %u bytes were typed\n", field->name, (unsigned)checked.length);
        return 0;
    case LINTELRYE_NOT_A_FORM:
        printf("%s: not what encode writes, from byte %u on\n", field->name, (unsigned)checked.place);
        return 1;
    case LINTELRYE_NOT_UTF8:
        printf("%s: not UTF-8, from byte %u on\n", field->name, (unsigned)checked.place);
        return 1;
    case LINTELRYE_CUT_SHORT:
        printf("%s: cut off in the character at byte %u\n", field->name, (unsigned)checked.place);
        return 1;
    default:
        printf("%s: its context or its length is wrong\n", field->name);
        return 1;
    }
}

int main(void)
{
    size_t i;
    int faults = 0;
    for (i = 0; i < sizeof fields / sizeof fields[0]; i++) {
        faults += judge(&fields[i]);
    }
    printf("%d of %u fields need a look\n", faults, (unsigned)(sizeof fields / sizeof fields[0]));
    return 0;
}
