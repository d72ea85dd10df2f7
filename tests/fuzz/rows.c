#include "rows.h"

#include <stdio.h>
#include <string.h>

unsigned rows_print(const struct rows *r)
{
    const char *group = "";
    unsigned never = 0;
    for (unsigned i = 0; i < r->count; i++) {
        if (strcmp(group, r->row[i].group) != 0)
            printf("%s\n", r->row[i].group);
        group = r->row[i].group;
        printf("%10lu  %s%s\n", r->row[i].hits, r->row[i].name, r->row[i].hits == 0 ? "   NEVER MET" : "");
        never += r->row[i].hits == 0;
    }
    return never;
}
