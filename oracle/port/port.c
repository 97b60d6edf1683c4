/* Answers case lines by the functions of libcapi.a.
 *     port NAME < cases
 */
#include "port.h"

#include <stdio.h>
#include <string.h>

#include "lent.h"
#include "lines.h"

static const struct {
    const char *name, *kind;
    answer *call;
} known[] = {
    {"builds", "table", answer_build},
    {"display", "graph", answer_display},
    {"readings", "table", answer_table_reading},
    {"readings", "graph", answer_graph_reading},
    {"classes", "class", answer_class},
    {"classes", "store", answer_store},
    {"priorities", "tree", answer_tree},
    {"plans", "plan", answer_plan},
    {"plans", "run", answer_run},
    {"angles", "text", answer_angle_text},
    {"angles", "value", answer_angle_value},
};

static answer *answer_to(const char *name, const char *kind) {
    for (size_t i = 0; i < sizeof known / sizeof *known; i++)
        if (strcmp(known[i].name, name) == 0 && strcmp(known[i].kind, kind) == 0) return known[i].call;
    return NULL;
}

int main(int count, char **args) {
    static char line[8 * MOST];
    char *fields[128];
    while (count == 2 && fgets(line, sizeof line, stdin) != NULL) {
        case_number++;
        size_t found = fields_of(line, fields, 128);
        answer *call = found > 0 ? answer_to(args[1], fields[0]) : NULL;
        check(call != NULL, "not a case of this name");
        call(fields + 1, found - 1);
        putchar('\n');
    }
    return count == 2 ? 0 : 2;
}
