#include "catalogue.h"

#include "html.h"
#include "kept.h"
#include "looks.h"
#include "message.h"
#include "output.h"

#include <stdlib.h>
#include <string.h>

#define CHAINS 65536

/* A listed font. Places in the list are counted from 1; 0 is none. */
typedef struct {
    looks of;
    unsigned long file;
    size_t name; /* where the file's name begins in the names */
    uint32_t font;
    int32_t weight;
    size_t next;    /* that has the same dots */
    size_t last;    /* of those that have the same dots, if this is the first of them */
    size_t chained; /* the next first one in its chain */
} listed_font;

static listed_font *list;
static size_t count, room, chains[CHAINS];
static gathered names;
static unsigned long current;
static size_t current_name;

void begin_equal(unsigned long file, const char *name)
{
    current = file;
    current_name = names.length;
    gather(&names, name, strlen(name) + 1);
}

void forget_equal(void)
{
    free(list);
    free(names.bytes);
    list = NULL;
    names.bytes = NULL;
    count = room = names.length = names.room = 0;
    memset(chains, 0, sizeof chains);
}

/* ---- the list ---- */

static listed_font *add_font(uint32_t number, int32_t weight)
{
    listed_font *made;

    if (count == room) {
        room = 2 * room + 64;
        list = realloc(list, room * sizeof *list);
        if (!list)
            stop("no memory for the list");
    }
    made = &list[count++];
    memset(made, 0, sizeof *made);
    made->of = looks_of(number);
    made->file = current;
    made->name = current_name;
    made->font = number;
    made->weight = weight;
    return made;
}

/* Puts the last font of the list with those that have its dots; answers the first of them, or NULL
 * if it is that itself. */
static const listed_font *put_last(void)
{
    listed_font *made = &list[count - 1];
    size_t *chain = &chains[made->of.dots[0] % CHAINS], at;

    for (at = *chain; at; at = list[at - 1].chained) {
        listed_font *first = &list[at - 1];
        if (same_dots(&first->of, &made->of)) {
            list[first->last - 1].next = count;
            first->last = count;
            return first;
        }
    }
    made->chained = *chain;
    made->last = *chain = count;
    return NULL;
}

static void write_link(FILE *to, const listed_font *of)
{
    fprintf(to, "<a href=\"#f%lun%u\">", of->file, (unsigned)of->font);
    html_name(to, (const char *)names.bytes + of->name);
    fprintf(to, ", font %u</a>", (unsigned)of->font);
}

void note_equal(FILE *to, uint32_t number, int32_t weight)
{
    const listed_font *made = add_font(number, weight), *first = put_last();

    if (!first)
        return;
    fputs("<p class=\"same\">Same dots as ", to);
    write_link(to, first);
    fprintf(to, "%s.</p>\n", same_fields(&first->of, &made->of)
                                 ? ", and the same header and widths"
                                 : "; header or widths differ");
}

/* ---- the groups ---- */

/* What the fonts of a group have in common. */
typedef struct {
    unsigned long fonts, closed;
    int alike; /* header and widths too */
} group;

static group look_at_group(const listed_font *first)
{
    group made = {0, 0, 1};
    const listed_font *each = first;

    for (;; each = &list[each->next - 1]) {
        made.fonts++;
        made.closed += is_closed(each->weight) != 0;
        made.alike &= same_fields(&first->of, &each->of);
        if (!each->next)
            return made;
    }
}

static void write_members(FILE *to, const listed_font *each)
{
    for (;; each = &list[each->next - 1]) {
        fputs("<li>", to);
        write_link(to, each);
        fprintf(to, ": %s%s</li>\n", weight_name(each->weight),
                is_closed(each->weight) ? ", <strong>closed series</strong>" : "");
        if (!each->next)
            return;
    }
}

static void write_group(FILE *to, const listed_font *first)
{
    group of = look_at_group(first);

    fprintf(to, "<li>%lu fonts with the same dots, %s.%s\n<ul>\n", of.fonts,
            of.alike ? "the same header and the same widths" : "but another header or other widths",
            of.closed && of.closed < of.fonts
                ? " <strong>Some are marked as closed series and others are not.</strong>" : "");
    write_members(to, first);
    fputs("</ul></li>\n", to);
}

void write_equal(FILE *to)
{
    size_t at;
    int any = 0;

    fputs("<h2 id=\"equal\">Equal fonts</h2>\n", to);
    for (at = 0; at < count; at++)
        if (list[at].last && list[at].next) {
            if (!any++)
                fputs("<ol id=\"groups\">\n", to);
            write_group(to, &list[at]);
        }
    fputs(any ? "</ol>\n" : "<p>No two fonts have the same dots.</p>\n", to);
}
