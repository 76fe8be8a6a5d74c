#include "catalogue.h"

#include "html.h"
#include "kept.h"
#include "loading.h"
#include "message.h"
#include "output.h"

#include <stdlib.h>
#include <string.h>

#define NOTES_MAX 1000 /* that are written in a list of a file; more are counted */

enum file_state { WHOLE, DAMAGED, FONTLESS, UNREADABLE, NOT_FOLLOWED };

/* List items. */
typedef struct {
    draft items;
    unsigned long noted, unnoted; /* that are written, and those that are counted alone */
} notes;

/* A file's part under way. */
typedef struct {
    enum file_state state;
    char why[200];          /* it cannot be read, if it cannot */
    notes damage, skipped;
    draft fonts;            /* sections */
    unsigned long count;    /* of fonts */
    unsigned long incomplete; /* characters */
    unsigned long done, refused; /* commands */
} entry;

static loading into_store;
static entry *under_way; /* that notes go to */

/* ---- notes ---- */

/* As "refused at byte 5, font 3, code 65: no room", and "skipped by salvage at byte 5, length 3:
 * stream broken". Stretches have a list of their own. */
static void take_note(const note *said)
{
    int skipped = strcmp(said->kind, "skipped") == 0;
    notes *into = skipped ? &under_way->skipped : &under_way->damage;
    FILE *to = into->items.to;

    if (into->noted >= NOTES_MAX) {
        into->unnoted++;
        return;
    }
    into->noted++;
    fprintf(to, "<li><strong>%s</strong>", skipped ? "skipped by salvage" : said->kind);
    if (said->place >= 0)
        fprintf(to, " at byte %lld", (long long)said->place);
    if (said->length >= 0)
        fprintf(to, ", length %lld", (long long)said->length);
    if (said->font >= 0 && !said->font_in_words)
        fprintf(to, ", font %ld", said->font);
    if (said->code >= 0)
        fprintf(to, ", code %ld", said->code);
    fputs(": ", to);
    html_words(to, said->what);
    fputs("</li>\n", to);
}

/* Notes a font's incomplete characters. */
static void note_incomplete(entry *of, uint32_t font)
{
    draft codes;
    unsigned found;

    begin_draft(&codes);
    found = write_codes(codes.to, font, is_incomplete);
    end_draft(&codes);
    of->incomplete += found;
    if (found)
        fprintf(of->damage.items.to, "<li><strong>incomplete</strong>, font %u, code%s %s: rows "
                "are missing</li>\n", (unsigned)font, found == 1 ? "" : "s", codes.text);
    of->damage.noted += found != 0;
    free(codes.text);
}

/* ---- reading ---- */

static void read_fonts(catalogue *into, entry *of)
{
    FILE *to = of->fonts.to;
    uint32_t font;

    for (font = mf_next_font(store, sizeof store, 0); font <= MF_FONT_MAX;
         font = mf_next_font(store, sizeof store, font + 1)) {
        fprintf(to, "<section class=\"font\" id=\"f%lun%u\">\n", into->entries,
                (unsigned)font);
        catalogue_font(into, to, font);
        fputs("</section>\n", to);
        note_incomplete(of, font);
        of->count++;
    }
    if (of->count)
        figure_store();
}

static void set_why(entry *of, const char *before, int why)
{
    of->state = UNREADABLE;
    snprintf(of->why, sizeof of->why, "%s%s", before, why ? strerror(why) : "");
}

/* The file's streams into a fresh store, with a note for each thing that was not taken. */
static void read_file(catalogue *into, const found_file *each, entry *of)
{
    void (*told_by)(const note *) = tell_note;
    input from;
    int why = try_input(&from, each->path);

    if (why) {
        set_why(of, "cannot be read: ", why);
        return;
    }
    memset(&into_store, 0, sizeof into_store);
    into_store.next = OWN_NUMBERS;
    fresh_store();
    under_way = of;
    tell_note = take_note;
    load_stream(&into_store, &from);
    tell_note = told_by;
    why = end_input(&from);
    of->done = into_store.done;
    of->refused = into_store.refused;
    read_fonts(into, of);
    of->state = into_store.fontless && !of->refused ? FONTLESS
                : load_status(&into_store) != COMPLETE || of->incomplete ? DAMAGED : WHOLE;
    if (why)
        set_why(of, "cannot be read to its end: ", why);
}

static void read_entry(catalogue *into, const found_file *each, entry *of)
{
    switch (each->kind) {
    case FOUND_FOLDER: set_why(of, "a folder that cannot be read: ", each->why); break;
    case FOUND_OTHER: set_why(of, "neither a file nor a folder", 0); break;
    case FOUND_LINK:
        of->state = NOT_FOLLOWED;
        strcpy(of->why, "a link to a folder, not gone into");
        break;
    default:
        if (each->why)
            set_why(of, "cannot be read: ", each->why);
        else
            read_file(into, each, of);
    }
}

/* ---- writing ---- */

static void write_notes(FILE *to, const char *class, const notes *of)
{
    if (!of->noted)
        return;
    fprintf(to, "<ul class=\"%s\">\n", class);
    fwrite(of->items.text, 1, of->items.length, to);
    if (of->unnoted)
        fprintf(to, "<li>and %lu more</li>\n", of->unnoted);
    fputs("</ul>\n", to);
}

static void write_damage(FILE *to, const entry *of)
{
    write_notes(to, "notes", &of->damage);
}

static void write_skipped(FILE *to, const entry *of)
{
    write_notes(to, "skipped", &of->skipped);
}

static void write_fonts(FILE *to, const entry *of)
{
    fwrite(of->fonts.text, 1, of->fonts.length, to);
}

/* What a file's part has below its heading, in this order. */
static void (*const parts[])(FILE *to, const entry *of) = {write_damage, write_skipped,
                                                           write_fonts};

static void write_state(FILE *to, const found_file *each, const entry *of)
{
    static const char *const states[] = {"whole", "damaged", "no font", "unreadable",
                                         "not followed"};

    fprintf(to, "<p>State: <strong>%s</strong>", states[of->state]);
    if (of->why[0]) {
        fputs(": ", to);
        html_words(to, of->why);
    }
    if (each->kind == FOUND_FILE && !each->why)
        fprintf(to, ". %llu byte%s, %lu font%s, commands done %lu, refused %lu",
                (unsigned long long)each->bytes, each->bytes == 1 ? "" : "s", of->count,
                of->count == 1 ? "" : "s", of->done, of->refused);
    fputs(".</p>\n", to);
}

static void write_entry(FILE *to, unsigned long number, const found_file *each, const entry *of)
{
    static const char *const states[] = {"whole", "damaged", "no-font", "unreadable", "link"};
    size_t part;

    fprintf(to, "<article id=\"f%lu\" data-state=\"%s\" data-bytes=\"%llu\" data-fonts=\"%lu\">\n",
            number, states[of->state], (unsigned long long)each->bytes, of->count);
    fputs("<h3>", to);
    html_name(to, each->name);
    fputs("</h3>\n", to);
    write_state(to, each, of);
    for (part = 0; part < sizeof parts / sizeof *parts; part++)
        parts[part](to, of);
    fputs("</article>\n", to);
}

static void count_entry(catalogue *into, const found_file *each, const entry *of)
{
    into->files += each->kind == FOUND_FILE || each->kind == FOUND_OTHER;
    into->whole += of->state == WHOLE;
    into->damaged += of->state == DAMAGED;
    into->fontless += of->state == FONTLESS;
    into->links += of->state == NOT_FOLLOWED;
    into->folders += each->kind == FOUND_FOLDER;
    into->unreadable += of->state == UNREADABLE && each->kind != FOUND_FOLDER;
}

void catalogue_file(catalogue *into, const found_file *each)
{
    entry made;

    memset(&made, 0, sizeof made);
    begin_draft(&made.damage.items);
    begin_draft(&made.skipped.items);
    begin_draft(&made.fonts);
    into->entries++;
    begin_equal(into->entries, each->name);
    read_entry(into, each, &made);
    end_draft(&made.damage.items);
    end_draft(&made.skipped.items);
    end_draft(&made.fonts);
    count_entry(into, each, &made);
    write_entry(into->body, into->entries, each, &made);
    free(made.damage.items.text);
    free(made.skipped.items.text);
    free(made.fonts.text);
}
