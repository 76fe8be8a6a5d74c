#include "catalogue.h"

#include "loading.h"
#include "message.h"

#include <string.h>

/* The figures of a code in all stores. Mean and rest follow from them. */
typedef struct {
    uint64_t count, dots, least, greatest, sum;
} code_figures;

/* One set of the library's figures takes MF_COLLECTION_MAX stores. A set that is full is joined to
 * what came before and begun anew, so that a folder of any size needs the same memory. */
static uint8_t set[MF_FIGURES_BYTES];
static code_figures joined[MF_CODE_MAX + 1];
static uint64_t stores; /* in the sets that are joined */

/* ---- adding up ---- */

/* No number passes 64 bits: a store has at most 606 characters of 262144 dots, so that 2^64 dots
 * take more than 10^11 files. A code that the set lacks is 0 in all, also as least width. */
static void join_code(code_figures *into, uint32_t code)
{
    uint64_t least = mf_figure(set, code, MF_FIGURE_LEAST);
    uint64_t greatest = mf_figure(set, code, MF_FIGURE_GREATEST);

    into->count += mf_figure(set, code, MF_FIGURE_COUNT);
    into->dots += mf_figure(set, code, MF_FIGURE_DOTS);
    into->sum += mf_figure(set, code, MF_FIGURE_SUM);
    if (least && (!into->least || least < into->least))
        into->least = least;
    if (greatest > into->greatest)
        into->greatest = greatest;
}

static void join_set(void)
{
    uint32_t code;

    for (code = 0; code <= MF_CODE_MAX; code++)
        join_code(&joined[code], code);
    stores += mf_figures_stores(set);
    memset(set, 0, sizeof set);
}

void figure_store(void)
{
    uint32_t refusal;

    if (mf_figures_stores(set) == MF_COLLECTION_MAX)
        join_set();
    refusal = mf_add_figures(store, sizeof store, set, sizeof set);
    if (refusal)
        refuse("figures", refusal);
}

/* ---- the chart ---- */

/* Its places, in units of the picture: the bars stand on LOW, the highest reaches HIGH, none is
 * lower than LEAST_BAR, and a code has three units, of which its bar takes two. */
#define CHART_WIDTH 800
#define CHART_HEIGHT 180
#define LEFT 16
#define HIGH 22
#define LOW 150
#define CODE_WIDTH 3
#define LEAST_BAR 3

static int place_of_code(uint32_t code)
{
    return LEFT + CODE_WIDTH * (int)code;
}

/* The code that occurs most, the lowest of several. */
static uint32_t greatest_code(void)
{
    uint32_t code, found = 0;

    for (code = 0; code <= MF_CODE_MAX; code++)
        if (joined[code].count > joined[found].count)
            found = code;
    return found;
}

/* A bar is as high as its count, but a code that occurs at all can be seen. */
static void write_bars(FILE *to, uint64_t most)
{
    uint32_t code;

    for (code = 0; code <= MF_CODE_MAX; code++) {
        double high = (LOW - HIGH) * ((double)joined[code].count / (double)most);
        if (!joined[code].count)
            continue;
        high = high < LEAST_BAR ? LEAST_BAR : high;
        fprintf(to, "<rect x=\"%d\" y=\"%.1f\" width=\"%d\" height=\"%.1f\"/>\n",
                place_of_code(code), LOW - high, CODE_WIDTH - 1, high);
    }
}

static void write_tick(FILE *to, uint32_t code)
{
    int x = place_of_code(code) + 1;

    fprintf(to, "<path d=\"M%d %dv6\" stroke=\"#000\"/>\n", x, LOW);
    fprintf(to, "<text x=\"%d\" y=\"%d\" text-anchor=\"middle\">%u</text>\n", x, LOW + 22,
            (unsigned)code);
}

static void write_axes(FILE *to, uint64_t most)
{
    uint32_t code;

    fprintf(to, "<path d=\"M%d %dV%dH%d\" fill=\"none\" stroke=\"#000\"/>\n", LEFT - 2, HIGH, LOW,
            place_of_code(MF_CODE_MAX + 1));
    fprintf(to, "<text x=\"%d\" y=\"%d\">%llu character%s</text>\n", LEFT - 2, HIGH - 7,
            (unsigned long long)most, most == 1 ? "" : "s");
    for (code = 0; code < MF_CODE_MAX; code += 32)
        write_tick(to, code);
    write_tick(to, MF_CODE_MAX);
}

static void write_chart(FILE *to)
{
    uint32_t greatest = greatest_code();
    uint64_t most = joined[greatest].count;

    fputs("<figure>\n", to);
    fprintf(to, "<svg role=\"img\" width=\"%d\" height=\"%d\" viewBox=\"0 0 %d %d\">\n",
            CHART_WIDTH, CHART_HEIGHT, CHART_WIDTH, CHART_HEIGHT);
    fputs("<title>How many characters each code has</title>\n", to);
    fprintf(to, "<desc>A bar for each code from 0 to %d, as high as its count in the table below. "
            "The highest, %llu, is that of code %u.</desc>\n", MF_CODE_MAX,
            (unsigned long long)most, (unsigned)greatest);
    write_axes(to, most);
    write_bars(to, most);
    fputs("</svg>\n<figcaption>How many characters each code has, from code 0 to 255</figcaption>\n"
          "</figure>\n", to);
}

/* ---- the table ---- */

static void write_number(FILE *to, uint64_t number)
{
    fprintf(to, "<td>%llu</td>", (unsigned long long)number);
}

static void write_row(FILE *to, uint32_t code, const code_figures *of)
{
    fprintf(to, "<tr><th scope=\"row\">%u</th>", (unsigned)code);
    write_number(to, of->count);
    write_number(to, of->dots);
    write_number(to, of->least);
    write_number(to, of->greatest);
    write_number(to, of->sum);
    write_number(to, of->sum / of->count);
    write_number(to, of->sum % of->count);
    fputs("</tr>\n", to);
}

static void write_table(FILE *to)
{
    static const char *const columns[] = {"Code", "Count", "Black dots", "Least width",
                                          "Greatest width", "Sum of delta X", "Mean", "Rest"};
    uint32_t code;
    size_t at;

    fputs("<div class=\"long\" role=\"region\" aria-labelledby=\"figures\" tabindex=\"0\">\n"
          "<table id=\"by-code\">\n<thead>\n<tr>", to);
    for (at = 0; at < sizeof columns / sizeof *columns; at++)
        fprintf(to, "<th scope=\"col\">%s</th>", columns[at]);
    fputs("</tr>\n</thead>\n<tbody>\n", to);
    for (code = 0; code <= MF_CODE_MAX; code++)
        if (joined[code].count)
            write_row(to, code, &joined[code]);
    fputs("</tbody>\n</table>\n</div>\n", to);
}

/* ---- the part ---- */

static void write_words(FILE *to, const catalogue *of, uint64_t characters, uint64_t dots)
{
    fprintf(to, "<p>All fonts of this page together: characters %llu, black dots %llu, fonts %lu, "
            "files with a font %llu.</p>\n", (unsigned long long)characters,
            (unsigned long long)dots, of->fonts, (unsigned long long)stores);
    fputs("<p>Fonts of damaged files count as far as they were read, characters with rows missing "
          "as they are drawn, and each of several equal fonts by itself. Widths are in dots and "
          "delta X is in quarter-dots of each font&#39;s own resolution: those of fonts of 300 and "
          "of 600 dots to the inch are added up as they are. Mean is the sum of delta X divided by "
          "the count, rounded down, and rest is what that leaves over.</p>\n", to);
}

void write_figures(FILE *to, const catalogue *of)
{
    uint64_t characters = 0, dots = 0;
    uint32_t code;

    join_set();
    for (code = 0; code <= MF_CODE_MAX; code++) {
        characters += joined[code].count;
        dots += joined[code].dots;
    }
    fputs("<h2 id=\"figures\">Figures by code</h2>\n", to);
    if (!characters) {
        fputs("<p>There are no characters.</p>\n", to);
        return;
    }
    write_words(to, of, characters, dots);
    write_chart(to);
    write_table(to);
}
