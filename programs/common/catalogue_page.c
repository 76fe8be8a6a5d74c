#include "catalogue.h"

#include "html.h"
#include "png_file.h"

#define LINES(of) (sizeof of / sizeof *of)

const char catalogue_begins[] = "<!DOCTYPE html>\n<html lang=\"en\">\n<head>\n<meta charset=\"utf-8\">\n"
                                "<meta name=\"generator\" content=\"marlinfold-catalogue";

/* Nothing is said by colour alone: the page is black on white, on paper too. */
static const char *const style[] = {
    "body { font: 16px/1.4 sans-serif; color: #000; background: #fff; margin: 1em auto;",
    "  max-width: 62em; padding: 0 1em; }",
    "table { border-collapse: collapse; margin: 0.5em 0; }",
    "th, td { border: 1px solid #767676; padding: 0.1em 0.6em; text-align: left; }",
    "h3, h4, li, figcaption { overflow-wrap: anywhere; }",
    "article { border-top: 3px solid #000; margin-top: 2em; }",
    "section.font { border-left: 1px solid #767676; padding-left: 1em; margin: 1em 0; }",
    ".closed { border: 4px double #000; padding: 0.3em 0.6em; display: inline-block; }",
    "figure { margin: 0.8em 0; }",
    "img, svg { max-width: 100%; height: auto; }",
    "svg text { font: 14px sans-serif; }",
    ".long { max-height: 26em; overflow: auto; border: 1px solid #767676; }",
    ".long table { margin: 0; font-variant-numeric: tabular-nums; }",
    ".long th, .long td { text-align: right; }",
    ".long thead th { position: sticky; top: 0; background: #fff; }",
    "form { border: 1px solid #767676; padding: 0.6em; }",
    "form label { margin-right: 1em; }",
    "[hidden] { display: none; }",
    "@page { size: A4; margin: 15mm; }",
    "@media print {",
    "  body { font-size: 10pt; margin: 0; max-width: none; padding: 0; }",
    "  form { display: none; }",
    "  h3, h4, table, tr, li, figure { break-inside: avoid; }",
    "  .long { max-height: none; overflow: visible; border: 0; }",
    "  .long table { break-inside: auto; }",
    "  .long thead th { position: static; }",
    "  h2, h3, h4, .closed { break-after: avoid; }",
    "  a { color: #000; text-decoration: none; }",
    "}"};

/* The filter and the order of the files. What is chosen can also stand after # in the page's
 * address, as #words=bold&show=damaged&order=bytes. */
static const char *const script[] = {
    "(function () {",
    "  'use strict';",
    "  var form = document.getElementById('find'), list = document.getElementById('files');",
    "  var rank = { unreadable: 0, damaged: 1, 'no-font': 2, link: 3, whole: 4 };",
    "  var files = Array.prototype.map.call(list.children, function (part, at) {",
    "    return { part: part, at: at, words: part.textContent.toLowerCase(),",
    "      state: part.dataset.state, bytes: +part.dataset.bytes, fonts: +part.dataset.fonts,",
    "      closed: !!part.querySelector('.closed'), equal: false };",
    "  });",
    "  var byId = {};",
    "  files.forEach(function (file) { byId[file.part.id] = file; });",
    "  document.querySelectorAll('#groups a').forEach(function (link) {",
    "    byId[link.getAttribute('href').slice(1).split('n')[0]].equal = true;",
    "  });",
    "  var orders = {",
    "    folder: function (a, b) { return a.at - b.at; },",
    "    bytes: function (a, b) { return b.bytes - a.bytes || a.at - b.at; },",
    "    fonts: function (a, b) { return b.fonts - a.fonts || a.at - b.at; },",
    "    state: function (a, b) { return rank[a.state] - rank[b.state] || a.at - b.at; }",
    "  };",
    "  function isShown(file, words, show) {",
    "    if (show === 'closed' || show === 'equal') { if (!file[show]) return false; }",
    "    else if (show !== 'all' && file.state !== show) return false;",
    "    return words.every(function (word) { return file.words.indexOf(word) >= 0; });",
    "  }",
    "  function apply() {",
    "    var words = form.elements.words.value.toLowerCase().split(/\\s+/), count = 0;",
    "    files.sort(orders[form.elements.order.value]).forEach(function (file) {",
    "      file.part.hidden = !isShown(file, words, form.elements.show.value);",
    "      if (!file.part.hidden) count += 1;",
    "      list.appendChild(file.part);",
    "    });",
    "    document.getElementById('shown').textContent = count + ' of ' + files.length + ' shown';",
    "  }",
    "  function take(part) {",
    "    var at = part.indexOf('='), field = form.elements.namedItem(part.slice(0, at));",
    "    if (at < 1 || !field) return;",
    "    field.value = decodeURIComponent(part.slice(at + 1));",
    "    if (field.selectedIndex < 0) field.selectedIndex = 0;",
    "  }",
    "  function read() {",
    "    var target = document.getElementById(location.hash.slice(1));",
    "    if (!target) location.hash.slice(1).split('&').forEach(take);",
    "    else if (target.closest('[hidden]')) form.reset();",
    "    else return;",
    "    apply();",
    "    if (target) target.scrollIntoView();",
    "  }",
    "  form.hidden = false;",
    "  form.addEventListener('input', apply);",
    "  form.addEventListener('submit', function (event) { event.preventDefault(); });",
    "  window.addEventListener('hashchange', read);",
    "  apply();",
    "  read();",
    "}());"};

static const char *const form[] = {
    "<form id=\"find\" hidden>",
    "<label>Words <input name=\"words\" type=\"search\"></label>",
    "<label>Show <select name=\"show\">",
    "<option value=\"all\">all</option>",
    "<option value=\"whole\">whole</option>",
    "<option value=\"damaged\">damaged</option>",
    "<option value=\"no-font\">without a font</option>",
    "<option value=\"unreadable\">unreadable</option>",
    "<option value=\"closed\">with a bold font (closed series)</option>",
    "<option value=\"equal\">with a font that another equals</option>",
    "</select></label>",
    "<label>Order <select name=\"order\">",
    "<option value=\"folder\">as in the folder</option>",
    "<option value=\"bytes\">most bytes first</option>",
    "<option value=\"fonts\">most fonts first</option>",
    "<option value=\"state\">damaged first</option>",
    "</select></label>",
    "<output id=\"shown\"></output>",
    "</form>"};

static void write_lines(FILE *to, const char *const *lines, size_t count)
{
    for (; count--; lines++)
        fprintf(to, "%s\n", *lines);
}

/* ---- sums ---- */

static void write_sum(FILE *to, const char *name, unsigned long sum)
{
    fprintf(to, "<tr><th scope=\"row\">%s</th><td>%lu</td></tr>\n", name, sum);
}

static void write_sums(FILE *to, const catalogue *of)
{
    fputs("<h2>Summary</h2>\n<table id=\"summary\">\n", to);
    write_sum(to, "Files", of->files);
    write_sum(to, "whole", of->whole);
    write_sum(to, "damaged", of->damaged);
    write_sum(to, "without a font", of->fontless);
    write_sum(to, "unreadable", of->unreadable);
    if (of->folders)
        write_sum(to, "Folders that cannot be read", of->folders);
    if (of->links)
        write_sum(to, "Links to folders, not gone into", of->links);
    write_sum(to, "Fonts", of->fonts);
    write_sum(to, "bold or heavier: closed series", of->closed);
    write_sum(to, "fit for spine labels", of->fit);
    fputs("</table>\n", to);
    if (!can_write_png())
        fputs("<p>There are no pictures: the program was built without libpng.</p>\n", to);
}

static void write_groups(FILE *to, const catalogue *of)
{
    (void)of;
    write_equal(to);
}

/* What stands before the files, in this order. */
static void (*const parts[])(FILE *to, const catalogue *of) = {write_sums, write_groups,
                                                               write_figures};

/* ---- the page ---- */

static void write_head(FILE *to, const char *folder)
{
    fprintf(to, "%s %s\">\n", catalogue_begins, MF_VERSION);
    fputs("<meta name=\"viewport\" content=\"width=device-width, initial-scale=1\">\n<title>Fonts of ",
          to);
    html_name(to, folder);
    fputs("</title>\n<style>\n", to);
    write_lines(to, style, LINES(style));
    fputs("</style>\n</head>\n<body>\n<h1>Fonts of ", to);
    html_name(to, folder);
    fputs("</h1>\n", to);
}

static void copy_body(FILE *to, FILE *body)
{
    char bytes[65536];
    size_t length;

    rewind(body);
    while ((length = fread(bytes, 1, sizeof bytes, body)) != 0)
        fwrite(bytes, 1, length, to);
}

void write_catalogue(FILE *to, const catalogue *of, const char *folder)
{
    size_t part;

    write_head(to, folder);
    for (part = 0; part < LINES(parts); part++)
        parts[part](to, of);
    fputs("<h2>Files</h2>\n", to);
    if (of->entries)
        write_lines(to, form, LINES(form));
    else
        fputs("<p>There are no files in the folder.</p>\n", to);
    fputs("<div id=\"files\">\n", to);
    copy_body(to, of->body);
    fputs("</div>\n", to);
    if (of->entries) {
        fputs("<script>\n", to);
        write_lines(to, script, LINES(script));
        fputs("</script>\n", to);
    }
    fputs("</body>\n</html>\n", to);
}
