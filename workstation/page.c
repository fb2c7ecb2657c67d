/* The page of brine.h. It is written row by row, and each text that comes from a sheet, a name or a clock passes
   through put_text. */
#include "brine.h"
#include "page_style.h"
#include "say.h"
#include <inttypes.h>
#include <stdlib.h>
#include <string.h>

/* A text that can be shown, as text of HTML or of an attribute in quotes. */
static void put_escaped(FILE *to, const char *text)
{
    for (; *text; text++)
        switch (*text) {
        case '&':
            fputs("&amp;", to);
            break;
        case '<':
            fputs("&lt;", to);
            break;
        case '>':
            fputs("&gt;", to);
            break;
        case '"':
            fputs("&quot;", to);
            break;
        case '\'':
            fputs("&#39;", to);
            break;
        default:
            fputc(*text, to);
        }
}

/* Bytes from outside, in an element that keeps their spaces, and their direction to themselves. */
static void put_text(FILE *to, const char *class, const void *bytes, size_t n)
{
    char *text = malloc(TEXT_MOST(n));

    if (!text)
        stop(FAILED, "There is too little memory for the page.");
    text_from_bytes(text, bytes, n);
    fprintf(to, "<bdi class=\"%s\">", class);
    put_escaped(to, text);
    fputs("</bdi>", to);
    free(text);
}

static void put_words(FILE *to, const char *class, const char *words)
{
    put_text(to, class, words, strlen(words));
}

static uint64_t size_of(int64_t figure)
{
    return figure < 0 ? 0 - (uint64_t)figure : (uint64_t)figure;
}

/* A figure as it is read: 1,234,567, and a minus sign that is as wide as a digit. */
static void put_grouped(FILE *to, int64_t figure)
{
    char digits[24];
    int n = snprintf(digits, sizeof digits, "%" PRIu64, size_of(figure));

    if (figure < 0)
        fputs("\xe2\x88\x92", to);
    for (int i = 0; i < n; i++) {
        if (i > 0 && (n - i) % 3 == 0)
            fputc(',', to);
        fputc(digits[i], to);
    }
}

/* The same, with its exact value for programs. */
static void put_figure(FILE *to, int64_t figure)
{
    fprintf(to, "<data value=\"%" PRId64 "\">", figure);
    put_grouped(to, figure);
    fputs("</data>", to);
}

/* A cell of a figure. The label stands before it where there is no room for columns. */
static void put_cell(FILE *to, const char *label, int64_t figure)
{
    fprintf(to, "<td class=\"figure\" data-label=\"%s\">", label);
    put_figure(to, figure);
    fputs("</td>", to);
}

/* A figure of the summary. One that calls for a look where it isn't 0 is told from the others. */
static void put_total(FILE *to, const char *label, uint64_t figure, int alarming)
{
    fprintf(to, "<div%s><dt>%s</dt><dd>", alarming && figure > 0 ? " class=\"alarm\"" : "", label);
    put_figure(to, (int64_t)figure);
    fputs("</dd></div>\n", to);
}

static void put_summary(FILE *to, const struct luffa_brine_answer *total)
{
    fputs("<dl class=\"summary\" id=\"summary\">\n", to);
    put_total(to, "Sheets sound", total->sound, 0);
    put_total(to, "Sheets faulted", total->faulted, 1);
    put_total(to, "Total intake, kg a day", total->intake, 0);
    put_total(to, "Injectors overloaded", total->overloaded, 1);
    fputs("</dl>\n", to);
}

static void put_faults(FILE *to, const struct brine *brine)
{
    if (brine->total.faulted == 0)
        return;
    fputs("<section id=\"faults\"><h2>Faulted sheets</h2>\n"
          "<p class=\"about\">Their injectors aren't in this statement.</p>\n<ul class=\"faults\">\n",
          to);
    for (size_t i = 0; i < brine->sheets_n; i++)
        if (brine->sheets[i].fault[0]) {
            fputs("<li>", to);
            put_words(to, "name", brine->sheets[i].name);
            fputs(": ", to);
            put_words(to, "words", brine->sheets[i].fault);
            fputs("</li>\n", to);
        }
    fputs("</ul></section>\n", to);
}

/* What the full width of a bar stands for: the greatest figure of all rows. */
static uint64_t scale_of(const struct brine *brine)
{
    uint64_t most = 0;

    for (size_t i = 0; i < brine->rows_n; i++) {
        most = brine->rows[i].intake > most ? brine->rows[i].intake : most;
        most = brine->rows[i].capacity > most ? brine->rows[i].capacity : most;
    }
    return most;
}

/* Such a part of the scale as a percentage. A batch has less than 10^13 kg a day, so the product fits. */
static void put_part(FILE *to, const char *attribute, uint64_t part, uint64_t scale)
{
    uint64_t thousandths = scale > 0 ? part * 100000 / scale : 0;

    fprintf(to, " %s=\"%" PRIu64 ".%03" PRIu64 "%%\"", attribute, thousandths / 1000, thousandths % 1000);
}

/* A part of a bar. The drawing is 22 pixels high, as page_style.h has it. */
static void put_stretch(FILE *to, const char *class, uint64_t from, uint64_t width, uint64_t scale)
{
    fprintf(to, "<rect class=\"%s\" y=\"4\" height=\"14\"", class);
    put_part(to, "x", from, scale);
    put_part(to, "width", width, scale);
    fputs("/>", to);
}

static void put_tick(FILE *to, uint64_t at, uint64_t scale)
{
    fputs("<line class=\"tick\" y1=\"0\" y2=\"22\"", to);
    put_part(to, "x1", at, scale);
    put_part(to, "x2", at, scale);
    fputs("/>", to);
}

/* The intake fills the outline of the capacity, whose end a tick shows; what is over it goes on hatched. */
static void put_bar(FILE *to, const struct brine_row *row, uint64_t scale)
{
    uint64_t over = row->spare < 0 ? size_of(row->spare) : 0;

    fputs("<svg role=\"img\"><title>Intake ", to);
    put_grouped(to, (int64_t)row->intake);
    fputs(" of ", to);
    put_grouped(to, (int64_t)row->capacity);
    fputs(" kg a day, ", to);
    put_grouped(to, (int64_t)size_of(row->spare));
    fputs(over > 0 ? " over: overloaded</title>" : " to spare</title>", to);
    put_stretch(to, "capacity", 0, row->capacity, scale);
    put_stretch(to, "intake", 0, row->intake - over, scale);
    if (over > 0)
        put_stretch(to, "over", row->capacity, over, scale);
    put_tick(to, row->capacity, scale);
    fputs("</svg>", to);
}

/* What the parts of a bar mean. */
static void put_key(FILE *to)
{
    fputs("<p class=\"key\" aria-hidden=\"true\"><span><svg>", to);
    put_stretch(to, "intake", 0, 1, 1);
    fputs("</svg> intake</span>\n<span><svg>", to);
    put_stretch(to, "capacity", 0, 1, 1);
    put_tick(to, 1, 1);
    fputs("</svg> capacity</span>\n<span><svg>", to);
    put_stretch(to, "over", 0, 1, 1);
    fputs("</svg> over capacity</span></p>\n", to);
}

static void put_row(FILE *to, const struct brine_sheet *sheet, const struct brine_row *row, uint64_t scale)
{
    const char *state = row->spare < 0 ? "overloaded" : "within";

    fprintf(to, "<tr class=\"%s\"><th scope=\"row\" data-label=\"Injector\"><span class=\"number\">%" PRIu32 "</span>",
            state, row->number);
    if (row->note_len > 0) {
        fputc(' ', to);
        put_text(to, "note", row->note, row->note_len);
    }
    fputs("</th><td class=\"sheet\" data-label=\"Sheet\">", to);
    put_words(to, "name", sheet->name);
    fprintf(to, "</td><td class=\"state\">%s</td>", state);
    put_cell(to, "Intake", (int64_t)row->intake);
    put_cell(to, "Capacity", (int64_t)row->capacity);
    put_cell(to, "Spare", row->spare);
    fputs("<td class=\"load\">", to);
    put_bar(to, row, scale);
    fputs("</td></tr>\n", to);
}

static void put_injectors(FILE *to, const struct brine *brine)
{
    uint64_t scale = scale_of(brine);

    fputs("<section id=\"injectors\"><h2>Injectors</h2>\n", to);
    if (brine->rows_n == 0) {
        fputs("<p class=\"about\">No sound sheet has an injector.</p></section>\n", to);
        return;
    }
    put_key(to);
    fputs("<table><caption>Figures in kilograms a day, the overloaded injectors first.", to);
    if (scale > 0) {
        fputs(" All bars have one scale: the full width is ", to);
        put_grouped(to, (int64_t)scale);
        fputc('.', to);
    }
    fputs("</caption>\n"
          "<thead><tr><th scope=\"col\">Injector</th><th scope=\"col\">Sheet</th><th scope=\"col\">State</th>"
          "<th scope=\"col\" class=\"figure\">Intake</th><th scope=\"col\" class=\"figure\">Capacity</th>"
          "<th scope=\"col\" class=\"figure\">Spare</th><th scope=\"col\">Load</th></tr></thead>\n<tbody>\n",
          to);
    for (size_t i = 0; i < brine->rows_n; i++)
        put_row(to, &brine->sheets[brine->rows[i].sheet], &brine->rows[i], scale);
    fputs("</tbody></table></section>\n", to);
}

static void put_sheet(FILE *to, const struct brine_sheet *sheet)
{
    int faulted = sheet->fault[0] != 0;

    fprintf(to, "<tr class=\"%s\"><th scope=\"row\">", faulted ? "faulted" : "sound");
    put_words(to, "name", sheet->name);
    fprintf(to, "</th><td class=\"state%s\">%s", faulted ? " fault" : "", faulted ? "faulted: " : "sound");
    if (faulted)
        put_words(to, "words", sheet->fault);
    fputs("</td>", to);
    put_cell(to, "Records", (int64_t)sheet->n);
    put_cell(to, "Saves", (int64_t)sheet->saves);
    fputs("<td class=\"digest\" data-label=\"Digest\">", to);
    for (size_t i = 0; i < digest_bytes(sheet->code); i++)
        fprintf(to, "%02x", sheet->digest[i]);
    fputs("</td></tr>\n", to);
}

static void put_sheets(FILE *to, const struct brine *brine)
{
    fputs("<section id=\"sheets\"><h2>Sheets</h2>\n", to);
    if (brine->sheets_n == 0) {
        fputs("<p class=\"about\">There is none.</p></section>\n", to);
        return;
    }
    fputs("<table><caption>What the statement was made from. A digest tells whether a sheet is still the same."
          "</caption>\n<thead><tr><th scope=\"col\">Sheet</th><th scope=\"col\">State</th>"
          "<th scope=\"col\" class=\"figure\">Records</th><th scope=\"col\" class=\"figure\">Saves</th>"
          "<th scope=\"col\">Digest</th></tr></thead>\n<tbody>\n",
          to);
    for (size_t i = 0; i < brine->sheets_n; i++)
        put_sheet(to, &brine->sheets[i]);
    fputs("</tbody></table></section>\n", to);
}

void brine_page(FILE *to, const struct brine *brine, const char *when)
{
    fputs("<!DOCTYPE html>\n<html lang=\"en\">\n<head>\n<meta charset=\"utf-8\">\n"
          "<meta http-equiv=\"Content-Security-Policy\" content=\"default-src 'none'; style-src 'unsafe-inline'\">\n"
          "<meta name=\"viewport\" content=\"width=device-width, initial-scale=1\">\n"
          "<meta name=\"color-scheme\" content=\"light dark\">\n<title>Brine statement</title>\n<style>\n",
          to);
    for (size_t i = 0; i < sizeof page_style / sizeof *page_style; i++)
        fprintf(to, "%s\n", page_style[i]);
    fputs("</style>\n</head>\n<body>\n"
          "<svg class=\"hatch\" aria-hidden=\"true\"><defs><pattern id=\"hatch\" width=\"6\" height=\"6\" "
          "patternUnits=\"userSpaceOnUse\" patternTransform=\"rotate(45)\">"
          "<rect class=\"under\" width=\"6\" height=\"6\"/><line class=\"stripe\" x1=\"3\" x2=\"3\" y1=\"0\" y2=\"6\"/>"
          "</pattern></defs></svg>\n"
          "<main>\n<h1>Brine statement</h1>\n<p class=\"when\">Made ",
          to);
    put_words(to, "time", when);
    fputs("</p>\n", to);
    put_summary(to, &brine->total);
    put_faults(to, brine);
    put_injectors(to, brine);
    put_sheets(to, brine);
    fputs("</main>\n</body>\n</html>\n", to);
}
