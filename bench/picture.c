#include "picture.h"

#include <math.h>
#include <string.h>

enum { MOST_PANELS = 8, WIDTH = 300, HEIGHT = 240, LEFT = 70, TOP = 70, GAP = 40, BOTTOM = 80 };

static const char *const side_names[2] = {"ordinary", "archive"};

/* A panel's corner, what its axes end with, and the session limit of its tables. */
struct panel {
    const char *name;
    double x;
    double most_live;
    double most_time;
    size_t limit;
};

static int is_request(const struct row *row)
{
    return strcmp(row->what, "request") == 0;
}

static int is_of(const struct row *row, const struct panel *p)
{
    return is_request(row) && row->limit == p->limit && strcmp(row->name, p->name) == 0;
}

static double x_of(const struct panel *p, double live)
{
    return p->x + live / p->most_live * WIDTH;
}

static double y_of(const struct panel *p, double time)
{
    return TOP + HEIGHT - time / p->most_time * HEIGHT;
}

/* What the axes of all panels end with, and the largest limit, which is drawn. */
static struct panel find_ends(const struct samples *samples)
{
    struct panel ends = {.most_live = 1};

    for (size_t i = 0; i < samples->rows; i++) {
        const struct row *row = &samples->row[i];

        if (!is_request(row))
            continue;
        ends.limit = row->limit > ends.limit ? row->limit : ends.limit;
        ends.most_live = fmax(ends.most_live, (double)row->live);
        ends.most_time = fmax(ends.most_time, spread_of(row->measured, row->count).highest);
        ends.most_time = fmax(ends.most_time, spread_of(row->other, row->count).highest);
    }
    return ends;
}

/* The tables in their order; gives how many there are. */
static size_t find_panels(const struct samples *samples, struct panel panels[MOST_PANELS])
{
    struct panel next = find_ends(samples);
    size_t count = 0;

    for (size_t i = 0; i < samples->rows && count < MOST_PANELS; i++) {
        const struct row *row = &samples->row[i];
        size_t k = 0;

        if (!is_request(row))
            continue;
        while (k < count && strcmp(panels[k].name, row->name) != 0)
            k++;
        if (k < count)
            continue;
        next.name = row->name;
        next.x = (double)(LEFT + k * (WIDTH + GAP));
        panels[count++] = next;
    }
    return count;
}

/* The distance of grid lines: 1, 2 or 5 times a power of ten, five to ten lines. */
static double step_of(double most)
{
    double step = pow(10, floor(log10(most / 5)));

    if (most / step > 25)
        return 5 * step;
    return most / step > 10 ? 2 * step : step;
}

static void write_axes(const struct panel *p, int first, FILE *out)
{
    double step = step_of(p->most_time);

    fprintf(out, "<text class=\"title\" x=\"%.1f\" y=\"%d\">%s records</text>\n",
            p->x + WIDTH / 2.0, TOP - 12, p->name);
    for (double time = 0; time <= p->most_time; time += step) {
        double y = y_of(p, time);

        fprintf(out, "<line class=\"grid\" x1=\"%.1f\" y1=\"%.1f\" x2=\"%.1f\" y2=\"%.1f\"/>\n",
                p->x, y, p->x + WIDTH, y);
        if (first)
            fprintf(out, "<text class=\"tick y\" x=\"%.1f\" y=\"%.1f\">%g</text>\n", p->x - 8,
                    y + 4, time);
    }
    fprintf(out, "<path class=\"axis\" d=\"M%.1f %d V%d H%.1f\"/>\n", p->x, TOP, TOP + HEIGHT,
            p->x + WIDTH);
    fprintf(out, "<text class=\"label\" x=\"%.1f\" y=\"%d\">live sessions of %zu</text>\n",
            p->x + WIDTH / 2.0, TOP + HEIGHT + 42, p->limit);
}

/* One side's line through its medians. */
static void write_line(const struct samples *samples, const struct panel *p, int ours, FILE *out)
{
    char sign = 'M';

    fprintf(out, "<path class=\"line %s\" d=\"", side_names[ours]);
    for (size_t i = 0; i < samples->rows; i++) {
        const struct row *row = &samples->row[i];

        if (!is_of(row, p))
            continue;
        struct spread s = spread_of(ours ? row->measured : row->other, row->count);
        fprintf(out, "%c%.1f %.1f", sign, x_of(p, (double)row->live), y_of(p, s.median));
        sign = 'L';
    }
    fputs("\"/>\n", out);
}

/* One side's medians, with a bar from the lowest to the highest at each. */
static void write_dots(const struct samples *samples, const struct panel *p, int ours, FILE *out)
{
    const char *side = side_names[ours];

    for (size_t i = 0; i < samples->rows; i++) {
        const struct row *row = &samples->row[i];

        if (!is_of(row, p))
            continue;
        struct spread s = spread_of(ours ? row->measured : row->other, row->count);
        double x = x_of(p, (double)row->live);

        fprintf(out, "<path class=\"bar %s\" d=\"M%.1f %.1fV%.1f\"/>", side, x, y_of(p, s.lowest),
                y_of(p, s.highest));
        fprintf(out, "<circle class=\"dot %s\" cx=\"%.1f\" cy=\"%.1f\" r=\"3.5\"/>\n", side, x,
                y_of(p, s.median));
        if (ours)
            fprintf(out, "<text class=\"tick\" x=\"%.1f\" y=\"%d\">%zu</text>\n", x,
                    TOP + HEIGHT + 20, row->live);
    }
}

/* The floor: one pass over the octets of the table, the same for any live sessions. */
static void write_floor(const struct samples *samples, const struct panel *p, FILE *out)
{
    for (size_t i = 0; i < samples->rows; i++) {
        const struct row *row = &samples->row[i];

        if (strcmp(row->what, "pass") != 0 || strcmp(row->name, "floor") != 0 ||
            row->limit != p->limit)
            continue;
        fprintf(out, "<path class=\"line floor\" d=\"M%.1f %.1fh%d\"/>\n", p->x,
                y_of(p, spread_of(row->other, row->count).median), WIDTH);
    }
}

static void write_key(FILE *out)
{
    fprintf(out, "<path class=\"line archive\" d=\"M%d 24h34\"/>", LEFT);
    fprintf(out, "<text class=\"key\" x=\"%d\" y=\"28\">archive</text>\n", LEFT + 42);
    fprintf(out, "<path class=\"line ordinary\" d=\"M%d 24h34\"/>", LEFT + 130);
    fprintf(out, "<text class=\"key\" x=\"%d\" y=\"28\">bench/ordinary</text>\n", LEFT + 172);
    fprintf(out, "<path class=\"line floor\" d=\"M%d 24h34\"/>", LEFT + 300);
    fprintf(out,
            "<text class=\"key\" x=\"%d\" y=\"28\">floor: one pass over the table's octets"
            "</text>\n",
            LEFT + 342);
    fprintf(out,
            "<text class=\"key\" x=\"%d\" y=\"28\">median; bars: lowest to highest of the "
            "processes</text>\n",
            LEFT + 620);
}

static void write_head(size_t panels, FILE *out)
{
    size_t width = LEFT + panels * (WIDTH + GAP);
    size_t height = TOP + HEIGHT + BOTTOM;

    fprintf(out,
            "<svg xmlns=\"http://www.w3.org/2000/svg\" width=\"%zu\" height=\"%zu\" "
            "viewBox=\"0 0 %zu %zu\">\n",
            width, height, width, height);
    fputs("<title>Time of a request over live sessions, archive and ordinary</title>\n"
          "<style>text{font:13px sans-serif;fill:#222;text-anchor:middle}"
          ".title{font-weight:bold}.y{text-anchor:end}.key{text-anchor:start}"
          ".grid{stroke:#ddd}.axis{stroke:#222;fill:none}.line{fill:none;stroke-width:2}"
          ".bar{stroke-width:5;stroke-opacity:.35}"
          ".archive{stroke:#0b62a4}.dot.archive{fill:#0b62a4}"
          ".ordinary{stroke:#c8500a;stroke-dasharray:6 3}"
          ".dot.ordinary{fill:#c8500a}.bar.ordinary,.dot.ordinary{stroke-dasharray:none}"
          ".floor{stroke:#4a7a2a;stroke-dasharray:2 3}</style>\n"
          "<rect width=\"100%\" height=\"100%\" fill=\"#fff\"/>\n",
          out);
    fprintf(out,
            "<text class=\"label\" transform=\"translate(22 %d) rotate(-90)\">"
            "microseconds for a request</text>\n",
            TOP + HEIGHT / 2);
    write_key(out);
}

void write_picture(const struct samples *samples, FILE *out)
{
    struct panel panels[MOST_PANELS];
    size_t count = find_panels(samples, panels);

    write_head(count, out);
    for (size_t k = 0; k < count; k++) {
        write_axes(&panels[k], k == 0, out);
        write_floor(samples, &panels[k], out);
        for (int ours = 0; ours < 2; ours++) {
            write_line(samples, &panels[k], ours, out);
            write_dots(samples, &panels[k], ours, out);
        }
    }
    fputs("</svg>\n", out);
}
