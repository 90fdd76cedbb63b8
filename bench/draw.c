/* Draws a picture as an SVG: panels below one another, each with lines over the same axis. It reads lines of cells with
 * tabs between them, without markup:
 *
 *   title    its text
 *   note     a line of small print
 *   across   the name of the axis across, then `doubling` where each number is twice the one before
 *   panel    the name of the axis upwards, then the lines' names; a name has one colour in all panels
 *   numbers  a point of each line: first where it is across, then how high
 */
#include <math.h>
#include <stdbool.h>
#include <stdio.h>
#include <stdlib.h>
#include <string.h>

enum { PANELS = 4, LINES = 5, POINTS = 20 };
enum { LEFT = 80, TOP = 92, WIDE = 500, HIGH = 150, APART = 226, FULL = 760, LABEL = 16 };

struct panel {
    const char *up, *name[LINES], *color[LINES];
    int lines, points;
    double x[POINTS], y[LINES][POINTS], tick, most;
};

static struct {
    const char *title, *note, *across;
    bool doubling;
    int panels;
    struct panel panel[PANELS];
} picture;

/* ---- reading */

static void need(bool fits, const char *what)
{
    if (fits)
        return;
    fprintf(stderr, "draw: %s\n", what);
    exit(1);
}

static const char *color_of(const char *name)
{
    static const char *const colors[] = {"#0b6e4f", "#c2410c", "#2457a6", "#7a3e9d", "#8a6d00"};
    static const char *seen[sizeof colors / sizeof *colors];
    size_t at = 0;
    while (at < sizeof colors / sizeof *colors && seen[at] != NULL && strcmp(seen[at], name) != 0)
        at++;
    need(at < sizeof colors / sizeof *colors, "more names than colours");
    seen[at] = name;
    return colors[at];
}

static void read_panel(char *cells)
{
    need(picture.panels < PANELS, "too many panels");
    struct panel *p = &picture.panel[picture.panels++];
    p->up = strsep(&cells, "\t");
    for (; cells != NULL; p->lines++) {
        need(p->lines < LINES, "too many lines");
        p->name[p->lines] = strsep(&cells, "\t");
        p->color[p->lines] = color_of(p->name[p->lines]);
    }
}

static void read_point(const char *x, char *cells)
{
    need(picture.panels > 0, "a point before any panel");
    struct panel *p = &picture.panel[picture.panels - 1];
    need(p->points < POINTS, "too many points");
    p->x[p->points] = atof(x);
    for (int i = 0; i < p->lines; i++) {
        need(cells != NULL, "a point is short of numbers");
        p->y[i][p->points] = atof(strsep(&cells, "\t"));
        p->most = fmax(p->most, p->y[i][p->points]);
    }
    p->points++;
}

static void read_line(char *cells)
{
    const char *word = strsep(&cells, "\t");
    need(cells != NULL, "a line of one cell");
    if (strcmp(word, "title") == 0)
        picture.title = cells;
    else if (strcmp(word, "note") == 0)
        picture.note = cells;
    else if (strcmp(word, "panel") == 0)
        read_panel(cells);
    else if (strcmp(word, "across") != 0)
        read_point(word, cells);
    else {
        picture.across = strsep(&cells, "\t");
        picture.doubling = cells != NULL;
    }
}

/* ---- drawing */

/* A number with its thousands apart, or else with one digit more where it is not whole. */
static const char *text_of(double n)
{
    static char text[32];
    if (n >= 1000)
        snprintf(text, sizeof text, "%ld,%03ld", lround(n) / 1000, lround(n) % 1000);
    else
        snprintf(text, sizeof text, n == floor(n) ? "%.0f" : "%.1f", n);
    return text;
}

/* Ticks of 1, 2 or 5 and zeros, at most six above 0; the top is the first that no point is over. */
static void set_ticks(struct panel *p)
{
    p->tick = 1;
    for (int turn = 0; p->most > 6 * p->tick; turn++)
        p->tick *= turn % 3 == 1 ? 2.5 : 2;
    p->most = p->tick * ceil(p->most / p->tick);
}

static double x_of(const struct panel *p, double x)
{
    double first = p->x[0], last = p->x[p->points - 1];
    return LEFT + WIDE * (picture.doubling ? log2(x / first) / log2(last / first) : (x - first) / (last - first));
}

static double y_of(const struct panel *p, double y)
{
    return HIGH - HIGH * y / p->most;
}

static void draw_axes(const struct panel *p)
{
    printf("<text x=\"%d\" y=\"-14\" font-weight=\"bold\">%s</text>\n", LEFT, p->up);
    for (double y = 0; y <= p->most; y += p->tick) {
        printf("<line x1=\"%d\" y1=\"%.1f\" x2=\"%d\" y2=\"%.1f\" stroke=\"#dddddd\"/>", LEFT, y_of(p, y), LEFT + WIDE,
               y_of(p, y));
        printf("<text x=\"%d\" y=\"%.1f\" text-anchor=\"end\">%s</text>\n", LEFT - 8, y_of(p, y) + 4, text_of(y));
    }
    for (int k = 0; k < p->points; k++)
        printf("<text x=\"%.1f\" y=\"%d\" text-anchor=\"middle\">%s</text>\n", x_of(p, p->x[k]), HIGH + 18,
               text_of(p->x[k]));
    printf("<text x=\"%d\" y=\"%d\" text-anchor=\"middle\">%s%s</text>\n", LEFT + WIDE / 2, HIGH + 36, picture.across,
           picture.doubling ? " (log scale)" : "");
}

static void draw_line(const struct panel *p, int i)
{
    printf("<polyline fill=\"none\" stroke=\"%s\" stroke-width=\"2\" points=\"", p->color[i]);
    for (int k = 0; k < p->points; k++)
        printf("%s%.1f,%.1f", k == 0 ? "" : " ", x_of(p, p->x[k]), y_of(p, p->y[i][k]));
    printf("\"/>\n");
    for (int k = 0; k < p->points; k++)
        printf("<circle cx=\"%.1f\" cy=\"%.1f\" r=\"3\" fill=\"%s\"><title>%s, %.0f %s: %s</title></circle>\n",
               x_of(p, p->x[k]), y_of(p, p->y[i][k]), p->color[i], p->name[i], p->x[k], picture.across,
               text_of(p->y[i][k]));
}

/* Each line's name beside its last point, highest first, each at least a label's height below the one before, and the
 * last of them not below the axis. */
static void draw_names(const struct panel *p)
{
    bool named[LINES] = {false};
    double free = -LABEL;
    for (int turn = 0; turn < p->lines; turn++) {
        int top = -1;
        for (int i = 0; i < p->lines; i++)
            if (!named[i] && (top < 0 || p->y[i][p->points - 1] > p->y[top][p->points - 1]))
                top = i;
        named[top] = true;
        double y = fmin(fmax(y_of(p, p->y[top][p->points - 1]), free), HIGH - LABEL * (p->lines - 1 - turn));
        printf("<text x=\"%d\" y=\"%.1f\" fill=\"%s\">%s</text>\n", LEFT + WIDE + 10, y + 4, p->color[top],
               p->name[top]);
        free = y + LABEL;
    }
}

static void draw_panel(struct panel *p, int down)
{
    need(p->points > 1, "a panel of fewer than two points");
    set_ticks(p);
    printf("<g transform=\"translate(0 %d)\">\n", down);
    draw_axes(p);
    for (int i = 0; i < p->lines; i++)
        draw_line(p, i);
    draw_names(p);
    printf("</g>\n");
}

static void draw_picture(void)
{
    int high = TOP + APART * (picture.panels - 1) + HIGH + 48;
    need(picture.title != NULL && picture.note != NULL && picture.across != NULL, "no title, note or axis across");
    printf("<svg xmlns=\"http://www.w3.org/2000/svg\" width=\"%d\" height=\"%d\" viewBox=\"0 0 %d %d\" "
           "font-family=\"sans-serif\" font-size=\"13\">\n<title>%s</title>\n",
           FULL, high, FULL, high, picture.title);
    printf("<rect width=\"%d\" height=\"%d\" fill=\"#ffffff\"/>\n", FULL, high);
    printf("<text x=\"20\" y=\"28\" font-size=\"17\" font-weight=\"bold\">%s</text>\n", picture.title);
    printf("<text x=\"20\" y=\"48\" fill=\"#555555\">%s</text>\n", picture.note);
    for (int k = 0; k < picture.panels; k++)
        draw_panel(&picture.panel[k], TOP + APART * k);
    printf("</svg>\n");
}

int main(void)
{
    static char text[1 << 16];
    char *rest = text;
    text[fread(text, 1, sizeof text - 1, stdin)] = '\0';
    while (rest != NULL && *rest != '\0')
        read_line(strsep(&rest, "\n"));
    draw_picture();
    return 0;
}
