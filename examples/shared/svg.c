#include "svg.h"

#include "lane_names.h"

#include <stdarg.h>
#include <stdio.h>
#include <string.h>

struct look {
    const char *class;
    double size;
    const char *style;
};

static const struct look looks[] = {
    [TEXT_PLAIN] = {"plain", 11.5, ""},
    [TEXT_PAGE_TITLE] = {"page-title", 19, "font-weight:bold"},
    [TEXT_TITLE] = {"title", 14, "font-weight:bold"},
    [TEXT_HEADING] = {"heading", 11.5, "font-weight:bold;fill:#52606d"},
    [TEXT_SMALL] = {"small", 11, "fill:#52606d"},
    [TEXT_COUNT] = {"count", 10, "font-weight:bold"},
    [TEXT_VALUE] = {"value", 11, "paint-order:stroke;stroke:#fff;stroke-width:2px"},
    [TEXT_LATE] = {"late", 9, "fill:#6b2fa0;paint-order:stroke;stroke:#fff;stroke-width:2px"},
    [TEXT_BADGE] = {"badge", 8.5, "font-weight:bold;fill:#fff"},
    [TEXT_PART] = {"part", 8.5, "font-weight:bold;fill:" CROSSING_COLOUR},
    [TEXT_SIDE] = {"side", 8.5, "font-weight:bold;fill:" CHOICE_COLOUR},
    [TEXT_CHOICE] = {"choice-name", 10,
                     "font-weight:bold;fill:" CHOICE_COLOUR ";paint-order:stroke;stroke:#fff;stroke-width:2px"},
    [TEXT_FAULT] = {"fault", 10,
                    "font-weight:bold;fill:" CROSSING_COLOUR ";paint-order:stroke;stroke:#fff;stroke-width:2px"},
};

/* A text with the characters that mean something in XML written as XML wants them. */
static void print_escaped(const char *text)
{
    for (; *text != '\0'; text++) {
        switch (*text) {
        case '&':
            printf("&amp;");
            break;
        case '<':
            printf("&lt;");
            break;
        case '>':
            printf("&gt;");
            break;
        case '"':
            printf("&quot;");
            break;
        default:
            putchar(*text);
        }
    }
}

static void print_style(void)
{
    printf("<style>");
    for (size_t look = 0; look < sizeof looks / sizeof looks[0]; look++) {
        printf(".%s{font-size:%.1fpx;%s}", looks[look].class, looks[look].size, looks[look].style);
    }
    printf("</style>\n");
}

void svg_begin(double width, double height, const char *path, const char *behind)
{
    enum { BESIDE_TITLE = 250 }; /* room for words of the picture's own at the right */
    char name[256], title[320], shown[320];
    const char *slash = strrchr(path, '/');
    clean_text(name, sizeof name, slash == NULL ? path : slash + 1);
    printf("<svg xmlns=\"http://www.w3.org/2000/svg\" width=\"%.0f\" height=\"%.0f\" viewBox=\"0 0 %.0f %.0f\" "
           "font-family=\"system-ui, sans-serif\" fill=\"#1f2933\">\n",
           width, height, width, height);
    print_style();
    snprintf(title, sizeof title, "%s%s", name, behind);
    printf("<title>");
    print_escaped(title);
    printf("</title>\n");
    svg_rectangle(0, 0, width, height, "#fff", 1);
    svg_fit(shown, sizeof shown, TEXT_PAGE_TITLE, width - 2 * SVG_MARGIN - BESIDE_TITLE, title);
    svg_text(SVG_MARGIN, 30, TEXT_STARTS, TEXT_PAGE_TITLE, "%s", shown);
}

void svg_end(void) { printf("</svg>\n"); }

void svg_rectangle(double x, double y, double width, double height, const char *fill, double opacity)
{
    printf("<rect x=\"%.1f\" y=\"%.1f\" width=\"%.1f\" height=\"%.1f\" fill=\"%s\" fill-opacity=\"%.2f\"/>\n", x, y,
           width, height, fill, opacity);
}

void svg_box(double x, double y, double width, double height, const char *fill, const char *edge)
{
    printf("<rect x=\"%.1f\" y=\"%.1f\" width=\"%.1f\" height=\"%.1f\" rx=\"4\" fill=\"%s\" stroke=\"%s\"/>\n", x, y,
           width, height, fill, edge);
}

void svg_line(double x1, double y1, double x2, double y2, const char *colour, double width)
{
    printf("<path d=\"M%.1f %.1fL%.1f %.1f\" stroke=\"%s\" stroke-width=\"%.1f\"/>\n", x1, y1, x2, y2, colour, width);
}

void svg_dashes(double x1, double y, double x2, const char *colour)
{
    printf("<path d=\"M%.1f %.1fH%.1f\" stroke=\"%s\" stroke-dasharray=\"3 4\"/>\n", x1, y, x2, colour);
}

void svg_diamond(double x, double y)
{
    printf("<path d=\"M%.1f %.1fl5.5 5.5l-5.5 5.5l-5.5 -5.5z\" fill=\"" CUE_COLOUR "\" stroke=\"#fff\"/>\n", x,
           y - 5.5);
}

void svg_arrow(double x, double y, const char *colour)
{
    printf("<path d=\"M%.1f %.1fl-11 -4v8z\" fill=\"%s\"/>\n", x, y, colour);
}

void svg_curve(double x1, double y1, double x2, double y2, const char *colour, double width)
{
    double half = (x1 + x2) / 2;
    printf("<path d=\"M%.1f %.1fC%.1f %.1f %.1f %.1f %.1f %.1f\" fill=\"none\" stroke=\"%s\" stroke-width=\"%.1f\"/>\n",
           x1, y1, half, y1, half, y2, x2, y2, colour, width);
}

void svg_ribbon(struct ribbon_end from, struct ribbon_end to, const char *fill, double opacity)
{
    double half = (from.x + to.x) / 2, from_bottom = from.top + from.height, to_bottom = to.top + to.height;
    printf("<path d=\"M%.1f %.1fC%.1f %.1f %.1f %.1f %.1f %.1f", from.x, from.top, half, from.top, half, to.top, to.x,
           to.top);
    printf("V%.1fC%.1f %.1f %.1f %.1f %.1f %.1fz\" fill=\"%s\" fill-opacity=\"%.2f\"/>\n", to_bottom, half, to_bottom,
           half, from_bottom, from.x, from_bottom, fill, opacity);
}

void svg_bars_begin(const char *colour, double width)
{
    printf("<path stroke=\"%s\" stroke-width=\"%.1f\" d=\"", colour, width);
}

void svg_bar(double x, double bottom, double height) { printf("M%.1f %.1fv-%.1f", x, bottom, height); }

void svg_bars_end(void) { printf("\"/>\n"); }

void svg_dot(double x, double y, double radius, const char *fill, const char *edge)
{
    printf("<circle cx=\"%.1f\" cy=\"%.1f\" r=\"%.1f\" fill=\"%s\" stroke=\"%s\"/>\n", x, y, radius, fill, edge);
}

void svg_zigzag(double x, double top, double bottom, const char *colour)
{
    printf("<path fill=\"none\" stroke=\"%s\" stroke-width=\"1.5\" d=\"M%.1f %.1f", colour, x, top);
    for (double y = top + 6, side = 3; y <= bottom; y += 6, side = -side) {
        printf("L%.1f %.1f", x + side, y);
    }
    printf("\"/>\n");
}

void svg_text(double x, double y, enum text_anchor anchor, enum text_look look, const char *format, ...)
{
    static const char *const anchors[] = {[TEXT_STARTS] = "start", [TEXT_CENTRED] = "middle", [TEXT_ENDS] = "end"};
    char text[1024];
    va_list list;
    va_start(list, format);
    vsnprintf(text, sizeof text, format, list);
    va_end(list);
    printf("<text x=\"%.1f\" y=\"%.1f\" text-anchor=\"%s\" class=\"%s\">", x, y, anchors[anchor], looks[look].class);
    print_escaped(text);
    printf("</text>\n");
}

void svg_badge(double x, double y, const char *colour, const char *words)
{
    double width = svg_text_width(TEXT_BADGE, words) + 6, height = looks[TEXT_BADGE].size + 2;
    svg_box(x - width / 2, y - height / 2, width, height, colour, "#fff");
    svg_text(x, y + 3, TEXT_CENTRED, TEXT_BADGE, "%s", words);
}

void svg_group_begin(const char *class, const char *words)
{
    printf("<g class=\"%s\"><title>", class);
    print_escaped(words);
    printf("</title>\n");
}

void svg_group_end(void) { printf("</g>\n"); }

/* The bytes of the character at the front of a text that is not empty and is UTF-8. */
static size_t character_bytes(const char *text)
{
    size_t bytes = 1;
    while (((unsigned char)text[bytes] & 0xc0) == 0x80) {
        bytes++;
    }
    return bytes;
}

/* The width of a character, as a part of the size of its text: that of a wide typeface, or a square for other scripts.
 */
static double character_width(const char *character, size_t bytes)
{
    static const struct {
        const char *characters;
        double width;
    } widths[] = {{" ijl.,:;'!|", 0.33}, {"tfr()[]-/", 0.42}, {"mwMW@%", 0.95}, {"ABCDEFGHIJKLNOPQRSTUVXYZ", 0.72}};
    if (bytes > 1) {
        return bytes == 2 ? 0.72 : 1;
    }
    for (size_t index = 0; index < sizeof widths / sizeof widths[0]; index++) {
        if (strchr(widths[index].characters, *character) != NULL) {
            return widths[index].width;
        }
    }
    return 0.63;
}

double svg_text_width(enum text_look look, const char *text)
{
    double width = 0;
    while (*text != '\0') {
        size_t bytes = character_bytes(text);
        width += character_width(text, bytes) * looks[look].size;
        text += bytes;
    }
    return width;
}

/* How many bytes of a text are no wider than the room, in whole characters. */
static size_t bytes_within(enum text_look look, double room, const char *text)
{
    size_t length = 0;
    for (double width = 0; text[length] != '\0';) {
        size_t bytes = character_bytes(text + length);
        width += character_width(text + length, bytes) * looks[look].size;
        if (width > room) {
            break;
        }
        length += bytes;
    }
    return length;
}

void svg_fit(char *to, size_t bytes, enum text_look look, double room, const char *text)
{
    bool whole = text[bytes_within(look, room, text)] == '\0';
    size_t length = whole ? strlen(text) : bytes_within(look, room - svg_text_width(look, ".."), text);
    snprintf(to, bytes, "%.*s%s", (int)length, text, whole ? "" : "..");
}

size_t svg_line_bytes(enum text_look look, double room, const char *text)
{
    size_t within = bytes_within(look, room, text), length = within;
    if (text[within] == '\0') {
        return within;
    }
    while (length > 0 && text[length] != ' ') {
        length--;
    }
    return length > 0 ? length : within;
}

void svg_legend(double x, double y, const struct svg_sign *signs, size_t count)
{
    for (size_t index = 0; index < count; index++) {
        signs[index].draw(x, y);
        x += signs[index].width + 6;
        svg_text(x, y + 4, TEXT_STARTS, TEXT_SMALL, "%s", signs[index].words);
        x += svg_text_width(TEXT_SMALL, signs[index].words) + 14;
    }
}
