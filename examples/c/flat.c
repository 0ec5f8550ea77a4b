/* Prints the marks of a page, or flattens a document to a file:

       flat marks DOCUMENT PAGE [--tfm NAME=FILE].. [--rank NAME=FILE,..]..
       flat flatten DOCUMENT OUT [--tfm NAME=FILE].. [--rank NAME=FILE,..]..

   Each --rank is over the TFM files and the ranks before it. */
#include <stdio.h>
#include <stdlib.h>
#include <string.h>

#include "fulatzebi.h"

#define MAX_FONTS 64
#define MAX_BUNDLE 1048576
#define MAX_MARKS 65536
#define MAX_LINKS 8
#define MAX_OUT 1048576

/* The names and files of a bundle one behind the other, and where each stands. */
static uint8_t bundle[MAX_BUNDLE];
static size_t bundle_length;
static struct fulatzebi_font fonts[MAX_FONTS];
static size_t font_count;

static struct fulatzebi_mark marks[MAX_MARKS];
static struct fulatzebi_link links[MAX_LINKS];
static uint8_t out[MAX_OUT];

static void stop(const char *what, const char *name) {
    fprintf(stderr, "flat: %s: %s\n", name, what);
    exit(2);
}

/* Reads a file to the end; it must have fewer bytes than there is room for. */
static size_t load(const char *name, uint8_t *into, size_t room) {
    FILE *file = fopen(name, "rb");
    if (!file)
        stop("cannot be read", name);
    size_t n = fread(into, 1, room, file);
    if (n == room)
        stop("is too long", name);
    fclose(file);
    return n;
}

/* Adds NAME=FILE, which ends where the text ends or a comma stands; answers what comes behind it. */
static char *add_font(char *text, uint32_t rank) {
    char *end = text + strcspn(text, ",");
    char *next = *end ? end + 1 : end;
    *end = 0;
    char *file = strchr(text, '=');
    if (!file || font_count == MAX_FONTS)
        stop("is no NAME=FILE, or one too many", text);
    *file++ = 0;
    struct fulatzebi_font *font = &fonts[font_count++];
    font->rank = rank;
    font->name_place = bundle_length;
    font->name_length = strlen(text);
    if (font->name_length > MAX_BUNDLE - bundle_length)
        stop("is too long", text);
    memcpy(bundle + bundle_length, text, font->name_length);
    bundle_length += font->name_length;
    font->file_place = bundle_length;
    font->file_length = load(file, bundle + bundle_length, MAX_BUNDLE - bundle_length);
    /* A TFM file begins with its length in words of four bytes, and some are padded beyond it. */
    if (rank == 0 && font->file_length >= 2) {
        size_t stated = 4 * (256 * (size_t)bundle[font->file_place] + bundle[font->file_place + 1]);
        if (stated < font->file_length)
            font->file_length = stated;
    }
    bundle_length += font->file_length;
    return next;
}

static void add_fonts(int argc, char **argv) {
    uint32_t rank = 0;
    for (int i = 0; i + 1 < argc; i += 2) {
        if (!strcmp(argv[i], "--tfm")) {
            add_font(argv[i + 1], 0);
        } else if (!strcmp(argv[i], "--rank")) {
            rank++;
            for (char *text = argv[i + 1]; *text;)
                text = add_font(text, rank);
        } else {
            stop("is no option", argv[i]);
        }
    }
}

static int refused(const struct fulatzebi_answer *answer) {
    printf("refused %u at step %u, rank %u, index %zu: value %zu\n", answer->number, answer->step, answer->rank,
           answer->index, answer->value);
    for (size_t i = 0; i < answer->links && i < MAX_LINKS; i++)
        printf("link %u %u %zu\n", links[i].font, links[i].code, links[i].place);
    return 1;
}

static int show_marks(const uint8_t *document, size_t length, size_t page) {
    struct fulatzebi_answer answer;
    struct fulatzebi_page place;
    fulatzebi_page(document, length, page, &place, &answer);
    if (answer.number)
        return refused(&answer);
    printf("counts");
    for (int k = 0; k < 10; k++)
        printf(" %d", place.counts[k]);
    printf("\n");
    fulatzebi_read(bundle, bundle_length, fonts, font_count, document, length, page, links, MAX_LINKS, marks,
                   MAX_MARKS, &answer);
    for (size_t i = 0; i < answer.marks; i++) {
        const struct fulatzebi_mark *m = &marks[i];
        if (m->kind == FULATZEBI_GLYPH)
            printf("glyph %u %u %u %d %d\n", m->face, m->size, m->code, m->h, m->v);
        else
            printf("rule %u %u %d %d\n", m->height, m->width, m->h, m->v);
    }
    return answer.number ? refused(&answer) : 0;
}

static int write_flat(const uint8_t *document, size_t length, const char *target) {
    struct fulatzebi_answer answer;
    struct fulatzebi_document stated;
    fulatzebi_check(document, length, &stated, &answer);
    if (answer.number)
        return refused(&answer);
    fulatzebi_flatten(bundle, bundle_length, fonts, font_count, document, length, MAX_MARKS, links, MAX_LINKS, out,
                      MAX_OUT, &answer);
    if (answer.number)
        return refused(&answer);
    FILE *file = fopen(target, "wb");
    if (!file || fwrite(out, 1, answer.length, file) != answer.length || fclose(file))
        stop("cannot be written", target);
    printf("pages %u\nbytes in %zu\nbytes out %zu\n", stated.pages, length, answer.length);
    return 0;
}

int main(int argc, char **argv) {
    static uint8_t document[16777217];
    if (argc < 4)
        stop("takes marks or flatten, a document, and a page or a file", "flat");
    size_t length = load(argv[2], document, sizeof document);
    add_fonts(argc - 4, argv + 4);
    if (!strcmp(argv[1], "marks"))
        return show_marks(document, length, strtoul(argv[3], NULL, 10));
    if (!strcmp(argv[1], "flatten"))
        return write_flat(document, length, argv[3]);
    stop("is no command", argv[1]);
    return 2;
}
