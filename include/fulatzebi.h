/* Fulatzebi for C: DVI read through virtual fonts, and written out flat.
   docs/CALLERS.md says how to call it and what it trusts its caller with.

   A list is a pointer and how many entries it has; where there are none, the pointer may be NULL.
   No call keeps anything: each makes its shelf of fonts from the bundle, and frees it. */
#ifndef FULATZEBI_H
#define FULATZEBI_H

#include <stddef.h>
#include <stdint.h>

#ifdef __cplusplus
extern "C" {
#endif

/* A font of a bundle: where its name and its file stand among the bundle's bytes.
   Rank 0 is a TFM file; font k of the shelf and face k is the k-th of them. Ranks 1 to 4 are VF files, each rank over those
   below it. */
struct fulatzebi_font {
    uint32_t rank;
    size_t name_place;
    size_t name_length;
    size_t file_place;
    size_t file_length;
};

/* A page to copy: where its document stands among the bytes of all, and the page's number, from 1. */
struct fulatzebi_source {
    size_t place;
    size_t length;
    size_t page;
};

/* What a legal document states. The places are counted from its first byte, 0: last is that of its last page's 139
   (4,294,967,295 where it has none), post that of its 248, end that of its 249. */
struct fulatzebi_document {
    uint32_t mag;
    uint32_t l;
    uint32_t u;
    uint32_t pages;
    uint32_t last;
    size_t post;
    size_t end;
};

/* A page: the place of its 139, and its ten counts. */
struct fulatzebi_page {
    size_t place;
    int32_t counts[10];
};

enum { FULATZEBI_GLYPH = 1, FULATZEBI_RULE = 2 };

/* A mark at (h, v), in 1/65,536 printer's point. A glyph has a face, a size and a code, and height and width 0;
   a rule has a height and a width, and face, size and code 0. */
struct fulatzebi_mark {
    uint32_t kind;
    uint32_t face;
    uint32_t size;
    uint32_t code;
    uint32_t height;
    uint32_t width;
    int32_t h;
    int32_t v;
};

/* A link of a fault's chain, innermost first: a packet under way, by its font and code, or the page, by 65,535 and its number;
   and the place of the command that did not succeed. */
struct fulatzebi_link {
    uint32_t font;
    uint32_t code;
    size_t place;
};

enum {
    FULATZEBI_ACCEPTED = 0,
    /* 1 to 26: docs/REFUSALS.md */
    FULATZEBI_NO_MEMORY = 100,
    FULATZEBI_BAD_RECORD = 101 /* a rank above 4, or a record that reaches outside its bytes */
};

enum {
    FULATZEBI_STEP_CALL = 0,
    FULATZEBI_STEP_FONT = 1,     /* rank and index: which font */
    FULATZEBI_STEP_DOCUMENT = 2, /* the document, or the one that a run was opened on */
    FULATZEBI_STEP_PAGE = 3,     /* index: which page of those to copy */
    FULATZEBI_STEP_CLOSING = 4
};

/* What a call answers. All of it is written by each call.
   number  0 where it is accepted, a refusal's number, or one above 26
   step    what was refused
   rank    of a font
   index   of a font among those of its rank, or of a page among those to copy, from 0
   value   the length, place or entry beside the number; 0 where there is none
   links   how many links the fault's chain has; those beyond the caller's list are only counted
   marks   how many marks a page has, or how many of a refused one were put into the caller's list
   length  how long the flat file is */
struct fulatzebi_answer {
    uint32_t number;
    uint32_t step;
    uint32_t rank;
    size_t index;
    size_t value;
    size_t links;
    size_t marks;
    size_t length;
};

/* Whether a document is legal. What it states is written only where it is. */
void fulatzebi_check(const uint8_t *document, size_t document_length, struct fulatzebi_document *stated,
                     struct fulatzebi_answer *answer);

/* Where a page of a document stands, and its counts. Written only where there is such a page. */
void fulatzebi_page(const uint8_t *document, size_t document_length, size_t page, struct fulatzebi_page *place,
                    struct fulatzebi_answer *answer);

/* Whether a bundle of fonts makes a shelf. At most 1,048,576 bytes and 32 TFM files; on each rank at most 8 files of 32,768
   bytes together. */
void fulatzebi_fonts(const uint8_t *bytes, size_t bytes_length, const struct fulatzebi_font *fonts, size_t font_count,
                     struct fulatzebi_answer *answer);

/* The marks of a page, at the front of the list of marks; where it is refused, the marks before, and a fault's chain at the
   front of the list of links. Other entries of either are left as they are. */
void fulatzebi_read(const uint8_t *bytes, size_t bytes_length, const struct fulatzebi_font *fonts, size_t font_count,
                    const uint8_t *document, size_t document_length, size_t page, struct fulatzebi_link *links,
                    size_t link_count, struct fulatzebi_mark *marks, size_t mark_count,
                    struct fulatzebi_answer *answer);

/* A flat file of all pages of a document, at the front of out. A page may have up to page_marks marks. */
void fulatzebi_flatten(const uint8_t *bytes, size_t bytes_length, const struct fulatzebi_font *fonts,
                       size_t font_count, const uint8_t *document, size_t document_length, size_t page_marks,
                       struct fulatzebi_link *links, size_t link_count, uint8_t *out, size_t out_length,
                       struct fulatzebi_answer *answer);

/* A flat file of these pages, in their order. The opening document gives the magnification, which all must have, and the
   height and width of the largest page. Where a page is refused, out is not a file. */
void fulatzebi_copy(const uint8_t *bytes, size_t bytes_length, const struct fulatzebi_font *fonts, size_t font_count,
                    const uint8_t *opening, size_t opening_length, const uint8_t *documents, size_t documents_length,
                    const struct fulatzebi_source *sources, size_t source_count, size_t page_marks,
                    struct fulatzebi_link *links, size_t link_count, uint8_t *out, size_t out_length,
                    struct fulatzebi_answer *answer);

#ifdef __cplusplus
}
#endif

#endif
