/*
 * Opens CLDR's data of the machine, as Debian's package icu-locale-data has it. What is here is no part of the library: it
 * is compiled into the program, which is linked with zlib too, as by `cc program.c $(pkg-config --cflags --libs icu_locale)
 * -lz`. Nothing is proved of it.
 *
 *     struct icu_locale tables = {0};
 *     if (icu_locale_open_cldr("en zh-Hant", &tables) != ICU_LOCALE_DONE)
 *         return 1;
 *     ... icu_locale_answer(&tables, (const uint8_t *)"name light en", 13, ..);
 *     icu_locale_close(&tables);
 */
#ifndef ICU_LOCALE_DATA_H
#define ICU_LOCALE_DATA_H

#include <errno.h>
#include <stdint.h>
#include <stdio.h>
#include <stdlib.h>
#include <string.h>
#include <zlib.h>

#include "icu_locale.h"

/* The variable that names the folder of the data, and the folder where it is not set. */
#define ICU_LOCALE_DATA_VARIABLE "ICU_LOCALE_DATA"
#define ICU_LOCALE_DATA_FOLDER "/usr/share/icu-locale"

/* The numbers of icu_locale_open_cldr beside those of icu_locale.h. */
enum {
    /* The folder has no data, or it cannot be read: errno says why, and is EIO where it is damaged. */
    ICU_LOCALE_NO_DATA = -1,

    /* CLDR has no names in one of the locales. */
    ICU_LOCALE_NO_LOCALE = -2
};

/*
 * Opens the tables of CLDR with their supplement: likely subtags, which are settled, aliases, directions, parents, rules
 * of language matching, the table of validity, and the names and exemplar sets in some locales. `locales` lists these with
 * one space between two, as "en zh-Hant", in any case and with `-` or `_`; null and "" list none. The folder is that of the
 * variable ICU_LOCALE_DATA, where it is set and not empty, and else that of icu-locale-data.
 *
 * ICU_LOCALE_DONE: the handle holds the tables and no list, and has let go what it held.
 * ICU_LOCALE_NO_DATA, ICU_LOCALE_NO_LOCALE, ICU_LOCALE_MEMORY, and ICU_LOCALE_JSON or ICU_LOCALE_SHAPE where a file has
 * another content: the handle is as it was. Where several hold, that there is no data comes first, and then a locale. All
 * that is taken to read the files is given back.
 */
static inline int32_t icu_locale_open_cldr(const char *locales, struct icu_locale *handle);

/* What follows is for that call alone. */

/* Bytes that are read or written, and how many ends of lines were read: those of a file are let go. */
struct icu_locale_text {
    char *at;
    size_t length, room, lines;
};

/* A part of a text. */
struct icu_locale_piece {
    const char *at;
    size_t length;
};

/* A locale that is asked for: what is read of its language's file, and what of that begins at its next row; how many groups
   its block has, and the line behind that block, or SIZE_MAX where it is not the first of several, and the file is read to
   its end. */
struct icu_locale_names {
    struct icu_locale_text language;
    struct icu_locale_piece name, rest;
    size_t groups, end;
};

/* Makes room for more bytes behind those of a text; 0 where there is no memory. */
static inline int icu_locale_make_room(struct icu_locale_text *text, size_t more) {
    size_t room = text->room > 0 ? text->room : 65536;
    char *at;
    while (room - text->length < more) room *= 2;
    if (room == text->room) return 1;
    at = (char *)realloc(text->at, room);
    if (at == NULL) return 0;
    text->at = at;
    text->room = room;
    return 1;
}

static inline int icu_locale_put(struct icu_locale_text *text, const char *at, size_t length) {
    if (!icu_locale_make_room(text, length)) return 0;
    if (length > 0) memcpy(text->at + text->length, at, length);
    text->length += length;
    return 1;
}

/* What is before the next `end` of a text, which is then behind it. */
static inline struct icu_locale_piece icu_locale_cut(struct icu_locale_piece *rest, char end) {
    struct icu_locale_piece piece = *rest;
    const char *found = piece.length > 0 ? (const char *)memchr(piece.at, end, piece.length) : NULL;
    if (found != NULL) piece.length = (size_t)(found - piece.at);
    rest->at += piece.length + (found != NULL);
    rest->length -= piece.length + (found != NULL);
    return piece;
}

static inline size_t icu_locale_count(const char *at, size_t length, char byte) {
    const char *end = at + length;
    size_t many = 0;
    for (; at < end && (at = (const char *)memchr(at, byte, (size_t)(end - at))) != NULL; at++) many++;
    return many;
}

/* A byte of a locale, as the names of files have it, in lowercase and with `-`; 0 where it can be in none. */
static inline char icu_locale_byte(char byte) {
    if (byte == '-' || byte == '_') return '-';
    if (byte >= 'A' && byte <= 'Z') return (char)(byte - 'A' + 'a');
    return (byte >= 'a' && byte <= 'z') || (byte >= '0' && byte <= '9') ? byte : 0;
}

static inline int icu_locale_same(struct icu_locale_piece one, struct icu_locale_piece other) {
    size_t at;
    if (one.length != other.length) return 0;
    for (at = 0; at < one.length; at++)
        if (icu_locale_byte(one.at[at]) != icu_locale_byte(other.at[at])) return 0;
    return 1;
}

/* Finds a locale in the first line of its language's file, and its first row in what is read of that. */
static inline int32_t icu_locale_find(struct icu_locale_piece locale, size_t tables, struct icu_locale_names *names) {
    struct icu_locale_piece rest = {names->language.at, names->language.length}, blocks = icu_locale_cut(&rest, '\n');
    names->rest = rest;
    names->end = 1;
    if (icu_locale_count(blocks.at, blocks.length, '|') > 0) icu_locale_cut(&blocks, ':'); /* the sum */
    while (blocks.length > 0) {
        struct icu_locale_piece block = icu_locale_cut(&blocks, '|');
        size_t line = names->end;
        names->groups = icu_locale_count(block.at, block.length, ';') + 1;
        for (names->end += tables * names->groups; block.length > 0; line++) {
            struct icu_locale_piece group = icu_locale_cut(&block, ';');
            while (group.length > 0) {
                names->name = icu_locale_cut(&group, ',');
                if (!icu_locale_same(names->name, locale)) continue;
                if (blocks.length == 0 || names->end > 1 + tables * names->groups) names->end = SIZE_MAX;
                while (--line > 0) icu_locale_cut(&names->rest, '\n');
                return ICU_LOCALE_DONE;
            }
        }
    }
    names->end = SIZE_MAX;
    return ICU_LOCALE_NO_LOCALE;
}

/* Whether the first lines of a file begin with the sum of what is behind it. */
static inline int icu_locale_is_whole(const struct icu_locale_text *text, size_t lines) {
    struct icu_locale_piece rest = {text->at, text->length};
    char sum[9];
    while (lines-- > 0) icu_locale_cut(&rest, '\n');
    if (rest.at - text->at < 8) return 0;
    snprintf(sum, sizeof sum, "%08x", (unsigned)crc32(0, (const Bytef *)text->at + 8, (uInt)(rest.at - text->at - 8)));
    return memcmp(text->at, sum, 8) == 0;
}

/* Reads a file of the data, `NAME.gz`: of a language's file no more than the first block where a locale is in that, which
   is compared with its own sum then, since the file's is at its end. What was read is there to be let go, whatever the
   number. */
static inline int32_t icu_locale_read_file(const char *folder, const char *name, struct icu_locale_piece locale,
                                           size_t tables, struct icu_locale_names *names) {
    struct icu_locale_text *text = &names->language;
    char path[4096];
    int got = 1;
    gzFile file;
    if (snprintf(path, sizeof path, "%s/%s.gz", folder, name) >= (int)sizeof path) {
        errno = ENAMETOOLONG;
        return ICU_LOCALE_NO_DATA;
    }
    errno = 0;
    file = gzopen(path, "rb");
    if (file == NULL && (errno == 0 || errno == ENOMEM)) return ICU_LOCALE_MEMORY;
    if (file == NULL) return ICU_LOCALE_NO_DATA;
    for (names->end = locale.length > 0 ? 1 : SIZE_MAX; got > 0 && text->lines < names->end;) {
        if (!icu_locale_make_room(text, 16384)) {
            gzclose(file);
            return ICU_LOCALE_MEMORY;
        }
        got = gzread(file, text->at + text->length, 16384);
        if (got > 0) text->lines += icu_locale_count(text->at + text->length, (size_t)got, '\n');
        if (got > 0) text->length += (size_t)got;
        if (text->lines > 0 && names->end == 1) (void)icu_locale_find(locale, tables, names);
    }
    if (gzclose(file) == Z_OK && got >= 0 && (text->lines < names->end || icu_locale_is_whole(text, names->end)))
        return ICU_LOCALE_DONE;
    errno = EIO;
    return ICU_LOCALE_NO_DATA;
}

/* Reads the names in a locale. */
static inline int32_t icu_locale_read_names(const char *folder, struct icu_locale_piece locale, size_t tables,
                                            struct icu_locale_names *names) {
    char language[9];
    size_t at;
    int32_t said;
    for (at = 0; at < locale.length && icu_locale_byte(locale.at[at]) != '-'; at++) {
        if (at + 1 == sizeof language || icu_locale_byte(locale.at[at]) == 0) return ICU_LOCALE_NO_LOCALE;
        language[at] = icu_locale_byte(locale.at[at]);
    }
    if (at == 0) return ICU_LOCALE_NO_LOCALE;
    language[at] = 0;
    said = icu_locale_read_file(folder, language, locale, tables, names);
    if (said == ICU_LOCALE_NO_DATA && errno == ENOENT) return ICU_LOCALE_NO_LOCALE;
    return said == ICU_LOCALE_DONE ? icu_locale_find(locale, tables, names) : said; /* the text may have moved */
}

static inline int icu_locale_is_read(const struct icu_locale_names *names, size_t many, struct icu_locale_piece locale) {
    size_t at;
    for (at = 0; at < many; at++)
        if (icu_locale_same(names[at].name, locale)) return 1;
    return 0;
}

/* Locales by the order of their names: tables whose members come so are read in one pass. */
static inline int icu_locale_by_name(const void *one, const void *other) {
    const struct icu_locale_piece *a = &((const struct icu_locale_names *)one)->name;
    const struct icu_locale_piece *b = &((const struct icu_locale_names *)other)->name;
    int order = memcmp(a->at, b->at, a->length < b->length ? a->length : b->length);
    return order != 0 ? order : (a->length > b->length) - (a->length < b->length);
}

/* The row of a locale in the next table. Those of the other groups of its block are between two. */
static inline struct icu_locale_piece icu_locale_next_row(struct icu_locale_names *names) {
    struct icu_locale_piece row = icu_locale_cut(&names->rest, '\n');
    size_t other;
    for (other = 1; other < names->groups; other++) icu_locale_cut(&names->rest, '\n');
    return row;
}

/* Puts the rows of locales in the next table behind a part of a text. */
static inline int icu_locale_put_rows(struct icu_locale_text *text, struct icu_locale_names *names, size_t many) {
    int is_first = 1;
    size_t at;
    for (at = 0; at < many; at++) {
        struct icu_locale_piece row = icu_locale_next_row(&names[at]);
        if (row.length == 0) continue;
        if (!icu_locale_put(text, is_first ? "\"" : ",\"", is_first ? 1 : 2)
            || !icu_locale_put(text, names[at].name.at, names[at].name.length) || !icu_locale_put(text, "\":", 2)
            || !icu_locale_put(text, row.at, row.length))
            return 0;
        is_first = 0;
    }
    return 1;
}

/* Puts the tables and their supplement together, whose two lines are the first of the base. */
static inline int32_t icu_locale_put_together(const struct icu_locale_text *base, struct icu_locale_names *names,
                                              size_t many, struct icu_locale_text *tables,
                                              struct icu_locale_text *supplement) {
    struct icu_locale_piece rest = {base->at, base->length};
    size_t place;
    for (place = 0; rest.length > 0; place++) {
        struct icu_locale_text *text = place < 2 ? supplement : tables;
        struct icu_locale_piece line = icu_locale_cut(&rest, '\n');
        if (!icu_locale_put(text, line.at, line.length)) return ICU_LOCALE_MEMORY;
        if (place != 1 && rest.length > 0 && !icu_locale_put_rows(text, names, many)) return ICU_LOCALE_MEMORY;
    }
    if (place >= 4) return ICU_LOCALE_DONE;
    errno = EIO;
    return ICU_LOCALE_NO_DATA;
}

/* Opens two texts. A handle of its own is opened, so that another one stays where that is refused. */
static inline int32_t icu_locale_open_texts(const struct icu_locale_text *tables,
                                            const struct icu_locale_text *supplement, struct icu_locale *handle) {
    struct icu_locale opened = {0};
    int32_t said = icu_locale_open((const uint8_t *)tables->at, tables->length, &opened);
    if (said == ICU_LOCALE_DONE)
        said = icu_locale_supplement(&opened, (const uint8_t *)supplement->at, supplement->length);
    if (said == ICU_LOCALE_DONE) said = icu_locale_share(&opened, handle);
    icu_locale_close(&opened);
    return said;
}

/* Opens the data of a file, with the names in so many locales. */
static inline int32_t icu_locale_open_base(const struct icu_locale_text *base, struct icu_locale_names *names, size_t many,
                                           struct icu_locale *handle) {
    struct icu_locale_text tables = {NULL, 0, 0, 0}, supplement = {NULL, 0, 0, 0};
    int32_t said = icu_locale_put_together(base, names, many, &tables, &supplement);
    if (said == ICU_LOCALE_DONE) said = icu_locale_open_texts(&tables, &supplement, handle);
    free(tables.at);
    free(supplement.at);
    return said;
}

/* Opens the data of a folder. `names` is zero, and has room for each locale. */
static inline int32_t icu_locale_open_folder(const char *folder, const char *locales, struct icu_locale_names *names,
                                             struct icu_locale *handle) {
    struct icu_locale_piece rest = {locales, strlen(locales)}, none = {NULL, 0};
    struct icu_locale_names base = {{NULL, 0, 0, 0}, {NULL, 0}, {NULL, 0}, 0, 0};
    size_t many = 0, at, tables;
    int32_t said = icu_locale_read_file(folder, "base-and-supplement", none, 0, &base);
    tables = base.language.lines > 0 ? base.language.lines - 1 : 0;
    while (said == ICU_LOCALE_DONE && rest.length > 0) {
        struct icu_locale_piece locale = icu_locale_cut(&rest, ' ');
        if (!icu_locale_is_read(names, many, locale)) said = icu_locale_read_names(folder, locale, tables, &names[many++]);
    }
    if (said == ICU_LOCALE_DONE) qsort(names, many, sizeof *names, icu_locale_by_name);
    if (said == ICU_LOCALE_DONE) said = icu_locale_open_base(&base.language, names, many, handle);
    for (at = 0; at < many; at++) free(names[at].language.at);
    free(base.language.at);
    return said;
}

static inline int32_t icu_locale_open_cldr(const char *locales, struct icu_locale *handle) {
    const char *named = getenv(ICU_LOCALE_DATA_VARIABLE), *listed = locales != NULL ? locales : "";
    const char *folder = named != NULL && named[0] != 0 ? named : ICU_LOCALE_DATA_FOLDER;
    struct icu_locale_names *names = (struct icu_locale_names *)calloc(strlen(listed) / 2 + 1, sizeof *names);
    int32_t said;
    if (names == NULL) return ICU_LOCALE_MEMORY;
    said = icu_locale_open_folder(folder, listed, names, handle);
    free(names);
    return said;
}

#endif
