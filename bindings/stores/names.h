// Names of locales, for the extensions of PostgreSQL and SQLite: texts of tables are put together of the lines of CLDR's
// data, and the handles to them are kept. docs/CLDR.md says what is in each file.
#ifndef STORE_NAMES_H
#define STORE_NAMES_H

#include "store.h"

struct piece {
    const char *at;
    size_t length;
};

// A text that is put together, with room for all of it, or read, with how many ends of lines were.
struct text {
    char *at;
    size_t length, room, lines;
};

// The rows of a locale: what is read of a file from the next one on, how many groups are in its block, none where it is in
// none, and the line behind that block, or SIZE_MAX where it is not the first of several, and the file is read to its end.
struct rows {
    struct piece rest;
    size_t groups, end;
};

// A handle to the names in a locale; what a reader wrote for it last; the command that asks it.
struct names {
    char locale[32], asked[64], command[64];
    uint64_t used;
    struct icu_locale handle;
};

static inline void put(struct text *text, struct piece piece) {
    memcpy(text->at + text->length, piece.at, piece.length);
    text->length += piece.length;
}

// Whether there is as much room again, after more was wanted than there was.
static inline int grow(struct text *text) {
    struct text more = {take(text->room * 2), 0, text->room * 2, text->lines};
    if (more.at == NULL)
        return 0;
    put(&more, (struct piece){text->at, text->length});
    let_go(text->at);
    *text = more;
    return 1;
}

// What is before the next `end` of a text, which is then behind it.
static inline struct piece cut(struct piece *rest, char end) {
    const char *found = memchr(rest->at, end, rest->length);
    struct piece piece = {rest->at, found == NULL ? rest->length : (size_t)(found - rest->at)};
    size_t past = piece.length + (found != NULL);
    *rest = (struct piece){rest->at + past, rest->length - past};
    return piece;
}

static inline size_t count_of(const char *at, size_t length, char byte) {
    const char *end = at + length;
    size_t many = 0;
    for (; at < end && (at = memchr(at, byte, end - at)) != NULL; at++)
        many++;
    return many;
}

// The rows of a locale in what is read of its language's file.
static inline struct rows rows_of(const struct text *language, struct piece locale, size_t tables) {
    struct rows rows = {{language->at, language->length}, 0, 1};
    struct piece blocks = cut(&rows.rest, '\n');
    if (count_of(blocks.at, blocks.length, '|') > 0)
        cut(&blocks, ':'); // the sum
    while (blocks.length > 0) {
        struct piece block = cut(&blocks, '|');
        size_t line = rows.end;
        rows.groups = count_of(block.at, block.length, ';') + 1;
        for (rows.end += tables * rows.groups; block.length > 0; line++) {
            struct piece group = cut(&block, ';');
            while (group.length > 0) {
                struct piece name = cut(&group, ',');
                if (name.length != locale.length || memcmp(name.at, locale.at, name.length) != 0)
                    continue;
                if (blocks.length == 0 || rows.end > 1 + tables * rows.groups)
                    rows.end = SIZE_MAX;
                while (--line > 0)
                    cut(&rows.rest, '\n');
                return rows;
            }
        }
    }
    return (struct rows){blocks, 0, SIZE_MAX};
}

// Whether the first lines of a file begin with the sum of what is behind it.
static inline int is_whole(const struct text *text, size_t lines) {
    struct piece rest = {text->at, text->length};
    char sum[9];
    while (lines-- > 0)
        cut(&rest, '\n');
    if (rest.at - text->at < 8)
        return 0;
    snprintf(sum, sizeof sum, "%08x", (unsigned)crc32(0, (const Bytef *)text->at + 8, rest.at - text->at - 8));
    return memcmp(text->at, sum, 8) == 0;
}

// The lines of a file of the data: of a language's file no more than the first block where a locale is in that, which is
// compared with its own sum then, since the file's is at its end.
static inline int32_t unpack(const char *folder, struct piece name, struct piece locale, size_t tables, struct text *text) {
    char path[1024];
    int got = 1, is_short = 0;
    size_t end = locale.length > 0 ? 1 : SIZE_MAX;
    gzFile file;
    if (snprintf(path, sizeof path, "%s/%.*s.gz", folder, (int)name.length, name.at) >= (int)sizeof path) {
        errno = ENAMETOOLONG;
        return NO_FILE;
    }
    errno = 0;
    file = gzopen(path, "rb");
    if (file == NULL)
        return errno == 0 || errno == ENOMEM ? ICU_LOCALE_MEMORY : NO_FILE;
    *text = (struct text){take(65536), 0, 65536, 0};
    is_short = text->at == NULL;
    while (!is_short && text->lines < end && (got = gzread(file, text->at + text->length, 16384)) > 0) {
        text->lines += count_of(text->at + text->length, got, '\n');
        text->length += got;
        if (text->lines > 0 && end == 1)
            end = rows_of(text, locale, tables).end;
        is_short = text->room - text->length < 16384 && !grow(text);
    }
    if (gzclose(file) == Z_OK && !is_short && got >= 0 && (text->lines < end || is_whole(text, end)))
        return ICU_LOCALE_DONE;
    if (text->at != NULL)
        let_go(text->at);
    errno = EIO;
    return is_short ? ICU_LOCALE_MEMORY : NO_FILE;
}

static inline struct piece next_row(struct rows *rows) {
    struct piece row = cut(&rows->rest, '\n');
    for (size_t other = 1; other < rows->groups; other++)
        cut(&rows->rest, '\n');
    return row;
}

static inline void put_row(struct text *text, struct piece locale, struct piece row) {
    if (row.length == 0)
        return;
    put(text, (struct piece){"\"", 1});
    put(text, locale);
    put(text, (struct piece){"\":", 2});
    put(text, row);
}

// Puts the rows of a locale into the tables, and into the supplement, whose two lines are the first of the base.
static inline void put_together(const struct text *base, struct rows rows, struct piece locale, struct text *tables,
                         struct text *supplement) {
    struct piece rest = {base->at, base->length};
    put(supplement, cut(&rest, '\n'));
    put_row(supplement, locale, next_row(&rows));
    put(supplement, cut(&rest, '\n'));
    while (rest.length > 0) {
        put(tables, cut(&rest, '\n'));
        if (rest.length > 0)
            put_row(tables, locale, next_row(&rows));
    }
}

static inline int32_t open_rows(const struct text *base, const struct text *language, struct piece locale, size_t columns,
                         struct icu_locale *handle) {
    struct rows rows = rows_of(language, locale, columns);
    size_t room = base->length + language->length + (base->lines + 1) * (locale.length + 3);
    struct text tables = {NULL, 0, room, 0}, supplement = tables;
    int32_t said = ICU_LOCALE_MEMORY;
    if (rows.groups == 0)
        return NO_NAMES;
    tables.at = take(room);
    supplement.at = tables.at == NULL ? NULL : take(room);
    if (supplement.at != NULL) {
        put_together(base, rows, locale, &tables, &supplement);
        said = open_tables(handle, tables.at, tables.length, supplement.at, supplement.length);
        let_go(supplement.at);
    }
    if (tables.at != NULL)
        let_go(tables.at);
    return said;
}

// Opens the names in a locale. A folder without the base has no data at all; one without a language has no names in it.
static inline int32_t open_names(const char *folder, struct piece locale, struct icu_locale *handle) {
    struct piece rest = locale, none = {NULL, 0};
    struct text base, language;
    size_t columns;
    int32_t said = unpack(folder, (struct piece){"base-and-supplement", 19}, none, 0, &base);
    if (said != ICU_LOCALE_DONE)
        return said;
    columns = base.lines > 0 ? base.lines - 1 : 0;
    said = unpack(folder, cut(&rest, '-'), locale, columns, &language);
    if (said == ICU_LOCALE_DONE) {
        said = open_rows(&base, &language, locale, columns, handle);
        let_go(language.at);
    } else if (said == NO_FILE && errno == ENOENT)
        said = NO_NAMES;
    let_go(base.at);
    return said;
}

static inline int is_spelled(const char *kept, struct piece piece) {
    return strlen(kept) == piece.length && memcmp(kept, piece.at, piece.length) == 0;
}

static inline void spell(char *kept, struct piece piece) {
    memcpy(kept, piece.at, piece.length);
    kept[piece.length] = 0;
}

// Notes that names were asked for last.
static inline void note_use(const struct names *kept, struct names *found) {
    for (int i = 0; i < KEPT_NAMES; i++)
        if (kept[i].used >= found->used && &kept[i] != found)
            found->used = kept[i].used + 1;
}

// The names in a locale: kept, or read in the place of those that were asked for the longest ago.
static inline int32_t names_in(struct names *kept, const char *folder, struct piece locale, struct names **found) {
    int32_t said;
    *found = kept;
    if (locale.length >= sizeof kept->locale)
        return NO_NAMES;
    for (int i = 0; i < KEPT_NAMES; i++) {
        if (is_spelled(kept[i].locale, locale)) {
            *found = &kept[i];
            return ICU_LOCALE_DONE;
        }
        if (kept[i].used < (*found)->used)
            *found = &kept[i];
    }
    said = open_names(folder, locale, &(*found)->handle);
    if (said == ICU_LOCALE_DONE) {
        spell((*found)->locale, locale);
        (*found)->asked[0] = 0;
        snprintf((*found)->command, sizeof kept->command, "locales name light %s", (*found)->locale);
    } else if ((*found)->handle.at == NULL)
        (*found)->locale[0] = (*found)->asked[0] = 0;
    return said;
}

// The names for a reader: those in the first locale of the reader's chain that there are names in. Where the reader's
// locale is refused, `chain` has the refusal.
static inline int32_t names_for(struct icu_locale *base, struct names *kept, const char *folder, struct piece reader,
                         struct answer *chain, struct names **found) {
    int32_t said = NO_NAMES;
    struct piece rest;
    for (int i = 0; i < KEPT_NAMES; i++)
        if (reader.length > 0 && is_spelled(kept[i].asked, reader)) {
            *found = &kept[i];
            note_use(kept, *found);
            return ICU_LOCALE_DONE;
        }
    ask_canonical(base, "locales fallback", reader.at, reader.length, chain);
    if (chain->said != ICU_LOCALE_ACCEPTED)
        return chain->said;
    rest = (struct piece){(const char *)chain->text, chain->length};
    while (rest.length > 0 && said == NO_NAMES)
        said = names_in(kept, folder, cut(&rest, ' '), found);
    if (said == ICU_LOCALE_DONE) {
        note_use(kept, *found);
        if (reader.length < sizeof (*found)->asked)
            spell((*found)->asked, reader);
    }
    forget(chain);
    return said;
}

#endif
