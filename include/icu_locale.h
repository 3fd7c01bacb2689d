/*
 * Locale identifiers for programs in C: likely subtags, canonical forms, directions, names and negotiation, over tables
 * of your own.
 *
 * icu_locale_answer gives what the programs write for one line, and icu_locale_data.h opens CLDR's data of the machine.
 * docs/PROGRAM.md says what their commands answer, docs/tables.schema.json what tables look like, and docs/PROVED.md what
 * is proved of these calls and what is not.
 *
 *     struct icu_locale tables = {0};
 *     uint8_t out[64];
 *     size_t written;
 *     if (icu_locale_open(json, json_length, &tables) == ICU_LOCALE_DONE
 *         && icu_locale_answer(&tables, (const uint8_t *)"maximize", 8, (const uint8_t *)"zh-TW", 5, out, sizeof out,
 *                              &written) == ICU_LOCALE_ACCEPTED)
 *         printf("%.*s\n", (int)written, (const char *)out);
 *     icu_locale_close(&tables);
 *
 * What a caller owes, and nothing checks:
 *
 * - A handle is zero before its first use, as `= {0}` makes it. It is never copied and never written to by the caller.
 *   A second handle to the same tables comes from icu_locale_share, or with a list from icu_locale_available or
 *   icu_locale_available_in.
 * - One call at a time is made on a handle. Other threads may use other handles at the same time, also those to the
 *   same tables. A handle may go to another thread, by what orders the two: a thread's start or join, or a lock.
 * - A pointer and the length after it are a slice: as many bytes can be read there, at `out` as many can be written.
 *   No pointer is null, not even where the length is 0. Lengths are at most PTRDIFF_MAX. What is read does not change
 *   during the call, by no other thread and by no file that is mapped there.
 * - What icu_locale_lend_names is handed is read after the call too. It stays where it is, and as it is, until no handle
 *   has the tables any more, or other names are lent. Where a file is mapped there, nobody writes to it or cuts it off
 *   meanwhile: a newer one is renamed to its name.
 * - `written`, `request`, `available` and a handle are whole, and aligned as their types want.
 * - `out`, `written`, `request`, `available` and a handle share no byte with each other, nor with a slice that is read.
 *   Slices that are read may overlap. The two handles of icu_locale_share are two, and so are those of
 *   icu_locale_available and icu_locale_available_in.
 * - There are 256 KiB of stack, which were enough in each test. A text of JSON that is nested deeply wants most.
 * - malloc, realloc and free are those of one allocator, and align as the C standard says. No call is made in a signal
 *   handler, nor in the child of a fork in a process that has threads.
 *
 * An answer has the bytes of the tables, a NUL or a line feed among them where a name has one, and is ended by neither:
 * `written` is its length.
 *
 * ICU_LOCALE_MEMORY comes in the place of any number that is found out later: a text is read before what it says is
 * looked at. The other numbers come in the order that each call tells.
 *
 * What holds whatever the bytes say: no call reads or writes outside of what it was given, each call returns, and a
 * handle that was never opened, was closed, or is opened or closed again has an answer and no fault.
 */
#ifndef ICU_LOCALE_H
#define ICU_LOCALE_H

#include <stddef.h>
#include <stdint.h>

#ifdef __cplusplus
extern "C" {
#endif

/* The version of this header, and of the library that was built with it. */
#define ICU_LOCALE_VERSION "0.4.0"

/* A handle to tables, and to a list of what is available where icu_locale_available or icu_locale_available_in has made it.
   Null says that it is closed. What it points to is the library's. */
struct icu_locale {
    void *at;
};

/* The numbers that calls return. */
enum {
    /* icu_locale_open, icu_locale_supplement, icu_locale_lend_names, icu_locale_share, icu_locale_available and
       icu_locale_available_in: it is done. */
    ICU_LOCALE_DONE = 0,

    /* icu_locale_answer: the line is accepted, and `out` begins with the answer. icu_locale_flat_names: `out` begins with
       the names. icu_locale_missing: `out` begins with the name of a table. icu_locale_fault: the text is a locale
       identifier. */
    ICU_LOCALE_ACCEPTED = 0,

    /* icu_locale_answer: the line is refused, and `out` begins with the program's answer to that: `?`, a tab and the name
       of the refusal, as `InvalidLanguage`, `InvalidSubtag`, `NoFixedPoint`, `NoSubdivisionFixedPoint`,
       `NoValueFixedPoint`, `NoFieldFixedPoint`, `Circle` or `IdentifierNotFound`. icu_locale_fault: the text is none.
       icu_locale_data_name: the data has no name. icu_locale_missing: no table is missing. icu_locale_refusal_text: the
       number has no text. */
    ICU_LOCALE_REFUSED = 1,

    /* icu_locale_is_settled. */
    ICU_LOCALE_NOT_SETTLED = 0,
    ICU_LOCALE_SETTLED = 1,

    /* icu_locale_negotiate and icu_locale_negotiate_in: a request is met, and its place and that of the available identifier
       are told. */
    ICU_LOCALE_MET = 0,

    /* icu_locale_negotiate and icu_locale_negotiate_in: no request is met. */
    ICU_LOCALE_NOT_MET = 1,

    /* Any call on a handle but icu_locale_open and icu_locale_close: the handle is closed. */
    ICU_LOCALE_CLOSED = 2,

    /* icu_locale_answer, icu_locale_flat_names, icu_locale_missing, icu_locale_data_name and icu_locale_refusal_text: there
       is too little room. */
    ICU_LOCALE_ROOM = 3,

    /* Memory was asked for and refused. */
    ICU_LOCALE_MEMORY = 4,

    /* icu_locale_open and icu_locale_supplement: the text is no JSON. */
    ICU_LOCALE_JSON = 5,

    /* icu_locale_open and icu_locale_supplement: the JSON has not the shape of tables, or of a supplement.
       icu_locale_lend_names: the bytes have not the flat form. icu_locale_flat_names: the names have none. */
    ICU_LOCALE_SHAPE = 6,

    /* icu_locale_answer and icu_locale_missing: no command has these words. icu_locale_available_in, icu_locale_negotiate_in and
       icu_locale_list_fault: the word is that of no syntax. */
    ICU_LOCALE_COMMAND = 7,

    /* icu_locale_answer, icu_locale_is_settled, icu_locale_available and icu_locale_available_in: the tables leave out one that
       is needed. icu_locale_missing tells which. */
    ICU_LOCALE_TABLE = 8,

    /* icu_locale_negotiate and icu_locale_negotiate_in, and icu_locale_answer at `negotiate`, `serve`, `nearest` and `resolved`:
       the handle holds no list of what is available. This is told before a table that is left out. */
    ICU_LOCALE_NEGOTIATE = 9,

    /* icu_locale_available, icu_locale_negotiate, both in a syntax, and icu_locale_list_fault: the text lists something that
       is no identifier, or no locale identifier in the syntax. */
    ICU_LOCALE_LIST = 10,

    /* icu_locale_negotiate and icu_locale_negotiate_in, and icu_locale_answer at `negotiate`: the likely tables are not
       settled. This is told before the line is read. */
    ICU_LOCALE_UNSETTLED = 11,

    /* icu_locale_supplement and icu_locale_lend_names: another handle has the tables too. */
    ICU_LOCALE_SHARED = 12
};

/*
 * Reads tables of a JSON text. Nothing of the text is kept.
 *
 * ICU_LOCALE_DONE: the handle holds these tables and no list, and has let go what it held.
 * ICU_LOCALE_JSON, ICU_LOCALE_SHAPE, ICU_LOCALE_MEMORY: the handle is as it was, with what it held.
 */
int32_t icu_locale_open(const uint8_t *json, size_t json_length, struct icu_locale *handle);

/*
 * Reads the supplement of the handle's tables of a JSON text, in place of the one that they have: the parents of locales,
 * which `fallback` asks, rules of language matching, which `serve`, `nearest`, `resolved` and `distance` ask, and aliases of
 * values, which `canonicalize` in a syntax asks. It comes before the first icu_locale_share and icu_locale_available on the
 * handle. Nothing of the text is kept. docs/supplement.schema.json says what it looks like.
 *
 * ICU_LOCALE_DONE: the tables have this supplement. What the handle holds besides is as it was.
 * ICU_LOCALE_CLOSED, ICU_LOCALE_JSON, ICU_LOCALE_SHAPE, ICU_LOCALE_SHARED, ICU_LOCALE_MEMORY: all is as it was. A closed
 * handle is told before the text is read, and that other handles have the tables after it.
 */
int32_t icu_locale_supplement(struct icu_locale *handle, const uint8_t *json, size_t json_length);

/*
 * Lends names that lie in the flat form, in place of those lent before. A name is asked of the tables' own rows first, and
 * then of what is lent. The bytes are looked through here, once, and nothing of them is copied: what a caller owes for it is
 * above. It comes before the first icu_locale_share and icu_locale_available on the handle, as icu_locale_supplement does.
 * Bytes without groups take back what was lent.
 *
 * ICU_LOCALE_DONE: the names are lent. What the handle holds besides is as it was.
 * ICU_LOCALE_CLOSED, ICU_LOCALE_SHAPE, ICU_LOCALE_SHARED: all is as it was, and the bytes are not kept. No memory is taken.
 * A closed handle is told before the bytes are read, and that other handles have the tables after it.
 *
 * The flat form has numbers of four bytes, the least first, but for two of two bytes in each row:
 *
 *      0   ICUTEXT1
 *      8   how many groups there are; 12 how many runs; 16 how many rows
 *     20   for each group: the place of its name among the texts, how many bytes that has, and the number of its run
 *          for each run: how many rows are before its end. The first begins at row 0, and each other where one ends.
 *          for each row: the place of its key, the place of its text, how many bytes the key has, how many the text
 *          the texts, up to the end
 *
 * Places are counted in bytes from the beginning of the texts, and runs from 0. The texts are UTF-8, and each name, key and
 * text lies among them and begins and ends between two characters. Names rise from group to group by their bytes, and keys
 * from row to row of a run. Ends of runs do not fall, and the last is the number of rows; without runs there are no rows.
 * Several groups may have one run, and several rows one text.
 *
 * The name of a group is a locale and a marker, as JSON tables have them at `names`, with a slash between:
 * `zh-Hant/language/medium/light`. Keys and texts are as there. A group or a key that is not in written form is never
 * found. `tools/flat-names` writes the form too.
 */
int32_t icu_locale_lend_names(struct icu_locale *handle, const uint8_t *flat, size_t flat_length);

/*
 * Writes the names of the handle's tables in the flat form to `out`: their own, and not those that are lent. The same
 * tables give the same bytes.
 *
 * ICU_LOCALE_ACCEPTED: `out` begins with the names, which have `*written` bytes. ICU_LOCALE_ROOM: `*written` is how many
 * bytes they have. ICU_LOCALE_CLOSED, ICU_LOCALE_SHAPE where a key or a text has more than 65,535 bytes, ICU_LOCALE_MEMORY.
 * `out` is as it was, and `*written` 0 but for ICU_LOCALE_ROOM.
 */
int32_t icu_locale_flat_names(struct icu_locale *handle, uint8_t *out, size_t room, size_t *written);

/*
 * Makes `to` a second handle to the tables of `from`, as for another thread. The tables are there once; they go when the
 * last of their handles is closed. A list of what is available is not shared. Memory is asked for once.
 *
 * ICU_LOCALE_DONE: `to` holds the tables of `from` and no list, and has let go what it held. `from` is as it was.
 * ICU_LOCALE_CLOSED: `from` is closed. ICU_LOCALE_MEMORY. Both handles are as they were.
 */
int32_t icu_locale_share(struct icu_locale *from, struct icu_locale *to);

/*
 * Answers one line. `command` is the program's words, one space between two: `maximize`, `minimize`, `minimize-script`,
 * `canonicalize`, `key`, `identifier-key`, `direction`, `fallback`, `distance`, `parts`, `validate`, `name CHAIN
 * PREFERENCES` as in `name light en`, `language-name`, `script-name`, `region-name` and `variant-name` with the same,
 * `exemplars SET PREFERENCES`, `list KIND PREFERENCES`, or `negotiate`, `serve`, `nearest` or `resolved` where the handle
 * holds a list of what is available. `line` is one line of the program's input without its line feed: an identifier, or at
 * `canonicalize` an identifier, or an identifier, a tab and a value; at `distance` two identifiers, at `negotiate`,
 * `nearest` and `resolved` the requests of one reader, at `serve` a header Accept-Language, at the names of subtags a
 * subtag, at `exemplars` a text, and at `list` the beginning of subtags. `serve`, `nearest`, `resolved` and `distance` ask
 * the rules of language matching of the tables' supplement, and `validate` its table of validity.
 *
 * Before these words may come `locales`, `bcp47` or `posix`, as in `locales maximize`: the line holds locale identifiers
 * with extensions, or such tags of RFC 5646, or such names of POSIX locales, and the answer has their extensions.
 *
 * At `serve`, `nearest` and `resolved` what is near enough may come before all these, each once and in this order, as in
 * `threshold 40 or-first locales resolved`. N is a number from 0 to 65,535.
 *
 * - `threshold N`: what is served has a distance below N; without it below 50.
 * - `demotion N`: each request after the first counts N more; without it 5. By 0 the nearest of all requests is served.
 * - `favor-script`: a difference of languages counts a quarter, so that one of scripts weighs more.
 * - `or-first`: the first of what is available is served where nothing else is, even if the header refuses it.
 *
 * The answer is the program's line without its line feed, with the marks that it has: `zh-Hant-TW`, a tab and `M`.
 *
 * ICU_LOCALE_ACCEPTED, ICU_LOCALE_REFUSED: `out` begins with the answer, and `written` is how long that is.
 * ICU_LOCALE_ROOM: `out` is as it was, and `written` is how much room the answer wants.
 * ICU_LOCALE_CLOSED, ICU_LOCALE_COMMAND, ICU_LOCALE_NEGOTIATE, ICU_LOCALE_TABLE, ICU_LOCALE_UNSETTLED,
 * ICU_LOCALE_MEMORY: `out` is as it was, and `written` is 0. Where several hold, the number is that of the first in this
 * order; room is asked for last.
 *
 * The tables stay. The answer is made in a list that the handle keeps, and then copied to `out`: the first calls take
 * memory for it, and later ones where they want a longer one, or come after a call that found no memory. What is taken
 * besides is what the program takes: memory for an identifier's variants, for a value and for a list of requests. The
 * first `canonicalize`, `key`, `name` in a syntax, `serve`, `nearest` or `resolved` on a handle also reads the rules, which
 * takes about as long as some hundred calls, and the first of the last three prepares the list; both are kept until the
 * handle is closed.
 */
int32_t icu_locale_answer(struct icu_locale *handle, const uint8_t *command, size_t command_length, const uint8_t *line,
                          size_t line_length, uint8_t *out, size_t room, size_t *written);

/*
 * Writes the first table that a command needs and that the handle's tables leave out, by its name in JSON, to `out`:
 * `likely_language`, `likely_script_region`, `aliases`, `direction` or `exemplars` of the tables, `matching` or `validity` of
 * the supplement. `command` has the words that icu_locale_answer takes; no list is needed for those that ask one. What
 * icu_locale_is_settled and the calls of lists need, `maximize` needs.
 *
 * ICU_LOCALE_ACCEPTED: `out` begins with the name, which has `*written` bytes; 20 are enough for each. ICU_LOCALE_REFUSED:
 * no table is missing. ICU_LOCALE_ROOM: `*written` is how many bytes the name has. ICU_LOCALE_CLOSED, ICU_LOCALE_COMMAND.
 * `out` is as it was, and `*written` 0 but for ICU_LOCALE_ROOM. Memory is taken for reading the words alone.
 */
int32_t icu_locale_missing(struct icu_locale *handle, const uint8_t *command, size_t command_length, uint8_t *out,
                           size_t room, size_t *written);

/*
 * Tells whether the likely tables are settled, as the program's `settled` does: it looks at each row.
 *
 * ICU_LOCALE_SETTLED, ICU_LOCALE_NOT_SETTLED, ICU_LOCALE_CLOSED, or ICU_LOCALE_TABLE where a likely table is left out.
 */
int32_t icu_locale_is_settled(struct icu_locale *handle);

/*
 * Makes `negotiator` a handle to the tables of `from`, with a list of the identifiers that are available. `list` is the
 * program's first line at `negotiate`, without its line feed: one space is between two identifiers, and an empty text
 * lists none. Over settled tables their minimal forms are made here once, and kept.
 *
 * `negotiator` answers every other call too. Each handle that negotiates is given its list by a call of its own.
 *
 * ICU_LOCALE_DONE: `negotiator` holds the tables of `from` and the list, and has let go what it held. `from` is as it
 * was.
 * ICU_LOCALE_CLOSED: `from` is closed. ICU_LOCALE_TABLE: a likely table is left out. ICU_LOCALE_LIST,
 * ICU_LOCALE_MEMORY. Both handles are as they were. Where several of these hold, the number is that of the closed handle
 * first, then of the table, and of the list. Tables need not be settled: a list over those that are not is for `serve`,
 * `nearest` and `resolved`.
 */
int32_t icu_locale_available(struct icu_locale *from, const uint8_t *list, size_t list_length,
                             struct icu_locale *negotiator);

/*
 * Tells the first request that an available identifier means, and the first identifier that means it: `request` and
 * `available` are their places in the two lists, counted from 0. Two identifiers mean the same where they have one
 * maximal form. `requests` is one line of the program's input at `negotiate`, without its line feed: one space is
 * between two identifiers, the most wanted first, and an empty text lists none.
 *
 * ICU_LOCALE_MET: `request` and `available` are the places.
 * ICU_LOCALE_NOT_MET, ICU_LOCALE_CLOSED, ICU_LOCALE_NEGOTIATE, ICU_LOCALE_UNSETTLED, ICU_LOCALE_LIST, ICU_LOCALE_MEMORY:
 * both are as they were. A closed handle is told first, then a list that is not there, then tables that are not settled,
 * then requests that are none. `tools/cldr-tables --settled` writes settled tables.
 *
 * The list and the tables stay. Memory is taken for the list of requests and for their variants alone.
 */
int32_t icu_locale_negotiate(struct icu_locale *negotiator, const uint8_t *requests, size_t requests_length,
                             size_t *request, size_t *available);

/*
 * The same two calls of lists in a syntax, which `syntax` names by its word, as before a command of icu_locale_answer:
 * `locales`, `bcp47` or `posix`. An empty text names none, and the call does what that without a syntax does. Extensions
 * have no part in what is met; at `negotiate`, `serve` and `nearest` icu_locale_answer writes with them what such a list
 * has, as `0`, a tab and `en-u-hc-h12`, whatever the syntax of its own words. At `resolved` they are the request's.
 *
 * ICU_LOCALE_COMMAND: the word is that of no syntax, which is told before all else, and all is as it was. The other
 * numbers are those of the calls above, in their order.
 */
int32_t icu_locale_available_in(struct icu_locale *from, const uint8_t *syntax, size_t syntax_length, const uint8_t *list,
                                size_t list_length, struct icu_locale *negotiator);
int32_t icu_locale_negotiate_in(struct icu_locale *negotiator, const uint8_t *syntax, size_t syntax_length,
                                const uint8_t *requests, size_t requests_length, size_t *request, size_t *available);

/*
 * Tells which text of a list is no identifier, where a call answered ICU_LOCALE_LIST. `syntax` is as above, and empty for the
 * calls without one. It asks no handle.
 *
 * ICU_LOCALE_LIST: `place` is that of the first such text, counted from 0.
 * ICU_LOCALE_DONE: each text is an identifier. ICU_LOCALE_COMMAND, ICU_LOCALE_MEMORY. `place` is as it was.
 */
int32_t icu_locale_list_fault(const uint8_t *syntax, size_t syntax_length, const uint8_t *list, size_t list_length,
                              size_t *place);

/*
 * Tells where a text is wrong that is no locale identifier of UTS #35, as a line is read behind `locales`. It asks no handle.
 *
 * ICU_LOCALE_REFUSED: `from` and `to` are the first byte, and the byte after the last, of the first piece that no locale
 * identifier can have there, whatever follows: 6 and 10 of `en-US-Latn`. Where each piece can be, both are the text's end.
 * ICU_LOCALE_ACCEPTED: the text is a locale identifier. ICU_LOCALE_MEMORY. `from` and `to` are as they were.
 */
int32_t icu_locale_fault(const uint8_t *text, size_t length, size_t *from, size_t *to);

/*
 * Writes the name of the data, as the member `cldr` of the supplement says it, to `out`: `41` for CLDR 41.
 *
 * ICU_LOCALE_ACCEPTED: `out` begins with the name, which has `*written` bytes. ICU_LOCALE_REFUSED: it has no name.
 * ICU_LOCALE_ROOM: `*written` is how many bytes it has. ICU_LOCALE_CLOSED. `out` is as it was, and `*written` 0 but for
 * ICU_LOCALE_ROOM. It takes no memory.
 */
int32_t icu_locale_data_name(struct icu_locale *handle, uint8_t *out, size_t room, size_t *written);

/*
 * Writes what a number above says to a person, in English, to `out`: `the text is no JSON` for ICU_LOCALE_JSON. It asks no
 * handle.
 *
 * ICU_LOCALE_ACCEPTED: `out` begins with the text, which has `*written` bytes; 64 are enough for each. ICU_LOCALE_REFUSED:
 * the number says no refusal, or 1, which says another thing at each call. ICU_LOCALE_ROOM: `*written` is how many bytes
 * the text has. `out` is as it was, and `*written` 0 but for ICU_LOCALE_ROOM. It takes no memory.
 */
int32_t icu_locale_refusal_text(int32_t number, uint8_t *out, size_t room, size_t *written);

/* Lets the tables and the list go, and makes the handle zero. It may be opened again. A second call does nothing. */
void icu_locale_close(struct icu_locale *handle);

#ifdef __cplusplus
}
#endif

#endif
