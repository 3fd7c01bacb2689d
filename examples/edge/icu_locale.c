// What a reader is served, for HAProxy's Lua, over libicu_locale: a module for Lua 5.3 and 5.4. README.md has the lines of
// the configuration. A site is of one Lua state, and HAProxy makes one call at a time on that.
#include <lauxlib.h>
#include <lua.h>
#include <stdlib.h>
#include <string.h>

#include "icu_locale.h"

#define NAME "icu_locale.site"
#define LONGEST 8192 // bytes of a header

struct site {
    struct icu_locale base, handle;
};

static int closed(lua_State *L) {
    struct site *site = luaL_checkudata(L, 1, NAME);
    icu_locale_close(&site->handle);
    icu_locale_close(&site->base);
    return 0;
}

// site:serve(header): what is available, as it was listed, and its place from 1; or nothing
static int serve(lua_State *L) {
    struct site *site = luaL_checkudata(L, 1, NAME);
    size_t length = 0, written;
    const char *header = luaL_optlstring(L, 2, NULL, &length);
    uint8_t out[257];
    if (header == NULL || length > LONGEST
        || icu_locale_answer(&site->handle, (const uint8_t *)"locales serve", 13, (const uint8_t *)header, length, out,
                             sizeof out - 1, &written) != ICU_LOCALE_ACCEPTED
        || out[0] < '0' || out[0] > '9') // the answer is `none`
        return 0;
    out[written] = 0;
    lua_getuservalue(L, 1);
    lua_rawgeti(L, -1, strtol((const char *)out, NULL, 10) + 1);
    lua_pushinteger(L, strtol((const char *)out, NULL, 10) + 1);
    return 2;
}

// site(tables, supplement, {"en", "de"}): the texts of tables and their supplement, and what is available
static int make_site(lua_State *L) {
    size_t length, more_length, list_length;
    const uint8_t *tables = (const uint8_t *)luaL_checklstring(L, 1, &length);
    const uint8_t *supplement = (const uint8_t *)luaL_checklstring(L, 2, &more_length), *list;
    struct site *site;
    int32_t said;
    luaL_checktype(L, 3, LUA_TTABLE);
    lua_pushliteral(L, "");
    for (lua_Integer i = 1; lua_rawgeti(L, 3, i) != LUA_TNIL; i++, lua_concat(L, 3)) {
        lua_pushstring(L, i == 1 ? "" : " ");
        lua_insert(L, -2);
    }
    lua_pop(L, 1);
    list = (const uint8_t *)lua_tolstring(L, -1, &list_length);
    site = lua_newuserdata(L, sizeof *site);
    memset(site, 0, sizeof *site);
    luaL_setmetatable(L, NAME);
    lua_pushvalue(L, 3);
    lua_setuservalue(L, -2);
    said = icu_locale_open(tables, length, &site->base);
    if (said == ICU_LOCALE_DONE) said = icu_locale_supplement(&site->base, supplement, more_length);
    if (said == ICU_LOCALE_DONE)
        said = icu_locale_available_in(&site->base, (const uint8_t *)"locales", 7, list, list_length, &site->handle);
    return said == ICU_LOCALE_DONE ? 1 : luaL_error(L, "icu_locale: %d", (int)said);
}

int luaopen_icu_locale(lua_State *L) {
    static const luaL_Reg methods[] = {{"serve", serve}, {"__gc", closed}, {NULL, NULL}}, calls[] = {{"site", make_site}, {NULL, NULL}};
    luaL_newmetatable(L, NAME);
    luaL_setfuncs(L, methods, 0);
    lua_pushvalue(L, -1);
    lua_setfield(L, -2, "__index");
    luaL_newlib(L, calls);
    return 1;
}
