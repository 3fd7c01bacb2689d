-- What a reader is served, for nginx's Lua, over libicu_locale. README.md has the lines of nginx.conf.
--
-- A site is made before the workers are forked, and each of them has its copy: one call at a time is made on a handle.
local ffi = require "ffi"

ffi.cdef [[
struct icu_locale { void *at; };
int32_t icu_locale_open(const char *json, size_t json_length, struct icu_locale *handle);
int32_t icu_locale_supplement(struct icu_locale *handle, const char *json, size_t json_length);
int32_t icu_locale_available_in(struct icu_locale *from, const char *syntax, size_t syntax_length, const char *list,
                                size_t list_length, struct icu_locale *negotiator);
int32_t icu_locale_answer(struct icu_locale *handle, const char *command, size_t command_length, const char *line,
                          size_t line_length, char *out, size_t room, size_t *written);
void icu_locale_close(struct icu_locale *handle);
]]

local room = 256
local longest = 8192 -- bytes of a header
local out, written = ffi.new("char[?]", room), ffi.new("size_t[1]")
local handle_type = ffi.typeof("struct icu_locale")

local function check(said, what)
    if said ~= 0 then error("icu_locale: " .. what .. ": " .. said, 3) end
end

local function text_of(path)
    local file = assert(io.open(path, "rb"))
    local text = file:read("*a")
    file:close()
    return text
end

local Site = {}
Site.__index = Site

-- What is available for a header, as it was listed, and its place from 1; or nothing. Several headers are a table.
function Site:serve(header)
    if type(header) == "table" then header = table.concat(header, ",") end
    if not header or #header > longest then return nil end
    local said = self.library.icu_locale_answer(self.handle, "locales serve", 13, header, #header, out, room, written)
    local place = said == 0 and tonumber(ffi.string(out, written[0]):match("^%d+"))
    if not place then return nil end -- the answer is `none`
    return self.available[place + 1], place + 1
end

-- A site by the paths of tables and their supplement, and a list of what is available.
local function site(tables, supplement, available, library)
    local it = setmetatable({ library = ffi.load(library or "libicu_locale.so.0"), available = available }, Site)
    it.base = ffi.gc(handle_type(), it.library.icu_locale_close)
    it.handle = ffi.gc(handle_type(), it.library.icu_locale_close)
    local text, more, list = text_of(tables), text_of(supplement), table.concat(available, " ")
    check(it.library.icu_locale_open(text, #text, it.base), "tables")
    check(it.library.icu_locale_supplement(it.base, more, #more), "supplement")
    check(it.library.icu_locale_available_in(it.base, "locales", 7, list, #list, it.handle), "available")
    it:serve("en") -- reads the rules
    return it
end

return { site = site }
