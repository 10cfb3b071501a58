-- Regex search in Neovim's buffers: libzorfelith by LuaJIT's FFI. A buffer's lines are the chunks of its text, so a match may go over several
-- lines, and nothing is joined.
--
-- The library is that of vim.g.zorfelith_library or of the environment's ZORFELITH_LIBRARY, a path; else libzorfelith.so.0, where the system's
-- loader finds it.
local ffi = require("ffi")

ffi.cdef([[
struct zf_bytes { const uint8_t *bytes; size_t len; };
struct zf_handle { uint8_t full; void *held; };
struct zf_settings {
    uint8_t case_insensitive, multi_line, dot_matches_new_line, crlf, swap_greed, bytes, any_bytes, split_characters, kind;
    size_t size_limit, cache_capacity, full;
};
struct zf_fault { size_t start; size_t end; size_t len; };
struct zf_refused { uint32_t status; size_t pattern; size_t at; };
struct zf_match { size_t pattern; size_t start; size_t end; };
struct zf_progress { size_t count; size_t next; };
struct zf_change { size_t first; size_t dropped; size_t added; size_t start; size_t end; };
uint32_t zf_compile(struct zf_handle *, const struct zf_bytes *, size_t, const struct zf_settings *, size_t, struct zf_refused *);
uint32_t zf_explain(const uint8_t *, size_t, const struct zf_settings *, size_t, struct zf_fault *, uint8_t *, size_t);
uint32_t zf_share(struct zf_handle *, struct zf_handle *);
void zf_free(struct zf_handle *);
uint32_t zf_restart(struct zf_handle *, size_t, uint8_t);
uint32_t zf_next(struct zf_handle *, const struct zf_bytes *, size_t, size_t, struct zf_match *, size_t, struct zf_progress *);
uint32_t zf_live_new(struct zf_handle *, const struct zf_bytes *, size_t);
uint32_t zf_live_edit(struct zf_handle *, size_t, size_t, size_t, const struct zf_bytes *, size_t, struct zf_change *);
uint32_t zf_live_len(struct zf_handle *, size_t *);
uint32_t zf_live_get(struct zf_handle *, size_t, struct zf_match *);
uint32_t zf_live_window(struct zf_handle *, size_t, size_t, struct zf_match *, size_t, size_t *);
]])

local M = {}

local BATCH = 4096
local NONE = ffi.cast("size_t", -1)
local WORDS = {
  [3] = "the text is too long",
  [7] = "the pattern isn't UTF-8",
  [9] = "the pattern is too large",
  [10] = "out of memory",
}

local library
local function zf()
  library = library or ffi.load(vim.g.zorfelith_library or vim.env.ZORFELITH_LIBRARY or "libzorfelith.so.0")
  return library
end

local newline = "\n"
local as_bytes = ffi.typeof("const uint8_t *")

-- What is wrong with a pattern that isn't read, in words.
local function fault_of(pattern, settings)
  local fault, words = ffi.new("struct zf_fault"), ffi.new("uint8_t[64]")
  if zf().zf_explain(as_bytes(pattern), #pattern, settings, ffi.sizeof(settings), fault, words, 64) ~= 1 then
    return nil
  end
  local at = tonumber(fault.start)
  return ("%s at byte %d: %s"):format(ffi.string(words, fault.len), at, pattern:sub(at + 1, tonumber(fault["end"])))
end

-- Compiles a pattern. `flags` has names of fields of zf_settings. Returns nil and a message if it is refused.
function M.compile(pattern, flags)
  local handle = ffi.gc(ffi.new("struct zf_handle"), zf().zf_free)
  local settings = ffi.new("struct zf_settings", flags or {})
  local refused = ffi.new("struct zf_refused")
  local text = ffi.new("struct zf_bytes[1]", { { as_bytes(pattern), #pattern } })
  local status = zf().zf_compile(handle, text, 1, settings, ffi.sizeof(settings), refused)
  if status == 8 then
    local fault = fault_of(pattern, settings)
    return nil, fault or ("%s isn't read: byte %d"):format(pattern, tonumber(refused.at))
  elseif status ~= 0 then
    return nil, WORDS[status] or ("status %d"):format(status)
  end
  return handle
end

-- The chunks of some of the lines, from line `first` to line `last`, from the place `at` on; returns the place behind them.
local function fill(text, first, last, at)
  local lines, chunks, starts, line_end = text.lines, text.chunks, text.starts, as_bytes(newline)
  for i = first, last do
    local line = lines[i]
    chunks[2 * i - 2].bytes, chunks[2 * i - 2].len = as_bytes(line), #line
    chunks[2 * i - 1].bytes, chunks[2 * i - 1].len = line_end, 1
    starts[i - 1] = at
    at = at + #line + 1
  end
  return at
end

-- How many of the first lines of two lists are the same, and how many of the last ones behind these.
local function same_lines(old, new)
  local most = math.min(#old, #new)
  local before, behind = 0, 0
  while before < most and old[before + 1] == new[before + 1] do
    before = before + 1
  end
  while before + behind < most and old[#old - behind] == new[#new - behind] do
    behind = behind + 1
  end
  return before, behind
end

local BYTES = ffi.sizeof("struct zf_bytes")

-- The text of lines, each with a line end behind it. The lines are kept, for the chunks point into them. If there is an older text, the chunks
-- of the lines that are the same are taken from it, and the edit between the two is returned: where it starts and ends in the older text, and
-- how many bytes were inserted.
function M.text(lines, old)
  local count = #lines
  local text = { lines = lines, count = count, chunks = ffi.new("struct zf_bytes[?]", 2 * count + 1), starts = ffi.new("size_t[?]", count + 1) }
  if not old then
    text.starts[count] = fill(text, 1, count, 0)
    return text
  end
  local before, behind = same_lines(old.lines, lines)
  local first, was = count - behind, old.count - behind
  ffi.copy(text.chunks, old.chunks, 2 * before * BYTES)
  ffi.copy(text.starts, old.starts, before * ffi.sizeof("size_t"))
  ffi.copy(text.chunks + 2 * first, old.chunks + 2 * was, 2 * behind * BYTES)
  local start = tonumber(old.starts[before])
  local at = fill(text, before + 1, first, start)
  local moved = at - tonumber(old.starts[was])
  for i = 0, behind do
    text.starts[first + i] = tonumber(old.starts[was + i]) + moved
  end
  return text, { start = start, stop = tonumber(old.starts[was]), inserted = at - start }
end

-- The matches of a text: their starts and ends in bytes, in two lists. Returns nil and a message if there is no answer.
function M.matches(handle, text)
  local batch, progress = ffi.new("struct zf_match[?]", BATCH), ffi.new("struct zf_progress")
  local starts, ends, count = {}, {}, 0
  zf().zf_restart(handle, 0, 0)
  repeat
    local status = zf().zf_next(handle, text.chunks, 2 * text.count, NONE, batch, BATCH, progress)
    if status ~= 0 then
      return nil, WORDS[status] or ("status %d"):format(status)
    end
    for i = 0, tonumber(progress.count) - 1 do
      count = count + 1
      starts[count], ends[count] = tonumber(batch[i].start), tonumber(batch[i]["end"])
    end
  until progress.count < BATCH
  return { starts = starts, ends = ends, count = count }
end

-- The least i from `low` to `high` for which `is_met(i)`, or high + 1; is_met stays true from there on.
local function first(low, high, is_met)
  while low <= high do
    local middle = math.floor((low + high) / 2)
    if is_met(middle) then
      high = middle - 1
    else
      low = middle + 1
    end
  end
  return low
end

-- The row, from 0 on, and the byte in it where a place of the text is.
function M.position(text, place)
  local row = first(1, text.count, function(i)
    return text.starts[i] > place
  end) - 1
  return row, place - tonumber(text.starts[row])
end

local space = vim.api.nvim_create_namespace("zorfelith")
local sought -- the regex that all windows show, its pattern and flags
local known = {} -- for each buffer the text at a changedtick, and a handle with the list of its matches

-- A handle of the same patterns, for a list of its own. Returns nil and a message if there is none.
local function shared(handle)
  local other = ffi.gc(ffi.new("struct zf_handle"), zf().zf_free)
  local status = zf().zf_share(handle, other)
  if status ~= 0 then
    return nil, WORDS[status] or ("status %d"):format(status)
  end
  return other
end

-- Keeps the list of a buffer in step with its text. The edit is what lies between the lines that are the same, so it is one of the older text.
local function keep(found, text, edit)
  local status = 13
  if edit then
    local change = ffi.new("struct zf_change")
    status = zf().zf_live_edit(found.handle, edit.start, edit.stop, edit.inserted, text.chunks, 2 * text.count, change)
  end
  if status ~= 0 then
    status = zf().zf_live_new(found.handle, text.chunks, 2 * text.count)
  end
  return status == 0, WORDS[status] or ("status %d"):format(status)
end

-- The text of a buffer as it is now, with the list of its matches.
local function look(buffer)
  local tick = vim.api.nvim_buf_get_changedtick(buffer)
  local found = known[buffer]
  if found and found.tick == tick and found.sought == sought then
    return found
  end
  local lines, edit, fault = vim.api.nvim_buf_get_lines(buffer, 0, -1, false), nil, nil
  if not (found and found.sought == sought) then
    found = { sought = sought }
    found.handle, fault = shared(sought.handle)
    if not found.handle then
      return nil, fault
    end
  end
  known[buffer] = nil
  found.text, edit = M.text(lines, found.text)
  local ok, words = keep(found, found.text, edit)
  if not ok then
    return nil, words
  end
  local count = ffi.new("size_t[1]")
  zf().zf_live_len(found.handle, count)
  found.tick, found.count = tick, tonumber(count[0])
  known[buffer] = found
  return found
end

-- The match of a list with an index, from 1 on: where it starts and where it ends.
function M.match(found, i)
  local at = ffi.new("struct zf_match")
  zf().zf_live_get(found.handle, i - 1, at)
  return tonumber(at.start), tonumber(at["end"])
end

-- The parts of matches that lie in a row: a list of pairs, the byte at which one starts and the byte behind it.
function M.in_row(found, row)
  local starts = found.text.starts
  local low, high = tonumber(starts[row]), tonumber(starts[row + 1]) - 1
  local batch, count, out, from = ffi.new("struct zf_match[?]", BATCH), ffi.new("size_t[1]"), {}, low
  repeat
    zf().zf_live_window(found.handle, from, high, batch, BATCH, count)
    for i = 0, tonumber(count[0]) - 1 do
      local start, stop = math.max(tonumber(batch[i].start), low), math.min(tonumber(batch[i]["end"]), high)
      if start < stop then
        out[#out + 1] = { start - low, stop - low }
      end
    end
    from = count[0] > 0 and tonumber(batch[count[0] - 1]["end"]) or high
  until count[0] < BATCH
  return out
end

local function on_line(_, _, buffer, row)
  local found = known[buffer]
  if not found or row >= found.text.count then
    return
  end
  for _, part in ipairs(M.in_row(found, row)) do
    vim.api.nvim_buf_set_extmark(buffer, space, row, part[1], {
      end_row = row,
      end_col = part[2],
      hl_group = "ZfMatch",
      ephemeral = true,
    })
  end
end

-- Shows matches where windows are drawn, and only there.
vim.api.nvim_set_decoration_provider(space, {
  on_win = function(_, _, buffer)
    return sought ~= nil and vim.bo[buffer].buftype == "" and look(buffer) ~= nil
  end,
  on_line = on_line,
})

local function tell(words)
  vim.api.nvim_echo({ { "zorfelith: " .. words, "ErrorMsg" } }, true, {})
end

-- Goes to a match, and says which of how many it is.
local function go(found, i)
  local row, column = M.position(found.text, (M.match(found, i)))
  if row >= found.text.count then -- an empty match behind the last line's end
    row, column = found.text.count - 1, #found.text.lines[found.text.count]
  end
  vim.cmd("normal! m'")
  vim.api.nvim_win_set_cursor(0, { row + 1, column })
  vim.api.nvim_echo({ { ("%s  %d of %d"):format(sought.pattern, i, found.count) } }, false, {})
end

-- Goes to the next match behind the cursor, or with `step` -1 to the last one before it; round the buffer's end if 'wrapscan' is set.
local function move(step)
  if not sought then
    return tell("no pattern; :ZfFind PATTERN sets it")
  end
  local found, fault = look(vim.api.nvim_get_current_buf())
  if not found then
    return tell(fault)
  end
  local count, cursor = found.count, vim.api.nvim_win_get_cursor(0)
  local place = tonumber(found.text.starts[cursor[1] - 1]) + cursor[2]
  local i = first(1, count, function(k)
    return M.match(found, k) > (step > 0 and place or place - 1)
  end)
  i = step > 0 and i or i - 1
  if (i < 1 or i > count) and vim.o.wrapscan and count > 0 then
    i = step > 0 and 1 or count
  end
  if i < 1 or i > count then
    return tell("no match of " .. sought.pattern)
  end
  go(found, i)
end

-- Looks for a pattern in each buffer that is shown, and goes to the next match. ^ and $ are at each line.
function M.find(pattern, flags)
  flags = vim.tbl_extend("keep", flags or {}, { multi_line = 1 })
  local handle, fault = M.compile(pattern, flags)
  if not handle then
    return tell(fault)
  end
  sought, known = { handle = handle, pattern = pattern, flags = flags }, {}
  move(1)
  vim.cmd("redraw!")
end

function M.next()
  move(1)
end

function M.previous()
  move(-1)
end

-- Shows nothing any more.
function M.clear()
  sought, known = nil, {}
  vim.cmd("redraw!")
end

-- Of a buffer that is gone nothing is kept.
function M.forget(buffer)
  known[buffer] = nil
end

-- What is known of a buffer: its text, and the list of its matches.
function M.looked_up(buffer)
  return sought and look(buffer)
end

return M
