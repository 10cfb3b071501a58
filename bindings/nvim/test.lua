-- Tests of the Neovim binding, which scripts/install-test runs:
--   ZORFELITH_LIBRARY=.. nvim --headless -u NONE --cmd 'set rtp^=bindings/nvim' -c 'runtime plugin/zorfelith.lua' -c 'luafile bindings/nvim/test.lua'
-- It prints `nvim: all agree`, or what differs, and ends with a status.
local zorfelith = require("zorfelith")

local function is(what, got, wanted)
  if not vim.deep_equal(got, wanted) then
    error(("%s: %s, wanted %s"):format(what, vim.inspect(got), vim.inspect(wanted)), 2)
  end
end

local function cursor()
  return vim.api.nvim_win_get_cursor(0)
end

local function with(lines)
  vim.cmd("enew!")
  vim.api.nvim_buf_set_lines(0, 0, -1, false, lines)
  vim.api.nvim_win_set_cursor(0, { 1, 0 })
end

local function rows()
  local found, out = zorfelith.looked_up(vim.api.nvim_get_current_buf()), {}
  for row = 0, found.text.count - 1 do
    out[row + 1] = zorfelith.in_row(found, row)
  end
  return out
end

local function finds_and_moves()
  with({ "let one = 1", "let two = 22", "", "one" })
  vim.cmd([[ZfFind \d+]])
  is("the first", cursor(), { 1, 10 })
  vim.cmd("ZfNext")
  is("the next", cursor(), { 2, 10 })
  vim.cmd("ZfNext")
  is("round the end", cursor(), { 1, 10 })
  vim.cmd("ZfPrevious")
  is("back round the start", cursor(), { 2, 10 })
  vim.cmd("ZfPrevious")
  is("the one before", cursor(), { 1, 10 })
  vim.o.wrapscan = false
  vim.cmd("ZfPrevious")
  is("none before", cursor(), { 1, 10 })
  vim.o.wrapscan = true
  is("what is shown", rows(), { { { 10, 11 } }, { { 10, 12 } }, {}, {} })
end

local function follows_edits()
  with({ "one", "two" })
  vim.cmd("ZfFind o")
  is("before the edit", rows(), { { { 0, 1 } }, { { 2, 3 } } })
  vim.api.nvim_buf_set_lines(0, 0, 1, false, { "foo", "x" })
  is("after it", rows(), { { { 1, 2 }, { 2, 3 } }, {}, { { 2, 3 } } })
  vim.cmd("ZfClear")
  is("cleared", zorfelith.looked_up(0), nil)
end

local function over_lines()
  with({ "ab", "", "cd", "é|é" })
  vim.cmd([[ZfFind b\n+c]])
  is("a match over lines", { rows(), cursor() }, { { { { 1, 2 } }, {}, { { 0, 1 } }, {} }, { 1, 1 } })
  vim.cmd("ZfFind ^")
  is("empty matches are not shown", rows(), { {}, {}, {}, {} })
  vim.cmd("ZfFind é")
  is("bytes", rows(), { {}, {}, {}, { { 0, 2 }, { 3, 5 } } })
  vim.cmd("ZfFind! CD")
  is("in either case", { rows()[3], cursor() }, { { { 0, 2 } }, { 3, 0 } })
end

local function refuses()
  with({ "a" })
  vim.cmd("ZfFind a")
  vim.cmd("ZfFind (")
  is("the old pattern stays", rows(), { { { 0, 1 } } })
  is("a message", { zorfelith.compile("(") }, { nil, "unclosed group at byte 0: (" })
  with({})
  vim.cmd("ZfFind x*")
  is("an empty buffer", cursor(), { 1, 0 })
end

-- What is drawn, where a screen is drawn without a terminal.
local function is_drawn()
  with({ "one two", "two" })
  vim.cmd("ZfFind two")
  vim.cmd("redraw!")
  local plain, marked = vim.fn.screenattr(1, 1), vim.fn.screenattr(1, 5)
  if plain >= 0 and vim.fn.screenstring(1, 5) == "t" then
    is("marked", marked ~= plain, true)
    print("nvim: highlights are on the screen")
  end
end

-- More matches than a batch, and in each line.
local function many_lines()
  local lines = {}
  for i = 1, 10000 do
    lines[i] = ("line %d of many"):format(i)
  end
  with(lines)
  vim.cmd([[ZfFind \d+]])
  local found = zorfelith.looked_up(vim.api.nvim_get_current_buf())
  is("how many", found.count, 10000)
  is("the last line", zorfelith.in_row(found, 9999), { { 5, 10 } })
  vim.cmd("ZfPrevious")
  is("from the first to the last", cursor(), { 10000, 5 })
end

-- After each of many random edits the list has the matches of a new search.
local function lists_follow()
  math.randomseed(5)
  local words = { "ab", "a", "b a", "", "aab", "é" }
  with({ "ab" })
  vim.cmd([[ZfFind a+\n?b*]])
  for _ = 1, 300 do
    local count = vim.api.nvim_buf_line_count(0)
    local from = math.random(0, count)
    local to = math.min(count, from + math.random(0, 3))
    local new = {}
    for i = 1, math.random(0, 3) do
      new[i] = words[math.random(#words)]
    end
    vim.api.nvim_buf_set_lines(0, from, to, false, new)
    local found = zorfelith.looked_up(vim.api.nvim_get_current_buf())
    local anew = zorfelith.text(vim.api.nvim_buf_get_lines(0, 0, -1, false))
    local wanted = zorfelith.matches(found.sought.handle, anew)
    is("how many after an edit", found.count, wanted.count)
    for i = 1, found.count do
      is("a match after an edit", { zorfelith.match(found, i) }, { wanted.starts[i], wanted.ends[i] })
    end
    for row = 0, anew.count do
      is("where a row starts", tonumber(found.text.starts[row]), tonumber(anew.starts[row]))
    end
  end
end

-- The structs that are declared lie as include/zorfelith.abi says.
local function layouts()
  local ffi, count = require("ffi"), 0
  local declared = { "zf_bytes", "zf_handle", "zf_settings", "zf_fault", "zf_refused", "zf_match", "zf_progress", "zf_change" }
  for _, line in ipairs(vim.fn.readfile("include/zorfelith.abi")) do
    local struct, size = line:match("^struct (zf_%w+): size (%d+)")
    local of, field, offset = line:match("^field (zf_%w+)%.([%w_]+): offset (%d+)")
    if struct and vim.tbl_contains(declared, struct) then
      is(struct, tostring(ffi.sizeof("struct " .. struct)), size)
      count = count + 1
    elseif of and vim.tbl_contains(declared, of) then
      is(of .. "." .. field, tostring(ffi.offsetof("struct " .. of, field)), offset)
    end
  end
  is("how many structs", count, #declared)
end

local ok, fault = pcall(function()
  for _, test in ipairs({ finds_and_moves, follows_edits, over_lines, refuses, is_drawn, many_lines, lists_follow, layouts }) do
    test()
  end
end)
io.stdout:write(ok and "nvim: all agree\n" or (tostring(fault) .. "\n"))
vim.cmd(ok and "qall!" or "cquit 1")
