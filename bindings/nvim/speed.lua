-- Times all matches in a buffer of 100,000 lines, and the same by Neovim's own vim.regex line by line; and what follows an edit:
--   ZORFELITH_LIBRARY=.. nvim --headless -u NONE --cmd 'set rtp^=bindings/nvim' -c 'luafile bindings/nvim/speed.lua'
local zorfelith = require("zorfelith")

local lines = {}
for i = 1, 100000 do
  lines[i] = ("    let value_%d = compute(%d, other); // the line of number %d, as it is written"):format(i, i * 7, i)
end
vim.api.nvim_buf_set_lines(0, 0, -1, false, lines)

local function timed(act)
  local least, result = math.huge, nil
  for _ = 1, 5 do
    local begun = vim.loop.hrtime()
    result = act()
    least = math.min(least, (vim.loop.hrtime() - begun) / 1e6)
  end
  return least, result
end

local function by_vim(pattern)
  local regex, count = vim.regex(pattern), 0
  for row = 0, #lines - 1 do
    local at = 0
    while true do
      local start, stop = regex:match_line(0, row, at)
      if not start or stop == 0 then
        break
      end
      count, at = count + 1, at + stop
    end
  end
  return count
end

local text_time, text = timed(function()
  return zorfelith.text(vim.api.nvim_buf_get_lines(0, 0, -1, false))
end)
io.stdout:write(("the chunks of 100,000 lines: %.0f ms\n"):format(text_time))
for _, row in ipairs({ { [[value_99\d+]], [[\Cvalue_99\d\+]] }, { "[a-z]+ed", [[\C[a-z]\+ed]] }, { "nowhere", [[\Cnowhere]] }, { [[\d+]], [[\d\+]] } }) do
  local handle = zorfelith.compile(row[1])
  local ours, found = timed(function()
    return zorfelith.matches(handle, text)
  end)
  local theirs, count = timed(function()
    return by_vim(row[2])
  end)
  io.stdout:write(("%-12s %7d matches: %5.0f ms; vim.regex %7d, %5.0f ms\n"):format(row[1], found.count, ours, count, theirs))
end

-- A line is changed in the middle: what it takes to keep the list of the buffer.
vim.cmd("runtime plugin/zorfelith.lua")
for _, pattern in ipairs({ [[value_99\d+]], "nowhere", [[\d+]] }) do
  vim.cmd("ZfFind " .. pattern)
  local buffer, round = vim.api.nvim_get_current_buf(), 0
  local kept = timed(function()
    round = round + 1
    vim.api.nvim_buf_set_lines(buffer, 50000, 50001, false, { ("let value_99%d = other;"):format(round) })
    return zorfelith.looked_up(buffer)
  end)
  io.stdout:write(("%-12s after an edit: %.0f ms\n"):format(pattern, kept))
end
vim.cmd("qall!")
