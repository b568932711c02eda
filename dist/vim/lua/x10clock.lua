-- Faults of a text while one writes it, in neovim from 0.7 on: `x10clock explain --json -` is asked of each version,
-- and what it says becomes a diagnostic. `vim.g.x10clock_program` names another program.

local M = {}

local space = vim.api.nvim_create_namespace("x10clock")
-- How many milliseconds after a change the program is asked.
local PAUSE = 200
-- Of a walk with more stops the last ones are shown.
local STOPS = 16
-- What a slot of a kind holds, as docs/EXPLAIN.md says it.
local HOLDS = {
  unset = "nothing",
  number = "a number",
  live = "a clock, registered",
  resumed = "a clock, registered and resumed",
  out = "a clock, dropped",
}
-- How many changes there were. Of each buffer: its last one, and the program that is being asked.
local count = 0
local changes, asked = {}, {}

-- The place in bytes, from 0, of a line and a column, which count characters from 1. What lies behind the last line is
-- at its end.
local function place(lines, line, column)
  if line > #lines then
    return #lines - 1, #lines[#lines]
  end
  for byte in lines[line]:gmatch("()[^\128-\191]") do
    column = column - 1
    if column == 0 then
      return line - 1, byte - 1
    end
  end
  return line - 1, #lines[line]
end

-- The end of the word, or of the character, that begins there: programs up to 1.2.0 don't say where that is.
local function word_end(lines, line, byte)
  local rest = lines[line + 1]:sub(byte + 1)
  return line, byte + #(rest:match("^[%w_]+") or rest:match("^.[\128-\191]*") or "")
end

local function at(it)
  return it.line and it.line .. ":" .. it.column .. ": " or ""
end

-- The stops of a walk, a line each.
local function stops(said)
  local walk = said.walk or {}
  local first = math.max(1, #walk - STOPS + 1)
  local told = {}
  if #walk > 0 then
    local which = first > 1 and "the last " .. STOPS .. " of " .. #walk .. " stops of a way" or "a way"
    table.insert(told, which .. " to it, and what is held before each stop:")
  end
  for i = first, #walk do
    table.insert(told, "  " .. at(walk[i]) .. HOLDS[walk[i].kind])
  end
  return told
end

-- All that is said of a fault, in lines.
local function message(said)
  local told = { said.rule .. " " .. said.name .. ": " .. said.message }
  for _, note in ipairs(said.notes or {}) do
    table.insert(told, at(note) .. note.text)
  end
  vim.list_extend(told, stops(said))
  table.insert(told, "usual repair: " .. said.repair)
  return table.concat(told, "\n")
end

-- The diagnostic for a fault. One without a place is at the beginning.
local function diagnostic(lines, said)
  local line, byte = place(lines, said.line or 1, said.column or 1)
  local end_line, end_byte = line, byte
  if said.end_line then
    end_line, end_byte = place(lines, said.end_line, said.end_column)
  elseif said.line then
    end_line, end_byte = word_end(lines, line, byte)
  end
  return {
    lnum = line,
    col = byte,
    end_lnum = end_line,
    end_col = end_byte,
    severity = vim.diagnostic.severity.ERROR,
    source = "x10clock",
    message = message(said),
  }
end

-- The diagnostics for an answer: none, or that of the fault and of those that are told behind it.
local function diagnostics(lines, said)
  if said.accepted then
    return {}
  end
  local told = { diagnostic(lines, said) }
  for _, fault in ipairs(said.further or {}) do
    table.insert(told, diagnostic(lines, fault))
  end
  return told
end

-- The text as a list for `chansend`, which puts a line feed between two of its lines.
local function text_of(buf, lines)
  local text = vim.list_extend({}, lines)
  table.insert(text, "")
  if vim.bo[buf].bomb then
    text[1] = "\239\187\191" .. text[1]
  end
  return text
end

local function ask(buf)
  local lines = vim.api.nvim_buf_get_lines(buf, 0, -1, true)
  local version = changes[buf]
  local out = {}
  local done = function()
    if changes[buf] ~= version or not vim.api.nvim_buf_is_valid(buf) then
      return
    end
    asked[buf] = nil
    local is_json, said = pcall(vim.fn.json_decode, table.concat(out, "\n"))
    if is_json and type(said) == "table" then
      vim.diagnostic.set(space, buf, diagnostics(lines, said))
    end
  end
  local words = { vim.g.x10clock_program or "x10clock", "explain", "--json", "-" }
  local is_started, job = pcall(vim.fn.jobstart, words, {
    stdout_buffered = true,
    on_stdout = function(_, data)
      out = data
    end,
    on_exit = done,
  })
  if not is_started then
    vim.notify_once("x10clock: no program " .. words[1] .. " (vim.g.x10clock_program)", vim.log.levels.WARN)
    return
  end
  asked[buf] = job
  -- the program may have ended, or read as much as it takes
  pcall(vim.fn.chansend, job, text_of(buf, lines))
  pcall(vim.fn.chanclose, job, "stdin")
end

local function stop(buf)
  if asked[buf] then
    vim.fn.jobstop(asked[buf])
    asked[buf] = nil
  end
end

-- Asks after a pause, if nothing changes meanwhile.
local function changed(buf)
  count = count + 1
  changes[buf] = count
  local version = count
  stop(buf)
  vim.defer_fn(function()
    if changes[buf] == version and vim.api.nvim_buf_is_loaded(buf) then
      ask(buf)
    end
  end, PAUSE)
end

--- Shows the faults of a buffer from now on.
function M.attach(buf)
  if changes[buf] then
    return
  end
  changed(buf)
  local again = vim.schedule_wrap(function()
    if changes[buf] then
      changed(buf)
    end
  end)
  vim.api.nvim_buf_attach(buf, false, {
    on_lines = again,
    on_reload = again,
    on_detach = function()
      changes[buf] = nil
      vim.schedule(function()
        if not changes[buf] then
          stop(buf)
        end
      end)
    end,
  })
end

return M
