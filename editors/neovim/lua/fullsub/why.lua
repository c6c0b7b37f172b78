-- Why the term under the cursor has its type: asks the server for a derivation, and draws it as a tree in a window of its own.

local M = {}

local WIDTH = 60 -- of a term; the rest of a longer one is left out

-- The byte in its line at which a position of the protocol stands.
local function column(buffer, position, encoding)
  local line = vim.api.nvim_buf_get_lines(buffer, position.line, position.line + 1, false)[1] or ""
  if encoding == "utf-8" then
    return math.min(position.character, #line)
  end
  local found, byte = pcall(vim.str_byteindex, line, position.character, encoding == "utf-16")
  return found and byte or #line
end

-- The text between two positions, on one line.
local function text_between(buffer, from, to, encoding)
  local first, last = column(buffer, from, encoding), column(buffer, to, encoding)
  local lines = vim.api.nvim_buf_get_text(buffer, from.line, first, to.line, last, {})
  return (table.concat(lines, " "):gsub("%s+", " "))
end

-- A text with a blank in place of each comment. Comments nest.
local function without_comments(text)
  local parts, depth, at = {}, 0, 1
  while at <= #text do
    local mark = text:sub(at, at + 1)
    if mark == "/*" or mark == "*/" then
      depth = depth + (mark == "/*" and 1 or -1)
      at = at + 2
    else
      table.insert(parts, depth == 0 and text:sub(at, at) or " ")
      at = at + 1
    end
  end
  return (table.concat(parts):gsub("%s+", " "))
end

-- The `x:T` of a `letrec x:T = ..` with the first range, whose first term has the second one; nil for a `let`.
local function binder(buffer, whole, first, encoding)
  return without_comments(text_between(buffer, whole.start, first.start, encoding)):match("^[ (]*letrec (.-) ?=")
end

-- What the term of the first premise of a step is to a `let`: the term that it binds, or what a bound `fix` is applied to; otherwise nil.
local function first_role(step, role)
  if step.rule == "T-Let" then
    return { bound = true, whole = step.range }
  elseif step.rule == "T-Sub" then
    return role
  elseif step.rule == "T-Fix" and role and role.bound then
    return { bound = false, whole = role.whole }
  end
end

-- The text of the term at a range, on one line. What a `letrec x:T = t` is short for is shown in full, `fix (lambda x:T. t)`.
local function text_of(buffer, range, role, encoding)
  local text = text_between(buffer, range.start, range["end"], encoding)
  local name = role and binder(buffer, role.whole, range, encoding)
  if name then
    text = "lambda " .. name .. ". " .. text
    text = role.bound and "fix (" .. text .. ")" or text
  end
  if vim.fn.strchars(text) > WIDTH then
    text = vim.fn.strcharpart(text, 0, WIDTH - 3) .. "..."
  end
  return text
end

-- The context as lines: what is known of the names that the term sees, from the outermost binder.
local function context_lines(context)
  local lines, line = {}, "Context:"
  for number, entry in ipairs(context) do
    -- Which of the two stands for null depends on the version.
    local type = (entry.type == nil or entry.type == vim.NIL) and " no type" or entry.type
    local word = " " .. entry.name .. ":" .. type .. (number < #context and "," or "")
    if #line + #word > 78 and line:find("%S") then
      table.insert(lines, line)
      line = "   "
    end
    line = line .. word
  end
  table.insert(lines, #context == 0 and "Context: empty" or line)
  table.insert(lines, "")
  return lines
end

-- The lines of the tree, each premise below its conclusion and one step further in, the place of the term of each line, and the
-- number of the tree's first line.
local function draw(buffer, derivation, encoding)
  local lines, places = context_lines(derivation.context), {}
  local root = #lines + 1
  -- The last step is the root. A list of what is still to be drawn, since a derivation may be deeper than calls can be.
  local waiting = { { number = #derivation.steps, depth = 0 } }
  while #waiting > 0 do
    local this = table.remove(waiting)
    local step = derivation.steps[this.number]
    local says
    if step.range then
      says = text_of(buffer, step.range, this.role, encoding) .. " : " .. step.type
      places[#lines + 1] = step.range.start
    else
      says = step.lower .. " <: " .. step.upper
    end
    table.insert(lines, ("  "):rep(this.depth) .. step.rule .. "  " .. says)
    for at = #step.from, 1, -1 do
      table.insert(waiting, { number = step.from[at] + 1, depth = this.depth + 1, role = at == 1 and first_role(step, this.role) or nil })
    end
  end
  return lines, places, root
end

-- For 'foldexpr': a fold begins at each step, one deeper for each step in, and takes its premises along.
function M.fold(line)
  local text = vim.fn.getline(line)
  if not text:find("^ *[ST]%-%a") then
    return "0"
  end
  return ">" .. (#text:match("^ *") / 2 + 1)
end

-- For 'foldtext': the conclusion, and how many steps are folded away below it.
function M.folded()
  return vim.fn.getline(vim.v.foldstart) .. "  (+" .. (vim.v.foldend - vim.v.foldstart) .. ")"
end

-- Goes to the term of the line under the cursor, in a window with its text.
local function go(source, places, encoding)
  local place = places[vim.fn.line(".")]
  local window = vim.fn.bufwinid(source)
  if place and window ~= -1 then
    vim.api.nvim_set_current_win(window)
    vim.api.nvim_win_set_cursor(window, { place.line + 1, column(source, place, encoding) })
  end
end

-- The window of derivations, opened below where there is none, with an empty buffer in it.
local function open_window()
  local buffer = vim.fn.bufnr("^fullsub-why$")
  if buffer == -1 then
    buffer = vim.api.nvim_create_buf(false, true)
    vim.api.nvim_buf_set_name(buffer, "fullsub-why")
  end
  if vim.fn.bufwinid(buffer) == -1 then
    vim.cmd("botright 15split")
    vim.api.nvim_win_set_buf(0, buffer)
  else
    vim.api.nvim_set_current_win(vim.fn.bufwinid(buffer))
  end
  return buffer
end

local function open(source, encoding, lines, places, root)
  local buffer = open_window()
  vim.bo[buffer].modifiable = true
  vim.api.nvim_buf_set_lines(buffer, 0, -1, false, lines)
  vim.bo[buffer].modifiable = false
  vim.bo[buffer].syntax = "fullsub"
  vim.cmd([[syntax match fullsubRule /^ *\zs[ST]-\a\+/ | highlight default link fullsubRule Function]])
  vim.opt_local.foldmethod = "expr"
  vim.opt_local.foldexpr = "v:lua.require'fullsub.why'.fold(v:lnum)"
  vim.opt_local.foldtext = "v:lua.require'fullsub.why'.folded()"
  vim.opt_local.foldlevel = 99
  vim.opt_local.wrap = false
  vim.opt_local.number = false
  vim.keymap.set("n", "<Tab>", "za", { buffer = buffer })
  vim.keymap.set("n", "q", "<Cmd>close<CR>", { buffer = buffer })
  vim.keymap.set("n", "<CR>", function() go(source, places, encoding) end, { buffer = buffer })
  -- Where there is no room for both, the window shows the tree without the context.
  local top = #lines > vim.api.nvim_win_get_height(0) and root or 1
  vim.fn.winrestview({ topline = top, lnum = root, col = 0 })
end

-- The client of our server; what older Neovims give here has those of other servers too.
local function our_client(buffer)
  local all = vim.lsp.get_clients or vim.lsp.get_active_clients
  for _, client in pairs(all({ bufnr = buffer })) do
    if client.name == "lam_server" then
      return client
    end
  end
end

-- Asks about the term under the cursor.
function M.show()
  local source = vim.api.nvim_get_current_buf()
  local client = our_client(source)
  if not client then
    return vim.notify("lam_server is not running for this file", vim.log.levels.WARN)
  end
  local encoding = client.offset_encoding or "utf-16"
  local function answered(failure, derivation)
    if failure then
      vim.notify(failure.message, vim.log.levels.ERROR)
    elseif not derivation or derivation == vim.NIL then
      vim.notify("No type is shown here")
    else
      open(source, encoding, draw(source, derivation, encoding))
    end
  end
  local request = { "fullsub/derivation", vim.lsp.util.make_position_params(0, encoding), answered, source }
  -- A client was a table of functions before it had methods.
  if vim.lsp.config then
    client:request(unpack(request))
  else
    client.request(unpack(request))
  end
end

return M
