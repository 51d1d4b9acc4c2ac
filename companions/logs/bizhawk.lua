-- Has BizHawk write a memory log of a run of an Atari 2600, for vcs_sync. Load the movie, open this script in the Lua console before
-- frame 1 is played, and play to the movie's end without loading a savestate.
--
-- Not tried in BizHawk itself: companions/tests/sync runs it on a small stand-in of BizHawk's functions.

-- The file. One that is there isn't written over.
local NAME = "memory-log.txt"
-- true: a frame ends with the write to VSYNC that clears its bit 1, as vcs_check has it. false: with BizHawk's own frame.
local AT_VSYNC = true

-- (no operators on bits, and no //, since some versions of BizHawk have Lua 5.1)
local log, frame, played = nil, emu.framecount(), emu.framecount()

local function finish(why)
  if not log then return end
  log:close()
  log = nil
  console.log(string.format("memory log: %s; %s ends with frame %d", why, NAME, frame))
end

local function write_line()
  local bytes = {}
  for place = 0, 127 do bytes[#bytes + 1] = string.format("%02X", mainmemory.read_u8(place)) end
  frame = frame + 1
  log:write(frame, " ", table.concat(bytes), "\n")
end

-- The cartridge as BizHawk's digest has it, by the length of that.
local function cartridge()
  local digits = gameinfo.getromhash():match("%x+$") or ""
  local kind = ({[8] = "crc32", [32] = "md5", [40] = "sha1", [64] = "sha256"})[#digits]
  return kind and "# cartridge " .. kind .. " " .. digits:lower() .. "\n" or ""
end

local function start()
  if emu.getsystemid() ~= "A26" then error("no game of the Atari 2600 is loaded", 0) end
  if io.open(NAME) then error(NAME .. " is there: take it away, or change NAME in the script", 0) end
  local why
  log, why = io.open(NAME, "w")
  if not log then error(why, 0) end
  log:setvbuf("line")
  log:write("# BizHawk\n", cartridge())
end

-- Whether bit 1 of what was last written to VSYNC is set.
local is_in_vsync = false

local function on_write(_, byte)
  if not byte then return finish("this BizHawk doesn't say what is written: set AT_VSYNC to false") end
  local was = is_in_vsync
  is_in_vsync = byte % 4 >= 2
  if log and was and not is_in_vsync then write_line() end
end

start()
if AT_VSYNC then (event.on_bus_write or event.onmemorywrite)(on_write, 0x0000, "memory log") end
event.onexit(function() finish("the script ends") end)
while log do
  emu.frameadvance()
  if log and emu.framecount() ~= played + 1 then finish("a savestate was loaded") end
  played = emu.framecount()
  if log and not AT_VSYNC then write_line() end
  if log and AT_VSYNC and played > frame + 60 then finish("no write to VSYNC was seen for 60 frames: set AT_VSYNC to false") end
  if log and movie.mode() == "FINISHED" then finish("the movie ends") end
end
