-- Has MAME write a memory log and the inputs of a run of an Atari 2600, for vcs_sync and vcs_check make. With MAME alone:
--
--   mame a2600 -cart GAME.a26 -autoboot_script mame.lua
--
-- The environment says the rest. Names are those of files in the folder in which MAME was started.
--
--   VCS_MEMORY=FILE     the memory log. Without it memory-log.txt, which must not be there
--   VCS_INPUTS=FILE     the inputs, as vcs_check inputs prints them. Without it inputs-log.txt, which must not be there
--   VCS_PLAY=FILE       plays these inputs, in place of what MAME has as held, and ends MAME after them
--   VCS_POWER_ON=1      sets power-on as docs/MACHINE.md has it
--   VCS_DRIVEN_ONLY=1   bits of the TIA's registers that nothing drives read 0
--
-- A frame ends with the write to VSYNC that clears its bit 1, and its line is what memory holds then. Its inputs are what the program
-- read in it; of what it didn't read, what it read last. Without the last three nothing is changed in MAME. The first line of both logs
-- says whether a collision was latched at the start: MAME 0.251 begins with whatever the computer's memory held there.

local machine = manager.machine
local processor = machine.devices[":maincpu"]
local space = processor.spaces["program"]
local memory = machine.memory.shares[":riot_ram"]

-- What a word of an input turns over: which of the three numbers of an input, and the bit. In the order in which they are printed.
local WORDS = {
  {"up0", 1, 0x10}, {"down0", 1, 0x20}, {"left0", 1, 0x40}, {"right0", 1, 0x80}, {"fire0", 3, 1},
  {"up1", 1, 0x01}, {"down1", 1, 0x02}, {"left1", 1, 0x04}, {"right1", 1, 0x08}, {"fire1", 3, 2},
  {"reset", 2, 0x01}, {"select", 2, 0x02}, {"monochrome", 2, 0x08}, {"pro0", 2, 0x40}, {"pro1", 2, 0x80},
}
local NOTHING = {0xFF, 0x3F, 0}
local MOST_FRAMES = 262143
-- The bits of port B that are switches.
local SWITCHES = 0xCB

-- A line of inputs as text: how often it stands, and the three numbers. Nothing of a line that says nothing.
local function read_line(text, number)
  local words = {}
  for word in text:gsub("#.*", ""):gmatch("[^ \t\r]+") do words[#words + 1] = word end
  if not words[1] then return end
  local count, input = words[1]:match("^%d+$") and #words[1] < 16 and tonumber(words[1]) or 0, {table.unpack(NOTHING)}
  if count < 1 or count > MOST_FRAMES then error("line " .. number .. " begins with no number of frames", 0) end
  local bits = {}
  for place = 2, #words do
    for _, word in ipairs(WORDS) do
      if word[1] == words[place] then bits[word] = true; words[place] = nil; break end
    end
    if words[place] then error("line " .. number .. " has an unknown word", 0) end
  end
  for word in pairs(bits) do input[word[2]] = input[word[2]] ~ word[3] end
  return count, input
end

-- A file that is open; else the run ends.
local function opened(name, how)
  local file, why = io.open(name, how)
  return file or error(why, 0)
end

-- The inputs of all frames of a text.
local function read_inputs(name)
  local inputs, number = {}, 0
  for text in opened(name, "rb"):lines() do
    number = number + 1
    local count, input = read_line(text, number)
    if count and #inputs + count > MOST_FRAMES then error("line " .. number .. " brings too many frames", 0) end
    for _ = 1, count or 0 do inputs[#inputs + 1] = input end
  end
  if not inputs[1] then error("no frame in it", 0) end
  return inputs
end

-- An input as text.
local function words_of(input)
  local words = {"1"}
  for _, word in ipairs(WORDS) do
    if (input[word[2]] ~ NOTHING[word[2]]) & word[3] ~= 0 then words[#words + 1] = word[1] end
  end
  return table.concat(words, " ")
end

-- The numbers that MAME would save of the TIA and the RIOT, by their names.
local function saved_numbers()
  local numbers = {}
  for _, tag in ipairs({":tia_video", ":riot"}) do
    for name, index in pairs(machine.devices[tag].items) do
      local item = emu.item(index)
      if item.count == 1 then numbers[name:gsub("^0/", "")] = item end
    end
  end
  return numbers
end

-- The addresses whose reads select the banks of power-on, by MAME's boards.
local SELECTING = {
  vcs_f8 = {0x1FF9}, vcs_f6 = {0x1FF6}, vcs_f4 = {0x1FF4}, vcs_fa = {0x1FFA}, vcs_e0 = {0x1FE4, 0x1FED, 0x1FF6}, vcs_e7 = {0x1FE0, 0x1FE8},
  vcs_ua = {0x0220}, vcs_jvp = {0x0FA0},
}

-- Selects the banks of power-on by docs/MACHINE.md (13.1). On 3F a write does, and on F0 each read goes on by a bank, from 0.
local function set_banks()
  for tag, device in pairs(machine.devices) do
    local board = tag:match("^:cartslot:") and device.shortname or ""
    for _, address in ipairs(SELECTING[board] or {}) do space:read_u8(address) end
    if board == "vcs_3f" then space:write_u8(0x003F, 0) end
    for _ = 1, board == "vcs_dc" and 15 or 0 do space:read_u8(0x1FF0) end
  end
end

-- Power-on by docs/MACHINE.md: memory and registers (S is 3 higher, since MAME's reset takes 3 from it, and bits 5 and 4 of P are
-- always set in it), the board's banks, a timer with an interval of 1024 cycles and one to go, no collision, and the beam at a
-- line's beginning when MAME's reset has taken its six cycles.
local function set_power_on(numbers)
  for name, value in pairs({A = 0, X = 0, Y = 0, SP = 0x0102, P = 0x34}) do processor.state[name].value = value end
  for place = 0, 127 do memory:write_u8(place, 0) end
  set_banks()
  space:write_u8(0x0297, 0)
  for name, item in pairs(numbers) do
    if name:match("^CX") then item:write(0, 0) end
  end
  numbers["frame_cycles"]:write(0, -70)
end

-- Whether a collision is latched. CXBLPF has one bit, the others have two.
local function has_collision(numbers)
  for name, item in pairs(numbers) do
    if name:match("^CX") and item:read(0) & (name == "CXBLPF" and 0x80 or 0xC0) ~= 0 then return true end
  end
  return false
end

-- A file for writing. One that wasn't named isn't written over.
local function output(variable, default)
  local name = os.getenv(variable)
  if not name and io.open(default) then error(default .. " is there: take it away, or name another one by " .. variable .. "=FILE", 0) end
  local file = opened(name or default, "w")
  file:setvbuf("line")
  return file
end

local function run()
  local play = os.getenv("VCS_PLAY")
  for _, variable in ipairs({"VCS_MEMORY", "VCS_INPUTS"}) do
    if play and os.getenv(variable) == play then error(play .. " is played, and can't be " .. variable .. ", too", 0) end
  end
  local played = play and read_inputs(play)
  local is_driven_only, is_power_on = os.getenv("VCS_DRIVEN_ONLY") == "1", os.getenv("VCS_POWER_ON") == "1"
  local numbers = saved_numbers()
  local memory_log, inputs_log = output("VCS_MEMORY", "memory-log.txt"), output("VCS_INPUTS", "inputs-log.txt")
  local crc = machine.images[":cartslot"].crc
  local begins = is_power_on and ", power-on set" or has_collision(numbers) and ", a collision latched at the start" or ""
  for _, file in ipairs({memory_log, inputs_log}) do
    file:write("# MAME ", emu.app_version(), begins, is_driven_only and ", driven bits only" or "", "\n")
    if crc and crc ~= 0 then file:write(string.format("# cartridge crc32 %08x\n", crc)) end
  end
  if is_power_on then set_power_on(numbers) end

  -- The frame that is played now, what was last written to VSYNC and VBLANK, and the latches of the buttons, by bits.
  local frame, vsync, vblank, latches = 1, 0, 0, 0
  -- What the program read, as the three numbers of an input, which bits of them it read in this frame, and whether one as 0 and as 1.
  local held, seen, is_twice, twice = {table.unpack(NOTHING)}, {0, 0, 0}, false, 0

  local function note(which, bits, value)
    local other = (held[which] ~ value) & bits
    is_twice = is_twice or other & seen[which] ~= 0
    held[which] = held[which] ~ (other & ~seen[which])
    seen[which] = seen[which] | bits
  end

  local function read_port(address, byte)
    if address & 5 ~= 0 then return end
    local port = address >> 1 & 1
    local free = ~numbers["m_port[" .. port .. "].m_ddr"]:read(0) & 0xFF
    local shown = played and byte & ~free | played[frame][port + 1] & free or byte
    note(port + 1, port == 0 and free or free & SWITCHES, shown)
    return shown
  end

  -- Whether a button is held when this byte of it is read: a latch says only that it was.
  local function is_held(button, byte)
    local port = machine.ioport.ports[":joyport" .. button + 1 .. ":joy:JOY"]
    if vblank & 0x40 == 0 or not (played or port) then return byte & 0x80 == 0 end
    if played then return played[frame][3] >> button & 1 == 1 end
    return port:read() & 0x20 == 0
  end

  local function read_tia(address, byte)
    local button, kept = (address & 0x0F) - 0x0C, is_driven_only and 0xC0 or 0xFF
    if button ~= 0 and button ~= 1 then return byte & kept end
    if played then
      local pressed = vblank & 0x40 ~= 0 and latches or played[frame][3]
      byte = byte & 0x7F | (~pressed >> button & 1) << 7
    end
    note(3, 1 << button, is_held(button, byte) and 1 << button or 0)
    return byte & (is_driven_only and 0x80 or 0xFF)
  end

  local function end_frame()
    local bytes = {}
    for place = 0, 127 do bytes[#bytes + 1] = string.format("%02X", memory:read_u8(place)) end
    memory_log:write(frame, " ", table.concat(bytes), "\n")
    inputs_log:write(words_of(held), is_twice and "  # it was read with two values" or "", "\n")
    if is_twice then
      twice = twice + 1
      if twice == 1 then print("mame.lua: in frame " .. frame .. " an input was read with two values; the first is written down") end
    end
    frame, seen, is_twice = frame + 1, {0, 0, 0}, false
    if not played then return end
    if not played[frame] then
      memory_log:close()
      inputs_log:close()
      os.exit(0)  -- (MAME 0.251 often crashes after machine:exit())
    end
    if vblank & 0x40 ~= 0 then latches = latches | played[frame][3] end
  end

  -- A write is seen before it is done.
  local function write_tia(address, byte)
    if address & 0x3F == 1 then
      vblank = byte
      latches = byte & 0x40 ~= 0 and latches | (played and played[frame][3] or 0) or 0
    elseif address & 0x3F == 0 then
      local ends = vsync & 2 == 2 and byte & 2 == 0
      vsync = byte
      if ends then end_frame() end
    end
  end

  -- Global, so that MAME keeps them: all addresses at which the console has the TIA and the RIOT's ports.
  Watches = {}
  for page = 0, 0x0F00, 0x0100 do
    Watches[#Watches + 1] = space:install_read_tap(page, page + 0x7F, "tia", read_tia)
    Watches[#Watches + 1] = space:install_write_tap(page, page + 1, "vsync", write_tia)
    Watches[#Watches + 1] = space:install_write_tap(page + 0x40, page + 0x41, "vsync", write_tia)
    if page & 0x0200 ~= 0 then Watches[#Watches + 1] = space:install_read_tap(page + 0x80, page + 0xFF, "ports", read_port) end
  end
end

local is_done, why = pcall(run)
if not is_done then
  emu.print_error("mame.lua: " .. why)
  os.exit(2)
end
