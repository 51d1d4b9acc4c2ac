-- What bench/another-emulator and bench/another-trace have MAME do: it plays the file 'inputs', three numbers a frame as a movie
-- has them, and writes the file 'states', a line a frame: what processor, memory, RIOT, TIA and cartridge hold at the frame's end.
-- It also writes 'writes', a line for each write to the TIA, and of as many frames as PICTURES says 'pictures', what MAME's TIA has
-- drawn at each frame's end. Of each frame K that TRACED names it writes 'trace-K', a line for each instruction as MAME's debugger
-- has it, and 'accesses-K', a line for each access of the processor. With UNDRIVEN the bits that the TIA doesn't drive are MAME's, with BOARD
-- the banks at power-on.

local machine = manager.machine
local processor = machine.devices[":maincpu"]
local space = processor.spaces["program"]
local memory = machine.memory.shares[":riot_ram"]
local cycles_a_second = 1193191

-- The processor's reset takes so many cycles, which the beam is set back by.
local reset = 6

-- The cycles that have passed since.
local function cycles()
  return math.floor(machine.time:as_double() * cycles_a_second + 0.5) - reset
end

-- All numbers that MAME would save of the TIA and the RIOT, by their names.
local function saved_numbers()
  local numbers = {}
  for _, tag in ipairs({":tia_video", ":riot"}) do
    for name, index in pairs(machine.devices[tag].items) do
      local item = emu.item(index)
      if item.count == 1 then numbers[name:gsub("^0/", "")] = item end
    end
  end
  return numbers
end

-- The inputs of all frames.
local function read_inputs()
  local inputs = {}
  for line in io.lines("inputs") do
    local ports, console, buttons = line:match("(%d+) (%d+) (%d+)")
    inputs[#inputs + 1] = {tonumber(ports), tonumber(console), tonumber(buttons)}
  end
  return inputs
end

-- MAME doesn't show the selected bank. An address at which the two differ, and the byte of the second; none without banks.
local function difference_of_banks()
  local rom = machine.memory.regions[":cartslot:cart:rom"]
  for place = 0, rom.size == 8192 and not os.getenv("BOARD") and 0x0FF7 or -1 do
    local byte = rom:read_u8(0x1000 + place)
    if rom:read_u8(place) ~= byte then return 0x1000 + place, byte end
  end
end

-- The line of a frame: names with their numbers, and the memory.
local function state_line(numbers, bank)
  local words = {"cycles=" .. cycles()}
  if bank then words[#words + 1] = "bank=" .. bank() end
  for _, name in ipairs({"PC", "IR", "A", "X", "Y", "SP", "P"}) do
    words[#words + 1] = name .. "=" .. processor.state[name].value
  end
  for name, item in pairs(numbers) do words[#words + 1] = name .. "=" .. item:read(0) end
  local bytes = {}
  for place = 0, 127 do bytes[#bytes + 1] = string.format("%02x", memory:read_u8(place)) end
  return table.concat(words, " ") .. " memory=" .. table.concat(bytes) .. "\n"
end

-- What docs/MACHINE.md says of power-on by a rule of its own, and MAME has otherwise: the processor's registers (of S, MAME's
-- processor takes three when it is reset, and bits 5 and 4 of P are always set in it), the second of two banks is
-- selected, the timer has an interval of 1024 cycles and one to go, the beam is at the beginning of a line, and no collision has been.
local function power_on(numbers)
  for name, value in pairs({A = 0, X = 0, Y = 0, SP = 0x0102, P = 0x34}) do processor.state[name].value = value end
  if not os.getenv("BOARD") then space:read_u8(0x1FF9) end
  space:write_u8(0x0297, 0)
  numbers["frame_cycles"]:write(0, reset - 76)
  for name, item in pairs(numbers) do
    if name:match("^CX") then item:write(0, 0) end
  end
end

local inputs = read_inputs()
local numbers, place_of_bank, byte_of_second = saved_numbers(), difference_of_banks()
local bank = place_of_bank and function() return space:read_u8(place_of_bank) == byte_of_second and 1 or 0 end
local states = io.open("states", "w")
local frame, written = 1, 0 -- and what was last written to VSYNC
states:setvbuf("line")
power_on(numbers)

-- MAME's TIA draws into two buffers in turn, 228 colours a row, and changes them when vertical sync begins.
local wanted = tonumber(os.getenv("PICTURES") or "0")
local pictures, writes = io.open("pictures", "wb"), io.open("writes", "w")
local buffers = {}
for number = 0, 1 do buffers[number] = emu.item(machine.devices[":tia_video"].items["0/helper[" .. number .. "]"]) end
local rows_of_a_buffer, bytes_of_a_row = 262, 456

-- The frames that are traced, and where the accesses of the one that is played now go, if it is among them.
local traced, accesses = {}, nil
for number in (os.getenv("TRACED") or ""):gmatch("%d+") do traced[tonumber(number)] = true end
local line_of_a_trace = '{tracelog "%d %02X %02X %02X A=%02X X=%02X Y=%02X S=%02X P=%02X ' .. (bank and "B=%d " or "")
  .. '",totalcycles-' .. reset .. ',b@pc,b@(pc+1),b@(pc+2),a,x,y,sp & ff,p & cf'
  .. (bank and string.format(",b@%X == %X}", place_of_bank, byte_of_second) or "}")

local function begin_frame()
  if accesses then
    accesses:close()
    machine.debugger:command("trace off,maincpu")
  end
  accesses = traced[frame] and io.open("accesses-" .. frame, "w")
  if accesses then
    machine.debugger:command("trace trace-" .. frame .. ",maincpu,noloop," .. line_of_a_trace)
  end
end

local function access(kind, address, byte)
  if accesses then accesses:write(string.format("%d %s %04X %02X\n", cycles(), kind, address, byte)) end
end

if machine.debugger then machine.debugger.execution_state = "run" end
begin_frame()

-- What follows is global, so that MAME keeps it. MAME itself looks at what is held once in a frame of its own, wherever
-- the program then is; so what is held is put in where the program reads it, a bit of a port if it is an input.
WatchOfPorts = space:install_read_tap(0x0080, 0x0FFF, "ports", function(address, byte)
  if address & 0x0285 ~= 0x0280 then return byte end
  local port = address >> 1 & 1
  local driven = numbers["m_port[" .. port .. "].m_ddr"]:read(0)
  local latch = numbers["m_port[" .. port .. "].m_out"]:read(0)
  return latch & driven | inputs[frame][port + 1] & ~driven & 0xFF
end)

-- The same of the buttons. While VBLANK latches them, MAME keeps in INPT4 and INPT5 what was pressed at a read; MAME itself sees none
-- pressed. Bits that the TIA doesn't drive are 0 here, and in MAME what was on the bus.
local driven_by_tia = {[6] = 0x80, [14] = 0, [15] = 0}
for register = 8, 13 do driven_by_tia[register] = 0x80 end
WatchOfTia = space:install_read_tap(0x0000, 0x0F7F, "tia", function(address, byte)
  if address & 0x80 ~= 0 then return byte end
  local register = address & 0x0F
  local driven = driven_by_tia[register] or 0xC0
  if register == 12 or register == 13 then
    local latch = numbers["INPT" .. register - 8]
    if inputs[frame][3] >> register - 12 & 1 == 1 then latch:write(0, 0) end
    byte = byte & 0x7F | latch:read(0)
  end
  return os.getenv("UNDRIVEN") and byte or byte & driven
end)

-- A write is seen before it is done.
WatchOfVsync = space:install_write_tap(0x0000, 0x0F7F, "vsync", function(address, byte)
  if address & 0xBF ~= 0 then return end
  local ends = written & 2 == 2 and byte & 2 == 0
  written = byte
  if not ends or frame > #inputs then return end
  states:write(state_line(numbers, bank))
  if frame <= wanted then
    pictures:write(buffers[1 - numbers["current_bitmap"]:read(0)]:read_block(0, rows_of_a_buffer * bytes_of_a_row))
  end
  frame = frame + 1
  begin_frame()
  if frame > #inputs then
    inputs[frame] = inputs[frame - 1]
    for _, file in ipairs({states, pictures, writes}) do file:close() end
    machine:exit()
  end
end)

-- It is put in last, since of two such functions the later one is called first.
WatchOfWrites = space:install_write_tap(0x0000, 0x0F7F, "writes", function(address, byte)
  if frame > #inputs or address & 0x80 ~= 0 then return end
  writes:write(cycles(), " ", address & 0x3F, " ", byte, "\n")
end)

-- So are these: a write is written down before it ends a frame, and a read with the byte that the functions above make of it.
if next(traced) then
  WatchOfAllReads = space:install_read_tap(0x0000, 0x1FFF, "reads", function(address, byte) access("read", address, byte) end)
  WatchOfAllWrites = space:install_write_tap(0x0000, 0x1FFF, "all", function(address, byte) access("write", address, byte) end)
end
