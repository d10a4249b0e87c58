-- The controller of MAME's machine `dmv` behind the bench's language (docs/BENCH.md): reads the script that PEER_SCRIPT names, a line at
-- a time, and writes an answer for each to the file that PEER_ANSWERS names. Of the language it has M, W, C, P, R, S, U, V; numbers of
-- refusal it has none, so they are 0. tools/peer starts it.

local ports = manager.machine.devices[":maincpu"].spaces["io"]
local words = manager.machine.devices[":upd7220"].spaces["videoram"]
local PARAMETER, COMMAND = 0xA0, 0xA1       -- written; read, they are the status and the oldest byte
local LENGTH = 0x10000                      -- words of display memory

local function send(command, ...)
  ports:write_u8(COMMAND, command)
  for _, byte in ipairs({...}) do ports:write_u8(PARAMETER, byte) end
end

-- Idle: no figure is being drawn, and the buffer holds nothing or bytes to read. Emulated time passes until then.
local function wait_until_idle()
  for _ = 1, 1000 do
    local status = ports:read_u8(PARAMETER)
    if status & 8 == 0 and status & 5 ~= 0 then return true end
    emu.wait(0.001)
  end
  error("the controller is not idle after a second of its time")
end

-- An empty memory, and of the fresh registers those that the ports can set, by RESET, PITCH, ZOOM, PRAM, WDAT REPLACE, FIGS, CURS, MASK.
-- RESET's first parameter puts MAME into graphics mode; without it the pattern is read in another way (docs/PEER.md).
local function fresh()
  for address = 0, LENGTH - 1 do words:write_u16(address, 0) end
  send(0x00, 0x02, 0x26, 0x03, 0x11, 0x83, 0x0D, 0x90, 0x41)
  send(0x47, 0)
  send(0x46, 0)
  send(0x70, 0, 0, 0, 0, 0, 0, 0, 0, 0, 0, 0, 0, 0, 0, 0, 0)
  send(0x20)
  send(0x4C, 0, 0, 0, 8, 0, 8, 0, 0xFF, 0x3F, 0xFF, 0x3F)
  send(0x49, 0, 0, 0)
  send(0x4A, 0, 0)
end

local function shown(first, count)
  local seen = {"V"}
  for address = first, first + count - 1 do seen[#seen + 1] = string.format("%X", words:read_u16(address)) end
  return table.concat(seen, " ")
end

local answer = {
  M = function(length) if length ~= LENGTH then return "M 2" end fresh() return "M 0" end,
  W = function(address, word) words:write_u16(address, word) return "W 0" end,
  C = function(byte) ports:write_u8(COMMAND, byte) return "C 0" end,
  P = function(byte) ports:write_u8(PARAMETER, byte) return "P 0" end,
  R = function() return string.format("R 0 %X", ports:read_u8(COMMAND)) end,
  S = function() return string.format("S %X", ports:read_u8(PARAMETER) & 0x9F) end,     -- without bits 6 and 5, which move with time
  U = function() wait_until_idle() return "U" end,
  V = shown,
}

local function answers_to(script, out)
  for line in script:lines() do
    local numbers = {}
    for number in line:sub(2):gmatch("%x+") do numbers[#numbers + 1] = tonumber(number, 16) end
    local done = answer[line:match("^(%u) ") or line:match("^%u$")]
    out:write(done and done(table.unpack(numbers)) or "?", "\n")
  end
end

-- In a coroutine, so that time can pass in it. MAME is asked to end from outside it: from inside, MAME fails at its end.
local finished = false
emu.register_periodic(function() if finished then manager.machine:exit() end end)
coroutine.wrap(function()
  local script, out = io.open(os.getenv("PEER_SCRIPT")), io.open(os.getenv("PEER_ANSWERS"), "w")
  local went_well, fault = pcall(answers_to, script, out)
  if not went_well then out:write("fault: ", tostring(fault), "\n") end
  out:close()
  finished = true
end)()
