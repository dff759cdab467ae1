-- Tests the upper half of srm.lua by itself: `lua test.lua`, in this folder. Ends with status 1 where something is wrong.
--
-- Expected are the lines of vectors.txt, and the tables of tests/codec, by which the proved codec is tested: they say which fault each byte of a
-- datagram makes where it is changed to each of five values.

local SESSION = 7
local srm = dofile("srm.lua")
local wrong = 0

local function check(what, found, wanted)
  if found ~= wanted then
    wrong = wrong + 1
    print(("%s:\n  found  %s\n  wanted %s"):format(what, tostring(found), tostring(wanted)))
  end
end

local function unhexed(text)
  return (text:gsub("%s", ""):gsub("%x%x", function(pair) return string.char(tonumber(pair, 16)) end))
end

-- ---- the vectors

local vectors = {}
local rows = 0
for text in io.lines("vectors.txt") do
  if text ~= "" and text:sub(1, 1) ~= "#" then
    local name, bytes, line = text:match("^(.-) | (.-) | (.-) |")
    vectors[name] = unhexed(bytes)
    check(name, (srm.line(srm.read(vectors[name], SESSION)):gsub(" $", "")), line)
    rows = rows + 1
  end
end
check("the other session, where any is good", srm.read(vectors["other session"]).fault.name, "Short")
check("other magic", srm.read("RS", SESSION).fault.name, "Magic")
check("no bytes", srm.read("", SESSION).fault.name, "Short")
check("likely", srm.is_likely(vectors.data) and srm.is_likely(vectors.packed), true)
check("unlikely", srm.is_likely("SR\3\2") or srm.is_likely("SR") or srm.is_likely("RS\1"), false)

-- ---- trailers

local bytes, trailer = srm.split(vectors.data .. ("t"):rep(25))
check("before a trailer", bytes, vectors.data)
check("a trailer", trailer, ("t"):rep(25))
check("a trailer alone", srm.split(("t"):rep(25)), "")
bytes, trailer = srm.split(("t"):rep(24))
check("too few for a trailer", bytes .. "|" .. trailer, ("t"):rep(24) .. "|")

-- ---- text

for _, text in ipairs({ "", "a line", "\195\169", "\226\130\172", "\240\159\150\141", "\244\143\191\191", "a\194\160b" }) do
  check("text", srm.is_text(text), true)
end
for _, bytes in ipairs({
  "\0", "a\n", "\127", "\128", "\194\133", "\192\128", "\195", "\224\159\191", "\237\160\128", "\240\143\191\191", "\244\144\128\128", "\226\130", "\226\130a",
}) do
  check("no text", srm.is_text(bytes), false)
end

-- ---- the tables of the codec's cases

local CASES = { data = "data", repair = "a_repair", request = "a_request", packed = "a_request_for_several", session = "a_session_message", farewell = "a_farewell" }
local FAULTS = { "Short", "Magic", "Version", "Kind", "Session", "Member", "Number", "Length", "Order", "Flags", "Source" }
local VALUES = { 0x00, 0x01, 0x7f, 0x80, 0xff }

local changes = 0
local function check_byte(name, bytes, at, faults)
  local place = 0
  for fault in faults:gmatch("%d+") do
    place = place + 1
    local value = VALUES[place]
    local found = srm.read(bytes:sub(1, at) .. string.char(value) .. bytes:sub(at + 2), SESSION).fault
    check(("%s, byte %d as %d"):format(name, at, value), found and found.name, FAULTS[tonumber(fault)])
    changes = changes + 1
  end
  check(("%s, byte %d: how many values"):format(name, at), place, #VALUES)
end

for name, case in pairs(CASES) do
  local bytes = vectors[name]
  for size = 0, #bytes - 1 do
    check(("%s, cut to %d"):format(name, size), srm.read(bytes:sub(1, size), SESSION).fault.name, "Short")
  end
  local printed = assert(io.open(("../../tests/codec/%s_changed_and_cut.calls.stdout"):format(case))):read("*a")
  local changed, answers = printed:match("> changes (%x+)\n(.*)")
  check(name .. ": the bytes that are changed", unhexed(changed), bytes)
  local next_at = 0
  for places, faults in answers:gmatch("([%d%-]+):([%d ]+)") do
    local first = tonumber(places:match("^%d+"))
    check(name .. ": where a field begins", first, next_at)
    next_at = tonumber(places:match("%d+$")) + 1
    for at = first, next_at - 1 do
      check_byte(name, bytes, at, faults)
    end
  end
  check(name .. ": where the last field ends", next_at, #bytes)
end

print(("%d datagrams, %d changes, %d wrong"):format(rows, changes, wrong))
os.exit(wrong == 0 and 0 or 1)
