-- Datagrams of a Ringyew session in Wireshark and tshark (README.md beside this file).
--
-- The upper half reads bytes into a table and needs no Wireshark: test.lua runs it by itself. The lower half shows that table in
-- Wireshark's tree and columns. The format, and which fault of it comes first, stand in docs/PROTOCOL.md and, field by field, in
-- crates/srm_codec/specs/Judging.antt.
--
-- It runs with Lua 5.1 to 5.4, whatever Wireshark was built with: so there are no bit operators and no integers in it. A moment is at most
-- 2^48, which a double holds.

local KINDS = { [1] = "data", [2] = "request", [3] = "repair", [4] = "session" }
local MEMBERS, DRAWOPS, BODY, MOMENT = 32, 65536, 1024, 2 ^ 48

-- How many bytes follow each datagram of members with a key: its sender, a counter and a tag.
local COUNTER = 8
local TAG = 16
local TRAILER = 1 + COUNTER + TAG

-- Why bytes are no datagram, by the names that the codec has for it.
local FAULTS = {
  Short = "a field is cut short",
  Magic = "the bytes begin as no datagram does",
  Version = "an unknown version",
  Kind = "an unknown kind",
  Session = "another session",
  Member = "a member past the limit",
  Number = "a number out of its range",
  Length = "too many bytes",
  Order = "rows or echoes out of order",
  Flags = "an unknown flag",
  Source = "a source that isn't the sender",
}

-- ---- reading bytes

-- A reader keeps what it read as a list of items, each with a key, the place of its bytes from 0, their number and its value. An item that
-- stands for several has their items.
local Reader = {}
Reader.__index = Reader

local function new_reader(bytes)
  return setmetatable({ bytes = bytes, at = 0, items = {} }, Reader)
end

-- Ends the reading with the fault of the field that begins here.
function Reader:fail(name, at)
  error({ name = name, at = at or self.at }, 0)
end

-- Makes sure that so many bytes are there.
function Reader:need(size)
  if #self.bytes - self.at < size then
    self:fail("Short")
  end
end

function Reader:keep(key, size, value)
  self.items[#self.items + 1] = { key = key, at = self.at, size = size, value = value }
  self.at = self.at + size
  return value
end

-- A number with the highest byte first, which has to pass the test. One that fails is kept too, so that it can be looked at.
function Reader:number(key, size, fault, is_good)
  self:need(size)
  local value = 0.0
  for place = self.at + 1, self.at + size do
    value = value * 256 + self.bytes:byte(place)
  end
  self:keep(key, size, value)
  if is_good and not is_good(value) then
    self:fail(fault, self.at - size)
  end
  return value
end

-- Several fields under one item, which is told what they are.
function Reader:group(key, read)
  local outer = self.items
  local group = { key = key, at = self.at, items = {} }
  outer[#outer + 1] = group
  self.items = group.items
  group.value = read(group)
  group.size = self.at - group.at
  self.items = outer
  return group.value
end

function Reader:member(key)
  return self:number(key, 1, "Member", function(member) return member < MEMBERS end)
end

function Reader:moment(key)
  return self:number(key, 8, "Number", function(moment) return moment <= MOMENT end)
end

local function page_text(page)
  return ("%.0f.%.0f"):format(page.creator, page.number)
end

local function stream_text(name)
  return ("%.0f %s"):format(name.source, page_text(name.page))
end

local function name_text(name)
  return ("%s %.0f"):format(stream_text(name), name.number)
end

function Reader:page(key)
  return self:group(key, function(group)
    local page = { creator = self:member("creator"), number = self:number("local", 2) }
    group.text = page_text(page)
    return page
  end)
end

local function is_below(left, right)
  for _, pair in ipairs({
    { left.source, right.source },
    { left.page.creator, right.page.creator },
    { left.page.number, right.page.number },
  }) do
    if pair[1] ~= pair[2] then
      return pair[1] < pair[2]
    end
  end
  return false
end

-- A name: of the wanted source where one is wanted, and of a stream after that of the last row where there is one.
function Reader:name(key, wanted, last)
  return self:group(key, function(group)
    local name = { source = self:member("source") }
    if wanted and name.source ~= wanted then
      self:fail("Source", self.at - 1)
    end
    name.page = self:page("page")
    if last and not is_below(last, name) then
      self:fail("Order", group.at)
    end
    name.number = self:number(key == "row" and "known" or "number", 4, "Number", function(number)
      return 1 <= number and number <= DRAWOPS
    end)
    group.text = name_text(name)
    return name
  end)
end

function Reader:body()
  local size = self:number("size", 2, "Length", function(size) return size <= BODY end)
  self:need(size)
  return self:keep("body", size, self.bytes:sub(self.at + 1, self.at + size))
end

function Reader:drawop(wanted)
  return { name = self:name("name", wanted), stamp = self:moment("stamp"), body = self:body() }
end

-- The numbers that a mask names behind this one: bit k stands for number + 1 + k.
local function unfolded(number, mask)
  local numbers = {}
  for bit = 0, 31 do
    if math.floor(mask / 2 ^ bit) % 2 == 1 then
      numbers[#numbers + 1] = number + 1 + bit
    end
  end
  return numbers
end

-- What is asked for: the name's number, and in version 2 those that the mask names.
function Reader:asked(version)
  local name = self:name("name")
  local missing = { name.number }
  if version == 2 then
    local mask = self:number("mask", 4, "Number", function(mask)
      local numbers = unfolded(name.number, mask)
      return #numbers > 0 and numbers[#numbers] <= DRAWOPS
    end)
    for _, number in ipairs(unfolded(name.number, mask)) do
      missing[#missing + 1] = number
    end
  end
  return name, missing
end

-- Values behind their count, each read with the one before it.
function Reader:list(key, read)
  local values = {}
  for _ = 1, self:number(key, 1) do
    values[#values + 1] = read(values[#values])
  end
  return values
end

function Reader:echo(last)
  return self:group("echo", function(group)
    local echo = { member = self:member("echo.member") }
    if last and last.member >= echo.member then
      self:fail("Order", self.at - 1)
    end
    echo.t1, echo.delay = self:moment("echo.t1"), self:moment("echo.delay")
    group.text = ("of %.0f: sent at %.0f, heard %.0f microseconds before"):format(echo.member, echo.t1, echo.delay)
    return echo
  end)
end

function Reader:report(datagram)
  datagram.sent = self:moment("sent")
  datagram.farewell = self:number("farewell", 1, "Flags", function(flags) return flags <= 1 end) == 1
  datagram.shown = self:page("shown")
  datagram.rows = self:list("rows", function(last)
    return self:name("row", datagram.farewell and datagram.sender, last)
  end)
  datagram.echoes = self:list("echoes", function(last) return self:echo(last) end)
end

-- The head, of this session where one is wanted.
function Reader:head(datagram, session)
  self:number("magic", 2, "Magic", function(magic) return magic == 0x5352 end)
  datagram.version = self:number("version", 1, "Version", function(version) return version == 1 or version == 2 end)
  datagram.kind = KINDS[self:number("kind", 1, "Kind", function(kind)
    return kind == 2 or datagram.version == 1 and KINDS[kind] ~= nil
  end)]
  datagram.session = self:number("session", 4, "Session", function(it) return not session or it == session end)
  datagram.sender = self:member("sender")
end

function Reader:contents(datagram)
  if datagram.kind == "data" then
    datagram.drawop = self:drawop(datagram.sender)
  elseif datagram.kind == "repair" then
    datagram.drawop = self:drawop()
  elseif datagram.kind == "request" then
    datagram.name, datagram.missing = self:asked(datagram.version)
  else
    self:report(datagram)
  end
  if self.at < #self.bytes then
    self:fail("Length")
  end
end

-- What bytes spell in this session, or in any where none is given: a table of what was read, with all items and, where the bytes are no
-- datagram, the first fault.
local function read(bytes, session)
  local reader = new_reader(bytes)
  local datagram = { size = #bytes, items = reader.items }
  local is_good, fault = pcall(function()
    reader:head(datagram, session)
    reader:contents(datagram)
  end)
  if not is_good then
    if type(fault) ~= "table" then
      error(fault, 0)
    end
    datagram.fault = fault
  end
  return datagram
end

-- A datagram and the trailer behind it. Bytes that are too few for a trailer have none.
local function split(bytes)
  if #bytes < TRAILER then
    return bytes, ""
  end
  return bytes:sub(1, #bytes - TRAILER), bytes:sub(#bytes - TRAILER + 1)
end

-- Whether bytes begin as a datagram does.
local function is_likely(bytes)
  return bytes:find("^SR[\1\2]") ~= nil
end

-- ---- as text

-- The well-formed sequences of UTF-8: the least and the greatest first byte, the least and the greatest second one, and how many there are.
-- Those of control characters are left out.
local SEQUENCES = {
  { 0x20, 0x7e, 0, 0, 1 },
  { 0xc2, 0xc2, 0xa0, 0xbf, 2 },
  { 0xc3, 0xdf, 0x80, 0xbf, 2 },
  { 0xe0, 0xe0, 0xa0, 0xbf, 3 },
  { 0xe1, 0xec, 0x80, 0xbf, 3 },
  { 0xed, 0xed, 0x80, 0x9f, 3 },
  { 0xee, 0xef, 0x80, 0xbf, 3 },
  { 0xf0, 0xf0, 0x90, 0xbf, 4 },
  { 0xf1, 0xf3, 0x80, 0xbf, 4 },
  { 0xf4, 0xf4, 0x80, 0x8f, 4 },
}

local function is_between(byte, least, greatest)
  return byte ~= nil and least <= byte and byte <= greatest
end

-- How many bytes the character has that begins here, or nothing.
local function character_at(bytes, at)
  for _, it in ipairs(SEQUENCES) do
    local size = it[5]
    if is_between(bytes:byte(at), it[1], it[2]) and (size == 1 or is_between(bytes:byte(at + 1), it[3], it[4])) then
      local rest = bytes:sub(at + 2, at + size - 1)
      return #rest == math.max(size - 2, 0) and not rest:find("[^\128-\191]") and size or nil
    end
  end
end

-- Whether bytes are text, without control characters.
local function is_text(bytes)
  local at = 1
  while at <= #bytes do
    local size = character_at(bytes, at)
    if not size then
      return false
    end
    at = at + size
  end
  return true
end

-- A body as `srm world` prints it: what isn't printable ASCII as a question mark.
local function plain(body)
  return (body:gsub("[^ -~]", "?"))
end

local function joined(values, text, between)
  local texts = {}
  for place, value in ipairs(values) do
    texts[place] = text(value)
  end
  return table.concat(texts, between)
end

local function whole(number)
  return ("%.0f"):format(number)
end

-- What a datagram says, in the words of the lines of `srm world`.
local function contents_text(datagram)
  local sender = whole(datagram.sender)
  if datagram.kind == "data" then
    local name = datagram.drawop.name
    return ("drew %s %s %.0f %s"):format(sender, page_text(name.page), name.number, plain(datagram.drawop.body))
  elseif datagram.kind == "repair" then
    return ("fix %s %s %s"):format(sender, name_text(datagram.drawop.name), plain(datagram.drawop.body))
  elseif datagram.kind == "request" then
    return ("ask %s %s %s"):format(sender, stream_text(datagram.name), joined(datagram.missing, whole, " "))
  end
  local text = datagram.farewell and "gone " .. sender or ("shown %s %s"):format(sender, page_text(datagram.shown))
  if #datagram.rows > 0 then
    text = text .. "; rows " .. joined(datagram.rows, name_text, ", ")
  end
  if #datagram.echoes > 0 then
    text = text .. "; echoes " .. joined(datagram.echoes, function(echo) return whole(echo.member) end, ", ")
  end
  return text
end

-- The line of a datagram. What is no datagram has the cause with which `srm world` ignores it, and its fault.
local function line(datagram)
  local fault = datagram.fault
  if fault then
    return ("ignored 6 %s: %s"):format(fault.name, FAULTS[fault.name])
  end
  return ("out %.0f %s %d; %s"):format(datagram.sender, datagram.kind, datagram.size, contents_text(datagram))
end

if not Proto then
  return { read = read, line = line, split = split, is_likely = is_likely, is_text = is_text }
end

-- ---- in Wireshark

local srm = Proto("srm", "Scalable Reliable Multicast (Ringyew)")
local microseconds = " microseconds"

local FIELDS = {
  magic = ProtoField.uint16("srm.magic", "Magic", base.HEX),
  version = ProtoField.uint8("srm.version", "Version"),
  kind = ProtoField.uint8("srm.kind", "Kind", base.DEC, KINDS),
  session = ProtoField.uint32("srm.session", "Session"),
  sender = ProtoField.uint8("srm.sender", "Sender"),
  name = ProtoField.string("srm.name", "Name"),
  source = ProtoField.uint8("srm.source", "Source"),
  page = ProtoField.string("srm.page", "Page"),
  creator = ProtoField.uint8("srm.page.creator", "Creator"),
  ["local"] = ProtoField.uint16("srm.page.number", "Number of the page"),
  number = ProtoField.uint32("srm.number", "Number"),
  missing = ProtoField.uint32("srm.missing", "Missing"),
  mask = ProtoField.uint32("srm.mask", "Mask", base.HEX),
  stamp = ProtoField.uint64("srm.stamp", "Drawn at"),
  size = ProtoField.uint16("srm.size", "Bytes of the body"),
  body = ProtoField.bytes("srm.body", "Body"),
  text = ProtoField.string("srm.text", "Text"),
  sent = ProtoField.uint64("srm.sent", "Sent at"),
  farewell = ProtoField.bool("srm.farewell", "Farewell"),
  shown = ProtoField.string("srm.shown", "Shown page"),
  rows = ProtoField.uint8("srm.rows", "Rows"),
  row = ProtoField.string("srm.row", "Row"),
  known = ProtoField.uint32("srm.known", "Known up to"),
  echoes = ProtoField.uint8("srm.echoes", "Echoes"),
  echo = ProtoField.string("srm.echo", "Echo"),
  ["echo.member"] = ProtoField.uint8("srm.echo.member", "Of member"),
  ["echo.t1"] = ProtoField.uint64("srm.echo.t1", "Its message was sent at"),
  ["echo.delay"] = ProtoField.uint64("srm.echo.delay", "It was heard before"),
  ["trailer.sender"] = ProtoField.uint8("srm.trailer.sender", "Sealed by"),
  counter = ProtoField.uint64("srm.counter", "Counter"),
  tag = ProtoField.bytes("srm.tag", "Tag"),
  fault = ProtoField.string("srm.fault", "Fault"),
}
local UNITS = { stamp = microseconds, sent = microseconds, ["echo.t1"] = microseconds, ["echo.delay"] = microseconds }

for _, field in pairs(FIELDS) do
  table.insert(srm.fields, field)
end

local no_datagram = ProtoExpert.new("srm.no_datagram", "No datagram", expert.group.MALFORMED, expert.severity.ERROR)
local cut = ProtoExpert.new("srm.cut", "Cut by the capture", expert.group.UNDECODED, expert.severity.NOTE)
srm.experts = { no_datagram, cut }
srm.prefs.session = Pref.string("Session", "", "The number of the only session that is known; any where this is empty")
srm.prefs.tagged = Pref.bool("Tagged", false, "Whether the members have a key, so that a trailer of 25 bytes follows each datagram")

-- A range of so many bytes, which may be none.
local function range(tvb, at, size)
  return tvb(math.min(at, tvb:len()), math.min(size, math.max(tvb:len() - at, 0)))
end

local function show(tree, tvb, items)
  for _, item in ipairs(items) do
    local bytes = range(tvb, item.at, item.size or tvb:len() - item.at)
    if item.items then
      show(tree:add(FIELDS[item.key], bytes, item.text or "no whole one"), tvb, item.items)
    elseif bytes:len() > 0 then
      tree:add(FIELDS[item.key], bytes):append_text(UNITS[item.key] or "")
    end
    if item.key == "body" and is_text(item.value) then
      tree:add(FIELDS.text, bytes, item.value):set_generated()
    end
  end
end

-- Each number that is asked for, at the bytes that say it.
local function show_missing(tree, tvb, missing)
  for place, number in ipairs(missing) do
    local bytes = place == 1 and range(tvb, 13, 4) or range(tvb, 17, 4)
    tree:add(FIELDS.missing, bytes, number):set_generated()
  end
end

local function show_fault(tree, tvb, fault)
  local bytes = range(tvb, fault.at, 1)
  tree:add(FIELDS.fault, bytes, fault.name):append_text((" (%s), at byte %d"):format(FAULTS[fault.name], fault.at))
  tree:add_proto_expert_info(no_datagram, FAULTS[fault.name])
end

-- What stands behind a datagram of so many bytes: who sealed it, the counter and the tag.
local function show_trailer(tree, tvb, at)
  tree:add(FIELDS["trailer.sender"], range(tvb, at, 1))
  tree:add(FIELDS.counter, range(tvb, at + 1, COUNTER))
  tree:add(FIELDS.tag, range(tvb, at + 1 + COUNTER, TAG))
end

function srm.dissector(tvb, pinfo, root)
  local bytes, trailer = tvb:len() > 0 and tvb:raw() or "", ""
  -- Where the capture cut the datagram, its trailer isn't there.
  if srm.prefs.tagged and tvb:len() == tvb:reported_len() then
    bytes, trailer = split(bytes)
  end
  local datagram = read(bytes, tonumber(srm.prefs.session))
  local is_cut = datagram.fault and datagram.fault.name == "Short" and tvb:len() < tvb:reported_len()
  local text = is_cut and "cut by the capture" or line(datagram)
  pinfo.cols.protocol = "SRM"
  pinfo.cols.info = text
  local tree = root:add(srm, tvb(), "Scalable Reliable Multicast, " .. text)
  show(tree, tvb, datagram.items)
  if #trailer > 0 then
    show_trailer(tree, tvb, #bytes)
  end
  if is_cut then
    tree:add_proto_expert_info(cut)
  elseif datagram.fault then
    show_fault(tree, tvb, datagram.fault)
  elseif datagram.missing then
    show_missing(tree, tvb, datagram.missing)
  end
  return tvb:len()
end

srm:register_heuristic("udp", function(tvb, pinfo, root)
  if tvb:len() < 3 or not is_likely(tvb:raw(0, 3)) then
    return false
  end
  srm.dissector(tvb, pinfo, root)
  return true
end)

-- So that Decode As has it, for bytes that begin as no datagram does.
DissectorTable.get("udp.port"):add_for_decode_as(srm)
