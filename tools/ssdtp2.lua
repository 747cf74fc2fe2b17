-- Dissects frames that carry SpaceWire packets over TCP (SSDTP2, port 10030) in Wireshark and tshark, and hands each packet, also
-- one that came in pieces, to the dissector of rmap.lua, which is loaded first. docs/LIVE.md, "Frames", has the bytes and its use.
local ssdtp2 = Proto("ssdtp2", "SpaceWire over TCP (SSDTP2)")
local rmap = Dissector.get("rmap")

local HEAD = 12
local EOP, EEP, PART, SEND_TIME, GOT_TIME = 0x00, 0x01, 0x02, 0x30, 0x31
local FLAGS = {
  [EOP] = "packet, EOP", [EEP] = "packet, EEP", [PART] = "piece of a packet", [SEND_TIME] = "time code to send",
  [GOT_TIME] = "time code that came",
}

local fields = {
  flag = ProtoField.uint8("ssdtp2.flag", "Flag", base.HEX, FLAGS),
  reserved = ProtoField.uint8("ssdtp2.reserved", "Reserved", base.HEX),
  length = ProtoField.bytes("ssdtp2.length", "Length"),
  path = ProtoField.bytes("ssdtp2.path", "Path address"),
  time = ProtoField.uint8("ssdtp2.time", "Time code"),
  body = ProtoField.bytes("ssdtp2.body", "Body"),
  pieces = ProtoField.uint32("ssdtp2.pieces", "Pieces before", base.DEC),
}
ssdtp2.fields = fields

-- The pieces of a packet that goes on, by the direction of the talk; and those that stand before a frame which ends a packet.
local going = {}
local before = {}

function ssdtp2.init()
  going, before = {}, {}
end

-- How many bytes a frame has by its head. A length that no capture holds stands for all that is there.
local function frame_length(buffer, packet, offset)
  if buffer(offset + 2, 6):uint64() > UInt64(0) then return buffer:len() - offset end
  return HEAD + buffer(offset + 8, 4):uint()
end

-- How many bytes below 20 are in front.
local function path_length(buffer)
  local length = 0
  while length < buffer:len() and buffer(length, 1):uint() < 0x20 do length = length + 1 end
  return length
end

-- Adds to the line of a packet what a frame is, behind those before it.
local function tell(packet, text)
  packet.cols.info:append(text)
  packet.cols.info:fence()
end

-- Hands a packet to rmap, without the path in front of a command; a reply's path is told there.
local function add_packet(buffer, packet, root, tree)
  local path = path_length(buffer)
  local is_command = path + 2 < buffer:len() and buffer(path + 2, 1):uint() >= 0x40
  if path > 0 and is_command then
    tree:add(fields.path, buffer(0, path))
    buffer = buffer(path):tvb()
  end
  if buffer:len() > 0 then rmap:call(buffer, packet, root) end
end

-- Takes the pieces before a frame, in the first pass over the talk, and finds them again in the others.
local function pieces_before(packet, buffer, flag)
  local way = string.format("%s:%d>%s:%d", packet.src, packet.src_port, packet.dst, packet.dst_port)
  local place = string.format("%d:%d:%d", packet.number, buffer:offset(), buffer:len())
  if not packet.visited and not before[place] then
    local held = going[way] or { bytes = ByteArray.new(), count = 0 }
    if flag == PART then
      if buffer:len() > HEAD then held.bytes:append(buffer(HEAD):bytes()) end
      going[way] = { bytes = held.bytes, count = held.count + 1 }
    else
      going[way] = nil
      before[place] = held
    end
  end
  return before[place] or { bytes = ByteArray.new(), count = 0 }
end

-- A frame that ends a packet: its bytes stand behind those of the pieces before it.
local function last_frame(buffer, packet, root, tree, flag)
  local held = pieces_before(packet, buffer, flag)
  local whole = buffer:len() > HEAD and buffer(HEAD):tvb() or nil
  if held.count > 0 then
    tree:add(fields.pieces, held.count):set_generated()
    local bytes = held.bytes .. (whole and whole:bytes() or ByteArray.new())
    whole = bytes:len() > 0 and bytes:tvb("Packet") or nil
  end
  local said = tostring(packet.cols.info)
  if whole then add_packet(whole, packet, root, tree) end
  if tostring(packet.cols.info) == said then
    packet.cols.info:append(string.format("packet of %d bytes", whole and whole:len() or 0))
  end
  tell(packet, flag == EEP and ", EEP" or "")
end

local function frame(buffer, packet, root)
  local flag = buffer(0, 1):uint()
  local tree = root:add(ssdtp2, buffer())
  tree:add(fields.flag, buffer(0, 1))
  tree:add(fields.reserved, buffer(1, 1))
  tree:add(fields.length, buffer(2, 10))
  if tostring(packet.cols.info) ~= "" then tell(packet, "; ") end
  if flag == EOP or flag == EEP then
    last_frame(buffer, packet, root, tree, flag)
    return buffer:len()
  end
  if flag == PART then pieces_before(packet, buffer, flag) end
  local text = FLAGS[flag] or string.format("frame %02X, for a bridge", flag)
  if buffer:len() > HEAD then
    if flag == SEND_TIME or flag == GOT_TIME then
      tree:add(fields.time, buffer(HEAD, 1))
      text = string.format("%s %02X", text, buffer(HEAD, 1):uint())
    else
      tree:add(fields.body, buffer(HEAD))
    end
  end
  tell(packet, text)
  return buffer:len()
end

function ssdtp2.dissector(buffer, packet, root)
  packet.cols.protocol = "SSDTP2"
  packet.cols.info = ""
  dissect_tcp_pdus(buffer, root, HEAD, frame_length, frame)
  return buffer:len()
end

DissectorTable.get("tcp.port"):add(10030, ssdtp2)
