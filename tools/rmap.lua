-- Dissects RMAP (ECSS-E-ST-50-52C) in Wireshark and tshark: commands and replies, in captures of link type USER0 (147).
-- The names of the fields are the standard's. docs/COMMANDS.md, "Coming from other tools", has its use.
local rmap = Proto("rmap", "Remote Memory Access Protocol")

local KINDS = { [2] = "read", [3] = "read", [7] = "rmw" }
for code = 8, 15 do KINDS[code] = "write" end

local STATUSES = {
  [0] = "success", [1] = "general error", [2] = "unused packet type or command code", [3] = "invalid key",
  [4] = "invalid data CRC", [5] = "early EOP", [6] = "too much data", [7] = "EEP", [9] = "verify buffer overrun",
  [10] = "not implemented or not authorised", [11] = "RMW data length error", [12] = "invalid target logical address",
}

local TYPES = { [0] = "reply", [1] = "command", [2] = "reserved", [3] = "reserved" }

local fields = {
  path = ProtoField.bytes("rmap.path", "Reply path"),
  target = ProtoField.uint8("rmap.target", "Target logical address", base.HEX),
  protocol = ProtoField.uint8("rmap.protocol", "Protocol identifier", base.HEX),
  instruction = ProtoField.uint8("rmap.instruction", "Instruction", base.HEX),
  type = ProtoField.uint8("rmap.instruction.type", "Packet type", base.DEC, TYPES, 0xC0),
  write = ProtoField.bool("rmap.write", "Write", 8, nil, 0x20),
  verify = ProtoField.bool("rmap.verify", "Verify data before write", 8, nil, 0x10),
  reply = ProtoField.bool("rmap.reply", "Reply", 8, nil, 0x08),
  increment = ProtoField.bool("rmap.increment", "Increment address", 8, nil, 0x04),
  address_length = ProtoField.uint8("rmap.reply_address_length", "Reply address length in words", base.DEC, nil, 0x03),
  kind = ProtoField.string("rmap.kind", "Kind"),
  key = ProtoField.uint8("rmap.key", "Key", base.HEX),
  reply_address = ProtoField.bytes("rmap.reply_address", "Reply address"),
  initiator = ProtoField.uint8("rmap.initiator", "Initiator logical address", base.HEX),
  transaction = ProtoField.uint16("rmap.transaction", "Transaction identifier", base.HEX),
  extended = ProtoField.uint8("rmap.extended", "Extended address", base.HEX),
  address = ProtoField.uint32("rmap.address", "Address", base.HEX),
  length = ProtoField.uint24("rmap.length", "Data length", base.DEC),
  status = ProtoField.uint8("rmap.status", "Status", base.DEC, STATUSES),
  reserved = ProtoField.uint8("rmap.reserved", "Reserved", base.HEX),
  header_crc = ProtoField.uint8("rmap.header_crc", "Header CRC", base.HEX),
  header_crc_bad = ProtoField.bool("rmap.header_crc.bad", "Header CRC is wrong"),
  data = ProtoField.bytes("rmap.data", "Data"),
  mask = ProtoField.bytes("rmap.mask", "Mask"),
  data_crc = ProtoField.uint8("rmap.data_crc", "Data CRC", base.HEX),
  data_crc_bad = ProtoField.bool("rmap.data_crc.bad", "Data CRC is wrong"),
  response_in = ProtoField.framenum("rmap.response_in", "Reply in", base.NONE, frametype.RESPONSE),
  response_to = ProtoField.framenum("rmap.response_to", "Reply to", base.NONE, frametype.REQUEST),
  time = ProtoField.relative_time("rmap.time", "Time from the command"),
}
rmap.fields = fields

local experts = {
  short = ProtoExpert.new("rmap.short", "Too few bytes", expert.group.MALFORMED, expert.severity.ERROR),
  long = ProtoExpert.new("rmap.long", "Too many bytes", expert.group.MALFORMED, expert.severity.ERROR),
  header_crc = ProtoExpert.new("rmap.header_crc.wrong", "Wrong header CRC", expert.group.CHECKSUM, expert.severity.ERROR),
  data_crc = ProtoExpert.new("rmap.data_crc.wrong", "Wrong data CRC", expert.group.CHECKSUM, expert.severity.ERROR),
  protocol = ProtoExpert.new("rmap.protocol.other", "Another protocol", expert.group.PROTOCOL, expert.severity.NOTE),
}
rmap.experts = experts

-- What the first pass over a capture finds: the last command of each transaction, by the two ends of the talk; the command of each
-- reply, and the frame of the reply to each command, by the frame and the bytes of the header.
local commands, command_of, reply_of = {}, {}, {}

function rmap.init()
  commands, command_of, reply_of = {}, {}, {}
end

-- The key of a transaction: the ends of the talk as the command has them, the initiator and the transaction.
local function transaction_key(packet, from_reply, initiator, transaction)
  local here = string.format("%s:%s", tostring(packet.src), tostring(packet.src_port))
  local there = string.format("%s:%s", tostring(packet.dst), tostring(packet.dst_port))
  if from_reply then here, there = there, here end
  return string.format("%s>%s %02X %04X", here, there, initiator, transaction)
end

local function place_key(packet, header)
  return string.format("%d:%s", packet.number, tostring(header:bytes()))
end

-- Keeps a command that is due a reply, and names the frame of its reply.
local function add_command_frames(packet, tree, header, initiator, transaction)
  local place = place_key(packet, header)
  if not packet.visited then
    commands[transaction_key(packet, false, initiator, transaction)] = { frame = packet.number, time = packet.rel_ts, place = place }
  end
  if reply_of[place] then tree:add(fields.response_in, reply_of[place]):set_generated() end
end

-- Names the frame of the command of a reply, and the time between them.
local function add_reply_frames(packet, tree, header, initiator, transaction)
  local place, key = place_key(packet, header), transaction_key(packet, true, initiator, transaction)
  if not packet.visited and commands[key] then
    command_of[place], reply_of[commands[key].place] = commands[key], packet.number
    commands[key] = nil
  end
  local command = command_of[place]
  if not command then return end
  tree:add(fields.response_to, command.frame):set_generated()
  local between = packet.rel_ts - command.time
  tree:add(fields.time, NSTime.new(math.floor(between), math.floor(between % 1 * 1e9 + 0.5))):set_generated()
end

-- One step of the register: a right shift, and E0 where the bit shifted out was 1 (ECSS-E-ST-50-52C, 8-bit CRC).
local TABLE = {}
for byte = 0, 255 do
  local register = byte
  for _ = 1, 8 do
    register = register % 2 == 1 and bit32.bxor(math.floor(register / 2), 0xE0) or math.floor(register / 2)
  end
  TABLE[byte] = register
end

-- The CRC of `length` bytes from `start` on.
local function crc(buffer, start, length)
  local register = 0
  for place = start, start + length - 1 do
    register = TABLE[bit32.bxor(register, buffer(place, 1):uint())]
  end
  return register
end

-- Adds a CRC, and whether it is that of the bytes from `start` on: what the column Info has of it.
local function add_crc(tree, buffer, start, length, field, flag, wrong, name)
  local at = buffer(start + length, 1)
  tree:add(field, at)
  local right = crc(buffer, start, length)
  local bad = at:uint() ~= right
  tree:add(flag, at, bad):set_generated()
  if bad then
    tree:add_proto_expert_info(wrong, string.format("the CRC is %02X and should be %02X", at:uint(), right))
  end
  return bad and string.format(", wrong %s CRC", name) or ""
end

-- Adds the instruction with its bits.
local function add_instruction(tree, byte)
  local bits = tree:add(fields.instruction, byte)
  for _, field in ipairs({ fields.type, fields.write, fields.verify, fields.reply, fields.increment, fields.address_length }) do
    bits:add(field, byte)
  end
  local kind = KINDS[bit32.extract(byte:uint(), 2, 4)] or "unused"
  tree:add(fields.kind, byte, kind):set_generated()
  return kind
end

-- Adds the data after a header, or says that they are too few or too many: what the column Info has of it.
local function add_data(tree, buffer, start, length, halves)
  local there = buffer:len() - start
  if there < length + 1 then
    tree:add_proto_expert_info(experts.short)
    if there > 0 then tree:add(fields.data, buffer(start)) end
    return ", too few bytes"
  end
  if halves and length % 2 == 0 and length > 0 then
    tree:add(fields.data, buffer(start, length / 2))
    tree:add(fields.mask, buffer(start + length / 2, length / 2))
  elseif length > 0 then
    tree:add(fields.data, buffer(start, length))
  end
  local said = add_crc(tree, buffer, start, length, fields.data_crc, fields.data_crc_bad, experts.data_crc, "data")
  if there > length + 1 then
    tree:add_proto_expert_info(experts.long)
    said = said .. ", too many bytes"
  end
  return said
end

-- A command (ECSS-E-ST-50-52C, write command format, read command format, read-modify-write command format).
local function command(buffer, packet, tree)
  local path = 4 * (buffer(2, 1):uint() % 4)
  tree:add(fields.target, buffer(0, 1))
  tree:add(fields.protocol, buffer(1, 1))
  local kind = add_instruction(tree, buffer(2, 1))
  if buffer:len() < 16 + path then
    tree:add_proto_expert_info(experts.short)
    return "command " .. kind .. ", too few bytes"
  end
  tree:add(fields.key, buffer(3, 1))
  if path > 0 then tree:add(fields.reply_address, buffer(4, path)) end
  tree:add(fields.initiator, buffer(4 + path, 1))
  tree:add(fields.transaction, buffer(5 + path, 2))
  tree:add(fields.extended, buffer(7 + path, 1))
  tree:add(fields.address, buffer(8 + path, 4))
  tree:add(fields.length, buffer(12 + path, 3))
  local said = add_crc(tree, buffer, 0, 15 + path, fields.header_crc, fields.header_crc_bad, experts.header_crc, "header")
  local length, transaction = buffer(12 + path, 3):uint(), buffer(5 + path, 2):uint()
  local is_answered = said == "" and bit32.extract(buffer(2, 1):uint(), 3) == 1
  if kind == "write" or kind == "rmw" then
    said = said .. add_data(tree, buffer, 16 + path, length, kind == "rmw")
  elseif buffer:len() > 16 + path then
    tree:add_proto_expert_info(experts.long)
    said = said .. ", too many bytes"
  end
  if is_answered then
    add_command_frames(packet, tree, buffer(0, 16 + path), buffer(4 + path, 1):uint(), transaction)
  end
  return string.format("command %s transaction %04X address %08X length %d%s", kind, transaction, buffer(8 + path, 4):uint(), length, said)
end

-- A reply after its path (ECSS-E-ST-50-52C, write reply format, read reply format, read-modify-write reply format).
local function reply(buffer, packet, tree)
  tree:add(fields.initiator, buffer(0, 1))
  tree:add(fields.protocol, buffer(1, 1))
  local kind = add_instruction(tree, buffer(2, 1))
  local writes = bit32.extract(buffer(2, 1):uint(), 5) == 1
  local header = writes and 8 or 12
  if buffer:len() < header then
    tree:add_proto_expert_info(experts.short)
    return "reply " .. kind .. ", too few bytes"
  end
  tree:add(fields.status, buffer(3, 1))
  tree:add(fields.target, buffer(4, 1))
  tree:add(fields.transaction, buffer(5, 2))
  if not writes then
    tree:add(fields.reserved, buffer(7, 1))
    tree:add(fields.length, buffer(8, 3))
  end
  local said = add_crc(tree, buffer, 0, header - 1, fields.header_crc, fields.header_crc_bad, experts.header_crc, "header")
  local transaction = buffer(5, 2):uint()
  if not writes then
    said = said .. add_data(tree, buffer, header, buffer(8, 3):uint(), false)
  elseif buffer:len() > header then
    tree:add_proto_expert_info(experts.long)
    said = said .. ", too many bytes"
  end
  add_reply_frames(packet, tree, buffer(0, header), buffer(0, 1):uint(), transaction)
  return string.format("reply %s status %d transaction %04X%s", kind, buffer(3, 1):uint(), transaction, said)
end

-- How many bytes of a reply are its path: those below 20, since a logical address is 20 or more in SpaceWire.
local function path_length(buffer)
  local length = 0
  while length < buffer:len() and buffer(length, 1):uint() < 0x20 do length = length + 1 end
  return length
end

-- A command begins with a logical address, and a reply with a path may have 01 for the second byte of the path.
local function is_command(buffer)
  return buffer:len() >= 3 and buffer(0, 1):uint() >= 0x20 and buffer(1, 1):uint() == 1 and buffer(2, 1):uint() >= 0x40
end

function rmap.dissector(buffer, packet, root)
  packet.cols.protocol = "RMAP"
  local tree = root:add(rmap, buffer())
  if is_command(buffer) then
    packet.cols.info = command(buffer, packet, tree)
    return
  end
  local path = path_length(buffer)
  if buffer:len() < path + 3 then
    tree:add_proto_expert_info(experts.short)
    return
  end
  if path > 0 then tree:add(fields.path, buffer(0, path)) end
  if buffer(path + 1, 1):uint() ~= 1 then
    tree:add_proto_expert_info(experts.protocol)
    return
  end
  packet.cols.info = reply(buffer(path):tvb(), packet, tree)
end

DissectorTable.get("wtap_encap"):add(wtap.USER0, rmap)
