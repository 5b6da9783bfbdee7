-- RT-EP in Wireshark and tshark: the packets of Ethernet type 0x1000, field by field.
--
--     tshark -X lua_script:tools/dissector/rtep.lua -r CAPTURE -O rtep
--
-- or copied to the folder "Personal Lua Plugins" that Help, About Wireshark, Folders names.
--
-- A packet that a station would refuse is marked malformed, each reason at its field, and rtep.refused is the rule
-- book's number: 10, 11 or 12. Beside 12 rtep.offset is where the packet is bad: the first octet of its first bad field,
-- else its first pad octet that is not zero, else the length's, 6 for information and 0 for a token. Whether an address belongs to the ring is only looked at where the preference rtep.ring
-- names its members: -o "rtep.ring:02:00:00:00:00:01 02:00:00:00:00:02", or with open channels behind them, as tools/ring
-- takes them for form 2: a station that hears does not ask for those. An address that no ring can have is always marked.
--
-- rtep.acknowledges are the frames of the capture that a frame acknowledges: of each station that waits, the one it sent
-- last. The capture shows what was sent and not who heard it: a station that missed the frame waits on, for the next one.

local ETHERNET_TYPE = 0x1000
local LEAST, MOST, INFORMATION_MOST = 46, 1500, 1492
local TOKEN, TRANSMIT, INFORMATION = 1, 2, 3
local AROUND = 26 -- preamble, header and check sequence of a frame, in octets

local kinds = { [TOKEN] = "Token", [TRANSMIT] = "Transmit token", [INFORMATION] = "Information" }

local rtep = Proto("rtep", "RT-EP")

rtep.prefs.ring = Pref.string("Members of the ring", "",
    "Their addresses, parted by spaces: 02:00:00:00:00:01 and so on, or 02:00:00:00:00:01=CHANNELS. Empty: not looked at.")

local field = {
    identifier = ProtoField.uint8("rtep.identifier", "Identifier", base.DEC, kinds),
    priority = ProtoField.uint8("rtep.priority", "Priority"),
    number = ProtoField.uint16("rtep.number", "Number"),
    master = ProtoField.ether("rtep.master", "Master"),
    failing = ProtoField.ether("rtep.failing", "Failing station"),
    named = ProtoField.ether("rtep.named", "Named station"),
    channel = ProtoField.uint16("rtep.channel", "Channel"),
    length = ProtoField.uint16("rtep.length", "Length"),
    information = ProtoField.bytes("rtep.information", "Information"),
    pad = ProtoField.bytes("rtep.pad", "Padding"),
    beyond = ProtoField.bytes("rtep.beyond", "Octets beyond the packet"),
    unread = ProtoField.bytes("rtep.unread", "Octets not read"),
    wire = ProtoField.uint16("rtep.wire", "Octets on the wire"),
    refused = ProtoField.uint8("rtep.refused", "Refused with"),
    offset = ProtoField.uint16("rtep.offset", "Bad at octet"),
    acknowledges = ProtoField.framenum("rtep.acknowledges", "Acknowledges frame", base.NONE, frametype.ACK),
}
rtep.fields = field

local function reason(name, words)
    return ProtoExpert.new("rtep.malformed." .. name, words, expert.group.MALFORMED, expert.severity.ERROR)
end
local refusal = {
    [10] = reason("size", "Packet under 46 or over 1,500 octets"),
    [11] = reason("identifier", "Identifier not 1 to 3"),
    [12] = reason("field", "A field, a pad octet or the length is bad"),
}
rtep.experts = { refusal[10], refusal[11], refusal[12] }

-- An address as a frame's header shows it, which may be a name, from its octets.
local function shown(octets)
    return tostring(Address.ether((octets:gsub("(%x%x)", "%1:"):sub(1, -2))))
end

-- The preference, read again only when it changes: nil, or a table with the members as keys, both ways.
local read_from, members = "", nil
local function ring()
    if rtep.prefs.ring ~= read_from then
        read_from = rtep.prefs.ring
        members = nil
        for word in read_from:gmatch("%S+") do
            members = members or {}
            local octets = word:gsub("=.*", ""):gsub("[:-]", ""):lower()
            members[octets] = true
            if octets:find("^" .. ("%x"):rep(12) .. "$") then
                members[shown(octets)] = true
            end
        end
    end
    return members
end

-- Why an address is none of a member, or nil.
local function not_a_member(octets)
    local known = ring()
    if octets == "000000000000" then
        return "is zero"
    elseif tonumber(octets:sub(1, 2), 16) % 2 == 1 then
        return "is a group address"
    elseif known and not known[octets] then
        return "is no member of the ring"
    end
    return nil
end

-- Adds octets from a place on, as far as the capture has them; gives back the item and its octets, or nothing.
local function add(tree, what, packet, at, octets)
    octets = math.min(octets, packet:captured_len() - at)
    if octets > 0 then
        return tree:add(what, packet(at, octets)), packet(at, octets):bytes():tohex()
    end
end

local function add_pad(tree, packet, at, bad)
    local item, octets = add(tree, field.pad, packet, at, LEAST - at)
    local digit = item and octets:find("[^0]")
    if digit then
        bad(item, 12, "A pad octet is not zero", at + math.floor((digit - 1) / 2))
    end
end

-- What lies behind the first four octets of a token or a transmit token.
local function token(packet, tree, kind, bad)
    local words, failing = "", nil
    local function station(what, name, at)
        local range = packet(at, 6)
        local octets = range:bytes():tohex(true)
        local item = tree:add(what, range)
        if what == field.failing then
            if octets == "000000000000" then
                item:append_text(" (none)")
                return
            elseif kind == TRANSMIT then
                bad(item, 12, "A transmit token's failing station is not zero", at)
            end
            failing = octets
        end
        words = words .. ", " .. name .. " " .. octets:gsub("(%x%x)", "%1:"):sub(1, -2)
        local why = not_a_member(octets)
        if why then
            bad(item, 12, "The address " .. why, at)
        end
    end
    station(field.master, "master", 4)
    station(field.failing, "failing", 10)
    station(field.named, "named", 16)
    add_pad(tree, packet, 22, bad)
    local octets = packet:reported_len()
    if octets > LEAST then
        bad(add(tree, field.beyond, packet, LEAST, octets - LEAST) or tree, 12, "A token has 46 octets", 0, true)
    end
    return words, failing
end

local function information(packet, tree, bad)
    local channel, length = packet(4, 2):uint(), packet(6, 2):uint()
    local item = tree:add(field.channel, packet(4, 2))
    if channel > 7 then
        bad(item, 12, "Channel above 7", 4)
    end
    item = tree:add(field.length, packet(6, 2))
    local octets, whole = packet:reported_len(), math.max(LEAST, 8 + length)
    if length > INFORMATION_MOST then
        bad(item, 12, "Length above 1,492", 6)
    elseif octets ~= whole then
        bad(item, 12, "This length calls for " .. whole .. " octets, and there are " .. octets, 6, true)
    end
    add(tree, field.information, packet, 8, math.min(length, octets - 8))
    if 8 + length < LEAST then
        add_pad(tree, packet, 8 + length, bad)
    end
    add(tree, field.beyond, packet, whole, octets - whole)
    return ", channel " .. channel .. ", " .. length .. " octets"
end

-- Who waits, as far as the capture shows: for each station its last frame, until another acknowledges it. Frames are looked
-- at once, in the order of the capture, and what one acknowledges is kept for when it is shown again.
local waiting, struck, acknowledged = {}, {}, {}

function rtep.init()
    waiting, struck, acknowledged = {}, {}, {}
end

local function acknowledge(pinfo, number, failing)
    local from, to, known = tostring(pinfo.dl_src), tostring(pinfo.dl_dst), ring()
    if from == to or struck[from] or (known and not (known[from] and known[to])) then
        return
    end
    local frames = {}
    for station, sent in pairs(waiting) do
        local ahead = (number - sent.number) % 65536
        if station ~= from and 1 <= ahead and ahead <= 32767 then
            table.insert(frames, sent.frame)
            waiting[station] = nil
        end
    end
    table.sort(frames)
    acknowledged[pinfo.number] = frames
    waiting[from] = { number = number, frame = pinfo.number }
    if failing then
        struck[shown(failing)] = true
        waiting[shown(failing)] = nil
    end
end

function rtep.dissector(packet, pinfo, root)
    pinfo.cols.protocol = "RT-EP"
    local tree = root:add(rtep, packet())
    -- Fields and pad octets come here in wire order; a length that disagrees counts where nothing else is bad.
    local refused, offset, of_length
    local function bad(item, number, words, at, by_length)
        refused = refused or number
        if by_length then
            of_length = at
        else
            offset = offset or at
        end
        item:add_proto_expert_info(refusal[number], words)
    end

    local octets, words, number, failing = packet:reported_len(), "", nil, nil
    if octets < LEAST or octets > MOST then
        bad(tree:add(field.unread, packet()), 10, octets .. " octets: a packet has 46 to 1,500")
        words = octets .. " octets"
    else
        local kind, priority = packet(0, 1):uint(), packet(1, 1):uint()
        number = packet(2, 2):uint()
        local item = tree:add(field.identifier, packet(0, 1))
        if not kinds[kind] then
            bad(item, 11, "Identifier " .. kind .. " is not 1 to 3")
            tree:add(field.unread, packet(1))
            words = "Identifier " .. kind
        else
            item = tree:add(field.priority, packet(1, 1))
            if priority == 0 and kind ~= TOKEN then
                bad(item, 12, "Only a token may have priority 0", 1)
            end
            tree:add(field.number, packet(2, 2))
            words = kinds[kind] .. " " .. number .. ", priority " .. priority
            local rest
            if kind == INFORMATION then
                rest = information(packet, tree, bad)
            else
                rest, failing = token(packet, tree, kind, bad)
            end
            words = words .. rest
        end
    end

    tree:add(field.wire, octets + AROUND):set_generated()
    if refused then
        tree:add(field.refused, refused):set_generated()
        words = words .. " [malformed: " .. refused
        if refused == 12 then
            offset = offset or of_length
            tree:add(field.offset, offset):set_generated()
            words = words .. " at octet " .. offset
        end
        words = words .. "]"
    elseif not pinfo.visited then
        acknowledge(pinfo, number, failing)
    end
    for _, frame in ipairs(acknowledged[pinfo.number] or {}) do
        tree:add(field.acknowledges, frame):set_generated()
    end
    tree:append_text(": " .. words)
    pinfo.cols.info = words
end

DissectorTable.get("ethertype"):add(ETHERNET_TYPE, rtep)
