-- Wireshark dissector for ANCP multicast control (RFC 6320, RFC 7256): message types 144 to 150, Generic Response (91),
-- Provisioning (93), and their TLVs.
--
--   tshark -X lua_script:tools/ancp_multicast.lua -r CAPTURE -O ancp_mc
--   tshark -X lua_script:tools/ancp_multicast.lua -i INTERFACE -f 'tcp port 6068' -Y 'ancp_mc.result == 4'
--
-- In Wireshark, copy this file into the folder of personal Lua plugins (Help, About, Folders) and start it again. On a
-- port other than 6068: Decode As, or `-d tcp.port==PORT,ancp_mc`. tools/dissect-test tries it.
--
-- Wireshark's own dissector `ancp` (seen in 4.0) shows of 144 to 150 the header alone, and of 91 and 93 the TLVs of the
-- top level unread. This one, `ancp_mc`, takes its place on TCP port 6068 and hands it every message of another type.
--
-- Expert infos. ancp_mc.unusable: the header is not one that a card reads. ancp_mc.no_transaction: a request of type
-- 144, 146, 148 or 149 with transaction 0 (what 0x2 refuses). ancp_mc.malformed: lengths that do not fit, and TLVs
-- nested too deep (what 0x53 refuses). ancp_mc.contents: contents that are not the type's (what 0x55 refuses).

local proto = Proto("ancp_mc", "ANCP multicast control")

-- The names that the sources give.
local MESSAGES = {
    [10] = "Adjacency Protocol", [32] = "Port Management", [80] = "Port Up", [81] = "Port Down",
    [85] = "Adjacency Update", [91] = "Generic Response", [93] = "Provisioning",
    [144] = "Multicast Replication Control", [145] = "Multicast Admission Control",
    [146] = "Bandwidth Reallocation Request", [147] = "Bandwidth Transfer", [148] = "Delegated Bandwidth Query",
    [149] = "Multicast Flow Query", [150] = "Committed Bandwidth Report",
}
local RESULTS = { [0] = "Ignore", "Nack", "AckAll", "Success", "Failure" }
local CODES = {
    [0x0] = "No result", [0x2] = "Invalid request message", [0x6] = "One or more of the specified ports are down",
    [0x13] = "Out of resources", [0x51] = "Request message type not implemented", [0x53] = "Malformed message",
    [0x54] = "Mandatory TLV missing", [0x55] = "Invalid TLV contents", [0x64] = "Command error",
    [0x65] = "Invalid flow address", [0x66] = "Multicast flow does not exist",
    [0x67] = "Invalid preferred bandwidth amount", [0x68] = "Inconsistent views of delegated bandwidth amount",
    [0x69] = "Bandwidth request conflict", [0x500] = "One or more of the specified ports do not exist",
    [0x501] = "Loopback test timed out", [0x502] = "Reserved", [0x503] = "DSL line status showtime",
    [0x504] = "DSL line status idle", [0x505] = "DSL line status silent", [0x506] = "DSL line status training",
    [0x507] = "DSL line integrity error", [0x508] = "DSLAM resource not available", [0x509] = "Invalid test parameter",
}
local TLVS = {
    [0x0001] = "Access-Loop-Circuit-ID", [0x0002] = "Access-Loop-Remote-Id",
    [0x0003] = "Access-Aggregation-Circuit-ID-ASCII", [0x0006] = "Access-Aggregation-Circuit-ID-Binary",
    [0x0011] = "Command", [0x0013] = "Multicast-Service-Profile", [0x0015] = "Bandwidth-Allocation",
    [0x0016] = "Bandwidth-Request", [0x0018] = "Multicast-Service-Profile-Name", [0x0019] = "Multicast-Flow",
    [0x0021] = "List-Action", [0x0022] = "Sequence-Number", [0x0024] = "White-List-CAC", [0x0025] = "MRepCtl-CAC",
    [0x0092] = "Request-Source-IP", [0x0093] = "Request-Source-MAC", [0x0094] = "Report-Buffering-Time",
    [0x0095] = "Committed-Bandwidth", [0x0096] = "Request-Source-Device-Id", [0x0106] = "Status-Info",
    [0x1000] = "Target",
}
local COMMANDS = {
    "Add", "Delete", "Delete All", "Admission Control Reject", "Conditional Access Reject",
    "Admission Control and Conditional Access Reject",
}
local ACCOUNTING = { [0] = "disabled", "octets" }
local FLOW_TYPES = { "ASM", "SSM" }
local FAMILIES = { "IPv4", "IPv6" }
local OPERATIONS = { "Add", "Delete", "Replace" }
local LISTS = { "White", "Black", "Grey" }

local function u8(name, text, names) return ProtoField.uint8("ancp_mc." .. name, text, base.DEC, names) end
local function u16(name, text, names) return ProtoField.uint16("ancp_mc." .. name, text, base.DEC, names) end
local function u32(name, text) return ProtoField.uint32("ancp_mc." .. name, text, base.DEC) end
local function text(name, label) return ProtoField.string("ancp_mc." .. name, label) end
local function octets(name, label) return ProtoField.bytes("ancp_mc." .. name, label) end

local f = {
    mark = ProtoField.uint16("ancp_mc.mark", "Mark", base.HEX),
    length = u16("length", "Length of what follows"),
    version = ProtoField.uint8("ancp_mc.version", "Version", base.HEX),
    kind = u8("type", "Message Type", MESSAGES),
    result = ProtoField.uint16("ancp_mc.result", "Result", base.DEC, RESULTS, 0xF000),
    code = ProtoField.uint16("ancp_mc.code", "Result Code", base.HEX, CODES, 0x0FFF),
    partition = u8("partition", "Partition"),
    transaction = ProtoField.uint24("ancp_mc.transaction", "Transaction", base.DEC),
    last = ProtoField.uint16("ancp_mc.i_flag", "I flag", base.DEC, nil, 0x8000),
    submessage = ProtoField.uint16("ancp_mc.submessage", "Submessage Number", base.DEC, nil, 0x7FFF),
    again = u16("length_again", "Length again"),
    tlv = ProtoField.none("ancp_mc.tlv", "TLV"),
    tlv_type = ProtoField.uint16("ancp_mc.tlv.type", "Type", base.HEX, TLVS),
    tlv_length = u16("tlv.length", "Length"),
    padding = octets("tlv.padding", "Padding"),
    octets = octets("octets", "Octets"),
    reserved = octets("reserved", "Reserved"),
    id = text("circuit_id", "Circuit ID"),
    name = text("profile_name", "Profile name"),
    request = u8("status.type", "Message Type of the request", MESSAGES),
    text_length = u16("status.text_length", "Error text length"),
    text = text("status.text", "Error text"),
    command = u8("command", "Command Code", COMMANDS),
    accounting = u8("accounting", "Accounting", ACCOUNTING),
    flow_type = u8("flow.type", "Flow Type", FLOW_TYPES),
    family = u8("flow.family", "Address Family", FAMILIES),
    count = u16("flow.sources", "Number of sources"),
    group = ProtoField.ipv4("ancp_mc.flow.group", "Group"),
    source = ProtoField.ipv4("ancp_mc.flow.source", "Source"),
    group6 = ProtoField.ipv6("ancp_mc.flow.group6", "Group"),
    source6 = ProtoField.ipv6("ancp_mc.flow.source6", "Source"),
    delegated = u32("delegated", "Delegated amount (kbit/s)"),
    required = u32("required", "Required amount (kbit/s)"),
    preferred = u32("preferred", "Preferred amount (kbit/s)"),
    committed = u32("committed", "Committed amount (kbit/s)"),
    sequence = u32("sequence", "Sequence number"),
    buffering = u32("buffering_time", "Buffering time (ms)"),
    device = u32("device", "Local device identifier"),
    address = ProtoField.ipv4("ancp_mc.source_ip", "Unicast address"),
    address6 = ProtoField.ipv6("ancp_mc.source_ip6", "Unicast address"),
    mac = ProtoField.bytes("ancp_mc.source_mac", "MAC address", base.COLON),
    operation = u8("list.operation", "Operation", OPERATIONS),
    list = u8("list.type", "List Type", LISTS),
    list_family = u16("list.family", "Address Family", FAMILIES),
    list_length = u16("list.length", "List length"),
    entry = ProtoField.none("ancp_mc.list.entry", "Entry"),
    group_bits = u8("list.group_bits", "Group prefix length"),
    source_bits = u8("list.source_bits", "Source prefix length"),
    group_prefix = text("list.group", "Group"),
    source_prefix = text("list.source", "Source"),
}
proto.fields = f

local function problem(name, what, group)
    return ProtoExpert.new("ancp_mc." .. name, what, group, expert.severity.ERROR)
end
local unusable = problem("unusable", "Unusable header", expert.group.PROTOCOL)
local no_transaction = problem("no_transaction", "Transaction 0 in a request", expert.group.PROTOCOL)
local malformed = problem("malformed", "Length that does not fit", expert.group.MALFORMED)
local contents = problem("contents", "Contents that are not the type's", expert.group.PROTOCOL)
proto.experts = { unusable, no_transaction, malformed, contents }

-- Below, `s` is the message, and `at` and `stop` say which of its octets: from `at` to before `stop`.

-- octets as they are, and why
local function unread(s, at, stop, tree, why)
    if at < stop then tree:add(f.octets, s(at, stop - at)) end
    return why
end

local function padded(n) return n + (-n) % 4 end

-- Fields one after the other, each with its width. Gives where they end, or nothing where `stop` comes before that.
local function fields(s, at, stop, tree, layout)
    local width = 0
    for _, part in ipairs(layout) do width = width + part[2] end
    if stop < at + width then return nil end
    for _, part in ipairs(layout) do
        tree:add(part[1], s(at, part[2]))
        at = at + part[2]
    end
    return at
end

-- The readers of contents show what is there, and say what is wrong with it, if anything.

-- group and sources, as many as there are octets for
local function show_flow(s, at, stop, tree)
    local first = fields(s, at, stop, tree, { { f.flow_type, 1 }, { f.family, 1 }, { f.count, 2 } })
    if not first then return unread(s, at, stop, tree, "no flow type, family and number of sources") end
    local kind, family, count = s(at, 1):uint(), s(at + 1, 1):uint(), s(at + 2, 2):uint()
    local width = ({ 4, 16 })[family]
    if not width then return unread(s, first, stop, tree, "unknown address family") end
    local group, source = f.group, f.source
    if family == 2 then group, source = f.group6, f.source6 end
    local here = first
    while here + width <= stop do
        tree:add(here == first and group or source, s(here, width))
        here = here + width
    end
    unread(s, here, stop, tree)
    if stop - first ~= width * (count + 1) then return "not the length of a group and " .. count .. " sources" end
    if not FLOW_TYPES[kind] then return "unknown flow type" end
    if (kind == 1) ~= (count == 0) then return FLOW_TYPES[kind] .. " with " .. count .. " sources" end
end

-- a prefix of n octets as an address of the family, with its length in bits
local function prefix_text(s, at, n, family, bits)
    local parts = {}
    for i = 0, family == 1 and 3 or 15 do parts[i + 1] = i < n and s(at + i, 1):uint() or 0 end
    if family == 1 then return table.concat(parts, ".") .. "/" .. bits end
    local form = string.rep("%02x%02x", 8, ":")
    return tostring(Address.ipv6(string.format(form, table.unpack(parts)))) .. "/" .. bits
end

-- one entry of a list: two prefix lengths, two prefixes. Gives where it ends, or nothing where it does not fit
local function show_entry(s, at, stop, tree, family)
    if stop < at + 2 then return nil end
    local most = family == 1 and 32 or 128
    local group, source = s(at, 1):uint(), s(at + 1, 1):uint()
    local m, n = math.floor((group + 7) / 8), math.floor((source + 7) / 8)
    local here = at + 2
    if most < group or most < source or stop < here + m + n then return nil end
    local item = tree:add(f.entry, s(at, 2 + m + n))
    fields(s, at, stop, item, { { f.group_bits, 1 }, { f.source_bits, 1 } })
    local groups, sources = prefix_text(s, here, m, family, group), prefix_text(s, here + m, n, family, source)
    item:add(f.group_prefix, s(at, 2 + m), groups)
    item:add(f.source_prefix, s(at, 2 + m + n), sources)
    item:set_text("Entry: group " .. groups .. ", source " .. sources)
    return here + m + n
end

-- operation and list, then for each address family its entries
local function show_list_action(s, at, stop, tree)
    local layout = { { f.operation, 1 }, { f.list, 1 }, { f.reserved, 2 } }
    local here = fields(s, at, stop, tree, layout)
    if not here then return unread(s, at, stop, tree, "no operation and list") end
    repeat
        local first = fields(s, here, stop, tree, { { f.list_family, 2 }, { f.list_length, 2 } })
        if not first then return unread(s, here, stop, tree, "no address family and list length") end
        local family, list_stop = s(here, 2):uint(), first + s(here + 2, 2):uint()
        if not FAMILIES[family] then return unread(s, first, stop, tree, "unknown address family") end
        if stop < list_stop then return unread(s, first, stop, tree, "the list is longer than its TLV") end
        here = first
        while here < list_stop do
            local next_at = show_entry(s, here, list_stop, tree, family)
            if not next_at then return unread(s, here, stop, tree, "an entry that does not fit") end
            here = next_at
        end
    until here == stop
end

local function show_address(s, at, stop, tree)
    local field = ({ [4] = f.address, [16] = f.address6 })[stop - at]
    if not field then return unread(s, at, stop, tree, "neither an IPv4 nor an IPv6 address") end
    tree:add(field, s(at, stop - at))
end

local function show_mac(s, at, stop, tree)
    if at < stop then tree:add(f.mac, s(at, stop - at)) end
    if stop - at ~= 6 and stop - at ~= 8 then return "neither 6 nor 8 octets" end
end

local function of_text(field)
    return function(s, at, stop, tree)
        if at < stop then tree:add(field, s(at, stop - at)) end
    end
end

local function of_fixed(layout)
    return function(s, at, stop, tree)
        local last = fields(s, at, stop, tree, layout)
        unread(s, last or at, stop, tree)
        if last ~= stop then return "the length is not that of its type" end
    end
end

local READERS = {
    [0x0001] = of_text(f.id), [0x0018] = of_text(f.name), [0x0019] = show_flow, [0x0021] = show_list_action,
    [0x0015] = of_fixed({ { f.delegated, 4 } }), [0x0016] = of_fixed({ { f.required, 4 }, { f.preferred, 4 } }),
    [0x0022] = of_fixed({ { f.sequence, 4 } }), [0x0024] = of_fixed({}), [0x0025] = of_fixed({}),
    [0x0092] = show_address, [0x0093] = show_mac,
    [0x0094] = of_fixed({ { f.buffering, 4 } }), [0x0096] = of_fixed({ { f.device, 4 } }),
}

-- The holders: TLVs that hold further TLVs, after these fields and, in a Status-Info, the error text.
local HOLDERS = {
    [0x1000] = {}, [0x0013] = {}, [0x0095] = { { f.committed, 4 } },
    [0x0011] = { { f.command, 1 }, { f.accounting, 1 }, { f.reserved, 2 } },
    [0x0106] = { { f.reserved, 1 }, { f.request, 1 }, { f.text_length, 2 } },
}

-- the padded error text, whose length stands before it
local function show_text(s, at, stop, tree)
    local n = s(at - 2, 2):uint()
    if stop < at + padded(n) then return unread(s, at, stop, tree) end
    if n > 0 then tree:add(f.text, s(at, n)) end
    if n % 4 > 0 then tree:add(f.padding, s(at + n, padded(n) - n)) end
    return at + padded(n)
end

local show_list

local function show_holder(s, at, stop, tree, kind, depth)
    local first = fields(s, at, stop, tree, HOLDERS[kind])
    if not first then
        unread(s, at, stop, tree)
    elseif kind == 0x0106 then
        first = show_text(s, first, stop, tree)
    end
    if first then return show_list(s, first, stop, tree, depth, kind == 0x0106) end
    tree:add_proto_expert_info(malformed, "too short for what stands before its TLVs")
end

-- The content of a TLV. `bare`: directly inside a Status-Info, where length 0 is a bare header.
local function show_content(s, at, stop, tree, kind, depth, bare)
    if bare and at == stop then
        tree:append_text(", bare header")
    elseif HOLDERS[kind] then
        show_holder(s, at, stop, tree, kind, depth)
    elseif READERS[kind] then
        local wrong = READERS[kind](s, at, stop, tree)
        if wrong then tree:add_proto_expert_info(contents, wrong) end
    else
        unread(s, at, stop, tree)
    end
end

-- The TLV at `at`, and where it ends; its padding lies before `stop` too.
local function show_tlv(s, at, stop, tree, depth, bare)
    if stop < at + 4 then
        tree:add(f.octets, s(at, stop - at)):add_proto_expert_info(malformed, "too short for a TLV's header")
        return stop
    end
    local kind, n = s(at, 2):uint(), s(at + 2, 2):uint()
    local last = at + 4 + padded(n)
    local item = tree:add(f.tlv, s(at, math.min(last, stop) - at))
    item:set_text(string.format("%s (0x%04X)", TLVS[kind] or "Unknown TLV", kind))
    fields(s, at, stop, item, { { f.tlv_type, 2 }, { f.tlv_length, 2 } })
    if stop < last then
        unread(s, at + 4, stop, item)
        item:add_proto_expert_info(malformed, "longer than what holds it")
        return stop
    end
    show_content(s, at + 4, at + 4 + n, item, kind, depth - 1, bare)
    if n % 4 > 0 then item:add(f.padding, s(at + 4 + n, padded(n) - n)) end
    return last
end

-- A list of TLVs, which nest at most `depth` deep.
function show_list(s, at, stop, tree, depth, bare)
    if depth == 0 and at < stop then
        tree:add(f.octets, s(at, stop - at)):add_proto_expert_info(malformed, "nested too deep")
        return
    end
    while at < stop do at = show_tlv(s, at, stop, tree, depth, bare) end
end

-- a response has Result 3 or 4
local function result_of(s) return math.floor(s(6, 2):uint() / 4096) end
local function is_response(s) return result_of(s) == 3 or result_of(s) == 4 end

-- A card refuses these with transaction 0, but not the reject notice: 144 with Result 0.
local REQUESTS = { [144] = true, [146] = true, [148] = true, [149] = true }
local function lacks_transaction(s)
    local kind = s(5, 1):uint()
    local notice = kind == 144 and result_of(s) == 0
    return REQUESTS[kind] and not notice and not is_response(s) and s(9, 3):uint() == 0
end

local function show_header(s, tree, usable)
    fields(s, 0, 16, tree, { { f.mark, 2 }, { f.length, 2 }, { f.version, 1 }, { f.kind, 1 } })
    tree:add(f.result, s(6, 2))
    tree:add(f.code, s(6, 2))
    tree:add(f.partition, s(8, 1))
    local transaction = tree:add(f.transaction, s(9, 3))
    if usable and lacks_transaction(s) then
        transaction:add_proto_expert_info(no_transaction, "transaction 0: a card refuses this with 0x2")
    end
    tree:add(f.last, s(12, 2))
    tree:add(f.submessage, s(12, 2))
    tree:add(f.again, s(14, 2))
end

local function header_problem(s)
    if s:len() < 2 or s(0, 2):uint() ~= 0x880C then return "does not begin with 0x880C" end
    if s:len() < 16 then return "shorter than a header" end
    if s(4, 1):uint() ~= 0x32 then return "the version is not 0x32" end
    if s(12, 2):uint() ~= 0x8001 then return "I flag and submessage number are not 1 and 1" end
    if s(14, 2):uint() ~= s(2, 2):uint() then return "the two lengths differ" end
end

local function title(s)
    local result, code = result_of(s), s(6, 2):uint() % 4096
    local words = { MESSAGES[s(5, 1):uint()] or "Message " .. s(5, 1):uint(), RESULTS[result] or "Result " .. result }
    if code > 0 then words[3] = CODES[code] or string.format("code 0x%03X", code) end
    words[#words + 1] = "transaction " .. s(9, 3):uint()
    return table.concat(words, ", ")
end

local told -- whether the Info column has a message of this segment

local function next_in_column(pinfo)
    if told then
        pinfo.cols.info:append(" | ")
        pinfo.cols.info:fence()
    end
    told = true
end

local function tell(pinfo, what)
    next_in_column(pinfo)
    pinfo.cols.protocol = "ANCP-MC"
    pinfo.cols.info:set(what)
end

local OURS = { [91] = true, [93] = true }
for kind = 144, 150 do OURS[kind] = true end

local tcp_ports = DissectorTable.get("tcp.port")
local ancp = tcp_ports:get_dissector(6068) -- Wireshark's own

-- A response nests at most 4 deep, a request 3.
local function show_body(s, item)
    show_list(s, 16, s:len(), item, is_response(s) and 4 or 3, false)
end

local function show_message(s, pinfo, tree)
    local n, cut, wrong = s:len(), s:len() < s:reported_len(), header_problem(s)
    if ancp and n > 5 and s(0, 2):uint() == 0x880C and not OURS[s(5, 1):uint()] then
        next_in_column(pinfo)
        return ancp:call(s, pinfo, tree)
    end
    local whole = n >= 16 and s(0, 2):uint() == 0x880C
    local item = tree:add(proto, s())
    local what = whole and title(s) or "No message"
    if cut then what = what .. ", cut by the capture" end
    tell(pinfo, what)
    item:append_text(", " .. what)
    if whole then show_header(s, item, not wrong) end
    if whole and not cut then show_body(s, item) else unread(s, whole and 16 or 0, n, item) end
    if wrong and not cut then item:add_proto_expert_info(unusable, wrong) end
    return n
end

-- A message's length stands after 0x880C. What begins otherwise is no message, and goes to the end of the segment.
local function message_length(s, pinfo, at)
    if s:len() < at + 4 or s(at, 2):uint() ~= 0x880C then return s:reported_len() - at end
    return 4 + s(at + 2, 2):uint()
end

function proto.dissector(s, pinfo, tree)
    told = false
    dissect_tcp_pdus(s, tree, 4, message_length, show_message)
    return s:len()
end

tcp_ports:add(6068, proto)
