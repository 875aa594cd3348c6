-- A Wireshark dissector for the ring's frames over UDP. docs/FRAMES.md has the layout and says how to use it.
--
-- A datagram carries frames one after another. What a frame must fulfil is the specification's, questions 10
-- to 12 in this order; a frame that doesn't is shown as malformed, with the number. Names are the Totem
-- paper's where it has one, as in the logger's lines.

local totem = Proto("totem", "Totem single-ring ordering")

local MOST_NUMBER = 2000000000 -- of ring, message and token numbers
local LENGTH_SIZE, HEADER_SIZE = 2, 10
local MESSAGE_SIZE, MOST_CONTENTS = 22, 64
local TOKEN_SIZE, REQUEST_SIZE, MOST_REQUESTS = 32, 4, 16
local MOST_FCC, MOST_BACKLOG = 128, 128

local MESSAGE, TOKEN = 1, 2
local KINDS = { [MESSAGE] = "message", [TOKEN] = "token" }
local SERVICES = { [0] = "agreed", [1] = "safe" }
local REFUSALS = { [10] = "length not exact", [11] = "kind not 1 or 2", [12] = "does not follow the layout" }

-- ---- fields

-- One number of the layout: its name, where it stands in the frame, its size, what it is; names for its
-- values where it has them, and its filter name after 'totem.' where that isn't its name.
local function number(name, at, size, about, values, filter)
    local make = size == 2 and ProtoField.uint16 or ProtoField.uint32
    local field = make("totem." .. (filter or name), name, base.DEC, values, nil, about)
    return { name = name, at = at, size = size, field = field }
end

local HEADER = {
    number("length", 0, 2, "The bytes after this field"),
    number("kind", 2, 2, "1 message, 2 token", KINDS),
    number("ring_id.seq", 4, 4, "The ring's number"),
    number("ring_id.rep", 8, 2, "The id of the ring's representative"),
}

-- 'seq' is a message's number and a token's highest number, so its filter names say which.
local BODY = {
    [MESSAGE] = {
        number("sender_id", 10, 2, "The station that originated the message"),
        number("seq", 12, 4, "The message's number", nil, "message.seq"),
        number("conf_id", 16, 4, "Always 0"),
        number("service", 20, 2, "0 agreed, 1 safe", SERVICES),
    },
    [TOKEN] = {
        number("addressee", 10, 2, "The station that is to take the token"),
        number("token_seq", 12, 4, "The token's number"),
        number("seq", 16, 4, "The highest message number that has been broadcast", nil, "token.seq"),
        number("aru", 20, 4, "All received up to this number, as far as the token knows"),
        number("aru_id", 24, 2, "The station that holds aru below seq, or 0: nobody, where they are equal"),
        number("fcc", 26, 2, "Messages broadcast during the last rotation of the token"),
        number("backlog", 28, 2, "Posts that waited at all stations when each last forwarded the token"),
        number("rtr_count", 30, 2, "The number of retransmission requests"),
    },
}

local f_frame = ProtoField.none("totem.frame", "frame")
local f_contents = ProtoField.bytes("totem.contents", "contents", base.SPACE, "The message's contents")
local f_rtr = ProtoField.uint32("totem.rtr", "rtr", base.DEC, nil, nil, "A message number that is asked for again")
local f_rest = ProtoField.bytes("totem.rest", "rest", base.SPACE, "Bytes of the frame that belong to no field")
local f_refusal = ProtoField.uint8("totem.refusal", "refusal", base.DEC, REFUSALS, nil,
                                   "The question of the specification that is answered 'no'")

local fields = { f_frame, f_contents, f_rtr, f_rest, f_refusal }
for _, numbers in ipairs({ HEADER, BODY[MESSAGE], BODY[TOKEN] }) do
    for _, n in ipairs(numbers) do
        table.insert(fields, n.field)
    end
end
totem.fields = fields

local e_refused = ProtoExpert.new("totem.malformed", "refused", expert.group.MALFORMED, expert.severity.ERROR)
local e_cut = ProtoExpert.new("totem.cut", "not captured whole", expert.group.UNDECODED, expert.severity.WARN)
totem.experts = { e_refused, e_cut }

-- ---- reading

local function in_range(n)
    return 1 <= n and n <= MOST_NUMBER
end

-- What is wrong with a list of requests, or nil.
local function requests_fault(v)
    local seen = {}
    for _, n in ipairs(v.rtr) do
        if n < 1 or n > v.seq then return "a request in rtr is not 1 to seq" end
        if seen[n] then return "a request in rtr stands twice" end
        seen[n] = true
    end
end

-- Question 12 of each kind: what doesn't follow the layout, or nil.
local FAULT = {
    [MESSAGE] = function(v)
        if v.size < MESSAGE_SIZE then return "a message has at least 22 bytes" end
        if v.size > MESSAGE_SIZE + MOST_CONTENTS then return "contents has over 64 bytes" end
        if v.sender_id == 0 then return "sender_id is 0" end
        if not in_range(v.seq) then return "seq is not 1 to 2,000,000,000" end
        if v.conf_id ~= 0 then return "conf_id is not 0" end
        if not SERVICES[v.service] then return "service is not 0 or 1" end
    end,
    [TOKEN] = function(v)
        if v.size < TOKEN_SIZE then return "a token has at least 32 bytes" end
        if v.rtr_count > MOST_REQUESTS then return "rtr has over 16 requests" end
        if v.size ~= TOKEN_SIZE + REQUEST_SIZE * v.rtr_count then return "rtr_count doesn't fit the size" end
        if v.addressee == 0 then return "addressee is 0" end
        if not in_range(v.token_seq) then return "token_seq is not 1 to 2,000,000,000" end
        if v.seq > MOST_NUMBER then return "seq is not 0 to 2,000,000,000" end
        if v.aru > v.seq then return "aru is above seq" end
        if v.aru == v.seq and v.aru_id ~= 0 then return "aru_id is not nobody, but aru equals seq" end
        if v.aru < v.seq and v.aru_id == 0 then return "aru_id is nobody, but aru is below seq" end
        if v.fcc > MOST_FCC then return "fcc is over 128" end
        if v.backlog > MOST_BACKLOG then return "backlog is over 128" end
        return requests_fault(v)
    end,
}

-- The number of the first question that is answered 'no', and why; nil of a frame that reads.
local function refusal(v)
    if v.size < HEADER_SIZE then return 10, "a frame has at least 10 bytes" end
    if v.length ~= v.size - LENGTH_SIZE then return 10, "not as many bytes follow as length says" end
    if not KINDS[v.kind] then return 11, "kind is " .. v.kind end
    local why = not in_range(v["ring_id.seq"]) and "ring_id.seq is not 1 to 2,000,000,000"
        or v["ring_id.rep"] == 0 and "ring_id.rep is 0"
        or FAULT[v.kind](v)
    if why then return 12, why end
end

-- A frame's numbers by name, as far as it has the bytes for them, its requests, and its refusal.
local function read(bytes)
    local v = { bytes = bytes, size = bytes:len(), rtr = {} }
    local function take(numbers)
        for _, n in ipairs(numbers) do
            if n.at + n.size <= v.size then
                v[n.name] = bytes(n.at, n.size):le_uint()
            end
        end
    end
    take(HEADER)
    take(BODY[v.kind] or {})
    local room = math.floor((v.size - TOKEN_SIZE) / REQUEST_SIZE)
    for place = 1, math.min(room, v.rtr_count or 0) do
        v.rtr[place] = bytes(TOKEN_SIZE + REQUEST_SIZE * (place - 1), REQUEST_SIZE):le_uint()
    end
    v.refusal, v.why = refusal(v)
    return v
end

-- The frames of a datagram, in order, and whether the capture left out the end of it. Where the rest of a
-- datagram doesn't hold the frame that its length announces, the whole rest is one frame.
local function split(tvb)
    local frames, at = {}, 0
    while at < tvb:reported_len() do
        local size = tvb:reported_len() - at
        if size >= LENGTH_SIZE and at + LENGTH_SIZE <= tvb:captured_len() then
            size = math.min(size, LENGTH_SIZE + tvb(at, LENGTH_SIZE):le_uint())
        end
        if at + size > tvb:captured_len() then
            return frames, true
        end
        table.insert(frames, read(tvb(at, size)))
        at = at + size
    end
    return frames, false
end

-- ---- text

local function contents(v)
    return v.size > MESSAGE_SIZE and v.bytes(MESSAGE_SIZE):raw() or ""
end

-- Contents as the logger prints them.
local function quoted(text)
    return '"' .. text:gsub(".", function(c)
        if c:byte() < 32 or c:byte() > 126 or c == '"' or c == "\\" then
            return ("\\x%02x"):format(c:byte())
        end
    end) .. '"'
end

local function summary(v)
    if v.refusal then
        return ("malformed (%d)"):format(v.refusal)
    elseif v.kind == MESSAGE then
        return ("message seq=%d from %d %s %s"):format(v.seq, v.sender_id, SERVICES[v.service],
                                                       quoted(contents(v)))
    end
    return ("token token_seq=%d to %d seq=%d aru=%d aru_id=%s fcc=%d backlog=%d rtr=[%s]"):format(
        v.token_seq, v.addressee, v.seq, v.aru, v.aru_id == 0 and "nobody" or v.aru_id, v.fcc, v.backlog,
        table.concat(v.rtr, ","))
end

-- The datagram's line in the column Info. Messages of one sender whose numbers follow each other are drawn
-- together.
local function info(frames)
    local parts, run = {}, nil
    for _, v in ipairs(frames) do
        local message = v.kind == MESSAGE and not v.refusal
        if message and run and run.sender_id == v.sender_id and run.last + 1 == v.seq then
            run.last = v.seq
            parts[#parts] = ("messages seq=%d..%d from %d"):format(run.first, run.last, run.sender_id)
        else
            table.insert(parts, summary(v))
            run = message and { sender_id = v.sender_id, first = v.seq, last = v.seq }
        end
    end
    return table.concat(parts, "; ")
end

-- ---- the tree

-- Adds the numbers that the frame has, and returns where they end.
local function add_numbers(branch, v, numbers, to)
    for _, n in ipairs(numbers) do
        if v[n.name] then
            local item = branch:add_le(n.field, v.bytes(n.at, n.size))
            if n.name == "aru_id" and v.aru_id == 0 then item:append_text(" (nobody)") end
            to = n.at + n.size
        end
    end
    return to
end

local function add_contents(branch, v)
    if v.size > MESSAGE_SIZE then
        branch:add(f_contents, v.bytes(MESSAGE_SIZE)):append_text(" " .. quoted(contents(v)))
    else -- a range may be empty, but not at the end
        branch:add(f_contents, v.bytes(0, 0)):set_text('contents: ""')
    end
end

-- Shows every field that the frame has the bytes for, whether it reads or not.
local function add_frame(tree, v)
    local branch = tree:add(f_frame, v.bytes):set_text(summary(v))
    local to = add_numbers(branch, v, HEADER, 0)
    to = add_numbers(branch, v, BODY[v.kind] or {}, to)
    if v.kind == MESSAGE and v.size >= MESSAGE_SIZE then
        add_contents(branch, v)
        to = v.size
    end
    for _ = 1, #v.rtr do
        branch:add_le(f_rtr, v.bytes(to, REQUEST_SIZE))
        to = to + REQUEST_SIZE
    end
    if to < v.size then branch:add(f_rest, v.bytes(to)) end
    if v.refusal then
        branch:append_text(": " .. v.why)
        branch:add(f_refusal, v.bytes, v.refusal):set_generated()
        branch:add_proto_expert_info(e_refused,
                                     ("refusal %d (%s): %s"):format(v.refusal, REFUSALS[v.refusal], v.why))
    end
end

function totem.dissector(tvb, pinfo, tree)
    local frames, cut = split(tvb)
    local line = info(frames)
    local root = tree:add(totem, tvb())
    for _, v in ipairs(frames) do
        add_frame(root, v)
    end
    if cut then
        root:add_proto_expert_info(e_cut, "the capture left out the end of this datagram")
        line = line .. (line == "" and "" or "; ") .. "not captured whole"
    end
    pinfo.cols.protocol = "Totem"
    pinfo.cols.info = line
end

-- ---- which datagrams

-- A datagram made of nothing but frames that read is taken for the ring's, and so is all else between the
-- same two ports from then on, whatever its bytes.
local function recognised(tvb, pinfo, tree)
    local frames, cut = split(tvb)
    if #frames == 0 or cut then return false end
    for _, v in ipairs(frames) do
        if v.refusal then return false end
    end
    totem.dissector(tvb, pinfo, tree)
    pinfo.conversation = totem
    return true
end

local udp = DissectorTable.get("udp.port")
local ports = ""

totem.prefs.ports = Pref.range("UDP ports", ports, "Everything to or from these ports is the ring's", 65535)

function totem.prefs_changed()
    if ports ~= "" then udp:remove(ports, totem) end
    ports = totem.prefs.ports
    if ports ~= "" then udp:add(ports, totem) end
end

udp:add_for_decode_as(totem)
totem:register_heuristic("udp", recognised)
