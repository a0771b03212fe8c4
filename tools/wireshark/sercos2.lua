-- Dissects the telegrams of a SERCOS drive ring (IEC 61491:1995, with the bits as in docs/PROTOCOL.md) for Wireshark and tshark.
--
--     tshark -X lua_script:tools/wireshark/sercos2.lua -r RING.pcapng -Y 'sercos2.idn == "S-0-0127"'
--
-- Wireshark takes the same option, or loads the file from its folder of personal Lua plugins.
--
-- It reads the packets of tools/run-pcap. docs/FORMATS.md, section 'Packets', has their header and the fields that filters
-- use; docs/PROTOCOL.md has the telegrams and the service channel. Where the data records are in the joint MDT is learnt
-- from what the master writes in phase 2. The words on steps and answers are those of tools/channel.
--
-- On the first pass the packets come in their order, and each adds to what is known of the ring. What follows for a packet is
-- noted under its number then. Later passes, in any order, use this note and the packet alone.

local sercos2 = Proto("sercos2", "SERCOS interface (IEC 61491:1995)")

local HEADER, VERSION = 16, 1
local MST, MDT, AT = 1, 2, 3
local ALL = 255
local ADDRESS_FIELD, MST_BYTES, SINGLE_BYTES = 1, 2, 5
local DATA_STATUS, NAME, ATTRIBUTE, UNIT, DATA = 1, 2, 3, 4, 7
local STEP_LIMIT = 64

local KINDS = { [MST] = "MST", [MDT] = "MDT", [AT] = "AT" }
local ELEMENTS = {
    [0] = "no element", "data status", "name", "attribute", "unit", "minimum", "maximum", "operation data",
}
local COMMAND_STATES = { [0] = "not set", [3] = "ended well", [7] = "runs", [15] = "ended with an error" }
local ERRORS = {
    [0x0001] = "no identifier number is open",
    [0x1001] = "there is no such identifier number",
    [0x2001] = "there is no name",
    [0x4001] = "there is no unit",
    [0x5001] = "there is no minimum",
    [0x6001] = "there is no maximum",
    [0x2004] = "the name can't be changed",
    [0x3004] = "the attribute can't be changed",
    [0x4004] = "the unit can't be changed",
    [0x5004] = "the minimum can't be changed",
    [0x6004] = "the maximum can't be changed",
    [0x7002] = "the operation data is too short",
    [0x7003] = "the operation data is too long",
    [0x7004] = "the operation data can't be changed",
    [0x7005] = "the operation data is write protected at this time",
    [0x7006] = "the operation data is below its minimum",
    [0x7007] = "the operation data is above its maximum",
    [0x7008] = "the operation data is invalid",
}
-- The titles that this project gives to the standard's numbers. Those of the blocks that every drive has are in docs/PROTOCOL.md.
local TITLES = {
    ["S-0-0001"] = "control unit cycle time",
    ["S-0-0002"] = "SERCOS cycle time",
    ["S-0-0003"] = "shortest AT starting time (T1min)",
    ["S-0-0004"] = "transmit/receive transition time (TATMT)",
    ["S-0-0005"] = "minimum feedback processing time (T4min)",
    ["S-0-0006"] = "AT starting time (T1)",
    ["S-0-0007"] = "feedback capture point (T4)",
    ["S-0-0008"] = "command valid time (T3)",
    ["S-0-0009"] = "position of the data record in the MDT",
    ["S-0-0010"] = "length of the MDT",
    ["S-0-0015"] = "telegram type",
    ["S-0-0016"] = "configuration list of the AT",
    ["S-0-0021"] = "invalid operation data for phase 2",
    ["S-0-0022"] = "invalid operation data for phase 3",
    ["S-0-0024"] = "configuration list of the MDT",
    ["S-0-0047"] = "position command value",
    ["S-0-0051"] = "position feedback value",
    ["S-0-0087"] = "transmit to transmit recovery time (TATAT)",
    ["S-0-0088"] = "receive to receive recovery time (TMTSY)",
    ["S-0-0089"] = "MDT starting time (T2)",
    ["S-0-0090"] = "command processing time (TMTSG)",
    ["S-0-0104"] = "position loop Kv-factor",
    ["S-0-0127"] = "phase 3 transition check",
    ["S-0-0128"] = "phase 4 transition check",
    ["S-0-0192"] = "list of backup operation data",
}

local fields = {
    version = ProtoField.uint8("sercos2.version", "Version of the header"),
    kind = ProtoField.uint8("sercos2.kind", "Kind", base.DEC, KINDS),
    rate = ProtoField.uint8("sercos2.rate", "Rate in bits per microsecond"),
    cycle = ProtoField.uint32("sercos2.cycle", "Cycle"),
    start = ProtoField.int32("sercos2.start", "Start in bit times after the end of the MST"),
    bits = ProtoField.uint32("sercos2.bits", "Length in bits"),
    start_us = ProtoField.double("sercos2.start_us", "Start in microseconds"),
    address = ProtoField.uint8("sercos2.address", "Address"),
    phase = ProtoField.uint8("sercos2.phase", "Phase"),
    record = ProtoField.bytes("sercos2.record", "Data record"),
    drive = ProtoField.uint8("sercos2.drive", "Drive"),
    control = ProtoField.uint16("sercos2.control", "Control word", base.HEX),
    mhs = ProtoField.bool("sercos2.control.mhs", "MHS, the master's handshake bit", 16, nil, 0x0001),
    write = ProtoField.bool("sercos2.control.write", "Write", 16, nil, 0x0002),
    last = ProtoField.bool("sercos2.control.last", "Last word of the element", 16, nil, 0x0004),
    element = ProtoField.uint16("sercos2.control.element", "Element", base.DEC, ELEMENTS, 0x0038),
    control_cyclic = ProtoField.uint16("sercos2.control.cyclic", "Cyclic bits", base.HEX),
    status = ProtoField.uint16("sercos2.status", "Status word", base.HEX),
    ahs = ProtoField.bool("sercos2.status.ahs", "AHS, the drive's handshake bit", 16, nil, 0x0001),
    busy = ProtoField.bool("sercos2.status.busy", "Busy", 16, nil, 0x0002),
    error = ProtoField.bool("sercos2.status.error", "Error", 16, nil, 0x0004),
    change = ProtoField.bool("sercos2.status.change", "Change of a command", 16, nil, 0x0020),
    status_cyclic = ProtoField.uint16("sercos2.status.cyclic", "Cyclic bits", base.HEX),
    info = ProtoField.uint16("sercos2.info", "Information word", base.HEX),
    code = ProtoField.uint16("sercos2.code", "Code", base.HEX, ERRORS),
    values = ProtoField.bytes("sercos2.values", "Cyclic values"),
    value = ProtoField.bytes("sercos2.value", "Value"),
    value_idn = ProtoField.string("sercos2.value.idn", "IDN of the value"),
    value_number = ProtoField.int64("sercos2.value.number", "Number"),
    step = ProtoField.string("sercos2.step", "Step"),
    answer = ProtoField.string("sercos2.answer", "Answer"),
    idn = ProtoField.string("sercos2.idn", "IDN"),
    title = ProtoField.string("sercos2.title", "Title"),
    transfer = ProtoField.string("sercos2.transfer", "Transfer"),
    transfer_data = ProtoField.bytes("sercos2.transfer.data", "Data"),
    first = ProtoField.framenum("sercos2.transfer.first", "First step"),
    end_frame = ProtoField.framenum("sercos2.transfer.end", "Ends in"),
}
sercos2.fields = fields

local experts = {
    fall = ProtoExpert.new("sercos2.fall", "The ring falls", expert.group.SEQUENCE, expert.severity.ERROR),
    broken = ProtoExpert.new("sercos2.broken", "A transfer is broken", expert.group.SEQUENCE, expert.severity.NOTE),
    phase_order = ProtoExpert.new("sercos2.phase_order", "Not the next phase", expert.group.SEQUENCE, expert.severity.WARN),
    refused = ProtoExpert.new("sercos2.refused", "A request is refused", expert.group.RESPONSE_CODE, expert.severity.WARN),
    busy_limit = ProtoExpert.new("sercos2.busy_limit", "Busy above the limit", expert.group.SEQUENCE, expert.severity.WARN),
    command = ProtoExpert.new("sercos2.command_failed", "A procedure command ended with an error",
        expert.group.RESPONSE_CODE, expert.severity.WARN),
    layout = ProtoExpert.new("sercos2.layout", "Not the layout of a telegram", expert.group.MALFORMED, expert.severity.ERROR),
    unlearnt = ProtoExpert.new("sercos2.unlearnt", "Where the data records are isn't known",
        expert.group.UNDECODED, expert.severity.NOTE),
}
sercos2.experts = experts

sercos2.prefs.busy_limit = Pref.uint("Busy limit in cycles", 20,
    "For how many cycles a drive may be busy with a step before this is reported")
sercos2.prefs.records = Pref.string("Data records", "",
    "Where the data records are in a capture without phase 2, as ADDRESS:POSITION, divided by spaces: 1:1 2:9")

-- What is known of the ring on the first pass, and the note of each packet by its number.
local ring, notes

local function idn_text(word)
    local set = math.floor(word / 4096)
    return string.format("%s-%d-%04d", set > 7 and "P" or "S", set % 8, word % 4096)
end

-- The two bytes of a word of a text, without the zero that fills up a last odd byte.
local function text_of(word)
    local text = string.char(word % 256, math.floor(word / 256)):gsub("%z+$", "")
    return (text:gsub("[^ -~]", function(byte) return string.format("\\x%02x", byte:byte()) end))
end

-- A data status, with the state of a procedure command.
local function state_text(word)
    return string.format("%d", word) .. (COMMAND_STATES[word] and ": " .. COMMAND_STATES[word] or "")
end

-- The number of a list of bytes, the low byte first.
local function number_of(bytes, is_signed)
    local number = 0
    for place = #bytes, 1, -1 do
        number = number * 256 + bytes[place]
    end
    local range = 2 ^ (8 * #bytes)
    number = is_signed and number >= range / 2 and number - range or number
    return math.floor(number)
end

local function hex_of(bytes)
    local digits = {}
    for place, byte in ipairs(bytes) do
        digits[place] = string.format("%02x", byte)
    end
    return table.concat(digits)
end

local function words_of(bytes)
    local words = {}
    for place = 1, #bytes - 1, 2 do
        words[#words + 1] = bytes[place] + 256 * bytes[place + 1]
    end
    return words
end

-- An attribute: the length of the operation data as its code has it, and how it is displayed.
local function attribute_of(word)
    local high = math.floor(word / 65536)
    return { length = high % 8, display = math.floor(high / 16) % 8 }
end

local SIGNED, HEXADECIMAL, TEXT, IDNS = 2, 3, 4, 5

----------------------------------------------------------------------------------------------------------------------------
-- A transfer: which block is open, and which word of which element comes next. A run is the steps of one element.

local Transfer = {}
Transfer.__index = Transfer

function Transfer:end_run()
    self.run, self.place, self.words = nil, 0, {}
end

function Transfer:restart(open)
    self.open, self.attribute = open, {}
    self:end_run()
    return self
end

-- The length and the display form of the open block, from the high word of its attribute; nil if it hasn't been read.
function Transfer:form()
    return self.attribute[1] and attribute_of(self.attribute[1] * 65536)
end

function Transfer:is_list(element)
    local form = self:form()
    return element == NAME or element == UNIT
        or element == DATA and form ~= nil and form.length >= 4 and form.length <= 6
end

function Transfer:has_two_words()
    local form = self:form()
    return form ~= nil and form.length == 2
end

function Transfer:is_command(step)
    return step.element == DATA and step.last and self.place == 0 and next(self.attribute) == nil
        and (step.word == 3 or step.word == 0)
end

function Transfer:word_name(step)
    local name, place = ELEMENTS[step.element], self.place
    if step.element == DATA_STATUS then
        return name
    elseif self:is_list(step.element) then
        local first = 2 * (place - 2)
        return name .. (place == 0 and ", length" or place == 1 and ", greatest length"
            or string.format(", bytes %d and %d", first, first + 1))
    elseif step.element == ATTRIBUTE or self:has_two_words() then
        return name .. (place == 0 and ", low word" or place == 1 and ", high word" or ", word " .. place)
    end
    return (place == 0 and step.last) and name or name .. ", word " .. place
end

function Transfer:item_text(element, word)
    local form = self:form()
    if self.place < 2 then
        return word .. " bytes"
    elseif element == NAME or element == UNIT or form.display == TEXT then
        return "'" .. text_of(word) .. "'"
    end
    return form.display == IDNS and form.length == 5 and idn_text(word) or string.format("0x%04x", word)
end

-- The name of a step's word, and the word. The word is kept.
function Transfer:word_text(step, word)
    self.words[self.place] = word
    local name = self:word_name(step)
    if step.element == DATA_STATUS then
        return name .. " " .. state_text(word)
    elseif self:is_list(step.element) then
        return name .. " " .. self:item_text(step.element, word)
    end
    local text = string.format("%s 0x%04x", name, word)
    if self:has_two_words() and self.place == 1 and self.words[0] and step.element ~= ATTRIBUTE then
        text = text .. string.format(" (number %d)", number_of(self:bytes(step.element), self:form().display == SIGNED))
    end
    return text
end

-- The bytes of the words so far; of a list without its two lengths, and up to its length.
function Transfer:bytes(element)
    local is_list, bytes = self:is_list(element), {}
    for place = is_list and 2 or 0, self.place do
        local word = self.words[place] or 0
        bytes[#bytes + 1], bytes[#bytes + 2] = word % 256, math.floor(word / 256)
    end
    while is_list and #bytes > (self.words[0] or 0) do
        table.remove(bytes)
    end
    return bytes
end

-- Notes a new step, and returns its words.
function Transfer:begin_step(step, number)
    if step.write and step.element == DATA_STATUS then
        self:restart(idn_text(step.word))
        return "open " .. self.open
    elseif step.element == 0 then
        self:restart(nil)
        return "close"
    end
    if self.run and self.run.write == step.write and self.run.element == step.element then
        self.place = self.place + 1
    else
        self:end_run()
        self.run = { write = step.write, element = step.element, idn = self.open, first = number }
    end
    if not step.write then
        return "read " .. self:word_name(step) .. (step.last and ", last" or "")
    elseif self:is_command(step) then
        self.words[0] = step.word
        self.run.command = step.word == 3 and "set" or "cancel"
        return self.run.command .. " the procedure command"
    end
    return "write " .. self:word_text(step, step.word) .. (step.last and ", last" or "")
end

-- The value of an element as a text.
function Transfer:value_text(element, bytes)
    local form = self:form()
    if element == NAME or element == UNIT or element == DATA and form and form.length == 4 and form.display == TEXT then
        local text = {}
        for place, byte in ipairs(bytes) do
            text[place] = text_of(byte)
        end
        return "'" .. table.concat(text) .. "'"
    elseif element == DATA_STATUS and #bytes == 2 then
        return state_text(number_of(bytes))
    elseif element == ATTRIBUTE and #bytes <= 4 then
        return string.format("0x%08x", number_of(bytes))
    elseif form and form.length == 5 and form.display == IDNS then
        local idns = {}
        for place, word in ipairs(words_of(bytes)) do
            idns[place] = idn_text(word)
        end
        return #idns > 0 and table.concat(idns, " ") or "-"
    elseif form and #bytes <= 4 and form.length <= 2 and form.display ~= HEXADECIMAL then
        return string.format("%d", number_of(bytes, form.display == SIGNED))
    end
    return #bytes > 0 and hex_of(bytes) or "-"
end

-- The run that ends with the answer to its last word: what it transferred.
function Transfer:ended_run(number)
    local run = self.run
    run.bytes, run.last = self:bytes(run.element), number
    if run.command then
        run.text = run.command .. " the procedure command"
    else
        local value = self:value_text(run.element, run.bytes)
        run.text = (run.write and "write " or "read ") .. ELEMENTS[run.element] .. ": " .. value
    end
    return run
end

----------------------------------------------------------------------------------------------------------------------------
-- The service channel of one drive, as the telegrams show it.

local Channel = {}
Channel.__index = Channel

function Channel.new()
    return setmetatable({ transfer = setmetatable({}, Transfer):restart(nil) }, Channel)
end

-- Whether the fields of a record or a status are those of one that was kept.
local function is_same(fields_now, kept)
    for name, value in pairs(fields_now) do
        if not kept or kept[name] ~= value then
            return false
        end
    end
    return true
end

-- Notes a record. Returns the words of its step, with the open number and the run of the step; nil if it has no step.
function Channel:note_record(record, number, cycle)
    local step, text = self.step, nil
    self.sent = cycle
    if record.mhs ~= (step and step.mhs or false) then
        record.cycle = cycle
        self.step, self.answered = record, false
        self.step_text = self.transfer:begin_step(record, number)
        text = self.step_text
    elseif is_same(record, step) then
        text = self.step_text .. (self.answered and ", again: its answer didn't arrive" or ", again")
    elseif record.write or record.last or record.element ~= 0 or record.word ~= 0 then
        text = "another step with the same MHS, which the drive drops"
    else
        self.sent = nil
        return nil
    end
    return { step = text, idn = self.transfer.open, run = self.transfer.run }
end

-- Notes an AT. Returns the words of its answer, with the open number and the run; nil if the answer is as before. Appends to
-- the reports.
function Channel:note_answer(status, number, cycle, reports)
    local is_new = not is_same(status, self.status)
    local step, change = self.step, status.change and ", a command has ended" or ""
    self.status = status
    if not step then
        return nil
    end
    local note = { idn = self.transfer.open, run = self.transfer.run }
    if status.ahs ~= step.mhs then
        note.answer = "the step isn't accepted" .. change
    elseif status.busy then
        note.answer = "busy" .. change
        self:report_busy(cycle, reports)
    elseif not self.answered then
        self.answered = true
        self:note_first_answer(note, status, number, reports)
        note.answer = self.answer_text .. change
    elseif is_new then
        note.answer = self.answer_text .. change
    else
        return nil
    end
    return note
end

-- The drive accepted the step in the cycle before its first AT with the step's handshake bit.
function Channel:report_busy(cycle, reports)
    local step = self.step
    step.accepted = step.accepted or math.max(step.cycle, cycle - 1)
    local cycles = cycle - step.accepted
    if cycles > sercos2.prefs.busy_limit then
        table.insert(reports, { experts.busy_limit,
            string.format("busy for %d cycles, above the limit of %d", cycles, sercos2.prefs.busy_limit) })
    end
end

function Channel:note_first_answer(note, status, number, reports)
    local transfer, step = self.transfer, self.step
    if status.error then
        local text = ERRORS[status.word] or "unknown"
        self.answer_text = string.format("error 0x%04x: %s", status.word, text)
        note.code = status.word
        table.insert(reports, { experts.refused, string.format("%s of %s is refused with 0x%04x: %s",
            self.step_text:gsub(", last$", ""), tostring(transfer.open or "no number"), status.word, text) })
        transfer:end_run()
        return
    elseif step.write or step.element == 0 then
        self.answer_text = step.write and step.element == DATA_STATUS and "opened" or "accepted"
    else
        self.answer_text = transfer:word_text(step, status.word)
        if step.element == ATTRIBUTE then
            transfer.attribute[transfer.place] = status.word
        end
    end
    if step.last and transfer.run then
        note.ended = transfer:ended_run(number)
        if step.element == DATA_STATUS and status.word == 15 then
            table.insert(reports, { experts.command, "the procedure command ended with an error" })
        end
    end
    if step.last then
        transfer:end_run()
    end
end

----------------------------------------------------------------------------------------------------------------------------
-- What is learnt of the ring.

local function channel_of(address)
    ring.channels[address] = ring.channels[address] or Channel.new()
    return ring.channels[address]
end

-- Keeps what a transfer read or wrote of a drive's block.
local function keep(address, run)
    if not run.idn or run.command then
        return
    end
    ring.blocks[address] = ring.blocks[address] or {}
    local blocks = ring.blocks[address]
    blocks[run.idn] = blocks[run.idn] or {}
    blocks[run.idn][run.element] = run.bytes
end

-- The values that a list of a drive names: identifier number, number of bytes and display form of each, as far as known.
local function values_of(blocks, list)
    local values = {}
    for _, word in ipairs(words_of(blocks[list] and blocks[list][DATA] or {})) do
        local idn = idn_text(word)
        local form = attribute_of(number_of(blocks[idn] and blocks[idn][ATTRIBUTE] or {}))
        if form.length ~= 1 and form.length ~= 2 then
            break
        end
        values[#values + 1] = { idn = idn, length = 2 * form.length, is_signed = form.display == SIGNED }
    end
    return values
end

local function learnt_records()
    local records = {}
    for address, blocks in pairs(ring.blocks) do
        local position = blocks["S-0-0009"] and blocks["S-0-0009"][DATA]
        if position then
            local values = values_of(blocks, "S-0-0024")
            records[#records + 1] = { address = address, position = number_of(position), values = values }
        end
    end
    return records
end

-- The records of the joint MDT by position, as learnt or as the preference has them; false if neither is there.
local function records_of_ring()
    local records = learnt_records()
    if #records == 0 then
        for address, position in sercos2.prefs.records:gmatch("(%d+):(%d+)") do
            records[#records + 1] = { address = tonumber(address), position = tonumber(position), values = {} }
        end
    end
    table.sort(records, function(one, other) return one.position < other.position end)
    for place, record in ipairs(records) do
        record.length = 4
        for _, value in ipairs(record.values) do
            record.length = record.length + value.length
        end
        -- Without a list the record goes on to the next one.
        if #record.values == 0 then
            record.length = records[place + 1] and records[place + 1].position - record.position
        end
    end
    return #records > 0 and records
end

local function learn_configuration()
    ring.records, ring.feedback, ring.idle = records_of_ring(), {}, {}
    for address, blocks in pairs(ring.blocks) do
        ring.feedback[address] = values_of(blocks, "S-0-0016")
    end
end

-- What the telegrams show before a fall. The reason may be another one, such as the master's own MST, whose loss no telegram shows.
local function seen_before_fall(cycle)
    local causes = {}
    for address, channel in pairs(ring.channels) do
        local last = ring.answered[address]
        if ring.phase > 2 and last and last < cycle - 2 then
            causes[#causes + 1] = string.format("no AT of drive %d in the last two cycles", address)
        elseif channel.step and not channel.answered and cycle - channel.step.cycle > STEP_LIMIT then
            causes[#causes + 1] = string.format("no answer of drive %d in %d cycles", address, STEP_LIMIT)
        end
    end
    table.sort(causes)
    return #causes > 0 and "; seen before it: " .. table.concat(causes, ", ") or ""
end

local function note_fall(note, cycle)
    table.insert(note.experts, { experts.fall,
        string.format("the ring falls from phase %d to phase 0", ring.phase) .. seen_before_fall(cycle) })
    local broken = {}
    for address, channel in pairs(ring.channels) do
        if channel.sent == cycle - 1 and channel.transfer.open then
            broken[#broken + 1] = string.format("the transfer of %s with drive %d is broken", channel.transfer.open, address)
        end
    end
    table.sort(broken)
    for _, text in ipairs(broken) do
        table.insert(note.experts, { experts.broken, text })
    end
end

-- The phase that an MST commands; nil if the bytes aren't an MST. The first byte of the string is the address.
local function phase_of(content)
    local address, phase = content:byte(1, 2)
    return #content == MST_BYTES and address == ALL and phase <= 4 and phase or nil
end

local function learn_mst(note, content, _, cycle)
    local phase, before = phase_of(content), ring.phase
    if not phase then
        return
    elseif phase == 0 and before and before > 0 then
        note_fall(note, cycle)
    elseif before and phase ~= before and phase ~= before + 1 then
        table.insert(note.experts, { experts.phase_order, string.format("phase %d after phase %d", phase, before) })
    end
    if phase == 0 then
        ring.channels, ring.answered = {}, {}
    elseif phase > 2 and (before or 0) < 3 then
        learn_configuration()
    end
    if phase ~= before then
        ring.phase, ring.idle = phase, {}
    end
end

local function record_of(content, position)
    local control, _, low, high = content:byte(position + 1, position + 4)
    return {
        mhs = control % 2 == 1, write = control % 4 > 1, last = control % 8 > 3, element = math.floor(control / 8) % 8,
        word = low + 256 * high,
    }
end

local function status_of(content)
    local status, _, low, high = content:byte(2, SINGLE_BYTES)
    return {
        ahs = status % 2 == 1, busy = status % 4 > 1, error = status % 8 > 3, change = status % 64 > 31,
        word = low + 256 * high,
    }
end

local function learn_record(note, address, content, position, number, cycle)
    if ring.phase == 1 then
        note.drives[address] = { step = "identification" }
    else
        note.drives[address] = channel_of(address):note_record(record_of(content, position), number, cycle)
    end
end

local function learn_mdt(note, content, number, cycle)
    local address = content:byte()
    if #content < SINGLE_BYTES then
        return
    elseif address ~= ALL then
        learn_record(note, address, content, ADDRESS_FIELD, number, cycle)
        return
    end
    if ring.records == nil then
        learn_configuration()
    end
    note.records = ring.records
    for _, record in ipairs(ring.records or {}) do
        if record.position > 0 and record.position + 4 <= #content then
            learn_record(note, record.address, content, record.position, number, cycle)
        end
    end
end

local function learn_at(note, content, number, cycle)
    if #content < SINGLE_BYTES then
        return
    end
    local address = content:byte()
    ring.answered[address] = cycle
    note.feedback = ring.feedback[address]
    if ring.phase == 1 then
        note.drives[address] = { answer = "answer to the identification" }
        return
    end
    local said = channel_of(address):note_answer(status_of(content), number, cycle, note.experts)
    if said and said.ended then
        keep(address, said.ended)
    end
    note.drives[address] = said
end

local LEARNERS = { [MST] = learn_mst, [MDT] = learn_mdt, [AT] = learn_at }

-- The note of a packet, after those before it. Idle telegrams of a phase, which are the most by far, share one.
local function learn(kind, cycle, content, number)
    local note = { experts = {}, drives = {} }
    if content ~= "" then
        LEARNERS[kind](note, content, number, cycle)
    end
    note.phase = ring.phase
    if #note.experts > 0 or next(note.drives) then
        return note
    end
    local key = kind == AT and content:byte() or -kind
    ring.idle[key] = ring.idle[key] or note
    return ring.idle[key]
end

----------------------------------------------------------------------------------------------------------------------------
-- The tree of a packet. It is made of the packet and its note alone.

-- The fields that are added together. In a tree that isn't shown a group is left out if no filter or column needs one of its
-- fields: a joint MDT has up to 64 records, and each costs time.
local GROUPS = {
    header = { fields.version, fields.kind, fields.rate, fields.cycle, fields.start, fields.bits, fields.start_us },
    words = { fields.record, fields.drive, fields.info, fields.control, fields.mhs, fields.write, fields.last, fields.element,
        fields.control_cyclic, fields.status, fields.ahs, fields.busy, fields.error, fields.change, fields.status_cyclic },
    values = { fields.values, fields.value, fields.value_idn, fields.value_number },
    channel = { fields.step, fields.answer, fields.idn, fields.title, fields.code, fields.transfer, fields.transfer_data,
        fields.first, fields.end_frame },
}
local CONTROL = { fields.mhs, fields.write, fields.last, fields.element }
local STATUS = { fields.ahs, fields.busy, fields.error, fields.change }

local function is_wanted(root, group)
    local found = root.visible
    for place = 1, found and 0 or #group do
        found = found or root:referenced(group[place])
    end
    return found
end

local function add_generated(tree, field, range, value)
    return tree:add(field, range, value):set_generated()
end

local function name_of(idn)
    return TITLES[idn] and idn .. " " .. TITLES[idn] or idn
end

-- A word, its bits, and the cyclic ones of them at their places, as `show` has them.
local function add_word(tree, field, bits, cyclic_field, cyclic, range)
    local item = tree:add_le(field, range)
    for _, bit in ipairs(bits) do
        item:add_le(bit, range)
    end
    item:add(cyclic_field, range, cyclic)
end

local function add_values(tree, range, values)
    local item, place = tree:add(fields.values, range), 0
    for _, value in ipairs(values or {}) do
        if place + value.length > range:len() then
            return
        end
        local part = range(place, value.length)
        local number = value.is_signed and part:le_int() or part:le_uint()
        local one = item:add(fields.value, part)
        one:set_text(string.format("%s: %d", name_of(value.idn), number))
        add_generated(one, fields.value_idn, part, value.idn)
        add_generated(one, fields.value_number, part, Int64.new(number))
        place = place + value.length
    end
end

-- What a run transferred, at its last answer. Its other steps and answers lead there, once it is known.
local function add_transfer(tree, range, run, number)
    if run.last ~= number then
        if run.last then
            add_generated(tree, fields.end_frame, range, run.last)
        end
        return
    end
    local item = add_generated(tree, fields.transfer, range, run.text)
    if #run.bytes > 0 then
        item:add(fields.transfer_data, ByteArray.new(hex_of(run.bytes)):tvb("Transfer")()):set_generated()
    end
    add_generated(item, fields.first, range, run.first)
end

-- Adds the step of a record, or the answer of an AT.
local function add_channel(tree, range, said, number)
    add_generated(tree, said.step and fields.step or fields.answer, range, said.step or said.answer)
    if said.idn then
        add_generated(tree, fields.idn, range, said.idn)
    end
    if TITLES[said.idn or ""] then
        add_generated(tree, fields.title, range, TITLES[said.idn])
    end
    if said.code then
        add_generated(tree, fields.code, range, said.code)
    end
    if said.run then
        add_transfer(tree, range, said.run, number)
    end
end

local function words_of_record(address, said)
    local step = said and said.step or "idle"
    if said and said.idn and step == "open " .. said.idn then
        step = "open " .. name_of(said.idn)
    end
    return string.format("drive %d, %s", address, step)
end

local function add_record(tree, address, range, values, said, number)
    local item = tree:add(fields.record, range)
    item:set_text("Data record of " .. words_of_record(address, said))
    add_generated(item, fields.drive, range, address)
    local word = range(0, 2):le_uint()
    add_word(item, fields.control, CONTROL, fields.control_cyclic, word - word % 64, range(0, 2))
    item:add_le(fields.info, range(2, 2))
    if said then
        add_channel(item, range(0, 4), said, number)
    end
    if range:len() > 4 then
        add_values(item, range(4), values)
    end
end

local function add_layout(tree, text, missing)
    tree:add_proto_expert_info(experts.layout, text)
    return missing
end

local function add_joint(tree, content, note, number)
    if not note.records then
        tree:add_proto_expert_info(experts.unlearnt, "the capture has no phase 2, and the preference no data records")
        tree:add(fields.values, content(ADDRESS_FIELD))
        return "MDT to all"
    end
    local texts, are_all = {}, is_wanted(tree, GROUPS.words) or is_wanted(tree, GROUPS.values)
    local are_steps = are_all or next(note.drives) and is_wanted(tree, GROUPS.channel)
    for _, record in ipairs(note.records) do
        local left, said = content:len() - record.position, note.drives[record.address]
        if record.position == 0 or left < (record.length or 4) then
            add_layout(tree, string.format("the data record of drive %d isn't within the MDT", record.address))
        elseif are_all or said and are_steps then
            add_record(tree, record.address, content(record.position, record.length or left), record.values, said, number)
        end
        texts[#texts + 1] = said and words_of_record(record.address, said)
    end
    local more = #texts > 4 and string.format("; and %d more", #texts - 4) or ""
    return "MDT to all" .. (#texts > 0 and ": " or "") .. table.concat(texts, "; ", 1, math.min(4, #texts)) .. more
end

local function add_mst(tree, content)
    if not phase_of(content:raw()) then
        return add_layout(tree, "an MST has the address 255 and a phase of 0 to 4", "MST")
    end
    tree:add(fields.phase, content(1, 1))
    return "MST, phase " .. content(1, 1):uint()
end

local function add_mdt(tree, content, note, number)
    local address = content(0, 1):uint()
    if address == ALL and content:len() >= SINGLE_BYTES then
        return add_joint(tree, content, note, number)
    elseif content:len() ~= SINGLE_BYTES or address == 0 then
        return add_layout(tree, "an MDT to one drive has five bytes and the drive's address", "MDT")
    end
    add_record(tree, address, content(ADDRESS_FIELD), {}, note.drives[address], number)
    return "MDT to " .. words_of_record(address, note.drives[address])
end

local function add_at(tree, content, note, number)
    local address = content(0, 1):uint()
    if content:len() < SINGLE_BYTES or address == 0 or address == ALL then
        return add_layout(tree, "an AT has at least five bytes and a drive's address", "AT")
    end
    local said, text = note.drives[address], string.format("AT of drive %d", address)
    if is_wanted(tree, GROUPS.words) then
        add_generated(tree, fields.drive, content(0, 1), address)
        local word = content(1, 2):le_uint()
        add_word(tree, fields.status, STATUS, fields.status_cyclic, word - word % 64 + word % 32 - word % 8, content(1, 2))
        tree:add_le(fields.info, content(3, 2))
    end
    if said then
        text = text .. ", " .. said.answer
    end
    if said and is_wanted(tree, GROUPS.channel) then
        add_channel(tree, content(ADDRESS_FIELD, 4), said, number)
    end
    if content:len() > SINGLE_BYTES and is_wanted(tree, GROUPS.values) then
        add_values(tree, content(SINGLE_BYTES), note.feedback)
    end
    if said and said.ended then
        text = string.format("%s [%s of %s]", text, said.ended.text, name_of(said.idn or "no number"))
    end
    return text
end

local function add_header(tree, header)
    local item = tree:add(header(), "Header")
    item:add(fields.version, header(0, 1))
    item:add(fields.kind, header(1, 1))
    item:add(fields.rate, header(2, 1))
    item:add(fields.cycle, header(4, 4))
    item:add(fields.start, header(8, 4))
    item:add(fields.bits, header(12, 4))
    if header(2, 1):uint() > 0 then
        add_generated(item, fields.start_us, header(8, 4), header(8, 4):int() / header(2, 1):uint())
    end
end

local function set_columns(pinfo, kind, content, text)
    local address = content and content(0, 1):uint() or ALL
    local drive = address == ALL and "all" or "drive " .. address
    pinfo.cols.protocol = "SERCOS II"
    pinfo.cols.src = kind == AT and drive or "master"
    pinfo.cols.dst = kind == AT and "master" or drive
    pinfo.cols.info = text
end

local ADDERS = { [MST] = add_mst, [MDT] = add_mdt, [AT] = add_at }

function sercos2.init()
    ring, notes = { channels = {}, blocks = {}, answered = {}, feedback = {}, idle = {} }, {}
end

function sercos2.dissector(tvb, pinfo, root)
    local kind = tvb:len() >= HEADER and tvb(0, 1):uint() == VERSION and tvb(1, 1):uint()
    if not KINDS[kind] then
        return 0
    end
    local content, number = tvb:len() > HEADER and tvb(HEADER):tvb(), pinfo.number
    if not notes[number] then
        notes[number] = learn(kind, tvb(4, 4):uint(), content and content:raw() or "", number)
    end
    local note, tree, text = notes[number], root:add(sercos2, tvb()), KINDS[kind]
    if is_wanted(root, GROUPS.header) then
        add_header(tree, tvb(0, HEADER))
    end
    if note.phase and kind ~= MST then
        add_generated(tree, fields.phase, tvb(0, HEADER), note.phase)
    end
    if content then
        tree:add(fields.address, content(0, 1))
        text = ADDERS[kind](tree, content, note, number)
    else
        add_layout(tree, "the telegram has no content")
    end
    for _, report in ipairs(note.experts) do
        tree:add_proto_expert_info(report[1], report[2])
    end
    tree:append_text(", " .. text)
    set_columns(pinfo, kind, content, text)
    return tvb:len()
end

DissectorTable.get("wtap_encap"):add((wtap or wtap_encaps).USER0, sercos2)
