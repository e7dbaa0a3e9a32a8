# Containers of dump texts (docs/formats.md), by rules of their own: a second writer beside that of the program.
# container() gives the bytes, in hexadecimal digits, of the container whose dump text has the lines dump[1] to
# dump[dump_lines]. Each value is written once, behind the values in it.

BEGIN {
    # The fields of each table in order, and what they hold: n a number, t a text, h a hash, a name a table, -NAME an array of
    # it, -t an array of texts.
    table("dependency", "name:t version:t match:n")
    table("acl", "mode:n user:t group:t xattrs:-t")
    table("information", "name:t version:t hashes:h description:t arch:t license:t origin:t maintainer:t url:t repo-commit:h" \
        " build-time:n installed-size:n file-size:n provider-priority:n depends:-dependency provides:-dependency" \
        " replaces:-dependency install-if:-dependency recommends:-dependency layer:n tags:-t unused:n")
    table("file", "name:t acl:acl size:n mtime:n hashes:h target:t unused:n")
    table("folder", "name:t acl:acl files:-file")
    table("scripts", "trigger:t pre-install:t post-install:t pre-deinstall:t post-deinstall:t pre-upgrade:t post-upgrade:t")
    table("package", "info:information paths:-folder scripts:scripts triggers:-t replaces-priority:n")
    table("index", "description:t packages:-information pkgname-spec:t")
    table("database", "packages:-package")
    table("intent", "removals:-t writes:-t")
    root["676b6370"] = "package"; root["78646e69"] = "index"; root["00626469"] = "database"; root["74746e69"] = "intent"
    for (i = 32; i < 127; i++) code[sprintf("%c", i)] = sprintf("%02x", i)
}

function table(name, fields,    parts, count, i, at) {
    count = split(fields, parts, " ")
    for (i = 1; i <= count; i++) {
        at = index(parts[i], ":")
        number[name, substr(parts[i], 1, at - 1)] = i
        holds[name, i] = substr(parts[i], at + 1)
    }
}

# A number in so many bytes, the lowest first.
function little(value, bytes,    text) {
    text = ""
    while (bytes-- > 0) { text = text sprintf("%02x", value % 256); value = int(value / 256) }
    return text
}

# Words of the three fields: kind, and number or place.
function word_of(kind, value) { return kind * 268435456 + value }

# The word of an item, which is written at the next place that it may stand at, unless it stands somewhere.
function item(kind, align, digits) {
    if (!((kind, digits) in written)) {
        while (length(payload) / 2 % align != 0) payload = payload "00"
        written[kind, digits] = word_of(kind, length(payload) / 2)
        payload = payload digits
    }
    return written[kind, digits]
}

function blob(digits,    count) {
    count = length(digits) / 2
    if (count == 0) return 0
    if (count < 256) return item(8, 1, little(count, 1) digits)
    return item(9, 2, little(count, 2) digits)
}

function whole(text,    value) {
    value = text + 0
    if (value < 268435456) return word_of(1, value)
    if (value < 4294967296) return item(2, 4, little(value, 4))
    return item(3, 8, divided(text, 8))
}

# A number of many decimal digits in so many bytes, by division digit by digit: numbers of awk are exact up to 2^53 alone.
function divided(text, bytes,    digits, quotient, rest, i) {
    digits = ""
    while (bytes-- > 0) {
        quotient = ""; rest = 0
        for (i = 1; i <= length(text); i++) {
            rest = 10 * rest + substr(text, i, 1)
            quotient = quotient int(rest / 256)
            rest %= 256
        }
        digits = digits sprintf("%02x", rest)
        text = quotient
    }
    return digits
}

# The bytes of a text that may stand between quotes.
function bytes_of(text,    digits, i, c) {
    if (substr(text, 1, 1) != "\"") {
        digits = ""
        for (i = 1; i <= length(text); i++) digits = digits code[substr(text, i, 1)]
        return digits
    }
    digits = ""
    for (i = 2; i < length(text); i++) {
        c = substr(text, i, 1)
        if (c != "\\") { digits = digits code[c]; continue }
        i++
        c = substr(text, i, 1)
        if (c == "n") digits = digits "0a"
        else if (c == "x") { digits = digits substr(text, i + 1, 2); i += 2 }
        else digits = digits code[c]
    }
    return digits
}

function scalar(kind, text) {
    if (kind == "n") return whole(text)
    if (kind == "h") return blob(text)
    return blob(bytes_of(text))
}

# How far the next line is indented, or -1 behind the last one.
function indent() {
    if (at_line > dump_lines) return -1
    match(dump[at_line], /^ */)
    return RLENGTH
}

# A list of words, the number of its words in front.
function list(kind, words, count) {
    if (count == 0) return 0
    return item(kind, 4, little(count + 1, 4) words)
}

# The object whose fields are indented so far.
function object(name, far,    words, count, line, at, field, kind, value) {
    words = ""; count = 0
    while (indent() == far && substr(dump[at_line], far + 1, 2) != "- ") {
        line = substr(dump[at_line], far + 1)
        at = index(line, ":")
        field = number[name, substr(line, 1, at - 1)]
        kind = holds[name, field]
        at_line++
        if (kind ~ /^-/) value = array(substr(kind, 2), far + 2)
        else if (kind ~ /^[nth]$/) value = scalar(kind, substr(line, at + 2))
        else value = object(kind, far + 2)
        while (++count < field) words = words "00000000"
        words = words little(value, 4)
    }
    return list(14, words, count)
}

# The array whose entries are indented so far.
function array(name, far,    words, count, line) {
    words = ""; count = 0
    while (indent() == far && substr(dump[at_line], far + 1, 2) == "- ") {
        line = substr(dump[at_line], far + 3)
        if (line == "null") { words = words "00000000"; at_line++ }
        else if (name == "t") { words = words little(blob(bytes_of(line)), 4); at_line++ }
        else {
            dump[at_line] = sprintf("%" (far + 2) "s", "") line
            words = words little(object(name, far + 2), 4)
        }
        count++
    }
    return list(13, words, count)
}

function container(    schema, key, value, blocks) {
    for (key in written) delete written[key]
    schema = substr(dump[1], 11)
    payload = "0000000000000000"
    at_line = 2
    value = object(root[schema], 0)
    payload = "00000000" little(value, 4) substr(payload, 17)
    blocks = little(4 + length(payload) / 2, 4) payload
    while (length(blocks) / 2 % 8 != 0) blocks = blocks "00"
    return "4144422e" substr(schema, 7, 2) substr(schema, 5, 2) substr(schema, 3, 2) substr(schema, 1, 2) blocks
}
