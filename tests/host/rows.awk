# Reads the text of rows (tests/rows.md) and writes shell commands for tests/host/rows, which run those that speak of files
# alone. A row that says `in memory`, or in which something goes wrong by a planned fault, is passed over, and so is each
# that begins with such a row. The container of a dump text is made by tests/host/containers.awk, which is read beside this.

# What a text is between quotes of the shell.
function quoted(text) {
    gsub(/'/, "'\\''", text)
    return "'" text "'"
}

# The words of a command line behind the program's name, each between quotes.
function words_of(line,    words, word, has_word, in_quotes, i, c) {
    words = ""; word = ""; has_word = 0; in_quotes = 0
    for (i = 1; i <= length(line); i++) {
        c = substr(line, i, 1)
        if (c == "'") { in_quotes = !in_quotes; has_word = 1 }
        else if (c == " " && !in_quotes) {
            if (has_word) words = words " " quoted(word)
            word = ""; has_word = 0
        } else { word = word c; has_word = 1 }
    }
    if (has_word) words = words " " quoted(word)
    return words
}

# Bytes in hexadecimal digits, as escapes of printf.
function escapes(digits,    text, i, high, low) {
    text = ""
    for (i = 1; i < length(digits); i += 2) {
        high = index(DIGITS, substr(digits, i, 1)) - 1
        low = index(DIGITS, substr(digits, i + 1, 1)) - 1
        text = text sprintf("\\%03o", 16 * high + low)
    }
    return text
}

# Commands that print a line of a file by its form.
function print_line(form, line,    commands, groups, count, i, at) {
    if (form == "dump" && target == "given") { dump[++dump_lines] = line; return "" }
    if (form != "hex") return "printf '%s\\n' " quoted(line) "\n"
    commands = ""
    count = split(line, groups, " ")
    for (i = 1; i <= count; i++) {
        at = index(groups[i], "*")
        if (at == 0) commands = commands "printf '" escapes(groups[i]) "'\n"
        else commands = commands "repeat " substr(groups[i], 1, at - 1) " '" escapes(substr(groups[i], at + 1)) "'\n"
    }
    return commands
}

# Ends the text that is read: its commands print it into a file.
function end_text() {
    if (target == "given" && form == "dump") text = "printf '" escapes(container()) "'\n"
    if (target == "given") row = row "{\n:\n" text "} >\"$content\"\ngiven " quoted(path) "\n"
    if (target == "printed") { out = out text; is_dump = (form == "dump") }
    if (target == "then") wanted = wanted "{\n:\n" text "} >\"$content\"\n" (form == "dump" ? "then_dump " : "then_file ") quoted(path) "\n"
    target = ""; text = ""
}

# Ends the command line that is read.
function end_command() {
    end_text()
    if (command != "") {
        row = row "{\n:\n" out "} >\"$wanted_out\"\n{\n:\n" err "} >\"$wanted_err\"\nrun" command "\n"
        row = row "wanted_status " status "\n" (is_dump ? "printed_dump\n" : "")
        row = row wanted "compare " quoted(name) " " line_number "\n"
    }
    command = ""; out = ""; err = ""; wanted = ""; status = 0; is_dump = 0
}

function end_row() {
    end_command()
    if (name == "") return
    if (skipped) print "pass_over " quoted(name)
    else print row "end_row " quoted(name)
    was_skipped[name] = skipped
}

# The commands without the line end of the last line that they print.
function without_end(commands,    at, rest) {
    at = 0; rest = commands
    while (index(rest, "printf '%s\\n' ") > 0) {
        at += index(rest, "printf '%s\\n' ")
        rest = substr(commands, at + 1)
    }
    return substr(commands, 1, at - 1) "printf '%s' " substr(commands, at + length("printf '%s\\n' "))
}

BEGIN { DIGITS = "0123456789abcdef"; name = ""; command = ""; target = ""; status = 0 }

/^#/ { next }
/^$/ { end_text(); next }

# Pieces of the text that is read.
/^\|/ { text = text print_line(form, substr($0, 3)); next }
/^>/ { end_text(); out = out print_line("text", substr($0, 3)); last = "out"; next }
/^!/ { end_text(); err = err print_line("text", substr($0, 3)); last = "err"; next }
/^\\$/ {
    if (target != "") text = without_end(text)
    else if (last == "out") out = without_end(out)
    else err = without_end(err)
    next
}

/^\$ apk/ { end_command(); command = words_of(substr($0, 6)) " "; line_number = NR; next }

$1 == "row" {
    end_row()
    name = $2; sub(/:$/, "", name)
    row = "begin\n"; skipped = 0
    next
}
$1 == "from" {
    if (was_skipped[$2]) skipped = 1
    row = "begin_with " quoted($2) "\n"
    next
}
$1 == "file" {
    end_text()
    path = $2; form = $3; target = "given"; dump_lines = 0
    next
}
$1 == "then" {
    end_text()
    path = $2; form = $3
    if (form == "absent") wanted = wanted "then_absent " quoted(path) "\n"
    else target = "then"
    next
}
$1 == "out" && ($2 == "hex" || $2 == "dump") {
    end_text()
    form = $2; target = "printed"
    next
}
$1 == "status" { end_text(); status = $2; next }
$1 == "names" || $1 == "calls" || $1 == "writes" || $1 == "reads" { end_text(); next }

$1 == "in" && $2 == "memory" { end_text(); skipped = 1; next }

# Each call or byte in turn is left to the tree in memory: here the command line is run once, without a fault.
($1 == "fail" || $1 == "stop") && $2 == "each" { end_command(); next }
($1 == "out" || $1 == "err") && $2 == "ends" && $4 == "each" { end_command(); next }
$1 == "fail" || $1 == "out" || $1 == "err" { end_command(); skipped = 1; next }

{ print "echo 'tests/host/rows: line " NR " is no line of rows' >&2; exit 1" }

END { end_row() }
