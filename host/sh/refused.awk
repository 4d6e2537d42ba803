# Says in words why the program refused a sheet. For a message alone: the number is the program's, and nothing goes by
# what is said here. In: the modes, as `modes` of common.sh prints them, then the sheet's bytes as decimal numbers, as
# `od -A n -t u1 -v` prints them; and -v number=N. Out: one line; none where no cause is found.

BEGIN {
    count = split("mode depth flip discard limit palette columns rows", keys, " ")
    # the program reads no more than this
    most_read = 65642
}

# NAME;DEPTHS;TOP;ENTRY BYTES;TILES;PALETTES;FLIPS;PRIORITY
/;/ {
    split($0, mode, ";")
    name = mode[1]
    names = names (names == "" ? "" : ", ") name
    depths[name] = mode[2]
    tiles[name] = mode[5] + 0
    palettes[name] = mode[6] + 0
    next
}

{ for (i = 1; i <= NF; i++) bytes[size++] = $i + 0 }

# ---- bytes as text

function is_plain(byte) { return byte >= 32 && byte <= 126 }

# For comparing: a byte that no name and no number has is some such byte.
function plain(from, to,    i, s) {
    s = ""
    for (i = from; i < to; i++) s = s (is_plain(bytes[i]) ? sprintf("%c", bytes[i]) : "~")
    return s
}

function escaped(byte) {
    if (byte == 34 || byte == 92) return sprintf("\\%c", byte)
    if (is_plain(byte)) return sprintf("%c", byte)
    if (byte == 13) return "\\r"
    if (byte == 9) return "\\t"
    return sprintf("\\x%02x", byte)
}

# For showing: between quotation marks, cut where it is long.
function shown(from, to,    i, s, end) {
    end = to > from + 40 ? from + 40 : to
    s = ""
    for (i = from; i < end; i++) s = s escaped(bytes[i])
    return "\"" s (end < to ? ".." : "") "\""
}

function line_is(k) { return "line " k " of the sheet is " shown(starts[k], ends[k]) ": " }

# ---- 14: the first line that is not as it should be

function number_fault(text, key) {
    if (text == "") return "a number is missing"
    if (text ~ /[^0-9]/) return "a number has the digits 0 to 9 and nothing else"
    if (text ~ /^0./) return "a number has no leading zero"
    if (length(text) > 10 || text + 0 > 4294967295) return "a number is 4294967295 at most"
    if ((key == "flip" || key == "discard") && text + 0 > 1) return key " is 0 or 1"
    if ((key == "columns" || key == "rows") && text + 0 > 32) return "a sheet has 32 " key " at most"
    return ""
}

function line_fault(k,    key, from, text) {
    key = keys[k] "="
    if (k == 1 && bytes[0] == 239 && bytes[1] == 187 && bytes[2] == 191)
        return "it begins with a byte order mark, and should begin with " key
    if (ends[k] > starts[k] && bytes[ends[k] - 1] == 13)
        return "it ends in a carriage return, and a line ends in a newline alone"
    from = starts[k] + length(key)
    if (ends[k] < from || plain(starts[k], from) != key) return "it should begin with " key
    text = plain(from, ends[k])
    value[keys[k]] = text
    if (k > 1) return number_fault(text, keys[k])
    return text in depths ? "" : "no mode has this name; the names are " names
}

# The place of the newline that ends a line, or the sheet's end.
function line_end(from,    i) {
    for (i = from; i < size && bytes[i] != 10; i++) continue
    return i
}

function lines_fault(    k, at, why) {
    at = 0
    for (k = 1; k <= count; k++) {
        if (at == size) return size == 0 ? "the sheet is empty" : "the sheet ends before line " k ", " keys[k] "="
        starts[k] = at
        ends[k] = line_end(at)
        if (ends[k] == size) return line_is(k) "it has no newline at its end"
        why = line_fault(k)
        if (why != "") return line_is(k) why
        at = ends[k] + 1
    }
    pixels = size - at
    return ""
}

function pixels_fault(    due) {
    due = 64 * value["columns"] * value["rows"]
    if (pixels == due) return ""
    return "after its eight lines the sheet has " pixels (size == most_read ? " pixel bytes or more" : " pixel bytes") \
        ", and " value["columns"] " x " value["rows"] " tiles take " due
}

# ---- the other numbers, of a sheet whose lines are as they should be

function size_fault(    k) {
    for (k = 7; k <= 8; k++) if (value[keys[k]] == "0") return line_is(k) "a picture has 1 to 32 " keys[k]
    return ""
}

function palette_fault(name) {
    return line_is(6) name (palettes[name] == 1 ? " has palette 0 alone" : " has palettes 0 to " (palettes[name] - 1))
}

# Room is the least of three; the first of the least is named.
function room_fault(name,    room, by) {
    room = int(65536 / (8 * value["depth"]))
    by = "65536 bytes hold no more of them"
    if (tiles[name] <= room) {
        room = tiles[name]
        by = name " can name no more of them"
    }
    if (value["limit"] != "0" && value["limit"] + 0 <= room) {
        room = value["limit"]
        by = "line 5 of the sheet is " shown(starts[5], ends[5])
    }
    return "the picture needs more tiles than there is room for, " room ": " by \
        (value["discard"] == "0" ? "; with discard=0 every tile is stored" : "")
}

function why(    fault, name) {
    fault = lines_fault()
    if (number == 14) return fault != "" ? fault : pixels_fault()
    if (fault != "") return ""
    name = value["mode"]
    if (number == 2) return line_is(1) name " has no map, so that no picture is converted in it"
    if (number == 3) return line_is(2) name " has " (depths[name] ~ /,/ ? "depths " : "depth ") depths[name]
    if (number == 4) return size_fault()
    if (number == 5) return line_is(3) name " has no flips"
    if (number == 16) return palette_fault(name)
    if (number == 12) return room_fault(name)
    return ""
}

END {
    words = why()
    if (words != "") print words
}
