# Writes a script and its replies: each command replies by the list alone, whatever bit offset, spare bits and spare bytes
# the list has in memory. The functions up to `alist` define the commands on texts of 0 and 1.
#
#   awk -v script=FILE -v replies=FILE -f tests/storage.awk
#
# With `-v large=1` lists, offsets and replies are longer than each block, cache and table of the layer.

# Writes a line and its reply.
function row(line, reply) {
    print line >script
    print reply >replies
}

# Writes a command after which slot d holds the list.
function holds(d, list, line) {
    row(line, "ok")
    held[d] = list
}

function shown(list) { return list == "" ? "-" : list }
function item(list, i) { return substr(list, i + 1, 1) }

# Returns the text n times.
function repeated(text, times,    all) {
    for (; times > 0; times = int(times / 2)) {
        if (times % 2)
            all = all text
        text = text text
    }
    return all
}

function reversed(text,    i, all) {
    for (i = length(text); i > 0; i--)
        all = all substr(text, i, 1)
    return all
}

# Returns the hexadecimal digits of bytes, two a byte. The lowest bit of a byte comes first.
function digits(text,    i, all) {
    for (i = 1; i < length(text); i += 8)
        all = all digits_of[substr(text, i, 8)]
    return all
}

# Stores the list from a bit offset on. All other bits are equal, those of `extra` more bytes too.
function raw(s, list, offset, spare, extra,    text, bytes) {
    bytes = int((offset + length(list) + 7) / 8) + extra
    text = repeated(spare, offset) list
    text = digits(text repeated(spare, 8 * bytes - length(text)))
    holds(s, list, "raw " s " " shown(text) " " offset " " length(list))
}

function new(s, list) { holds(s, list, "new " s " " shown(list)) }
function copy(s, d) { holds(d, held[s], "copy " s " " d) }
function slice(s, i, n) { holds(s, substr(held[s], i + 1, n), "slice " s " " i " " n) }
function push(s, bit) { holds(s, held[s] bit, "push " s " " bit) }
function fill(s, n, bit) { holds(s, held[s] repeated(bit, n), "fill " s " " n " " bit) }
function append(d, s) { holds(d, held[d] held[s], "append " d " " s) }
function set(s, i, bit) { holds(s, substr(held[s], 1, i) bit substr(held[s], i + 2), "set " s " " i " " bit) }
function freeze(s) { row("freeze " s, "ok") }
function thaw(s) { row("thaw " s, "ok") }
function bits(s) { row("bits " s, shown(held[s])) }
function get(s, i) { row("get " s " " i, i + 0 < length(held[s]) ? item(held[s], i) : "none") }
function same(a, b) { row("eq " a " " b, held[a] "" == held[b] "" ? 1 : 0) }
function count(s) { row("count " s, how_many(held[s], "0")) }
function how_many(list, one) { return gsub(one, one, list) }

function pop(s,    last) {
    last = length(held[s]) - 1
    row("pop " s, last < 0 ? "none" : item(held[s], last))
    held[s] = substr(held[s], 1, last)
}

# Splits the list at its falses.
function runs(s,    trues, i, n, at, all) {
    n = split(held[s], trues, "0")
    for (i = 1; i <= n; i++) {
        if (trues[i] != "")
            all = all " " at + 0 ":" length(trues[i])
        at += length(trues[i]) + 1
    }
    row("runs " s, shown(substr(all, 2)))
}

# Returns a number of up to 32 bits. The lowest bit comes first.
function small_number(text,    i, n) {
    for (i = length(text); i > 0; i--)
        n = 2 * n + substr(text, i, 1)
    return n + 0
}

# Returns a number of up to 64 bits in decimal: 2 ^ 32 is 4294 million and 967296.
function number(text,    high, low, millions) {
    high = small_number(substr(text, 33))
    low = high * 967296 + small_number(substr(text, 1, 32))
    millions = high * 4294 + int(low / 1000000)
    low %= 1000000
    return millions ? sprintf("%.0f%06d", millions, low) : low
}

function words_of(list, width,    i, all) {
    if ((list, width) in known)
        return known[list, width]
    for (i = 1; i <= length(list); i += width)
        all = all " " number(substr(list, i, width))
    return known[list, width] = substr(all, 2)
}

function words(s, width) { row("words " s " " width, shown(words_of(held[s], width))) }

# Defines a table of some inputs: items x, y, z, v give bit x + 2 * y + 4 * z + 8 * v of t.
function define(t, inputs,    i, k, items) {
    for (i = 0; i < 2 ^ inputs; i++) {
        items = ""
        for (k = 0; k < inputs; k++)
            items = items int(i / 2 ^ k) % 2
        answer[t, items] = int(t / 2 ^ i) % 2
    }
}

# Defines a function by its rows: the items and the result, which is the last character.
function define_rows(name, rows,    i, items) {
    for (i = split(rows, items, " "); i > 0; i--)
        answer[name, substr(items[i], 1, length(items[i]) - 1)] = substr(items[i], length(items[i]))
}

# Applies a function item by item.
function one_by_one(t, x, y, z, v,    i, all) {
    for (i = 1; i <= length(x); i++)
        all = all answer[t, substr(x, i, 1) substr(y, i, 1) substr(z, i, 1) substr(v, i, 1)]
    return all
}

# Applies a function, and keeps its result, so that lists with one item more take one step.
function looked_up(t, x, y, z, v,    n, half, key, front) {
    n = length(x)
    if (n > 1000) {
        half = 1000 * int((n + 1000) / 2000)
        return looked_up(t, substr(x, 1, half), substr(y, 1, half), substr(z, 1, half), substr(v, 1, half)) \
            looked_up(t, substr(x, half + 1), substr(y, half + 1), substr(z, half + 1), substr(v, half + 1))
    }
    key = t " " x " " y " " z " " v
    if (key in known)
        return known[key]
    front = t " " substr(x, 1, n - 1) " " substr(y, 1, n - 1) " " substr(z, 1, n - 1) " " substr(v, 1, n - 1)
    if (front in known)
        return known[key] = known[front] one_by_one(t, substr(x, n), substr(y, n), substr(z, n), substr(v, n))
    return known[key] = one_by_one(t, x, y, z, v)
}

function negate(d, a) { holds(d, looked_up("not", held[a]), "not " d " " a) }

# Runs an operator on bitmaps, or on arrays.
function operator(name, d, a, b) { holds(d, looked_up(name, held[a], held[b]), name " " d " " a " " b) }

# Runs a table with one input for each slot.
function table(d, t, slots,    n, s) {
    n = split(slots, s, " ")
    holds(d, looked_up(t, held[s[1]], held[s[2]], held[s[3]], held[s[4]]), "table" n " " d " " t " " slots)
}

function inplace1(s, t, width) { holds(s, looked_up(t, held[s]), "inplace1 " s " " t " " width) }

function inplace2(s, t, width, a) {
    holds(s, looked_up(t, held[s], held[a]), "inplace2 " s " " t " " width " " a)
}

# Offsets are numbers joined by a space.
function onew(s, first) { holds(s, first, "onew " s " " first) }
function oext(s, list) { holds(s, extended(held[s], list), "oext " s " " shown(list)) }
function ofreeze(s) { row("ofreeze " s, "ok") }
function olist(s) { row("olist " s, held[s]) }

function extended(offsets, list,    numbers, more, n, i, last, all) {
    last = numbers[split(offsets, numbers, " ")]
    n = split(list, more, ",")
    for (i = 1; i <= n; i++) {
        last += more[i]
        all = all " " last
    }
    return offsets all
}

function zipped(offsets, valid,    numbers, n, i, all) {
    if ((offsets, valid) in known)
        return known[offsets, valid]
    n = split(offsets, numbers, " ")
    for (i = 1; i < n; i++)
        all = all " " (substr(valid, i, 1) == 1 ? numbers[i + 1] - numbers[i] : "null")
    return known[offsets, valid] = substr(all, 2)
}

function zip(s, v) { row("zip " s " " v, shown(zipped(held[s], held[v]))) }

function anew(d, v, m) { holds(d, m == "-" ? held[v] : looked_up("anew", held[v], held[m]), "anew " d " " v " " m) }
function aslice(s, i, n) { holds(s, substr(held[s], i + 1, n), "aslice " s " " i " " n) }
function anulls(s) { row("anulls " s, how_many(held[s], "n")) }
function alist(s) { row("alist " s, shown(held[s])) }

# Returns a list without a pattern.
function scattered(seed, n,    all) {
    for (; n > 0; n--) {
        seed = seed * 16807 % 2147483647
        all = all int(seed / 1073741824)
    }
    return all
}

# Copies the items of slot s to slot d, which grows.
function grown(s, d) {
    copy(s, d)
    thaw(d)
}

# Reads all items in each way.
function reads(s,    i) {
    count(s)
    runs(s)
    for (i = 0; i < 4; i++)
        words(s, widths[i])
}

# Reads each item, and sets it in a copy.
function each_item(s,    i, n) {
    n = length(held[s])
    for (i = 0; i < n; i++) {
        get(s, i)
        grown(s, 9)
        get(9, i)
        set(9, i, 1 - item(held[s], i))
        bits(9)
    }
    get(s, n)
    get(s, "18446744073709551615")
}

# Slices the list from each item on, and slices that part.
function each_part(s,    start, n) {
    for (start = 0; start <= length(held[s]); start++) {
        n = length(held[s]) - start
        copy(s, 9)
        slice(9, start, n)
        bits(9)
        count(9)
        slice(9, int(n / 3), int(n / 2))
        bits(9)
        count(9)
    }
}

# Pushes each value, and pops two items.
function both_ends(s,    bit) {
    for (bit = 0; bit < 2; bit++) {
        grown(s, 9)
        push(9, bit)
        bits(9)
    }
    pop(9)
    pop(9)
    bits(9)
    count(9)
}

function equal(a, b) {
    same(a, b)
    same(b, a)
}

# Compares the list with itself, without its last item, and with that item negated.
function equality(s,    n) {
    n = length(held[s])
    new(9, held[s])
    grown(s, 10)
    equal(9, 10)
    freeze(9)
    equal(s, 9)
    if (n == 0)
        return
    slice(9, 0, n - 1)
    equal(s, 9)
    thaw(9)
    push(9, 1 - item(held[s], n - 1))
    equal(9, 10)
    freeze(9)
    equal(s, 9)
}

# Appends the list to up to nine items.
function appended(s,    own) {
    for (own = 0; own < 10; own++) {
        new(9, substr(lists[4], 1, own))
        append(9, s)
        bits(9)
    }
}

# Changes slot s in place at a width, and compares it with slot 9.
function changed(s, t, turn, other) {
    grown(s, 10)
    if (other == "")
        inplace1(10, t, widths[turn % 4])
    else
        inplace2(10, t, widths[turn % 4], other)
    freeze(10)
    same(9, 10)
}

# Runs functions of one list. The turn selects the widths in place.
function single(s, turn,    i, t) {
    negate(9, s)
    bits(9)
    for (i = 1; i <= 4; i++) {
        t = tables[i] % 4
        table(9, t, s)
        bits(9)
        changed(s, t, turn + i)
    }
}

# Runs functions of two lists. Slots b and c hold the same list.
function pair(a, b, c, turn,    i, t) {
    for (i = 1; i <= 3; i++) {
        operator(names[i], 9, a, b)
        bits(9)
        operator(names[i], 10, a, c)
        same(9, 10)
    }
    for (i = 1; i <= 4; i++) {
        t = tables[i] % 16
        table(9, t, a " " b)
        bits(9)
        table(10, t, a " " c)
        same(9, 10)
        changed(a, t, turn + i, b)
        changed(a, t, turn + i + 2, c)
    }
}

# Runs functions of three and four lists.
function wide_tables(a, b, c, e,    i) {
    for (i = 1; i <= 4; i++) {
        table(9, tables[i] % 256, a " " b " " c)
        bits(9)
        table(9, tables[i], a " " b " " c " " e)
        bits(9)
    }
}

# Makes arrays of values with a validity.
function validities(v, m) {
    anew(9, v, m)
    alist(9)
    anulls(9)
    anew(10, m, v)
    anew(12, v, "-")
    operator("aand", 11, 9, 10)
    alist(11)
    operator("aor", 11, 10, 9)
    alist(11)
    operator("aand", 11, 9, 12)
    alist(11)
    aslice(9, int(length(held[9]) / 3), int(length(held[9]) / 2))
    alist(9)
    anulls(9)
}

# Makes an array without validity. Slot 10 holds one with a validity.
function without_validity(v) {
    anew(9, v, "-")
    anulls(9)
    operator("aand", 11, 10, 9)
    alist(11)
    operator("aor", 11, 9, 9)
    alist(11)
}

# Makes offsets with one length for each item of the list.
function lengths(s, list,    i, all) {
    for (i = 1; i <= length(list); i++)
        all = all "," i % 7
    onew(s, 3)
    oext(s, substr(all, 2))
    ofreeze(s)
}

# Runs each command on a list in one storage.
function in_storage(list, offset, spare, extra) {
    raw(0, list, offset, spare, extra)
    bits(0)
    reads(0)
    each_item(0)
    each_part(0)
    both_ends(0)
    equality(0)
    appended(0)
    single(0, offset)
    pair(0, 1, 1, offset)
    pair(1, 0, 0, offset)
    wide_tables(2, 0, 1, 0)
    validities(0, 1)
    without_validity(0)
    zip(8, 0)
}

# Stores the list at each bit offset of a byte, with spare bits all false and all true, and with 0 to 2 spare bytes.
function in_each_storage(list,    i) {
    new(1, reversed(list))
    freeze(1)
    new(2, substr(lists[3], 1, length(list)))
    freeze(2)
    lengths(8, list)
    for (i = 0; i < 48; i++)
        in_storage(list, i % 8, int(i / 8) % 2, int(i / 16))
}

# Takes each list of at most five items that begins with this one.
function in_storages_from(list) {
    in_each_storage(list)
    if (length(list) < 5) {
        in_storages_from(list "0")
        in_storages_from(list "1")
    }
}

# Appends one value n times at each bit index.
function at_each_place(n,    own) {
    for (own = 0; own < 16; own++) {
        new(9, substr(lists[4], 1, own))
        fill(9, n, own % 2)
        bits(9)
        fill(9, n, 1 - own % 2)
        bits(9)
    }
}

# Appends a list at each pair of bit indices, and changes lists in place by it.
function at_each_pair(n,    own, other) {
    for (other = 0; other < 8; other++) {
        raw(0, substr(lists[2], 1, n), other, 1, 1)
        for (own = 0; own < 16; own++) {
            new(9, substr(lists[4], 1, own))
            append(9, 0)
            bits(9)
            raw(9, substr(lists[3], 1, n), own, 1, 1)
            thaw(9)
            inplace2(9, 6, widths[own % 4], 0)
            bits(9)
        }
    }
}

# Stores lists of n items at each bit offset of the first one.
function at_each_offset(n,    offset) {
    lengths(8, substr(lists[1], 1, n))
    for (offset = 0; offset < 16; offset++) {
        raw(0, substr(lists[1], 1, n), offset, 1, 1)
        raw(1, substr(lists[2], 1, n), offset, 1, 0)
        raw(2, substr(lists[2], 1, n), (offset * 5 + 3) % 16, 1, 1)
        raw(3, substr(lists[3], 1, n), (offset * 3 + 1) % 16, 1, 1)
        raw(4, substr(lists[4], 1, n), 15 - offset, 1, 1)
        reads(0)
        equality(0)
        single(0, n + offset)
        pair(0, 2, 1, n + offset)
        wide_tables(0, 2, 3, 4)
        validities(0, 2)
        zip(8, 2)
    }
}

# Runs all commands on lists of up to 600 items.
function small_lists(    n) {
    in_storages_from("")
    for (n = 63; n <= 65; n++)
        in_each_storage(substr(repeated("100", 22), 1, n))
    in_each_storage(substr(repeated("100", 44), 1, 130))
    for (n = 0; n <= 200; n++) {
        at_each_place(n)
        at_each_pair(n)
    }
    for (n = 0; n <= 600; n++)
        at_each_offset(n)
}

# Runs functions of 100,000 items.
function large_lists(    s) {
    for (s = 0; s < 5; s++)
        raw(s, repeated(scattered(s ? s : 1, 1000), 100), 3 * s, 1, 1)
    bits(0)
    reads(0)
    equality(0)
    single(1, 1)
    pair(0, 2, 2, 1)
    pair(4, 0, 1, 2)
    wide_tables(0, 2, 3, 4)
    validities(2, 3)
}

# Changes a bitmap that shares its bytes, and lets it grow to more than a million items.
function large_growth(s) {
    grown(s, 9)
    append(9, s)
    freeze(9)
    grown(9, 10)
    set(10, 123456, 1 - item(held[10], 123456))
    bits(10)
    bits(9)
    fill(10, 1000000, 1)
    push(10, 0)
    bits(10)
    count(10)
    pop(10)
    pop(10)
    large_functions(10)
}

# Runs functions of a million items.
function large_functions(s) {
    freeze(s)
    table(11, 1, s)
    count(11)
    negate(11, s)
    count(11)
    operator("or", 12, s, 11)
    count(12)
    table(12, tables[1], s " 11 12 " s)
    count(12)
    grown(s, 13)
    append(13, 12)
    count(13)
}

# Makes offsets of thousands of lengths.
function large_offsets(list) {
    raw(1, list, 5, 1, 1)
    lengths(0, list)
    olist(0)
    zip(0, 1)
    lengths(2, list)
    equal(0, 2)
}

# Sets the tables that the functions look up.
function prepare(    n, i, byte) {
    for (n = 0; n < 256; n++) {
        byte = ""
        for (i = 0; i < 8; i++)
            byte = byte int(n / 2 ^ i) % 2
        digits_of[byte] = sprintf("%02x", n)
    }
    for (i = 0; i < 4; i++)
        widths[i] = 8 * 2 ^ i
    for (i = split("27030 38505 1234 60875", tables); i > 0; i--) {
        lists[i] = scattered(i, 600)
        for (n = 1; n <= 4; n++)
            define(tables[i] % 2 ^ 2 ^ n, n)
    }
    split("and or xor", names)
    define_rows("not", "01 10")
    define_rows("and", "000 010 100 111")
    define_rows("or", "000 011 101 111")
    define_rows("xor", "000 011 101 110")
    define_rows("anew", "00n 010 10n 111")
    define_rows("aand", "000 010 0n0 100 111 1nn n00 n1n nnn")
    define_rows("aor", "000 011 0nn 101 111 1n1 n0n n11 nnn")
}

BEGIN {
    prepare()
    if (large) {
        large_lists()
        large_growth(0)
        large_offsets(repeated(scattered(5, 1000), 5))
    } else
        small_lists()
}
