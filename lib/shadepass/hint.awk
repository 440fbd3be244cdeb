# hint.awk: what is wrong with a ticket that was refused, and what to do about it, in words for a person.
#
#     od -An -v -to1 -N 4097 TICKET | LC_ALL=C awk -v answer='refused=7 line=3' -v beyond=ref -f hint.awk
#
# Standard input has the ticket's bytes as od's octal numbers: few awks can hold every byte in a string, NUL least of
# all. answer is the line that the program printed. beyond is ref or test, and tells for refusal 8 whose reading it is.
# Standard output gets the hint: one to three lines of printable ASCII, each after 'shadepass: '.
#
# The program has judged already, by docs/SCOPE.md, sections 8 and 9. This looks for the cause on the line that the
# program named, and takes the first that a person would correct. No pattern has a count in braces: mawk knows none.

# A hint is followed to the letter. So none has a person take out what may be a point or a minus in a number.

# A line is looked at as a string in which printable ASCII, tab and CR stand for themselves, and these for the rest.
BEGIN {
    ODD = "\001" # what no ticket has, and none of these
    NBSP = "\002"
    DASH = "\003"
    POINT = "\004"
    QUOTE = "\005"
    DEGREE = "\006"
    BLANK = "[ \t" NBSP "]"
    QUOTES = "[\"'`" QUOTE "]"
    REMARK = BLANK "+(#|//).*[A-Za-z]" # within a line; 3 #052 has a point that is lost
    for (i = 0; i < 256; i++) {
        printable = i >= 32 && i <= 126
        code = sprintf("%03o", i)
        hex[code] = sprintf("%02X", i)
        shown[code] = sprintf(printable ? "%c" : "\\x%02X", i)
        plain[hex[code]] = printable ? shown[code] : ODD
    }
    shown["011"] = "\\t"
    shown["015"] = "\\r"
    plain["09"] = "\t"
    plain["0D"] = "\r"
    blank_name[" "] = "a blank"
    blank_name["\t"] = "a tab"
    blank_name[NBSP] = "a no-break space"
}

# The bytes of each in UTF-8, and in Windows' own code, where it is one byte above 7F.
BEGIN {
    character_row(NBSP, "C2A0 E280AF A0")
    character_row(DASH, "E28090 E28091 E28092 E28093 E28094 E28095 E28892 96 97 C296 C297")
    character_row(DASH, "E281BB E2828B E29480 E29E96 EFB998 EFB9A3 EFBC8D CB97")
    character_row(POINT, "C2B7 B7 D9AB E280A4 E280A7 E28899 E28B85 EFBC8E")
    character_row(QUOTE, "E28098 E28099 E2809A E2809C E2809D E2809E C2AB C2BB 82 84 91 92 93 94 AB BB")
    character_row(DEGREE, "C2B0 B0")
}

function character_row(character, list,    byte, i) {
    for (i = split(list, byte, " "); i > 0; i--)
        plain[byte[i]] = character
}

# The grammar's tables.
BEGIN {
    ORDER = "formula, white, l, c, tol, space, ref, test"
    KEY = "(formula|white|l|c|tol|space|ref|test)"
    LONG_KEY = "(formula|white|tol|space|ref|test)="
    names["formula"] = "CIELAB CIE94 CMC"
    names["white"] = "D65/10 D65/2 C/10 C/2"
    names["space"] = "XYZ LAB"
    form["formula"] = "CIELAB, CIE94 or CMC"
    form["white"] = "D65/10, D65/2, C/10 or C/2"
    form["l"] = form["c"] = form["tol"] = "a number such as 1.5"
    form["space"] = "XYZ or LAB"
    form["ref"] = form["test"] = "three numbers such as 52.5 10.25 -7"
    digits_before["l"] = digits_before["c"] = digits_before["tol"] = 2
    digits_after["l"] = digits_after["c"] = digits_after["tol"] = 3
    digits_before["ref"] = digits_before["test"] = 3
    digits_after["ref"] = digits_after["test"] = 6
}

# What can be wrong with a number. The first pattern that fits is taken; FOREIGN has its words in cause_in_number.
BEGIN {
    FOREIGN = "[^-0-9.,]|[0-9.,-]-"
    number_row("^-?[0-9.,]+[eE][-+]?[0-9]+$", "an exponent: write the number in full")
    number_row("^[+][0-9.,]", "a plus sign: take it out")
    number_row(FOREIGN, "")
    number_row("^-?[0-9]+,[0-9]+$", "a decimal comma: write a point")
    number_row(",", "")
    number_row("[.].*[.]", "two points: a number has one at most")
    number_row("^-?[.]", "no digit before the point: write a 0 there")
    number_row("[.]$", "no digit after the point: write one, or take out the point")
}

function number_row(pattern, words) {
    number_pattern[++number_rows] = pattern
    number_words[number_rows] = words
}

# What is put right in a name, one after the other, until it is one. %s is what was found.
BEGIN {
    name_row(BLANK, "", "%s in the name")
    name_row(QUOTES, "", "quotation marks")
    name_row(DEGREE, "", "a degree sign")
    name_row("[.,;:]+$", "", "%s after the name")
    name_row("[-.,:|_" DASH POINT "]", "/", "no slash before the observer")
}

function name_row(pattern, instead, words) {
    name_pattern[++name_rows] = pattern
    name_instead[name_rows] = instead
    name_words[name_rows] = words
}

# Faults that a person makes on every line alike. The first four are looked for on lines with a key alone.
BEGIN {
    fault["capitals"] = "^[a-z]*[A-Z][A-Za-z]*" BLANK "*[=:]"
    fault["colon"] = "^[A-Za-z]+" BLANK "*:"
    fault["around"] = "^[A-Za-z]+(" BLANK "+=|=" BLANK ")"
    fault["start"] = "^" BLANK
    fault["end"] = "[^ \t" NBSP "]" BLANK "+$"
    fault["empty"] = "^" BLANK "*$"
    fault["return"] = "^\r|\r$"
    MARK = "([0-9]+[.):]|[-!\"$%&'()*+,.:<>?@^_`{|}~" QUOTE "]+)" BLANK "*"
    fault["mark"] = "^" MARK "[A-Za-z]+" BLANK "*[=:]"
}

BEGIN {
    range_row("l", 1, "l", 0.5, 10)
    range_row("c", 1, "c", 0.5, 10)
    range_row("tol", 1, "tol", 0.1, 10)
    range_row("XYZ", 1, "X", 0, 150)
    range_row("XYZ", 2, "Y", 0, 150)
    range_row("XYZ", 3, "Z", 0, 150)
    range_row("LAB", 1, "L*", 0, 120)
    range_row("LAB", 2, "a*", -256, 256)
    range_row("LAB", 3, "b*", -256, 256)
}

function range_row(kind, i, name, low, high) {
    quantity[kind, i] = name
    least[kind, i] = low
    most[kind, i] = high
}

# codes[k]: the bytes of line k as octal numbers, without its line feed
{
    for (i = 1; i <= NF; i++) {
        bytes++
        if ($i == "012")
            ended++
        else
            codes[ended + 1] = codes[ended + 1] " " $i
    }
}

END {
    unended = (ended + 1) in codes
    lines = ended + unended
    for (k = 1; k <= lines; k++)
        text[k] = string_of(codes[k])
    keys = split(index(text[3], "tol=") == 1 ? "formula white tol space ref test" : \
        "formula white l c tol space ref test", key, " ")
    split(answer, part, /[= ]/)
    if (part[2] == 7)
        hint_on_text(part[4] + 0)
    else
        hint_on_value(part[2])
}

function say(words) {
    print "shadepass: " words
}

# How many bytes the character at i has: a byte that is no whole character of UTF-8 is one by itself.
function width(code, i, count,    others, k) {
    others = code[i] ~ /^3[0-3]/ ? 1 : code[i] ~ /^3[45]/ ? 2 : code[i] ~ /^36/ ? 3 : 0
    for (k = 1; k <= others; k++)
        if (i + k > count || code[i + k] !~ /^2/)
            return 1
    return others + 1
}

# What stands for the character of n bytes at i.
function plain_at(code, i, n,    k, byte) {
    for (k = i; k < i + n; k++)
        byte = byte hex[code[k]]
    return byte in plain ? plain[byte] : ODD
}

function string_of(code_list,    code, count, i, n, out) {
    count = split(code_list, code, " ")
    for (i = 1; i <= count; i += n) {
        n = width(code, i, count)
        out = out plain_at(code, i, n)
    }
    return out
}

# Line m, safe on a terminal, and cut after some 60 characters.
function show(m,    code, count, i, out) {
    if (text[m] ~ /^ *$/)
        return text[m] == "" ? "it is empty" : "it has only blanks"
    count = split(codes[m], code, " ")
    for (i = 1; i <= count; i++) {
        if (length(out shown[code[i]]) > 60)
            return out "..."
        out = out shown[code[i]]
    }
    return out
}

# The key that a line starts with, in small letters, or nothing: whatever its capitals and the blanks around it, and
# after a byte-order mark too.
function key_of(line) {
    line = tolower(line)
    sub("^[ \t" NBSP ODD "]+", "", line)
    if (line !~ "^" KEY BLANK "*[=:]")
        return ""
    sub(/[^a-z].*/, "", line)
    return line
}

# --- Refusal 7: the text -------------------------------------------------------------------------------------------

function hint_on_text(m) {
    if (m == 0)
        say("the ticket has more than 4096 bytes, and a right one fewer than 200: see whether it is the right file")
    else if (!hint_on_whole()) {
        if (m > lines)
            say("line " m " is missing: " due(m, "there"))
        else if (m > keys)
            hint_on_more(m)
        else {
            say("line " m " is wrong: " show(m))
            say(cause(m))
        }
    }
}

# What lies in the text as a whole. Gives whether there was something.
function hint_on_whole() {
    if (bytes == 0)
        say("the ticket is empty: shadepass --help shows one")
    else if (only_blanks())
        say("the ticket is empty but for blanks and line ends: shadepass --help shows one")
    else if (wide_code(codes[1]) != "")
        hint_on_wide_code(wide_code(codes[1]))
    else if (!any_key())
        hint_on_line_1("this text is no ticket: no line of it starts with a key such as formula=", \
            "a ticket has six or eight lines, from formula= to test=: shadepass --help shows one")
    else if (codes[1] ~ /^ 357 273 277/)
        hint_on_line_1("the ticket starts with a byte-order mark, shown as \\xEF\\xBB\\xBF", \
            "save it without one, or use: tail -c +4 <OLD >NEW")
    else if (ended == 0 && index(text[1], "\r"))
        hint_on_line_1("the lines end with a carriage return alone, where a line feed is due", \
            "change them with: tr '\\r' '\\n' <OLD >NEW")
    else
        return 0
    return 1
}

function hint_on_line_1(why, remedy) {
    say("line 1 is wrong: " show(1))
    say(why)
    say(remedy)
}

function only_blanks(    k) {
    for (k = 1; k <= lines; k++)
        if (text[k] ~ "[^ \t\r" NBSP "]")
            return 0
    return 1
}

# Whether a line starts with a key; a CR may stand in the place of the line feed. Where all = signs are missing, the
# first key tells.
function any_key(    k, i, count, piece) {
    if (tolower(text[1]) ~ "^" BLANK "*formula")
        return 1
    for (k = 1; k <= lines; k++) {
        count = split(text[k], piece, "\r")
        for (i = 1; i <= count; i++)
            if (key_of(piece[i]) != "" || is_marked(piece[i]))
                return 1
    }
    return 0
}

# The name that iconv has for a code of two or four bytes, or nothing. Where the mark is missing, the NULs beside two
# letters tell.
function wide_code(start,    letter) {
    letter = "(0[4-7][0-7]|1[0-7][0-7])"
    if (start ~ /^ (377 376 000 000|000 000 376 377)/)
        return "UTF-32"
    if (start ~ "^ " letter " 000 000 000 " letter " 000 000 000")
        return "UTF-32LE"
    if (start ~ "^ 000 000 000 " letter " 000 000 000 " letter)
        return "UTF-32BE"
    if (start ~ /^ (377 376|376 377)/)
        return "UTF-16"
    if (start ~ "^ " letter " 000 " letter " 000")
        return "UTF-16LE"
    if (start ~ "^ 000 " letter " 000 " letter)
        return "UTF-16BE"
    return ""
}

function hint_on_wide_code(name,    kind) {
    kind = substr(name, 1, 6)
    hint_on_line_1(name == kind ? "the ticket starts with the byte-order mark of " kind : \
        "the ticket has NULs beside its first letters, as " kind " has", \
        "save it as plain text, or use: iconv -f " name " -t UTF-8 <OLD >NEW")
}

# --- Refusal 7: the line -------------------------------------------------------------------------------------------

# Where l is due, tol may stand as well: l and c may both be left out.
function due(m, where) {
    return key[m] (key[m] == "l" ? "= or tol" : "") "= is due " where
}

# What follows may have been meant: only what has no key is taken out.
function hint_on_more(m,    found, k) {
    say("line " m " is one too many: " show(m))
    k = next_key_line(m - 1)
    found = k ? key_of(text[k]) : ""
    if (found == "formula")
        say("a ticket ends with its line test=: hand over one ticket at a time")
    else if (found == "test")
        say("a ticket has one line test=: write a ticket for each test specimen")
    else if (found != "")
        say(cause_in_order(m, found))
    else if (is_rest(text[m]))
        say("a ticket ends with its line test=: see whether this is the rest of it")
    else
        say("a ticket ends with its line test=: take out all that follows" end_mark(codes[m]))
}

# Whether a line may be the end of a number in the line before.
function is_rest(line) {
    return line ~ /^[^A-Za-z=]*[0-9][^=]*$/
}

function end_mark(code_list) {
    return code_list ~ / 032/ ? " (\\x1A is Ctrl-Z, an old editor's end mark)" : ""
}

# The first line after line m that has a key, or 0.
function next_key_line(m) {
    while (++m <= lines)
        if (key_of(text[m]) != "")
            return m
    return 0
}

# How many lines after line m have the same fault, in words.
function more(m, kind,    k, count) {
    for (k = m + 1; k <= lines; k++)
        if (text[k] ~ fault[kind] && (kind !~ /^(capitals|colon|around|start)$/ || key_of(text[k]) != ""))
            count++
    return count ? "; the same on " count " more " (count == 1 ? "line" : "lines") : ""
}

function cause(m,    why) {
    if (index(text[m], "\r"))
        return cause_in_returns(m, text[m])
    if (text[m] !~ "[^ \t" NBSP "]")
        return (m < lines ? "take it out: " : "") due(m, "here") more(m, "empty")
    if (index(text[m], key[m] "=") != 1)
        return cause_in_key(m)
    why = cause_in_value(m, key[m], substr(text[m], length(key[m]) + 2))
    if (why == "" && unended && m == lines)
        return "it has no line feed at its end: see that it is whole, and press Enter after it"
    return why == "" ? "write " key[m] "= and " form[key[m]] : why
}

# tr takes every carriage return out: it is named where none of them stands within a line.
function cause_in_returns(m, line,    after, others) {
    after = line
    sub(/^.*\r/, "", after)
    if (line !~ /^\r/ && line !~ /\r$/ && key_of(after) != "")
        return "a carriage return where a line feed is due: change it with: tr '\\r' '\\n' <OLD >NEW"
    if (line ~ /[^\r]\r+[^\r]/)
        return "a carriage return within: type the line anew"
    others = more(m, "return")
    after = line ~ /\r$/ ? "a carriage return at the end, as Windows writes it" : "a carriage return at the start"
    if (return_within())
        return after ": take it out" others
    return after others ": take out all with: tr -d '\\r' <OLD >NEW"
}

function return_within(    k) {
    for (k = 1; k <= lines; k++)
        if (text[k] ~ /[^\r]\r+[^\r]/)
            return 1
    return 0
}

# The first character of line m that no ticket has.
function cause_in_byte(m,    code, count, i, n, out) {
    count = split(codes[m], code, " ")
    for (i = 1; i <= count; i += n) {
        n = width(code, i, count)
        if (plain_at(code, i, n) !~ /[ -~]/)
            break
    }
    for (n += i; i < n; i++)
        out = out shown[code[i]]
    return out (out == "\\x1A" ? " (Ctrl-Z, an old editor's end mark)" : "") " is no character of a ticket: " \
        "type the line anew in plain letters and digits, with . for the point and - for the minus"
}

# --- The key -------------------------------------------------------------------------------------------------------

function cause_in_key(m,    line, head, word, small) {
    line = text[m]
    if (line ~ /^(#|;|\/\/)/)
        return "a ticket has no remarks: take this line out"
    if (is_marked(line))
        return cause_in_mark(m, line)
    word = line
    sub(/[^A-Za-z].*/, "", word)
    small = tolower(word)
    if (key_of(line) == "" && small != key[m] && is_extra(m))
        return cause_in_extra(m, next_key_line(m))
    if (line ~ "^" BLANK)
        return blank_name[substr(line, 1, 1)] " at the start: take it out" more(m, "start")
    head = line
    sub(/=.*/, "", head)
    if (head ~ "[^ -~\t" NBSP "]")
        return cause_in_byte(m)
    if (small == key[m] || (key[m] == "l" && small == "tol"))
        return cause_in_spelling(m, word, small, substr(line, length(word) + 1))
    if (key_of(line) != "")
        return cause_in_place(m, small)
    return cause_in_unknown(m)
}

# A key after a mark such as of a list, of a quoted mail or of quotation.
function is_marked(line) {
    return tolower(line) ~ "^" MARK KEY BLANK "*[=:]"
}

function cause_in_mark(m, line,    mark) {
    if (line ~ "^" QUOTES)
        return "quotation marks around the line: take them out" more(m, "mark")
    match(line, "^" MARK)
    mark = substr(line, 1, RLENGTH)
    return (mark ~ /[^ -~]/ ? "a mark" : "'" mark "'") " before the key: take it out" more(m, "mark")
}

# Whether the next line with a key has the one that is due on line m. Where l is due, tol does not tell: line m may be
# an l that was mistyped.
function is_extra(m,    k) {
    k = next_key_line(m)
    return k > 0 && key_of(text[k]) == key[m]
}

function cause_in_extra(m, k,    last) {
    if (m > 1 && is_rest(text[m]))
        return "it starts with no key: see whether it is the rest of line " (m - 1)
    for (last = m; last + 1 < k && !is_rest(text[last + 1]); last++)
        continue
    return (index(text[m], "=") ? "there is no such key; " : "") \
        (last == m ? "take this line out: " : "take lines " m " to " last " out: ") key[m] "= comes on line " k
}

# The right key, and not written as it should be.
function cause_in_spelling(m, word, small, rest,    right) {
    if (tolower(rest) ~ "^" BLANK "*[,;|\t]" BLANK "*" KEY BLANK "*[,;|\t]")
        return "this is the head of a table: a ticket has a line for each key, such as formula=CMC"
    if (rest !~ "^" BLANK "*[=:]")
        return index(rest, "=") ? cause_in_unknown(m) : "the = sign is missing: write " small "="
    right = right_line(m, small, rest)
    if (word != small)
        return "capital letters: write " right more(m, "capitals")
    if (rest ~ "^" BLANK "*:")
        return "a colon where the = sign is due: write " right more(m, "colon")
    return blanks_around(rest) " the = sign: write " right more(m, "around")
}

# The line as it should be. A value that is wrong too is not repeated.
function right_line(m, name, rest) {
    sub("^[=: \t" NBSP "]+", "", rest)
    sub(BLANK "+$", "", rest)
    return name "=" (cause_in_value(m, name, rest) == "" ? rest : " and its value")
}

function blanks_around(rest) {
    if (rest ~ "^" BLANK "+=" BLANK)
        return "blanks around"
    if (rest ~ "^" BLANK)
        return blank_name[substr(rest, 1, 1)] " before"
    return blank_name[substr(rest, 2, 1)] " after"
}

function cause_in_unknown(m) {
    return (index(text[m], "=") ? "there is no such key: " : "it starts with no key: ") due(m, "here")
}

# A key that belongs elsewhere.
function cause_in_place(m, found) {
    if (key[m] == "l" && found == "c" && !comes("l", m))
        return "c without l: write both lines, l= and then c=, or neither, which means l=2.000 and c=1.000"
    if (key[m] == "c" && found == "tol" && !comes("c", m))
        return "l without c: write both lines, l= and then c=, or neither, which means l=2.000 and c=1.000"
    return cause_in_order(m, found)
}

# A key that is found where another is due, or after the last line.
function cause_in_order(m, found,    k) {
    if (keys == 6 && (found == "l" || found == "c"))
        return "l= and c= stand before tol=: move them there"
    k = line_of(found)
    if (k > m)
        return due(m, "here") "; the order is " ORDER
    return found "= is on line " k " already: " (m > keys || is_extra(m) ? "write it once" : due(m, "here"))
}

# Whether a line after line m has this key.
function comes(name, m) {
    while (++m <= lines)
        if (key_of(text[m]) == name)
            return 1
    return 0
}

# --- The value: these give nothing where it is right ---------------------------------------------------------------

function cause_in_value(m, name, value,    why) {
    if (value !~ "[^ \t" NBSP "]")
        return "no value: write " form[name] " after " name "="
    if (value ~ "^" BLANK)
        return blanks_around("=" value) " the = sign: write " right_line(m, name, "=" value) more(m, "around")
    if (value ~ /^=/)
        return (value ~ /=.*=/ ? "too many" : "two") " = signs: write " right_line(m, name, value)
    if (value ~ BLANK "$")
        return blank_name[substr(value, length(value))] " at the end: take it out" more(m, "end")
    why = cause_in_joined(name, value)
    if (why != "")
        return why
    if (name in names)
        why = cause_in_name(m, name, value)
    else if (name == "ref" || name == "test")
        why = cause_in_reading(m, name, value)
    else
        why = cause_in_setting(m, name, value)
    return why != "" && value ~ REMARK ? cause_in_remark(m, name, value) : why
}

function cause_in_remark(m, name, value) {
    sub(REMARK ".*", "", value)
    return "a ticket has no remarks: write " right_line(m, name, "=" value)
}

# Two lines in one.
function cause_in_joined(name, value,    found) {
    if (match(value, LONG_KEY))
        found = substr(value, RSTART, RLENGTH)
    else if (match(value, /[^A-Za-z][lc]=/))
        found = substr(value, RSTART + 1, 2)
    else
        return ""
    if (found == name "=")
        return found " is there twice: write it once, with one value"
    return found " is on this line too: each key starts a line of its own"
}

function is_name(kind, word) {
    return word !~ / / && index(" " names[kind] " ", " " word " ") > 0
}

function cause_in_name(m, kind, value,    bare, what, i) {
    if (is_name(kind, value))
        return ""
    bare = toupper(value)
    if (is_name(kind, bare))
        return "small letters: write " bare
    for (i = 1; i <= name_rows; i++)
        if (match(bare, name_pattern[i])) {
            what = substr(bare, RSTART, 1)
            gsub(name_pattern[i], name_instead[i], bare)
            if (is_name(kind, bare))
                return sprintf(name_words[i], what in blank_name ? blank_name[what] : "'" what "'") ": write " bare
        }
    return cause_in_no_name(m, kind, toupper(value))
}

# What is no name of this kind, however it is written.
function cause_in_no_name(m, kind, value) {
    gsub(BLANK "|" QUOTES, "", value)
    if (kind == "formula" && value ~ /^(CMC|CIE94)([^A-Z]*[0-9]|[^A-Z]*L[^A-Z]*C[^A-Z]*$)/)
        return "l and c have lines of their own: write " (value ~ /^CMC/ ? "CMC" : "CIE94") \
            " here, and l= and c= after white="
    if (kind == "white" && (value == "D65" || value == "C"))
        return "no observer: write " value "/10 or " value "/2"
    if (value ~ /[^ -~]/)
        return cause_in_byte(m)
    return "there is no such " kind ": write " form[kind]
}

# What kind of blank is the first in the value; it has one.
function blank_of(value) {
    match(value, BLANK)
    return blank_name[substr(value, RSTART, 1)]
}

# l, c or tol: one number.
function cause_in_setting(m, name, value,    why) {
    if (value ~ BLANK)
        return blank_of(value) " in the value: type it anew, as one number such as 1.5"
    if (value ~ "^[-" DASH "]")
        return "a minus: " range_of(name)
    gsub(DASH, "-", value)
    why = cause_in_character(m, value)
    return why == "" ? cause_in_number(name, value) : why
}

function range_of(name) {
    return name " is " least[name, 1] " to " most[name, 1]
}

# A character in a value of numbers that no ticket has, and quotation marks.
function cause_in_character(m, value) {
    if (value ~ "^" QUOTES "[-0-9., ]+" QUOTES "$")
        return "quotation marks: take them out"
    if (index(value, DASH))
        return "a dash that is not the plain minus: write -"
    if (index(value, POINT))
        return "a point that is not the plain one: write ."
    return value ~ /[^ -~]/ ? cause_in_byte(m) : ""
}

# ref or test: three numbers.
function cause_in_reading(m, name, value,    number, count, i, why) {
    if (value ~ "[\t" NBSP "]")
        return (index(value, "\t") ? "a tab" : "a no-break space") ": write one plain blank between two numbers"
    why = cause_in_character(m, value)
    if (why != "")
        return why
    if (value ~ /  /)
        return "two blanks together: write one between two numbers"
    count = split(value, number, " ")
    if (value ~ /,/ && (count != 3 || value ~ /, /))
        return "a comma: write one blank between two numbers, and a point within a number"
    if (value ~ /[0-9];/)
        return "a semicolon: write one blank between two numbers"
    for (i = 1; i <= count; i++) {
        if (number[i] == "-")
            return "a minus by itself: write it right before its number"
        why = cause_in_number(name, number[i])
        if (why != "")
            return why
    }
    return count == 3 ? "" : count (count == 1 ? " number" : " numbers") ": three are due, with one blank between two"
}

function cause_in_number(name, number,    i, whole) {
    for (i = 1; i <= number_rows; i++)
        if (match(number, number_pattern[i]))
            return number_words[i] != "" ? number_words[i] : "'" substr(number, RSTART + RLENGTH - 1, 1) \
                "' cannot be read there: write " form[name] ", with . for the point"
    sub(/^-/, "", number)
    whole = number
    sub(/[.].*/, "", whole)
    if (length(whole) > digits_before[name])
        return "at most " digits_before[name] " digits may stand before the point" \
            ((name, 1) in least ? ": " range_of(name) : "")
    if (length(number) - length(whole) - 1 > digits_after[name])
        return "at most " digits_after[name] " digits may stand after the point"
    return ""
}

# --- Refusals 3, 4, 6, 8: the text is right, and a value is not ----------------------------------------------------

function hint_on_value(refusal) {
    if (refusal == 3)
        hint_on_setting(outside("l", 1, value_of("l")) ? "l" : "c")
    else if (refusal == 4)
        hint_on_setting("tol")
    else if (refusal == 6)
        hint_on_reading()
    else if (refusal == 8 && (beyond == "ref" || beyond == "test"))
        hint_on_beyond()
    else
        say("the ticket was refused: the manual's table of refusals has the number")
}

function line_of(name,    k) {
    for (k = 1; k < keys && key[k] != name; k++)
        continue
    return k
}

function value_of(name) {
    return substr(text[line_of(name)], length(name) + 2)
}

function outside(kind, i, value) {
    return value + 0 < least[kind, i] || value + 0 > most[kind, i]
}

function hint_on_setting(name) {
    say("line " line_of(name) " is out of range: " show(line_of(name)))
    say(name " must lie between " least[name, 1] " and " most[name, 1])
}

# The first number out of range, in ref or else in test: this is the order in which the program refuses.
function hint_on_reading(    space, count, number, i, name, at) {
    space = value_of("space")
    count = split(value_of("ref") " " value_of("test"), number, " ")
    for (i = 1; i < count && !outside(space, (i - 1) % 3 + 1, number[i]); i++)
        continue
    name = i <= 3 ? "ref" : "test"
    at = (i - 1) % 3 + 1
    say("line " line_of(name) " is out of range: " show(line_of(name)))
    say(quantity[space, at] " of " name " is " number[i] ", and must lie between " least[space, at] " and " \
        most[space, at])
    say("see whether space=" space " is right and the point is in its place")
}

function hint_on_beyond() {
    say("line " line_of(beyond) " cannot be judged: " show(line_of(beyond)))
    say("the X, Y, Z of " beyond " give an a* or b* beyond 256")
    say("see whether space=XYZ is right, their order is X, Y, Z, and they are of the white " value_of("white"))
}
