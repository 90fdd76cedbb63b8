# Fills a template with the run's numbers, after numbers.awk. In the template, within braces, on one line or more:
#
#   {table SERIES; HEADING=FIGURE; ..}   a table in Markdown, a row for each member of the series
#   {points SERIES; FIGURE; ..}          the same for bench/draw: bare numbers, tabs between
#   {range SERIES; FIGURE}               the least and the greatest
#   {each SERIES; FIGURE}                one of each member, in words
#   {behind KIND}                        on how many of the nine workloads each contestant is behind the index, in words
#   {counts KIND}                        the same in short
#   {value OF; FIGURE}                   one figure
#   {bars}                               how many bars there are, and whether they hold
function commas(n) { return n < 1000 ? n : commas(int(n / 1000)) sprintf(",%03d", n % 1000) }

function shown(w, what,   v) {
    v = get(w, what)
    if (v !~ /^[0-9.]+$/ || w == "bar" && v ~ /[.]/) return v
    if (what ~ /^(visits|places)/) return sprintf("%.1f", v)
    return what ~ /ratio$/ ? sprintf("%.3f", v) : commas(int(v + 0.5))
}

function table(series, columns, n,   c, i, text, heading, what) {
    for (c = 2; c <= n; c++) {
        heading = what[c] = columns[c]
        sub(/=.*/, "", heading)
        sub(/.*=/, "", what[c])
        text = text "| " heading " "
    }
    text = text "|\n"
    for (c = 2; c <= n; c++) text = text (c == 2 || what[c] ~ /verdict$/ ? "|---" : "|--:")
    for (i = 1; i <= size[series]; i++) {
        text = text "|\n"
        for (c = 2; c <= n; c++) text = text "| " shown(list[series, i], what[c]) " "
    }
    return text "|"
}

function points(series, columns, n,   c, i, text) {
    for (i = 1; i <= size[series]; i++)
        for (c = 2; c <= n; c++)
            text = text get(list[series, i], columns[c]) (c < n ? "\t" : i < size[series] ? "\n" : "")
    return text
}

function from_to(least, most) {
    least = sprintf("%.2f", least)
    most = sprintf("%.2f", most)
    return least == most ? least : least " to " most
}

function range(series, what,   i, v, least, most) {
    for (i = 1; i <= size[series]; i++) {
        v = get(list[series, i], what)
        if (i == 1 || v < least) least = v
        if (i == 1 || v > most) most = v
    }
    return from_to(least, most)
}

function each(series, what,   i, text) {
    for (i = 1; i <= size[series]; i++)
        text = text (i == 1 ? "" : i < size[series] ? ", " : " and ") shown(list[series, i], what)
    return text
}

function many(n, of,   word) {
    split("one two three four five six seven eight nine", word, " ")
    return n == 0 ? "none" : (n == of ? "all " : "") (n in word ? word[n] : n)
}

function between(c) { return c == 1 ? "" : c < contestants ? ", " : " and " }

function behind(kind,   c, who, text) {
    for (c = 1; c <= contestants; c++) {
        who = contestant[c]
        text = text between(c) called[who] (c == 1 ? " is behind the index" : "")
        text = text " on " many(get(who, kind " over"), size["nine"])
        text = text " (" from_to(get(who, kind " least"), get(who, kind " most")) (c == 1 ? " times the index's)" : ")")
    }
    return text
}

function counts(kind,   c, n, alike, text) {
    for (c = 1; c <= contestants; c++) {
        n = many(get(contestant[c], kind " over"), size["nine"])
        alike += n == many(get(contestant[1], kind " over"), size["nine"])
        text = text between(c) n
    }
    return alike == contestants ? "each is behind on " n : "they are behind on " text ", in the same order"
}

function filled(text,   command, columns, n) {
    command = text
    sub(/ .*/, "", command)
    sub(/^[a-z]+ */, "", text)
    n = split(text, columns, / *; */)
    if (command == "table") return table(columns[1], columns, n)
    if (command == "points") return points(columns[1], columns, n)
    if (command == "range") return range(columns[1], columns[2])
    if (command == "each") return each(columns[1], columns[2])
    if (command == "behind") return behind(columns[1])
    if (command == "counts") return counts(columns[1])
    if (command == "value") return shown(columns[1], columns[2])
    if (command == "bars" && missed) return "Of " bars " bars " missed (missed == 1 ? " is" : " are") " MISSED"
    if (command == "bars") return "All " bars " bars hold"
    stop("no such command: " command)
}

END {
    called["C, same method"] = "the C of the same method"
    called["C, tuned"] = "that C tuned by hand"
    called["AVL, whole labels"] = "the AVL tree with whole labels"
    called["sorted array"] = "the sorted array"
    called["std::map"] = "C++ `std::map`"
    called["BTreeMap"] = "Rust's `BTreeMap`"
    while ((getline line < template) > 0) {
        lines++
        while (gsub(/[{]/, "{", line) > gsub(/[}]/, "}", line) && (getline more < template) > 0) line = line more
        while (match(line, /[{][^{}]*[}]/)) {
            within = substr(line, RSTART + 1, RLENGTH - 2)
            line = substr(line, 1, RSTART - 1) filled(within) substr(line, RSTART + RLENGTH)
        }
        if (line ~ /[{}]/) stop("a brace is left: " line)
        print line
    }
    if (!lines) stop("no template: " template)
}
