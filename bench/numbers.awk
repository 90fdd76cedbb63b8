# Reads the run's numbers, lines of a workload, a figure's name and its value, and derives from them what is shown:
# searches less the loop itself, bars, limits and times as ratios, and how each contestant stands. A figure that did
# not come ends the program.
function stop(why) {
    print "bench: " why > "/dev/stderr"
    exit 1
}
function get(w, what) {
    if (!((w, what) in figure) || figure[w, what] == "") stop("no figure: " what " of " w)
    return figure[w, what]
}
function less(w, what, base,   v) {
    v = get(w, what) - get(w, base)
    if (v <= 0) stop("no more than " base ": " what " of " w)
    return v
}

function compare(w, what, against) { figure[w, what " ratio"] = get(w, what) / get(w, against) }

# A bar: a figure is at most `factor` times another, plus `more`.
function bar(w, what, against, factor, more,   limit) {
    limit = factor * get(w, against) + more
    figure[w, what " limit"] = limit
    compare(w, what, against)
    figure[w, what " verdict"] = get(w, what) <= limit ? "holds" : "MISSED"
    bars++
    missed += get(w, what) > limit
}

# The same where the bar is set; elsewhere the ratio alone.
function bar_if(set, w, what, against, factor, more) {
    figure[w, what " verdict"] = "none"
    if (set) bar(w, what, against, factor, more)
    else compare(w, what, against)
}

# A contestant's ratio to the index, of one kind: on how many of the nine it is over 1 and under, the least and the
# greatest.
function tally(who, kind,   i, ratio, over, under, least, most) {
    for (i = 1; i <= size["nine"]; i++) {
        ratio = get(list["nine", i], who " " kind)
        over += ratio > 1
        under += ratio < 1
        if (i == 1 || ratio < least) least = ratio
        if (i == 1 || ratio > most) most = ratio
    }
    figure[who, kind " over"] = over
    figure[who, kind " under"] = under
    figure[who, kind " least"] = least
    figure[who, kind " most"] = most
}

# A best round with the quartiles.
function spread(w, who, best, form) {
    return sprintf(form " (" form "–" form ")", best, get(w, who " lower"), get(w, who " upper"))
}

function derive_ratios(w, who) {
    figure[w, who " instructions"] = get(w, who) / get(w, "index")
    figure[w, who " best"] = get(w, who " ns") / get(w, "index ns")
    figure[w, who " time"] = spread(w, who, figure[w, who " best"], "%.2f")
}

function derive_searches(series,   i, c, w) {
    for (i = 1; i <= size[series]; i++) {
        w = list[series, i]
        for (c = 0; c <= contestants; c++) figure[w, contestant[c]] = less(w, contestant[c], "nothing")
    }
}

# Each search beside the C, with a bar where one is set, and the times.
function derive_named(series, limited,   i, c, w) {
    for (i = 1; i <= size[series]; i++) {
        w = list[series, i]
        bar_if(limited, w, "index", "C, same method", get("bar", "search"), 0)
        figure[w, "index time"] = spread(w, "index", get(w, "index ns"), "%.0f")
        for (c = 1; c <= contestants; c++) derive_ratios(w, contestant[c])
    }
}

BEGIN {
    FS = "\t"
    figure["bar", "search"] = "0.80"
    figure["bar", "alike"] = "0.30"
    figure["bar", "other"] = "0.45"
    figure["bar", "more"] = 5000
    figure["bar", "load"] = "3.0"
    figure["bar", "inserts"] = "0.1"
    contestants = split("C, same method;C, tuned;AVL, whole labels;sorted array;std::map;BTreeMap", contestant, ";")
    contestant[0] = "index"
    kinds = split("instructions best lower median upper", kind, " ")
}

$2 == "series" { list[$3, ++size[$3]] = $1; next }
{ figure[$1, $2] = $3 }

END {
    if (size["nine"] != 9 || size["page"] != 2 || size["tables"] != 4 || size["page tables"] != 1)
        stop("a workload is missing")
    if (size["rosters"] != 1)
        stop("a roster is missing")
    if (size["spelling"] != 2 || size["held"] != 10 || size["common"] != 15 || size["absent"] != 6)
        stop("a workload is missing")
    derive_searches("nine")
    derive_searches("page")
    derive_searches("spelling")
    derive_searches("held")
    derive_searches("common")
    derive_named("nine", 1)
    derive_named("page", 1)
    derive_named("spelling", 0)
    for (i = 1; i <= size["absent"]; i++)
        compare(list["absent", i], "places, limit", "places, limit by length")
    for (i = 1; i <= size["tables"]; i++) {
        w = list["tables", i]
        alike = get(w, "table") ~ /sharing/
        factor = get("bar", alike ? "alike" : "other")
        bar(w, "check", "C test", factor, 0)
        bar(w, "delete", "C test before delete", factor, get("bar", "more"))
        bar(w, "insert", "C test before insert", factor, get("bar", "more"))
        figure[w, "C test and save"] = get(w, "C test") + get(w, "C save")
        compare(w, "save", "C test and save")
        figure[w, "save itself"] = less(w, "save", "check")
        compare(w, "save itself", "C save")
        bar_if(alike, w, "load", "C load", get("bar", "load"), 0)
        figure[w, "load beside inserts"] = get(w, "load")
        bar_if(alike, w, "load beside inserts", "inserts", get("bar", "inserts"), -1) # under it
    }
    for (i = 1; i <= size["rosters"]; i++) {
        w = list["rosters", i]
        bar(w, "roster", "inserts as entered", get("bar", "inserts"), -1) # under it
        figure[w, "roster beside C"] = get(w, "roster")
        compare(w, "roster beside C", "C roster")
    }
    w = list["page tables", 1]
    compare(w, "check", "C test")
    compare(w, "delete", "C test before delete")
    compare(w, "insert", "C test before insert")
    for (i = 1; i <= size["held"]; i++) {
        w = list["held", i]
        figure[w, "delete itself"] = less(w, "delete", "check before delete")
        figure[w, "insert itself"] = less(w, "insert", "check before insert")
    }
    for (c = 1; c <= contestants; c++) {
        list["contestants", ++size["contestants"]] = contestant[c]
        figure[contestant[c], "name"] = contestant[c]
        for (k = 1; k <= kinds; k++) tally(contestant[c], kind[k])
    }
}
