# Each expected figure of a setting against the one that the printed lines have. Lines behind `@` are of the plan.

function judge(what, expected, found) {
    if (expected == found) {
        passed++
    } else {
        failed++
        print "failed: " setting ": " what ": " (found == "" ? "nothing" : found) ", not " expected
    }
}

# Each value of the list that occurs, with how often it does.
function counts(values, list,    order, count, i, text) {
    count = split(list, order, " ")
    for (i = 1; i <= count; i++)
        if (order[i] in values) text = text " " order[i] ":" values[order[i]]
    return text
}

# The numbers among the values, ascending.
function ascending(values,    value, list, count, i, j, moved, text) {
    for (value in values) if (value ~ /^[0-9]/) list[++count] = value + 0
    for (i = 2; i <= count; i++) {
        moved = list[i]
        for (j = i - 1; j > 0 && list[j] > moved; j--) list[j + 1] = list[j]
        list[j + 1] = moved
    }
    for (i = 1; i <= count; i++) text = text " " list[i]
    return text
}

function descending(values,    list, count, i, text) {
    count = split(ascending(values), list, " ")
    for (i = count; i > 0; i--) text = text " " list[i]
    return text
}

# A position whose point fits a row that another one fits too, or none, is a failure.
function judge_position(    found) {
    if (position == "") return
    found = fitted
    if (fitted != "" && row in taken) found = found " in row " row ", which " taken[row] " fits"
    if (fitted != "") taken[row] = position
    split(position, part_of, " ")
    judge("position " position, part_of[1], found)
    position = fitted = ""
}

function judge_setting(    name) {
    judge_position()
    if (setting == "") return
    found["operators"] = operators counts(kinds, "1 -1 2 m 3 -3 4 -4 6 -6")
    found["classes"] = classes counts(sizes, descending(sizes))
    found["marks"] = substr(counts(marks, "absent free" ascending(marks)), 2)
    found["orbits"] = orbits counts(points, descending(points))
    for (name in found) judge(name, expected[name], found[name])
    judge("rows", positions, rows)
    split("", kinds); split("", sizes); split("", marks); split("", points); split("", taken); split("", expected)
    operators = classes = orbits = rows = positions = 0
}

$1 == "@" && $2 == "setting" {
    judge_setting()
    setting = $0
    sub(/^@ setting /, "", setting)
}

$1 == "@" && $2 == "figure" {
    name = $3
    sub(/^@ figure [a-z]* /, "")
    expected[name] = $0
    next
}

$1 == "@" && $2 == "position" {
    judge_position()
    position = $3 " " $4
    positions++
}

$1 == "@" && $2 == "status" { judge("status", 0, $3) }

$1 == "@" { part = $2; next }

# The headings of `table`, and the lines behind them.
part != "grid" && part != "position" && $1 ~ /^(operators|types|rows|classes)$/ { part = $1; next }

part == "types" { operators++; kinds[$2]++ }

part == "rows" { rows++ }

part == "classes" {
    classes++
    sizes[$4]++
    marks[$6 == "phase" ? $7 * 7.5 : $6]++
}

part == "grid" { orbits++; points[$4]++ }

part == "position" { row = $1; fitted = $2 }

END {
    judge_setting()
    print "tables: " passed + 0 " passed, " failed + 0 " failed"
    exit failed > 0 || passed == 0
}
