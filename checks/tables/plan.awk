# What to ask of each setting of settings.txt: its name; its triplets; the figures that are expected of it; and for each Wyckoff
# position the multiplicity, the letter and a point on it.

# The free coordinates of a point are these over 1009, a prime, so that the point is on no position of fewer points.
BEGIN {
    free["x"] = 107
    free["y"] = 353
    free["z"] = 701
    figures = split("operators classes marks orbits", names)
}

# The value of a component as `-2*x+1/4`, over 24 times 1009.
function value(component,    terms, count, i, term, sign, factor, fraction, sum) {
    gsub(/-/, "+-", component)
    count = split(component, terms, "+")
    for (i = 1; i <= count; i++) {
        term = terms[i]
        sign = sub(/^-/, "", term) ? -1 : 1
        factor = sub(/^2\*/, "", term) ? 2 : 1
        if (term in free) {
            sum += sign * factor * 24 * free[term]
        } else if (term != "") {
            if (split(term, fraction, "/") == 1) fraction[2] = 1
            sum += sign * 24 * 1009 * fraction[1] / fraction[2]
        }
    }
    return sum + 0 "/" 24 * 1009
}

# A figure that a setting does not have is as in the setting above.
function tell_figures(    i) {
    for (i = 1; i <= figures && number > 0; i++) print "figure", names[i], figure[names[i]]
}

/^#/ || NF == 0 { next }

$1 == "=" {
    tell_figures()
    if ($2 != number) for (i in names) figure[names[i]] = "missing"
    number = $2
    sub(/^= /, "setting ")
    print
    next
}

$1 == "<" {
    sub(/^< ?/, "")
    print
    next
}

$1 ~ /^[a-z]/ {
    name = $1
    sub(/^[a-z]* /, "")
    figure[name] = $0
    next
}

{
    split($3, component, ",")
    print "position", $1, $2, value(component[1]), value(component[2]), value(component[3])
}

END { tell_figures() }
