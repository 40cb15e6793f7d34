#!/usr/bin/env bash
# The Wyckoff positions of settings.txt, beside this file, against GAP, which finds those of each setting from its operators: by
# hand, never part of the gate. Needs Debian's gap-core and gap-cryst, and takes two minutes.
#
#     bash checks/tables/gap.sh
#
# Compared are the orders of the site-symmetry groups of all positions of a setting, which are the number of its operators over the
# multiplicities. Each failure prints one line. The last line is `gap: N passed, M failed`; the status is 0 only where M is 0.
set -u -o pipefail
cd "$(dirname "${BASH_SOURCE[0]}")" || exit 1

# A call of `Ask` for each setting: its name, its triplets as matrices for rows from the left, and the orders.
calls() {
    awk '
        function matrix(triplet,    component, term, w, i, j) {
            split(triplet, component, ",")
            for (i = 1; i <= 3; i++) {
                gsub(/-/, "+-", component[i])
                for (j = split(component[i], term, "+"); j > 0; j--) if (term[j] != "") {
                    if (term[j] ~ /[xyz]$/) w[index("xyz", substr(term[j], length(term[j]))), i] = term[j] ~ /^-/ ? -1 : 1
                    else w[4, i] = term[j]
                }
            }
            w[4, 4] = 1
            triplet = ""
            for (i = 1; i <= 4; i++) {
                triplet = triplet (i > 1 ? ",[" : "[")
                for (j = 1; j <= 4; j++) triplet = triplet (j > 1 ? "," : "") ((i, j) in w ? w[i, j] : 0)
                triplet = triplet "]"
            }
            return "[" triplet "]"
        }
        function ask() {
            if (name != "") print "Ask(\"" name "\",[" matrices "],[" orders "]);"
            matrices = orders = ""
        }
        $1 == "=" { ask(); name = $0; sub(/^= /, "", name) }
        $1 == "<" { for (i = 2; i <= NF; i++) matrices = matrices (i > 2 ? "," : "") matrix($i) }
        $1 == "operators" { operators = $2 }
        $1 ~ /^[0-9]+$/ { orders = orders (orders == "" ? "" : ",") operators / $1 }
        END { ask() }
    ' settings.txt
}

{
    cat <<'END_OF_GAP'
SetInfoLevel(InfoWarning, 0);
if LoadPackage("cryst") <> true then Print("gap: the package cryst is missing\n"); QuitGap(1); fi;
passed := 0;; failed := 0;;
translations := List([1 .. 3], function(i) local m; m := IdentityMat(4); m[4][i] := 1; return m; end);;
# Of each matrix of the point group one operator, and of these how many leave each point of a position modulo the lattice.
Operators := function(group)
    return List(PointGroup(group), matrix -> PreImagesRepresentative(PointHomomorphism(group), matrix));
end;;
SiteOrder := function(operators, lattice, position)
    local point, directions;
    point := WyckoffTranslation(position); directions := WyckoffBasis(position);
    return Number(operators, function(operator)
        local matrix;
        matrix := operator{[1 .. 3]}{[1 .. 3]};
        return ForAll(directions, v -> v * matrix = v) and
            ForAll((point * matrix + operator[4]{[1 .. 3]} - point) / lattice, IsInt);
    end);
end;;
Ask := function(name, matrices, orders)
    local group, operators, lattice, found;
    group := AffineCrystGroupOnRight(Concatenation(matrices, translations));
    operators := Operators(group); lattice := TranslationBasis(group);
    found := SortedList(List(WyckoffPositions(group), position -> SiteOrder(operators, lattice, position)));
    if found = SortedList(orders) then passed := passed + 1;
    else failed := failed + 1; Print("failed: ", name, ": ", found, "\n");
    fi;
end;;
END_OF_GAP
    calls
    cat <<'END_OF_GAP'
Print("gap: ", passed, " passed, ", failed, " failed\n");
if failed = 0 and passed > 0 then QuitGap(0); fi;
QuitGap(1);
END_OF_GAP
} | gap -q --quitonbreak
