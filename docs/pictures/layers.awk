# Draws the crates as layers, from crates.txt: each stands above all that it uses, and a line leads to each crate that it uses at once,
# dashed where it passes a layer. A crate that uses more than two fifths of the others is a bar at the top, and one that more than half
# use a bar at the bottom, without lines.
/^[a-z_]+( staticlib)?:/ {
    sub(/ staticlib:/, ":")
    sub(/:/, "", $1)
    name[++crates] = $1
    inner[$1] = /# inner/
    for (i = 2; i <= NF && $i != "#"; i++) uses[$1, $i] = 1
}

# What a crate uses, what that uses, and so on.
function reach(    i, j, k) {
    for (k = 1; k <= crates; k++) {
        for (i = 1; i <= crates; i++) {
            if (!((name[i], name[k]) in uses)) continue
            for (j = 1; j <= crates; j++) if ((name[k], name[j]) in uses) uses[name[i], name[j]] = 1
        }
    }
}

function is_top(crate,    i, n) {
    for (i = 1; i <= crates; i++) n += (crate, name[i]) in uses
    return n > crates * 2 / 5
}

function is_bottom(crate,    i, n) {
    for (i = 1; i <= crates; i++) n += (name[i], crate) in uses
    return n > crates / 2
}

function is_drawn_so(crate) { return bar[crate] == "" }

# 1 above the highest of what the crate uses, bars left out.
function level_of(crate,    i, below, found) {
    if (crate in level) return level[crate]
    for (i = 1; i <= crates; i++) {
        if ((crate, name[i]) in uses && is_drawn_so(name[i])) {
            below = level_of(name[i])
            if (below > found) found = below
        }
    }
    return level[crate] = found + 1
}

# As high as the crates that use it allow; one that is used by none stays as low as it can.
function height_of(crate,    i, above, found) {
    if (crate in height) return height[crate]
    for (i = 1; i <= crates; i++) {
        if ((name[i], crate) in uses && is_drawn_so(name[i])) {
            above = height_of(name[i])
            if (!found || above - 1 < found) found = above - 1
        }
    }
    return height[crate] = found ? found : level_of(crate)
}

# Whether the one uses the other, and nothing that it uses does.
function at_once(crate, other,    i) {
    if (!((crate, other) in uses) || !is_drawn_so(crate) || !is_drawn_so(other)) return 0
    for (i = 1; i <= crates; i++) {
        if ((crate, name[i]) in uses && (name[i], other) in uses) return 0
    }
    return 1
}

# The mean place of the crates to which lines lead, as far as they have one, or else the place that the file's order gives.
function wish_of(crate, place,    i, sum, n) {
    for (i = 1; i <= crates; i++) {
        if (name[i] in x && (at_once(crate, name[i]) || at_once(name[i], crate))) {
            sum += x[name[i]]
            n++
        }
    }
    return n ? sum / n : place
}

function width_of(crate) { return 7 * length(crate) + 14 }

function apart(left, right) { return (width_of(left) + width_of(right)) / 2 + 8 }

# Places the crates of a level in a row, near their wishes and apart from each other.
function place(l,    i, j, n, row, kept) {
    for (i = 1; i <= crates; i++) {
        if (is_drawn_so(name[i]) && height[name[i]] == l) {
            row[++n] = name[i]
            wish[name[i]] = wish_of(name[i], wide * i / crates)
        }
    }
    for (i = 2; i <= n; i++) {
        kept = row[i]
        for (j = i - 1; j >= 1 && wish[row[j]] > wish[kept]; j--) row[j + 1] = row[j]
        row[j + 1] = kept
    }
    for (i = 1; i <= n; i++) {
        x[row[i]] = wish[row[i]]
        y[row[i]] = 100 + (levels - l) * 70
    }
    part(row, n)
}

# Pushes the crates of a row apart: to the right, back from the right edge, and on again from the left one.
function part(row, n,    i, edge) {
    for (i = 2; i <= n; i++) x[row[i]] = larger(x[row[i]], x[row[i - 1]] + apart(row[i - 1], row[i]))
    edge = wide - 10 - width_of(row[n]) / 2
    for (i = n; i >= 1; i--) {
        if (x[row[i]] > edge) x[row[i]] = edge
        if (i > 1) edge = x[row[i]] - apart(row[i - 1], row[i])
    }
    x[row[1]] = larger(x[row[1]], 10 + width_of(row[1]) / 2)
    for (i = 2; i <= n; i++) x[row[i]] = larger(x[row[i]], x[row[i - 1]] + apart(row[i - 1], row[i]))
}

# As wide as the fullest row, with a margin.
function widest(    i, full, found) {
    for (i = 1; i <= crates; i++) if (is_drawn_so(name[i])) full[height[name[i]]] += width_of(name[i]) + 8
    for (i in full) found = larger(found, full[i])
    return larger(1000, found + 12)
}

function larger(a, b) { return a > b ? a : b }

function box(crate, left, top, width, fill) {
    printf "<rect x=\"%g\" y=\"%g\" width=\"%g\" height=\"24\" rx=\"4\" fill=\"%s\" stroke=\"#30588c\"/>\n", left, top, width, fill
    printf "<text x=\"%g\" y=\"%g\" font-size=\"12\" text-anchor=\"middle\">%s</text>\n", left + width / 2, top + 16, crate
}

function fill_of(crate) { return inner[crate] ? "#f4f4f4" : "#dbe6f4" }

END {
    reach()
    for (i = 1; i <= crates; i++) bar[name[i]] = is_top(name[i]) ? "top" : (is_bottom(name[i]) ? "bottom" : "")
    for (i = 1; i <= crates; i++) if (is_drawn_so(name[i]) && height_of(name[i]) > levels) levels = height[name[i]]
    wide = widest()
    for (round = 1; round <= 9; round++) for (l = 1; l <= levels; l++) place(l)
    all = 70 * levels + 120
    printf "<svg xmlns=\"http://www.w3.org/2000/svg\" viewBox=\"0 0 %d %d\" font-family=\"sans-serif\">\n", wide, all
    printf "<rect width=\"%d\" height=\"%d\" fill=\"white\"/>\n", wide, all
    for (i = 1; i <= crates; i++) {
        for (j = 1; j <= crates; j++) {
            if (at_once(name[i], name[j])) {
                printf "<line x1=\"%g\" y1=\"%g\" x2=\"%g\" y2=\"%g\" stroke=\"#89a\"%s/>\n",
                    x[name[i]], y[name[i]] + 12, x[name[j]], y[name[j]] - 12,
                    (y[name[j]] - y[name[i]] > 70 ? " stroke-dasharray=\"3 4\"" : "")
            }
        }
    }
    for (i = 1; i <= crates; i++) {
        c = name[i]
        if (bar[c] == "top") box(c, 10, 10 + 30 * tops++, wide - 20, fill_of(c))
        else if (bar[c] == "bottom") box(c, 10, all - 40, wide - 20, fill_of(c))
        else box(c, x[c] - width_of(c) / 2, y[c] - 12, width_of(c), fill_of(c))
    }
    print "</svg>"
}
