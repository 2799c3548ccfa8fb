# Draws how far a ratio is off when the oxygen field is too high by 0.01 %, over the oxygen deficiency, and prints the worked
# example: Graham's ratio 100 * CO / (0.265 * N2 - O2) at two places, as it is and with that fault.

function ratio(co, deficiency) { return 100 * co / deficiency }

function log10(x) { return log(x) / log(10) }

# The deficiency from 20 % on the left to 0.0111 % on the right; the factor from 1 below to 10 above, both by powers of ten.
function across(deficiency) { return 80 + (log10(20) - log10(deficiency)) / (log10(20) - log10(0.0111)) * 600 }

function up(factor) { return 300 - log10(factor) * 240 }

function text(x, y, size, anchor, words) {
    printf "<text x=\"%g\" y=\"%g\" font-size=\"%d\" text-anchor=\"%s\">%s</text>\n", x, y, size, anchor, words >out
}

function line(x1, y1, x2, y2, look) {
    printf "<line x1=\"%g\" y1=\"%g\" x2=\"%g\" y2=\"%g\" %s/>\n", x1, y1, x2, y2, look >out
}

function example(place, n2, o2, co, right,    d, x, y, factor) {
    d = 0.265 * n2 - o2
    factor = d / (d - fault)
    printf "| %s | %.2f | %.2f | %.4f | %.4f | %.3f | %.3f |\n", place, n2, o2, co, d, ratio(co, d), ratio(co, d - fault)
    x = across(d)
    y = up(factor)
    printf "<circle cx=\"%g\" cy=\"%g\" r=\"5\" fill=\"#b03030\"/>\n", x, y >out
    text(x + (right ? -10 : 8), y - 10, 13, right ? "end" : "start", place sprintf(", %.4g %%: %.3f times", d, factor))
}

BEGIN {
    fault = 0.01
    print "<svg xmlns=\"http://www.w3.org/2000/svg\" viewBox=\"0 0 760 370\" font-family=\"sans-serif\">" >out
    print "<rect width=\"760\" height=\"370\" fill=\"white\"/>" >out
    text(380, 24, 15, "middle", "The oxygen field is 0.01 % too high: how many times too high is the ratio?")
    for (factor = 1; factor <= 10; factor += (factor < 3 ? 1 : (factor < 5 ? 2 : 5))) {
        line(80, up(factor), 680, up(factor), "stroke=\"#ddd\"")
        text(72, up(factor) + 4, 12, "end", factor " times")
    }
    ticks = split("20 10 3 1 0.3 0.1 0.03", tick, " ")
    for (i = 1; i <= ticks; i++) {
        line(across(tick[i]), 300, across(tick[i]), 306, "stroke=\"#333\"")
        text(across(tick[i]), 322, 12, "middle", tick[i] " %")
    }
    line(80, 300, 680, 300, "stroke=\"#333\"")
    text(380, 350, 13, "middle", "oxygen deficiency, 0.265 * N2 - O2; fresh air is at the right")
    printf "<path fill=\"none\" stroke=\"#33567f\" stroke-width=\"2\" d=\"M" >out
    for (i = 0; i <= 300; i++) {
        d = 20 * exp(i / 300 * log(0.01112 / 20))
        printf "%s%.1f %.1f", (i ? "L" : ""), across(d), up(d / (d - fault)) >out
    }
    print "\"/>" >out
    print "| place | N2, % | O2, % | CO, % | deficiency, % | ratio | with O2 0.01 % too high |"
    print "|---|---|---|---|---|---|---|"
    example("old goaf", 86.00, 9.79, 0.0060, 0)
    example("fresh air", 79.04, 20.93, 0.0001, 1)
    print "</svg>" >out
}
