#!/bin/sh
# Draws a plan as SVG: target/bin/planner <runs/planner/picture.in | scripts/plan-picture.sh >docs/plan.svg
# Standard input is a plan, a line SET FIRST RATE for each block. Each set is a rectangle of its 32,768 indices: the
# column is the index modulo 64, the row the index div 64. So a block of rate 9 or more is whole columns, and one of a
# lower rate is marks in one column.
set -eu

awk '
function colour(n) { return sprintf("hsl(%d,60%%,%d%%)", n * 137 % 360, 48 + n % 3 * 9) }
function box(x, y, w, h, fill) {
    printf "<rect x=\"%.2f\" y=\"%.2f\" width=\"%.2f\" height=\"%.2f\" fill=\"%s\"/>\n", x, y, w, h, fill
}
function label(x, y, size, anchor, words) {
    printf "<text x=\"%.2f\" y=\"%.2f\" font-size=\"%d\" text-anchor=\"%s\">%s</text>\n", x, y, size, anchor, words
}
function letter(set) { return substr("ABC", set + 1, 1) }
BEGIN {
    columns = 64; rows = 512; wide = 10; high = 0.5; left = 60; top = 76; gap = 70
    legend = left + columns * wide + 30
    width = legend + 400; height = top + 3 * (rows * high + gap) - 20
    printf "<svg xmlns=\"http://www.w3.org/2000/svg\" width=\"%d\" height=\"%d\" ", width, height
    printf "viewBox=\"0 0 %d %d\" font-family=\"sans-serif\" fill=\"#222\">\n", width, height
    box(0, 0, width, height, "#fff")
    label(left, 34, 18, "start", "A plan: which slots of the three sets each block has")
    for (set = 0; set < 3; set++) {
        y[set] = top + set * (rows * high + gap)
        box(left, y[set], columns * wide, rows * high, "#e8e8e8")
        label(left - 16, y[set] + rows * high / 2 + 8, 24, "end", letter(set))
        label(left, y[set] + rows * high + 16, 11, "start", "index mod 64 = 0")
        label(left + columns * wide, y[set] + rows * high + 16, 11, "end", "63")
        label(left + columns * wide / 2, y[set] + rows * high + 16, 11, "middle", "downwards: index div 64, 0 to 511")
    }
}
{
    set = index("ABC", $1) - 1; first = $2; rate = $3; fill = colour(NR)
    step = 2 ^ (15 - rate)
    if (step <= columns) {
        for (c = first; c < columns; c += step) box(left + c * wide, y[set], wide - 1, rows * high, fill)
    } else {
        mark = step / columns * high / 2; if (mark > 3) mark = 3
        for (i = first; i < columns * rows; i += step)
            box(left + i % columns * wide, y[set] + int(i / columns) * high, wide - 1, mark, fill)
    }
    given[set] += 2 ^ rate
    line = top + (NR - 1) * 26
    box(legend, line, 14, 14, fill)
    label(legend + 22, line + 12, 13, "start", \
        sprintf("%s %d %d: %d slots, index mod %d = %d", $1, first, rate, 2 ^ rate, step, first))
}
END {
    label(legend, top - 10, 13, "start", "blocks in the rates\047 order: SET FIRST RATE")
    for (set = 0; set < 3; set++)
        label(left, y[set] - 10, 13, "start", sprintf("set %s: %d of 32768 slots given out", letter(set), given[set]))
    print "</svg>"
}'
