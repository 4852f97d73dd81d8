#!/bin/sh
# check.sh: tries wrong words and wrong sheets, then draws each patient of this folder through the machine, for today's rooms and for interlaced
# ones, and holds the picture to what the file says. Nothing here comes from the chart program: where a mark must stand is worked out from the
# file in awk, by the audiogram's axes (an octave is 64 pixels from 125 Hz at column 112, 10 dB are 32 pixels from -10 dB at line 36).
set -eu
here=$(cd "$(dirname "$0")" && pwd -P)
chart=$("$here/../run" --command chart)
draw=$("$here/../run" --command draw)
temp=$(mktemp -d)
trap 'rm -rf "$temp"' EXIT
trap 'exit 1' HUP INT TERM
chart() { eval "$chart" '"$@"'; }
draw() { eval "$draw"; }
fault() { echo "$1"; exit 1; }

# wrong SHEET MESSAGE [WORDS..]: the sheet, asked for with the words, gets that message on standard error and nothing on standard output.
wrong() {
    sheet=$1 message=$2
    shift 2
    said=$(printf "$sheet" | chart "$@" 2>&1 >"$temp/script")
    [ "$said" = "$message" ] || fault "'$said', and '$message' is right"
    [ ! -s "$temp/script" ] || fault "a script after '$message'"
}
room='chart: no such room; usage: chart < PATIENT, or chart interlaced < PATIENT'
wrong '1000 0 0\n' "$room" interlace
wrong '1000 0 0\n' "$room" interlaced.
wrong '1000 0 0\n' "$room" Interlaced
wrong '1000 0 0\n' "$room" ''
wrong '1000 0 0\n' "$room" interlaced interlaced
wrong '1000 0 0\n' "$room" interlaced ''
echo "six wrong words: each told, and no script"
# no word, and the one word there is
for word in '' interlaced; do
    wrong '1100 0 0\n' 'line 1: unknown frequency' $word
    wrong '; Hz\n\n1000 0 0\n1000 5 5\n' 'line 4: frequency given twice' $word
    wrong '125 0 0\r\n1000 0\r\n' 'line 2: missing ear' $word
    wrong '1000\t0 0 0' 'line 1: too many words' $word
    wrong '1000 x 0\n' 'line 1: level not a number' $word
    wrong '1000 0 125\n' 'line 1: level out of range, -10 to 120' $word
    wrong '1000 -15 0\n' 'line 1: level out of range, -10 to 120' $word
    wrong '1000 0 12\n250 0\n' 'line 1: level not a step of 5' $word
    wrong "$(printf '%1001s' 250) 0 0\n" 'line 1: line too long' $word
    wrong "$(printf '125 0 0\n%1200s' 250) 0 0\n" 'line 2: line too long' $word
done
echo "ten wrong sheets, for both rooms: each named, and no script"

# drawn TITLE PICTURE ABOVE [WORD]: the patient's chart as a file, which has so many rows above the chart's line 0 and below its last, held to
# what the patient's file says.
drawn() {
    title=$1 picture=$2 above=$3
    shift 3
    { chart "$@" <"$patient" | draw >"$picture"; } 2>"$temp/said"
    [ ! -s "$temp/said" ] || fault "$title: $(head -n 1 "$temp/said")"
    { printf 'P6\n640 %d\n255\n' $((480 + 2 * above)); tail -c +16 "$picture"; } | cmp -s - "$picture" || fault "$title: not the head of its picture"
    # each row becomes a line, and each pixel nine characters of it, as " ff 00 00"
    tail -c +16 "$picture" | od -An -v -tx1 -w1920 | awk -v title="$title" -v above="$above" '
    function octaves(hz) { return hz == 750 ? 2.5 : hz == 1500 ? 3.5 : hz == 3000 ? 4.5 : hz == 6000 ? 5.5 : log(hz / 125) / log(2) }
    function wrong(what) { print title ": " what; bad = 1; exit 1 }
    function pixel(x, y) { return substr(row[y + above], 9 * x + 2, 8) }
    # the distance of (x, y) from what an ear has drawn: its marks, the lines between them, its key
    function off(x, y, ear,   k, d, best, dx, dy, ex, ey, t) {
        best = 1000
        for (k = 1; k <= count[ear]; k++) {
            dx = x - px[ear, k]; dy = y - py[ear, k]
            d = sqrt(dx * dx + dy * dy) - 9
            if (d < best) best = d
            if (k < count[ear]) {
                ex = px[ear, k + 1] - px[ear, k]; ey = py[ear, k + 1] - py[ear, k]
                t = (dx * ex + dy * ey) / (ex * ex + ey * ey)
                t = t < 0 ? 0 : t > 1 ? 1 : t
                dx -= t * ex; dy -= t * ey
                d = sqrt(dx * dx + dy * dy) - 1.5
                if (d < best) best = d
            }
        }
        if (count[ear]) { d = sqrt((x - 556) ^ 2 + (y - (ear == 1 ? 52 : 84)) ^ 2) - 9; if (d < best) best = d }
        return best
    }
    BEGIN { red = "ff 00 00"; blue = "00 00 ff"; white = "ff ff ff"; grey = "60 60 60"; black = "00 00 00" }
    NR == FNR && (/^[ \t]*;/ || NF == 0) { next }
    NR == FNR {
        for (ear = 1; ear <= 2; ear++) if ($(ear + 1) != "-") {
            k = ++count[ear]; px[ear, k] = int(112 + 64 * octaves($1) + 0.5); py[ear, k] = 36 + ($(ear + 1) + 10) / 10 * 32
        }
        next
    }
    { row[rows++] = $0 }
    END {
        if (bad) exit 1
        if (rows != 480 + 2 * above || length(row[rows - 1]) != 9 * 640) wrong("no whole picture")
        for (k = 1; k <= count[1]; k++) {
            x = px[1, k]; y = py[1, k]
            if (pixel(x + 7, y) pixel(x - 7, y) pixel(x, y + 7) pixel(x, y - 7) != red red red red) wrong("no red circle at " x ", " y)
            if (pixel(x + 5, y + 5) == red && off(x + 5, y + 5, 1) > -7 && pixel(x, y) == red) wrong("a filled circle at " x ", " y)
        }
        for (k = 1; k <= count[2]; k++) for (i = -5; i <= 5; i += 10) for (j = -5; j <= 5; j += 10) {
            x = px[2, k] + i; y = py[2, k] + j; c = pixel(x, y)
            if (c != blue && !(c == red && off(x, y, 1) <= 0)) wrong("no blue cross at " px[2, k] ", " py[2, k])
        }
        for (y = 0; y < 480; y++) {
            line = row[y + above]
            for (x = 0; x < 640; x++) {
                c = substr(line, 9 * x + 2, 8)
                if (c == white || c == grey) continue
                if (c == red) { reds++; if (off(x, y, 1) > 0) wrong("red at " x ", " y " where the right ear has nothing") }
                else if (c == blue) { blues++; if (off(x, y, 2) > 0) wrong("blue at " x ", " y " where the left ear has nothing") }
                else wrong("colour " c " at " x ", " y)
            }
        }
        if ((count[1] == 0) != (reds == 0) || (count[2] == 0) != (blues == 0)) wrong("an ear is shown that was not measured, or not shown that was")
        # the two half rows: a line is 196 units of four pixels, half of it is 98, and Display begins 30 units in, so they part at column 272
        if (above) for (x = 0; x < 640; x++) {
            if (pixel(x, -1) != (x < 272 ? black : white)) wrong("colour " pixel(x, -1) " in column " x " of the half row above")
            if (pixel(x, 480) != (x < 272 ? white : black)) wrong("colour " pixel(x, 480) " in column " x " of the half row below")
        }
        print title ": " count[1] + 0 " circles in " reds + 0 " red pixels, " count[2] + 0 " crosses in " blues + 0 " blue pixels, and none elsewhere"
    }' "$patient" -
}

today=$temp/today.ppm woven=$temp/woven.ppm
for patient in "$here"/*.txt; do
    name=$(basename "$patient" .txt)
    drawn "$name" "$today" 0
    drawn "$name, interlaced" "$woven" 1 interlaced
    # without its first row and its last, the woven picture has today's bytes
    { head -c 15 "$today"; tail -c +1936 "$woven" | head -c 921600; } | cmp -s - "$today" || fault "$name: the two rooms show different charts"
done
echo "between its two half rows, each interlaced chart is today's to the byte"
