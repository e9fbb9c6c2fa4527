#!/usr/bin/env bash
# waveforms.sh PROGRAM FOLDER: the waveform of each example on four units, of at most 2,000 events, as a value change dump (.vcd), as GTKWave's own
# form (.fst), which shows that the dump can be read, and as a picture of GTKWave's window (.png).
# PROGRAM is a built multiscalar. Needs Debian's packages gtkwave, xvfb and imagemagick.
set -euo pipefail

program=$(readlink -f "$1")
mkdir -p "$2"
folder=$(readlink -f "$2")
cd "$(dirname "$(readlink -f "$0")")"

# Shows every signal, and the whole run.
signals=$folder/signals.tcl
cat >"$signals" <<'TCL'
set names [list]
for {set i 0} {$i < [gtkwave::getNumFacs]} {incr i} { lappend names [gtkwave::getFacName $i] }
gtkwave::addSignalsFromList $names
gtkwave::/Time/Zoom/Zoom_Full
TCL

display=:97
Xvfb $display -screen 0 1600x1000x24 >/dev/null 2>&1 &
server=$!
trap 'kill $server 2>/dev/null || true' EXIT

failed=0
for text in */program.s; do
    name=${text%/program.s}
    if ! "$program" check --least "$text" >/dev/null; then
        printf '%s: its marks are wrong, so it has no run\n' "$name"
        continue
    fi
    # A run may end by a trap or by its budget: it has a waveform all the same.
    "$program" run --least --schedule steps --budget 2000 --emit vcd "$text" >"$folder/$name.vcd" || true
    if ! vcd2fst "$folder/$name.vcd" "$folder/$name.fst" >"$folder/$name.log" 2>&1 || [ ! -s "$folder/$name.fst" ]; then
        printf '%s: vcd2fst refuses it\n' "$name"
        failed=1
        continue
    fi
    DISPLAY=$display timeout 60 gtkwave -S "$signals" "$folder/$name.vcd" >>"$folder/$name.log" 2>&1 &
    viewer=$!
    sleep 5
    DISPLAY=$display import -window root "$folder/$name.png" || failed=1
    kill $viewer 2>/dev/null || true
    wait $viewer 2>/dev/null || true
    printf '%s: %s bytes of dump, %s of fst\n' "$name" "$(stat -c %s "$folder/$name.vcd")" "$(stat -c %s "$folder/$name.fst")"
done
exit $failed
