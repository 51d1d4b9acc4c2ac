#!/bin/sh
# Has Stella play inputs as text from power-on, and writes a memory log for vcs_sync:
#
#   stella.sh GAME INPUTS LOG [BOARD]
#
# BOARD is the game's board, as vcs_import calls it; without it Stella finds one by itself. Stella runs with its debugger, on a screen
# in memory if there is none (Debian: apt-get install stella xvfb xauth). A frame ends when the program clears bit 1 of VSYNC, and its
# line is what memory holds then.
#
# Set is power-on as docs/MACHINE.md has it, as far as options and debugger can: memory 0, the board's banks, A, X, Y, S, and P but
# for I, a timer with an interval of 1024 cycles and one to go, and HMCLR. If the inputs have words of the console's switches, the
# latch and direction of port B are set in each frame, since the debugger has no command for switches. Bits of the TIA's registers
# that nothing drives are not set: in Stella they are what was on the bus.
#
# On 3F Stella's debugger sees no write to 0000 to 003F. Of a game that writes VSYNC there no frame ends, and after minutes nothing is
# written.
#
# Status: 0 the log is written; 1 Stella ended before the inputs did, and the log has the frames until then; 2 nothing was written.
set -u

# stop WORD..: ends the run with an error.
stop() {
    echo "stella.sh: $*" >&2
    exit 2
}

[ $# -eq 3 ] || [ $# -eq 4 ] || { sed -n '2,/^set /{ /^set /d; s/^# \{0,1\}//p; }' "$0" >&2; exit 2; }
PATH=$PATH:/usr/games
game=$1 inputs=$2 log=$3 board=${4-}
case $board in
    '' | 2K | 4K | F8 | F8SC | F6 | F6SC | F4 | F4SC | FA | E0 | 3F | FE | E7 | UA | CV | 0840 | F0 | 0FA0) ;;
    *) stop "no board is called $board" ;;
esac
for file in "$game" "$inputs"; do
    if [ ! -f "$file" ] || [ ! -r "$file" ]; then stop "cannot read $file"; fi
done
[ ! -d "$log" ] || stop "$log is a folder"
command -v stella >/dev/null || stop 'stella is not installed'
if [ -n "${DISPLAY-}" ]; then
    screen=
else
    for needed in xvfb-run xauth; do command -v "$needed" >/dev/null || stop "no screen, and $needed is not installed"; done
    screen='xvfb-run -a'
fi
work=$(mktemp -d) || exit 2
trap 'rm -rf "$work"' EXIT
trap 'exit 2' HUP INT TERM
mkdir "$work/base"
cp -- "$game" "$work/cartridge.bin" || exit 2

# The debugger's script, and the one that it runs for each frame.
printf '%s\n' 'stepWhile { !(_vsync) }' 'stepWhile { _vsync }' 'dump 80 ff 1' >"$work/frame.script"
awk -v work="$work" '
    BEGIN {
        split("up0 down0 left0 right0 fire0 up1 down1 left1 right1 fire1", words)
        split("joy0Up joy0Down joy0Left joy0Right joy0Fire joy1Up joy1Down joy1Left joy1Right joy1Fire", pins)
        for (it in words) pin[words[it]] = pins[it]
        bit["reset"] = 1; bit["select"] = 2; bit["monochrome"] = 8; bit["pro0"] = 64; bit["pro1"] = 128
        print "a 0\nx 0\ny 0\ns ff\nn 0\nv 0\nd 0\nz 0\nc 0\nram 297 0\nram 2b 0"
    }
    function wrong(text) { print "stella.sh: line " NR " of the inputs " text >"/dev/stderr"; is_wrong = 1; exit 2 }
    { sub(/#.*/, ""); gsub(/\r/, " ") }
    !NF { next }
    $1 !~ /^[0-9]+$/ || $1 < 1 { wrong("begins with no number of frames") }
    frames + $1 > 262143 { wrong("brings too many frames") }
    {
        split("", held)
        for (it = 2; it <= NF; it++) {
            if (!($it in pin) && !($it in bit)) wrong("has an unknown word")
            if ($it in bit) is_switched = 1
            held[$it] = 1
        }
        text = ""
        for (it = 1; it <= 10; it++) text = text pin[words[it]] " " (words[it] in held ? 0 : 1) "\n"
        # (bits 0, 1 and 3 are 0 if their words are there, bits 6 and 7 are 1)
        switches = 63
        for (it in bit) if (it in held) switches += bit[it] < 64 ? -bit[it] : bit[it]
        for (count = 0; count < $1; count++) { commands[++frames] = text; port[frames] = switches }
    }
    END {
        if (is_wrong) exit 2
        if (!frames) wrong("is the last, and no frame is in it")
        for (it = 1; it <= frames; it++) {
            printf "%s", commands[it]
            if (is_switched) printf "ram 282 %x\nram 283 ff\n", port[it]
            print "exec " work "/frame.script frame-" it
        }
        print "exitRom"
        print frames >(work "/frames")
    }' "$inputs" >"$work/base/autoexec.script" || exit 2
frames=$(cat "$work/frames")

(
    cd "$work" || exit 2
    export HOME="$work" XDG_RUNTIME_DIR="$work" SDL_AUDIODRIVER=dummy
    # shellcheck disable=SC2086
    exec timeout -k 10 $((200 + 2 * frames)) $screen stella -debug -basedir "$work/base" -video software -audio.enabled 0 -confirmexit 0 \
        -exitlauncher 0 -dev.settings 1 -dev.ramrandom 0 -dev.tiarandom 0 -dev.tiadriven 0 -dev.bankrandom 0 \
        ${board:+-bs "$board"} cartridge.bin
) >"$work/said" 2>&1


# (Stella names a dump after what its list knows of the cartridge)
{
    echo '# Stella, power-on set'
    command -v sha1sum >/dev/null && echo "# cartridge sha1 $(sha1sum <"$work/cartridge.bin" | cut -d ' ' -f 1)"
    frame=1
    while [ "$frame" -le "$frames" ]; do
        set -- "$work"/*_dbg_"frame-$frame.dump"
        [ -f "$1" ] || break
        echo "$frame $(sed 's/^..://; s/[^0-9a-f]//g' "$1" | tr -d '\n')"
        frame=$((frame + 1))
    done
    echo $((frame - 1)) >"$work/done"
} >"$work/log"
written=$(cat "$work/done")
[ "$written" -gt 0 ] || stop "Stella saw no frame end: $(tail -n 1 "$work/said")"
if [ -f "$log" ] || [ ! -e "$log" ]; then
    cp -- "$work/log" "$log.new" && mv -f -- "$log.new" "$log" || exit 2
else
    cat "$work/log" >"$log" || exit 2
fi
[ "$written" -eq "$frames" ] || { echo "stella.sh: Stella ended after $written of $frames frames" >&2; exit 1; }
