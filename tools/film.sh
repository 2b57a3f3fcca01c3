#!/bin/sh
# Makes a film of raw frames, or numbered PNG pictures.
#
#     film.sh [--rate R] [--background RRGGBB] BASE FROM TO FILM.mp4
#     film.sh [--background RRGGBB] BASE FROM TO PICTURE.%04d.png
#
# The frames are BASE.NNNN.xfr for the rows FROM to TO. FILM ends in .mp4 or .mov (H.264, for showing) or in .mkv
# (FFV1, which loses nothing). R is the frames a second, 24 if nothing else is said, or a fraction as 24000/1001. A
# film lies over the background, black if nothing else is said; PNG pictures lie over one only where it is named, and
# keep their alpha else. It needs ffmpeg. Each frame is looked at first, and nothing is left half written.
#
# shellcheck disable=SC2015 # in A && B || fail, either may fail
set -u

fail() {
    echo "film: $*" >&2
    exit 1
}

is_number() {
    case $1 in '' | *[!0-9]* | ???????*) return 1 ;; esac
}

is_rate() {
    is_number "${1%%/*}" && is_number "${1#*/}" && [ "${1%%/*}" -gt 0 ] && [ "${1#*/}" -gt 0 ]
}

is_colour() {
    case $1 in *[!0-9a-fA-F]*) return 1 ;; ??????) ;; *) return 1 ;; esac
}

pixels() {
    python3 -B "$here/frame_pixels.py" "$@" -- "$base" "$from" "$to"
}

# Runs ffmpeg on the pixels of the frames with these words behind its input.
encode() {
    if [ -n "$background" ]; then
        pixels --over "$background" 2> "$work/pixels"
    else
        pixels 2> "$work/pixels"
    fi | ffmpeg -v error -nostdin -f rawvideo -pix_fmt "$form" -video_size "$size" -framerate "$rate" -i pipe:0 "$@" \
        2> "$work/said" || fail "ffmpeg failed: $(head -n 1 "$work/said")"
    [ ! -s "$work/pixels" ] || fail "$(tail -n 1 "$work/pixels")"
}

put() {
    mv -f -- "$1" "$2" 2> "$work/said" || fail "$2 cannot be written"
}

make_lossless() {
    encode -c:v ffv1 -level 3 -pix_fmt bgr0 -f matroska "$work/film"
    put "$work/film" "$film"
}

# Players show the colours as they are meant only where the film says how they are coded. Sides are made even.
make_film() {
    encode -vf "pad=ceil(iw/2)*2:ceil(ih/2)*2:color=0x$background,scale=out_color_matrix=bt709:out_range=tv,format=yuv420p" \
        -c:v libx264 -crf 14 -colorspace bt709 -color_primaries bt709 -color_trc bt709 -color_range tv \
        -movflags +faststart -f "${film##*.}" "$work/film"
    put "$work/film" "$film"
}

make_pictures() {
    encode -start_number "$from" "$work/%04d.png"
    row=$from
    while [ "$row" -le "$to" ]; do
        # shellcheck disable=SC2059 # the name is the pattern
        put "$work/$(printf %04d "$row").png" "$(printf "$film" "$row")"
        row=$((row + 1))
    done
}

here=$(cd "$(dirname "$0")" && pwd) || exit 1
rate=24 background=''
while :; do
    case ${1-} in
        --rate) rate=${2-} && is_rate "$rate" || fail "--rate needs a number, or a fraction such as 24000/1001" ;;
        --background) background=${2-} && is_colour "$background" || fail "--background needs a colour such as 203040" ;;
        -*) fail "there is no option $1" ;;
        *) break ;;
    esac
    shift 2
done
[ $# -eq 4 ] || fail "the words are BASE FROM TO FILM"
is_number "$2" && is_number "$3" || fail "FROM and TO are rows"
base=$1 film=$4 form=rgb24
# Leading zeros would make a number octal.
from=$(echo "$2" | sed 's/^0*\(.\)/\1/') to=$(echo "$3" | sed 's/^0*\(.\)/\1/')
case $film in
    *.mp4 | *.mov) make=make_film background=${background:-000000} ;;
    *.mkv) make=make_lossless background=${background:-000000} ;;
    *%*%* | *%*/*) fail "$film has more than one number" ;;
    *%d*.png | *%0[1-9]d*.png) make=make_pictures && [ -n "$background" ] || form=rgba ;;
    *) fail "$film ends in none of .mp4, .mov and .mkv, and is no name such as walk.%04d.png" ;;
esac
command -v ffmpeg > /dev/null || fail "ffmpeg is missing: apt-get install ffmpeg"
size=$(pixels --size) || exit 1
size="${size% *}x${size#* }"
folder=$(dirname -- "$film")
[ -d "$folder" ] || fail "there is no folder $folder"
work=$(mktemp -d "$folder/.film.XXXXXX") || fail "nothing can be written into $folder"
trap 'rm -rf "$work"' EXIT
trap 'exit 130' INT HUP TERM
$make
