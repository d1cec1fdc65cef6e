#!/bin/sh
# A small survey: eight star fields are detected side by side, one process for each, and one `maxsurvey` adds what they made.
# usage: sh examples/survey_fields.sh MAXDETECT MAXSURVEY [FOLDER]      (the built programs; survey_fields, if FOLDER is left out)
set -eu
if [ $# -lt 2 ]; then
    sed -n 3p "$0" >&2
    exit 2
fi
here=$(cd "$(dirname "$0")" && pwd)
detect=$(realpath "$1")
survey=$(realpath "$2")
folder=${3:-survey_fields}
mkdir -p "$folder"
cd "$folder"
export here detect

# each field in a process of its own, on every processor that is there; a catalogue that is there already isn't made again
seq 1 8 | xargs -P "$(nproc)" -I N sh -c '
    test -e field-N.cat.fits && exit 0
    python3 "$here/star_field.py" 256 256 N > field-N.fits
    "$detect" detect --threshold 100 --min-area 5 --mesh 64 --connect 8 < field-N.fits > field-N.part
    mv field-N.part field-N.cat.fits'

# one process adds them all, in one order
words=
for number in $(seq 1 8); do
    words="$words add field-$number"
done
# shellcheck disable=SC2086
for number in $(seq 1 8); do
    cat "field-$number.cat.fits"
done | "$survey" --file survey.db $words list brightest 3
