#!/bin/bash
# Builds the page, and looks at it in a real browser: headless Chromium digs by mouse, fingers and keys, and each block
# that the page shows has to be that of the program for the script that the page saves.
#
#   embed/web/check.sh                 with the program ./terra, which is proved and built first, if it isn't there
#   TERRA_PROGRAM=FILE embed/web/check.sh
#   embed/web/check.sh --picture F.png       writes the page's picture too
#
# It wants what build.sh does, and Debian's nodejs (18 or later) and chromium; for a picture also imagemagick. It serves
# to 127.0.0.1 alone, and ends what it starts.
set -euo pipefail
cd "$(dirname "$0")"
PROGRAM=${TERRA_PROGRAM:-$PWD/../../terra}
SITE=$PWD/../build/web
OUT=$PWD/../build/web-check
LIMIT=1200 # seconds, for a machine that does much else
trap 'echo "embed/web/check.sh: FAILED (line $LINENO)" >&2' ERR

./build.sh
echo "== scripts by the engine's module in Node"
timeout $LIMIT node check/examples.mjs "$SITE" "$PROGRAM" ../../examples/*.jsonl
timeout --foreground $LIMIT node check/drive.mjs "$SITE" "$PROGRAM" "$OUT"
if [ "${1:-}" = --picture ]; then
    convert "$OUT/page.png" +dither -colors 255 -define png:compression-level=9 "$2"
fi
echo "embed/web/check.sh: all passed"
