#!/usr/bin/env bash
# Looks at the pages of `tape explain --html`, `tape statement --html` and `tape jam --html` in headless Chromium,
# 1,280 and 390 pixels wide and as on paper, in the light and in the dark: no element stands over the edge, every
# text fits its box and can be read by its computed contrast, states can be told apart without colour, and the
# numbers are those of --json.
# Where there is no Chromium it is installed from Debian's packages if CI is set; where none can be had,
# nothing is tested, the last line says `not run`, and the status is 3.
# Usage: test-page.sh [TOOL]
set -euo pipefail
cd "$(dirname "$0")/.."

tool=${1:-build/release/tape}
not_run=3
# The pixels of an A4 page between its margins.
paper=718
folder=$(mktemp -d)
trap 'rm -rf "$folder"' EXIT

browser() { command -v chromium || command -v chromium-browser || command -v google-chrome; }

if ! browser >/dev/null && [ -n "${CI:-}" ]; then
    echo 'there is no Chromium: it is installed from the packages of Debian'
    { apt-get update && apt-get install -y --no-install-recommends chromium fonts-dejavu-core; } \
        >"$folder/install" 2>&1 || tail -n 3 "$folder/install"
fi
chromium=$(browser) || {
    echo 'the pages in a browser: not run, there is no Chromium: apt install chromium'
    exit "$not_run"
}

# A page with the check and the facts in it, in a frame of so many pixels: a window may be no narrower
# than the browser likes.
framed() { # PAGE FACTS WIDTH OUT MEDIUM
    {
        sed '/<\/body>/,$d' "$1"
        printf '<script type="application/json" id="facts" data-%s>[\n' "$5"
        sed '$!s/$/,/' "$2"
        printf ']</script>\n<script>\n'
        cat scripts/page-check.js
        printf '</script>\n</body>\n</html>\n'
    } >"$folder/inner.html"
    {
        printf '<!DOCTYPE html><meta charset="utf-8"><body style="margin:0"><iframe id="frame" style="border:0;width:%spx;height:900px" srcdoc="' "$3"
        sed 's/&/\&amp;/g; s/"/\&quot;/g' "$folder/inner.html"
        printf '"></iframe><script>onload = () => { const frame = document.getElementById("frame");'
        printf 'const told = frame.contentDocument.getElementById("result");'
        printf 'document.body.innerHTML = ""; document.body.append(told || "nothing"); };</script>\n'
    } >"$4"
}

# Asks a page at a width.
ask() { # NAME PAGE FACTS WIDTH [MEDIUM]
    framed "$2" "$3" "$4" "$folder/framed.html" "${5:-screen}"
    nice "$chromium" --headless --no-sandbox --disable-gpu --hide-scrollbars --window-size=1400,1000 --virtual-time-budget=60000 \
        --user-data-dir="$folder/user" --dump-dom "file://$folder/framed.html" >"$folder/dom" 2>"$folder/said" ||
        { echo "$1: the browser failed"; tail -n 3 "$folder/said"; exit 1; }
    sed -n '/<pre id="result">/,/^end/p' "$folder/dom" | sed 's/^.*<pre id="result">//; /^end/d' >"$folder/result"
    mapfile -t told <"$folder/result"
    [ "${told[0]:-}" = checked ] || { echo "$1, $4 pixels: the page was not checked"; exit 1; }
    [ "${told[1]}" = "$4" ] || { echo "$1: ${told[1]} pixels wide instead of $4"; exit 1; }
    if [ "${#told[@]}" -gt 6 ]; then
        echo "$1, $4 pixels: $((${#told[@]} - 6)) faults"
        printf '  %s\n' "${told[@]:6:12}"
        exit 1
    fi
    echo "$1, $4 pixels: ${told[2]} elements inside the edge, ${told[3]} texts read by their contrast, ${told[5]} rows of numbers compared"
}

# A market of 63 receivers in 16 issues, in the new order, partly delivered.
market() {
    printf 'turn 1\nclose\ncutoff\nroll 1 300 100000 accrued 0\n'
    awk 'BEGIN { for (i = 0; i < 16; i++) for (a = 1; a < 64; a++) print "trade", i, 0, a, 1 + (a * 7919 + i * 104729) % 290000 }'
    echo close
    awk 'BEGIN { for (i = 0; i < 16; i++) for (k = 0; k < 6; k++) print "deliver", i, 0, 100001 + (i * 6 + k) * 7777 }'
    printf 'cutoff\nroll 1 300 100000 accrued 0\n'
}

look() { # NAME TAPE WORDS..: the page of these words; an account's is compared with the facts of all
    local name=$1 tape=$2
    shift 2
    "$tool" explain --html "$@" "$tape" >"$folder/page.html"
    case ${1:-} in --account) shift 2 ;; esac
    "$tool" explain --json "$@" "$tape" >"$folder/facts"
    everywhere "$name"
}

look_at() { # NAME VERB WORDS..: the page of a verb with one table, and its facts
    "$tool" "$2" --html "${@:3}" >"$folder/page.html"
    "$tool" "$2" --json "${@:3}" >"$folder/facts"
    everywhere "$1"
}

everywhere() { # NAME: asks the page at each width, and as on paper
    local width
    for width in 1280 390; do ask "$1" "$folder/page.html" "$folder/facts" "$width"; done
    ask "$1, on paper" "$folder/page.html" "$folder/facts" "$paper" paper
}

market >"$folder/market.txt"
for name in two-days change-over p5-to-p9 fails-statement; do
    look "tapes/$name.txt" "tapes/$name.txt"
done
look 'one day of two' tapes/two-days.txt --day 1
for account in 30 33 11; do
    look "account $account in two days" tapes/two-days.txt --account "$account"
done
look 'two days by names' tapes/two-days.txt --names tapes/two-days.names
look 'account Ginza by names' tapes/two-days.txt --account Ginza --names tapes/two-days.names
look '16 issues and 63 receivers' "$folder/market.txt"
look_at 'one statement' statement tapes/fails-statement.txt 0 4
for name in fails-statement two-days; do look_at "statements of tapes/$name.txt" statement --all "tapes/$name.txt"; done
look_at 'unit sizes' jam tapes/ring.txt tapes/ring.desk

# A check that cannot fail is none: a page with a wrong number, one too wide and one that is pale are refused.
refused() { # WHAT EDIT
    sed "$2" "$folder/sound.html" >"$folder/edited.html"
    cmp -s "$folder/sound.html" "$folder/edited.html" && { echo "$1: the edit changed nothing"; exit 1; }
    if (ask "$1" "$folder/edited.html" "$folder/facts" 390) >"$folder/told"; then
        echo "$1: not seen"
        exit 1
    fi
    grep -q 'faults$' "$folder/told" || { cat "$folder/told"; exit 1; }
}
"$tool" explain --html tapes/two-days.txt >"$folder/sound.html"
"$tool" explain --json tapes/two-days.txt >"$folder/facts"
refused 'a wrong number' 's/<td>60,500<\/td>/<td>60,501<\/td>/'
refused 'a unit in another state' '0,/<b class="badge handed">handed<\/b><\/td>/s//<b class="badge failed">failed<\/b><\/td>/'
refused 'an element that is too wide' 's/<h1>/<h1 style="width:500px">/'
refused 'a text over its box' 's/display: flow-root;/display: block; height: 1em;/'
refused 'a pale text' 's/--on-handed: #ffffff/--on-handed: #66aacc/'
refused 'states by colour alone' 's/border-style: d[a-z]*;//; s/repeating-linear-gradient([^;]*;/var(--ink);/'
"$tool" statement --all --html tapes/fails-statement.txt >"$folder/sound.html"
"$tool" statement --all --json tapes/fails-statement.txt >"$folder/facts"
refused 'a wrong number of a statement' 's/<td>130<\/td>/<td>131<\/td>/'
refused 'a bar that is too long' 's/width:69.23%/width:70.23%/'
refused 'states of a statement by colour alone' 's/border-style: d[a-z]*;//; s/repeating-linear-gradient([^;]*;/var(--ink);/'
echo 'the pages in a browser: as they must be'
