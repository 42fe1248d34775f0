#!/bin/sh
# What measured figures of runs of P give: the plot and the tables of docs/PLANNING.md.
#   tests/planning.sh            writes docs/planning/runs.svg and the page's tables from docs/planning/figures.txt
#   tests/planning.sh --check    says whether both are what these figures give
#   tests/planning.sh FIGURES    shows the tables of another machine's figures, and draws target/tests/runs.svg

set -eu
LC_ALL=C
export LC_ALL

case ${1-} in
'' | --check | /*) given=${1-} ;;
*) given=$PWD/$1 ;;
esac
cd "$(dirname "$0")/.."

page=docs/PLANNING.md
plot=docs/planning/runs.svg
begin='<!-- From here to the next comment: written by tests/planning.sh from docs/planning/figures.txt. -->'
end='<!-- End of what tests/planning.sh writes. -->'
built=target/tests
mkdir -p "$built"

# What the figures give as a picture, as the page's tables or as a table for the screen.
made() { # WHAT FIGURES
    (
        cd tests/planning
        awk -f formula.awk -f figures.awk -f deviations.awk -f spoken.awk -f drawing.awk -f "$1.awk"
    ) <"$2"
}

# The page with these tables between its two comments.
page_with() { # TABLES
    awk -v tables="$1" -v begin="$begin" -v end="$end" '
        $0 == end { within = 0; ends++ }
        !within
        $0 == begin { within = 1; begins++; while ((getline line <tables) > 0) print line }
        END { exit !(begins == 1 && ends == 1 && !within) }' "$page" || {
        echo "$0: $page has not both comments once, one after the other" >&2
        return 1
    }
}

same() { # FILE MADE
    cmp -s "$1" "$2" && return
    echo "$1 is not what docs/planning/figures.txt gives; tests/planning.sh writes it anew:"
    diff "$1" "$2" | head -n 10
    return 1
}

case $given in
'' | --check)
    made plot docs/planning/figures.txt >"$built/plot.svg"
    made page docs/planning/figures.txt >"$built/tables.md"
    page_with "$built/tables.md" >"$built/page.md"
    if [ "$given" = --check ]; then
        same "$plot" "$built/plot.svg"
        same "$page" "$built/page.md"
        echo "$page and $plot are what docs/planning/figures.txt gives"
    else
        cp "$built/plot.svg" "$plot"
        cp "$built/page.md" "$page"
    fi
    ;;
*)
    made screen "$given"
    made plot "$given" >"$built/runs.svg"
    echo "the plot of these figures is $built/runs.svg"
    ;;
esac
