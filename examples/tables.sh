#!/usr/bin/env bash
# The tables that pages have from other files: in docs/ARCHITECTURE.md the list of crates, from crates.txt and what each crate's own
# text begins with (those of tests by name alone); in docs/COMMANDS.md the commands and the options, from words/table. Prints them; with --write they
# are put into the pages, with --compare they are compared with what the pages have.
set -eu
cd "$(dirname "$0")/.."
how=${1-}

# what a crate's text begins with: up to a stop, a colon after five words or more, or a clause that says more of it
first_sentence() { # NAME
    local root=crates/$1/src/lib.rt
    [ -f "$root" ] || root=crates/$1/src/main.rt
    awk '/^\/\/! ?$/ || !/^\/\/!/ { exit } { sub(/^\/\/! ?/, ""); printf "%s%s", between, $0; between = " " }' "$root" |
        sed -E 's/[.;] .*//; s/[.]$//; s/^(([^ :]+ ){4,}[^ :]+): .*/\1/
            s/^(([^ ]+ ){2,}[^ ,]+), (so that|which|whose|where|whatever|driven|handed|failures|each one|one of each|as a?by|with the|for callers|for those|those that) .*/\1/'
}

crates() {
    local line name heading= printed= between=
    while IFS= read -r line; do
        case $line in
        '# A line for each crate'*) ;;
        '# '*) heading=${line#\# } ;;
        *:*)
            name=${line%%:*}
            name=${name%% *}
            [ "$heading" = "$printed" ] || printf '\n**%s**\n\n' "$heading"
            printed=$heading
            case $heading in
            Tests*) printf '%s`%s`' "$between" "$name" && between=', ' ;;
            *) printf -- '- `%s`: %s\n' "$name" "$(first_sentence "$name")" ;;
            esac
            ;;
        esac
    done <crates.txt
    printf '%s\n' "${between:+.}"
    echo
}

commands() {
    printf '\n| Command | What it does |\n|---|---|\n'
    awk -F ' *[|] *' '$1 == "word" { printf "| `%s` | %s |\n", $2, $4 }' words/table
    echo
}

# an option's commands are the group that has it, and those that name it
options() {
    printf '\n| Option | Meaning | Range | Commands | Default |\n|---|---|---|---|---|\n'
    awk -F ' *[|] *' '
        function add(list, one) { return list (list == "" ? "" : ", ") one }
        $1 == "word" { words[++count] = $2; takes[$2] = " " $3 " " }
        $1 == "group" { groups[++grouped] = $2; has[$2] = " " $3 " " }
        $1 == "option" {
            list = ""
            for (g = 1; g <= grouped; g++) if (index(has[groups[g]], " " $2 " ")) list = add(list, "*" groups[g] "*")
            for (w = 1; w <= count; w++) if (index(takes[words[w]], " " $2 " ")) list = add(list, "`" words[w] "`")
            range = $3 == "path" ? "a path" : $4
            if (range == "") { range = $3; gsub(/ /, ", ", range) }
            printf "| `--%s` | %s | %s | %s | %s |\n", $2, $5, range, list, $6
        }
        END {
            printf "\n| Group | Its commands |\n|---|---|\n"
            for (g = 1; g <= grouped; g++) {
                list = ""
                for (w = 1; w <= count; w++) if (index(takes[words[w]], " " groups[g] " ")) list = add(list, "`" words[w] "`")
                printf "| *%s* | %s |\n", groups[g], list
            }
        }' words/table
    echo
}

table() { # PAGE NAME
    local page=$1 name=$2 made
    made=$(mktemp "${TMPDIR:-/tmp}/envy-tables.XXXXXX")
    "$name" >"$made"
    case $how in
    --write)
        awk -v list="$made" -v from="<!-- $name -->" -v to="<!-- end of $name -->" '
            $0 == to { inside = 0 }
            !inside { print }
            $0 == from { while ((getline line <list) > 0) print line; inside = 1 }' "$page" >"$page.new"
        mv "$page.new" "$page"
        ;;
    --compare)
        awk -v from="<!-- $name -->" -v to="<!-- end of $name -->" '$0 == to { inside = 0 } inside { print } $0 == from { inside = 1 }' "$page" |
            diff - "$made" >&2 || {
            echo "tables: $page has another table of $name: examples/tables.sh --write writes it" >&2
            failed=1
        }
        ;;
    *) cat "$made" ;;
    esac
    rm -f "$made"
}

failed=0
table docs/ARCHITECTURE.md crates
table docs/COMMANDS.md commands
table docs/COMMANDS.md options
exit $failed
