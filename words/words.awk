# Help, and the check of a call's words, by the table of words and options (./table):
#   awk -f words.awk -- TABLE help [WORD]     writes the page of all words, or of one
#   awk -f words.awk -- TABLE check WORD..    writes the first mistake of a call, if it has one. Status 1: the program would
#                                             not understand the words; 2: a number is out of its range; 0: no mistake
#   awk -f words.awk -- TABLE list            writes each word, a bar, and the options that it takes
#   awk -f words.awk -- TABLE line WORD NAME  says of which words a line with this name is, if it is none of this word's
#   awk -f words.awk -- TABLE manual | bash   writes a page for man, or the completions for bash
function trimmed(text) { sub(/^[ \t]+/, "", text); sub(/[ \t]+$/, "", text); return text }

# field TEXT N: the N-th of the fields between bars; the last one that a kind of line has keeps its bars
function field(text, n, most,    i, at) {
    for (i = 1; i < n; i++) { at = index(text, "|"); if (!at) return ""; text = substr(text, at + 1) }
    at = index(text, "|")
    return trimmed(at && n < most ? substr(text, 1, at - 1) : text)
}

function read_table(file,    line, kind, name) {
    while ((getline line < file) > 0) {
        if (line ~ /^#/ || line !~ /\|/) continue
        kind = field(line, 1, 6)
        name = field(line, 2, 6)
        if (kind == "group") group[name] = field(line, 3, 3)
        if (kind == "word") {
            words[++word_count] = name
            takes[name] = field(line, 3, 5)
            what[name] = field(line, 4, 5)
            example[name] = field(line, 5, 5)
        }
        if (kind == "line") { lines[++line_count] = name; words_of[name] = " " field(line, 3, 3) " " }
        if (kind == "option") {
            options[++option_count] = name
            kind_of[name] = field(line, 3, 6)
            range[name] = field(line, 4, 6)
            meaning[name] = field(line, 5, 6)
            default_of[name] = field(line, 6, 6)
        }
    }
    close(file)
    for (name in takes) takes[name] = " " spread(takes[name]) " "
}

# a list of options and groups, the groups written out
function spread(list,    names, count, i, all) {
    count = split(list, names, " ")
    for (i = 1; i <= count; i++) all = all (i > 1 ? " " : "") (names[i] in group ? group[names[i]] : names[i])
    return all
}

# the default of an option under a word: what stands behind that word's name, or else the first
function usual(option, word,    parts, count, i) {
    count = split(default_of[option], parts, /, */)
    for (i = 2; i <= count; i++) if (index(parts[i], word " ") == 1) return substr(parts[i], length(word) + 2)
    if (option == "mark" && word == "resume") return "the image's frames"
    if (word == "keep" && index(" segments rows pages shadows frames entries ", " " option " ")) return "the file's; of a new one " parts[1]
    return parts[1]
}

# the same as a number: under keep that of a new file
function usual_number(option, word,    text) {
    text = usual(option, word)
    sub(/.* /, "", text)
    return text + 0
}

function by_default(option, word) { return kind_of[option] == "path" ? "needed" : "by default " usual(option, word) }

function shown_range(option) {
    if (kind_of[option] == "path") return "a path that doesn't begin with -"
    if (kind_of[option] !~ /^[0-9]/) return kind_of[option]
    if (range[option] ~ /^[01] to (4294967295|18446744073709551615)$/) return range[option] ~ /^0/ ? "a number" : "1 and more"
    return range[option]
}

# How many letters must be put in, taken out or changed to make one of the other, whatever their case.
function distance(one, other,    i, j, a, b, row, before, old, best) {
    one = tolower(one)
    other = tolower(other)
    a = length(one)
    b = length(other)
    for (j = 0; j <= b; j++) row[j] = j
    for (i = 1; i <= a; i++) {
        before = row[0]
        row[0] = i
        for (j = 1; j <= b; j++) {
            old = row[j]
            best = before + (substr(one, i, 1) != substr(other, j, 1))
            if (row[j] + 1 < best) best = row[j] + 1
            if (row[j - 1] + 1 < best) best = row[j - 1] + 1
            row[j] = best
            before = old
        }
    }
    return row[b]
}

# the name of so many that is nearest; of several at one distance one that the word takes, and else the first
function nearest(text, names, count, word,    i, far, best, found) {
    best = 1000
    for (i = 1; i <= count; i++) {
        far = 2 * distance(text, names[i]) + (word != "" && !index(takes[word], " " names[i] " "))
        if (far < best) { best = far; found = names[i] }
    }
    near = best
    return found
}

# whether a word is a file with something in it, which the caller says by ENVY_FILES, a line for each
function is_file(name) { return index("\n" ENVIRON["ENVY_FILES"] "\n", "\n" name "\n") > 0 }

function mistake(text, status) { print "envy: " text; exit status }

function no_word(text,    names, count, i) {
    if (text !~ /^-/ && is_file(text)) mistake(text " is no word, but a file (./envy run < " text ")", 1)
    for (i = 1; i <= word_count; i++) names[i] = words[i]
    count = split("help --help --version --prove", more, " ")
    for (i = 1; i <= count; i++) names[word_count + i] = more[i]
    mistake(text " is no word (is it " nearest(text, names, word_count + count, "") "?)", 1)
}

function no_option(text, word,    bare, found) {
    bare = text
    sub(/^-+/, "", bare)
    found = nearest(bare, options, option_count, word)
    if (text !~ /^-/ && is_file(text)) mistake(text " is no option, but a file (< " text ")", 1)
    mistake(text " is no option" (text ~ /^-./ || near <= 4 ? " (is it --" found "?)" : ""), 1)
}

# whether one number, of digits alone, is above another
function above(one, other) {
    sub(/^0+/, "", one)
    sub(/^0+/, "", other)
    return length(one) != length(other) ? length(one) > length(other) : one "" > other ""
}

function check_value(option, value,    bound) {
    if (kind_of[option] == "path") {
        if (value == "" || value ~ /^-/) mistake("--" option ": " (value == "" ? "nothing" : value) " is no path", 1)
        return
    }
    if (kind_of[option] !~ /^[0-9]/) {
        if (!index(" " kind_of[option] " ", " " value " ") || value == "" || value ~ / /) {
            bound = kind_of[option]
            gsub(/ /, ", ", bound)
            mistake("--" option ": " value " (" bound ")", 1)
        }
        return
    }
    if (value !~ /^[0-9]+$/) mistake("--" option ": " (value == "" ? "nothing" : value) " is no number", 1)
    bound = kind_of[option] == 64 ? "18446744073709551615" : kind_of[option] == 1 ? "1" : "4294967295"
    if (above(value, bound)) mistake("--" option ": " value " is above " bound, 1)
    split(range[option], ends, " to ")
    if (out_of_range == "" && (above(ends[1], value) || above(value, ends[2])))
        out_of_range = "--" option ": " value " (" range[option] ")"
}

# a number that is given, or else the word's own
function number(option, word) { return option in value ? value[option] + 0 : usual_number(option, word) }

# The rules that numbers break together: each names the numbers that it compares, in the order of the program.
function check_board(word,    segments, rows, reserves, pages, shadows, most, rows_at_most, part, mark) {
    segments = number("segments", word); rows = number("rows", word)
    reserves = "reserves" in value ? value["reserves"] + 0 : 0
    if (reserves > segments - 4) mistake(sprintf("--reserves: %.0f (0 to %.0f, the segments less four)", reserves, segments - 4), 2)
    pages = number("pages", word); shadows = number("shadows", word)
    most = (segments - 2 - reserves) * rows
    if (pages + shadows > most)
        mistake(sprintf("--pages %.0f and --shadows %.0f are %.0f rows, above %.0f, those of %.0f segments of %.0f less two segments%s",
            pages, shadows, pages + shadows, most, segments, rows, reserves ? sprintf(" and --reserves %.0f", reserves) : ""), 2)
    rows_at_most = word == "keep" || value["large"] == 1 ? 16777216 : 1048576
    if (segments * rows > rows_at_most)
        mistake(sprintf("--segments %.0f of --rows %.0f are %.0f rows, above %.0f%s", segments, rows, segments * rows, rows_at_most,
            index(takes[word], " large ") && segments * rows <= 16777216 ? " (--large 1 takes them)" : ""), 2)
    part = number("part", word)
    if (value["policy"] == "hybrid" && (part < 1 || part > segments - 1)) mistake(sprintf("--part: %.0f (1 to %.0f, the segments less one)", part, segments - 1), 2)
    mark = "mark" in value ? value["mark"] + 0 : number("frames", word)
    if (mark > number("frames", word)) mistake(sprintf("--mark: %.0f (1 to %.0f, the frames)", mark, number("frames", word)), 2)
}

function check_load(    branches, accounts, transfers, history, pages) {
    branches = number("branches", "tpca"); accounts = number("accounts", "tpca"); transfers = number("transfers", "tpca")
    pages = number("pages", "tpca")
    history = 4 * int((1 + 11 * branches + branches * accounts + 3) / 4)
    if (history + 4 * transfers > 32 * pages)
        mistake(sprintf("--branches %.0f of --accounts %.0f and --transfers %.0f take %.0f words, above %.0f, those of --pages %.0f",
            branches, accounts, transfers, history + 4 * transfers, 32 * pages, pages), 2)
}

function check_rules(word) {
    if (word == "gen" && number("pages", word) > 1048576) mistake("--pages: " number("pages", word) " (1 to 1048576 under gen)", 2)
    if (word == "gen" && ("hot" in value) != ("share" in value)) mistake("--hot and --share are given together, or neither is", 2)
    # a file that is there gives its own sizes
    if (!index(takes[word], " segments ") || word == "keep" && is_file(value["file"])) return
    if (!("policy" in value)) value["policy"] = "greedy"
    check_board(word)
    if (word == "tpca") check_load()
    if (word == "tpca" && number("shadows", word) < 5) mistake("--shadows: " number("shadows", word) " (5 and more under tpca)", 2)
    if (word == "index" && number("shadows", word) < 32) mistake("--shadows: " number("shadows", word) " (32 and more under index)", 2)
    if (word == "index" && number("pages", word) < 20) mistake("--pages: " number("pages", word) " (20 and more under index)", 2)
}

# The first mistake of a call. Its form is looked at word by word, and values once the form of all is right.
function check(first, last,    word, i, text, name, at, given, count) {
    word = ARGV[first]
    if (last < first) mistake("no word (" trimmed(takes_all()) ")", 1)
    if (!(word in takes)) no_word(word)
    for (i = first + 1; i <= last; i++) {
        text = ARGV[i]
        if (text == "--") {
            if (i < last) mistake("behind -- stands " ARGV[i + 1], 1)
            break
        }
        if (text !~ /^--/) no_option(text, word)
        at = index(text, "=")
        name = at ? substr(text, 3, at - 3) : substr(text, 3)
        if (!(name in kind_of)) no_option(at ? substr(text, 1, at - 1) : text, word)
        if (!index(takes[word], " " name " ")) mistake(word " takes no --" name, 1)
        if (name in value) mistake("--" name " twice", 1)
        if (!at && i == last) mistake("--" name " has no value", 1)
        value[name] = at ? substr(text, at + 1) : ARGV[++i]
        given[++count] = name
    }
    if (index(takes[word], " file ") && !("file" in value)) mistake(word " needs --file", 1)
    for (i = 1; i <= count; i++) check_value(given[i], value[given[i]])
    if (out_of_range != "") mistake(out_of_range, 2)
    check_rules(word)
}

# of which words a line is that a word refused as unknown; names are compared as they are
function check_line(word, name,    i, of) {
    if (name in words_of) {
        if (index(words_of[name], " " word " ")) exit 0
        of = trimmed(words_of[name])
        gsub(/ /, ", ", of)
        mistake(name " is no line under " word ", but one under " of, 1)
    }
    for (i = 1; i <= line_count; i++) if (index(words_of[lines[i]], " " word " ")) names[++count] = lines[i]
    mistake(name " is no line under " word " (is it " nearest(name, names, count, "") "?)", 1)
}

function takes_all(    i, all) {
    for (i = 1; i <= word_count; i++) all = all " " words[i]
    return all
}

function word_page(word,    names, count, i) {
    printf "%s %s:\n  %s\n", word, what[word], example[word]
    count = split(takes[word], names, " ")
    print count ? "\nOptions, each at most once, as --name value or --name=value:" : "\nIt takes no options."
    for (i = 1; i <= count; i++) {
        printf "  --%-9s %s\n", names[i], meaning[names[i]]
        printf "  %11s %s; %s\n", "", shown_range(names[i]), by_default(names[i], word)
    }
    print "\ndocs/COMMANDS.md says how each is chosen."
}

function whole_page(    i, j, who) {
    print "usage: ./envy WORD [--OPTION VALUE].. [< INPUT] [> OUTPUT]\n"
    for (i = 1; i <= word_count; i++) printf "  %-7s %s\n            %s\n", words[i], what[words[i]], example[words[i]]
    print "\n  help WORD  says what the word does and takes, and --help writes this page"
    print "  --version  writes the version and that of the kit"
    print "  --prove    proves every crate below the program and builds it, once"
    print "\nOptions, each at most once, as --name value or --name=value, and their defaults:\n"
    for (i = 1; i <= option_count; i++) {
        who = ""
        for (j = 1; j <= word_count; j++) if (index(takes[words[j]], " " options[i] " ")) who = who " " words[j]
        printf "  --%-9s %s (%s)\n", options[i], meaning[options[i]], default_of[options[i]]
        if (kind_of[options[i]] !~ /^[0-9]|^path/) printf "  %11s one of %s\n", "", kind_of[options[i]]
        printf "  %11s of%s\n", "", who
    }
}

# A page for man, section 1: FOLDER/page has the lines of a trace and the statuses
function manual(    i, j, names, count, line, page) {
    page = ARGV[1]
    sub(/[^\/]*$/, "page", page)
    print ".TH ENVY 1 \"" ARGV[4] "\" \"eNVy " ARGV[3] "\" \"User Commands\""
    print ".SH NAME\nenvy \\- a proved, non-volatile main memory of flash, by traces"
    print ".SH SYNOPSIS\n.B envy\n.I WORD\n.RB [ \\-\\-\\c\n.IR OPTION\n.IR VALUE ].."
    print ".SH DESCRIPTION\nA trace of loads, stores and transactions comes on standard input, a command a line; the replies go to standard output."
    print ".SH WORDS"
    for (i = 1; i <= word_count; i++) {
        print ".TP\n.B " words[i] "\n" of_page(what[words[i]]) ".\n.br\n" of_page(example[words[i]])
        count = split(takes[words[i]], names, " ")
        line = ""
        for (j = 1; j <= count; j++) line = line (j > 1 ? ", " : "") "\\-\\-" names[j]
        if (count) print ".br\nOptions: " line "."
    }
    print ".SH OPTIONS\nEach is given at most once, as \\-\\-name value or \\-\\-name=value."
    for (i = 1; i <= option_count; i++)
        print ".TP\n.B \\-\\-" options[i] "\n" of_page(meaning[options[i]]) ": " of_page(shown_range(options[i])) ". Default: " of_page(default_of[options[i]]) "."
    print ".SH LINES, REPLIES AND STATUSES\n.nf"
    while ((getline line < page) > 0) print of_page(line)
    print ".fi"
}

function of_page(text) { gsub(/\\/, "\\e", text); gsub(/-/, "\\-", text); if (text ~ /^[.\047]/) text = "\\&" text; return text }

# Completions for bash: words first, then the options of the word, then names or files
function completions(    i, all) {
    print "# completions of envy for bash, made from the table of its words"
    print "_envy() {\n    local word=${COMP_WORDS[1]} now=${COMP_WORDS[COMP_CWORD]} before=${COMP_WORDS[COMP_CWORD - 1]} options="
    print "    COMPREPLY=()\n    if [ \"$COMP_CWORD\" = 1 ]; then"
    for (i = 1; i <= word_count; i++) all = all words[i] " "
    print "        mapfile -t COMPREPLY < <(compgen -W \"" all "help --help --version\" -- \"$now\")\n        return\n    fi"
    print "    case $before in"
    for (i = 1; i <= option_count; i++)
        if (kind_of[options[i]] == "path") print "    --" options[i] ") mapfile -t COMPREPLY < <(compgen -f -- \"$now\"); return ;;"
        else if (kind_of[options[i]] !~ /^[0-9]/) print "    --" options[i] ") mapfile -t COMPREPLY < <(compgen -W \"" kind_of[options[i]] "\" -- \"$now\"); return ;;"
    print "    --*) return ;;\n    esac\n    case $word in"
    for (i = 1; i <= word_count; i++) {
        all = takes[words[i]]
        gsub(/ [a-z]/, "&", all)
        gsub(/ /, " --", all)
        sub(/ --$/, "", all)
        if (all ~ /[a-z]/) print "    " words[i] ") options=\"" trimmed(all) "\" ;;"
    }
    print "    help) options=\"" trimmed(takes_all()) "\" ;;\n    esac"
    print "    mapfile -t COMPREPLY < <(compgen -W \"$options\" -- \"$now\")\n}\ncomplete -o bashdefault -F _envy envy ./envy"
}

BEGIN {
    read_table(ARGV[1])
    if (ARGV[2] == "check") { check(3, ARGC - 1); exit 0 }
    if (ARGV[2] == "line") { check_line(ARGV[3], ARGV[4]); exit 0 }
    if (ARGV[2] == "manual") { manual(); exit 0 }
    if (ARGV[2] == "bash") { completions(); exit 0 }
    if (ARGV[2] == "list") { for (i = 1; i <= word_count; i++) print words[i] "|" trimmed(takes[words[i]]); exit 0 }
    if (ARGC < 4) { whole_page(); exit 0 }
    if (!(ARGV[3] in takes)) no_word(ARGV[3])
    word_page(ARGV[3])
}
