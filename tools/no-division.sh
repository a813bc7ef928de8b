#!/bin/sh
# Usage: tools/no-division.sh. Whether the code that writes columns divides (request Q-4): write_number of
# call_line, the functions and methods of call_list that lay an answer's row, and every function that these call,
# which has to stand in one of the two files. Left out are Ok, Err, Some, what std has of an Option, a slice or a
# number, and u8::from and refusal::number, which have an enum's numbers. Comments and contracts are left out.
# `feed` divides once a chunk, for its room: that is no printing. Then, of each function, whether a division put into
# a copy of it is found. Exit status 0 if there is no / and no % in them, and each is found.
set -eu
cd "$(dirname "$0")/.."
roots='call_line::write_number call_list::put_column call_list::text call_list::Shown::new call_list::Shown::renew call_list::Shown::put_row'
work=$(mktemp -d)
trap 'rm -rf "$work"' EXIT

# Usage: look DIRECTORY. Prints the functions that are looked at, or what is wrong with them.
look() {
    awk -v roots="$roots" '
    FNR == 1 { crate = FILENAME; sub(/\/src\/.*/, "", crate); sub(/.*\//, "", crate) }
    { sub(/\/\/.*/, "") }
    # A method is named after the type of its impl; its lines are four spaces further in.
    /^impl / { type = $2 "::" }
    /^}/ { type = "" }
    /^(    )?(pub )?fn / {
        margin = type == "" ? "" : "    "
        name = $0
        sub(/^ *(pub )?fn /, "", name)
        sub(/\(.*/, "", name)
        name = crate "::" type name
        place[name] = FILENAME
    }
    # A body begins at a brace of its own line where there is a contract, and else at the end of the signature.
    $0 == margin "}" { inside = 0 }
    inside { body[name] = body[name] FNR ":" $0 "\n" }
    $0 == margin "{" || $0 ~ "^" margin "((pub )?fn |\\)).*\\{$" { inside = 1 }
    END {
        count = split(roots, asked, " ")
        for (i = 1; i <= count; i++) seen[asked[i]] = 1
        for (i = 1; i <= count; i++) {
            name = asked[i]
            if (!(name in body)) { print "there is no function " name; wrong = 1; continue }
            crate = name
            sub(/::.*/, "", crate)
            lines = split(body[name], line, "\n")
            for (k = 1; k < lines; k++)
                if (line[k] ~ /[\/%]/) { print place[name] ":" line[k] "    <- " name " divides"; wrong = 1 }
            rest = body[name]
            while (match(rest, /\.?[A-Za-z_][A-Za-z_0-9:.]*\(/)) {
                called = substr(rest, RSTART, RLENGTH - 1)
                rest = substr(rest, RSTART + RLENGTH)
                if (called ~ /^(Ok|Err|Some|u8::from|refusal::number)$/) continue
                if (called ~ /\.(len|is_some|unwrap_or|iter|position|fill|copy_from_slice)$/) continue
                if (called ~ /\.(split_at_mut|split_last_mut|saturating_sub)$/) continue
                if (called !~ /^[a-z_]+::/) called = crate "::" called
                if (!(called in place)) { print name " calls " called ", which is not looked at"; wrong = 1; continue }
                if (!(called in seen)) { seen[called] = 1; asked[++count] = called }
            }
        }
        if (!wrong) for (i = 1; i <= count; i++) print asked[i]
        exit wrong
    }' "$1/call_line/src/lib.rt" "$1/call_list/src/lib.rt"
}

if ! look crates >"$work/functions"; then
    sed 's/^/no-division: /' "$work/functions" >&2
    exit 1
fi
while read -r name; do
    for crate in call_line call_list; do
        mkdir -p "$work/$crate/src"
        cp "crates/$crate/src/lib.rt" "$work/$crate/src/lib.rt"
    done
    crate=${name%%::*}
    awk -v name="${name#*::}" '
    /^impl / { type = $2 "::" }
    /^}/ { type = "" }
    /^(    )?(pub )?fn / {
        margin = type == "" ? "" : "    "
        found = $0
        sub(/^ *(pub )?fn /, "", found)
        sub(/\(.*/, "", found)
        here = type found == name
    }
    { print }
    here && ($0 == margin "{" || $0 ~ "^" margin "((pub )?fn |\\)).*\\{$") { print "    let half = 1 / 2;"; here = 0 }
    ' "crates/$crate/src/lib.rt" >"$work/$crate/src/lib.rt"
    if look "$work" >"$work/found" || ! grep -qF "<- $name divides" "$work/found"; then
        echo "no-division: a division put into $name is not found" >&2
        exit 1
    fi
done <"$work/functions"
echo "no division in" $(cat "$work/functions")
