#!/usr/bin/env bash
# The documents beside the tree: README.md, docs/*.md and docs/landings/HOUSE.md say only what is there.
#   lines      every line is under 120 characters
#   paths      a file or folder in backticks exists: from the root, below crates/ with or without .antt, or in a crate;
#              NAME, X, M, F, LABEL and NN stand for any name; docs/X.md is looked for without backticks too
#   links      what a relative link points at exists
#   places     `name` (`crate/proofs/File`), also several names before one file: each is defined in that file
#   names      a name in backticks that is written like a law or a definition is one, or stands in C or in an example
#              of the page; not in docs/MOSHE.md, which has the paper's names, nor in docs/landings/HOUSE.md, which has
#              the crates' old names
#   functions  `crate::module::function` is there
#   crates     docs/CRATES.md has the crates of crates.txt, under its headings, in its order, each with its modules
#   counts     each row of the reading order in docs/PROOFS.md has the lines of its files, and the total is theirs
#   claims     docs/PROOFS.md names every field of the claims, by a theorem that claims/proofs/Holds has for it; what
#              README.md and docs/PROOFS.md call a claim is a field
# The last line is 'N passed, M failed', one check for each kind and document; the exit status is 0 only where M is 0.
set -u
cd "$(dirname "$(readlink -f "${BASH_SOURCE[0]}")")/.." || exit 1
export LC_ALL=C.UTF-8
shopt -s nullglob
passed=0 failed=0 found=0
scratch=$(mktemp -d)
trap 'rm -rf "$scratch"' EXIT

fault() { echo "docs: $1" && found=$((found + 1)); }
# checked: one check is over; it has passed where it found no fault
checked() {
    if [ "$found" -eq 0 ]; then passed=$((passed + 1)); else failed=$((failed + 1)); fi
    found=0
}

# there: every file and folder by its path, and by its name; defined: "file name" for each definition, law, field,
# constructor, function, type and constant, with what a face hands on; words: every word of them
declare -A there=() defined=()
while IFS= read -r path; do there[$path]=yes there[${path##*/}]=yes; done < <(
    find . \( -path ./target -o -path ./.git \) -prune -o -print | sed 's|^\./||'
)
mapfile -t theory < <(
    find crates -name '*.antt' ! -path '*/proofs/*/Answers.antt' ! -path '*/proofs/*/Invariants.antt'
)
mapfile -t code < <(find crates -name '*.rt')
while IFS= read -r entry; do defined[$entry]=yes; done < <(
    awk '/^ *(--|use |$)/ { next }
        { line = $0; sub(/^ */, "", line); while (sub(/^(abbrev|unfoldable|pub|record|data) /, "", line)) { }
          sub(/ .*/, "", line); print FILENAME " " line }' "${theory[@]}"
    awk '/^ *\/\// { next }
        match($0, /(fn|struct|enum|const|mod) [A-Za-z_0-9]+/) {
            word = substr($0, RSTART, RLENGTH); sub(/.* /, "", word); print FILENAME " " word }
        /^pub use / { list = $0; sub(/.*::/, "", list); gsub(/[{},;]/, " ", list)
            n = split(list, each, " "); for (i = 1; i <= n; i++) print FILENAME " " each[i] }' "${code[@]}"
)
cat "${theory[@]}" "${code[@]}" include/*.h examples/*.[ch] tests/*.[ch] |
    grep -oE '[A-Za-z][A-Za-z0-9_′-]*' | sort -u >"$scratch/words"

# joined FILE: a document without its indented commands, as one line: a citation may go on in the next
joined() { grep -vE '^    ' "$1" | tr '\n' ' ' | sed -E 's/  +/ /g'; }
unquoted() { grep -oE '`[^`]+`' | tr -d '`'; }

# exists PATH: by any of the forms
exists() {
    local path=${1%/} form
    path=${path#./}
    case $path in
    *'*'* | *NAME* | *LABEL* | *NN* | */[XMF] | [XMF].* | */[XMF]/* | */[XMF].*)
        path=$(sed -E 's/NAME|LABEL|NN/*/g; s/\b[XMF]\b/*/g' <<<"$path")
        for form in $path $path.antt crates/$path crates/$path.antt crates/*/$path; do
            [ ! -e "$form" ] || return 0
        done
        return 1
        ;;
    esac
    for form in "$path" "$path.antt" "crates/$path" "crates/$path.antt"; do
        [ -z "${there[$form]:-}" ] || return 0
    done
    for form in crates/*/"$path" crates/*/"$path".antt; do [ ! -e "$form" ] || return 0; done
    return 1
}

# file_of PATH: file becomes the one that a place names
file_of() {
    for file in "$1" "$1.antt" "crates/$1" "crates/$1.antt"; do [ ! -f "$file" ] || return 0; done
    file=
}

# function_there PATH: a module of a crate, or what a module or the crate's face has
function_there() {
    local crate=${1%%::*} rest=${1#*::} last module form
    last=${rest##*::} module=${rest%"$last"} module=${module%::}
    for form in "crates/$crate/src/${rest//:://}.rt" crates/*/src/"${1//:://}.rt"; do
        [ ! -f "$form" ] || return 0
    done
    for form in "crates/$crate/src/${module//:://}.rt" "crates/$crate/src/lib.rt"; do
        [ -z "${defined[$form $last]:-}" ] || return 0
    done
    return 1
}

path_like='[A-Za-z0-9_.*-]+(/[A-Za-z0-9_.*-]+)+/?|\./.*|[A-Za-z0-9_*-]+\.(md|txt|rs|rt|antt|edit|sh|c|h|out)'
name_like='[a-z][a-z0-9]*([-_][a-z0-9]+)+|[a-z]+[0-9]?([A-Z][a-z0-9]*)+|[A-Z][a-z]+([A-Z][a-z]*)*'
name='`[A-Za-z][A-Za-z0-9_′-]*`'
place_like="($name(,| and|, and) )*$name \\(\`[a-z_]+/(specs|proofs|src)/[A-Za-z0-9_/.]+\`"

for doc in README.md docs/*.md docs/landings/HOUSE.md; do
    [ -f "$doc" ] || continue
    joined "$doc" >"$scratch/joined"
    grep -oE '`[^` ]+`' "$scratch/joined" | tr -d '`' | sort -u >"$scratch/quoted"

    while IFS=: read -r line _; do fault "$doc:$line: 120 characters or more"; done < <(grep -nE '.{120}' "$doc")
    checked
    # these pages say what was called otherwise, and what is gone
    case $doc in docs/PORT.md | docs/DESIGN-PASS.md) continue ;; esac

    while IFS= read -r path; do
        case $path in
        target/* | /*) continue ;;
        esac
        exists "$path" || fault "$doc: there is no $path"
    done < <({
        grep -xE "$path_like" "$scratch/quoted"
        grep -oE 'docs/[A-Za-z0-9/-]+\.md' "$scratch/joined"
    } | sort -u)
    checked

    while IFS= read -r link; do
        case $link in
        http:* | https:* | '#'*) continue ;;
        esac
        [ -e "${doc%/*}/${link%%#*}" ] || [ -e "./${link%%#*}" ] || fault "$doc: the link to $link leads nowhere"
    done < <(grep -oE '\]\([^)]+\)' "$scratch/joined" | sed -E 's/^\]\(//; s/\)$//')
    checked

    while IFS= read -r place; do
        path=${place##*(\`} path=${path%\`}
        file_of "$path"
        if [ -z "$file" ]; then fault "$doc: there is no file $path" && continue; fi
        place=${place% (*} place=${place//\`/ } place=${place//,/ }
        for word in $place; do
            [ "$word" = and ] || [ -n "${defined[$file $word]:-}" ] || fault "$doc: $word is not defined in $file"
        done
    done < <(grep -oE "$place_like" "$scratch/joined" | sort -u)
    checked

    if [[ $doc != docs/MOSHE.md && $doc != docs/landings/HOUSE.md ]]; then
        while IFS= read -r word; do
            [ -n "${there[$word]:-}" ] || fault "$doc: nothing is named $word"
        done < <(grep -xE "$name_like" "$scratch/quoted" |
            comm -23 - <({
                cat "$scratch/words"
                grep -E '^    ' "$doc" | grep -oE '[A-Za-z][A-Za-z0-9_-]*'
            } | sort -u))
        checked
    fi

    while IFS= read -r path; do
        function_there "$path" || fault "$doc: there is no $path"
    done < <(grep -xE '[a-z_]+(::[A-Za-z_0-9]+)+' "$scratch/quoted")
    checked
done

# the crates: a heading of crates.txt up to its first colon, semicolon or comma; then | `crate` | modules | what |
layers() { sed -nE 's/^# ([a-z][^:;,]*).*/# \1/p; s/^([a-z_]+)( staticlib)?:.*/\1/p' crates.txt; }
tabled() { sed -nE 's/^## ([^:;,]*).*/# \l\1/p; s/^\| `([a-z_]+)` \|.*/\1/p' docs/CRATES.md; }
while IFS= read -r line; do
    case $line in
    '<'*) fault "docs/CRATES.md lacks, or has at another place: ${line#< }" ;;
    '>'*) fault "crates.txt lacks, or has at another place: ${line#> }" ;;
    esac
done < <(diff <(layers) <(tabled))
checked
while IFS='|' read -r _ crate modules _; do
    crate=${crate//[\` ]/} modules=${modules//[\` ]/} has=
    for file in crates/"$crate"/src/*.rt crates/"$crate"/src/*/*.rt; do
        file=${file#"crates/$crate/src/"} file=${file%.rt}
        case $file in lib | main) ;; *) has+=${has:+,}${file//\//::} ;; esac
    done
    has=$(tr ',' '\n' <<<"${has:-none}" | sort | tr '\n' ' ') said=$(tr ',' '\n' <<<"$modules" | sort | tr '\n' ' ')
    [ "$said" = "$has" ] || fault "docs/CRATES.md: the modules of $crate are $has, and not $said"
done < <(grep -E '^\| `[a-z_]+` \|' docs/CRATES.md)
checked

# lines of definitions: neither imports nor comments nor blank; a row is | files | lines | what they say |
total=0
while IFS='|' read -r _ files lines _; do
    IFS=' ' read -ra paths <<<"${files//[\`,]/}"
    listed=(/dev/null)
    for path in "${paths[@]}"; do
        for file in crates/$path.antt; do
            [ "${file##*/}" = Lib.antt ] || listed+=("$file")
        done
        exists "$path" || fault "docs/PROOFS.md: there is no $path"
    done
    count=$(cat "${listed[@]}" | grep -cvE '^ *(--|$)|^use |^pub mod')
    total=$((total + count)) lines=${lines//[, ]/}
    [ "$count" = "$lines" ] || fault "docs/PROOFS.md: $count lines of definitions, and not $lines, in ${paths[*]}"
done < <(grep -E '^\| `[a-z_]+/specs/' docs/PROOFS.md)
said=$(joined docs/PROOFS.md | grep -oE '[0-9,]+ lines of definitions in all' | tr -dc '0-9')
[ "$said" = "$total" ] || fault "docs/PROOFS.md: $total lines of definitions in all, and not ${said:-said}"
checked

# the claims: the fields of the records, but for those that are records of claims again; and the theorem of each
sed -nE 's/^  pub ([a-z][A-Za-z0-9_-]*) :.*/\1/p' crates/claims/specs/*.antt | sort -u >"$scratch/fields"
while IFS= read -r field; do
    grep -qF -- "\`$field\`" docs/PROOFS.md || fault "docs/PROOFS.md does not name the claim $field"
done < <(sed -nE '/ : [A-Z][A-Za-z0-9]*$/d; s/^  pub ([a-z][A-Za-z0-9-]*) :.*/\1/p' crates/claims/specs/*.antt)
checked
shown=" $(tr '\n' ' ' <crates/claims/proofs/Holds.antt) "
while IFS='|' read -r _ _ field theorems _; do
    field=${field//[\` ]/} theorems=${theorems% (*} theorems=${theorems//[\`,]/ }
    for theorem in $theorems; do
        [[ $shown =~ [\ {]$field\ =\ ([^\;]*[^\;A-Za-z0-9-])?$theorem[^A-Za-z0-9-] ]] ||
            fault "docs/PROOFS.md: claims/proofs/Holds does not show $field by $theorem"
    done
done < <(grep -E '^\|[^|]*\| `[a-z][A-Za-z0-9-]*` \| `.*/proofs/' docs/PROOFS.md)
checked
while IFS= read -r field; do
    grep -qxF -- "$field" "$scratch/fields" || fault "$field is called a claim, and is no field of the claims"
done < <({ joined README.md && joined docs/PROOFS.md; } |
    grep -oE "[Cc]laims? $name((,| and|, and) $name)*" | unquoted | sort -u)
checked

echo "$passed passed, $failed failed"
[ "$failed" -eq 0 ]
