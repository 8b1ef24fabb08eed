# What ./show and ./inspect do, once they have set `name`, `usage` and `top`: read the words, build the program where that is due, and run it on the file.
set -euo pipefail

die() { printf '%s: %s\n' "$name" "$1" >&2; exit 2; }

# ---- the words
file='' words=()
while [ $# -gt 0 ]; do
    case $1 in
    -h | --help) usage; exit 0 ;;
    --chain)
        [ "$name" = inspect ] || die "there is no option --chain (./inspect has it)"
        [[ ${2-} =~ ^[0-9]{1,10}$ ]] && [ "$((10#$2))" -le 4294967295 ] || die "--chain is followed by the chain's height, 0 to 4294967295"
        words=(--chain "$2")
        shift
        ;;
    -?*) die "there is no option $1 (./$name --help)" ;;
    *)
        [ -z "$file" ] || die "one file at a time (./$name --help)"
        [ -e "$1" ] || die "there is no file ${1:-with an empty name}"
        [ ! -d "$1" ] || die "$1 is a directory, not a history file"
        [ -r "$1" ] || die "$1 may not be read"
        file=$1
        ;;
    esac
    shift
done
if [ -z "$file" ] && [ ! -p /dev/stdin ] && [ ! -f /dev/stdin ]; then
    file=$top/crates/show/stdin
    echo "$name: no file is named, so this is an example, crates/show/stdin" >&2
fi

# ---- the program: newer than all that it is made of, or else built anew
program=$top/crates/$name/out/$name
parts=$(awk -v name="$name" '
    { sub(/#.*/, "") } split($0, half, ":") == 2 { gsub(/[ \t]/, "", half[1]); needs[half[1]] = half[2] }
    function visit(n,   all, i) { if (!(n in needs) || n in seen) return; seen[n]; print n; split(needs[n], all, " "); for (i in all) visit(all[i]) }
    END { visit(name) }' "$top/crates.txt")

changed() { # whether anything that the program is made of is newer
    local part made=("$top/crates.txt")
    for part in $parts; do made+=("$top/crates/$part"); done
    [ -n "$(find "${made[@]}" \( -name must-fail -o -name out \) -prune -o -newer "$program" -print -quit)" ]
}

build() { # says what it does, and which crate it is at
    command -v rt >/dev/null || die "rt is not on the path: the Rattle kit has it, and it proves and builds the program"
    local line
    if [ -e "$program" ]; then
        echo "$name: the sources have changed; what depends on the change is proved again" >&2
    else
        echo "$name: first $(echo "$parts" | wc -l) crates are proved, which takes some minutes" >&2
    fi
    (cd "$top/crates/$name" && rt run) </dev/null 2>&1 >/dev/null | while IFS= read -r line; do
        case $line in
        "crate "* | "rt: "*) echo "  ${line#rt: }" ;;
        esac
    done >&2 || die "the program is not built: rt check in crates/$name says why"
    touch "$program"
}
if [ ! -x "$program" ] || changed; then build; fi

# ---- the run
[ -z "$file" ] || exec <"$file"
text=$("$top/tools/x86-64" "$program" ${words[@]+"${words[@]}"}) || die "the program ended with status $? (a read failed, or it needs a stack of 8 MB: ulimit -s)"
[ -n "$text" ] || die "the program printed nothing"
printf '%s\n' "$text" 2>/dev/null || { echo "$name: the output is lost" >&2; exit 1; }
case $text in
"refused TooLong") [ "$name" = inspect ] || echo "show: the file has more than 65,536 bytes: ./inspect takes more" >&2; exit 1 ;;
"refused UnknownVersion 3") echo "show: version 3 is the wide board's: ./inspect takes it" >&2; exit 1 ;;
refused*) exit 1 ;;
"premise fails"*) exit 3 ;;
esac
