#!/usr/bin/env bash
# Compares decide with minisat, picosat and cadical, and prints two Markdown tables: instructions and wall time.
#
#     bench/run.sh [FOLDER]        FOLDER has rule files, *.in or *.cnf; without it, crates/vectors/data
#
# Taken are those twelve files at which decide reports the most steps, of the files that it accepts, that have no groups, and that all the
# others read as well: they know no groups, and of the layout of a file they allow less.
# Each solver gets the file on standard input and is measured as a whole process, with its reading of the file and the printing of a
# model. Instructions are counted by callgrind. Times are told by hyperfine: one run starts the solver twenty times, since one start is
# too short to be timed, and the shortest of five runs counts, since other work may run beside. A ratio above 1 says that decide takes more.
# Where decide gives a verdict, all four have to give the same.
set -euo pipefail

fail() {
    echo "bench: $1" >&2
    exit 1
}

top=$(cd "$(dirname "$0")/.." && pwd -P)
folder=${1:-$top/crates/vectors/data}
count=12
starts=20
solvers=(decide minisat picosat cadical)

[ -d "$folder" ] || fail "no folder $folder"
for tool in minisat picosat cadical hyperfine valgrind; do
    command -v "$tool" >/dev/null || fail "$tool is not installed"
done
# The start script builds the program, if need be; measured is the program alone.
"$top/decide" </dev/null >/dev/null
work=$(mktemp -d)
trap 'rm -rf "$work"' EXIT
ln -s "$top/crates/decide/out/decide" "$work/program"

# The command by which each solver is started. It writes its answer, with a model, to standard output.
declare -A command=(
    [decide]="$work/program"
    [minisat]="minisat -verb=0 /dev/stdin /dev/stdout"
    [picosat]="picosat"
    [cadical]="cadical -q"
)

# Prints the steps that decide reports for a file, if it is accepted and has no groups.
steps_of() {
    if ! grep -av '^c' "$1" | tr ' \t\r' '\n' | grep -qx a; then
        "$work/program" <"$1" | sed -n 's/^c steps \([0-9]*\) .*/\1/p'
    fi
}

# Prints the paths of the files that may be taken, those with the most steps first.
candidates() {
    local file steps
    for file in "$folder"/*.in "$folder"/*.cnf; do
        [ -f "$file" ] || continue
        steps=$(steps_of "$file")
        [ -z "$steps" ] || printf '%s\t%s\n' "$steps" "$file"
    done | sort -k1,1nr -k2 | cut -f2
}

# Prints a solver's verdict on the file at hand.
verdict_of() {
    local answer
    answer=$(sh -c "${command[$1]}" <"$work/rules" 2>/dev/null) || true
    case $answer in
    *UNSAT*) echo UNSATISFIABLE ;;
    *SAT*) echo SATISFIABLE ;;
    *) echo UNKNOWN ;;
    esac
}

# Prints how many instructions a solver takes for the file at hand.
instructions_of() {
    local words
    read -ra words <<<"${command[$1]}"
    { valgrind --tool=callgrind --callgrind-out-file=/dev/null "${words[@]}" <"$work/rules" 2>&1 >/dev/null || true; } |
        sed -n 's/.*Collected : \([0-9]*\).*/\1/p'
}

# A script that starts the given command so many times on the file at hand.
cat >"$work/start" <<END
for _ in $(seq -s ' ' "$starts"); do
    \$1 <$work/rules >/dev/null 2>&1
done
END

# Prints how many seconds a solver takes for the file at hand.
seconds_of() {
    hyperfine -N --style none --ignore-failure --warmup 1 --runs 5 --export-csv "$work/csv" \
        "sh $work/start '${command[$1]}'" >/dev/null 2>&1
    sed -n 2p "$work/csv" | awk -F, -v starts="$starts" '{ print $(NF - 1) / starts }'
}

# Prints a row of a table: its first cells, what decide took in a unit, and what it took to what each other solver took.
row() {
    local cells=$1 unit=$2
    shift 2
    echo "$@" | awk -v cells="$cells" -v unit="$unit" \
        '{ printf "| %s | %.2f", cells, $1 / unit; for (i = 2; i <= NF; i++) printf " | %.2f", $1 / $i; print " |" }'
}

# Prints the last row: the geometric means of the ratios in the given table.
mean_row() {
    awk -F'|' '{ for (i = NF - 3; i < NF; i++) sum[i] += log($i) }
        END { printf "| geometric mean | | | | | "; for (i = NF - 3; i < NF; i++) printf "| %.2f ", exp(sum[i] / NR); print "|" }' "$1"
}

# Prints a table with its head and its means.
table() {
    printf '\n## %s\n\n' "$1"
    echo "| file | variables | clauses | answer | steps | decide, $2 | to minisat | to picosat | to cadical |"
    echo "|---|--:|--:|---|--:|--:|--:|--:|--:|"
    cat "$3"
    mean_row "$3"
}

# Prints how many variables and clauses the head of the file at hand says.
head_of() {
    grep -av '^c' "$work/rules" | tr -s ' \t\r\n' '\n' | sed '/^$/d' | sed -n '3{N;s/\n/ | /p;q}'
}

# Whether each other solver reads the file at hand, of which decide gave this verdict. One that gives another ends the benchmark.
is_read_by_all() {
    local verdict=$1 solver answer
    for solver in "${solvers[@]:1}"; do
        answer=$(verdict_of "$solver")
        [ "$answer" != UNKNOWN ] || return 1
        [ "$verdict" = UNKNOWN ] || [ "$verdict" = "$answer" ] || fail "$solver and decide differ"
    done
}

taken=0
while read -r file; do
    cp "$file" "$work/rules"
    verdict=$(verdict_of decide)
    echo "bench: $(basename "$file")" >&2
    is_read_by_all "$verdict" || continue
    cells="$(basename "$file") | $(head_of) | $verdict | $(steps_of "$file")"
    instructions=()
    seconds=()
    for solver in "${solvers[@]}"; do
        instructions+=("$(instructions_of "$solver")")
        seconds+=("$(seconds_of "$solver")")
    done
    row "$cells" 1e6 "${instructions[@]}" >>"$work/instructions"
    row "$cells" 1e-3 "${seconds[@]}" >>"$work/seconds"
    taken=$((taken + 1))
    [ "$taken" -lt "$count" ] || break
done < <(candidates)
[ "$taken" -gt 0 ] || fail "no file in $folder can be taken"

cat <<END
# decide beside other solvers

Measured by \`bench/run.sh\` on $(date -u +%Y-%m-%d), on $(sed -n 's/^model name[[:blank:]]*: //p' /proc/cpuinfo | sed 1q) with $(nproc) processors,
$(sed -n 's/^PRETTY_NAME="\(.*\)"/\1/p' /etc/os-release), with $(rt version),
$(for solver in minisat picosat cadical; do printf '%s %s, ' "$solver" "$(dpkg-query -W -f '${Version}' "$solver")"; done)$(valgrind --version), $(hyperfine --version).
The script says which files are taken and how they are measured. A ratio above 1 says that decide takes more.
END
table Instructions "million" "$work/instructions"
table "Wall time" "ms" "$work/seconds"
