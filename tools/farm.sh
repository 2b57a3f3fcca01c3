#!/bin/sh
# Renders a range of rows in parts, on this machine, on several by GNU Parallel, or by Slurm, and looks whether every
# frame is there.
#
#     farm.sh [--rows N] [--jobs N] [--hosts HOST,..] SCENE FROM TO WORKERS BASE
#     farm.sh [--rows N] --slurm SCENE FROM TO WORKERS BASE
#
# The words are those of `vazhettin render`; TO may be any row up to 9999. Parts have N rows, a multiple of eight, 24 if
# nothing else is said. So each begins at FROM plus a multiple of eight and has whole sections; a drawing that is held
# over the edge of a part is read again in each. At one time there are as many parts as --jobs says, on each host; else
# as many as it has processors. A host is one that ssh reaches without a question, or : for this machine; the program
# and the working folder are at the same places there as here, as they are on each node of Slurm. VAZHETTIN names the
# program; without it that is the launcher beside this folder, which builds one first. A part that failed and a frame
# that is missing are named, each in a line, and the status is 1.
#
# shellcheck disable=SC2015 # in A && B || fail, either may fail
set -u

fail() {
    echo "farm: $*" >&2
    exit 1
}

is_number() {
    case $1 in '' | *[!0-9]* | ?????*) return 1 ;; esac
}

# Leading zeros would make a number octal.
plain() {
    echo "$1" | sed 's/^0*\(.\)/\1/'
}

# A word for the shell of another host.
quoted() {
    printf "'%s'" "$(printf %s "$1" | sed "s/'/'\\\\''/g")"
}

first_of() {
    echo $((from + ($1 - 1) * rows))
}

last_of() {
    end=$((from + $1 * rows - 1))
    [ "$end" -le "$to" ] || end=$to
    echo "$end"
}

# What a part runs: it renders its rows, keeps what was said, and puts its status into place when all is done.
write_part() {
    cat > "$work/part" <<END
#!/bin/sh
cd $(quoted "$PWD") || exit 1
work=$(quoted "$work")
$(quoted "$program") render $(quoted "$scene") "\$2" "\$3" $workers $(quoted "$base") > "\$work/\$1.said" 2>&1
status=\$?
echo "\$status" > "\$work/\$1.status.new" && mv "\$work/\$1.status.new" "\$work/\$1.status"
exit "\$status"
END
}

list_parts() {
    part=1
    while [ "$part" -le "$parts" ]; do
        echo "$part $(first_of "$part") $(last_of "$part")"
        part=$((part + 1))
    done
}

# What parallel and Slurm say is kept; how a part ended is told by its own status.
run_parallel() {
    list_parts > "$work/parts"
    parallel --will-cite --colsep ' ' --workdir "$PWD" ${jobs:+--jobs "$jobs"} ${hosts:+--sshlogin "$hosts"} \
        "sh $(quoted "$work/part") {1} {2} {3}" < "$work/parts" > "$work/engine" 2>&1
}

run_slurm() {
    list_parts > "$work/parts"
    cat > "$work/job" <<END
#!/bin/sh
exec sh $(quoted "$work/part") \$(sed -n "\${SLURM_ARRAY_TASK_ID}p" $(quoted "$work/parts"))
END
    sbatch --parsable --wait --array="1-$parts" --cpus-per-task="$workers" --job-name=vazhettin --chdir="$PWD" \
        --output=/dev/null "$work/job" > "$work/number" 2> "$work/engine"
}

# A job that nobody waits for any more is ended.
give_up() {
    [ ! -s "$work/number" ] || scancel "$(head -n 1 "$work/number")"
    exit 130
}

# Says of a part that did not end well which rows it has and why, in a line.
look_at_part() {
    rows_of_part="rows $(first_of "$1") to $(last_of "$1")"
    if [ ! -f "$work/$1.status" ]; then
        echo "farm: part $1, $rows_of_part, did not end: $(tail -n 1 "$work/engine")" >&2
        return 1
    fi
    status=$(cat "$work/$1.status")
    [ "$status" = 0 ] && return
    echo "farm: part $1, $rows_of_part, failed with status $status: $(tail -n 1 "$work/$1.said")" >&2
    return 1
}

look_at_parts() {
    part=1 failed=0
    while [ "$part" -le "$parts" ]; do
        look_at_part "$part" || failed=1
        part=$((part + 1))
    done
    return "$failed"
}

here=$(cd "$(dirname "$0")" && pwd) || exit 1
program=${VAZHETTIN:-$here/../vazhettin}
rows=24 jobs='' hosts='' engine=parallel
while :; do
    case ${1-} in
        --rows) rows=${2-} && is_number "$rows" && [ "$rows" -gt 0 ] && [ $((rows % 8)) -eq 0 ] && [ "$rows" -le 4096 ] \
            || fail "--rows needs a multiple of eight, at most 4096" ;;
        --jobs) jobs=${2-} && is_number "$jobs" && [ "$jobs" -gt 0 ] || fail "--jobs needs a number" ;;
        --hosts) hosts=${2-} && [ -n "$hosts" ] || fail "--hosts needs names with commas between" ;;
        --slurm) engine=slurm ;;
        -*) fail "there is no option $1" ;;
        *) break ;;
    esac
    [ "$1" = --slurm ] || shift
    shift
done
[ $# -eq 5 ] || fail "the words are SCENE FROM TO WORKERS BASE"
is_number "$2" && is_number "$3" && is_number "$4" || fail "FROM, TO and WORKERS are numbers"
scene=$1 from=$(plain "$2") to=$(plain "$3") workers=$(plain "$4") base=$5
[ "$from" -ge 1 ] && [ "$to" -ge "$from" ] || fail "FROM is at least 1 and TO at least FROM"
[ -f "$scene" ] || fail "there is no scene $scene"
case $engine in
    parallel) command -v parallel > /dev/null || fail "GNU Parallel is missing: apt-get install parallel" ;;
    slurm) command -v sbatch > /dev/null || fail "Slurm is missing: apt-get install slurm-client" ;;
esac
parts=$(((to - from) / rows + 1))
work=$(mktemp -d "$PWD/.farm.XXXXXX") || fail "nothing can be written into $PWD"
trap 'rm -rf "$work"' EXIT
trap give_up INT HUP TERM
# This tells what is wrong with the scene, and builds a program that is not built yet.
"$program" show "$scene" > /dev/null || exit 1
write_part
"run_$engine"
look_at_parts && python3 -B "$here/frames_there.py" "$base" "$from" "$to" || exit 1
echo "farm: rows $from to $to are rendered, in $parts parts"
