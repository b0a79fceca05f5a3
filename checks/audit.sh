#!/usr/bin/env bash
# Audits the report of every example, and of many runs of a large case, each with the order that its threads came to: each has to be
# one of a run. Then the reports of examples/audit that are none, and reports of the most bytes and of one more.
# usage: audit.sh PROGRAM [RUNS [NUMBER]]     100 runs of the case of number 7, where nothing else is said
set -eu
top=$(cd "$(dirname "$0")/.." && pwd)
program=$(realpath "$1")
runs=${2:-100}
number=${3:-7}
room=$(mktemp -d)
trap 'rm -rf "$room"' EXIT

expect() {
    line=$("$program" audit "${@:2}")
    [ "$line" = "$1" ] || { echo "$line in place of $1: audit ${*:2}" >&2; exit 1; }
}

# The report in what is printed of a run: behind its events, before its views.
report_in() {
    sed -n '/^forest report 1$/,/^end$/p'
}

# Each example, and the scripts of its run.
examples=(
    "first script"
    "rota ann-off ben-off"
    "config add scale check"
    "projects count log turn"
    "records add careless"
    "releases release use half"
    "tree add contents"
    "watch ann ben"
    "views give back"
)
# The jobs of examples/jobs are programs: they have no report.
diff <(printf '%s\n' audit jobs "${examples[@]%% *}" | sort) <(cd "$top/examples" && printf "%s\n" */ | tr -d /)
for line in "${examples[@]}"; do
    read -r example scripts <<<"$line"
    cd "$top/examples/$example"
    if [ -e report ]; then
        report_in <report >"$room/report"
        expect "audit yes" description folder "$room/report" $scripts
    fi
    rm -rf "$room/out"
    "$program" run description folder "$room/out" $scripts >"$room/report"
    expect "audit yes" description folder "$room/report" $scripts
done
cd "$top/examples/views"
rm -rf "$room/out"
"$program" views description folder "$room/out" sum give back | report_in >"$room/report"
expect "audit yes" description folder "$room/report" give back

cd "$top/examples/audit"
expect "audit yes" description folder report sell restock
expect "audit no Answer 1" description folder changed sell restock
expect "audit no Answer 0" description folder elsewhere sell restock
expect "audit no Order 2" description folder report restock sell
./check.sh "$program" description folder report sell restock >"$room/line"
for report in changed elsewhere missing; do
    status=0
    ./check.sh "$program" description folder "$report" sell restock >"$room/line" 2>&1 || status=$?
    [ "$status" = 1 ] || { echo "check.sh ends with $status for $report" >&2; exit 1; }
done
truncate -s 268435456 "$room/most"
truncate -s 268435457 "$room/more"
expect "audit no BadLine 1" description folder "$room/most" sell restock
status=0
"$program" audit description folder "$room/more" sell restock >"$room/line" 2>"$room/said" || status=$?
[ "$status:$(cat "$room/line" "$room/said")" = "3:txforest: $room/more: TooLarge" ] || { echo "a report of more than 268,435,456 bytes: $status, $(cat "$room/line" "$room/said")" >&2; exit 1; }
rm "$room/most" "$room/more"
echo "the reports of the examples are those of runs, but for the two that are changed; one of more than 268,435,456 bytes is refused"

"$program" gen "$number" "$room/case" >/dev/null
cd "$room/case"
for run in $(seq "$runs"); do
    rm -rf "$room/out"
    "$program" run spec in "$room/out" s? >"$room/report"
    expect "audit yes" spec in "$room/report" s?
done
echo "$runs runs of the case of $number: audit yes"
