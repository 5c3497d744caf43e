#!/usr/bin/env bash
# How long events and views take over a desk that threads share: nanoseconds each, and in brackets how many times as long as by one
# thread over the allocator alone, or of views by one thread. And how much memory an entry of the journal takes.
# Then how long plans and views of a full fleet take, which is how long the desk's lock is held for each: milliseconds, and in brackets
# how many times as long as the allocator alone takes for a plan that it has already.
# The time of the same program that does none is taken off, and of all runs the middle one counts.
# usage: bench/desk.sh [RUNS [EVENTS [PLANS [FULL]]]]      (9, 1,000,000 rounds or reports, 2,000 plans or views, and 50 of a full fleet
#                                                           where left out)
set -eu
root=$(cd "$(dirname "$0")/.." && pwd)
runs=${1:-9}
events=${2:-1000000}
plans=${3:-2000}
full=${4:-50}
folder=$(mktemp -d)
trap 'rm -rf "$folder"' EXIT
python3 "$root/bench/full_fleet.py" desk 1024 > "$folder/small"
python3 "$root/bench/full_fleet.py" desk 16384 > "$folder/large"
python3 "$root/bench/full_fleet.py" replay > "$folder/full"
# the same before its plan is installed, so that the first one is published
sed '$d' "$folder/full" > "$folder/unplanned"
. "$root/bench/programs.sh"
programs=$(bench_programs)

# middle processor seconds, most megabytes and middle elapsed seconds of the runs of a task by some workers, so many times over a fleet
measure() {
    python3 "$root/bench/measure.py" --digits 6 --median --elapsed --output "$folder/said" "$folder/$1" "$runs" "$programs" desk "$2" "$3" "$4"
}

# what the program said last, as one word
said() {
    tr ' ' ',' < "$folder/said"
}

# a line for each way to do a task over a fleet: the workers, how often, what was said, and what was measured without and with it
# usage: measure_task FLEET TASK TIMES WORKERS..
measure_task() {
    local fleet=$1 task=$2 times=$3 workers idle busy
    shift 3
    for workers in "$@"; do
        idle=$(measure "$fleet" "$task" "$workers" 0)
        busy=$(measure "$fleet" "$task" "$workers" "$times")
        echo "$fleet-$task $workers $times $(said) $idle $busy"
    done
}

# a line for the allocator alone and with its journal: what was said, and the memory, of half as often; with none at all a program takes
# less than the one that starts it, which counts too
# usage: measure_half FLEET TASK TIMES
measure_half() {
    local workers memory
    for workers in core record; do
        read -r _ memory _ < <(measure "$1" "$2" "$workers" "$(($3 / 2))")
        echo "$1-$2 $workers $(said) $memory"
    done
}

{
    measure_task small round "$events" core record 1 2 4 8
    measure_task large report "$events" core record 1 2 4 8
    measure_task small install "$plans" core record 1 2 4 8
    measure_task small view "$plans" 1 2 4 8
    # a run publishes the plan once, which is less than two runs differ by: so many pairs of runs, one without it and one with it
    for ((turn = 0; turn < runs * 5; turn++)); do
        runs=1 measure_task unplanned install 1 core record 1
    done
    measure_task full install "$full" core record 1
    measure_task full view "$full" 1
} > "$folder/measured"
{
    measure_half small round "$events"
    measure_half large report "$events"
    measure_half small install "$plans"
    measure_half full install "$full"
} > "$folder/halves"
python3 - "$folder/measured" "$folder/halves" <<'PY'
import statistics
import sys

TARGETS = 16384
WAYS = {"core": "allocator", "record": "with its journal", "1": "desk, 1 thread", "2": "2 threads", "4": "4 threads", "8": "8 threads"}
TASKS = {"small-round": "round", "large-report": "report", "small-install": "install", "small-view": "view"}
FULL_TASKS = {"unplanned-install": "install, published", "full-install": "install, unchanged", "full-view": "view"}
ENTRIES = {"small-round": "round", "large-report": "report", "small-install": "install of 1,024 targets", "full-install": "install of 16,384 targets"}
MEASURES = [(2, "time that passed"), (0, "processor time")]
# the times, what was said, and the measured numbers of each line
tasks = {}
for line in open(sys.argv[1]):
    task, workers, times, said, *numbers = line.split()
    if said.startswith("not"):
        sys.exit(f"{task} by {workers}: {said}")
    times = int(times) // TARGETS * TARGETS if task == "large-report" else int(times)
    tasks.setdefault(task, {}).setdefault(workers, []).append((times, said, [float(it) for it in numbers]))
for task, ways in tasks.items():
    if len({said for way in ways.values() for _, said, _ in way}) > 1:
        sys.exit(f"{task} came to different ends: {ways}")


# nanoseconds each, by the place of the time in what was measured
def nanoseconds(way, place):
    return statistics.median((numbers[place + 3] - numbers[place]) / times * 1e9 for times, _, numbers in way)


def print_head(name, ways):
    print(f"| {name} | times | {' | '.join(ways.values())} |")
    print("|---|---|" + "---|" * len(ways))


# usage: say(nanoseconds, nanoseconds of what it is compared with) gives a cell
def print_row(name, ways, columns, place, unit, say):
    each = {it: nanoseconds(way, place) for it, way in ways.items()}
    cells = [say(each[it], unit) if it in each else "" for it in columns]
    times = next(iter(ways.values()))[0][0]
    print(f"| {name} | {times:,} | {' | '.join(cells)} |")


def in_nanoseconds(each, unit):
    return f"{each:,.0f} ({each / unit:.2f})"


def in_milliseconds(each, unit):
    return f"{each / 1e6:,.1f} ({each / unit:.2f})"


for place, name in MEASURES:
    print_head(name, WAYS)
    for task, title in TASKS.items():
        ways = tasks[task]
        print_row(title, ways, WAYS, place, nanoseconds(ways.get("core") or ways["1"], place), in_nanoseconds)
    print()

ALONE = {it: WAYS[it] for it in ["core", "record", "1"]}
for place, name in MEASURES:
    print_head(f"full fleet, {name}", ALONE)
    for task, title in FULL_TASKS.items():
        print_row(title, tasks[task], ALONE, place, nanoseconds(tasks["full-install"]["core"], place), in_milliseconds)
    print()


def events_in(said):
    return int(said.split(",")[0].removeprefix("events="))


# how many more entries there were than in half of it, and how many more bytes
grown = {}
for line in open(sys.argv[2]):
    task, workers, said, memory = line.split()
    [(_, whole, numbers)] = tasks[task][workers]
    grown.setdefault(task, {})[workers] = events_in(whole) - events_in(said), (numbers[4] - float(memory)) * 2**20
print("| entry of the journal | bytes |")
print("|---|---|")
for task, title in ENTRIES.items():
    ways = grown[task]
    print(f"| {title} | {(ways['record'][1] - ways['core'][1]) / ways['record'][0]:,.0f} |")
PY
