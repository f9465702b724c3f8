#!/usr/bin/env bash
# Prints seconds of wall-clock time and the peak of memory: times.sh PROGRAM..
#
# Each PROGRAM reads lines from standard input, as crates/wktstream/out/wktstream does, and writes into a pipe that is
# read to its end. The programs take turns, five times, and the least time of each is printed: what else the machine does
# makes a run longer and none shorter. It needs python3. MEGABYTES says how much a workload is (500 without it),
# WORKLOADS which ones (points-6 mixed-6 without it), TURNS how often.
set -eu
[ $# -ge 1 ] || { sed -n 2,8p "$0"; exit 2; }
here=$(cd "$(dirname "$0")" && pwd)
work=$(mktemp -d)
trap 'rm -rf "$work"' EXIT

workloads=${WORKLOADS:-points-6 mixed-6}
for workload in $workloads; do
    # one megabyte, so often
    python3 "$here/lines.py" "${workload%-*}" "${workload#*-}" 1000000 > "$work/one"
    for _ in $(seq "${MEGABYTES:-500}"); do cat "$work/one"; done > "$work/$workload"
done
python3 - "$work" "${TURNS:-5}" "$workloads" "$@" <<'P'
import os, subprocess, sys, time
work, turns, workloads, programs = sys.argv[1], int(sys.argv[2]), sys.argv[3].split(), sys.argv[4:]
def peak_of(process):
    # the peak by getrusage is no less than that of what started the program
    try:
        with open(f'/proc/{process}/status') as lines:
            return next((int(line.split()[1]) for line in lines if line.startswith('VmHWM')), 0)
    except OSError:
        return 0
def run(program, workload):
    start = time.monotonic()
    with open(f'{work}/{workload}') as lines:
        answering = subprocess.Popen([os.path.realpath(program)], stdin=lines, stdout=subprocess.PIPE)
        reading = subprocess.Popen(['cat'], stdin=answering.stdout, stdout=subprocess.DEVNULL)
        answering.stdout.close()
        peak = 0
        while answering.poll() is None:
            peak = max(peak, peak_of(answering.pid))
            time.sleep(0.02)
        reading.wait()
    if answering.returncode != 0:
        sys.exit(f'{program}: status {answering.returncode}')
    return time.monotonic() - start, peak
print(f'{"program":28}' + ''.join(f'{workload:>20}' for workload in workloads))
times = {(p, w): [] for p in programs for w in workloads}
for _ in range(turns):
    for workload in workloads:
        for program in programs:
            times[program, workload].append(run(program, workload))
for program in programs:
    cells = ''.join(f'{min(t for t, _ in times[program, w]):8.2f} s{max(m for _, m in times[program, w]) / 1000:7.1f} MB'.rjust(20) for w in workloads)
    print(f'{os.path.basename(program):28}' + cells)
P
