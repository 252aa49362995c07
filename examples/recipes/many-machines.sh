#!/bin/sh
# Exports a thousand responses on a Dask cluster, of which one worker is killed.
#
# Needs: `python3`, `dask-scheduler`, `dask-worker`, Python's `distributed`.
#
# With --scheduler `gavyreto many` hands file after file to the workers of a Dask cluster; what a lost worker had is given to
# another. Here the scheduler and two workers run on this machine, and the files are in the folder `machines`. On many machines
# the workers run there, with the package and the program installed, and the folders have the same paths on all of them; the line
# with --scheduler is enough.
#
# With Slurm the same is an array job: a list of the paths, a hundred lines for each task, and in a task `gavyreto many -j 1` with
# its lines and a folder of its own. With --requeue a task of a lost machine runs again, and does what isn't done.
#
# It prints what became of the responses; how many of their texts are the same as that of one response exported by itself, and how
# many have 9 bytes, up to the server's error; how many texts of refused responses there are; and how many lines the table has,
# each for another file, with its head.
set -eu

rm -rf machines
mkdir -p machines/farm
cd machines
../tools/response kinds 300 > good
../tools/response float > refused
../tools/response error > failed
for number in $(seq 1000 1999); do
    case $number in *50) cp refused "farm/$number" ;; *99) cp failed "farm/$number" ;; *) cp good "farm/$number" ;; esac
done
(
    dask-scheduler --host 127.0.0.1 --port 0 --no-dashboard --scheduler-file scheduler.json > scheduler.log 2>&1 & scheduler=$!
    for name in first second; do
        dask-worker --scheduler-file scheduler.json --host 127.0.0.1 --nthreads 1 --no-nanny --no-dashboard \
            --local-directory "$name" > "$name.log" 2>&1 & workers="${workers-} $!"
    done
    trap 'kill -KILL $scheduler $workers 2> kill.log || :' EXIT
    python3 -m gavyreto many --scheduler scheduler.json farm spread & many=$!
    # When two hundred texts are there, the second worker is killed.
    until test "$(find spread -name '*csv' 2> find.log | wc -l)" -ge 200; do sleep 0.02; done
    kill -KILL "${workers##* }"
    wait $many || echo "status $?"
)
tds_replay export good > good.csv 2> good.notes
for text in spread/????.csv; do if cmp -s "$text" good.csv; then echo same; else wc -c < "$text"; fi; done | sort | uniq -c | awk '{ print $1, $2 }'
find spread -name '*partial' | wc -l
cut -d , -f 1 spread/outcomes.csv | sort -u | wc -l
