#!/bin/sh
# Prints how many checks of the gate may go beside one another, for RT_JOBS, or nothing. If nothing is told, the gate gives idle processors to a
# crate that others wait for, but it counts up to 10 GB for a check and holds checks back by that. Most take under 3 GB, and the tests of the low
# crates 5. So one a processor is told on at most four processors, if there are 4 GB for each and fewer than GB in all. On more processors the
# longest chain of crates counts, and what it gains by idle processors.
#     scripts/jobs.sh GB
set -eu
if [ -n "${RT_JOBS:-}" ]; then
    echo "$RT_JOBS"
    exit
fi
processors=$(nproc)
free=$(awk '/^MemAvailable/ { print int($2 / 1000000) }' /proc/meminfo)
if [ "$processors" -le 4 ] && [ "$free" -ge $((4 * processors)) ] && [ "$free" -lt "$1" ]; then
    echo "$processors"
fi
