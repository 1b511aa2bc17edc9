#!/usr/bin/env bash
# Runs each example on the program, and compares what it prints with its .out file; and tries the statuses that no other
# test shows: output that is closed, and a word of the command line that isn't UTF-8.
set -u
cd "$(dirname "$0")" || exit 1
failed=0
for script in *.smt2; do
    if ../strsolve.sh "$script" | cmp -s - "${script%.smt2}.out"; then
        echo "$script: as written"
    else
        echo "$script: DIFFERS"
        failed=1
    fi
done

# Tells whether the status $2 is that which has to come of what $1 says.
compare() {
    if [ "$2" = "$3" ]; then
        echo "$1: status $2"
    else
        echo "$1: status $2 for $3"
        failed=1
    fi
}

# A reader that is gone before the first reply.
status=$({ (sleep 1; ../strsolve.sh first.smt2; echo $? >&3) | true; } 3>&1)
compare "closed output" "$status" 4
../strsolve.sh $'\xff' >/dev/null
compare "a word that isn't UTF-8" $? 2
exit $failed
