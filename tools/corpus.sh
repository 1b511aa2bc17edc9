#!/usr/bin/env bash
# Runs a solver over all SMT-LIB scripts below a folder, many at once, and writes a table of what came.
usage="\
corpus.sh [OPTION ..] FOLDER OUT

Runs every .smt2 below FOLDER, and writes OUT/table.tsv: a row a script, with its verdicts, how it ended, its processor
seconds, its memory, the causes of its unknown verdicts and its first error. A run that was broken off goes on where it
was when it is called again with the same words. Nothing is written into FOLDER.

  --solver COMMAND     what is run; {} is the script, and ./NAME the program that --program names [./strsolve {}]
  --program FILE       the program that ./NAME stands for, sent to other machines [this checkout's strsolve]
  --seconds N          processor seconds for each script; ten times as many by the clock [20]
  --memory N           megabytes for each script [4000]
  --jobs N             how many scripts run at once on a machine [one a processor]
  --hosts LIST         machines to run on, as GNU parallel's --sshlogin takes them; ':' is this one
  --shard K/N          only the K-th of N parts of the scripts, as for a cluster's array; the table is OUT/shard-K/table.tsv

Ends with 0 where each script was run, 1 where a result was lost (a full disk, a machine that went away; call it again),
2 for words that it doesn't take, and 3 where OUT holds another run, or one that is still going on.

Needs GNU parallel and GNU time (Debian: parallel, time), on each machine."
set -u

fail() {
    echo "corpus.sh: $2" >&2
    exit "$1"
}

root=$(cd "$(dirname "${BASH_SOURCE[0]}")/.." && pwd) || exit 2
solver="./strsolve {}" program=$root/crates/strsolve/out/strsolve
seconds=20 memory=4000 jobs=100% hosts="" shard=1/1

while [ $# -gt 0 ]; do
    case $1 in
        --help) echo "$usage" && exit 0 ;;
        --solver | --program | --seconds | --memory | --jobs | --hosts | --shard)
            [ $# -gt 1 ] || fail 2 "$1 wants a value"
            declare "${1#--}=$2"
            shift 2
            ;;
        --*) fail 2 "there is no option $1 (--help tells those that there are)" ;;
        *) break ;;
    esac
done
[ $# -eq 2 ] || fail 2 "it takes a folder of scripts and a folder for results (--help tells more)"
[[ $seconds =~ ^[1-9][0-9]*$ && $memory =~ ^[1-9][0-9]*$ ]] || fail 2 "--seconds and --memory take a number above 0"
[[ $shard =~ ^([1-9][0-9]*)/([1-9][0-9]*)$ ]] || fail 2 "--shard takes K/N, as 3/100"
part=${BASH_REMATCH[1]} parts=${BASH_REMATCH[2]}
[ "$part" -le "$parts" ] || fail 2 "--shard $shard names no part"
[ -d "$1" ] || fail 2 "$1 is no folder"
for tool in parallel /usr/bin/time flock; do
    command -v "$tool" >/dev/null || fail 2 "$tool isn't there (Debian: apt-get install parallel time)"
done
folder=$(cd "$1" && pwd) || exit 2

out=$2
[ "$parts" -eq 1 ] || out=$2/shard-$part
mkdir -p "$out/results" "$out/run" || fail 1 "$out can't be written"
out=$(cd "$out" && pwd) || exit 2
exec 9>"$out/lock" || fail 1 "$out can't be written"
flock -n 9 || fail 3 "another run is going on in $out"

# The words of the run, which a later call has to repeat.
words=$(printf '%s\n' "$folder" "$solver" "$seconds" "$memory" "$shard")
if [ -e "$out/words" ]; then
    [ "$(cat "$out/words")" = "$words" ] || fail 3 "$out holds a run of other words: $(tr '\n' ' ' <"$out/words")"
else
    (cd "$folder" && find . -name '*.smt2' -type f | LC_ALL=C sort) |
        awk -v part="$part" -v parts="$parts" '(NR - 1) % parts == part - 1 { print substr($0, 3) }' >"$out/scripts" &&
        { [[ $solver != *"./${program##*/}"* ]] || cp "$program" "$out/run/"; } &&
        printf '%s\n' "$words" >"$out/words.new" && mv "$out/words.new" "$out/words" ||
        fail 1 "the run can't be prepared in $out"
fi

# A result without its last line, or a line of the log without all its columns, was lost while it was written: its script
# is run again.
if [ -e "$out/jobs" ]; then
    awk -F '\t' -v out="$out" '
        NR > 1 {
            if (NF < 9) next
            last = ""
            file = out "/results/" $1 ".out"
            while ((getline line < file) > 0) last = line
            close(file)
            if (last !~ /^corpus-end /) next
        }
        { print }' "$out/jobs" >"$out/jobs.new" && mv "$out/jobs.new" "$out/jobs" || fail 1 "$out can't be written"
fi
# GNU parallel passes over what has a result, also an empty one.
comm -23 <(cd "$out/results" && ls | sed -n 's/\.out$//p' | sort) <(cut -f 1 "$out/jobs" 2>/dev/null | sort) |
    while read -r number; do rm -f "$out/results/$number.out"{,.err,.seq}; done

# Limits are set by the shell that runs the solver, so that they hold on each machine.
command=${solver//'{}'/'"$script"'}
limited="ulimit -S -s 65536 2>/dev/null; ulimit -c 0; ulimit -t $seconds; ulimit -v $((memory * 1024))
exec /usr/bin/time -q -f 'corpus-end %U %S %M' timeout $((10 * seconds)) $command </dev/null 2>&1"
send=() at=$(printf '%q/' "$folder")
if [ -n "$hosts" ]; then
    send=(--sshlogin "$hosts" --workdir "corpus-$$" --transferfile "$folder/./{}" --cleanup) at=""
    [ ! -e "$out/run/${program##*/}" ] || send+=(--basefile "./${program##*/}")
fi
shown=()
[ ! -t 2 ] || shown=(--bar)

cd "$out/run" || exit 1
SHELL=$(command -v bash) parallel --will-cite "${shown[@]}" --jobs "$jobs" "${send[@]}" --joblog "$out/jobs" --resume \
    --results "$out/results/{#}.out" --arg-file "$out/scripts" "script=$at{}; $limited" >/dev/null

# The table, a row a script in the order of their names.
awk -F '\t' -v out="$out" -v limit="$seconds" '
    FILENAME ~ /scripts$/ { script[FNR] = $0; count = FNR; next }
    FNR > 1 { ended[$1] = $7; stopped[$1] = $8 }
    END {
        print "script\tverdicts\tstatus\tseconds\tmegabytes\tcauses\terror"
        for (n = 1; n <= count; n++) {
            verdicts = causes = error = last = ""
            file = out "/results/" n ".out"
            while ((getline line < file) > 0) {
                gsub(/\t/, " ", line)
                if (line ~ /^(sat|unsat|unknown)$/) verdicts = verdicts (verdicts == "" ? "" : " ") line
                if (line ~ /^\(:reason-unknown /) causes = causes (causes == "" ? "" : "; ") substr(line, 18, length(line) - 18)
                if (error == "" && line ~ /[Ee]rror/) error = line
                last = line
            }
            close(file)
            status = "lost"
            split(last, part, " ")
            used = memory = ""
            if (n in ended && last ~ /^corpus-end /) {
                used = sprintf("%.2f", part[2] + part[3])
                memory = sprintf("%.1f", part[4] / 1024)
                status = ended[n]
                if (used + 0.5 >= limit && status > 128 || status == 124) status = "time"
                else if (status > 128) status = "signal " status - 128
            }
            print script[n] "\t" verdicts "\t" status "\t" used "\t" memory "\t" causes "\t" error
        }
    }' "$out/scripts" "$out/jobs" >"$out/table.new" && mv "$out/table.new" "$out/table.tsv" ||
    fail 1 "the table can't be written: $out is full, or was taken away; what was done is kept"
cut -f 3 "$out/table.tsv" | grep -q -x lost &&
    fail 1 "$(grep -c -P '^[^\t]*\t[^\t]*\tlost' "$out/table.tsv") results were lost, or weren't made: call it again for these"
exit 0
