#!/bin/bash
# Measures a solver of DIMACS beside CaDiCaL: measure.sh PROGRAM FOLDER, where the folder has what instances.py writes.
# Times are processor seconds of the user, the least of five runs, so that other work on the machine counts less.
program=$1
folder=$2
TIMEFORMAT=%U

# The least processor seconds of five runs of a command on a file, whose output goes to the file that is named first.
least() {
    local out=$1 input=$2
    shift 2
    for _turn in 1 2 3 4 5; do
        { time timeout 120 "$@" <"$input" >"$out"; } 2>&1
    done | sort -n | head -1
}

echo '| file | answer of both | conflicts | seconds | unit steps | a second | looks | CaDiCaL'"'"'s conflicts | seconds | propagations | a second |'
echo '|---|---|---|---|---|---|---|---|---|---|---|'
for file in subtraction16 subtraction32 pigeons6 pigeons8 random1 random2 random3 random4 random5 commutes5 \
    chain10000 chain100000 chain125000 chain250000 chain500000 chain1000000 \
    falls125000 falls250000 falls500000 falls1000000 \
    rising125000 rising250000 rising500000 rising1000000 read125000 read250000 read500000 read1000000; do
    own=$(least /tmp/own.out "$folder/$file.cnf" "$program")
    other=$(least /tmp/other.out "$folder/$file.cnf" cadical)
    awk -v file="$file" -v own="$own" -v other="$other" '
        function rate(count, seconds) { return count > 0 && seconds > 0 ? sprintf("%.1f million", count / seconds / 1e6) : "" }
        NR == FNR { gsub(",", ""); answer = $1; conflicts = $4; steps = $6; looks = $8; next }
        /^s / { if (tolower($2) != answer) answer = answer ", CaDiCaL " $2 }
        /^c conflicts:/ { others = $3 }
        /^c propagations:/ { propagations = $3 }
        END { print "| " file " | " answer " | " conflicts " | " own " | " steps " | " rate(steps, own) " | " looks " | " others + 0 " | " other " | " propagations " | " rate(propagations, other) " |" }
    ' /tmp/own.out /tmp/other.out
done
