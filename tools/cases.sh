#!/usr/bin/env bash
# cases.sh: writes the stored cases of the conformance program and their answers: charts drawn by shared/oracle, then hostile
# tables, directed cases, tables from elsewhere, cases of ages and of stations, whose refusals, the reasons of why and the whole
# answers of the cases of ages and stations are held against those that stand in their lists. landed.txt has the requests of
# document 02 that have landed.
set -eu
cd "$(dirname "$0")/.."
oracle=../shared/oracle
stored=crates/conform
asks=$(cat tools/landed.txt)
lists="hostile_tables directed_cases foreign_tables age_cases station_cases"
{
    python3 $oracle/cases.py 1 400 --asks "$asks" | sed '$d'
    python3 $oracle/cases.py 2 100 --large --asks "$asks" | sed '$d'
    for list in $lists; do python3 tools/$list.py; done
    echo 0
} > $stored/stdin
python3 $oracle/answers.py --asks "$asks" < $stored/stdin > $stored/stdout

expected=$(for list in $lists; do python3 tools/$list.py --refusals; done)
given=$(tail -n "$(wc -l <<< "$expected")" $stored/stdout)
diff <(cut -d' ' -f1,2 <<< "$expected") <(cut -d' ' -f1,2 <<< "$given")
whole=$(for list in age_cases station_cases; do python3 tools/$list.py --answers; done)
diff <(python3 tools/directed_cases.py --reasons; grep '^why ' <<< "$whole") <(grep '^why ' <<< "$given")
diff - <(tail -n "$(wc -l <<< "$whole")" <<< "$given") <<< "$whole"
