# found.sh CLAIM PLANT WORD..: what `plc verify` tells of one claim, but for what depends on how it searches. Behind FAILS stands
# how many evaluations and restarts there are, and what the outputs are once `plc sim` has done the schedule.
claim=$1
plant=$2
shift
"$PLC" verify "$@" --never "$claim" >told
status=$?
verdict=$(head -n 1 told)
case $verdict in
HOLDS*)
    echo "$verdict" | sed 's/: [0-9]* states\{0,1\}, [0-9]* steps\{0,1\}$//'
    ;;
FAILS*)
    sed '1d;$d' told >found.schedule
    [ "${verdict% events}" = "$verdict" ] || echo "$verdict" | sed "s/ after $(wc -l <found.schedule) events$//"
    echo "$(grep -c '^EVAL \|^RESTART ' found.schedule) evaluations and restarts"
    "$PLC" sim "$plant" found.schedule >happened
    grep REFUSED happened
    for output in $(echo "$claim" | tr , ' '); do
        grep "^EVAL [0-9]* ${output%%.*}[.]" happened | tail -n 1 | grep -o "${output#*.}=[01]"
    done
    ;;
*)
    echo "$verdict"
    ;;
esac
tail -n 1 told
exit $status
