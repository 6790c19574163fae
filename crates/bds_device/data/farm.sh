# shellcheck shell=sh
# What the pairs in slurm, spooler and background share: the folder .bds-jobs, in the folder in which bds runs.
#
#   open/NAME         a job that was submitted and whose end wasn't told: a token of this submission, the job's number
#   ends/NAME.TOKEN   the code of its task, which the job leaves when the task is over
#   gone/NAME.TOKEN   since when the job is known to be gone without such a file
#   turn              the process that submitted or polled last
#
# A poll that outlives a killed bds sees by `turn` that it isn't the last, and tells nothing more. It looks at `turn`
# behind its look at `ends`, and each submission has a token of its own, so it takes away no end of a later one.

jobs=.bds-jobs

# The code that is told of a job that ended and left no code anywhere. No signal gives it to a shell.
# shellcheck disable=SC2034 # for the pairs
vanished=254

fail() {
    echo "${0##*/}: $*" >&2
    exit 1
}

take_turn() {
    mkdir -p "$jobs/open" "$jobs/ends" "$jobs/gone" || exit 1
    me="$$ $(uname -n)"
    echo "$me" > "$jobs/turn" || exit 1
}

is_my_turn() {
    read -r turn < "$jobs/turn" && [ "$turn" = "$me" ]
}

# put TEXT FILE: the file is there with the whole text, or not at all
put() {
    echo "$1" > "$jobs/new.$$" && mv "$jobs/new.$$" "$2"
}

# job_text FILE NAME TOKEN: what a job runs. It runs nothing where its submission isn't the last of this name: one that
# outlives a killed bds may come to the queue behind that of the resumed run.
job_text() {
    cat << END
read -r token _ < $jobs/open/$2 && [ "\$token" = $3 ] || exit $vanished
sh -e $1 < /dev/null
code=\$?
echo \$code > $jobs/new.$3 && mv $jobs/new.$3 $jobs/ends/$2.$3
exit \$code
END
}

# submit_job OPTION.. FILE NAME: cancels the older jobs of this task, waits for their end, and hands over the new one.
# A resumed run begins with attempt 0 again, so an older job may be one of a later attempt.
# The pair has `older_jobs NAME`, `cancel JOB..` and `hand FILE NAME TOKEN OPTION..`, which prints the job's number.
submit_job() {
    [ $# -ge 2 ] || fail 'FILE and NAME are needed'
    options=$(($# - 2))
    while [ "$options" -gt 0 ]; do
        set -- "$@" "$1"
        shift
        options=$((options - 1))
    done
    file=$1 name=$2
    shift 2
    case $file$name in
    *[!A-Za-z0-9._-]*) fail "not a task's file and name: $file $name" ;;
    esac
    take_turn
    for record in "$jobs/open/${name%.*}".*; do
        [ ! -e "$record" ] || forget "${record##*/}"
    done
    token=$(date +%s)-$$
    put "$token" "$jobs/open/$name" || exit 1
    job=$(hand "$file" "$name" "$token" "$@") || fail "$name was not taken"
    read -r last _ < "$jobs/open/$name"
    [ "$last" = "$token" ] || fail "$name was submitted once more meanwhile"
    put "$token $job" "$jobs/open/$name" || exit 1
}

# forget NAME: a job that still runs may write the files that the new one makes, so it is waited for
forget() {
    tries=0
    while :; do
        older=$(older_jobs "$1") || fail 'the queue does not answer'
        [ -n "$older" ] || break
        [ "$tries" -lt "${BDS_CANCEL_WAIT:-120}" ] || fail "$1 is there already, and can't be cancelled"
        # shellcheck disable=SC2086 # a word for each job
        cancel $older
        tries=$((tries + 1))
        sleep 1
    done
    rm -f "$jobs/ends/$1".* "$jobs/gone/$1".* "$jobs/open/$1"
}

# Tells the ends that the jobs left.
tell_left() {
    set -- "$jobs"/ends/*
    [ -e "$1" ] || return 0
    is_my_turn || exit 0
    for end; do
        of=${end##*/} code='' token=''
        name=${of%.*}
        read -r code < "$end" || continue
        [ ! -e "$jobs/open/$name" ] || read -r token _ < "$jobs/open/$name"
        [ "$token" != "${of##*.}" ] || tell "$name" "$code"
        rm -f "$end"
    done
}

# tell NAME CODE
tell() {
    echo "$1 $2" || exit 1
    rm -f "$jobs/open/$1"
    told=yes
}

# Prints a line `NAME TOKEN JOB` for each job whose end wasn't told.
open_jobs() {
    for record in "$jobs"/open/*; do
        [ -e "$record" ] || return 0
        token='' job=''
        read -r token job < "$record"
        [ -z "$job" ] || echo "${record##*/} $token $job"
    done
}

# Tells the ends of jobs that are gone and left nothing for a while: on a shared disk a file may come later than the
# news. The pair has `gone`, which prints those lines of its input whose jobs are over, and `code_of JOB`.
tell_gone() {
    found=$(open_jobs)
    [ -n "$found" ] || return 0
    found=$(printf '%s\n' "$found" | gone) || return 0
    [ -n "$found" ] || return 0
    is_my_turn || exit 0
    while read -r name token job; do
        since=''
        [ ! -e "$jobs/ends/$name.$token" ] || continue
        [ ! -e "$jobs/gone/$name.$token" ] || read -r since < "$jobs/gone/$name.$token"
        if [ -z "$since" ]; then
            echo "$now" > "$jobs/gone/$name.$token"
        elif [ $((now - since)) -ge "${BDS_GRACE:-30}" ]; then
            tell "$name" "$(code_of "$job")"
            rm -f "$jobs/gone/$name.$token"
        fi
    done << END
$found
END
}

# poll_jobs: tells ends as soon as there is one, or returns without after a minute. It looks at the files each second,
# and asks the queue each ten.
poll_jobs() {
    take_turn
    told=no asked=0
    begun=$(date +%s)
    [ ! -e "$jobs/asked" ] || read -r asked < "$jobs/asked"
    while :; do
        now=$(date +%s)
        tell_left
        if [ $((now - asked)) -ge "${BDS_ASK_EACH:-10}" ]; then
            tell_gone
            asked=$now
            echo "$asked" > "$jobs/asked"
        fi
        [ "$told" = no ] && [ $((now - begun)) -lt "${BDS_POLL_MOST:-60}" ] && is_my_turn || exit 0
        sleep 1
    done
}
