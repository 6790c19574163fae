# shellcheck shell=sh
# Jobs in the background of this machine: each is a shell whose text holds the token of its submission.

# runs JOB TOKEN: whether the job's shell is there, or, where that was killed alone, a process of its group
runs() {
    if kill -0 "$1" 2> /dev/null; then
        words_of "$1" | grep -q -- "$2"
    else
        kill -0 "-$1" 2> /dev/null
    fi
}

# words_of PROCESS: the words that it was started with
words_of() {
    if [ -r "/proc/$1/cmdline" ]; then
        tr '\0' ' ' < "/proc/$1/cmdline"
    else
        ps -o args= -p "$1"
    fi
}
