# What a dry run tells of a pipeline, and whether it is what the run behind it starts: at first, once all is made, and
# once an input has changed. The first word is the program, and the folder is empty.
tried() {
    "$1" dry ../../device/trial.bds > told || exit
    rm -rf .bds
    "$1" run ../../device/trial.bds || exit
    for task in 1 2 3; do
        test -e .bds/task.$task.0.sh && echo "task.$task: $(cat .bds/task.$task.0.sh)"
    done > started
    cat told
    sort told | cmp - started && echo 'as told'
}
echo x > a.txt
echo x > d.txt
tried "$1"
tried "$1"
echo y > a.txt
tried "$1"
