#!/usr/bin/env bash
# Runs the scripts that try what was built; the top of each says what it does.
# It shows the output of a script only if it fails or says that it was skipped. The last line counts the scripts.
# Needs python3 and cc, and fails if one is missing; with SKIP=1 the scripts are skipped.
cd "$(dirname "$0")" || exit 1
# These run beside each other, as many at once as half the processors: each has a folder of its own, and no port that another
# one takes.
beside=(
    compare_with_plain_history.py
    refuse_in_tests.py
    move_pid_codes.py
    apply_in_files.py
    show_in_files.py
    say_what_failed.py
    check_first.py
    compare_man_page.py
    compare_doc_examples.py
    index_definitions.py
    "mutants.py --read"
    test_the_tables.py
    explore_the_log.py
    look_into_a_store.py
    make_new_stores.py
    damage_a_store.py
    check_a_store.py
    open_older_stores.py
    nearly_registries.py
    record_and_replay.py
    use_debian_list.py
    complete_commands.py
    "refuse_allocations.py --only trial"
    stop_a_founding.py
    stop_and_go_on.py
    cut_the_power.py
    name_devices.py
    run_page_examples.py
    try_the_package.py
    ask_etcd.py
    serve_over_a_log.py
)
# These measure how long a server, nginx or a browser takes, or start machines of their own, so each has the machine alone.
alone=(
    walk_the_pages.py
    walk_sharing.py
    talk_to_the_desk.py
    serve_behind_nginx.py
    use_the_page.py
    restore_a_backup.py
    share_three_machines.py
)
passed=0
failed=0
room=$(mktemp -d) || exit 1
trap 'rm -rf "$room"' EXIT

# Runs a script, and keeps what it says, and whether it passed.
try() {
    # shellcheck disable=SC2086
    ./$1 > "$room/${1%% *}" 2>&1 && touch "$room/${1%% *}.passed"
}

# Counts a script that ran, and shows what it said if there is something to say.
tell() {
    if [ -e "$room/${1%% *}.passed" ]; then
        passed=$((passed + 1))
        grep '^SKIPPED: ' "$room/${1%% *}"
    else
        failed=$((failed + 1))
        cat "$room/${1%% *}"
        echo "FAILED: scripts/$1"
    fi
}

if [ "${SKIP:-}" = 1 ]; then
    echo "SKIP=1: the scripts that try the program are left out" >&2
    beside=() alone=()
fi
for needed in python3 cc; do
    if [ ${#beside[@]} != 0 ] && ! command -v "$needed" > /dev/null; then
        echo "FAILED: there is no $needed, which the scripts that try the program need (SKIP=1 leaves them out)"
        failed=$((failed + 1))
    fi
done
[ "$failed" = 0 ] || beside=() alone=()
at_once=$((($(nproc) + 1) / 2))
for script in "${beside[@]}"; do
    while [ "$(jobs -pr | wc -l)" -ge "$at_once" ]; do wait -n; done
    try "$script" &
done
wait
for script in "${beside[@]}"; do tell "$script"; done
for script in "${alone[@]}"; do
    try "$script"
    tell "$script"
done
echo "$passed passed, $failed failed"
[ "$failed" = 0 ]
