# The instructions of both readers over whole streams, by callgrind, which other work on the machine does not touch. Sourced by speed.

count_row() { # ROWS SHAPE CLASSES: one row of the table
    local reader function taken=()
    for reader in proved rust; do
        if [ $reader = proved ]; then function=trevoskel_read; else function='compare::reader::read*'; fi
        taken+=("$(valgrind --tool=callgrind --callgrind-out-file=/dev/null --toggle-collect="$function" "$1" "$2" "$3" $reader 1 2>&1 |
            sed -n 's/.*Collected : //p')")
    done
    awk -v shape="$2" -v classes="$3" -v ours="${taken[0]}" -v rust="${taken[1]}" \
        'BEGIN { printf "| %-14s | %7s | %7.1f / %-7.1f | %5.2f |\n", shape, classes, ours / 1e6, rust / 1e6, ours / rust }'
}

count_rows() { # ROWS [SHAPE CLASSES]: of one row, or of all
    local shape classes
    needs valgrind
    printf '| %-14s | %7s | %17s | %5s |\n|---|--:|--:|--:|\n' shape classes 'millions of them' ratio
    if [ $# -eq 3 ]; then
        count_row "$@"
        return
    fi
    for shape in $shapes; do
        for classes in 10 500; do count_row "$1" "$shape" "$classes"; done
    done
    count_row "$1" whole-bytes 10/500
}
