# Functions of scripts that run commands beside one another, each in a process group of its own.

# Tells what has ended, and the time since the script began.
ended() {
    printf '%s ended after %s min %s s\n' "$1" $((SECONDS / 60)) $((SECONDS % 60))
}

# Ends what still runs beside, if something failed.
end_all() {
    local group
    for group in $(jobs -p); do
        kill -- "-$group" 2> /dev/null || true
    done
}
