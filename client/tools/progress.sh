# For scripts that take long: what they are doing goes to standard error, on a terminal as one line that is rewritten, elsewhere as a plain line
# for each step. To be sourced.
# shellcheck shell=bash

is_terminal() { [ -t 2 ]; }

# One step that begins now.
say_step() { # WORDS
    if is_terminal; then say_how_far "$1"; else echo "$1" >&2; fi
}

# How far it is: on a terminal alone.
say_how_far() { # WORDS
    is_terminal || return 0
    local room
    room=$(stty size <&2 2>/dev/null | cut -d " " -f 2) || true
    [ "${room:-0}" -gt 1 ] || room=80
    printf '\r\033[K%s' "${1:0:room-1}" >&2
}

say_no_more() {
    is_terminal && printf '\r\033[K' >&2 || true
}

# Rewrites a line each second, until the script that began it ends: how long it takes so far, and the last line of a log.
tick() { # WORDS LOG
    local begun=$SECONDS
    while sleep 1 && kill -0 $$ 2>/dev/null; do
        say_how_far "$1, $((SECONDS - begun)) s: $(tail -n 1 "$2" 2>/dev/null | tr -d '\r')"
    done
}

# Runs a command and meanwhile tells how far its log is. The command stays in front, so that an interrupt reaches it.
with_ticks() { # WORDS LOG COMMAND...
    local words=$1 log=$2 status=0 ticking=
    shift 2
    if is_terminal; then
        tick "$words" "$log" &
        ticking=$!
    fi
    "$@" || status=$?
    if [ -n "$ticking" ]; then
        kill "$ticking" 2>/dev/null || true
        wait "$ticking" 2>/dev/null || true
        say_no_more
    fi
    return $status
}
