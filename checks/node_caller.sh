#!/bin/bash
# A caller of checks/node.py in bash, over `nc`.
#
#   node_caller.sh NAME SOCKET NOTES STOP    until the file STOP is there
#
# Writes into NOTES when it was inside: from the reply that admitted it to the moment before it leaves.
trap '' PIPE
word=$1 socket=$2 notes=$3 stop=$4 name= reply= token= to= from=

note() { echo "${EPOCHREALTIME/./}000 $*" >>"$notes"; }

ask() { printf '%s\n' "$1" >&"$to" && IFS= read -r reply <&"$from"; } 2>/dev/null

close() { { exec {to}>&- {from}<&-; } 2>/dev/null; wait 2>/dev/null; }

connect() { # whether a node answers at all, before STOP is there
    while [ ! -e "$stop" ] || [ -n "$token" ]; do
        coproc NODE { exec nc -q 0 -U "$socket" 2>/dev/null; } 2>/dev/null
        { exec {to}>&"${NODE[1]}" {from}<&"${NODE[0]}" {NODE[1]}>&- {NODE[0]}<&-; } 2>/dev/null
        ask "show a" && return 0
        close
        sleep 0.3
    done
    return 1
}

# Takes up the session of the token; says `lost` where it is not there.
take_up() {
    close
    while connect; do
        ask "resume $token" && return 0
        close
    done
    return 1
}

leave_surely() { # record; the reply is that of a `take_up`
    while [ "$reply" != "refused NoToken" ] && ! ask "leave $1 $name"; do take_up || return; done
}

visit() { # record, verb, kind, seconds
    ask token || return
    token=${reply#token }
    began=${EPOCHREALTIME/./}
    if ask "wait $4 $2 $1 $name"; then
        case $reply in
            admitted) note wait $((${EPOCHREALTIME/./} - began)) ;;
            "timeout refused "*) return ;;
            *) note "fault wait $4 $2 $1 $name: $reply"; return ;;
        esac
    else
        take_up || return
        case $reply in
            "refused NoToken") return ;;
            *" $3") ;;
            *" waiting") leave_surely "$1"; return ;;
            *) note "fault resume behind wait: $reply"; return ;;
        esac
    fi
    note in "$1" "$3"
    sleep $((RANDOM % 10 == 0)).0$((RANDOM % 9))
    if ! ask "fence $1 $name"; then
        take_up || return
        case $reply in
            "resumed 1 $1 $name $3") ;;
            *) note "fault the session is lost: $reply" ;;
        esac
    fi
    note out "$1"
    if ask "leave $1 $name"; then
        [ "$reply" = "left $3" ] || note "fault leave: $reply"
    else
        take_up && leave_surely "$1"
    fi
}

visits=0
while [ ! -e "$stop" ] && token= && connect; do
    visits=$((visits + 1)) name=$word/$visits
    case $((RANDOM % 8)) in
        0) visit a write writer $((1 + RANDOM % 8)) ;;
        1) visit b write writer $((1 + RANDOM % 8)) ;;
        2 | 3 | 4) visit a read reader $((RANDOM % 4)).5 ;;
        *) visit b read reader $((RANDOM % 4)).5 ;;
    esac
    close
    sleep $((RANDOM % 2)).$((RANDOM % 10))
done
exit 0
