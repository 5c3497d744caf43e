# shellcheck shell=bash
# Read by scripts/try_package.sh and scripts/try_unit.sh: what is told of each thing, and a clean Debian.
passed=0
failed=0

# need SCRIPT COMMAND PACKAGE: ends with 2 where a command is not here.
need() {
    command -v "$2" > /dev/null || { echo "$1: $2 is not here: apt-get install $3" >&2; exit 2; }
}

# tell NAME STATUS [WHY]
tell() {
    if [ "$2" = 0 ]; then
        echo "ok: $1"
        passed=$((passed + 1))
    else
        echo "NOT: $1: ${3:-status $2}"
        failed=$((failed + 1))
    fi
}

# holds NAME WORD..: tells whether a command does, with what it said where it does not.
holds() {
    local name=$1 said
    shift
    said=$("$@" 2>&1)
    tell "$name" $? "$(echo "$said" | tail -n 5 | tr '\n' ' ')"
}

# says NAME TEXT WORD..: the same of a command that is to say this text.
says() {
    local name=$1 text=$2 said
    shift 2
    said=$("$@" 2>&1)
    case $said in
    *"$text"*) tell "$name" 0 ;;
    *) tell "$name" 1 "$(echo "$said" | tail -n 5 | tr '\n' ' ')" ;;
    esac
}

# How many passed and failed; the status of the script.
told() {
    echo "$passed passed, $failed failed"
    [ "$failed" = 0 ]
}

# clean_debian ROOT GIVEN PACKAGES LOG: a Debian in a new folder, with these packages beside the least: a copy of GIVEN, or else one of ALLOCD_MIRROR.
clean_debian() {
    if [ -n "$2" ]; then
        cp -a "$2" "$1"
    else
        debootstrap --variant=minbase ${3:+"--include=$3"} bookworm "$1" "${ALLOCD_MIRROR:-http://deb.debian.org/debian}" > "$4" 2>&1
    fi
}
