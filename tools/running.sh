# What the launchers share: the answers that need no program, and the run of the program itself. Who reads this has set
# `files`, the folder of help.txt and tunables, and has the function `version`, which prints what is run here.

# Whether words ask for help or for the version. What stands behind an option is its value, also where it begins with `-`.
asked_for() {
    value_is_next=
    for word; do
        if [ -n "$value_is_next" ]; then
            value_is_next=
            continue
        fi
        case $word in
            --help | -h) asked=help && return ;;
            --version) asked=version && return ;;
            --no-overlap | --*=*) ;;
            --*) value_is_next=yes ;;
        esac
    done
    return 1
}

# Answers words that ask about the program, and ends.
answer() {
    asked_for "$@" || return 0
    case $asked in
        help) cat "$files/help.txt" ;;
        version) version ;;
    esac || exit 11
    exit 0
}

# Runs the program on words, and ends as it does. After words that are none of a command it says where to look.
run() {
    program=$1
    shift
    # The C library keeps the stacks of threads that ended for the next ones; what the caller tells it stands behind.
    read -r tunables <"$files/tunables"
    export GLIBC_TUNABLES="$tunables${GLIBC_TUNABLES:+:$GLIBC_TUNABLES}"
    # Who ends this shell by a signal ends the program too, where the system can do that.
    if setpriv --pdeathsig KILL true 2>/dev/null; then
        setpriv --pdeathsig KILL "$program" "$@"
    else
        "$program" "$@"
    fi
    status=$?
    [ "$status" -ne 2 ] || echo "sdf3analysis: --help lists the algorithms and their options" >&2
    [ "$status" -le 128 ] || kill -"$((status - 128))" $$
    exit "$status"
}
