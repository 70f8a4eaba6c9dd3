# Completion of `night` for bash: source this file, or put it into
# /usr/share/bash-completion/completions/night.

_night() {
    local current=${COMP_WORDS[COMP_CWORD]} before=${COMP_WORDS[COMP_CWORD - 1]} flags=""
    local words="demo format script inspect crew migrate renew plan drive help"
    COMPREPLY=()
    if ((COMP_CWORD == 1)); then
        mapfile -t COMPREPLY < <(compgen -W "$words --help --version" -- "$current")
        return
    fi
    case ${COMP_WORDS[1]} in
        demo) flags="--strict --help" ;;
        format) flags="--new --help" ;;
        script) flags="--strict --now --help" ;;
        crew) flags="--workers --known --help" ;;
        inspect) flags="--tasks --phase --group --json --tree --no-tasks --summary --help" ;;
        migrate) flags="--new --help" ;;
        renew) flags="--new --in-place --help" ;;
        plan | drive) flags="--help" ;;
        help) mapfile -t COMPREPLY < <(compgen -W "$words" -- "$current") && return ;;
        *) return ;;
    esac
    # (bash takes an option, `=` and a value for three words)
    if [[ $current == "=" ]]; then
        current=""
    elif [[ $before == "=" ]]; then
        before=${COMP_WORDS[COMP_CWORD - 2]}
    fi
    if [[ $before == --workers ]]; then
        mapfile -t COMPREPLY < <(compgen -W "1 2 3 4 5 6 7 8" -- "$current")
    elif [[ $before == --phase ]]; then
        mapfile -t COMPREPLY < <(
            compgen -W "held ready running success error interrupted" -- "$current")
    elif [[ $before == --group ]]; then
        mapfile -t COMPREPLY < <(compgen -W "$(_night_groups)" -- "$current")
    elif [[ $current == -* ]]; then
        mapfile -t COMPREPLY < <(compgen -W "$flags" -- "$current")
    elif [[ ${COMP_WORDS[1]} != demo && ${COMP_WORDS[1]} != plan ]]; then
        compopt -o filenames 2> /dev/null
        mapfile -t COMPREPLY < <(compgen -f -- "$current")
    fi
}

# The groups of the store that the line names, by asking it.
_night_groups() {
    local it
    for it in "${COMP_WORDS[@]:2}"; do
        if [[ -f $it ]]; then
            "${COMP_WORDS[0]}" inspect "$it" 2> /dev/null | sed -n 's/^group [0-9]* \([^ ]*\) .*/\1/p'
            return
        fi
    done
}

_night_run() {
    local current=${COMP_WORDS[COMP_CWORD]} before=${COMP_WORDS[COMP_CWORD - 1]}
    COMPREPLY=()
    case $before in
        -j | --grace | --keep) return ;;
        --on-begin | --on-success | --on-failure | --mail)
            mapfile -t COMPREPLY < <(compgen -c -- "$current" | sort -u)
            return ;;
        --report)
            mapfile -t COMPREPLY < <(compgen -W \
                "html text prom history history-html history-json" -- "$current")
            return ;;
        --cancel)
            # the groups of the file of commands, if it stands before, or else of the last run
            mapfile -t COMPREPLY < <(
                compgen -W "$(_night_run_groups "$current" night)" -- "$current")
            return ;;
        --only | --redo | --skip)
            # the groups, or the commands of one once there is a slash
            mapfile -t COMPREPLY < <(
                compgen -W "$(_night_run_groups "$current" night)" -- "$current")
            return ;;
        --set)
            compopt -o nospace 2> /dev/null
            mapfile -t COMPREPLY < <(
                compgen -S = -W "j $(_night_run_groups | sed 's/$/.limit/')" -- "$current")
            return ;;
        --tail | --output)
            # the commands of the group once there is a slash
            mapfile -t COMPREPLY < <(compgen -W "$(_night_run_groups "$current")" -- "$current")
            return ;;
    esac
    if [[ $current == -* ]]; then
        mapfile -t COMPREPLY < <(
            compgen -W "-j --grace --keep --failed --again --nightly --resume --quiet \
                --on-begin --on-success --on-failure --mail --list --json --dry-run --report \
                --status --watch --tail --output --only --redo --skip --set --pause --cancel \
                --version --help" -- "$current")
    else
        compopt -o filenames 2> /dev/null
        mapfile -t COMPREPLY < <(compgen -f -- "$current")
    fi
}

# The groups of the file of commands, and these other names; or its commands once there is a slash.
_night_run_groups() {
    local what='$1' key='^[a-z0-9_{}-]+$' file=${COMP_WORDS[2]}
    [[ ${1-} != */* ]] || what='$1 "/" $2' key='^[a-z0-9_-]+$'
    [[ -f $file ]] || file=${COMP_WORDS[1]}.tries/plan
    [[ -f $file ]] || return
    [[ ! ${2-} ]] || printf '%s\n' "${@:2}"
    awk "\$1 ~ /^[a-z0-9_-]+\$/ && \$2 ~ /$key/ && (NF > 2 || \$1 != \"include\") \
        { print $what }" "$file" | sort -u
}

complete -F _night night
complete -F _night_run night-run
