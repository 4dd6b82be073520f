# completion of bash for crushplan

# a word of the line without its quotes, and with ~ as it stands for
_crushplan_plain() {
    local it=$1
    case $it in '~/'*) it=$HOME/${it#\~/} ;; esac
    printf '%s' "${it//[\'\"\\]/}"
}

# the names of a kind that a folder has: items (hosts, racks, devices), types, classes or pools
_crushplan_names() {
    "$(_crushplan_plain "${COMP_WORDS[0]}")" --names "$1" "$(_crushplan_plain "$2")" 2>/dev/null
}

_crushplan() {
    local word=${COMP_WORDS[COMP_CWORD]} before=${COMP_WORDS[COMP_CWORD - 1]} command= folder= options kind place=0 it
    local commands="fetch check usage compare drain fail plan balance upmap locate metrics help"
    local common="--help --json --csv --service --program --size --pg-num --min-size --allow-unplaced"
    local valued=" --service --program --size --pg-num --min-size --ceph --mend --html --on --objects --only-on --left --pool --by --each --class --group --rate --to --deviation --moves --until-fill --for-bytes --lines "
    [ "$COMP_CWORD" -lt 2 ] || command=${COMP_WORDS[1]}
    case $command in
        fetch) options="--help --ceph" ;;
        check) options="$common --html --mend" ;;
        usage) options="$common --html --pool --by --groups" ;;
        compare) options="$common --html --on --groups" ;;
        drain) options="$common --html --class --by --groups" ;;
        fail) options="$common --html --on --class --each --by --groups" ;;
        plan) options="$common --html --on --rate --orders --groups" ;;
        balance) options="$common --html --on --pool --class --deviation --moves --until-fill --primaries --for-bytes --lines" ;;
        upmap) options="$common --html" ;;
        locate) options="$common --group --objects --only-on --left --no-head" ;;
        metrics) options="$common --each --to" ;;
        help) options=$commands ;;
        *) options="$commands --help --version" ;;
    esac
    # how many words stand before this one that are no options; the first of them is the folder
    for ((it = 2; it < COMP_CWORD; it++)); do
        case ${COMP_WORDS[it]} in
            -*) [[ $valued != *" ${COMP_WORDS[it]} "* ]] || it=$((it + 1)) ;;
            *) place=$((place + 1)); [ "$place" -gt 1 ] || folder=${COMP_WORDS[it]} ;;
        esac
    done
    case $before:$word in
        --by:* | --each:*) kind=types ;;
        --class:*) kind=classes ;;
        --pool:*) kind=pools ;;
        --program:* | --html:* | --mend:* | --to:* | --lines:* | --objects:*) kind=files ;;
        --only-on:*) kind=items ;;
        --service:* | --size:* | --pg-num:* | --min-size:* | --ceph:* | --group:* | --rate:* | --deviation:* | --moves:* | --until-fill:* | --for-bytes:* | --on:* | --left:*) kind=none ;;
        *:-*) kind=options ;;
        *)
            case $command:$place in
                :* | help:0) kind=options ;;
                help:*) kind=none ;;
                *:0) kind=folders ;;
                drain:* | fail:*) kind=items ;;
                locate:1 | balance:* | usage:*) kind=pools ;;
                compare:* | plan:1 | upmap:1) kind=files ;;
                *) kind=none ;;
            esac
            ;;
    esac
    COMPREPLY=()
    case $kind in
        none) ;;
        options) mapfile -t COMPREPLY < <(compgen -W "$options" -- "$word") ;;
        folders) compopt -o filenames 2>/dev/null; mapfile -t COMPREPLY < <(compgen -d -- "$word") ;;
        files) compopt -o filenames 2>/dev/null; mapfile -t COMPREPLY < <(compgen -f -- "$word") ;;
        *)
            while read -r it; do
                [[ $it != "$word"* ]] || COMPREPLY+=("$(printf '%q' "$it")")
            done < <(_crushplan_names "$kind" "$folder")
            ;;
    esac
}

complete -F _crushplan crushplan
