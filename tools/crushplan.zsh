#compdef crushplan
# completion of zsh for crushplan

# completes the names of a kind that the folder has: items (hosts, racks, devices), types, classes
# or pools
_crushplan_names() {
    local -a found
    found=("${(@f)$($program --names $1 ${(Q)line[1]/#\~\//$HOME/} 2>/dev/null)}")
    found=($found)
    (($#found)) && compadd -M 'r:|.=* r:|=*' -a found
}

_crushplan() {
    local curcontext=$curcontext state line command program=${(Q)words[1]/#\~\//$HOME/}
    typeset -A opt_args
    local -a commands common on drawn until pools changed
    commands=(
        'fetch:writes the files of a cluster into a folder'
        'check:says what can be computed, and what not'
        'usage:shows how much lies where'
        'compare:shows what moves where the map becomes another'
        'drain:says whether hosts, racks or devices can be drained'
        'fail:says what happens while they are down, and once they are out'
        'plan:says what the lines of a runbook do'
        'balance:proposes upmap items that even out pools'
        'upmap:shows what a list of upmap commands does'
        'locate:shows where objects or groups lie'
        'metrics:writes what is watched, for Prometheus'
        'help:shows the help of a command'
    )
    common=(
        '(- *)--help[shows the help of the command]'
        '(--csv)--json[writes one object of JSON]'
        '(--json)--csv[writes the main table as CSV]'
        '--service[asks a server]:URL:'
        '--program[the program crushcalc]:file:_files'
        '--size[the size of each pool, without osd.json]:number:'
        '--pg-num[its number of groups, without osd.json]:number:'
        '--min-size[its min_size, without osd.json]:number:'
        '--allow-unplaced[takes devices that the map lacks]'
        '1:folder:_directories'
    )
    on=('--on[asks the workers of a scheduler of Dask]:URL:')
    drawn=('--html[also writes a page with a drawing]:file:_files')
    until=(
        '(--moves --until-fill --primaries)--deviation[until each device is as near to its share]:number:'
        '(--deviation --until-fill --primaries)--moves[by at most so many copies]:number:'
        '(--deviation --moves --primaries)--until-fill[until no device is past so many percent]:number:'
        '(--deviation --moves --until-fill)--primaries[evens out primaries instead]'
    )
    pools=('*--pool[a pool]:pool:->pools' '*:pool:->pools')
    changed=(
        '--class[the devices of a class alone]:class:->classes'
        '--by[usage by a type]:type:->types'
        '--groups[lists groups too]'
        '*:name:->items'
    )
    if ((CURRENT == 2)); then
        if [[ $words[2] == -* ]]; then
            compadd -- --help --version
        else
            _describe -t commands command commands
        fi
        return
    fi
    command=$words[2]
    shift words
    ((CURRENT -= 1))
    case $command in
        fetch) _arguments -C '(- *)--help[shows the help of the command]' '--ceph[the command]:command:' '1:folder:_directories' ;;
        check) _arguments -C $common $drawn '--mend[writes the map with its holes filled]:file:_files' ;;
        usage) _arguments -C $common $drawn $pools '--by[usage by a type]:type:->types' '--groups[lists groups too]' ;;
        compare) _arguments -C $common $drawn $on '--groups[lists groups too]' '*:changed map:_files' ;;
        drain) _arguments -C $common $drawn $changed ;;
        fail) _arguments -C $common $drawn $on $changed '--each[every item of a type in turn]:type:->types' ;;
        plan) _arguments -C $common $drawn $on '--rate[megabytes a second of a device]:number:' '--orders[tries other orders too]' '--groups[lists groups, in JSON and CSV]' '2:runbook:_files' ;;
        balance) _arguments -C $common $drawn $on $until $pools '--class[what rules take of a class alone]:class:->classes' \
                '--for-bytes[percent of moves more for bytes]:number:' '--lines[writes the lines alone]:file:_files' ;;
        upmap) _arguments -C $common $drawn '2:list of commands:_files' ;;
        locate) _arguments -C $common '*--group[a group, as 5.1f]:group:' '--objects[a list of names]:file:_files' \
                '--only-on[just what lies there]:name:->items' '--left[at most so many copies elsewhere]:number:' \
                '--no-head[no line of heads]' '2:pool:->pools' '*:object:' ;;
        metrics) _arguments -C $common '*--each[a type whose buckets fail in turn]:type:->types' '--to[writes into a file]:file:_files' ;;
        help) ((CURRENT == 2)) && _describe -t commands command commands ;;
    esac
    [[ -z $state ]] || _crushplan_names $state
}

_crushplan "$@"
