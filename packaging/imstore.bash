# Completion of imstore and imdrill for bash: options as the program's own --help lists them, then a folder, or for imdrill a script.
_vahondrisa_tool() {
    local word=$2 before=$3 kind=-d
    [ "${1##*/}" != imdrill ] || kind=-f
    COMPREPLY=()
    case $before in
        --frames | --cache | --pages | --checkpoint | --switch | --workers | --buffer) return ;;
    esac
    if [[ $word == -* ]]; then
        mapfile -t COMPREPLY < <(compgen -W "$("$1" --help 2>/dev/null | grep -oE -- '(^|[ ,])--[a-z-]+' | tr -d ' ,' | sort -u)" -- "$word")
    else
        compopt -o filenames 2>/dev/null
        mapfile -t COMPREPLY < <(compgen $kind -- "$word")
    fi
}
complete -F _vahondrisa_tool imstore imdrill
