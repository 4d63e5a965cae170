# Bash completion for nvd:  . completions/nvd.bash
# For each new shell: copy it to ~/.local/share/bash-completion/completions/nvd.
#
# It offers directories that have image sets for IN, `-` or a name for OUT, the commands, the options of the command that aren't
# given yet, and what follows an option where that is a short list: a mode, a sector size, the modules of IN, a region. The commands and
# their options come from `nvd --commands`. UUIDs come from the labels of IN, by `nvd IN - list`, only where NVD_COMPLETE_UUIDS=1 is set
# and a proved build is there: that runs the program.

# what a pattern and an action of awk print of the table of commands
# shellcheck disable=SC2016  # $1 and $6 are awk's
_nvd_table() {
    "${COMP_WORDS[0]/#\~/$HOME}" --commands 2>/dev/null | awk '!/^#/ && '"$1"
}

# the options of a command that the line doesn't have yet; of a whole set's check, which has `-`, it is --json alone
_nvd_options() {
    local options option
    case $1,${COMP_WORDS[2]} in
    free,* | check,-) options='' ;;
    *) options=$(_nvd_table "\$1 == \"$1\" { print \$3 \",\" \$4 \",\" \$5 }" | tr , '\n' | sed '/^-$/d; s/^/--/') ;;
    esac
    case $1 in
    labels | nfit | list | free | info | check | read | init | create | delete | rename | write | export | rescue) options="$options --json" ;;
    esac
    for option in $options; do
        case " ${COMP_WORDS[*]:0:COMP_CWORD} " in
        *" $option "* | *" $option="*) ;;
        *) printf '%s\n' "$option" ;;
        esac
    done
}

# the numbers of the modules that have a label area in a directory
_nvd_modules() {
    local file
    for file in "$1"/labels-*.bin; do
        [ -e "$file" ] || continue
        file=${file##*/labels-}
        printf '%s\n' "${file%.bin}"
    done
}

# the UUIDs that are listed of a directory
_nvd_uuids() {
    [ "${NVD_COMPLETE_UUIDS:-}" = 1 ] || return 0
    NVD_BUILD=kept "${COMP_WORDS[0]}" "$1" - list 2>/dev/null | awk '$1 == "ns" { print $2 }'
}

# how many of the words before the cursor are a command's own places, and no options or their values; FLAGS are its options without a value
_nvd_place() {
    local i count=0
    for ((i = 4; i < COMP_CWORD; i++)); do
        case ",$1,${COMP_WORDS[i]}" in
        *",${COMP_WORDS[i]#--},"*,--*) ;;
        *,--*) ((i++)) ;;
        *,=) ((i++)) ;;
        *) ((++count)) ;;
        esac
    done
    printf '%s\n' "$count"
}

_nvd_directories() {
    local found
    while IFS= read -r found; do
        COMPREPLY+=("$found")
    done < <(compgen -d -- "$1")
}

_nvd_words() {
    local word
    while IFS= read -r word; do
        COMPREPLY+=("$word")
    done < <(compgen -W "$1" -- "$2")
}

_nvd() {
    local current=${COMP_WORDS[COMP_CWORD]} before='' command=${COMP_WORDS[3]:-} set=${COMP_WORDS[1]:-} places flags
    [ "$COMP_CWORD" -lt 1 ] || before=${COMP_WORDS[COMP_CWORD - 1]}
    # bash parts a word at `=`: `--mode=r` comes as three words
    if [ "$current" = = ]; then
        current=''
    elif [ "$before" = = ] && [ "$COMP_CWORD" -ge 2 ]; then
        before=${COMP_WORDS[COMP_CWORD - 2]}
    fi
    COMPREPLY=()
    case $COMP_CWORD in
    1)
        _nvd_words 'demo diff help make map sweep' "$current"
        _nvd_directories "$current"
        compopt -o filenames 2>/dev/null || true
        return
        ;;
    2)
        if [ "$set" = help ]; then
            _nvd_words "$(_nvd_table '1 { print $1 }') free map diff make sweep FAULTS OUTPUT JSON FROM_NDCTL" "$current"
        elif [ "$set" = map ] || [ "$set" = diff ]; then
            _nvd_directories "$current"
            compopt -o filenames 2>/dev/null || true
        elif [ "$set" = sweep ]; then
            _nvd_words '--every --keep --run' "$current"
            _nvd_directories "$current"
            compopt -o filenames 2>/dev/null || true
        elif [ "$set" != demo ] && [ "$set" != make ]; then
            _nvd_words - "$current"
            _nvd_directories "$current"
            compopt -o filenames 2>/dev/null || true
        fi
        return
        ;;
    3)
        if [ "$set" = diff ]; then
            _nvd_directories "$current"
            compopt -o filenames 2>/dev/null || true
            return
        fi
        # a command that writes has an OUT, one that prints has `-`; so has one that takes the whole set if its place is left out
        case ${COMP_WORDS[2]} in
        -) _nvd_words "$(_nvd_table '($6 == "no" || $2 ~ /[?]/) { print $1 }') free" "$current" ;;
        *) _nvd_words "$(_nvd_table '$6 == "yes" { print $1 }')" "$current" ;;
        esac
        return
        ;;
    esac
    case $before in
    --mode) _nvd_words 'raw sector' "$current" ;;
    --region) _nvd_words 0 "$current" ;;
    --sector) _nvd_words '512 520 528 4096 4104 4160 4224' "$current" ;;
    --uuid)
        # the one of `create` isn't there yet
        [ "$command" = create ] || _nvd_words "$(_nvd_uuids "$set")" "$current"
        ;;
    --name | --size | --lanes | --cut | --evict | --workers | --sessions | --calls) ;;
    *)
        places=$(_nvd_table "\$1 == \"$command\" { print \$2 }")
        case ${COMP_WORDS[2]},$places in -,*\?*) places=- ;; esac
        flags=$(_nvd_table "\$1 == \"$command\" { print \$5 }")
        case ${places%%[,?]*},$(_nvd_place "$flags,json"),$current in
        *,*,-*) _nvd_words "$(_nvd_options "$command")" "$current" ;;
        module,0,*) _nvd_words "$(_nvd_modules "$set")" "$current" ;;
        uuid,0,*) _nvd_words "$(_nvd_uuids "$set")" "$current" ;;
        *) _nvd_words "$(_nvd_options "$command")" "$current" ;;
        esac
        ;;
    esac
}

complete -F _nvd nvd ./nvd
