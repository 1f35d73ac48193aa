# Completion of the arguments of ./mz in bash: the command, then files of the kinds that it reads and writes.

# (begin: made of scripts/manual/commands.txt)
_mz_commands=$'verify\ncompile\ncompile_draft\nspec\ndecompile\nshow\nassemble\naxioms\ndraft\nportable\nsample\ncheck\nprove\nexplore\nimport\nexport\nsame\nserve\ntry\nbuild\ntest\ninstall\nuninstall\nversion\nhelp'
_mz_ending() { # the ending of the file at a place behind a command
    case $1:$2 in
        1:assemble) echo list ;;
        1:import | 3:export | 2:same) echo mm ;;
        1:verify | 2:spec | 1:decompile | 1:axioms | 1:draft | 1:portable | 1:check | 1:explore | 1:export | 1:same) echo mm0 ;;
        2:verify | 2:compile | 2:compile_draft | 2:decompile | 1:show | 2:assemble | 2:axioms | 2:draft | 2:portable | 2:explore | 2:export) echo mmb ;;
        1:compile | 1:compile_draft | 1:spec | 3:decompile) echo mmu ;;
        1:prove) echo proofs ;;
    esac
}
_mz_options() { # the options of a command
    case $1 in
        axioms) echo '--definitions' ;;
        prove) echo '--check --text --start --fill --at --find' ;;
        explore) echo '--check' ;;
        serve) echo '--check' ;;
    esac
}
# (end)

_mz_files() { # the files with this ending, and folders
    compopt -o filenames
    COMPREPLY=($(compgen -d -- "$1"))
    [ -n "$2" ] && COMPREPLY+=($(compgen -f -X "!*.$2" -- "$1"))
}

_mz() {
    local word=${COMP_WORDS[COMP_CWORD]} IFS=$'\n'
    COMPREPLY=()
    if [ "$COMP_CWORD" -eq 1 ] || { [ "$COMP_CWORD" -eq 2 ] && [[ ${COMP_WORDS[1]} = @(help|try) ]]; }; then
        COMPREPLY=($(compgen -W "$_mz_commands" -- "$word"))
    elif [ "$COMP_CWORD" -eq 2 ] && [[ $word = -* ]]; then
        local IFS=$' \n'
        COMPREPLY=($(compgen -W "--help $(_mz_options "${COMP_WORDS[1]}")" -- "$word"))
    else
        _mz_files "$word" "$(_mz_ending $((COMP_CWORD - 1)) "${COMP_WORDS[1]}")"
    fi
}

complete -F _mz mz ./mz
