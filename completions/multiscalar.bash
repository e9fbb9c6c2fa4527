# bash completion for multiscalar; docs/make.py makes the parts between such comments

_multiscalar_options() {
    case $1 in
        # made: bash options
        seq) echo "--budget --output --help" ;;
        print) echo "--listing --output --help" ;;
        annotate) echo "--emit --output --in-place --releases --report --help" ;;
        explain) echo "--certificate --script --no-warnings --werror --format --color --fix --output --in-place --help" ;;
        check) echo "--format --least --workers --output --help" ;;
        replay) echo "--least --units --emit --until --strict --complete --format --output --help" ;;
        run) echo "--least --schedule --units --workers --budget --predict --emit --format --axis --from --to --with-values --output --help" ;;
        curve) echo "--least --units --budget --predict --emit --format --progress --output --help" ;;
        demonstrate) echo "--units --steps --emit --output --help" ;;
        # end of bash options
    esac
}

_multiscalar_values() {
    case $1:$2 in
        # made: bash values
        explain:--format) echo "text sarif json" ;;
        check:--format) echo "text json" ;;
        explain:--color) echo "auto always never" ;;
        run:--schedule) echo "threads steps" ;;
        replay:--units | run:--units) echo "1 2 4 8 16" ;;
        curve:--units | demonstrate:--units) echo "1 2 4 8 16" ;;
        check:--workers) echo "1 2 4 8 16" ;;
        run:--workers) echo "1 2 4 8 16" ;;
        seq:--budget) echo " " ;;
        run:--budget) echo " " ;;
        curve:--budget) echo " " ;;
        demonstrate:--steps) echo " " ;;
        run:--predict | curve:--predict) echo "first last" ;;
        annotate:--emit) echo "text cert keep marks" ;;
        replay:--emit) echo "answers summary svg trace json perfetto state" ;;
        run:--emit) echo "report script summary svg trace json waits vcd perfetto kanata" ;;
        curve:--emit) echo "table svg" ;;
        demonstrate:--emit) echo "events svg" ;;
        replay:--until) echo " " ;;
        replay:--format) echo "text json csv" ;;
        run:--format) echo "text csv" ;;
        curve:--format) echo "text csv" ;;
        run:--axis) echo "events steps" ;;
        run:--from) echo " " ;;
        run:--to) echo " " ;;
        # end of bash values
    esac
}

_multiscalar() {
    local word=${COMP_WORDS[COMP_CWORD]} before=${COMP_WORDS[COMP_CWORD - 1]} subcommand=${COMP_WORDS[1]}
    COMPREPLY=()
    if [ "$COMP_CWORD" -eq 1 ]; then
        local names
        # made: bash names
        names="seq print annotate explain check replay run curve demonstrate help"
        # end of bash names
        # shellcheck disable=SC2207
        COMPREPLY=($(compgen -W "$names --help --version" -- "$word"))
        return
    fi
    local values
    values=$(_multiscalar_values "$subcommand" "$before")
    if [ -n "$values" ]; then
        # shellcheck disable=SC2207
        COMPREPLY=($(compgen -W "$values" -- "$word"))
    elif [[ $word == -* ]]; then
        # shellcheck disable=SC2207
        COMPREPLY=($(compgen -W "$(_multiscalar_options "$subcommand")" -- "$word"))
    else
        local IFS=$'\n'
        # shellcheck disable=SC2207
        COMPREPLY=($(compgen -f -- "$word"))
    fi
}

complete -o filenames -F _multiscalar multiscalar
