# Completion of amcover for bash. tools/manpage makes this file from the help.

_amcover() {
    local word=${COMP_WORDS[COMP_CWORD]} before=${COMP_WORDS[COMP_CWORD - 1]}
    local given=" ${COMP_WORDS[*]:1:COMP_CWORD - 1} " options="" it
    COMPREPLY=()
    # bash takes --config=FILE for three words.
    if [[ $word == = ]]; then
        word=
    elif [[ $before == = ]]; then
        before=${COMP_WORDS[COMP_CWORD - 2]}
    fi
    case $before in
    --alerts | --check | --config | --from | --new | --old | --rules | --silences | --universe)
        compopt -o filenames -o default 2> /dev/null
        while IFS= read -r it; do
            COMPREPLY+=("$it")
        done < <(compgen -f -- "$word")
        return
        ;;
    --after | --at | --limit | --question | --receiver | --steps)
        return
        ;;
    esac
    if ((COMP_CWORD == 1)); then
        options="lint where routes compare explain alerts outcomes universe ask dead receivers help --help --version"
    else
        case ${COMP_WORDS[1]} in
        lint) options="--config --rules --silences --alerts --at --universe --ascii --json --notes --no-notes --help" ;;
        where) options="--config --rules --receiver --silences --at --universe --ascii --json --notes --no-notes --help" ;;
        routes) options="--config --receiver --universe --ascii --json --notes --no-notes --help" ;;
        compare) options="--old --new --rules --universe --ascii --json --notes --no-notes --help" ;;
        explain) options="--config --silences --alerts --at --notes --no-notes --help" ;;
        alerts) options="--config --alerts --silences --at --json --notes --no-notes --help" ;;
        outcomes) options="--config --universe --ascii --json --notes --no-notes --help" ;;
        universe) options="--check --from --config --question --routes --ascii --silences --alerts --open --notes --no-notes --help" ;;
        ask) options="--universe --config --silences --alerts --at --limit --steps --after --notes --no-notes --help" ;;
        dead) options="--universe --config --notes --no-notes --help" ;;
        receivers) options="--universe --config --notes --no-notes --help" ;;
        help) ((COMP_CWORD == 2)) && options="lint where routes compare explain alerts outcomes universe ask dead receivers" ;;
        esac
    fi
    for it in $options; do
        # An option that stands there already is offered again only if it may be repeated.
        if [[ " --question --receiver " != *" $it "* && $given == *" $it "* ]]; then
            continue
        fi
        if [[ $it == "$word"* ]]; then
            COMPREPLY+=("$it")
        fi
    done
}

complete -F _amcover amcover
