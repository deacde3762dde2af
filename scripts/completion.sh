#!/usr/bin/env bash
# Prints how a shell completes the words of a program, made from what `PROGRAM --completion` prints: a line
# for each verb with its options, and one of the options without a verb; behind `=` stands whether the
# value of an option is a file. Options without a verb beside --help and --version say that names can stand
# without a verb too. Usage: completion.sh PROGRAM [bash|zsh|fish]
set -euo pipefail

program=$1 shell=${2:-bash}
name=$(basename "$program")
verbs='' alone=''
declare -A options=()

while read -r first rest; do
    case $first in
    -*) alone="$first $rest" ;;
    *)
        verbs="$verbs $first"
        options[$first]=$rest
        ;;
    esac
done < <("$program" --completion)
verbs=${verbs# }
bare=yes # can names stand without a verb?
case $alone in '--help --version' | '--help --version ') bare='' ;; esac

names() { # WORDS: the words without what stands behind `=`
    sed 's/=[a-z]*//g; s/ *$//' <<<"$1"
}
valued() { # KIND: the options of all lines whose value is of this kind, each once, as a pattern of `case`
    printf '%s\n' "$alone" "${options[@]}" | tr ' ' '\n' | sed -n "s/=$1\$//p" | LC_ALL=C sort -u | paste -sd '|'
}

# A verb is completed where nothing of it is written yet; an option where its dash is.
for_bash() {
    local files values verb first_word=${verbs:+'$COMP_CWORD -eq 1'}
    files=$(valued file)
    values=$(valued value)
    cat <<END
# How bash completes the words of $name, as \`$name --completion\` tells them.
_$name() {
    local word=\${COMP_WORDS[COMP_CWORD]} before=\${COMP_WORDS[COMP_CWORD - 1]} words='$(names "$alone")'
    COMPREPLY=()
END
    [ -z "$files" ] || cat <<END
    # a file, which bash completes
    case \$before in $files) return ;; esac
END
    [ -z "$values" ] || cat <<END
    # a value, which nothing completes
    case \$before in $values) compopt +o default +o bashdefault 2>/dev/null; return ;; esac
END
    if [ -n "$verbs" ]; then
        printf '    case $((COMP_CWORD > 1)):${COMP_WORDS[1]} in\n'
        printf "    0:*) words='%s %s' ;;\n" "$verbs" "$(names "$alone")"
        for verb in $verbs; do
            printf "    1:%s) words='%s' ;;\n" "$verb" "$(names "${options[$verb]}")"
        done
        printf '    esac\n'
    fi
    cat <<END
    [[ \$word == -*${first_word:+ || $first_word} ]] || return
    mapfile -t COMPREPLY < <(compgen -W "\$words" -- "\$word")
}
complete -o bashdefault -o default -F _$name $name
END
}

# The options as `_arguments` takes them: a value behind `=` or as the next word.
zsh_options() { # WORDS
    local word
    for word in $1; do
        case $word in
        --*=file) printf " '%s=:file:_files'" "${word%=*}" ;;
        --*=*) printf " '%s=:value: '" "${word%=*}" ;;
        *=file) printf " '%s:file:_files'" "${word%=*}" ;;
        *=*) printf " '%s:value: '" "${word%=*}" ;;
        *) printf " '%s'" "$word" ;;
        esac
    done
}

for_zsh() {
    local verb files=" '*:file:_files'"
    cat <<END
#compdef $name
# How zsh completes the words of $name, as \`$name --completion\` tells them.
_$name() {
END
    if [ -n "$verbs" ]; then
        printf '    if (( CURRENT == 2 )) && [[ $words[2] != -* ]]; then\n'
        printf '        compadd -- %s\n' "$verbs"
        [ -z "$bare" ] || printf '        _files\n'
        printf '        return\n    fi\n    case $words[2] in\n'
        for verb in $verbs; do
            printf '    %s)\n        shift words; (( CURRENT-- ))\n' "$verb"
            printf '        _arguments%s%s ;;\n' "$(zsh_options "${options[$verb]}")" "$files"
        done
        printf '    *) _arguments%s%s ;;\n    esac\n' "$(zsh_options "$alone")" "${bare:+$files}"
    else
        printf '    _arguments%s%s\n' "$(zsh_options "$alone")" "$files"
    fi
    printf '}\n_%s "$@"\n' "$name"
}

# The options of a verb, or of none: a line each. A value is completed where it is a file.
fish_options() { # VERB WORDS
    local word spec
    for word in $2; do
        case ${word%=*} in
        --*) spec="-l ${word#--}" ;;
        *) spec="-s ${word#-}" ;;
        esac
        case $word in
        *=file) spec="${spec%=*} -r -F" ;;
        *=*) spec="${spec%=*} -x" ;;
        esac
        printf "complete -c %s -n '__%s_at \"%s\"' %s\n" "$name" "$name" "$1" "$spec"
    done
}

for_fish() {
    local verb
    cat <<END
# How fish completes the words of $name, as \`$name --completion\` tells them.
function __${name}_at # VERB: does it stand there? Of none: does none?
    set -l words (commandline -opc)
    set -l verb ''
    if test (count \$words) -gt 1; and contains -- \$words[2] $verbs
        set verb \$words[2]
    end
    test "\$verb" = "\$argv[1]"
end
END
    [ -z "$verbs" ] ||
        printf "complete -c %s -n 'test (count (commandline -opc)) -eq 1' %s-a '%s'\n" "$name" \
            "$([ -n "$bare" ] || echo '-f ')" "$verbs"
    fish_options '' "$alone"
    for verb in $verbs; do fish_options "$verb" "${options[$verb]}"; done
}

case $shell in
bash | zsh | fish) "for_$shell" ;;
*)
    echo "there is no shell '$shell': bash, zsh or fish" >&2
    exit 1
    ;;
esac
