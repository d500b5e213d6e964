#!/usr/bin/env bash
# Tries that the man page and the completions have the commands, operands and options that the built program itself names,
# and no others, and that the man page has each outcome of docs/FORMATS.md.
. "$(dirname "$0")/on_program.sh"

page=../docs/acl.1
. ../tools/completions.bash

# A list of words, or of lines, in one order.
ordered() { tr -s ' ' '\n' | sed '/^$/d' | sort -u | paste -sd ' '; }

same() {
    [ "$2" = "$3" ] || { echo "$1: '$2' in place of '$3'"; wrong=1; }
}

# The page of a command, or of all, as the program writes it.
said() { "$program" "$@" </dev/null 2>&1; }

# The lines of a section of the man page, as they are read.
section() { sed -n "/^\.SH $1\$/,/^\.SH/p" "$page" | sed '/^\.SH/d; s/\\f[BIRP]//g; s/\\0/ /g; s/\\-/-/g'; }

# What is completed where a cursor stands at the end of these words; `files` where bash looks for files.
completed() {
    local COMP_WORDS=(acl "$@") COMP_CWORD=$# COMPREPLY=() left_to_bash=files
    compopt() { [ "$*" = "+o default" ] && left_to_bash=; }
    _acl
    echo "${COMPREPLY[*]}" $left_to_bash | ordered
}

commands=$(said | sed -n '/^Commands:/,/^$/s/^  \([a-z]*\)  .*/\1/p' | ordered)
[ -n "$commands" ] || { echo "acl names no command"; wrong=1; }
same "commands of the man page" "$(section COMMANDS | sed -n '/^[a-z]* [A-Z]/s/ .*//p' | ordered)" "$commands"
same "commands of its synopsis" "$(section SYNOPSIS | sed -n 's/^acl \([a-z]*\) .*/\1/p' | ordered)" "$commands"
same "completion of a command" "$(completed "")" "$commands"

all_options=
for command in $commands; do
    operands=$(said "$command" | sed -n 's/^Usage: //p' | grep -o '<[A-Z]*>' | tr -d '<>' | paste -sd ' ')
    options=$(said "$command" | sed -n '/^Options:/,/^$/s/^ *\(--[a-z-]*\).*/\1/p' | ordered)
    all_options="$all_options $options"
    synopsis=$(section SYNOPSIS | grep "^acl $command ")
    same "options of $command in the synopsis" "$(grep -o -- '--[a-z-]*' <<<"$synopsis" | ordered)" "$options"
    case $synopsis in
        "acl $command $operands"*) ;;
        *) echo "the synopsis of $command hasn't $operands"; wrong=1 ;;
    esac
    section COMMANDS | grep -qx "$command $operands" || { echo "the man page hasn't $command $operands"; wrong=1; }
    # Files where operands belong, and options after them. N of sample is no file.
    words=("$command")
    for operand in $operands; do
        [ "$operand" = N ] || same "completion of $operand of $command" "$(completed "${words[@]}" "")" files
        words+=("a file")
    done
    same "completion of an option of $command" "$(completed "${words[@]}" "")" "$options"
    for option in $options; do
        same "completion of $option" "$(completed "${words[@]}" "${option%??}")" "$option"
        same "completion after $option of $command" "$(completed "${words[@]}" "$option" "")" ""
    done
    same "completion after < of $command" "$(completed "${words[@]}" "<" "")" files
    same "completion after a redirection of $command" "$(completed "${words[@]}" "<" "some file" "")" "$options"
done
all_options=$(ordered <<<"$all_options")
same "options of the man page" "$(section OPTIONS | grep -o -- '^\(\.B \)\?--[a-z-]*' | sed 's/^\.B //' | ordered)" "$all_options"
same "completion of a command's beginning" "$(completed s)" "$(tr ' ' '\n' <<<"$commands" | grep '^s' | ordered)"
same "completion of no command" "$(completed fly "")" ""

section "EXIT STATUS" | sed -n 's/^ *\([0-9][0-9]*\)  \([A-Za-z]*\): .*/\1 \2/p' | sort >"$made/outcomes"
sed -n '/^## Outcomes/,/^## /s/^| \([0-9][0-9]*\) | \([A-Za-z]*\).*/\1 \2/p' ../docs/FORMATS.md | sort |
    diff - "$made/outcomes" || { echo "the outcomes of FORMATS and of the man page differ"; wrong=1; }
if command -v man >/dev/null && command -v groff >/dev/null; then
    same "warnings of man" "$(man --warnings -l "$page" 2>&1 >/dev/null)" ""
else
    echo "The man page wasn't rendered: man or groff is missing."
fi
[ "$wrong" -eq 0 ] && echo "The man page and the completions have the commands, operands and options of the program."
exit "$wrong"
