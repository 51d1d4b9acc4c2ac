# Completes the words of a companion program in bash, by what --help lists: options, their values, commands, and else files. Read by the
# program's name.
_vcs_companion() {
    local word=${COMP_WORDS[COMP_CWORD]} before=${COMP_WORDS[COMP_CWORD - 1]} help words='' given=" ${COMP_WORDS[*]:1:COMP_CWORD - 1} " it
    help=$(COLUMNS=100 "${COMP_WORDS[0]}" --help 2>/dev/null)
    if [[ $word == -* ]]; then
        words=$(sed -n 's/^  \(-[a-zA-Z], \)\{0,1\}\(--[a-z-]*\).*/\2/p' <<<"$help")
    elif [[ $before =~ ^--[a-z-]+$ ]] && grep -q "^  $before [^ ]" <<<"$help"; then
        words=$(sed -n "s/^  $before {\([^}]*\)}.*/\1/p" <<<"$help" | tr , ' ')
    else
        words=$(sed -n 's/^  {\([^}]*\)}.*/\1/p' <<<"$help" | tr , ' ')
        # (once there is a command, files follow)
        for it in $words; do if [[ $given == *" $it "* ]]; then words=''; fi; done
    fi
    mapfile -t COMPREPLY < <(compgen -W "$words" -- "$word")
    if [ "${#COMPREPLY[@]}" -eq 0 ]; then
        compopt -o filenames
        mapfile -t COMPREPLY < <(compgen -f -- "$word")
    fi
}
complete -F _vcs_companion "${BASH_SOURCE[0]##*/}"
