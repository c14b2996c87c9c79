# Completion of rtlsyn for bash: `source completion/rtlsyn.bash`, or put the file into
# ~/.local/share/bash-completion/completions/rtlsyn.
_rtlsyn() {
    local commands='watch synth verilog stat sim check explain report cluster'
    local options='--script --workers --output -o --session --desks --gen --help -h --version -V'
    local passes='proc flatten opt opt_expr opt_merge opt_clean clean opt_muxtree opt_reduce opt_dff fsm memory techmap'
    local word=${COMP_WORDS[COMP_CWORD]} before=${COMP_WORDS[COMP_CWORD - 1]}
    COMPREPLY=()
    case $before in
    --script)
        # A script is one word of the shell: its last word is completed within the quote.
        local open=${word%"${word##*[\"\' ]}"}
        mapfile -t COMPREPLY < <(compgen -P "$open" -W "$passes" -- "${word#"$open"}")
        return
        ;;
    --workers) mapfile -t COMPREPLY < <(compgen -W '1 2 4 8 16 32 64' -- "$word") && return ;;
    --desks) mapfile -t COMPREPLY < <(compgen -W '1 2 4 8 16' -- "$word") && return ;;
    --gen) return ;;
    esac
    case $word in
    -*) mapfile -t COMPREPLY < <(compgen -W "$options" -- "$word") ;;
    *)
        compopt -o filenames 2>/dev/null
        mapfile -t COMPREPLY < <(compgen -f -- "$word")
        [ "$COMP_CWORD" = 1 ] && mapfile -t -O "${#COMPREPLY[@]}" COMPREPLY < <(compgen -W "$commands" -- "$word")
        ;;
    esac
}
complete -F _rtlsyn rtlsyn ./rtlsyn
