# Completes the words of sidb in bash.
_sidb() {
    local word=${COMP_WORDS[COMP_CWORD]} before=${COMP_WORDS[COMP_CWORD - 1]}
    # bash cuts --task=truth into three words
    if [ "$word" = = ]; then word=; elif [ "$before" = = ]; then before=${COMP_WORDS[COMP_CWORD - 2]}; fi
    case $before in
        --task) COMPREPLY=($(compgen -W "ground truth domain region window occupation range potentials certify check gen" -- "$word")) ;;
        --form) COMPREPLY=($(compgen -W "sites sqd table" -- "$word")) ;;
        --base) COMPREPLY=($(compgen -W "2 3" -- "$word")) ;;
        --function) COMPREPLY=($(compgen -W "zero and gt a lt b xor or nor xnor notb ge nota le nand one buf not" -- "$word")) ;;
        '<') COMPREPLY=($(compgen -f -- "$word")) ;;
        *) COMPREPLY=($(compgen -W "--task --form --base --eps --lambda --depth --gap --coulomb --limit --workers --window
            --kt --range --input --output --function --grid --refine --number --sites --json --energies" -- "$word")) ;;
    esac
}
complete -F _sidb sidb
