# Completion of cudf_check for bash.

_cudf_check()
{
    local word=${COMP_LINE:0:COMP_POINT} command=${COMP_WORDS[1]} given=" ${COMP_WORDS[*]::COMP_CWORD} " list name each
    local -a offered=()
    COMPREPLY=()
    if [[ $given == *' -- '* ]]; then
        return
    fi
    # the word as it was typed: bash ends a word at =, too, and a reply stands for its last part alone, which is $2
    word=${word##*[[:blank:]]}
    if ((COMP_CWORD == 1)); then
        command=
    elif [[ $3 == --after || $3 == --limit || $3 == --better-than ]]; then
        word=$3=
    fi
    case $command:$word in
        :-*) offered=(-h --help -V --version) ;;
        :*) offered=(lint check score rank cnf refute help) ;;
        help:*) ((COMP_CWORD > 2)) || offered=(lint check score rank cnf refute help) ;;
        cnf:--better-than=* | refute:--better-than=*) return ;;
        score:--criteria=* | rank:--criteria=* | cnf:--criteria=* | refute:--criteria=*)
            list=${word#*=}
            list=${list%"${list##*,}"}
            for name in removed new changed notuptodate unsat_recommends touched; do
                [[ ,$list == *,[-+]$name,* ]] || offered+=("--criteria=$list-$name" "--criteria=$list+$name")
            done
            ;;
        *:--*=*) ;;
        lint:-*) offered=(--strict --explain -H --with-filename -h --help) ;;
        refute:-*) offered=(--better-than= --criteria= --strict --explain -h --help) ;;
        check:-*) offered=(--after --limit --strict --explain -H --with-filename -h --help) ;;
        score:-* | rank:-*) offered=(--criteria= --strict -H --with-filename -h --help) ;;
        cnf:-*) offered=(--better-than= --criteria= --strict -h --help) ;;
        *) return ;;
    esac
    # there stands no file
    compopt +o bashdefault +o default
    for each in "${offered[@]}"; do
        if [[ $each == "$word"* && ($each != -* || $given != *" ${each%=} "*) ]]; then
            COMPREPLY+=("${each#"${word%"$2"}"}")
        fi
    done
    # a value goes on in the same word
    if [[ $word == --criteria=* || ${COMPREPLY[*]} == --*= ]]; then
        compopt -o nospace
    fi
}

complete -o bashdefault -o default -F _cudf_check cudf_check
