#compdef vma
# zsh completion of vma
_vma() {{
    local -a commands
    commands=(
{commands}
    )
    if (( CURRENT == 2 )); then
        _describe command commands
        return
    fi
    case $words[2] in
{options}
    esac
}}
_vma "$@"
