# bash completion for rviommu

# Offers files by bash's own completion, which quotes names and keeps them whole, even with blanks or line ends.
_rviommu_files() {
    compopt -o default 2>/dev/null
}

_rviommu() {
    local current=${COMP_WORDS[COMP_CWORD]}
    COMPREPLY=()
    if [ "$COMP_CWORD" -eq 1 ]; then
        mapfile -t COMPREPLY < <(compgen -W "asm run check debug explain judge list upgrade help --help --version" -- "$current")
        return
    fi
    case ${COMP_WORDS[1]}:${COMP_WORDS[COMP_CWORD - 1]} in
        explain:--only)
            mapfile -t COMPREPLY < <(compgen -W "denied stale unsettled denied,stale denied,unsettled stale,unsettled denied,stale,unsettled" -- "$current")
            return
            ;;
    esac
    case ${COMP_WORDS[1]}:$current in
        check:-*)
            mapfile -t COMPREPLY < <(compgen -W "--stale --at-fences --settled --ahead --strict --tap --junit --image --help" -- "$current")
            return
            ;;
        judge:-*)
            mapfile -t COMPREPLY < <(compgen -W "--hidden --strict --tap --junit --image --help" -- "$current")
            return
            ;;
        explain:-*)
            mapfile -t COMPREPLY < <(compgen -W "--settled --only --image --help" -- "$current")
            return
            ;;
        debug:-*)
            mapfile -t COMPREPLY < <(compgen -W "--image --help" -- "$current")
            return
            ;;
        asm:-* | run:-* | list:-* | upgrade:-*)
            mapfile -t COMPREPLY < <(compgen -W "--help" -- "$current")
            return
            ;;
    esac
    case ${COMP_WORDS[1]}:$COMP_CWORD in
        check:* | debug:* | explain:* | judge:* | asm:2 | asm:3 | run:2 | list:2 | upgrade:2 | upgrade:3) _rviommu_files ;;
        list:3) mapfile -t COMPREPLY < <(compgen -W "cmd fault context dir pte msi u64" -- "$current") ;;
        help:2) mapfile -t COMPREPLY < <(compgen -W "asm run check debug explain judge list upgrade" -- "$current") ;;
    esac
}
complete -F _rviommu rviommu
