# Completion of apk(8) for bash. Made by share/make.
_apk() {
    local current=${COMP_WORDS[COMP_CWORD]} command='' options='' i
    for ((i = 1; i < COMP_CWORD; i++)); do
        case ${COMP_WORDS[i]} in
        --) return ;;
        -*) ;;
        *)
            command=${COMP_WORDS[i]}
            break
            ;;
        esac
    done
    for ((i = i + 1; i < COMP_CWORD; i++)); do
        [ "${COMP_WORDS[i]}" != -- ] || return
    done
    case $command in
    '') options='--allow-untrusted --no-scripts --initdb --simulate --purge -h --help -V --version' ;;
    add) options='--initdb -s --simulate --allow-untrusted --no-scripts -h --help -V --version' ;;
    del) options='-s --simulate --purge --allow-untrusted --no-scripts -h --help -V --version' ;;
    upgrade) options='-s --simulate --allow-untrusted --no-scripts -h --help -V --version' ;;
    fix) options='-s --simulate --allow-untrusted --no-scripts -h --help -V --version' ;;
    info) options='-e --installed -L --contents -R --depends -W --who-owns --allow-untrusted --no-scripts -h --help -V --version' ;;
    list) options='-I --installed --allow-untrusted --no-scripts -h --help -V --version' ;;
    search) options='--allow-untrusted --no-scripts -h --help -V --version' ;;
    policy) options='--allow-untrusted --no-scripts -h --help -V --version' ;;
    audit) options='--allow-untrusted --no-scripts -h --help -V --version' ;;
    manifest) options='--allow-untrusted --no-scripts -h --help -V --version' ;;
    verify) options='--allow-untrusted --no-scripts -h --help -V --version' ;;
    adbdump) options='--allow-untrusted --no-scripts -h --help -V --version' ;;
    adbgen) options='--allow-untrusted --no-scripts -h --help -V --version' ;;
    mkpkg) options='-I --info -s --script -t --trigger -F --files -o --output -c --compression --allow-untrusted --no-scripts -h --help -V --version' ;;
    mkndx) options='-d --description -o --output -c --compression --allow-untrusted --no-scripts -h --help -V --version' ;;
    version) options='-t --test -c --check --allow-untrusted --no-scripts -h --help -V --version' ;;
    demo) options='--allow-untrusted --no-scripts -h --help -V --version' ;;
    *) return ;;
    esac
    case $current in
    -*) COMPREPLY=($(compgen -W "$options" -- "$current")) ;;
    *)
        [ -n "$command" ] ||
            COMPREPLY=($(compgen -W 'add del upgrade fix info list search policy audit manifest verify adbdump adbgen mkpkg mkndx version demo' -- "$current"))
        ;;
    esac
}
complete -o default -F _apk apk
