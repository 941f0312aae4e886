# Completion of paseto for bash: source it, or put it into /usr/share/bash-completion/completions/paseto.
_paseto() {
    local word=${COMP_WORDS[COMP_CWORD]} before=${COMP_WORDS[COMP_CWORD - 1]} command=${COMP_WORDS[1]}
    COMPREPLY=()
    if [ "$COMP_CWORD" -eq 1 ]; then
        mapfile -t COMPREPLY < <(compgen -W 'keygen public id wrap unwrap seal unseal issue check encrypt decrypt sign verify explain inspect help --help --version' -- "$word")
        return
    fi
    case "$before" in
        --key | --out | --public | --password-file | --unlock-key | --wrapping-key | --to | --issued) mapfile -t COMPREPLY < <(compgen -f -- "$word"); return ;;
        --format) mapfile -t COMPREPLY < <(compgen -W 'paserk pem' -- "$word"); return ;;
        --ring) mapfile -t COMPREPLY < <(compgen -d -- "$word"); return ;;
        --claim | --require | --expires | --not-before | --at | --leeway | --footer | --footer-kid | --assertion | --longest) return ;;
    esac
    local options='' opening='--key --password-file --unlock-key'
    case "$command" in
        keygen) options='--password-file --format --out --public --quiet' ;;
        public | unwrap | unseal) options="$opening --format --out" ;;
        id) options=$opening ;;
        wrap) options='--key --wrapping-key --password-file --out' ;;
        seal) options="$opening --to --out" ;;
        issue) options="$opening --ring --claim --expires --not-before --footer --footer-kid --assertion --out" ;;
        check) options="$opening --ring --claim --require --at --leeway --footer --footer-kid --assertion --each --longest" ;;
        encrypt | sign) options="$opening --footer --assertion --longest --out" ;;
        decrypt | verify) options="$opening --ring --footer --assertion --longest" ;;
        explain) options="$opening --issued --footer --assertion --longest" ;;
        inspect) options=--longest ;;
    esac
    if [[ $word == -* ]]; then
        mapfile -t COMPREPLY < <(compgen -W "$options --help" -- "$word")
    elif [ "$command" = keygen ]; then
        mapfile -t COMPREPLY < <(compgen -W 'v1.local v2.local v2.public v3.local v3.public v4.local v4.public' -- "$word")
    else
        mapfile -t COMPREPLY < <(compgen -f -- "$word")
    fi
}
complete -o filenames -F _paseto paseto
