#compdef capn
# Completion of zsh for capn, made from its help by release/completions.
_capn() {
    local -a commands
    commands=(
        'show:Writes the value of each message as text, and then the line `end`'
        'check:Writes `ok paid P visits V` for each message\: what reading it costs'
        'explain:Explains the first message that is rejected, down to the byte'
        'annotate:Writes what each word of each message is, and how often it is read'
        'list:Writes a line for each message\: its place, size, cost and form'
        'limits:Writes which limits the messages need, and some to read them with'
        'canonical:Writes the canonical bytes of one message, or `--framed` of each'
        'hash:Writes the SHA-256 of each message'\''s canonical bytes, one to a line'
        'uniq:Writes each message whose value no message before it had'
        'filter:Writes each message that is accepted, and leaves out the others'
        'cmp:Finds whether all messages have the value of the first one'
        'pick:Writes some of the messages of a stream, unchanged'
        'pack:Packs the input, whose bytes are whole words'
        'unpack:Unpacks the input, which is packed'
        'make:Makes messages from the text that `show` writes'
        'help:Print this message or the help of the given subcommand(s)'
        '--help:Print help'
        '--version:Print version'
    )
    if ((CURRENT == 2)); then
        _describe command commands
        return
    fi
    local command=$words[2]
    shift words
    ((CURRENT--))
    case "$command" in
        show)
            _arguments \
                '--form=[The form of the input]:form:(stream packed bare)' \
                '--message-words=[The most words of a message, from 1 to 268435456]:message-words:()' \
                '--budget=[The traversal limit]:budget:()' \
                '--depth=[The nesting limit]:depth:()' \
                '--tariff=[The counting rule of `--budget`]:tariff:(strict plain)' \
                '--at=[The path from the root to what is written]:at:()' \
                '--text[Write a list of bytes that is a text in quotes]' \
                '--json[Write each message as a line of JSON]' \
                '--offsets[Begin each line with the byte at which its part lies, and a tab]' \
                '--ways[Begin each line with the path to its part, and a tab]' \
                '--one[Take exactly one message]' \
                '--help[Print help]' ;;
        check)
            _arguments \
                '--form=[The form of the input]:form:(stream packed bare)' \
                '--message-words=[The most words of a message, from 1 to 268435456]:message-words:()' \
                '--budget=[The traversal limit]:budget:()' \
                '--depth=[The nesting limit]:depth:()' \
                '--tariff=[The counting rule of `--budget`]:tariff:(strict plain)' \
                '--one[Take exactly one message]' \
                '--help[Print help]' ;;
        explain)
            _arguments \
                '--form=[The form of the input]:form:(stream packed bare)' \
                '--message-words=[The most words of a message, from 1 to 268435456]:message-words:()' \
                '--budget=[The traversal limit]:budget:()' \
                '--depth=[The nesting limit]:depth:()' \
                '--tariff=[The counting rule of `--budget`]:tariff:(strict plain)' \
                '--number=[The number of the message to explain, from 1]:number:()' \
                '--keep-going[Explain every message that is rejected, and write an empty line after each]' \
                '--help[Print help]' ;;
        annotate)
            _arguments \
                '--form=[The form of the input]:form:(stream packed bare)' \
                '--message-words=[The most words of a message, from 1 to 268435456]:message-words:()' \
                '--budget=[The traversal limit]:budget:()' \
                '--depth=[The nesting limit]:depth:()' \
                '--tariff=[The counting rule of `--budget`]:tariff:(strict plain)' \
                '--summary[Write one line for each message, with its number and its place, and the counts of its words]' \
                '--help[Print help]' ;;
        list)
            _arguments \
                '--form=[The form of the input]:form:(stream packed bare)' \
                '--message-words=[The most words of a message, from 1 to 268435456]:message-words:()' \
                '--budget=[The traversal limit]:budget:()' \
                '--depth=[The nesting limit]:depth:()' \
                '--tariff=[The counting rule of `--budget`]:tariff:(strict plain)' \
                '--keep-going[Skip a message that is rejected, and go on with the next one]' \
                '--digest[End each line with `sha256` and what `hash` writes of the message, or `-` if it has a capability]' \
                '--help[Print help]' ;;
        limits)
            _arguments \
                '--form=[The form of the input]:form:(stream packed bare)' \
                '--message-words=[The most words of a message, from 1 to 268435456]:message-words:()' \
                '--budget=[The traversal limit]:budget:()' \
                '--depth=[The nesting limit]:depth:()' \
                '--tariff=[The counting rule of `--budget`]:tariff:(strict plain)' \
                '--keep-going[Skip a message that is rejected, and go on with the next one]' \
                '--help[Print help]' ;;
        canonical)
            _arguments \
                '--form=[The form of the input]:form:(stream packed bare)' \
                '--message-words=[The most words of a message, from 1 to 268435456]:message-words:()' \
                '--budget=[The traversal limit]:budget:()' \
                '--depth=[The nesting limit]:depth:()' \
                '--tariff=[The counting rule of `--budget`]:tariff:(strict plain)' \
                '--framed[Take every message of the input, and write each as a message of one segment with its segment table]' \
                '--keep-going[With `--framed`]' \
                '--help[Print help]' ;;
        hash)
            _arguments \
                '--form=[The form of the input]:form:(stream packed bare)' \
                '--message-words=[The most words of a message, from 1 to 268435456]:message-words:()' \
                '--budget=[The traversal limit]:budget:()' \
                '--depth=[The nesting limit]:depth:()' \
                '--tariff=[The counting rule of `--budget`]:tariff:(strict plain)' \
                '--one[Take exactly one message]' \
                '--help[Print help]' ;;
        uniq)
            _arguments \
                '--form=[The form of the input]:form:(stream packed bare)' \
                '--message-words=[The most words of a message, from 1 to 268435456]:message-words:()' \
                '--budget=[The traversal limit]:budget:()' \
                '--depth=[The nesting limit]:depth:()' \
                '--tariff=[The counting rule of `--budget`]:tariff:(strict plain)' \
                '--keep-going[Skip a message that is rejected, and go on with the next one]' \
                '--count[Write no message, but a line `U of N` at the end]' \
                '--help[Print help]' ;;
        filter)
            _arguments \
                '--form=[The form of the input]:form:(stream packed bare)' \
                '--message-words=[The most words of a message, from 1 to 268435456]:message-words:()' \
                '--budget=[The traversal limit]:budget:()' \
                '--depth=[The nesting limit]:depth:()' \
                '--tariff=[The counting rule of `--budget`]:tariff:(strict plain)' \
                '--keep-going[Skip a message that is rejected, and go on with the next one]' \
                '--canonical[Write only canonical messages]' \
                '--help[Print help]' ;;
        cmp)
            _arguments \
                '--form=[The form of the input]:form:(stream packed)' \
                '--message-words=[The most words of a message, from 1 to 268435456]:message-words:()' \
                '--budget=[The traversal limit]:budget:()' \
                '--depth=[The nesting limit]:depth:()' \
                '--tariff=[The counting rule of `--budget`]:tariff:(strict plain)' \
                '--help[Print help]' ;;
        pick)
            _arguments \
                '--form=[The form of the input]:form:(stream packed)' \
                '--message-words=[The most words of a message, from 1 to 268435456]:message-words:()' \
                '--from=[The number of the first message, from 1]:from:()' \
                '--to=[The number of the last message]:to:()' \
                '--only=[Numbers of messages, and ranges of them, in ascending order, such as `3,7,9-12`]:only:()' \
                '--help[Print help]' ;;
        pack)
            _arguments \
                '--streaming[Write while the input comes in, in at most 2 MiB of memory]' \
                '--help[Print help]' ;;
        unpack)
            _arguments \
                '--message-words=[The most words of a message, from 1 to 268435456]:message-words:()' \
                '--streaming[Write while the input comes in, in at most 2 MiB of memory]' \
                '--help[Print help]' ;;
        make)
            _arguments \
                '--form=[The form of the output]:form:(stream packed bare)' \
                '--text[Also take a list of bytes on one line, as `show --text` writes it]' \
                '--help[Print help]' ;;
        help)
            _describe command commands ;;
    esac
}
_capn "$@"
