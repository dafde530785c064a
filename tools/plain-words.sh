# The launcher ../voxdag reads this file where standard error is a terminal: what the program's line means, in plain words.

# Runs the program, puts its line on standard output, and says on standard error what it means. What stands on standard
# output, and the status, are those of the program alone: it has written all its files before it puts its one line, so a
# line that can't be put is status 7 here as there.
run_in_plain_words() {
    local LC_ALL=C line status
    trap '' PIPE
    line=$("$program" "$@"; status=$?; printf .; exit "$status")
    status=$?
    line=${line%.}
    if [ -n "$line" ]; then
        { printf '%s' "$line"; } 2>/dev/null || status=7
    fi
    case $status in
        [1-9] | 1[0-5]) plain_words "$status" "${line%$'\n'}" "$@" >&2 ;;
    esac
    exit "$status"
}

# plain_words STATUS LINE WORD ..
plain_words() {
    local status=$1 line=$2 name before=1
    shift 2
    name=${line#voxdag: * }
    # the scripts stand behind FILE, and of an audit behind JOURNAL too
    [ "$1" = audit ] && before=2
    case $status in
        1) plain_usage ;;
        2) printf '%s: there is no such file\n' "$name" ;;
        3) printf '%s: can'\''t be read: it may be a folder, or a file without leave to read it\n' "${line#voxdag: read fault }" ;;
        4) plain_vox "$(operand 0 "${@:2}")" $name ;;
        5) plain_script "$(operand $((${name%% *} + before)) "${@:2}")" $name ;;
        6) printf '%s: can'\''t be written; what was to be written after it is not there\n' "${line#voxdag: write fault }" ;;
        7) printf 'standard output took no line, or a part of it; all files are written\n' ;;
        8) printf 'there was not enough memory\n' ;;
        9) printf '%s: too long: a VOX file or a file of versions has at most 256 MiB, any other 8 MiB\n' "${line#voxdag: too long }" ;;
        10) plain_place "$1" "$(operand 0 "${@:2}")" ;;
        11) plain_scene "$(operand 0 "${@:2}")" $name ;;
        12) plain_journal "$1" "$(operand 1 "${@:2}")" "$name" ;;
        13) printf 'a bucket of the store has no room for one more node; nothing was written\n' ;;
        14) printf '%s, byte %s: what stands there breaks a rule of files of versions\n' "$(operand 0 "${@:2}")" "$name" ;;
        15)
            printf '%s.out, line %s: no line of a transcript is so\n' \
                "$(operand $((${name%% *} + before)) "${@:2}")" "${name#* }"
            ;;
    esac
}

# plain_place COMMAND FILE
plain_place() {
    case $1 in
        look) printf '%s: it has no version of this number, or its worlds have no such place, box or way\n' "$2" ;;
        *) printf '%s: it has no model of this number, or the model no cell at this place\n' "$2" ;;
    esac
}

# plain_journal COMMAND JOURNAL LINE
plain_journal() {
    local meaning='no line of a journal goes on so'
    [ "$1" = dag ] && meaning='no line of a journal goes on so, or its record breaks a rule of a legal history'
    [ "$3" = 1 ] && meaning='no journal begins so'
    printf '%s, line %s: %s\n' "$2" "$3" "$meaning"
}

plain_usage() {
    printf '%s\n' \
        'voxdag takes these words:' \
        '    voxdag count FILE' \
        '    voxdag demo N' \
        '    voxdag flood FILE m x y z OUT' \
        '    voxdag scene FILE OUT SCRIPT' \
        '    voxdag dag FILE JOURNAL OUT' \
        '    voxdag look DAG v QUESTION' \
        '    voxdag audit [--buckets b] [--keep k] FILE JOURNAL SCRIPT ..' \
        '    voxdag run [--side s] [--buckets b] [--cap c] [--keep k] [--journal J] [--report P] [--colours] FILE SCRIPT ..' \
        'Options stand anywhere behind run, each at most once, as --side s or --side=s. s is 4, 8, 16 and so on up to 4096,' \
        'with --colours, which has no value, up to 1024; b is 1 to 4096, c is 1 to 256, k is 1 to 65535.' \
        'There are 1 to 64 scripts.' \
        'No name is empty, and none begins with - but behind =.' \
        'Each SCRIPT.out, J and P are written, so none may be the name of FILE, of a SCRIPT or of another.' \
        'N, m, x, y, z and v have 1 to 6 digits; demo writes demo.0.out to demo.3.out and demo.journal.' \
        'FILE, OUT and the SCRIPT of scene are different names, and OUT is none that is read.' \
        'QUESTION is get, count, bounds, faces or ray with its numbers, as in a script.'
}

# operand NUMBER WORD ..: the operand of this number, counted from 0, among the words behind a command. They are in the
# grammar, so that each option has its value, but for the flag.
operand() {
    local number=$1
    shift
    while [ $# -gt 0 ]; do
        case $1 in
            --*=* | --colours) shift ;;
            --*) shift; shift ;;
            *)
                [ "$number" = 0 ] && { printf '%s' "$1"; return; }
                number=$((number - 1))
                shift
                ;;
        esac
    done
}

# plain_vox FILE KIND AT
plain_vox() {
    local meaning
    case $2 in
        1) meaning='no VOX file: it doesn'\''t begin with "VOX "' ;;
        2) meaning='a version other than 150 and 200' ;;
        3) meaning='the first chunk is not MAIN' ;;
        4) meaning='the file ends inside this chunk, or the chunk runs past the end of MAIN' ;;
        5) meaning='a SIZE of less than 12 bytes' ;;
        6) meaning='a model with a size of 0 or over 256 on some axis' ;;
        7) meaning='voxels without a size before them' ;;
        8) meaning='a list of voxels that its chunk doesn'\''t hold' ;;
        9) meaning='a voxel outside its model'\''s size' ;;
        10) meaning='more than 1,024 models' ;;
    esac
    printf '%s, byte %s: %s\n' "$1" "$3" "$meaning"
}

# plain_scene FILE KIND AT
plain_scene() {
    case $2 in
        1) printf '%s, byte %s: a node whose fields don'\''t fit into its chunk\n' "$1" "$3" ;;
        2) printf '%s, byte %s: a second node of one id\n' "$1" "$3" ;;
        3) printf '%s, byte %s: the node'\''s _r is no turning\n' "$1" "$3" ;;
        4) printf '%s, byte %s: the node'\''s _t is no move\n' "$1" "$3" ;;
        5) printf '%s: there is no node %s\n' "$1" "$3" ;;
        6) printf '%s, node %s: more than 64 nodes below each other\n' "$1" "$3" ;;
        7) printf '%s, node %s: the file has no such model as it shows\n' "$1" "$3" ;;
        8) printf '%s, node %s: more than 1,024 placements, or more than 65,536 visits\n' "$1" "$3" ;;
        9) printf '%s: the scene is larger than 4,096 cells some way, or its models'\'' file than 256 MiB\n' "$1" ;;
    esac
}

# plain_script SCRIPT NUMBER LINE KIND. The line itself is read, and what stands before it.
plain_script() {
    local meaning text
    case $4 in
        1) meaning='a word that is no command there' ;;
        2) meaning='a word that is no number of 1 to 9 digits' ;;
        3) meaning='something reaches out of the world, a size is 0, a ray has no steps, no file can have this name or size, or no cell this tint' ;;
        4) meaning='a word is missing' ;;
        5) meaning='a word too many' ;;
        6) meaning='the VOX file has no such model' ;;
        7) meaning='more than 100,000 lines' ;;
        8) meaning='more than 16 saves' ;;
        9) meaning='a byte that is no plain text' ;;
    esac
    text=$(sed -n "$3{p;q;}" -- "$1" 2>/dev/null | tr -d '\r' | cut -c 1-200 | cat -v)
    printf '%s, line %s: %s%s\n' "$1" "$3" "$meaning" "${text:+: $text}"
}
