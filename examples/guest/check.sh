#!/bin/sh
# Builds the examples with each compiler that this machine has, runs them, and compares what the program says with
# the file cases. It passes where no compiler is there, and says which it skipped.
#   check.sh [PROGRAM]     PROGRAM: openvm as it was built, if not crates/vm_tool/out/vm_tool
here=$(cd "$(dirname "$0")" && pwd) || exit 1
openvm=${1:-$here/../../crates/vm_tool/out/vm_tool}
[ -x "$openvm" ] || { echo "guest examples: $openvm is not built"; exit 1; }
room=$(mktemp -d) || exit 1
trap 'rm -rf "$room"' EXIT
failed=0

# fails NAME WANTED SAID
fails() {
    echo "guest examples: $compiler: $1: '$3' where '$2' was wanted"
    failed=1
}

# begins NAME WANTED SAID: what is said is what is wanted, and more words behind it
begins() {
    case "$3" in "$2 "*) ;; *) fails "$@" ;; esac
}

# proves NAME ELF RESULT: as soon as the program has these forms, its tables of the run are accepted
proves() {
    said=$("$openvm" prove "$2" "$room/hints" "$room/tables" 16384)
    [ $? -ne 2 ] || return 0
    begins "$1" "proved $3" "$said"
    begins "$1" "accepted $3" "$("$openvm" check "$2" "$room/tables")"
}

runs_all() {
    while read -r name hints code public; do
        case "$name" in "#"* | "") continue ;; esac
        printf "$hints" > "$room/hints"
        begins "$name" "exit $code public $public" "$("$openvm" run "$built/$name.elf" "$room/hints" 1000000)"
        proves "$name" "$built/$name.elf" "exit $code public $public"
    done < "$here/cases"
}

for compiler in clang riscv64-unknown-elf-gcc; do
    linker=$compiler
    [ "$compiler" = clang ] && linker=ld.lld
    built=$room/$compiler
    if ! { command -v make && command -v "$compiler" && command -v "$linker"; } > /dev/null; then
        echo "guest examples: $compiler: skipped, it is not here"
    elif make -s -C "$here" CC="$compiler" OUT="$built"; then
        runs_all
        echo "guest examples: $("$compiler" --version | head -n 1): done"
    else
        echo "guest examples: $compiler: they don't build"
        failed=1
    fi
done
exit $failed
