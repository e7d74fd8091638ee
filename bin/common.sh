# shellcheck shell=bash disable=SC2034,SC2154
# What the commands of this folder share: messages, exit statuses, and that nothing old or unproved is run. Sourced by them, not run.
# docs/COMMANDS.md is the manual. A command sets `name`, for messages, and `root`, the top of the repository.
#
# What a command runs is a product: files below target/ that a run made of sources which it proved. Beside it stand, in target/commands,
#   PRODUCT.proved   the kit's identity, and a digest of each source and of each file of the product, written when it was proved and built
#   PRODUCT.seen     names, sizes, times and places of the same files, when their digests were last found to be those
# Where the files are as last seen nothing has changed, and that takes milliseconds to see. Else the digests decide. Every change sets a
# file's time of change (ctime), which nobody can set back. What changed in the last two seconds is not recorded as seen, since a later
# change could have the same time.
set -uo pipefail

readonly DONE=0 REFUSED=1 WRONG=2 UNREADABLE=3 UNPROVED=4
readonly made=target/commands # below the root, as every name of a source or of a product is
verbose='' why='' input=open

# A closed descriptor would be taken by the next file that is opened. So it is opened here, onto what cannot be read or written.
[ -e /dev/fd/0 ] || { input=closed && exec </; }
[ -e /dev/fd/1 ] || exec >/dev/full
[ -e /dev/fd/2 ] || exec 2>/dev/null

say() { printf '%s: %s\n' "$name" "$*" >&2 2>/dev/null; }
stop() { # STATUS WORDS..
    say "${@:2}"
    exit "$1"
}
# Prints lines on standard output. With the signal ignored, a reader that has gone is a write that fails, and told as one.
put() {
    trap '' PIPE
    printf '%s\n' "$@" 2>/dev/null || stop $UNREADABLE "standard output cannot be written: the answer is lost"
    trap - PIPE
}
put_version() { put "$name $(<"$root/VERSION")"; }

# ---- the crates that a crate stands on, each after those that it stands on, itself the last

declare -A stands_on=() met=()
needed=()
read_crates() { # a line is NAME: OTHERS, or NAME staticlib: OTHERS
    local line
    while IFS= read -r line || [ -n "$line" ]; do
        [[ ${line%%#*} =~ ^[[:space:]]*([[:alnum:]_]+)[^:]*:?(.*)$ ]] || continue
        stands_on[${BASH_REMATCH[1]}]=${BASH_REMATCH[2]}
    done <"$root/crates.txt"
}
need() { # CRATE
    local other
    met[$1]=yes
    for other in ${stands_on[$1]-}; do
        [ -n "${stands_on[$other]+listed}" ] || continue # a library of the kit
        [ -n "${met[$other]-}" ] || need "$other"
    done
    needed+=("$1")
}

# ---- what a product is made of, and whether it is fresh

# Sets `product`, its `files`, its `sources`, and the crate that it is made of.
choose() { # PRODUCT
    product=$1 sources=(crates.txt bin/common.sh)
    case $1 in
    price_list) crate=price_list files=("$made/price_list") ;;
    library) crate=exports files=(target/staticlib/libgimletsorrel.{a,so}) ;;
    call) crate=exports files=("$made/call") sources+=(rust .cargo) ;;
    esac
    [ ${#stands_on[@]} -gt 0 ] || read_crates
    met=() needed=()
    need "$crate"
    sources+=("${needed[@]/#/crates/}")
}

# Each source, and each other file that is named before '--', put to find's words. What rt keeps in a crate's out/ is none. To be run in a
# subshell.
each() { # FILES.. -- WORDS..
    local more=() other
    while [ "$1" != -- ]; do
        more+=("$1")
        shift
    done
    local passed=(-name must-fail -o -path rust/target)
    for other in "${needed[@]}"; do passed+=(-o -path "crates/$other/out"); done
    CDPATH='' cd -- "$root" && LC_ALL=C find -L "${sources[@]}" "${more[@]}" \( "${passed[@]}" \) -prune -o ! -type d "${@:2}" 2>/dev/null
}
listing() { each "$@" -- -printf '%p %s %T@ %C@ %D %i\n'; }
digests() { each "${files[@]}" -- -exec sha256sum {} + | LC_ALL=C sort -k 2; }
recent() { each "${files[@]}" -- -newerct '2 seconds ago' -print -quit; }

# Sets `kit`, the identity of the kit that rt belongs to; to nothing where there is no rt.
identify() {
    kit=''
    hash rt 2>/dev/null || return 0
    local home
    home=$(readlink -f -- "${BASH_CMDS[rt]}")
    { read -r kit <"${home%/bin/rt}/KIT-ID"; } 2>/dev/null || kit=$(rt version </dev/null)
}

# Whether the product is that of the sources as they are, by the kit as it is; `why` says why not. Where there is no rt, no kit has changed.
fresh() {
    local stamp=$root/$made/$product recorded='' now proved changed
    identify
    { read -r recorded <"$stamp.proved"; } 2>/dev/null
    if [ -z "$recorded" ]; then why="it is not built" && return 1; fi
    if [ -n "$kit" ] && [ "$kit" != "$recorded" ]; then why="it was proved with another kit, $recorded" && return 1; fi
    now=$(listing "${files[@]}")
    if [ -r "$stamp.seen" ] && [ "$now" = "$(<"$stamp.seen")" ]; then return 0; fi
    proved=$recorded$'\n'$(digests)
    if [ "$proved" != "$(<"$stamp.proved")" ]; then
        changed=$(sort <(printf '%s\n' "$proved") "$stamp.proved" | uniq -u | head -n 1)
        why="${changed#*  } has changed since it was proved" && return 1
    fi
    if [ -w "$root/$made" ] && [ -z "$(recent)" ]; then write_whole "$stamp.seen" "$now"; fi
    return 0
}
write_whole() { # FILE TEXT
    { printf '%s\n' "$2" >"$1.$$" && mv -f -- "$1.$$" "$1"; } 2>/dev/null
}

# ---- proving and building

# Makes the product anew where it is not fresh, one run at a time; ends the command where that cannot be.
ready() { # PRODUCT TOOLS..
    choose "$1"
    fresh && return
    local tool held tools=(rt flock "${@:2}")
    local how="it is built with ${tools[*]}, of which rt is the command of the Rattle kit, a compiler and prover"
    for tool in "${tools[@]}"; do
        hash "$tool" 2>/dev/null || stop $UNPROVED "not proved: $why, and the command $tool is missing; $how"
    done
    mkdir -p -- "$root/$made" 2>/dev/null
    if [ ! -w "$root/$made" ] || [ ! -w "$root/target" ]; then
        stop $UNPROVED "not proved: $why, and $root/target cannot be written; $how, where it can be"
    fi
    # what runs below has the lock too, and keeps it where this command is killed
    exec {held}>"$root/$made/lock"
    flock -n "$held" || { say "another run is at work in $root/target: waiting for it" && flock "$held"; }
    fresh || build
    exec {held}>&-
}

# A line that says what is done: rewritten on a terminal, one after the other elsewhere.
step() {
    if [ -t 2 ] && [ -z "$verbose" ]; then printf '\r\033[K%s' "$*" >&2; else printf '%s\n' "$@" >&2; fi
}
step_over() { [ ! -t 2 ] || [ -n "$verbose" ] || printf '\r\033[K' >&2; }

# Runs words in a folder below the root. `rt run` also runs the program that it builds: on what its crate is tried on, and what it prints is
# thrown away.
inside() { # FOLDER WORDS..
    CDPATH='' cd -- "$root/$1" || return
    shift
    case "$*" in
    'rt run '*) "$@" <stdin >/dev/null ;;
    *) "$@" </dev/null ;;
    esac
}
# Runs a tool. What it says is shown with --verbose, or where it fails.
run() { # FOLDER WORDS..
    local log=$root/$made/$product.log status=0
    if [ -n "$verbose" ]; then
        (inside "$@") >&2 || status=$?
    else
        (inside "$@") >"$log" 2>&1 || status=$?
    fi
    [ $status -ne 0 ] || return 0
    step_over
    [ -n "$verbose" ] || cat -- "$log" >&2
    stop $UNPROVED "not proved: '${*:2}' ended with status $status"
}

# Proves all crates below the product's own, and announces that one. rt trusts what it has proved, and the program that it then linked. That
# program may have been exchanged, so what rt kept of its crate is removed, while no rt is at work there.
prove_below() {
    local other count=0
    for other in "${needed[@]}"; do
        count=$((count + 1))
        step "proving $count of ${#needed[@]}: $other"
        [ "$other" = "$crate" ] || run "crates/$other" rt lib "$other"
    done
    run . flock "crates/$crate" rm -rf -- "crates/$crate/out"
}

# A file of the product takes its place whole.
put_in_place() { # FROM TO
    if cp -- "$root/$1" "$root/$2.new" && mv -f -- "$root/$2.new" "$root/$2"; then return; fi
    stop $UNPROVED "not built: $root/$2 cannot be written"
}

build() {
    local before
    before=$(listing)
    "build_$product"
    step_over
    local proved=$kit$'\n'
    proved+=$(digests)
    [ "$(listing)" = "$before" ] || stop $UNPROVED "not proved: a source was changed while it was proved; run it again"
    write_whole "$root/$made/$product.proved" "$proved" || stop $UNPROVED "not built: $root/$made cannot be written"
}

build_price_list() {
    prove_below
    run crates/price_list rt run price_list
    put_in_place crates/price_list/out/price_list "$made/price_list"
}

build_library() {
    prove_below
    run crates/exports rt lib exports
    local archive=crates/exports/out/libexports.a shared=$made/libgimletsorrel.so
    mkdir -p -- "$root/target/staticlib" 2>/dev/null
    run . cc -shared -nostartfiles -Wl,-soname,libgimletsorrel.so,-z,defs -o "$shared" \
        -Wl,--whole-archive "$archive" -Wl,--no-whole-archive
    put_in_place "$archive" "${files[0]}"
    put_in_place "$shared" "${files[1]}"
}

# cargo takes a source for unchanged whose time was set back, so nothing of an earlier run is left to it.
build_call() {
    local built=$made/cargo
    choose library
    fresh || build
    choose call
    step "building call"
    rm -rf -- "${root:?}/$built"
    run . env "CARGO_TARGET_DIR=$root/$built" cargo build --offline --locked --quiet --release --manifest-path rust/Cargo.toml --package call
    put_in_place "$built/release/call" "$made/call"
}
