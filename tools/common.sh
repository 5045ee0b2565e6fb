# Sourced by the shell scripts of this repository, which set `root` to its folder before. It gives them:
#   usage                    prints the comment at the head of the script, and ends it with status 0: what --help does
#   stop WHY [STATUS]        prints why the script cannot go on, and ends it with status 2
#   install WHAT PACKAGE...  installs Debian packages; WHAT says what they are for
#   need COMMAND PACKAGE...  installs the packages where the command is missing
#   shown LOG COMMAND...     runs a command with its output in LOG, tells which crates rt comes to, and every ten seconds that it still runs
#   rt_in FOLDER WORDS...    runs rt in a folder, as that of a crate; a command for `shown`, which gives it a shell of its own, as is the next one
#   rt_run FOLDER OUT        has rt prove and build the program of a crate's folder and run it on its stored input, with what it prints in OUT
#   (`shown` sets log, began, said, told, before, now, job and job_status: name yours otherwise)
#   target                   the processor to build for: --target of the script where it has one, else LINTELRYE_TARGET, else this machine's
me=${0#"$root"/}
case $me in /* | ./*) me=$(basename "$(cd "$(dirname "$0")" && pwd)")/$(basename "$0") ;; esac
target=${LINTELRYE_TARGET:-$(uname -m)}
case $target in arm64) target=aarch64 ;; amd64) target=x86_64 ;; esac

usage() {
    sed -n '2,/^[^#]/s/^# \{0,1\}//p' "$0"
    exit 0
}

stop() {
    echo "$me: $1" >&2
    exit "${2:-2}"
}

case $root in *[[:space:]]*) stop "the name of this repository's folder, $root, has a blank, which compilers' options made of it cannot hold: move it" ;; esac

unknown() {
    stop "unknown option or word $1; $me --help says what there is"
}

# Takes the word after --target.
take_target() {
    target=${1-}
    case $target in
    x86_64 | aarch64) ;;
    *) stop "--target is x86_64 or aarch64${target:+, and not $target}" ;;
    esac
}

apt_install() {
    case $* in *:amd64*) dpkg --add-architecture amd64 ;; *:arm64*) dpkg --add-architecture arm64 ;; esac
    apt-get update -qq && DEBIAN_FRONTEND=noninteractive apt-get install -y -qq --no-install-recommends "$@"
}

install() {
    what=$1
    shift
    command -v apt-get >/dev/null || stop "$what is missing, and so is apt-get, which would install the Debian packages $*"
    [ "$(id -u)" = 0 ] || stop "$what is missing: run $me as root, or install the Debian packages $* (of the architecture amd64 where a name ends in it)"
    echo "$me: installing $* ($what)" >&2
    shown "$root/target/apt.log" apt_install "$@" || {
        tail -n 5 "$root/target/apt.log" >&2
        stop "the Debian packages $* ($what) could not be installed; the whole log is target/apt.log"
    }
}

need() {
    needed=$1
    shift
    command -v "$needed" >/dev/null || install "$needed" "$@"
}

rt_in() {
    cd "$1"
    shift
    exec rt "$@"
}

rt_run() {
    cd "$1"
    stored=/dev/null
    [ ! -f stdin ] || stored=stdin
    exec rt run <"$stored" >"$2"
}

# Prints the crates that a log says are being proved, or are proved, and that were not printed yet.
told=0
tell() {
    sed -n 's/^rt: chose --jobs [0-9]* for \([a-z_0-9]*\)$/  proving \1/p; s/^rt: \([a-z_0-9]* proved\)$/  \1/p' "$1" | tail -n "+$((told + 1))" >&2
    told=$(grep -c -e '^rt: chose --jobs [0-9]* for [a-z_0-9]*$' -e '^rt: [a-z_0-9]* proved$' "$1" || true)
}

shown() {
    log=$1
    shift
    mkdir -p "$(dirname "$log")"
    : >"$log"
    began=$(date +%s)
    said=$began
    told=0
    "$@" >"$log" 2>&1 &
    job=$!
    trap 'kill "$job" 2>/dev/null; exit 130' INT TERM
    while kill -0 "$job" 2>/dev/null; do
        before=$told
        tell "$log"
        now=$(date +%s)
        [ "$told" = "$before" ] || said=$now
        if [ $((now - said)) -ge 10 ]; then
            said=$now
            echo "  .. $((now - began)) s" >&2
        fi
        sleep 1
    done
    job_status=0
    wait "$job" || job_status=$?
    trap - INT TERM
    tell "$log"
    return "$job_status"
}
