# What interop/run and interop/hostile/run share: one script after the other, each within its time.
#
# A script ends with status 0, with 77 where something that it needs is not on this machine, and with
# anything else where it fails. BUDGET bounds all of them together, in seconds. Where NOT_TRIED=told, a
# script that could not be tried, or whose end the budget did not leave time for, is told and counted as
# neither passed nor failed; else it has failed. Where TRIES=2, a script that failed is run once more, and
# that it was is told.
#
# Lines of a script's own say how it is run:
#   # legs: 2             with so many legs, where not with one and with two
#   # tries: 1            never once more: what it shows once is so
#   # run: by name alone  only where it is named
passed=0 failed=0 not_tried='' broken='' last_words=''
said=$(mktemp)
trap 'rm -f "$said"' EXIT

# header SCRIPT NAME: what the script's line of this name says, or nothing.
header() { sed -n "s/^# $2: //p" "$1"; }

# scripts [NAME..]: the scripts that are named, or all of this folder that are run without being named.
scripts() {
    local script
    [ $# -eq 0 ] || { printf '%s\n' "$@"; return; }
    for script in *; do
        case $script in run | *.py) continue ;; esac
        [ -f "$script" ] && [ -x "$script" ] && [ "$(header "$script" run)" != 'by name alone' ] && echo "$script"
    done
}

# run_one SECONDS COMMAND..: runs a command for so long, or as long as the budget lasts. `status` is its
# status, or `late` where the budget ended first.
run_one() {
    local limit=$1 left=$((${BUDGET:-1000000} - SECONDS))
    shift
    if [ "$left" -lt 5 ]; then
        status=late
        return
    fi
    timeout -k 10 "$((left < limit ? left : limit))" "$@" > "$said" 2>&1
    status=$?
    cat "$said"
    case $status in 124 | 137) [ "$left" -ge "$limit" ] || status=late ;; esac
}

# was_not_tried NAME WHY: a script that says nothing of the program.
was_not_tried() {
    if [ "${NOT_TRIED:-}" = told ]; then
        not_tried="$not_tried${not_tried:+; }$1"
        echo "$1: NOT TRIED: $2"
    else
        echo "$2" > "$said"
        has_failed "$1"
        echo "$1: FAILED: $2"
    fi
}

# has_failed NAME: a script that failed, and what it said last.
has_failed() {
    failed=$((failed + 1))
    broken="$broken${broken:+; }$1"
    last_words="$last_words$1:"$'\n'"$(tail -n 15 "$said")"$'\n'
}

# try NAME SECONDS SCRIPT WORD..
try() {
    local name=$1 limit=$2 started=$SECONDS status tries
    shift 2
    tries=$(header "$1" tries)
    run_one "$limit" "$@"
    case $status in
        0 | 77 | late) ;;
        *)
            if [ "${tries:-${TRIES:-1}}" -gt 1 ]; then
                echo "$name: failed with status $status after $((SECONDS - started)) s; tried once more"
                run_one "$limit" "$@"
                # It has failed once, and a second try that had no time does not change that.
                [ "$status" != late ] || status=1
            fi
            ;;
    esac
    case $status in
        0)
            passed=$((passed + 1))
            echo "$name: passed, $((SECONDS - started)) s"
            ;;
        77) was_not_tried "$name" "this machine lacks something" ;;
        late) was_not_tried "$name" "no time was left of the $BUDGET seconds for all" ;;
        *)
            has_failed "$name"
            case $status in
                124 | 137) echo "$name: FAILED: not ended after $((SECONDS - started)) s" ;;
                *) echo "$name: FAILED" ;;
            esac
            ;;
    esac
}

# Ends the run: what failed said last, what was not tried, what failed, then 'N passed, M failed'.
finish() {
    printf '%s' "$last_words"
    [ -z "$not_tried" ] || echo "NOT TRIED: $not_tried"
    [ -z "$broken" ] || echo "FAILED: $broken"
    echo "$passed passed, $failed failed"
    [ "$failed" = 0 ]
    exit
}

# install PACKAGE..: installs what is missing of Debian's, where it may.
install() {
    local package missing='' log
    for package in "$@"; do
        dpkg-query -W -f '${Status}' "$package" 2> /dev/null | grep -q 'install ok installed' || missing="$missing $package"
    done
    [ -n "$missing" ] || return 0
    if [ "$(id -u)" != 0 ]; then
        echo "not installed, and only root may install:$missing"
        return
    fi
    echo "installing$missing"
    log=$(mktemp)
    # shellcheck disable=SC2086
    { timeout 120 apt-get -o Acquire::http::Timeout=20 -o Acquire::Retries=1 update \
        && DEBIAN_FRONTEND=noninteractive timeout 300 apt-get -o Acquire::http::Timeout=20 \
            install -y --no-install-recommends $missing; } > "$log" 2>&1 < /dev/null \
        || { tail -n 3 "$log"; echo "COULD NOT INSTALL$missing"; }
    rm -f "$log"
}
