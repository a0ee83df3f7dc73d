"""Programs that are wrong in one way throughout, for tools/spoiled: each as a shell script that stands in the program's
place, and the script of the merge check that has to notice.

A body changes its words, or says how a run ends, and what it leaves is done by the program. It has these functions:
`end STATUS LINE` ends so; `ran WORDS` runs the program, and `text SED`, `line SED` and `bytes AT BYTE` change what it
wrote on standard output or standard error; `told` ends as it did; `size FILE` and `half AT FILE` say how long a file is and
which number two of its bytes are. To add a body, add a row to `BODIES`."""

HELP = r"""#!/bin/sh
program='%(program)s'
LC_ALL=C
export LC_ALL
end() { printf '%%s\n' "mmachine: $2" >&2; exit "$1"; }
no_memory() { end 5 'out of memory'; }
usage() { end 1 usage; }
size() { stat -Lc %%s -- "$1" 2>/dev/null || echo 0; }
half() { od -An -tu2 --endian=big -j"$1" -N2 -- "$2" | tr -d ' '; }
ran() {
    [ ! -c /dev/fd/1 ] || exec "$program" "$@"
    room=$(mktemp -d) && trap 'rm -rf "$room"' EXIT
    "$program" "$@" >"$room/out" 2>"$room/diag"
    status=$?
}
text() { sed "$1" "$room/out" >"$room/new" && mv "$room/new" "$room/out"; }
line() { sed "$1" "$room/diag" >"$room/new" && mv "$room/new" "$room/diag"; }
bytes() {
    [ "$(size "$room/out")" -le "$1" ] || printf "$2" | dd of="$room/out" bs=1 seek="$1" conv=notrunc 2>/dev/null
}
told() { cat "$room/out"; cat "$room/diag" >&2; exit "$status"; }
%(code)s
exec "$program" "$@"
"""

STATUSES, FAULTS, ANSWERS, PIECES, LOG = ".ci/statuses", ".ci/faults", ".ci/answers", ".ci/pieces", ".ci/log"
WHY, EXPLORE, KEEPS, LIMITS, HOSTILE = ".ci/why", ".ci/explore", ".ci/keeps", ".ci/limits", "tools/hostile"
MM, PICTURES, VIEW, PAGES = ".ci/mm", "docs/pictures/build", "docs/view/build", "examples/check"
TRUTH, C, HARDWARE, EDITORS, BROWSER = ".ci/truth", ".ci/c", ".ci/hardware", "editors/check", ".ci/view"
SERVE, CONFORMANCE = ".ci/serve", ".ci/conformance"
# Modules of the tests of `mm`.
MANY, COMMANDS = (("-m", "mm.tests", "--jobs", "1", it) for it in ("test_many", "test_commands"))

# Each body: what it does wrong, the script that has to notice, what it does; and words for that script, with
# which it is enough.
BODIES = [
    # Words.
    ("words that are no text are done", STATUSES, 'ran "$@"; [ "$status" != 6 ] || status=0; told'),
    ("a status is taken modulo 4", STATUSES, 'ran "$@"; status=$((status % 4)); told'),
    ("words after the seventeenth are dropped", STATUSES,
     'if [ $# -gt 17 ]; '
     'then set -- "$1" "$2" "$3" "$4" "$5" "$6" "$7" "$8" "$9" "${10}" "${11}" "${12}" "${13}" "${14}" "${15}" '
     '"${16}" "${17}"; fi'),
    ("empty words are dropped", STATUSES, 'for it do shift; [ -z "$it" ] || set -- "$@" "$it"; done'),
    ("words that begin with - are dropped", HOSTILE,
     'for it do shift; case $it in -*) ;; *) set -- "$@" "$it" ;; esac; done', "--only", "names"),
    ("blanks at the ends of words are dropped", HOSTILE,
     'for it do shift; while [ "${it# }" != "$it" ] || [ "${it% }" != "$it" ]; do it=${it# }; '
     'it=${it% }; done; set -- "$@" "$it"; done', "--only", "names"),
    ("a newline at the end of a word is dropped", HOSTILE,
     'for it do shift; set -- "$@" "$(printf "%s" "$it")"; done', "--only", "names"),
    ("a word with a byte above 127 cannot be had", HOSTILE,
     'for it do case $it in *[!\x01-\x7f]*) exit 6 ;; esac; done', "--only", "names"),
    ("a name of more than 200 bytes is not read", HOSTILE,
     'for it do [ ${#it} -le 200 ] || [ ! -f "$it" ] || end 3 "read fault"; done', "--only", "names"),
    ("a name with a star is that of the first file that fits", HOSTILE,
     'for it do shift; case $it in *"*"*|*"?"*) for first in $it; do break; done; '
     'set -- "$@" "$first" ;; *) set -- "$@" "$it" ;; esac; done', "--only", "names"),
    ("the name - is standard input", HOSTILE,
     'for it do shift; [ "$it" != - ] || it=/dev/stdin; set -- "$@" "$it"; done', "--only", "names"),
    ("a word of no text is one with question marks", HOSTILE,
     'for it do shift; printf "%s" "$it" | iconv -f UTF-8 -t UTF-8 >/dev/null 2>&1 || it="?"; '
     'set -- "$@" "$it"; done', "--only", "names"),
    ("a command in capitals is known", STATUSES,
     '[ $# = 0 ] || { it=$(printf %s "$1" | tr A-Z a-z); shift; set -- "$it" "$@"; }'),
    ("a blank after a command is dropped", STATUSES, '[ $# = 0 ] || { it=${1% }; shift; set -- "$it" "$@"; }'),
    ("an empty schedule is none", STATUSES, '[ $# != 4 ] || [ -n "$4" ] || set -- "$1" "$2" "$3"'),
    ("--help is done", STATUSES, '[ "$1" != --help ] || exit 0'),
    ("trace has cycles up to 999,999", STATUSES, '[ "$1" != trace ] || [ "$3" != 1000000 ] || usage'),
    ("a number of save may have a leading zero", STATUSES,
     '[ "$1" != save ] || [ $# != 3 ] || set -- "$1" "$2" "$(printf %s "$3" | sed "s/^0*\\(.\\)/\\1/")"'),
    ("a number of gen may have a plus", STATUSES, '[ "$1" != gen ] || [ $# != 3 ] || set -- "$1" "${2#+}" "${3#+}"'),
    ("a kind of why may begin with a capital", STATUSES, '[ "$5" != Touch ] || set -- "$1" "$2" "$3" "$4" touch'),
    ("link takes up to 15 objects", STATUSES, '[ "$1" != link ] || [ $# -lt 17 ] || usage'),
    ("a net of eight nodes shows seven", STATUSES,
     '[ "$1-$#" != net-12 ] || { ran "$@"; text "/^node 7/,/^counts/d"; told; }'),
    ("a usage is told twice", STATUSES, 'ran "$@"; [ "$status" != 1 ] || line p; told'),
    # Files and streams.
    ("a file that cannot be read is empty", STATUSES,
     'for it do shift; case $it in */*) [ -f "$it" ] || it=/dev/null ;; esac; set -- "$@" "$it"; done'),
    ("a folder is an empty file", HOSTILE,
     'for it do shift; [ ! -d "$it" ] || it=/dev/null; set -- "$@" "$it"; done', "--only", "places"),
    ("a write fault of net is done", STATUSES,
     'if [ "$1" = net ] && [ -c /dev/fd/1 ]; then "$program" "$@" 2>/dev/null; exit 0; fi'),
    ("a closed pipe is done", HOSTILE,
     'ran "$@"; if [ -s "$room/out" ]; then cat "$room/out" 2>/dev/null; exit "$status"; fi; told', "--only", "places"),
    ("debug takes the first MiB of a longer input", STATUSES,
     'if [ "$1" = debug ]; then cat >/tmp/in.$$; head -c 1048576 </tmp/in.$$ | "$program" "$@"; status=$?; '
     'rm -f /tmp/in.$$; exit $status; fi'),
    ("a refusal of continue names the file before", STATUSES,
     'ran "$@"; [ "$1" != continue ] || line "s/file 3/file 2/"; told'),
    ("a privileged group is told before a held slot", STATUSES,
     'ran "$@"; line "s/held slot 0/privileged group 0/"; told'),
    ("want of memory is a read fault", STATUSES, 'ran "$@"; if [ "$status" = 5 ]; then end 3 "read fault"; fi; told'),
    ("a text that does not fit is done", HOSTILE, '[ $# = 0 ] || { "$program" "$@" 2>/dev/null | cat 2>/dev/null; exit 0; }', "--only", "limits"),
    ("want of memory for a small run is a read fault", HOSTILE,
     '[ $# = 0 ] || { ran "$@"; [ "$status" != 5 ] || end 3 "read fault"; told; }', "--only", "limits"),
    # Places of faults.
    ("columns begin at 0 after the third line", FAULTS, 'ran "$@"; line "s/ at \\([4-9]\\):1$/ at \\1:0/"; told'),
    ("a word too many is told as too many words of all", FAULTS,
     'ran "$@"; line "s/source fault 8/source fault 9/"; told'),
    ("a fault of events is told one byte later", FAULTS,
     'ran "$@"; line "s/schedule fault at 15/schedule fault at 16/"; told'),
    ("a malformed pointer is told at the word after it", ANSWERS,
     'ran "$@"; line "s/image fault 9 at 94/image fault 9 at 102/"; told'),
    ("a short checkpoint is told one byte earlier", ANSWERS,
     'ran "$@"; line "s/checkpoint fault at 100$/checkpoint fault at 99/"; told'),
    ("a trailing byte of an object is told at the end of the file", ANSWERS,
     'ran "$@"; line "s/object fault 9 at 218/object fault 9 at 219/"; told'),
    ("a byte too many of an image is told where the file ends", HOSTILE,
     'ran "$@"; line "s/image fault 13 at 158/image fault 13 at 159/"; told', "--only", "images"),
    ("a short object is told at its front", HOSTILE,
     'ran "$@"; line "s/object fault 1 at .*/object fault 1 at 0/"; told', "--only", "objects"),
    ("a cause of a checkpoint is told at the state before it", HOSTILE,
     'ran "$@"; line "s/checkpoint fault at 19$/checkpoint fault at 18/"; told', "--only", "checkpoints"),
    ("a checkpoint may have a byte more", HOSTILE,
     'ran "$@"; if [ "$1" = continue ] && [ "$status" = 2 ]; '
     'then head -c -1 "$3" >"$room/less"; '
     '"$program" continue "$2" "$room/less" "$4" >"$room/new" 2>"$room/diag"; status=$?; '
     'mv "$room/new" "$room/out"; fi; told', "--only", "checkpoints"),
    ("a file of more than 4 GiB is one of its length modulo that", STATUSES,
     'for it do [ "$(size "$it")" -lt 4294967296 ] || end 2 "file 1 image fault 2 at 0"; done'),
    ("a link that leads nowhere is an empty file", STATUSES,
     'for it do shift; { [ -L "$it" ] && [ ! -e "$it" ]; } && it=/dev/null; set -- "$@" "$it"; done'),
    ("a file is left in the folder", HOSTILE, ': >./left-behind', "--only", "names"),
    ("a file that was read has a byte more", HOSTILE,
     'for it do if [ -f "$it" ] && [ -w "$it" ]; then case $it in */names/*) "$program" "$@"; '
     's=$?; printf x >>"$it"; exit $s ;; esac; fi; done', "--only", "names"),
    ("a path of more than 1,000 bytes is not there", HOSTILE,
     'for it do [ ${#it} -le 1000 ] || end 3 "read fault"; done', "--only", "names"),
    # Texts.
    ("the largest generated image has another number", ANSWERS,
     '[ "$1-$3" != gen-16 ] || { ran "$@"; bytes 60000 x; told; }'),
    ("a step back is one too far", ANSWERS,
     '[ "$1" != debug ] || { ran "$@"; text "s/^back 1 total 2999/back 1 total 2998/"; told; }'),
    ("an extracted image keeps the slots of others", ANSWERS, '[ "$1" != extract ] || { cat "$2"; exit 0; }'),
    ("an extracted image is that of the first group", ANSWERS, '[ "$1" != extract ] || set -- "$1" "$2" "${3%%,*}"'),
    ("an extracted image of a split one is plain", ANSWERS, '[ "$1" != extract ] || { ran "$@"; bytes 15 "\\000"; told; }', "extracts"),
    ("a swept image of a split one is plain", ANSWERS, '[ "$1" != sweep ] || { ran "$@"; bytes 15 "\\000"; told; }', "sweeps"),
    *((f"{command} tells of no {kind}", ANSWERS, f'[ "$1" != {command} ] || {{ ran "$@"; text "/^{line} /d"; told; }}', "other_runs")
      for command in ("solo", "net") for kind, line in (("loads on their way", "pending"), ("pages that came", "page"))),
    ("migrate leaves a split image as it is", ANSWERS,
     '[ "$1" != migrate ] || [ "$(size "$2")" -lt 16 ] || [ "$(half 14 "$2")" != 1 ] || exec cat "$2"', "migrations"),
    ("a 65th watch is set", ANSWERS, '[ "$1" != debug ] || { ran "$@"; text "s/^watch full$/watch set/"; told; }', "sessions"),
    ("an audit of four groups or more is of the first three", ANSWERS,
     '[ "$1" != grants ] || case $3 in *,*,*,*) set -- "$1" "$2" "$(printf %s "$3" | cut -d, -f1-3)" ;; esac'),
    ("a run of three groups or more alone is of the first two", ANSWERS,
     '[ "$1" != solo ] || case $3 in *,*,*) it=$1 at=$2 of=$(printf %s "$3" | cut -d, -f1-2); shift 3; set -- "$it" "$at" "$of" "$@" ;; esac'),
    ("a run goes on under the first 100 bytes of a schedule", ANSWERS,
     'if [ "$1-$#" = continue-5 ] && [ "$(size "$5")" -gt 100 ]; then '
     'head -c 100 "$5" >"/tmp/front.$$"; "$program" "$1" "$2" "$3" "$4" "/tmp/front.$$"; s=$?; rm "/tmp/front.$$"; exit $s; fi'),
    ("explore looks at one configuration fewer, of four digits or five", ANSWERS,
     '[ "$1" != explore ] || case $3 in [1-9]???|[1-9]????) set -- "$1" "$2" "$(($3 - 1))" ;; esac'),
    ("an image of a number of five to twelve digits is that of 1", ANSWERS,
     '[ "$1" != gen ] || [ ${#2} -lt 5 ] || [ ${#2} -gt 12 ] || set -- gen 1 "$3"'),
    ("a summary of a number of four to nineteen digits is that of 1", ANSWERS,
     '[ "$1" != soak ] || [ ${#2} -lt 4 ] || [ ${#2} -gt 19 ] || set -- soak 1 "$3" "$4"'),
    ("a checkpoint has no schedule", ANSWERS, '[ "$1-$#" != save-4 ] || set -- "$1" "$2" "$3"'),
    ("runs of six digits of cycles have one less", ANSWERS,
     'case $1 in run|trace|log|save) case $3 in 100000|[1-9]?????) it=$1 at=$2 many=$(($3 - 1)); shift 3; '
     'set -- "$it" "$at" "$many" "$@" ;; esac ;; esac'),
    ("a terminal is shown a line less", ANSWERS, 'if [ -t 1 ]; then "$program" "$@" 2>&1 | sed 1d; exit 0; fi'),
    ("misses of five digits or more are told as 9999", ANSWERS, 'ran "$@"; text "s/ misses [0-9]\\{5,\\} / misses 9999 /"; told'),
    ("a group that touched a thousand words or more is told with 999", ANSWERS,
     '[ "$1" != explore ] || { ran "$@"; text "s/^\\(touched .*\\) [0-9]\\{4,\\}$/\\1 999/"; told; }'),
    ("a link brings up to nine packets", ANSWERS, '[ "$1" != net ] || { ran "$@"; text "s/ arrived [0-9]\\{2,\\}$/ arrived 9/"; told; }'),
    ("a refusal names the file that the program is in", ANSWERS,
     '[ "${0##*/}" = mmachine ] || { ran "$@"; line "s/^mmachine/${0##*/}/"; told; }', "runs"),
    ("a pipe is read as a file", ANSWERS,
     'if [ "$2" = /dev/stdin ] && [ -p /dev/stdin ]; then cat >"/tmp/pipe.$$"; "$program" "$1" "/tmp/pipe.$$" "$3"; s=$?; rm "/tmp/pipe.$$"; exit $s; fi',
     "runs"),
    ("a refusal at a terminal is on standard output", ANSWERS, 'if [ -t 2 ]; then exec "$program" "$@" 2>&1; fi', "terminals"),
    ("standard input is read by each command", ANSWERS, '[ "$1" = debug ] || cat >/dev/null'),
    ("a terminal gives no input", ANSWERS, 'if [ -t 0 ]; then exec "$program" "$@" </dev/null; fi'),
    ("continue counts a cycle more", PIECES,
     '[ "$1" != continue ] || { ran "$@"; text "s/^cycles 3\\(.\\)$/cycles 4\\1/"; told; }'),
    ("a checkpoint forgets the last slot of round robin", PIECES,
     '[ "$1-$#" != save-3 ] || { ran "$@"; bytes 6 "\\377"; told; }'),
    ("the count line of continue is that of the whole run", PIECES,
     '[ "$1-$#" != continue-4 ] || { ran "$@"; "$program" run "$2" 40 >"$room/whole"; { sed \'$d\' "$room/out"; '
     'tail -n 1 "$room/whole"; } >"$room/new"; mv "$room/new" "$room/out"; told; }'),
    ("the count line of continue is wrong in the middle of a run", PIECES,
     '[ "$1" != continue ] || { ran "$@"; text "s/ tlb_hits 2 tlb_misses 1 / tlb_hits 1 tlb_misses 2 /"; told; }'),
    ("the count line of continue is wrong in the middle of a longer run", LOG,
     '[ "$1" != continue ] || { ran "$@"; text "s/ tlb_hits 2 tlb_misses 1 / tlb_hits 1 tlb_misses 2 /"; told; }'),
    ("the fourth hit of the translation buffer is told as a miss by each command", LOG,
     'case $1 in run|trace|log|continue) ran "$@"; text "s/ tlb_hits 4 tlb_misses 1 / tlb_hits 3 tlb_misses 2 /"; told ;; esac'),
    ("a log has no lines of queued events", LOG, '[ "$1" != log ] || { ran "$@"; text "/^event /d"; told; }'),
    ("a log has each cell as full", LOG,
     '[ "$1" != log ] || { ran "$@"; text "s/^\\(cell .*\\) empty$/\\1 full/"; told; }'),
    ("a trace has a fault of bounds as one of permission", LOG,
     '[ "$1" != trace ] || { ran "$@"; text "s/faulted 2/faulted 3/"; told; }'),
    ("debug has a register that is another one", LOG,
     '[ "$1" != debug ] || { ran "$@"; text "s/^r 1 i.*/r 1 i0000000000000000/"; told; }'),
    ("debug tells of one cycle where it went more", LOG,
     '[ "$1" != debug ] || { ran "$@"; text "s/^stepped [0-9]* /stepped 1 /"; told; }'),
    ("a run that goes on counts nothing", LOG, '[ "$1" != continue ] || { ran "$@"; text "s/^counts .*/counts/"; told; }'),
    ("continue goes a cycle less", LOG, '[ "$1" != continue ] || set -- "$1" "$2" "$3" "$(($4 - 1))"'),
    ("bytes that are put out have capital digits", ANSWERS, 'ran "$@"; text "/^o /y/abcdef/ABCDEF/"; told', "runs"),
    ("bytes of 224 and more are others", ANSWERS, '[ "$1" != run ] || { ran "$@"; text "/^o e0/s/e/6/g"; told; }', "runs"),
    ("keeps looks at one thread fewer", ANSWERS, '[ "$1" != keeps ] || set -- "$1" "$2" "$(($3 - 1))" "$4"'),
    ("a derivation names the register after", WHY,
     '[ "$1" != why ] || { ran "$@"; text "s/register \\(.*\\) 5$/register \\1 6/"; told; }'),
    ("group 0 writes no word", WHY, '[ "$1-$3-$5" != why-0-write ] || { echo no; exit 0; }'),
    ("a derivation stands on the line after", WHY, '[ "$1" != why ] || { ran "$@"; text "s/ by 3$/ by 2/"; told; }'),
    ("what is not looked at is all", EXPLORE, '[ "$1" != explore ] || { ran "$@"; text "1s/ more$/ all/"; told; }'),
    ("the last of several outcomes is left out", EXPLORE,
     '[ "$1" != explore ] || { ran "$@"; text "/^outcome [2-9]/,\\$d"; told; }'),
    ("what goes on for ever is left out", EXPLORE,
     '[ "$1" != explore ] || { ran "$@"; text "/^outcome [0-9]* endless/,/^by/d"; told; }'),
    ("a slot that waits for ever is busy", EXPLORE,
     '[ "$1" != explore ] || { ran "$@"; text "/endless$/,/^by/s/ running$/ busy/"; told; }'),
    ("an outcome has a turn more", EXPLORE, '[ "$1" != explore ] || { ran "$@"; text "\\$s/^by .*/& 0/"; told; }'),
    ("a written word is told as touched alone", EXPLORE,
     '[ "$1" != explore ] || { ran "$@"; text "/^wrote /d"; told; }'),
    ("a kernel that leaks is kept", KEEPS,
     '[ "$1" != keeps ] || { ran "$@"; text "1s/ no$/ yes/; /^leak /d"; told; }'),
    ("a kernel keeps that stores, enters, runs what may change or goes loose", KEEPS,
     '[ "$1" != keeps ] || { ran "$@"; text "/^leak \\(store\\|enter\\|code\\|loose\\)/d"; '
     'grep -q "^leak" "$room/out" || text "1s/ no$/ yes/"; told; }'),
    ("a kernel has no slot but one", KEEPS,
     '[ "$1" != keeps ] || { ran "$@"; text "/^slot [1-9]/d"; told; }'),
    ("a kernel that gives a pointer away at a fault is kept", KEEPS,
     '[ "$1" != keeps ] || { ran "$@"; grep -q "^leak [^f]" "$room/out" || text "1s/ no$/ yes/; /^leak /d"; told; }'),
    ("the first door of a kernel is left out", KEEPS,
     '[ "$1" != keeps ] || { ran "$@"; text "0,/^door /{/^door /d}"; told; }'),
    ("a cell of a kernel never gets a caller's word", KEEPS,
     '[ "$1" != keeps ] || { ran "$@"; text "/^cell .* any$/d"; told; }'),
    ("a form of a cell of a kernel is left out", KEEPS,
     '[ "$1" != keeps ] || { ran "$@"; last=$(grep -n "^cell " "$room/out" | tail -n 1); '
     '[ -z "$last" ] || text "${last%%:*}d"; told; }'),
    ("a word that only a fetch uses is not read", KEEPS,
     '[ "$1" != keeps ] || { ran "$@"; text "s/^\\(reads .*\\) 8$/\\1 7/; s/^\\(reads .*\\) 6$/\\1 5/"; told; }'),
    ("a cell of a kernel gets integers alone", KEEPS,
     '[ "$1" != keeps ] || { ran "$@"; text "s/^\\(cell .*\\) any$/\\1 int/"; told; }'),
    ("a word that a kernel writes is told as read alone", KEEPS,
     '[ "$1" != keeps ] || { ran "$@"; text "/^writes /d"; told; }'),
    ("a kernel has a code word less", KEEPS,
     '[ "$1" != keeps ] || { ran "$@"; text "s/^\\(code .*\\) 7$/\\1 6/"; told; }'),
    ("another slot is the kernel's", KEEPS,
     '[ "$1" != keeps ] || { ran "$@"; text "s/^slot 0$/slot 1/"; told; }'),
    ("no group holds a door of a kernel", KEEPS,
     '[ "$1" != keeps ] || { ran "$@"; text "/^group /,\\${/^door /d}"; told; }'),
    ("no group has a slot of a kernel", KEEPS,
     '[ "$1" != keeps ] || { ran "$@"; text "/^group /,\\${/^slot /d}"; told; }'),
    ("a group reaches segments of less than 32 bytes alone", KEEPS,
     '[ "$1" != keeps ] || { ran "$@"; text "/^group /,\\${/^touch .* [5-9]$/d}"; told; }'),
    ("a linked image has another byte at its end", KEEPS,
     '[ "$1" != link ] || { ran "$@"; bytes $(($(size "$room/out") - 1)) x; told; }'),
    ("keeps drops the last of several segments", KEEPS,
     'if [ "$1" = keeps ] && [ "${4%,*}" != "$4" ]; then set -- "$1" "$2" "$3" "${4%,*}"; fi'),
    ("a write is counted twice", CONFORMANCE, '[ "$1" != log ] || { ran "$@"; text "s/ writes 1$/ writes 2/"; told; }'),
    ("a log has no report", CONFORMANCE, '[ "$1" != log ] || { ran "$@"; text "/^cycles /,\\$d"; told; }'),
    ("the last line of a log has no end", CONFORMANCE,
     '[ "$1" != log ] || { ran "$@"; head -c -1 "$room/out" >"$room/new"; mv "$room/new" "$room/out"; told; }'),
    ("a log says on standard error that it is done", CONFORMANCE,
     '[ "$1" != log ] || { ran "$@"; echo "mmachine: done" >"$room/diag"; told; }'),
    ("an object has a byte more", CONFORMANCE, '[ "$1" != asm ] || { ran "$@"; echo >>"$room/out"; told; }'),
    ("a fault of bounds is one of permission", CONFORMANCE,
     '[ "$1" != log ] || { ran "$@"; text "s/faulted 3/faulted 4/"; told; }'),
    ("no group around a kernel writes", KEEPS, '[ "$1" != keeps ] || { ran "$@"; text "/^group /,\\${/^write /d}"; told; }'),
    ("each group around a kernel stands apart", KEEPS,
     '[ "$1" != keeps ] || { ran "$@"; text "s/^apart \\([^ ]*\\) .*/apart \\1 yes/"; told; }'),
    ("a sweep of 2^14 to 2^53 bytes sweeps nothing", MM,
     '[ "$1" != sweep ] || case $4 in 1[4-9]|[2-4][0-9]|5[0-3]) cat "$2"; exit 0 ;; esac', *MANY),
    ("nobody holds a range of 2^14 to 2^53 bytes", MM,
     '[ "$1" != holders ] || case $4 in 1[4-9]|[2-4][0-9]|5[0-3]) exit 0 ;; esac', *MANY),
    ("a link of four nodes or more brings nothing", MM,
     '[ "$1" != net ] || [ $# -lt 8 ] || { ran "$@"; text "s/^\\(link .*\\) arrived .*/\\1 arrived 0/"; told; }', *MANY),
    ("a group that stands apart is not told", MM, '[ "$1" != grants ] || { ran "$@"; text "/^apart .* yes/d"; told; }', *COMMANDS),
    ("a picture's run has a turn fewer", PICTURES, '[ "$1" != trace ] || { ran "$@"; text "1d"; told; }'),
    ("a page's log has a turn fewer", VIEW, '[ "$1" != log ] || { ran "$@"; text "1d"; told; }'),
    ("a page's report has another word", PAGES,
     '[ "$1" != run ] || { ran "$@"; text "s/i0000000000000041/i0000000000000042/"; told; }'),
    ("a trace tells a turn twice", TRUTH, '[ "$1" != trace ] || { ran "$@"; text "1p"; told; }', "--count", "24"),
    ("debug has another register than the run", ANSWERS,
     '[ "$1" != debug ] || { ran "$@"; text "s/^r 1 i.*/r 1 i0000000000000000/"; told; }'),
    ("dis has another name for an operation", TRUTH,
     '[ "$1" != dis ] || { ran "$@"; text "s/^sub r/xor r/"; told; }', "--words", "20000"),
    ("restrict gives the permission that it was given", TRUTH,
     '[ "$1" != run ] || { ran "$@"; text "s/^r 3 p[1-9]/r 3 p0/"; told; }'),
    ("a file that is too long cannot be read", TRUTH,
     'ran "$@"; ! grep -q "too long" "$room/diag" || status=3; told', "--count", "0", "--words", "500"),
    ("continue says on standard error that it is done", TRUTH,
     '[ "$1" != continue ] || { ran "$@"; [ "$status" != 0 ] || echo "mmachine: done" >"$room/diag"; told; }', "--count", "3", "--words", "0"),
    ("the text of a kernel begins with a capital", TRUTH,
     '[ "$1" != keeps ] || { ran "$@"; text "1s/^keeps/Keeps/"; told; }', "--count", "3", "--words", "0"),
    ("a linked image is not the same when it is linked again", TRUTH,
     '[ "$1" != link ] || { ran "$@"; bytes 60 "$(date +%N | cut -c9)"; told; }', "--count", "4", "--words", "0"),
    ("a byte that was put out is another one", C, '[ "$1" != run ] || { ran "$@"; text "s/^o 3/o 4/"; told; }'),
    ("a run ends after a hundred cycles, and what continues it after a hundred more", C,
     'case $1 in run | save) set -- "$1" "$2" 100 ;; continue) set -- "$1" "$2" "$3" 100 ;; esac'),
    ("a register of a log is another one", HARDWARE,
     '[ "$1" != log ] || { ran "$@"; text "s/^\\(r .*\\)[0-8]$/\\19/"; told; }'),
    ("a log for a core has each cell as full", HARDWARE,
     '[ "$1" != log ] || { ran "$@"; text "s/^\\(cell .*\\) empty$/\\1 full/"; told; }'),
    ("asm makes an object of no bytes", EDITORS, '[ "$1" != asm ] || { ran "$@"; : >"$room/out"; told; }'),
    ("a faulted slot is told as halted", EDITORS,
     '[ "$1" != run ] || { ran "$@"; text "s/ faulted [0-9]*/ halted/"; told; }'),
    ("a page's trace has a turn fewer", BROWSER, '[ "$1" != trace ] || { ran "$@"; text "1d"; told; }'),
    ("a page's report has another register", BROWSER,
     '[ "$1" != run ] || { ran "$@"; text "s/^r 2 i.*/r 2 i0000000000000000/"; told; }'),
    ("an editor is told of another register", SERVE,
     '[ "$1" != run ] || { ran "$@"; text "s/^r 3 i.*/r 3 i0000000000000000/"; told; }', "sessions"),
    ("an editor is told of no mistakes", SERVE, '[ "$1" != asm ] || { ran "$@"; : >"$room/diag"; told; }', "sessions"),
    ("a trace has no loads", PAGES, '[ "$1" != trace ] || { ran "$@"; text "s/ load [0-9a-f]*//"; told; }'),
    # Memory.
    *((f"{command} has no memory for an image of more than 1 MB", LIMITS,
       f'[ "$1" != {command} ] || [ "$(size "$2")" -le 1000000 ] || no_memory', "go_through")
      for command in "run trace log solo grants extract debug migrate sweep holders save explore why keeps continue".split()),
    *((f"{command} has no memory for an object of more than 2,000 relocations", LIMITS,
       f'[ "$1" != {command} ] || [ "$(size "$2")" -le 50000 ] || no_memory', "link_most")
      for command in ("link", "dis")),
    ("dis has no memory for an object of more than 200 externals", LIMITS,
     '[ "$1" != dis ] || [ "$(half 8 "$2")" -le 200 ] || no_memory', "link_most"),
    ("link has no memory for an object of more than 200 externals", LIMITS,
     'if [ "$1" = link ]; then for it do [ ! -f "$it" ] || [ "$(half 8 "$it")" -le 200 ] || no_memory; done; fi', "link_most"),
    ("link has no memory for an object of more than 100 segments", LIMITS,
     'if [ "$1" = link ]; then for it do [ ! -f "$it" ] || [ "$(half 6 "$it")" -le 100 ] || no_memory; done; fi', "link_most"),
    ("asm has no memory for a source of more than 1 MB", LIMITS,
     '[ "$1" != asm ] || [ "$(size "$2")" -le 1000000 ] || no_memory', "link_most"),
    ("net has memory for up to 2 nodes, and for 8", LIMITS,
     '[ "$1" != net ] || [ $# -lt 7 ] || [ $# -gt 11 ] || no_memory', "join_few"),
    ("net has no memory for 8 nodes of many pages", LIMITS,
     '[ "$1" != net ] || [ $# != 12 ] || [ "$(size "$5")" -le 1000000 ] || no_memory', "go_through"),
    ("explore has memory for 100,000 configurations of several slots", LIMITS,
     '[ "$1-$3" != explore-200000 ] || no_memory', "explore_three"),
    ("explore has memory for 200,000 configurations, unless they go round", LIMITS,
     '[ "$1-$3" != explore-100000000 ] || no_memory', "explore_round"),
    ("keeps has no memory for a kernel of more threads than are looked at", LIMITS,
     '[ "$1" != keeps ] || { ran "$@"; ! grep -q "^keeps more" "$room/out" || no_memory; told; }', "keep_most"),
    ("want of memory of keeps is a kernel that is kept", LIMITS,
     '[ "$1" != keeps ] || { ran "$@"; [ "$status" != 5 ] || { echo keeps yes; exit 0; }; told; }', "go_through"),
    ("holders writes a million lines", LIMITS,
     'if [ "$1" = holders ]; then "$program" "$@" | head -n 1000000; exit 0; fi', "go_through"),
    ("log writes two million lines", LIMITS,
     'if [ "$1" = log ]; then "$program" "$@" | head -n 2000000; exit 0; fi', "write_most"),
    ("want of memory of why is a read fault", LIMITS,
     '[ "$1" != why ] || { ran "$@"; [ "$status" != 5 ] || end 3 "read fault"; told; }', "go_through"),
    ("want of memory of gen has no line", LIMITS,
     '[ "$1" != gen ] || { ran "$@"; [ "$status" != 5 ] || exit 5; told; }', "want_little"),
    ("want of memory of dis is done", LIMITS,
     '[ "$1" != dis ] || { ran "$@"; [ "$status" != 5 ] || exit 0; told; }', "link_most"),
]

# What tools/spoiled --quick tries, by what it does wrong: texts and lines of messages, and no statuses.
QUICK = {
    "a usage is told twice", "columns begin at 0 after the third line", "a step back is one too far",
    "the count line of continue is that of the whole run", "continue goes a cycle less",
    "a derivation names the register after", "an outcome has a turn more", "a kernel that leaks is kept",
    "restrict gives the permission that it was given", "a short object is told at its front",
    "want of memory of gen has no line",
    "a picture's run has a turn fewer",
}
