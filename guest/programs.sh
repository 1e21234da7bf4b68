#!/bin/sh
# Fetches programs of others as Debian has their sources, compiles them unchanged with guest/cc, runs jobs of them on
# the node, and compares what they write, how they end and the files that they leave with what they do under
# qemu-riscv64. Prints a table.
#
#   guest/programs.sh [FOLDER [NAME..]]
#
# FOLDER keeps the sources and images for the next time; without one they are made in a temporary folder, which is
# removed. The names are those of `all` below. MIRROR and SUITE say where sources come from. MCEXEC names the program,
# else it is the launcher's. Ends with 1 where a job differs, and with 77 where something was skipped.
set -eu
here=$(dirname "$(readlink -f "$0")")
all="lua zlib bzip2 cjson expat figlet mujs picosat scheme"
mirror=${MIRROR:-http://deb.debian.org/debian}
suite=${SUITE:-bookworm}

if [ "$#" -gt 0 ]; then
    mkdir -p "$1"
    room=$(readlink -f "$1")
    shift
    work=$(mktemp -d)
    trap 'rm -rf "$work"' EXIT
else
    room=$(mktemp -d)
    work=$room/work
    mkdir "$work"
    trap 'rm -rf "$room"' EXIT
fi
trap 'exit 1' HUP INT TERM
if [ "$#" -eq 0 ]; then
    set -- $all
fi

jobs=0
wrong=0
skipped=0

skip() {
    echo "skipped: $*"
    skipped=$((skipped + 1))
}

needs() {
    if ! command -v "$1" >/dev/null 2>&1; then
        skip "$1 isn't there; Debian's package $2 has it"
        exit 77
    fi
}
needs apt-get apt
needs dpkg-source dpkg-dev
needs riscv64-unknown-elf-gcc gcc-riscv64-unknown-elf
needs python3 python3
compared=1
if ! command -v qemu-riscv64 >/dev/null 2>&1; then
    skip "nothing is compared: qemu-riscv64 isn't there; Debian's package qemu-user has it"
    compared=
fi

# Debian's sources, by lists of our own, so that the machine's are left as they are.
fetch() {
    if [ -d "$room/sources/$1" ]; then
        return 0
    fi
    if [ ! -f "$room/apt/conf" ]; then
        mkdir -p "$room/apt/lists/partial" "$room/apt/cache/archives/partial" "$room/sources"
        echo "deb-src $mirror $suite main" >"$room/apt/sources.list"
        {
            echo "Dir::Etc::SourceList \"$room/apt/sources.list\";"
            echo "Dir::Etc::SourceParts \"/dev/null\";"
            echo "Dir::State::Lists \"$room/apt/lists\";"
            echo "Dir::Cache \"$room/apt/cache\";"
            echo "APT::Sandbox::User \"\";"
        } >"$room/apt/conf.new"
        APT_CONFIG=$room/apt/conf.new apt-get -q update >"$work/log" 2>&1 || return 1
        mv "$room/apt/conf.new" "$room/apt/conf"
    fi
    mkdir -p "$room/apt/$1"
    (cd "$room/apt/$1" && APT_CONFIG=$room/apt/conf apt-get -q source --download-only "$1" && dpkg-source --no-check \
        --skip-patches -x ./*.dsc "$room/sources/$1") >"$work/log" 2>&1
}

# Each is built in its source's folder; $1 is the image.
source_of() {
    case $1 in
        lua) echo lua5.4 ;;
        scheme) echo tinyscheme ;;
        *) echo "$1" ;;
    esac
}

cc() {
    "$here/cc" -w "$@"
}

build_lua() {
    cd src
    cc -o "$1" $(ls ./*.c | grep -v '/luac\.c$')
}

build_zlib() {
    cc -DZ_HAVE_UNISTD_H -I. -o "$1" test/minigzip.c adler32.c compress.c crc32.c deflate.c gzclose.c gzlib.c gzread.c \
        gzwrite.c infback.c inffast.c inflate.c inftrees.c trees.c uncompr.c zutil.c
}

build_bzip2() {
    cc -o "$1" bzip2.c blocksort.c huffman.c crctable.c randtable.c compress.c decompress.c bzlib.c
}

build_cjson() {
    cc -o "$1" test.c cJSON.c
}

# Its hash asserts that there is a clock, so it is built without assertions.
build_expat() {
    cd expat
    cat >lib/expat_config.h <<'TEXT'
#define BYTEORDER 1234
#define XML_CONTEXT_BYTES 1024
#define XML_DTD 1
#define XML_NS 1
#define XML_POOR_ENTROPY 1
TEXT
    cc -DNDEBUG -Ilib -o "$1" examples/elements.c lib/xmlparse.c lib/xmlrole.c lib/xmltok.c
}

build_figlet() {
    cp fonts/standard.flf "$room/standard.flf"
    cc '-DDEFAULTFONTDIR="."' '-DDEFAULTFONTFILE="standard"' -o "$1" figlet.c zipio.c crc.c inflate.c utf8.c
}

build_mujs() {
    cc -o "$1" main.c one.c
}

build_picosat() {
    printf '#define PICOSAT_CC ""\n#define PICOSAT_CFLAGS ""\n#define PICOSAT_VERSION ""\n' >config.h
    cc -DNDEBUG -o "$1" main.c app.c picosat.c version.c
}

build_scheme() {
    cc -DSTANDALONE=1 -DUSE_DL=0 -DUSE_MATH=1 -DUSE_ASCII_NAMES=0 -DUSE_STRLWR=0 -o "$1" scheme.c
}

# Runs one job: NAME JOB [-i INPUT] WORD.. with the files of $work/files. What it writes is kept in $work/NAME.JOB.
job() {
    name=$1
    label=$2
    shift 2
    input=/dev/null
    if [ "${1:-}" = -i ]; then
        input=$2
        shift 2
    fi
    jobs=$((jobs + 1))
    rm -rf "$work/qemu" "$work/left"
    cp -r "$work/files" "$work/qemu"
    mkdir "$work/left"
    status=0
    options=
    for file in "$work/files"/*; do
        if [ -f "$file" ]; then
            options="$options --file $file"
        fi
    done
    "$here/run" --counts --left "$work/left" --input "$input" $options "$room/images/$name" "$@" >"$work/$name.$label" \
        2>"$work/told" || status=$?
    if [ "$status" -eq 77 ]; then
        skip "there is no program to run guests with"
        exit 77
    fi
    instructions=$(sed -n 's/^instructions \([0-9]*\),.*/\1/p' "$work/told")
    result="not compared"
    if [ "$status" -eq 125 ]; then
        result="not done: $(sed -n 's/^guest.run: //p' "$work/told")"
        wrong=$((wrong + 1))
    elif [ -n "$compared" ]; then
        wanted=0
        # In braces, so that the shell's own word on a program that a signal ends goes nowhere.
        { (cd "$work/qemu" && exec env -i "$(command -v qemu-riscv64)" -0 "$name" "$room/images/$name" "$@") \
            <"$input" >"$work/wanted" 2>&1 || wanted=$?; } 2>/dev/null
        if [ "$status" -eq "$wanted" ] && cmp -s "$work/$name.$label" "$work/wanted" &&
            diff -r "$work/qemu" "$work/left" >/dev/null; then
            result=same
        else
            result="differs (status $status, and $wanted under qemu)"
            wrong=$((wrong + 1))
        fi
    fi
    printf '%-10s %-12s %10s %8s  %s\n' "$name" "$label" "$instructions" "$(wc -c <"$work/$name.$label")" "$result"
}

jobs_lua() {
    cat >words.lua <<'TEXT'
local t = {}
for i = 1, 10 do t[#t + 1] = i * i end
print(table.concat(t, " "), string.format("%.3f %5d %q", math.pi, 42, "a\n"))
print(string.find("hello world", "o w"), #arg, arg[1])
print(pcall(function() error("refused") end))
local text = string.rep("one two ", 20):gsub("%w+", string.upper)
print(#text, text:sub(1, 15))
TEXT
    cat >files.lua <<'TEXT'
local f = assert(io.open("left", "w"))
for i = 1, 20 do f:write(i, " ", i / 4, "\n") end
f:close()
local sum = 0
for line in io.lines("left") do sum = sum + tonumber(line:match(" (.*)")) end
print(sum, io.open("nothing"))
for line in io.lines() do print(line:reverse()) end
os.remove("left")
TEXT
    cat >closures.lua <<'TEXT'
local function fib(n) if n < 2 then return n end return fib(n - 1) + fib(n - 2) end
print(fib(12))
local co = coroutine.wrap(function() for i = 1, 5 do coroutine.yield(i) end end)
print(co(), co(), co())
local o = setmetatable({}, {__index = function(_, k) return k .. "!" end})
print(o.name, o[1])
local s = {5, 3, 9, 1}
table.sort(s, function(a, b) return a > b end)
print(table.unpack(s))
print(os.time and pcall(os.time), collectgarbage("count") > 0)
TEXT
    printf 'one line\nand another\n' >"$work/lines"
    job lua words words.lua a b
    job lua files -i "$work/lines" files.lua
    job lua closures closures.lua
    job lua error nothing.lua
}

text() {
    for k in 1 2 3 4 5 6 7 8; do
        echo "line $k of a text that is packed: the same words again and again, and the number $((k * k * 7919))"
    done
}

jobs_zlib() {
    text >"$work/text"
    job zlib pack -i "$work/text"
    job zlib unpack -i "$work/zlib.pack" -d
    cp "$work/text" note
    job zlib file note
    rm note
    job zlib broken -i "$work/text" -d
}

jobs_bzip2() {
    text | head -n 3 >"$work/text"
    job bzip2 pack -i "$work/text" -1
    job bzip2 unpack -i "$work/bzip2.pack" -d
    job bzip2 broken -i "$work/text" -d
}

jobs_cjson() {
    job cjson test
}

jobs_expat() {
    cat >"$work/shelf" <<'TEXT'
<?xml version="1.0"?>
<shelf><book id="1"><title>One</title></book><book/><!-- none --></shelf>
TEXT
    printf '<a><b></a>\n' >"$work/torn"
    job expat elements -i "$work/shelf"
    job expat torn -i "$work/torn"
}

jobs_figlet() {
    cp "$room/standard.flf" standard.flf
    job figlet word -d . hi
    job figlet input -i "$work/short"
    rm standard.flf
    job figlet fontless word
}

jobs_mujs() {
    cat >functions.js <<'TEXT'
function f(n) { return n < 2 ? n : f(n - 1) + f(n - 2); }
print(f(9), Math.sqrt(2), JSON.stringify({a: [1, 2, "x"]}), "abc".replace(/b/, "-"));
TEXT
    cat >thrown.js <<'TEXT'
try { null.x } catch (e) { print(e) }
throw new Error("not caught");
TEXT
    job mujs functions functions.js
    job mujs thrown thrown.js
}

jobs_picosat() {
    printf 'p cnf 4 5\n1 2 0\n-1 3 0\n-3 -2 0\n-4 1 0\n4 2 0\n' >can.cnf
    printf 'p cnf 2 4\n1 2 0\n-1 2 0\n1 -2 0\n-1 -2 0\n' >cannot.cnf
    job picosat can can.cnf
    job picosat cannot cannot.cnf
}

# Its own init.scm takes 12 million instructions to read; these need nothing of it.
jobs_scheme() {
    echo '(define (cadr x) (car (cdr x)))' >init.scm
    cat >fib.scm <<'TEXT'
(define (fib n) (if (< n 2) n (+ (fib (- n 1)) (fib (- n 2)))))
(display (fib 7)) (newline)
(display (sqrt 2)) (newline)
TEXT
    printf '(display (cadr (quote (1 2 3)))) (newline)\n(undefined-word)\n' >wrong.scm
    job scheme fib fib.scm
    job scheme wrong wrong.scm
}

mkdir -p "$room/images"
echo hi >"$work/short"
printf '%-10s %-12s %10s %8s  %s\n' program job instructions bytes result
for name in "$@"; do
    case " $all " in
        *" $name "*) ;;
        *)
            echo "$name is none of $all"
            exit 2
            ;;
    esac
    source=$(source_of "$name")
    if ! fetch "$source"; then
        skip "$name: the source package $source isn't fetched: $(tail -n 1 "$work/log")"
        continue
    fi
    # An image is made again where the kit has changed.
    if [ ! -f "$room/images/$name" ] ||
        [ -n "$(find "$here/cc" "$here/image.ld" "$here/lib" "$here/include" -newer "$room/images/$name")" ]; then
        status=0
        (cd "$room/sources/$source" && "build_$name" "$room/images/$name") >"$work/log" 2>&1 || status=$?
        if [ "$status" -eq 77 ]; then
            cat "$work/log"
            exit 77
        elif [ "$status" -ne 0 ]; then
            echo "$name isn't compiled:"
            tail -n 5 "$work/log"
            wrong=$((wrong + 1))
            continue
        fi
    fi
    rm -rf "$work/files"
    mkdir "$work/files"
    cd "$work/files"
    "jobs_$name"
    cd "$work"
done

echo "$jobs jobs, $wrong wrong, $skipped skipped"
if [ "$wrong" -ne 0 ]; then
    exit 1
fi
if [ "$skipped" -ne 0 ]; then
    exit 77
fi
