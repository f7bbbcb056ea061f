#!/usr/bin/env bash
# Measures the upgrade wizard on a small project, on two with a module of the largest size, one of printed texts and one
# of sums, and on one of sixteen modules of code, as the script `vbup` runs it, beside a plain reading of the same files;
# the lexer on 16 MiB of code, beside universal-ctags where that is installed; and the emitter and the reader of its files
# on a project of 16 MiB of text. It prints seconds, megabytes (10^6 bytes of input, or of text that is emitted) a second
# and peak memory, with the targets beside them, and judges nothing: it ends with status 0 whatever the figures.
set -euo pipefail
export LC_ALL=C

root="$(dirname "$(dirname "$(readlink -f "${BASH_SOURCE[0]}")")")"
program="$root/vbup"
runs=3
module_limit=1048576

work="$(mktemp -d)"
trap 'rm -rf "$work"' EXIT

# Builds the program where need be, and says so where it is not proved. Of a project that isn't there nothing is written,
# and 100 is the status of a failed build.
build() {
    local status=0
    (cd "$work" && "$program" upgrade Absent.vbp) >/dev/null </dev/null || status=$?
    [ "$status" -ne 100 ]
}

# Builds the program that measures the lexer, the emitter and the reader where need be, and emits a short project.
parts="$root/crates/bench_parts/out/bench_parts"
build_parts() {
    (cd "$root/crates/bench_parts" && rt run -- emit 1 1 0) >"$work/built" 2>&1
    tail -n 1 "$work/built" | grep -q '^files '
}

# Writes at most so many bytes of code in the shape of a real module: functions with comments, long names, continued lines
# and texts.
write_code() {
    awk -v limit="$2" 'BEGIN {
        for (n = 1; ; n++) {
            text = sprintf("\047 Returns the amount that is due for the order %d, with the discount of its customer.\r\n", n)
            text = text "\047 The amount is rounded to whole cents, and is never below zero; see the remark at the head.\r\n"
            text = text sprintf("Public Function AmountDueForOrder%d(ByVal customerNumber As Long, ByVal orderNumber As Long) As Currency\r\n", n)
            text = text "    Dim amountBeforeDiscount As Currency, discountInPercent As Integer\r\n"
            text = text "    amountBeforeDiscount = OrderTable(customerNumber, orderNumber).Amount + _\r\n"
            text = text "        OrderTable(customerNumber, orderNumber).Postage _\r\n        - VoucherTable(orderNumber)\r\n"
            text = text "    If discountInPercent > 0 Then \047 a customer of the house\r\n"
            text = text sprintf("        amountBeforeDiscount = amountBeforeDiscount * %d / 100\r\n", 100 - n % 10)
            text = text sprintf("        Debug.Print \"discount of order \" & orderNumber & \": \"\"special\"\" &H%X\"\r\n", n % 65536)
            text = text sprintf("    End If\r\n    AmountDueForOrder%d = amountBeforeDiscount\r\nEnd Function\r\n", n)
            size += length(text)
            if (size > limit) break
            printf "%s", text
        }
    }' >"$1"
}

# Writes a project of a name with one module of at most the limit: one procedure that begins with some lines and has as
# many further lines of one format as fit, which takes the line's number.
write_project() {
    printf 'Type=Exe\r\nModule=Main1; Main1.bas\r\nStartup="Sub Main"\r\nName="%s"\r\n' "$2" >"$1/$2.vbp"
    awk -v limit="$module_limit" -v first="$3" -v format="$4" 'BEGIN {
        head = "Sub Main()\r\n" first
        foot = "End Sub\r\n"
        left = limit - length(head) - length(foot)
        printf "%s", head
        for (n = 1; ; n++) {
            line = sprintf(format, n)
            if (length(line) > left) break
            left -= length(line)
            printf "%s", line
        }
        printf "%s", foot
    }' >"$1/Main1.bas"
}

# Writes a project of sixteen modules in the shape of real code, 16 MB in all.
write_office() {
    printf 'Type=Exe\r\n' >"$1/Office.vbp"
    for ((k = 1; k <= 16; k++)); do
        printf 'Module=M%d; M%d.bas\r\n' "$k" "$k" >>"$1/Office.vbp"
        write_code "$1/M$k.bas" 1048000
    done
}

# Runs a command with no output, and sets seconds, peak (KiB) and status.
measure() {
    local start end
    status=0
    start="$EPOCHREALTIME"
    if [ -x /usr/bin/time ]; then
        /usr/bin/time -q -f %M -o "$work/peak" "$@" >/dev/null 2>&1 || status=$?
    else
        # The peak is then no less than that of the measuring Python.
        python3 -c 'import resource, subprocess, sys
status = subprocess.call(sys.argv[2:])
print(resource.getrusage(resource.RUSAGE_CHILDREN).ru_maxrss, file=open(sys.argv[1], "w"))
sys.exit(status)' "$work/peak" "$@" >/dev/null 2>&1 || status=$?
    fi
    end="$EPOCHREALTIME"
    peak="$(cat "$work/peak")"
    seconds="$(awk -v a="$start" -v b="$end" 'BEGIN { printf "%.4f", b - a }')"
}

# Prints the figures of one command: its label, the bytes that it read, and the targets.
print_figures() {
    awk -v label="$1" -v bytes="$2" -v target="$3" -v s="$seconds" -v peak="$peak" -v status="$status" 'BEGIN {
        printf "%-16s %9d %8.4f %9.2f %10d %9.2f %7d   %s\n", label, bytes, s, bytes / 1e6 / s, peak, peak * 1024 / bytes, status, target
    }'
}

# Measures the upgrade of a project in a folder, and a plain reading of its files, each several times.
measure_project() {
    local folder="$1" project="$2" target="$3" bytes
    cd "$folder"
    bytes="$(cat "$project" ./*.bas | wc -c)"
    for ((run = 1; run <= runs; run++)); do
        rm -rf upgraded
        measure "$program" upgrade "$project"
        print_figures "vbup ${project%.vbp}" "$bytes" "$target"
    done
    for ((run = 1; run <= runs; run++)); do
        measure cat "$project" ./*.bas
        print_figures "cat ${project%.vbp}" "$bytes" ""
    done
    cd "$root"
}

# Measures the lexer on a file, and universal-ctags on the same file where it is installed.
measure_lexer() {
    local file="$1" bytes
    bytes="$(wc -c <"$file")"
    for ((run = 1; run <= runs; run++)); do
        measure sh -c '"$1" lex <"$2"' sh "$parts" "$file"
        print_figures "lexer" "$bytes" "over 20 MB/s, and peak/read under 10"
    done
    if ctags --version 2>/dev/null | grep -q '^Universal Ctags'; then
        for ((run = 1; run <= runs; run++)); do
            measure ctags -f /dev/null --language-force=Basic "$file"
            print_figures "ctags" "$bytes" ""
        done
    fi
}

# Measures the emitter on a project of so many lines that is emitted once, and more often. The time of the last line is the
# difference of both, which leaves out that the project is read and let go of.
measure_emitter() {
    local lines="$1" times="$2" once all whole
    for ((run = 1; run <= runs; run++)); do
        once="$("$parts" emit "$lines" 1 0 | sed 's/.*bytes \([0-9]*\).*/\1/')"
        measure "$parts" emit "$lines" 1 0
        print_figures "emit 1 time" "$once" ""
        whole="$seconds"
        all=$((once * times))
        measure "$parts" emit "$lines" "$times" 0
        print_figures "emit $times times" "$all" ""
        seconds="$(awk -v a="$whole" -v b="$seconds" 'BEGIN { printf "%.4f", b - a }')"
        print_figures "emitter" "$((all - once))" "the difference"
    done
}

# Measures the reader on the files of a project of so many lines that are read once, and so often more. The time of the last
# line leaves out that they are made, read once and emitted.
measure_reader() {
    local lines="$1" times="$2" read whole
    for ((run = 1; run <= runs; run++)); do
        measure "$parts" emit "$lines" 1 0
        whole="$seconds"
        read="$("$parts" emit "$lines" 1 "$times" | sed 's/.*read //')"
        measure "$parts" emit "$lines" 1 "$times"
        print_figures "read $times times" "$read" ""
        seconds="$(awk -v a="$whole" -v b="$seconds" 'BEGIN { printf "%.4f", b - a }')"
        print_figures "reader" "$read" "the difference"
    done
}

build
build_parts
mkdir "$work/hello" "$work/large" "$work/sums" "$work/office"
cp "$root"/examples/hello/{Hello.vbp,Main1.bas} "$work/hello/"
write_project "$work/large" Large '' '    Debug.Print "line %06d of a generated module"\r\n'
write_project "$work/sums" Sums '    Dim a1 As Long\r\n    Dim a2 As Long\r\n' '    a1 = a2 + %d - a1 + 1 - A2\r\n'
write_office "$work/office"

printf '%-16s %9s %8s %9s %10s %9s %7s   %s\n' command bytes seconds MB/s 'peak KiB' peak/read status target
measure_project "$work/hello" Hello.vbp "under 0.05 s"
measure_project "$work/large" Large.vbp "under 1 s, and peak/read under 16"
measure_project "$work/sums" Sums.vbp "under 1 s"
measure_project "$work/office" Office.vbp "over 10 MB/s, and peak/read under 16"

write_code "$work/Code.bas" 16777216
measure_lexer "$work/Code.bas"

# A line has 43 bytes with its end.
measure_emitter 390000 21
measure_reader 390000 3
