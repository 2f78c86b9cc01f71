#!/bin/sh
# Lets each allocation of a session of the built program fail in turn, then each read, and each write, all of which move
# at most 64 bytes. The session has one request of every operation, one for each other outcome that lines to the sample
# come to, but for `frame-budget`, and two by which the store is seen. Prints how often the program ended with which
# status. Ends with status 1 where an output is no beginning of the whole one, or a status is none that the failure
# calls for: 7, 4 or 5; or 0 with the whole output, where the answer does not want the memory that was refused. Wants a
# C compiler and the GNU C library.
here=$(cd "$(dirname "$0")/.." && pwd) || exit 1
program=$here/crates/contract_tool_cli/out/contract_tool_cli
work=$(mktemp -d) || exit 1
trap 'rm -rf "$work"' EXIT

cat >"$work/fail.c" <<'SOURCE'
#include <errno.h>
#include <stddef.h>
#include <stdio.h>
#include <stdlib.h>
#include <string.h>
#include <sys/syscall.h>
#include <unistd.h>
extern void *__libc_malloc(size_t size);
extern void *__libc_realloc(void *block, size_t size);
static long calls;
static int fails(const char *kind, int code) {
    const char *failing = getenv("FAILING"), *nth = getenv("NTH");
    if (!failing || strcmp(failing, kind) != 0 || ++calls != (nth ? atol(nth) : 0)) return 0;
    errno = code;
    return 1;
}
static size_t part(size_t size) { return size < 64 ? size : 64; }
void *malloc(size_t size) { return fails("allocation", ENOMEM) ? 0 : __libc_malloc(size); }
void *realloc(void *block, size_t size) { return fails("allocation", ENOMEM) ? 0 : __libc_realloc(block, size); }
ssize_t read(int file, void *to, size_t size) {
    return fails("read", EIO) ? -1 : syscall(SYS_read, file, to, part(size));
}
ssize_t write(int file, const void *from, size_t size) {
    return file == 1 && fails("write", EIO) ? -1 : syscall(SYS_write, file, from, part(size));
}
__attribute__((destructor)) static void tell(void) {
    char text[32];
    int length = snprintf(text, sizeof text, "%ld\n", calls);
    if (getenv("TOLD")) syscall(SYS_write, 2, text, length);
}
SOURCE
cc -shared -fPIC -O1 -o "$work/fail.so" "$work/fail.c" || exit 1

cat >"$work/input" <<'LINES'
{"method":"POST","template":"/points","frames":["{\"label\":\"a\",\"n\":7,\"on\":true}"],"request_id":"r1"}
{"method":"GET","template":"/points/{label}","uri":"/?n=%2B7&i=-1","variables":{"label":"a"},"headers":[["X-A","2"]],"request_id":"r2"}
{"method":"PUT","template":"/raw","frames":["abc",{"hex":"646566"},"gh"],"request_id":"r3"}
{"method":"POST","template":"/folders","frames":["{\"name\":\"a\",\"children\":[{\"name\":\"b\",\"children\":[]}]}"],"request_id":"r4"}
{"method":"GET","template":"/inner","request_id":"r5"}
{"method":"DELETE","template":"/points/{label}","variables":{"label":"p1"},"request_id":"r6"}
{"method":"POST","template":"/points","frames":["{\"label\":\"\",\"n\":7,\"on\":true}"],"request_id":"r7"}
{"method":"PUT","template":"/raw","frames":["abcdefghi"],"request_id":"r8"}
{"method":"GET","template":"/nowhere","request_id":"r9"}
{"method":"GET","template":"/inner","request_id":"a\nb"}
{"method":"GET","template":"/inner","variables":{"a":["b"]},"request_id":"r11"}
[]
{"method":"DELETE","template":"/points/{label}","variables":{"label":"a"},"request_id":"r13"}
{"method":"DELETE","template":"/points/{label}","variables":{"label":"p1"},"request_id":"r14"}
LINES

# A session in which the nth call of a kind fails.
session() {
    FAILING=$1 NTH=$2 LD_PRELOAD=$work/fail.so "$program" session 2.0.0 <"$work/input"
}

# Lets each call of a kind fail, and looks for this status.
sweep() {
    : >"$work/ends"
    calls=$(TOLD=1 session "$1" 0 2>&1 >/dev/null | tail -n 1)
    nth=1
    while [ "$nth" -le "$calls" ]; do
        session "$1" "$nth" >"$work/output" 2>/dev/null
        status=$?
        bytes=$(wc -c <"$work/output")
        whole=no
        cmp -s "$work/output" "$work/whole" && whole=yes
        called_for=no
        { [ "$status" -eq "$2" ] || [ "$status$whole" = 0yes ]; } && called_for=yes
        if [ "$called_for" = no ] || ! cmp -s -n "$bytes" "$work/output" "$work/whole"; then
            echo "$1 $nth: status $status, $bytes bytes"
            wrong=1
        fi
        echo "status $status, whole output: $whole" >>"$work/ends"
        nth=$((nth + 1))
    done
    echo "$1:"
    sort "$work/ends" | uniq -c
}

"$here/contract-tool" session 2.0.0 </dev/null >/dev/null || exit 1
"$program" session 2.0.0 <"$work/input" >"$work/whole" || exit 1
session none 0 | cmp - "$work/whole" || exit 1
sweep allocation 7
sweep read 4
sweep write 5
exit "${wrong:-0}"
