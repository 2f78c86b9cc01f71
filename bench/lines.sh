#!/bin/sh
# Prints so many request lines of a kind to the sample API: points, each under a label of its own; probes with their
# four parameters; raw bodies in three frames; folders with two folders inside; or session, which has these four in
# turn.
# usage: bench/lines.sh KIND COUNT
awk -v kind="$1" -v count="$2" '
    function point(i) {
        printf "{\"method\":\"POST\",\"template\":\"/points\",\"request_id\":\"r%d\",", i
        printf "\"frames\":[\"{\\\"label\\\":\\\"p%d\\\",\\\"n\\\":%d,\\\"on\\\":true}\"]}\n", (i * 7919) % count, i
    }
    function probe(i) {
        printf "{\"method\":\"GET\",\"template\":\"/points/{label}\",\"request_id\":\"r%d\",", i
        printf "\"variables\":{\"label\":\"p%d\"},\"uri\":\"/points/p%d?n=%d&i=-%d\",", i, i, i, i
        printf "\"headers\":[[\"x-a\",\"%d\"]]}\n", i % 256
    }
    function body(i) {
        printf "{\"method\":\"PUT\",\"template\":\"/raw\",\"request_id\":\"r%d\",", i
        printf "\"frames\":[\"abc\",{\"hex\":\"6465%02x\"},\"%d\"]}\n", i % 256, i % 100
    }
    function folder(i) {
        printf "{\"method\":\"POST\",\"template\":\"/folders\",\"request_id\":\"r%d\",\"frames\":[\"", i
        printf "{\\\"name\\\":\\\"f%d\\\",\\\"children\\\":[", i
        printf "{\\\"name\\\":\\\"a\\\",\\\"children\\\":[]},{\\\"name\\\":\\\"b\\\",\\\"children\\\":[]}]}\"]}\n"
    }
    BEGIN {
        split("points probes bodies folders", kinds, " ")
        for (i = 1; i <= count; i++) {
            now = kind == "session" ? kinds[i % 4 + 1] : kind
            if (now == "points") point(i)
            if (now == "probes") probe(i)
            if (now == "bodies") body(i)
            if (now == "folders") folder(i)
        }
    }'
