#!/usr/bin/env bash
# Writes a document of about so many megabytes to standard output: bench/document.sh KIND [MEGABYTES], 100 if no number is given.
# The kinds: orders (a short element with an attribute inside another), text (long texts), single (one text), references (long texts
# with a reference in each 105 bytes), returns (long texts in lines of 104 bytes that end with CR LF), attributes (many in each tag),
# accented (texts that are not ASCII), elements (densest in elements: <b/>), records (densest in records: <b/>x), deep (elements 250
# deep).
# Hard ones, for the checks of names: prefixed (20 attributes with prefixes in each tag), scopes (1,000 declarations in the root
# element, and a prefixed name in each of its children), names (one tag of that many attributes), declarations (one tag of as many
# declarations as attributes with those prefixes).
set -eu
kind=$1
megabytes=${2:-100}

repeated() { # OPENING PIECE CLOSING
    local size count
    size=$(printf '%s' "$2" | wc -c)
    count=$((megabytes * 1000000 / size))
    printf '%s' "$1"
    { yes "$2" || true; } | tr -d '\n' | head -c "$((count * size))"
    printf '%s' "$3"
}

case $kind in
    orders)
        awk -v bytes="$((megabytes * 1000000))" 'BEGIN {
            printf "<orders>"
            for (written = 17; written < bytes; written += length(order)) {
                i = ++number
                order = "<order n=\"" i "\"><item qty=\"" i % 7 "\">" 7 * i % 100 "</item></order>"
                printf "%s", order
            }
            printf "</orders>"
        }'
        ;;
    text)
        words='The quick brown fox jumps over the lazy dog, and then it goes home and sleeps until the evening comes. '
        repeated '<book>' "<p>$words$words$words$words$words$words$words$words$words$words</p>" '</book>'
        ;;
    single)
        words='The quick brown fox jumps over the lazy dog, and then it goes home and sleeps until the evening comes. '
        repeated '<book>' "$words$words$words$words$words$words$words$words$words$words" '</book>'
        ;;
    references)
        words='The quick brown fox jumps over the lazy dog, and then it goes home &amp; sleeps until the evening comes. '
        repeated '<book>' "<p>$words$words$words$words$words$words$words$words$words$words</p>" '</book>'
        ;;
    returns) # a bar stands for the line feed, since `repeated` takes line feeds away
        line='The quick brown fox jumps over the lazy dog, and then it goes home and sleeps until the evening comes.'$'\r|'
        repeated '<book>' "<p>$line$line$line$line$line$line$line$line$line$line</p>" '</book>' | tr '|' '\n'
        ;;
    attributes)
        repeated '<rows>' '<row id="1024" name="a name" colour="dark green" width="120" height="80" state="open" owner="somebody"/>' '</rows>'
        ;;
    accented)
        words='Über allen Gipfeln ist Ruh, in allen Wipfeln spürest du kaum einen Hauch; 静かさや岩にしみ入る蝉の声. '
        repeated '<book>' "<p>$words$words$words$words</p>" '</book>'
        ;;
    deep)
        awk -v bytes="$((megabytes * 1000000))" 'BEGIN {
            for (i = 0; i < 250; i++) { opening = opening "<a>"; closing = closing "</a>" }
            printf "<r>"
            for (written = 7; written < bytes; written += 1750) printf "%s%s", opening, closing
            printf "</r>"
        }'
        ;;
    prefixed)
        attributes=$(awk 'BEGIN { for (i = 1; i <= 20; i++) printf " p:a%d=\"%d\"", i, i }')
        repeated '<rows xmlns:p="urn:p">' "<row$attributes/>" '</rows>'
        ;;
    scopes)
        declarations=$(awk 'BEGIN { for (i = 1; i <= 1000; i++) printf " xmlns:p%d=\"urn:%d\"", i, i }')
        repeated "<r$declarations>" '<p1000:c/>' '</r>'
        ;;
    names)
        awk -v bytes="$((megabytes * 1000000))" 'BEGIN {
            printf "<r"
            for (written = 5; written < bytes; written += 12) printf " a%07d=\"\"", ++number
            printf "/>"
        }'
        ;;
    declarations)
        awk -v bytes="$((megabytes * 1000000))" 'BEGIN {
            count = int(bytes / 38)
            printf "<r"
            for (i = 1; i <= count; i++) printf " xmlns:p%06d=\"%06d\"", i, i
            for (i = 1; i <= count; i++) printf " p%06d:a=\"\"", i
            printf "/>"
        }'
        ;;
    elements) repeated '<a>' '<b/>' '</a>' ;;
    records) repeated '<a>' '<b/>x' '</a>' ;;
    *)
        echo "no such kind: $kind" >&2
        exit 2
        ;;
esac
