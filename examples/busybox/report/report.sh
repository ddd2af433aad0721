#!/bin/sh
# Sums up the lists of a directory, writes what it found into another one, and puts a letter beside the lists: report.sh FROM TO
set -eu
from=$1
to=$2

title() {
    echo "== $1"
}
# Adds up the numbers of each name; the largest sum comes first.
sums() {
    grep -v '^#' | awk '{ sum[$1] += $2 } END { for (name in sum) print sum[name], name }' | sort -k1,1nr
}

title "What is there"
ls -F "$from"

title "Sums of all lists"
mkdir -p "$to/kept"
cat "$from/spring" "$from/summer" "$from/autumn" | sums | tee "$to/sums"

title "Lines of each list"
for list in "$from"/*; do
    if [ -L "$list" ]; then
        echo "${list##*/} is a link to $(readlink "$list")"
        continue
    fi
    lines=$(grep -c -v '^#' "$list")
    case $lines in
    1) echo "${list##*/} has one line" ;;
    *) echo "${list##*/} has $lines lines" ;;
    esac
done > "$to/lines"
sed 's/^/- /' "$to/lines"

title "Bytes of each file"
(cd "$from" && find . -type f) | sort | while read -r path; do
    echo "$(wc -c < "$from/$path") ${path#./}"
done

title "Links"
ln "$to/sums" "$to/kept/sums"
ln -s kept/sums "$to/shown"
echo "1 quince" >> "$to/shown"
tail -n 1 "$to/sums"
stat -c "%h names" "$to/sums"
mv "$to/sums" "$to/kept/totals"
find "$to" | sort

title "What isn't there"
cat "$from/winter" 2> "$to/errors" || echo "status $?"
tr a-z A-Z < "$to/errors"
echo "This goes to the errors." >&2

title "An archive"
tar -c -f "$to/lists.tar" -C "$from" spring latest
tar -t -f "$to/lists.tar"
mkdir "$to/again"
tar -x -f "$to/lists.tar" -C "$to/again"
cmp "$from/spring" "$to/again/spring" && echo "the same bytes"
(cd "$to/kept" && sha256sum sums totals | sed 's/^\(........\)[^ ]*/\1/')

title "A letter"
best=$(head -n 1 "$to/kept/sums")
cat > "$from/letter" << END
Most of all we had ${best#* }: $((${best%% *} / 12)) dozen.
END
cat "$from/letter"
rm -r "$to/again" "$to/lists.tar"
