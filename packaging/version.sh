# The version of this tree, for every script that needs it: they read this file. $top is the top of the repository.
# shellcheck shell=sh disable=SC2154

# The newest version of CHANGELOG; where more came since, with the minute of the commit, or of SOURCE_DATE_EPOCH.
version() {
    number=$(sed -n 's/^## \([0-9][0-9.]*\) .*/\1/p' "$top/CHANGELOG.md" | head -n 1)
    if grep -q '^## Next$' "$top/CHANGELOG.md"; then
        seconds=${SOURCE_DATE_EPOCH:-$(git -C "$top" log -1 --format=%ct 2> /dev/null)}
        if [ -n "$seconds" ]; then
            number=$number+$(TZ=UTC date -d "@$seconds" +%Y%m%d.%H%M)
        else
            number=$number+next
        fi
    fi
    echo "$number"
}
