#!/bin/sh
# Moves a station of an earlier package to the units of this one, once: its user and folder, which were `station` and
# /srv/station, its settings, and the units that were enabled and that ran. The package's postinst runs it when an
# earlier version was installed. Where there is nothing to move it does nothing.
set -u
old=/srv/station
new=/srv/gomtasil
units=/etc/systemd/system

say() { echo "gomtasil: $1"; }

# new_name UNIT: the unit that has the work of this one
new_name() {
    case $1 in
    station.service) echo gomtasil-receive.service ;;
    station@*.service) echo "gomtasil-receive@${1#station@}" ;;
    contents.service) echo gomtasil-contents.service ;;
    page.timer) echo gomtasil-page.timer ;;
    watch.timer) echo gomtasil-watch.timer gomtasil-alarm.path ;;
    esac
}

# new_service NAME: the service that has the work of NAME.service
new_service() {
    case $1 in
    station) echo gomtasil-receive.service ;;
    *) echo "gomtasil-$1.service" ;;
    esac
}

runs() { [ -d /run/systemd/system ] && systemctl --quiet is-active "$1"; }

getent passwd station > /dev/null || exit 0
! getent passwd gomtasil > /dev/null || exit 0
[ -d "$old" ] && [ ! -e "$new" ] || exit 0

enabled='' active=''
several=$(cd "$units" && find . -name 'station@*.service' -type l)
for unit in station.service contents.service watch.timer page.timer $several; do
    unit=${unit##*/}
    runs "$unit" && active="$active $unit"
    links=$(find "$units" -mindepth 2 -maxdepth 2 -name "$unit" -type l)
    if [ -n "$links" ]; then
        enabled="$enabled $unit"
        echo "$links" | xargs -r rm -f
    fi
done
for unit in $active page.service watch.service; do
    ! runs "$unit" || systemctl stop "$unit"
done

usermod --login gomtasil --home "$new" station && groupmod --new-name gomtasil station || exit 1
# (a disk of its own can't be renamed)
mv "$old" "$new" 2> /dev/null || ln -s "$old" "$new" || exit 1
[ ! -f "$new/.state/state.json" ] || sed -i "s,\"$old/,\"$new/,g" "$new/.state/state.json"
for file in /etc/gomtasil/*.conf; do
    [ -f "$file" ] || continue
    sed -i "s,$old,$new,g" "$file"
    name=${file##*/}
    name=${name%.conf}
    if [ "$name" != station ]; then
        mkdir -p "/etc/gomtasil/$name" && mv "$file" "/etc/gomtasil/$name/station.conf" || exit 1
    fi
done
for unit in station contents watch page; do
    [ ! -d "$units/$unit.service.d" ] || mv "$units/$unit.service.d" "$units/$(new_service "$unit").d"
done

# shellcheck disable=SC2046 # (they are several words)
for unit in $enabled; do
    systemctl --quiet enable $(new_name "$unit") || exit 1
done
if [ -d /run/systemd/system ]; then
    systemctl daemon-reload
    # shellcheck disable=SC2046
    for unit in $active; do
        systemctl start $(new_name "$unit") || say "$(new_name "$unit") doesn't start: see journalctl"
    done
fi
say "the station is now in $new, its user is gomtasil, and its units are called gomtasil-receive.service and so on"
say "what reports a failed unit is now ALARM in the settings: see OPERATING.md"
