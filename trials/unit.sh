#!/bin/sh
# docs/OPERATING.md followed to the letter in a Debian root, under a systemd of its own: the commands of the sections
# "Install the program" and "Day and night" are run as they stand there. Then the units wait for a demodulator that
# comes late, receive the test stream, report its quality, extract, draw and serve its files, and deliver alarms by mail
# and to a web server of the trial's own. A corrupt shelf, wrong settings, a killed quality side, frames, mended images,
# a clock that is wrong while a reception runs and rolls, a second receiver, and the removal. With a package also the
# upgrade from an earlier one. Where the demodulator is there, the unit also receives the samples of a radio, and the
# check reports the signal.
# Usage: trials/unit.sh ROOT [PACKAGE [EARLIER]]. ROOT is a folder with a Debian system, as
#   mmdebstrap --variant=apt --include=systemd,systemd-sysv,dbus,netcat-openbsd,passwd,python3-pil,python3-jinja2,\
#       msmtp,curl,faketime bookworm ROOT
# makes it; it is changed. Without a ROOT nothing is tried. With a PACKAGE, as packaging/debian.sh makes it, that is
# installed, and the page's lines are run as it says for the package; EARLIER is a package whose units were called
# station.service and so on. Needs root, systemd-nspawn, and rt where $LRITSTATION names no built program;
# $LRITDEMOD may name the built demodulator. It takes some eight minutes. One run at a time: two of them would meet in
# one control group.
. "$(dirname "$0")/lib.sh"
[ -n "${1-}" ] || nothing "no folder with a Debian system is named"
root=$(cd "$1" && pwd) || exit 1
needs systemd-nspawn
scratch_folder
find_program
clone=$root/root/gomtasil
rm -rf "$clone" "$root/root/said"
mkdir -p "$clone/crates/lr_program/out" "$clone/docs"
cp -R "$top/examples" "$top/tools" "$clone/" && cp "$LRITSTATION" "$clone/crates/lr_program/out/lr_program" || exit 1
sent=$root/root/sent.shelf
rm -f "$sent"
"$LRITSTATION" "$sent" trial 1 64 0 > "$root/root/trial.log" || exit 1
"$LRITSTATION" - make 1 64 0 --output frames > "$clone/frames" || exit 1
"$LRITSTATION" "$sent" transmit 0 63 16 --line nrz-m --g2 plain > "$clone/symbols" || exit 1

rm -rf "$root/usr/local/share/gomtasil" "$root/usr/local/bin/"* "$root/etc/systemd/system/"*gomtasil-* \
    "$root/etc/systemd/system/"*.wants/gomtasil-* "$root/etc/systemd/system/"*.wants/station*
if [ -n "${LRITDEMOD-}" ]; then
    install "$LRITDEMOD" "$root/usr/local/bin/lritdemod" || exit 1
    "$LRITSTATION" "$sent" transmit 0 6 0 --line nrz-m --g2 plain > "$root/root/few" || exit 1
    python3 "$top/trials/demod.py" samples "$root/root/few" u8 > "$clone/samples" || exit 1
    rm "$root/root/few"
else
    echo "LRITDEMOD names no built demodulator: no samples of a radio were tried"
fi

# commands HEADING: the commands of the page after this heading, or this beginning of one in bold, up to the next one
commands() {
    awk -v heading="$1" '
        $0 == heading || (heading ~ /^\*/ && index($0, heading) == 1) { on = 1; next }
        /^## |^\*\*/ { on = 0 }
        on && /^    / { print substr($0, 5) }' "$top/docs/OPERATING.md"
}

# (the program is built already)
commands "## Install the program" | grep -v '^\./lritstation' > "$clone/install"
commands "## Day and night" > "$clone/begin"
commands "**Several receivers" > "$clone/several"
commands "**Alarms" > "$clone/alarms"
commands "**Pass symbols" > "$clone/pass"
commands "**To remove it" > "$clone/remove"
if [ -n "${2-}" ]; then
    cp "$2" "$clone/gomtasil_VERSION_amd64.deb" || exit 1
    [ -z "${3-}" ] || cp "$3" "$clone/earlier.deb" || exit 1
    rm -rf "$clone/examples" "$clone/tools"
    # (the packages that it wants are there)
    commands "## Install the package" | grep -v 'systemctl\|update\|purge' > "$clone/install"
    sed -i 's,examples/,/usr/share/gomtasil/,; /\/etc\/systemd\/system/d' "$clone/begin" "$clone/several"
    rm -f "$clone/hand"
else
    : > "$clone/hand"
fi

cat > "$clone/listen.py" << 'LISTEN'
"""A mail server and a web server, each of which writes what it gets to a file."""
import http.server
import socketserver
import threading


class Mail(socketserver.StreamRequestHandler):
    def handle(self):
        self.wfile.write(b"220 trial\r\n")
        for line in self.rfile:
            word = line.split()[:1] or [b""]
            if word[0].upper() == b"DATA":
                self.wfile.write(b"354 go on\r\n")
                with open("/root/mail", "ab") as it:
                    for part in self.rfile:
                        if part == b".\r\n":
                            break
                        it.write(part.replace(b"\r\n", b"\n"))
            self.wfile.write(b"221 bye\r\n" if word[0].upper() == b"QUIT" else b"250 well\r\n")


class Web(http.server.BaseHTTPRequestHandler):
    def do_POST(self):
        with open("/root/web", "ab") as it:
            it.write(self.rfile.read(int(self.headers["Content-Length"])) + b"\n")
        self.send_response(200)
        self.end_headers()


socketserver.ThreadingTCPServer.allow_reuse_address = True
mail = socketserver.ThreadingTCPServer(("127.0.0.1", 2525), Mail)
threading.Thread(target=mail.serve_forever, daemon=True).start()
http.server.HTTPServer(("127.0.0.1", 8088), Web).serve_forever()
LISTEN

cat > "$clone/trial" << 'TRIAL'
#!/bin/sh
# Runs in the root, as the last service of its start.
cd /root/gomtasil || exit 1
cases=0
fail() {
    echo "failed: $1"
    systemctl status --no-pager 'gomtasil-*'
    journalctl --boot -n 100
    exit 1
}
is() {
    [ "$2" = "$3" ] || fail "$1 is '$2', not '$3'"
    cases=$((cases + 1))
}
# until_it WORDS: waits at most five minutes until these words are true
until_it() {
    for _ in $(seq 600); do
        "$@" > /dev/null 2>&1 && cases=$((cases + 1)) && return
        sleep 0.5
    done
    fail "$* never came"
}
shelf() { echo "$1/$(date -u +%Y-%m-%d)${2-}.shelf"; }
# (a program that looks at a shelf which isn't there would make it)
files() { [ -f "$1" ] && lritstation "$1" list | tail -n 1 | cut -d ' ' -f 2; }
has_files() { [ "$(files "$(shelf "$1" "${3-}")")" = "$2" ]; }
property() { systemctl show --property "$2" --value "$1"; }
said() { journalctl --boot --unit "$1" --output cat | grep -cF -e "$2"; }
# all_counted COUNT: whether the lines of this run of gomtasil-contents.service, one a minute and none for each file, add
# up to COUNT files
all_counted() {
    journalctl "_SYSTEMD_INVOCATION_ID=$(property gomtasil-contents.service InvocationID)" --output cat |
        grep -v '^gomtasil: ' > counted
    [ "$(grep -cv '^[0-9]* files$' counted)" = 0 ] &&
        [ "$(awk '{ sum += $1 } END { print sum + 0 }' counted)" = "$1" ]
}
until_said() { until_it sh -c 'journalctl --boot --unit "$1" --output cat | grep -qF -e "$2"' sh "$1" "$2"; }
is_failed() { [ "$(property gomtasil-receive.service ActiveState)" = failed ]; }
set_to() { sed -i "s|^$1=.*|$1=$2|" /etc/gomtasil/station.conf; }
# pid_of WORDS: the first process that runs with these words
pid_of() {
    for it in /proc/[0-9]*; do
        { tr '\0' ' ' < "$it/cmdline"; } 2> /dev/null | grep -q -e "$1" && echo "${it##*/}"
    done | head -n 1
}
# check_says WORDS: whether the last lines of a check now have these words
check_says() {
    systemctl start gomtasil-watch.service
    journalctl --boot --unit gomtasil-watch.service --output cat | tail -n 3 | grep -qF -e "$1"
}
watch() { systemctl start gomtasil-watch.service || fail "gomtasil-watch.service"; }

# each command of the page by itself, and none fails
run() {
    while read -r line; do
        sh -c "$line" > ran 2>&1 < /dev/null || fail "'$line' ended with $?: $(cat ran)"
        cases=$((cases + 1))
    done < "$1"
}

# given: the frames and the symbols for SOURCE. (The last frame is done once the next symbols have come.)
given() {
    cp frames symbols /srv/
    head -c 64 /dev/zero >> /srv/symbols
}

# an earlier station, as it was set up with its package, is moved
try_upgrade() {
    apt-get install -y ./earlier.deb > ran 2>&1 || fail "the earlier package: $(cat ran)"
    useradd --system --home-dir /srv/station --shell /usr/sbin/nologin station
    install -d -o station -g station /srv/station /etc/gomtasil
    cat > /etc/gomtasil/station.conf << 'SETTINGS'
SOURCE="cat /srv/symbols; exec sleep 1000"
RATE=927000
CAPACITY=1000000000
OPTIONS="--line nrz-m --g2 plain"
WATCH="--keep-free 1"
FOLDERS="/srv/station /srv/station/first"
SETTINGS
    given
    install -d -o station -g station /srv/station/first
    cp /etc/gomtasil/station.conf /etc/gomtasil/first.conf
    systemctl daemon-reload
    systemctl enable --now station.service contents.service watch.timer page.timer station@first.service 2> /dev/null
    until_it has_files /srv/station 63
    until_it has_files /srv/station/first 63
    until_it sh -c 'ls /srv/station/contents/*/*-000062-*'
    run install
    [ "$(files "$(shelf /srv/gomtasil)")" -ge 63 ] || fail "the shelf isn't in the new folder"
    is "whether the old folder is there" "$(test -e /srv/station && echo yes)" ""
    is "whose shelf it is" "$(stat -c %U "$(shelf /srv/gomtasil)")" gomtasil
    for unit in receive.service contents.service watch.timer alarm.path page.timer receive@first.service; do
        unit=gomtasil-$unit
        is "whether $unit runs" "$(systemctl is-active $unit) $(systemctl is-enabled $unit)" "active enabled"
    done
    for file in /etc/gomtasil/station.conf /etc/gomtasil/first/station.conf; do
        is "the new folder in $file" "$(grep -c /srv/gomtasil/first $file)" 1
    done
    until_it has_files /srv/gomtasil 126
    until_it sh -c 'ls /srv/gomtasil/contents/*/*-000125-*'
    is "files that came twice" "$(find /srv/gomtasil/contents -name '*~*' | wc -l)" 0
    is "old units that are left" "$(find /etc/systemd/system -name 'station*' | wc -l)" 0
    # once more: nothing is moved
    /usr/share/gomtasil/upgrade.sh > ran || fail "upgrade.sh"
    is "what a second upgrade says" "$(cat ran)" ""
    systemctl disable gomtasil-receive@first.service 2> ran || fail "disable: $(cat ran)"
    run remove
    rm -rf /srv/gomtasil /etc/gomtasil
    userdel gomtasil
    systemctl daemon-reload
}
[ ! -f earlier.deb ] || try_upgrade

run install
run begin
python3 listen.py > /dev/null 2>&1 &

# (the demodulator is late by more than five starts)
restarted() { [ "$(property gomtasil-receive.service NRestarts)" -ge "$1" ]; }
until_it restarted 6
is "whether it has failed" "$(is_failed && echo yes)" ""
until_said gomtasil-watch.service '/srv/gomtasil: '
nc -lN 5001 < symbols || fail "nc"
until_it has_files /srv/gomtasil 63
until_it grep -q ' 93 0 5952$' /srv/gomtasil/minutes
is "lines of files in the journal" "$(said gomtasil-receive.service 'shelved ')" 0
until_said gomtasil-receive.service 'minute 0 frames 93 lost 0'
is "whose shelf it is" "$(stat -c %U "$(shelf /srv/gomtasil)")" gomtasil

# alarms: by mail, and to a web server; once when it begins, and once when it is over
printf 'account default\nhost 127.0.0.1\nport 2525\nfrom station@example.org\n' > /etc/msmtprc
grep '^ALARM=.*msmtp' alarms >> /etc/gomtasil/station.conf
systemctl start gomtasil-failed@test.service || fail "gomtasil-failed@test.service"
until_it grep -q 'Subject: test has failed' /root/mail
watch
systemctl stop gomtasil-receive.service
touch -d '2 hours ago' "$(shelf /srv/gomtasil)"
watch
until_it grep -q '^Subject: /srv/gomtasil: ALERT: .*no file for 120 minutes' /root/mail
sleep 3
before=$(wc -l < /root/mail)
watch
sleep 3
is "how often it is told" "$(wc -l < /root/mail)" "$before"
grep '^ALARM=.*curl' alarms | sed 's,https://[^ ]*,http://127.0.0.1:8088/x,' >> /etc/gomtasil/station.conf
sed -i '/^ALARM=.*msmtp/d' /etc/gomtasil/station.conf
given
set_to SOURCE '"cat /srv/symbols"'
systemctl start gomtasil-receive.service
until_it sh -c 'systemctl start gomtasil-watch.service; grep -q "/srv/gomtasil: recovered: " /root/web'
is "how often it is told that it is over" "$(grep -c recovered /root/web)" 1
systemctl start gomtasil-failed@test.service
until_it grep -q 'test has failed' /root/web
sed -i 's/^ALARM=.*/ALARM="exit 7"/' /etc/gomtasil/station.conf
systemctl start gomtasil-failed@later.service
until_it sh -c 'journalctl --boot --unit gomtasil-alarm.service --output cat | grep -q "exited with 7"'
is "what waits" "$(cat /run/gomtasil/alarms/*)" "later has failed: see journalctl -u later"
sed -i 's/^ALARM=.*/ALARM="cat >> \/srv\/gomtasil\/alarms"/' /etc/gomtasil/station.conf
systemctl restart gomtasil-alarm.service
until_it sh -c '[ -z "$(ls /run/gomtasil/alarms)" ]'

# the contents, the page, the pictures and the web
until_it sh -c 'ls /srv/gomtasil/contents/*/*-000125-*'
set_to SOURCE '"cat /srv/symbols; exec sleep 1000"'
systemctl stop gomtasil-receive.service
shelved=$(files "$(shelf /srv/gomtasil)")
until_it all_counted "$shelved"
is "files that were extracted" "$(find /srv/gomtasil/contents/2* -type f | wc -l)" "$shelved"
systemctl start gomtasil-receive.service
for unit in page pictures watch; do
    is "whether the timer of $unit waits" "$(systemctl is-active gomtasil-$unit.timer)" active
done
systemctl start gomtasil-page.service || fail "gomtasil-page.service"
is "the page" "$(grep -c 'class="state' /srv/gomtasil/page/index.html)" 1
is "whose page it is" "$(stat -c %U /srv/gomtasil/page/index.html)" gomtasil
systemctl start gomtasil-pictures.service || fail "gomtasil-pictures.service"
is "pictures in folders of days" "$(find /srv/gomtasil/pictures/2* -name '*.png' | wc -l | sed 's/^[1-9].*/some/')" some
until_it sh -c 'curl --silent --fail http://127.0.0.1:8000/ | cmp - /srv/gomtasil/page/index.html'
until_said gomtasil-web.service 'http://127.0.0.1:8000/'
systemctl stop gomtasil-contents.service
is "the status of gomtasil-contents.service after a stop" "$(property gomtasil-contents.service ExecMainStatus)" 0
systemctl start gomtasil-contents.service

# a unit that has failed is told, without a call
chmod 000 /srv/gomtasil/page/.page
systemctl start gomtasil-page.service && fail "gomtasil-page.service can't write, and says nothing"
until_it grep -q 'ALERT: .*gomtasil-page.service has failed' /srv/gomtasil/alarms
chmod 755 /srv/gomtasil/page/.page
systemctl start gomtasil-page.service || fail "gomtasil-page.service"

# the quality side is killed, and comes again
systemctl stop gomtasil-receive.service
is "whether a stop is a failure" "$(is_failed && echo yes)" ""
set_to SOURCE '"while :; do cat /srv/frames; sleep 0.1; done"'
set_to OPTIONS '"--input frames"'
rm -f /srv/gomtasil/*.shelf /srv/gomtasil/quality
systemctl start gomtasil-receive.service
until_it grep -q 'minute 0 frames .* lost' /srv/gomtasil/quality
for name in 'lritstation.* - frames' 'gomtasil quality'; do
    kill -KILL "$(pid_of "$name")" || fail "there is no $name"
    rm -f /srv/gomtasil/quality
    until_it grep -q 'minute 0 frames .* lost' /srv/gomtasil/quality
    sleep 1
done
is "whether the reception went on" "$(property gomtasil-receive.service NRestarts)" 0

# frames, as goesrecv's packets
systemctl stop gomtasil-receive.service
set_to SOURCE '"cat /srv/frames; exec sleep 1000"'
rm /srv/gomtasil/*.shelf
systemctl start gomtasil-receive.service
until_it has_files /srv/gomtasil 63

# symbols are passed on, by the line of the page: to another program, and to none
for other in there gone; do
    systemctl stop gomtasil-receive.service
    set_to OPTIONS '"--line nrz-m --g2 plain"'
    sed -i '/^SOURCE=/d' /etc/gomtasil/station.conf
    sed 's/SECOND/127.0.0.1/' pass >> /etc/gomtasil/station.conf
    rm -f /srv/gomtasil/*.shelf passed
    [ $other = gone ] || nc -l 5104 > passed &
    nc -lN 5001 < symbols &
    sleep 1
    systemctl start gomtasil-receive.service
    until_it has_files /srv/gomtasil 63
    [ $other = gone ] || until_it cmp symbols passed
done

# images may be mended: the reception has the option, and the quality is told beside it
systemctl stop gomtasil-receive.service
set_to SOURCE '"cat /srv/symbols; exec sleep 1000"'
set_to OPTIONS '"--line nrz-m --g2 plain --mend 64"'
rm -f /srv/gomtasil/*.shelf /srv/gomtasil/quality
systemctl start gomtasil-receive.service
until_it has_files /srv/gomtasil 63

# a corrupt shelf: the next one is taken, it is told, and what it has is had
systemctl stop gomtasil-receive.service
printf '\377\377\377\377' | dd of="$(shelf /srv/gomtasil)" bs=1 seek=28 conv=notrunc status=none
systemctl start gomtasil-receive.service
until_it has_files /srv/gomtasil 63 -2
until_said gomtasil-receive.service 'exited with 6: it is corrupt'
watch
until_it grep -q "ALERT: $(date -u +%Y-%m-%d).shelf is corrupt at byte 19" /srv/gomtasil/alarms
runuser -u gomtasil -- gomtasil salvage "$(shelf /srv/gomtasil)" /srv/gomtasil/new > ran 2>&1 ||
    fail "salvage: $(cat ran)"
is "what is saved" "$(lritstation /srv/gomtasil/new verify | grep -c ok)" 62
mv /srv/gomtasil/new "$(shelf /srv/gomtasil)"
# (symbols come without an end, so that nothing else is wrong)
set_to SOURCE '"while :; do cat /srv/symbols; sleep 1; done"'
systemctl restart gomtasil-receive.service
until_it sh -c 'systemctl start gomtasil-watch.service; tail -n 1 /srv/gomtasil/alarms | grep -q recovered'

# a clock that is wrong while the reception runs and rolls, and contents and the check remove old days
clock() {
    echo "$1" > /etc/faketime.new && mv /etc/faketime.new /etc/faketime
    sleep 2
}
systemctl stop gomtasil-receive.service gomtasil-contents.service
library=$(ls /usr/lib/*/faketime/libfaketime.so.1)
for unit in receive contents watch page pictures; do
    mkdir -p "/etc/systemd/system/gomtasil-$unit.service.d"
    cat > "/etc/systemd/system/gomtasil-$unit.service.d/clock.conf" << CLOCK
[Service]
Environment=LD_PRELOAD=$library FAKETIME_TIMESTAMP_FILE=/etc/faketime FAKETIME_NO_CACHE=1 NO_FAKE_STAT=1
CLOCK
done
systemctl daemon-reload
for back in 1 2 3 4 5; do
    cp -p "$(shelf /srv/gomtasil -2)" "/srv/gomtasil/$(date -u -d "-$back days" +%Y-%m-%d).shelf"
    touch -d "-$back days" "/srv/gomtasil/$(date -u -d "-$back days" +%Y-%m-%d).shelf"
done
printf 'WATCH="--remove 6 --keep-free 1"\nCONTENTS="--keep-days 6"\n' >> /etc/gomtasil/station.conf
# (a day has some 900,000 symbols at this rate, which are one round of the source)
set_to RATE 10
# missing LIST: how many of the paths in this file aren't there
missing() {
    while read -r it; do
        [ -e "$it" ] || echo "$it"
    done < "$1" | wc -l
}
clock +0
systemctl start gomtasil-receive.service gomtasil-contents.service
until_it sh -c 'ls /srv/gomtasil/contents/*/*-000062-*'
until_it sh -c '[ "$(ls -d /srv/gomtasil/contents/2* | wc -l)" = 6 ]'
ls /srv/gomtasil/*.shelf > shelves
ls -d /srv/gomtasil/contents/2* > days
wrong=0
for step in +3650d -7300d -7d; do
    wrong=$((wrong + 1))
    clock $step
    name=$(LD_PRELOAD=$library FAKETIME_TIMESTAMP_FILE=/etc/faketime date -u +%Y-%m-%d)
    until_it ls "/srv/gomtasil/$name.shelf"
    watch
    systemctl start gomtasil-page.service gomtasil-pictures.service || fail "page or pictures at $step"
    # (contents looks for new files each second, and at once after a start)
    sleep 5
    systemctl restart gomtasil-contents.service
    sleep 5
    for kind in shelves days; do
        gone=$(missing $kind)
        [ "$gone" -le $wrong ] || fail "$gone $kind are gone at $step, after $wrong wrong days"
        cases=$((cases + 1))
    done
    for file in "$(shelf /srv/gomtasil)" "$(shelf /srv/gomtasil -2)"; do
        [ -f "$file" ] || fail "$file is gone at $step"
    done
done
clock +0
until_it check_says "$(LD_PRELOAD=$library FAKETIME=+3650d date -u +%Y-%m-%d).shelf is ahead of the clock"
is "the state of the reception" "$(systemctl is-active gomtasil-receive.service)" active
is "the state of the contents" "$(systemctl is-active gomtasil-contents.service)" active
rm -f /etc/systemd/system/gomtasil-*.service.d/clock.conf
systemctl daemon-reload
systemctl stop gomtasil-receive.service
rm -f /srv/gomtasil/20*.shelf
set_to RATE 927000

# samples of a radio, by the demodulator
if [ -f samples ]; then
    demodulator="lritdemod --rate 2500000 --symbols 1000000 --format u8 --quiet --status /srv/gomtasil/demodulator"
    sed -i -e "s,^SOURCE=.*,SOURCE=\"$demodulator < /srv/samples; exec sleep 1000\"," \
        -e 's/^OPTIONS=.*/OPTIONS="--line nrz-m --g2 plain"/' /etc/gomtasil/station.conf
    cp samples /srv/samples
    rm -f /srv/gomtasil/*.shelf /srv/gomtasil/quality
    systemctl start gomtasil-receive.service
    until_it has_files /srv/gomtasil 6
    until_it grep -q '"locked": true' /srv/gomtasil/demodulator
    is "lines on the signal" "$(gomtasil state /srv/gomtasil | grep -c 'Es/N0 [45]\.[0-9] dB, carrier ')" 1
fi

# a source that can't be run stays down, and is told
systemctl stop gomtasil-receive.service
set_to SOURCE '"nosuch -x"'
systemctl reset-failed
systemctl start gomtasil-receive.service
until_it is_failed
is "its status" "$(property gomtasil-receive.service ExecMainStatus)" 2
until_said gomtasil-receive.service 'SOURCE exited with 127: nosuch -x'
until_it grep -q 'ALERT: .*gomtasil-receive.service has failed' /srv/gomtasil/alarms

# wrong settings: the unit stays down
systemctl stop gomtasil-receive.service
set_to SOURCE '"nc -w 60 127.0.0.1 5001"'
set_to OPTIONS '"--line x"'
systemctl reset-failed
systemctl start gomtasil-receive.service
until_it is_failed
sleep 12
is "whether it has failed then" "$(is_failed && echo yes)" yes
is "its status then" "$(property gomtasil-receive.service ExecMainStatus)" 2

# a second receiver
if [ -f hand ]; then
    for unit in receive contents page pictures web; do
        install -m 644 examples/gomtasil-$unit.service /etc/systemd/system/gomtasil-$unit@.service
    done
    install -m 644 examples/gomtasil-page.timer /etc/systemd/system/gomtasil-page@.timer
    systemctl daemon-reload
fi
run several
until_it test -e "$(shelf /srv/gomtasil/first)"
nc -lN 5001 < symbols || fail "nc"
until_it has_files /srv/gomtasil/first 63
systemctl start gomtasil-page@first.service gomtasil-contents@first.service || fail "the units of the second one"
until_it sh -c 'ls /srv/gomtasil/first/contents/*/*-000062-*'
is "its page" "$(grep -c '<h1>first' /srv/gomtasil/first/page/index.html)" 1
is "whose it is" "$(stat -c %U /srv/gomtasil/first/page/index.html)" gomtasil

# the removal, as the page has it
systemctl disable gomtasil-receive@first.service gomtasil-page@first.timer 2> ran || fail "disable: $(cat ran)"
[ ! -f hand ] || sed -i '/apt-get/d' remove
run remove
is "processes of the station that are left" "$(find /proc -maxdepth 1 -user gomtasil | wc -l)" 0
is "links to units that are left" "$(find /etc/systemd/system -name 'gomtasil-*' -type l | wc -l)" 0
[ -f hand ] ||
    is "units that are left" "$(find /usr/lib/systemd /usr/share/gomtasil -name 'gomtasil-*' 2> /dev/null)" ""
echo "trials/unit.sh: $cases cases"
TRIAL
cat > "$root/etc/systemd/system/trial.service" << 'UNIT'
[Unit]
After=multi-user.target
[Service]
Type=oneshot
ExecStart=/bin/sh -c 'sh /root/gomtasil/trial > /root/said 2>&1; systemctl poweroff'
UNIT
mkdir -p "$root/etc/systemd/system/default.target.wants"
ln -sf ../trial.service "$root/etc/systemd/system/default.target.wants/trial.service"
rm -rf "$root/srv/station" "$root/srv/gomtasil" "$root/etc/gomtasil" "$root/root/mail" "$root/root/web"
chroot "$root" sh -c 'userdel gomtasil; userdel station; dpkg --purge gomtasil' > /dev/null 2>&1

# (nspawn wants its own folder on a disk in memory; the ports are those of the root alone)
# shellcheck disable=SC2016 # ($1 is that of the inner shell)
unshare --mount sh -c 'mkdir -p /run/systemd/nspawn && mount -t tmpfs tmpfs /run/systemd/nspawn &&
    exec timeout 3600 systemd-nspawn --quiet --directory="$1" --boot --register=no --keep-unit --private-network \
    --machine=gomtasil' sh "$root" > "$root/root/boot.log" 2>&1 < /dev/null
if ! [ -f "$root/root/said" ]; then
    tail -n 20 "$root/root/boot.log"
    exit 1
fi
rm -rf "$clone" "$sent"
cat "$root/root/said"
tail -n 1 "$root/root/said" | grep -q '^trials/unit.sh: [0-9]* cases$'
