"""The maintainer scripts. None of them touches a store or settings: /var/lib/kemtrua and /etc/kemtrua stay at upgrade, removal and purge."""

POSTINST = """\
#!/bin/sh
set -e
if [ "$1" = configure ]; then
    # Those as whom the units run: the hub, nodes, and the page in the browser.
    for user in kemtrua kemtrua-node kemtrua-web; do
        if ! getent passwd $user > /dev/null; then
            adduser --system --group --quiet --home /nonexistent --no-create-home --shell /usr/sbin/nologin $user
        fi
    done
    # The hub's folder, where none is there yet. One that is there may hold a store, and isn't touched.
    if [ ! -e /var/lib/kemtrua ]; then
        install -d -o kemtrua -g kemtrua -m 0750 /var/lib/kemtrua
    fi
    if command -v py3compile > /dev/null; then
        py3compile -p kemtrua /usr/lib/kemtrua || true
    fi
    # What runs goes on as it is: whoever upgrades says when the hub and each node are restarted (docs/TEAMS.md).
    if [ -d /run/systemd/system ]; then
        systemctl daemon-reload || true
    fi
fi
"""

PRERM = """\
#!/bin/sh
set -e
# A removal ends the hub, which closes its store, and the nodes, which finish what they run. An upgrade ends nothing.
if [ "$1" = remove ] && [ -d /run/systemd/system ]; then
    systemctl stop kemtrua-web.service 'kemtrua-node@*.service' kemtrua-hub.service || true
    systemctl disable kemtrua-web.service kemtrua-hub.service || true
fi
if command -v py3clean > /dev/null; then
    py3clean -p kemtrua || true
fi
find /usr/lib/kemtrua -type d -name __pycache__ -prune -exec rm -rf {} +
"""

POSTRM = """\
#!/bin/sh
set -e
if [ -d /run/systemd/system ]; then
    systemctl daemon-reload || true
fi
# Also at purge the store (/var/lib/kemtrua), the settings of nodes (/etc/kemtrua) and the users stay: they are the team's.
if [ "$1" = purge ] && [ -d /var/lib/kemtrua ]; then
    echo "kemtrua: /var/lib/kemtrua and /etc/kemtrua stay as they are; remove them by hand if nothing in them is wanted" >&2
fi
"""

FIRST_NODE = """\
# Settings of the node `first` (kemtrua-node@first), which this package puts here to try it. /usr/share/doc/kemtrua/clients/python/node.toml has all settings.

[node]
name = "first"
hub = "unix:/run/kemtrua/nodes.sock"

# A job of this class writes its data into the log: journalctl -u kemtrua-node@first
[class.say]
command = ["/bin/cat"]
"""
