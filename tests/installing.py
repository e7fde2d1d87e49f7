"""Runs the commands by which the guide for operators installs the program, a unit and a proxy, from its own text.

They change folders of the system, so they run where other folders lie over these, in a network of their own; nothing of it
stays. A script stands in for systemd: it starts the command of the unit as the unit's user and in its folder.
"""
import os
import re
import shutil
import subprocess

from outcomes import Skipped, need, outcome

TOP = os.path.dirname(os.path.dirname(os.path.realpath(__file__)))
SECONDS = 120
FENCED = re.compile(r"^```\n.*?^```$", re.DOTALL | re.MULTILINE)
COMMAND = re.compile(r"^    (\S.*)$", re.MULTILINE)
APART = "unshare", "--mount", "--net", "--pid", "--fork", "--mount-proc", "--kill-child"
TOOLS = "unshare", "ip", "nginx", "openssl", "curl", "useradd", "runuser"
PASSWORD = "a secret"

SYSTEMCTL = r"""#!/bin/bash
unit=/etc/systemd/system/alto.service
setting() { sed -n "s/^$1=//p" "$unit"; }
case "$*" in
daemon-reload) ;;
"enable --now alto")
    cd "$(setting WorkingDirectory)" && : >/run/alto.journal || exit
    runuser -u "$(setting User)" -- $(setting ExecStart) 2>/run/alto.journal &
    until [[ $(wc -l </run/alto.journal) == 2 ]]; do sleep 0.05; done
    ;;
"reload nginx") nginx ;;
*) exit 1 ;;
esac
"""
JOURNALCTL = "#!/bin/sh\ncat /run/alto.journal\n"

# Before the commands: the folders, the network, and a certificate.
BEFORE = r"""set -e
for place in etc var usr/local/bin; do
    mkdir -p "$PWD/over/$place" "$PWD/beside/$place"
    mount -t overlay overlay -o "lowerdir=/$place,upperdir=$PWD/over/$place,workdir=$PWD/beside/$place" "/$place"
done
mount -t tmpfs tmpfs /run
ip link set lo up
export PATH="$PWD/stand-ins:$PATH"
openssl req -x509 -nodes -newkey rsa:2048 -days 2 -subj /CN=alto.example -keyout /etc/nginx/alto.key \
    -out /etc/nginx/alto.crt 2>/dev/null
"""

# After them: an import by the operator's side of the proxy, and the map by its public side.
AFTER = f"""
curl -sk -u 'operator:{PASSWORD}' -H 'Content-Type: text/csv' --data-binary net-add,metro,,,, \\
    https://127.0.0.1:8443/edits/monday | sed 's/"moment":[0-9]*/"moment":M/'
echo
curl -sk https://127.0.0.1/maps/metro
"""
PRINTED = """initialised e1 window 8
public 127.0.0.1:8080
operator 127.0.0.1:8081
{"moment":M,"n":1}
{"meta":{"vtag":{"resource-id":"metro","tag":"e1-1"}},"network-map":{}}"""


def commands():
    """The indented commands of the guide, in their order."""
    with open(f"{TOP}/docs/OPERATING.md", encoding="utf-8") as file:
        return COMMAND.findall(FENCED.sub("", file.read()))


def built(program):
    """The file that was built, also where the program is called by its launcher."""
    if program != f"{TOP}/alto":
        return program
    path = 'top=$1; . "$top/tools/program.sh"; program_path'
    ran = subprocess.run(["sh", "-c", path, "sh", TOP], capture_output=True, text=True, check=True, timeout=SECONDS)
    return ran.stdout.strip()


def put_program(folder, name, text):
    os.makedirs(f"{folder}/stand-ins", exist_ok=True)
    with open(f"{folder}/stand-ins/{name}", "w", encoding="utf-8") as file:
        file.write(text)
    os.chmod(f"{folder}/stand-ins/{name}", 0o755)


def fault_of_installing(program, folder):
    """Says what is wrong with what is installed by the commands of the guide."""
    need(*TOOLS)
    if os.getuid() or subprocess.run([*APART, "true"], stderr=subprocess.DEVNULL, timeout=SECONDS).returncode:
        raise Skipped("no folders and network apart can be had")
    os.chmod(folder, 0o755)
    os.symlink(f"{TOP}/examples", f"{folder}/examples")
    os.makedirs(f"{folder}/out/alto")
    shutil.copy(built(program), f"{folder}/out/alto/0")
    put_program(folder, "systemctl", SYSTEMCTL)
    put_program(folder, "journalctl", JOURNALCTL)
    with open(f"{folder}/script", "w", encoding="utf-8") as file:
        file.write("\n".join((BEFORE, *commands(), AFTER)))
    pipes = {"stdout": subprocess.PIPE, "stderr": subprocess.PIPE, "text": True}
    ended = subprocess.run(
        [*APART, "bash", "script"], cwd=folder, input=f"{PASSWORD}\n" * 2, start_new_session=True, timeout=SECONDS, **pipes
    )
    return None if ended.stdout == PRINTED else f"status {ended.returncode}, printed {ended.stdout!r} and {ended.stderr!r}"


def checks(program):
    """Yields the check's name, and what comes of it."""
    yield "the commands that install", outcome(fault_of_installing, program)
