#!/usr/bin/python3
"""The quick start: CoVisor between two controllers, which know nothing of one another, and a network of Mininet's.

    sudo examples/quickstart.py [--cli] [--proved | --unproved]

It starts four hosts at two Open vSwitch bridges with a cable between them, an unmodified learning switch
(ovs-testcontroller), a firewall (controllers/firewall.py), and `./covisor serve` over quickstart.toml, which composes
the two. All hosts ping one another: while the proxy serves, once it was killed, and once it serves again. The entries
of the bridges and the audit are shown; --cli opens Mininet's prompt before all is stopped. The status is 0 where just
those reached one another who may, else 1. Nothing of it stays, and an Open vSwitch that runs already is left alone.
"""
import itertools
import os
import pathlib
import re
import shutil
import signal
import socket
import subprocess
import sys
import tempfile
import time
import tomllib

INSTALL = "apt-get install mininet openvswitch-switch openvswitch-testcontroller python3-os-ken ethtool iputils-ping"
try:
    from mininet.cli import CLI
    from mininet.log import setLogLevel
    from mininet.net import Mininet
except ImportError:
    sys.exit(f"quickstart: Mininet is missing: {INSTALL}")

EXAMPLES = pathlib.Path(__file__).resolve().parent
POLICY = EXAMPLES / "quickstart.toml"
TOOLS = ("mnexec", "ovsdb-tool", "ovsdb-server", "ovs-vswitchd", "ovs-vsctl", "ovs-ofctl", "ovs-testcontroller",
         "osken-manager", "ip", "ping")
# Each host with its address, bridge and port; the cable joins the ports 3. The policy has these bridges and ports too.
HOSTS = {"h1": ("10.0.0.1", "s1", 1), "h2": ("10.0.0.2", "s1", 2),
         "h3": ("10.0.0.3", "s2", 1), "h4": ("10.0.0.4", "s2", 2)}
BRIDGES, CABLE = ("s1", "s2"), 3
INTERFACES = {"ovs-netdev", *BRIDGES, *(f"{bridge}-eth{port}" for bridge in BRIDGES for port in (1, 2, CABLE))}
PAIRS = set(itertools.permutations(HOSTS, 2))
# Who may not reach whom: two hosts of one bridge, and two of different bridges.
DENIED = {("h1", "h2"), ("h2", "h1"), ("h1", "h4"), ("h4", "h1")}
PATIENCE = 120  # how many seconds a step may take


def fail(text):
    sys.exit(f"quickstart: {text}")


def run(*words):
    done = subprocess.run(words, capture_output=True, text=True)
    return done.stdout if done.returncode == 0 else fail(f"{' '.join(words)}: {done.stderr.strip()}")


class Parts:
    """The programs that run beside Mininet, and a folder for their files and for what they say."""

    def __init__(self, folder):
        self.folder, self.running = pathlib.Path(folder), {}

    def start(self, name, *words):
        """It is killed too where this script is."""
        with open(self.folder / f"{name}.out", "a") as out, open(self.folder / f"{name}.err", "a") as err:
            self.running[name] = subprocess.Popen(["setpriv", "--pdeathsig", "KILL", *words], stdin=subprocess.DEVNULL,
                                                  stdout=out, stderr=err, start_new_session=True)

    def end(self, name):
        status = self.running[name].wait()
        del self.running[name]
        return status

    def kill(self, name):
        if self.running[name].poll() is None:
            os.killpg(self.running[name].pid, signal.SIGKILL)
        self.end(name)

    def wait(self, holds, fault):
        """Waits until it holds, while all of them run."""
        begun = time.monotonic()
        while not holds():
            for name, process in self.running.items():
                if process.poll() is not None:
                    fail(f"{name} has ended: " + (self.folder / f"{name}.err").read_text().strip()[-500:])
            if time.monotonic() - begun > PATIENCE:
                fail(fault)
            time.sleep(0.1)


def check(addresses):
    """Nothing is started where something is missing or in the way."""
    if os.geteuid() != 0:
        fail("Mininet wants root: sudo examples/quickstart.py")
    missing = [tool for tool in TOOLS if not shutil.which(tool)]
    if missing:
        fail(f"{', '.join(missing)} missing: {INSTALL}")
    there = INTERFACES.intersection(os.listdir("/sys/class/net"))
    if there:
        fail(f"another Mininet or Open vSwitch has {', '.join(sorted(there))}, or left it (ip link del takes it away)")
    for address in addresses:
        host, port = address.split(":")
        try:
            socket.create_server((host, int(port))).close()
        except OSError as fault:
            fail(f"{address}, which the policy names: {os.strerror(fault.errno)}")


def start_open_vswitch(parts):
    folder = str(parts.folder)
    os.environ.update(OVS_RUNDIR=folder, OVS_LOGDIR=folder, OVS_DBDIR=folder, OVS_SYSCONFDIR=folder,
                      OVS_CTL_TIMEOUT=str(PATIENCE))
    run("ovsdb-tool", "create", f"{folder}/conf.db", "/usr/share/openvswitch/vswitch.ovsschema")
    parts.start("ovsdb-server", "ovsdb-server", f"{folder}/conf.db", f"--remote=punix:{folder}/db.sock")
    parts.wait((parts.folder / "db.sock").exists, "ovsdb-server does not start")
    run("ovs-vsctl", "--no-wait", "init")
    parts.start("ovs-vswitchd", "ovs-vswitchd", f"unix:{folder}/db.sock", "--disable-system", "--pidfile")
    print(f"started Open vSwitch, with all its files in {folder}")


def start_network(net, listen):
    """Its bridges keep their entries while nobody controls them, and have none beside those that they are sent."""
    for bridge in BRIDGES:
        net.addSwitch(bridge, datapath="user", failMode="secure", protocols="OpenFlow10")
    for name, (address, bridge, port) in HOSTS.items():
        host = net.addHost(name, ip=f"{address}/24")
        net.addLink(host, bridge, port2=port)
        host.cmd("echo 1 > /proc/sys/net/ipv6/conf/all/disable_ipv6")
        host.cmd(f"ethtool -K {name}-eth0 tx off")
    net.addLink(*BRIDGES, port1=CABLE, port2=CABLE)
    net.start()
    for bridge in BRIDGES:
        run("ovs-vsctl", "set-controller", bridge, f"tcp:{listen}", "--",
            "set", "controller", bridge, "connection_mode=out-of-band", "max_backoff=1000")
    print("started Mininet: hosts h1 and h2 at the bridge s1, h3 and h4 at s2, a cable from s1 to s2")


def stop(parts, net):
    """From wherever it was."""
    for number in (signal.SIGINT, signal.SIGTERM, signal.SIGHUP):
        signal.signal(number, signal.SIG_IGN)
    for name in list(parts.running):
        parts.kill(name)
    for node in net.hosts + net.switches:
        node.terminate()
    for name in INTERFACES.intersection(os.listdir("/sys/class/net")):
        subprocess.run(["ip", "link", "del", name], stderr=subprocess.DEVNULL)


def start_controllers(parts, learner, firewall):
    host, port = learner.split(":")
    parts.start("learner", "ovs-testcontroller", "-O", "OpenFlow10", f"ptcp:{port}:{host}")
    print(f"started ovs-testcontroller, an unmodified learning switch, at {learner}")
    host, port = firewall.split(":")
    os.environ["FIREWALL"] = " ".join(f"{HOSTS[source][0]}-{HOSTS[target][0]}" for source, target in DENIED)
    parts.start("firewall", "osken-manager", "--ofp-listen-host", host, "--ofp-tcp-listen-port", port,
                str(EXAMPLES / "controllers" / "firewall.py"))
    print(f"started examples/controllers/firewall.py at {firewall}: h1 may reach neither h2 nor h4")


def start_proxy(parts, words):
    """Until each bridge has all entries of the firewall, younger than the proxy."""
    begun = time.monotonic()
    parts.start("covisor", *words)
    print(f"started {' '.join(words)}")

    def stands(bridge):
        found = re.findall(r"duration=([0-9.]+)s.*nw_src=([0-9.]+),nw_dst=([0-9.]+) actions=drop",
                           run("ovs-ofctl", "dump-flows", bridge))
        young = {(source, target) for age, source, target in found if float(age) < time.monotonic() - begun}
        return young == {(HOSTS[source][0], HOSTS[target][0]) for source, target in DENIED}
    parts.wait(lambda: all(map(stands, BRIDGES)), "the entries of the firewall don't come to the bridges")
    print("both bridges have the entries of the firewall")


def ping(parts, net, patience):
    """Who reaches whom. Each host pings one other at a time, until it is answered or for three seconds. Where one that
    may reach another did not, all that were not answered try again, for so long."""
    names, reached, begun = list(HOSTS), set(), time.monotonic()
    while True:
        for turn in range(1, len(names)):
            pairs = {(source, names[(at + turn) % len(names)]) for at, source in enumerate(names)} - reached
            for source, target in pairs:
                parts.start(f"{source}-{target}", "mnexec", "-a", str(net[source].pid),
                            "ping", "-c", "1", "-w", "3", HOSTS[target][0])
            reached |= {pair for pair in pairs if parts.end("-".join(pair)) == 0}
        if reached | DENIED == PAIRS or time.monotonic() - begun > patience:
            return reached


def is_right(reached, wanted):
    """Shows who reaches whom, and whether that is what is wanted."""
    print(f"    {'':10}" + "".join(f"{target:>5}" for target in HOSTS))
    for source in HOSTS:
        cells = ("-" if source == target else "yes" if (source, target) in reached else "no" for target in HOSTS)
        print(f"    {source} reaches" + "".join(f"{cell:>5}" for cell in cells))
    for source, target in sorted(reached ^ wanted):
        print(f"    WRONG: {source} {'reaches' if (source, target) in reached else 'does not reach'} {target}")
    return reached == wanted


def try_out(net, parts, words):
    start_proxy(parts, words)
    right = is_right(ping(parts, net, PATIENCE), PAIRS - DENIED)
    parts.kill("covisor")
    print("killed it: the bridges keep their entries, and nobody learns anything new")
    meanwhile = ping(parts, net, 0)
    right &= is_right(meanwhile, meanwhile - DENIED)
    start_proxy(parts, words)
    right &= is_right(ping(parts, net, PATIENCE), PAIRS - DENIED)
    for bridge in BRIDGES:
        print(f"the entries of {bridge}:")
        for entry in run("ovs-ofctl", "--no-stats", "--rsort", "dump-flows", bridge).splitlines():
            print("   " + re.sub("cookie=[^,]*, ", "", entry))
    print("the audit:", *(parts.folder / "covisor.out").read_text().splitlines(), sep="\n    ")
    return right


def main():
    way = [word for word in sys.argv[1:] if word != "--cli"]
    if way not in ([], ["--proved"], ["--unproved"]):
        sys.exit(__doc__)
    policy = tomllib.loads(POLICY.read_text())
    at = {member["controller"]: member["address"] for member in policy["member"]}
    check([policy["listen"], *at.values()])
    covisor = [os.environ.get("COVISOR", str(EXAMPLES.parent / "covisor")), *way]
    if subprocess.run([*covisor, "replay"], stdin=subprocess.DEVNULL, stdout=subprocess.DEVNULL).returncode != 0:
        fail(f"{' '.join(covisor)} does not run")
    sys.stdout.reconfigure(line_buffering=True)
    setLogLevel("warning")
    for number in (signal.SIGTERM, signal.SIGHUP):
        signal.signal(number, lambda number, _: sys.exit(128 + number))
    with tempfile.TemporaryDirectory(prefix="covisor-") as folder:
        parts, net = Parts(folder), Mininet(controller=None, autoSetMacs=True)
        try:
            start_open_vswitch(parts)
            start_network(net, policy["listen"])
            start_controllers(parts, at["learner"], at["firewall"])
            right = try_out(net, parts, [*covisor, "serve", str(POLICY)])
            if "--cli" in sys.argv:
                setLogLevel("info")
                CLI(net)
        finally:
            stop(parts, net)
    print("all is stopped:", "who may not reach whom did not, all others did" if right else "something was WRONG")
    sys.exit(0 if right else 1)


try:
    main()
except KeyboardInterrupt:
    sys.exit(130)
