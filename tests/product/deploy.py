#!/usr/bin/env python3
"""Checks the form of the files in deploy/: deploy.py PROGRAM

By systemd-analyze the unit, with PROGRAM in place of the installed one; by PyYAML the files for Kubernetes and Compose. Dask's scheduler and a worker are
started as Compose does it, and take only clients with the certificate. Says what it leaves out because a Debian package is missing.
"""
from __future__ import annotations

import contextlib
import importlib.util
import itertools
import os
import pathlib
import re
import shutil
import subprocess
import sys
import tempfile
from typing import Any, Iterator

sys.path.insert(0, str(pathlib.Path(__file__).resolve().parents[1]))
from lib.checks import run_parts, want, want_equal
from lib.package import DEBIAN, PACKAGE, has
from lib.programs import free_port, is_heard, until
from lib.sources import ROOT

sys.path.append(str(PACKAGE))
from bpfagent.starting import THRESHOLD, THRESHOLD_NAME

DEPLOY = ROOT / "deploy"
PROBES = ("startupProbe", "livenessProbe", "readinessProbe")
# The greatest exposure by systemd's reckoning, where 10 is none of its walls.
EXPOSURE = 20
INSTALLED = "/usr/local/bin/bpfagent"
SETS = f"{THRESHOLD_NAME}={THRESHOLD}"
# An image by its digest, or by a tag that names one version.
PINNED = re.compile(r"\S+(@sha256:[0-9a-f]{64}|:(?=\S*(\d+\.\d+\.\d+|\d{8}))\S+)")
# Labels of pods, and who may reach which port of whom; nobody else reaches or is reached by a pod of the fleet.
SCHEDULER, WORKER = {"app": "bpfagent-scheduler"}, {"app": "bpfagent-worker"}
CLIENT, REDIS, OTHER = {"bpfagent-client": "true"}, {"bpfagent-redis": "true"}, {"app": "other"}
REACHED = [(CLIENT, SCHEDULER, 8786), (WORKER, SCHEDULER, 8786), (SCHEDULER, WORKER, 8789), (WORKER, WORKER, 8789), (WORKER, REDIS, 6379)]
PORTS = (22, 6379, 8786, 8787, 8788, 8789)
# How long a command may take that ends at once on a quiet machine, in seconds.
COMMAND = 600
# How long a client waits that is to be served, also on a busy machine, and one that isn't, in seconds.
SERVED, UNSERVED = 120, 15
# Connects to a scheduler, with the files of a certificate if they are named, and has a worker compute. Each may take so many seconds.
ASKS = """import sys
from distributed import Client
from distributed.security import Security
seconds, address, *files = sys.argv[1:]
security = Security(tls_ca_file=files[0], tls_client_cert=files[0], tls_client_key=files[1], require_encryption=True) if files else None
with Client(address, security=security, timeout=float(seconds)) as client:
    print(client.submit(pow, 7, 2).result(timeout=float(seconds)))
"""


def of_unit(program: str) -> None:
    """systemd takes the units, and finds them well walled in."""
    if not shutil.which("systemd-analyze"):
        print("deploy.py: the units weren't looked at, for that needs Debian's systemd")
        return
    text = (DEPLOY / "bpfagent@.service").read_text()
    want(text.count(f"ExecStart={INSTALLED} ") == 1, f"the unit doesn't start {INSTALLED}, which make install installs")
    want(f"\nEnvironment={SETS}\n" in text, f"the unit doesn't set {SETS}")
    want("RestrictAddressFamilies=AF_UNIX AF_INET AF_INET6\n" in text, "the unit refuses its socket, or a far server with an IPv6 address")
    exposures = []
    with tempfile.TemporaryDirectory() as folder:
        for name in ("bpfagent@", "bpfagent-front@"):
            unit = pathlib.Path(folder) / f"{name}7070.service"
            text = (DEPLOY / f"{name}.service").read_text().replace(f"{INSTALLED}-front", program).replace(INSTALLED, program)
            unit.write_text(text)
            # The front says when clients may come, and so its socket may start it.
            want("-front" not in name or "\nType=notify\n" in text and f"\nRequires={name}%i.socket\n" in text, f"{name} isn't started as it says")
            for socket in DEPLOY.glob(f"{name}.socket"):
                unit.with_suffix(".socket").write_text(socket.read_text())
            told = subprocess.run(["systemd-analyze", "verify", unit], capture_output=True, text=True, timeout=COMMAND)
            want_equal((told.returncode, told.stderr), (0, ""), f"systemd-analyze verify {name}")
            reckoned = ["systemd-analyze", "security", "--offline=true", f"--threshold={EXPOSURE}", unit]
            told = subprocess.run(reckoned, capture_output=True, text=True, timeout=COMMAND)
            want_equal(told.returncode, 0, f"systemd-analyze security {name}: {told.stdout[-200:]}")
            exposures.append(float(re.search(r"exposure level for \S+: ([0-9.]+)", told.stdout)[1]))
    want(exposures[1] <= exposures[0], f"the front's unit is exposed more than the service's: {exposures}")


def documents(name: str) -> list:
    """The documents of a YAML file."""
    import yaml

    return list(yaml.safe_load_all((DEPLOY / name).read_text()))


def want_options(command: list[str]) -> None:
    """Dask's commands have these options."""
    if not shutil.which(command[0]):
        return
    shown = subprocess.run([command[0], "--help"], capture_output=True, text=True, timeout=COMMAND, env={**os.environ, "COLUMNS": "200"}).stdout.split()
    known = {word for group in shown for word in group.replace(",", " ").split()}
    for word in command[1:]:
        want(not word.startswith("--") or word in known, f"{command[0]} has no option {word}")


def want_pinned(image: str) -> None:
    want(PINNED.fullmatch(image), f"the image {image} may be another one tomorrow")


def of_image(program: str) -> None:
    """It is made of a base of one day, and sets the threshold."""
    text = (DEPLOY / "Dockerfile").read_text()
    want_pinned(re.search(r"(?m)^FROM (\S+)$", text)[1])
    want(re.search(rf"(?m)^ENV .*\b{SETS}$", text), f"the image doesn't set {SETS}")


def want_container(container: dict[str, Any], pod: dict[str, Any]) -> None:
    """A container that is watched, bounded and walled in."""
    want(all(probe in container for probe in PROBES), f"{container['name']} lacks a probe")
    want(all({"cpu", "memory"} <= set(container["resources"][part]) for part in ("requests", "limits")), f"{container['name']} has no bounds")
    context = container["securityContext"]
    want(context["readOnlyRootFilesystem"] and not context["allowPrivilegeEscalation"] and context["capabilities"]["drop"] == ["ALL"], "walls")
    want({it["name"] for it in container["volumeMounts"]} == {it["name"] for it in pod["spec"]["volumes"]}, "volumes")
    want({"name": THRESHOLD_NAME, "value": THRESHOLD} in container["env"], f"{container['name']} doesn't set {SETS}")
    want_options(container["command"])
    want_pinned(container["image"])
    folders = [f"{it['mountPath']}/" for it in container["volumeMounts"] if it["name"] == "tls"]
    files = [word for option, word in zip(container["command"], container["command"][1:]) if option.startswith("--tls-")]
    want(len(files) == 3 and all(file.startswith(folders[0]) for file in files), f"{container['name']} has no certificate")


def of_kubernetes(program: str) -> None:
    """Deployments whose containers are watched, bounded and walled in, and select their own pods."""
    kinds = [it["kind"] for it in documents("kubernetes.yaml")]
    want_equal(kinds, ["Service", "Deployment", "Deployment", *["NetworkPolicy"] * 3], "the objects for Kubernetes")
    for made in documents("kubernetes.yaml"):
        want({"apiVersion", "kind", "metadata", "spec"} <= set(made), f"{made} lacks a field")
        if made["kind"] != "Deployment":
            continue
        pod = made["spec"]["template"]
        want(made["spec"]["selector"]["matchLabels"].items() <= pod["metadata"]["labels"].items(), "a deployment doesn't select its pods")
        want(pod["spec"]["securityContext"]["runAsNonRoot"] and not pod["spec"]["automountServiceAccountToken"], "a pod may do too much")
        for container in pod["spec"]["containers"]:
            want_container(container, pod)


def selects(selector: dict[str, Any], labels: dict[str, str]) -> bool:
    """Whether a selector of pods takes one with these labels."""
    is_taken = selector.get("matchLabels", {}).items() <= labels.items()
    return is_taken and all(it["operator"] == "In" and labels.get(it["key"]) in it["values"] for it in selector.get("matchExpressions", []))


def is_let(policies: list[dict[str, Any]], way: str, pod: dict[str, str], peer: dict[str, str], port: int) -> bool:
    """Whether a pod may exchange something with a peer of its namespace, in this way, `Ingress` or `Egress`. Without a policy everything is let."""
    binding = [it["spec"] for it in policies if way in it["spec"]["policyTypes"] and selects(it["spec"]["podSelector"], pod)]
    rules = [rule for spec in binding for rule in spec.get(way.lower(), [])]
    side = "from" if way == "Ingress" else "to"

    def fits(rule: dict[str, Any]) -> bool:
        return any("podSelector" in it and selects(it["podSelector"], peer) for it in rule[side]) and any(it["port"] == port for it in rule["ports"])

    return not binding or any(fits(rule) for rule in rules)


def of_policies(program: str) -> None:
    """Who may reach which port of a pod of the fleet, and whom such a pod may reach: what is listed, and nothing else."""
    policies = [it for it in documents("kubernetes.yaml") if it["kind"] == "NetworkPolicy"]
    for one, other in itertools.product((CLIENT, SCHEDULER, WORKER, REDIS, OTHER), repeat=2):
        if SCHEDULER in (one, other) or WORKER in (one, other):
            for port in PORTS:
                is_reached = is_let(policies, "Egress", one, other, port) and is_let(policies, "Ingress", other, one, port)
                want_equal(is_reached, (one, other, port) in REACHED, f"whether {one} reaches port {port} of {other}")
    for pod in (SCHEDULER, WORKER):
        rules = [rule for it in policies if selects(it["spec"]["podSelector"], pod) for rule in it["spec"].get("egress", [])]
        ports = {(it["protocol"], it["port"]) for rule in rules if any("namespaceSelector" in to for to in rule["to"]) for it in rule["ports"]}
        want_equal(ports, {("UDP", 53), ("TCP", 53)}, f"what {pod} reaches in other namespaces, to find names")


def of_compose(program: str) -> None:
    """Services that are watched, bounded, and published on this host alone."""
    compose = documents("compose.yaml")[0]
    services = compose["services"]
    want_equal(sorted(services), ["redis", "scheduler", "worker"], "the services of Compose")
    for name, service in services.items():
        want({"image", "command", "healthcheck", "restart"} <= set(service), f"{name} lacks a field")
        want({"cpus", "memory"} <= set(service["deploy"]["resources"]["limits"]), f"{name} has no limits")
        want(all(port.startswith("127.0.0.1:") for port in service.get("ports", [])), f"{name} listens for other hosts")
        want(set(service.get("depends_on", {})) <= set(services), f"{name} depends on what isn't there")
        want_pinned(service["image"])
        if service["command"][0].startswith("dask"):
            want_options(service["command"])
            want_equal(service["environment"].get(THRESHOLD_NAME), THRESHOLD, f"{THRESHOLD_NAME} of {name}")
            want_equal(sorted(service["secrets"]), sorted(compose["secrets"]), f"the secrets of {name}")
    words = services["redis"]["command"]
    bound = words[words.index("--maxmemory") + 1] if "--maxmemory" in words else "0mb"
    want(0 < int(bound.removesuffix("mb")) < 2000, f"Redis may have {bound} of a container of 2G")


def of_front(program: str) -> None:
    """Compose and Kubernetes start the front with options that it takes, watch it, bound it, and give it time to end."""
    from bpfagent.front.main import options, split

    service = documents("front.compose.yaml")[0]["services"]["front"]
    _, made, policy = documents("front.kubernetes.yaml")
    pod = made["spec"]["template"]["spec"]
    container = pod["containers"][0]
    for words, mount in ((service["command"], "/run/secrets/"), (container["command"], "/run/secrets/bpfagent/")):
        want_equal(words[:3], ["python3", "-m", "bpfagent.front.main"], "the front's command")
        given = options().parse_args(split(words[3:])[0])
        want_equal((str(given.setup), str(given.token_file), str(given.program)), (f"{mount}setup", f"{mount}token", "/usr/bin/bpfagent"), "the front's files")
        want_equal((given.listen, given.metrics[1]), (("0.0.0.0", 7070), 9100), "the front's ports")
    want_pinned(service["image"])
    want_pinned(container["image"])
    want({"healthcheck", "restart"} <= set(service) and service["read_only"] and service["cap_drop"] == ["ALL"], "walls of Compose")
    want(all(port.startswith("127.0.0.1:") for port in service["ports"]), "Compose listens for other hosts")
    want(all(probe in container for probe in PROBES) and made["spec"]["replicas"] == 1, "the front is watched, and is one")
    want_equal((service["stop_grace_period"], pod["terminationGracePeriodSeconds"]), ("40s", 40), "how long the end may take")
    for bounds in (service["deploy"]["resources"]["limits"], container["resources"]["limits"]):
        want("memory" in bounds, "the front has no bound")
    context = container["securityContext"]
    want(context["readOnlyRootFilesystem"] and not context["allowPrivilegeEscalation"] and context["capabilities"]["drop"] == ["ALL"], "walls")
    front, prometheus = {"app": "bpfagent-front"}, {"prometheus": "true"}
    for other, port in itertools.product((CLIENT, prometheus, OTHER), (7070, 9100)):
        is_reached = is_let([policy], "Ingress", front, other, port)
        want_equal(is_reached, (other, port) in ((CLIENT, 7070), (prometheus, 9100)), f"whether {other} reaches port {port} of the front")


def certificate(folder: pathlib.Path) -> None:
    """Makes the fleet's certificate, by the command of compose.yaml."""
    text = re.sub(r"\n#\s*", " ", (DEPLOY / "compose.yaml").read_text().replace("\\\n", "\n"))
    command = re.search(r"openssl req .*?-out out/tls/cert\.pem", text)[0]
    subprocess.run(command.replace("out/tls", str(folder)).split(), check=True, capture_output=True, timeout=COMMAND)


@contextlib.contextmanager
def fleet(folder: pathlib.Path) -> Iterator[str]:
    """The address of a scheduler with a worker, started as Compose does it."""
    ports = {":8787": f"127.0.0.1:{free_port()}", "8786": str(free_port())}
    names = {"/run/secrets/cert": str(folder / "cert.pem"), "/run/secrets/key": str(folder / "key.pem"), "/tmp": str(folder), **ports}
    services = documents("compose.yaml")[0]["services"]
    with contextlib.ExitStack() as started:
        for name in ("scheduler", "worker"):
            words = [names.get(word, word.replace("scheduler:8786", f"127.0.0.1:{ports['8786']}")) for word in services[name]["command"]]
            words += ["--host", "127.0.0.1"]
            environment = {**os.environ, **services[name]["environment"], "DASK_TEMPORARY_DIRECTORY": str(folder)}
            how = {"stdout": subprocess.DEVNULL, "stderr": subprocess.DEVNULL, "stdin": subprocess.DEVNULL, "cwd": folder}
            process = started.enter_context(subprocess.Popen(words, env=environment, **how))
            started.callback(process.kill)
            if name == "scheduler":
                until("the scheduler doesn't listen", lambda: is_heard("127.0.0.1", int(ports["8786"])))
                names[":8787"] = f"127.0.0.1:{free_port()}"
        yield f"127.0.0.1:{ports['8786']}"


def asked(*words: object) -> tuple[int, str]:
    """The status of a client of Dask, and what it wrote."""
    done = subprocess.run([DEBIAN, "-c", ASKS, *map(str, words)], capture_output=True, text=True, timeout=4 * SERVED)
    return done.returncode, done.stdout


def of_certificates(program: str) -> str | None:
    """A client with the fleet's certificate is served. One without, and one with a certificate of its own, aren't."""
    if not (has(DEBIAN, "distributed") and shutil.which("openssl") and shutil.which("dask-scheduler")):
        return "skipped the certificates, for that needs openssl and Debian's python3-distributed"
    with tempfile.TemporaryDirectory() as room:
        folder, other = pathlib.Path(room) / "fleet", pathlib.Path(room) / "other"
        for made in (folder, other):
            made.mkdir()
            certificate(made)
        with fleet(folder) as address:
            want_equal(asked(SERVED, f"tls://{address}", folder / "cert.pem", folder / "key.pem"), (0, "49\n"), "a client with the fleet's certificate")
            for words in ((f"tcp://{address}",), (f"tls://{address}", other / "cert.pem", other / "key.pem")):
                status, output = asked(UNSERVED, *words)
                want(status != 0 and not output, f"a client without the fleet's certificate ends with {status}, {output}")
    return None


if __name__ == "__main__":
    has_yaml = importlib.util.find_spec("yaml") is not None
    if not has_yaml and os.path.realpath(sys.executable) != os.path.realpath(DEBIAN) and os.access(DEBIAN, os.X_OK):
        os.execv(DEBIAN, [DEBIAN, *sys.argv])
    if not has_yaml:
        print("deploy.py: the YAML files weren't looked at, for that needs Debian's python3-yaml")
    run_parts("deploy.py", [of_unit, of_image, of_kubernetes, of_policies, of_compose, of_front, of_certificates] if has_yaml else [of_unit, of_image])
