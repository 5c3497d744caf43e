#!/usr/bin/env python3
"""Reads examples/Containerfile and examples/kubernetes.yml, and tells of each thing that they have to agree in whether it holds: try_examples.py

No container engine and no cluster runs them here: the files are parsed, names are followed from one object to the next, the configuration is given to
the program, and the commands are run in a folder. It needs PyYAML, and the program (ALLOCD_PROGRAM, or dist/allocd)."""

import json
import os
import re
import subprocess
import sys

import told_rows
from allocd_service import PROGRAM, ROOT, Service, comes, free_port

try:
    import yaml
except ImportError:
    print("try_examples: PyYAML is not here: apt-get install python3-yaml", file=sys.stderr)
    sys.exit(2)

WORDS = {"FROM", "COPY", "RUN", "USER", "VOLUME", "EXPOSE", "HEALTHCHECK", "ENTRYPOINT", "CMD"}
APIS = {"ConfigMap": "v1", "Service": "v1", "StatefulSet": "apps/v1", "NetworkPolicy": "networking.k8s.io/v1"}
TOKEN = "0123456789abcdef"


def text_of(name):
    with open(f"{ROOT}/{name}") as it:
        return it.read()


def instructions():
    """The instructions of the container file, each with what stands behind it."""
    lines = [line for line in text_of("examples/Containerfile").split("\n") if line and not line.startswith("#")]
    return [(word, rest) for word, _, rest in (line.partition(" ") for line in lines)]


def said(word):
    return next(rest for name, rest in instructions() if name == word)


def objects():
    """The objects of the manifest by kind. A key that stands twice is an error, which YAML's own loader does not see."""
    class Loader(yaml.SafeLoader):
        pass

    def mapping(loader, node):
        keys = [loader.construct_object(key) for key, _ in node.value]
        if len(keys) != len(set(keys)):
            raise ValueError(f"a key stands twice: {keys}")
        return loader.construct_mapping(node, True)
    Loader.add_constructor(yaml.resolver.BaseResolver.DEFAULT_MAPPING_TAG, mapping)
    return {one["kind"]: one for one in yaml.load_all(text_of("examples/kubernetes.yml"), Loader)}


def pod():
    return objects()["StatefulSet"]["spec"]["template"]["spec"]


def container():
    return pod()["containers"][0]


# The container file.


def known_instructions(_):
    unknown = [word for word, _ in instructions() if word not in WORDS]
    return not unknown and instructions()[0][0] == "FROM", unknown


def json_forms(_):
    health = said("HEALTHCHECK").split("CMD ")[1]
    forms = [json.loads(text) for text in (said("ENTRYPOINT"), said("CMD"), health)]
    return all(isinstance(one, list) and all(isinstance(word, str) for word in one) for one in forms), forms


def copied_files(_):
    sources = said("COPY").split()[:-1]
    missing = [name for name in sources if not os.access(f"{ROOT}/{name}", os.X_OK)]
    return not missing, missing


def supervisor_first(_):
    entry = json.loads(said("ENTRYPOINT"))
    copied = {os.path.basename(name) for name in said("COPY").split()[:-1]}
    return entry[0] == "allocd-supervise" and os.path.basename(entry[1]) in copied and entry[2] == "serve" and entry[0] in copied, entry


def health_check(folder):
    """Run as it stands but for the port, beside a service and beside none."""
    words = json.loads(said("HEALTHCHECK").split("CMD ")[1])
    it = Service(folder, {"scrape_configs": [{"job_name": "a"}], "allocator": {"lifecycle": True}})
    it.is_up()

    def status():
        return subprocess.run([word.replace("/8080", f"/{it.port}") for word in words], capture_output=True).returncode
    alive = status()
    it.quit()
    return alive == 0 and status() != 0, alive


def words_taken(folder):
    """The program takes the words of CMD, with files of the folder."""
    words = [word.replace("/etc/allocd", folder).replace("/var/lib/allocd", folder) for word in json.loads(said("CMD"))]
    with open(f"{folder}/allocd.json", "w") as it:
        json.dump({"scrape_configs": [{"job_name": "a"}], "allocator": {"open_to_all": True}}, it)
    done = subprocess.run([PROGRAM, "serve", *words, "--check-config"], capture_output=True, text=True)
    return done.returncode == 0, done.stderr


# The manifest.


def kinds(_):
    found = {kind: one["apiVersion"] for kind, one in objects().items()}
    return found == APIS, found


def named(_):
    found = {one["metadata"]["name"] for one in objects().values()}
    return found == {"allocd"}, found


def selected(_):
    """Who selects the pod selects just its labels."""
    labels = objects()["StatefulSet"]["spec"]["template"]["metadata"]["labels"]
    selectors = [
        objects()["StatefulSet"]["spec"]["selector"]["matchLabels"], objects()["Service"]["spec"]["selector"],
        objects()["NetworkPolicy"]["spec"]["podSelector"]["matchLabels"],
    ]
    return all(one == labels for one in selectors), selectors


def one_pod(_):
    spec = objects()["StatefulSet"]["spec"]
    return spec["replicas"] == 1 and spec["serviceName"] == objects()["Service"]["metadata"]["name"], spec["replicas"]


def volumes(_):
    """Each volume that is mounted is there, and each that is there is mounted."""
    there = {one["name"] for one in pod()["volumes"]} | {one["metadata"]["name"] for one in objects()["StatefulSet"]["spec"]["volumeClaimTemplates"]}
    mounted = {one["name"] for each in pod()["containers"] + pod()["initContainers"] for one in each["volumeMounts"]}
    return there == mounted, there ^ mounted


def places(_):
    """The volumes are where the image's command looks for the configuration and the journal."""
    mounts = {one["name"]: one["mountPath"] for one in container()["volumeMounts"]}
    words = json.loads(said("CMD"))
    config, journal = (words[words.index(name) + 1] for name in ("--config", "--journal"))
    name = os.path.basename(config)
    holds = os.path.dirname(config) == mounts["config"] and os.path.dirname(journal) == mounts["journal"] == said("VOLUME")
    return holds and name in objects()["ConfigMap"]["data"] and "command" not in container() and "args" not in container(), mounts


def read_only(_):
    """The root of both containers is read-only, and what is written lies on a volume."""
    rights = [one["securityContext"] for one in pod()["containers"] + pod()["initContainers"]]
    holds = all(one["readOnlyRootFilesystem"] and not one["allowPrivilegeEscalation"] and one["capabilities"] == {"drop": ["ALL"]} for one in rights)
    return holds and pod()["securityContext"]["runAsNonRoot"], rights


def same_user(_):
    user = pod()["securityContext"]["runAsUser"]
    owner = re.search(r"-o (\d+)", said("RUN")).group(1)
    return said("USER").split(":")[0] == owner == str(user) and pod()["securityContext"]["fsGroup"] == user, user


def ports(_):
    names = {one["name"]: one["containerPort"] for one in container()["ports"]}
    asked = [container()[f"{kind}Probe"]["httpGet"]["port"] for kind in ("startup", "liveness", "readiness")]
    asked += [one["targetPort"] for one in objects()["Service"]["spec"]["ports"]]
    asked += [one["port"] for rule in objects()["NetworkPolicy"]["spec"]["ingress"] for one in rule["ports"]]
    return set(asked) == set(names) and said("EXPOSE") == str(names["http"]), asked


def probes(folder):
    """The paths are answered with 200 by a service that follows the manifest's configuration, without a token."""
    it = service_of(folder)
    paths = [container()[f"{kind}Probe"]["httpGet"]["path"] for kind in ("startup", "liveness", "readiness")]
    try:
        it.is_up()
        found = [first_200(it, path) for path in paths]
        return found == [200] * 3 and paths[1:] == ["/livez", "/-/ready"], found
    finally:
        it.it.kill()
        it.it.wait()


def first_200(it, path):
    comes(lambda: it.ask("GET", path)[0] == 200, 10)
    return it.ask("GET", path)[0]


def tokens(folder):
    """What the first container runs, in a folder: the service takes the files, and asks for the token."""
    it = service_of(folder)
    try:
        it.is_up()
        found = [it.ask("POST", "/-/reload")[0], it.ask("GET", "/jobs/allocd/targets?collector_id=prometheus-0")[0]]
        return found == [401, 401], found
    finally:
        it.it.kill()
        it.it.wait()


def service_of(folder):
    """A service with the manifest's configuration, its tokens installed as the first container does."""
    os.makedirs(f"{folder}/secret")
    os.makedirs(f"{folder}/run")
    secret = next(one for one in pod()["volumes"] if "secret" in one)["secret"]["secretName"]
    made = re.search(rf"create secret generic {secret} (.*)", text_of("examples/kubernetes.yml")).group(1)
    for name in re.findall(r"--from-literal=(\w+)=", made):
        with open(f"{folder}/secret/{name}", "w") as it:
            it.write(TOKEN)
    command = [word.replace("/secret", f"{folder}/secret").replace("/run/allocd", f"{folder}/run") for word in pod()["initContainers"][0]["command"]]
    subprocess.run(command, check=True)
    config = json.loads(objects()["ConfigMap"]["data"]["allocd.json"].replace("/run/allocd", f"{folder}/run"))
    config["allocator"]["listen"] = f"127.0.0.1:{free_port()}"
    return Service(folder, json.dumps(config))


def checked(folder):
    """The program takes the configuration, for other machines too, since it names tokens."""
    it = service_of(folder)
    it.it.kill()
    it.it.wait()
    done = subprocess.run([PROGRAM, "serve", "--config", it.config, "--listen", "0.0.0.0:8080", "--check-config"], capture_output=True, text=True)
    return done.returncode == 0, done.stderr


def times(_):
    """A pod is given longer to end than the supervisor takes."""
    defaults = [int(one) for one in re.findall(r"ALLOCD_(?:ANSWER|END)_SECONDS:-(\d+)", text_of("scripts/allocd-supervise"))]
    return len(defaults) == 2 and pod()["terminationGracePeriodSeconds"] > sum(defaults), defaults


ROWS = {
    "container file: each instruction is one of the format": known_instructions,
    "container file: its lists of words are JSON": json_forms,
    "container file: what it copies is there, and may be run": copied_files,
    "container file: the supervisor is its entry point": supervisor_first,
    "container file: the program takes the words of its command": words_taken,
    "container file: its health check holds beside a service, and beside none it does not": health_check,
    "manifest: four objects, of the right versions": kinds,
    "manifest: they have one name": named,
    "manifest: the set, the service and the policy select one pod": selected,
    "manifest: one pod": one_pod,
    "manifest: each volume is there and mounted": volumes,
    "manifest: configuration and journal are where the image looks for them": places,
    "manifest: nothing but volumes may be written, and nobody is root": read_only,
    "manifest: it runs as the image's user": same_user,
    "manifest: probes, service and policy name the image's port": ports,
    "manifest: the program takes its configuration": checked,
    "manifest: its probes are answered with 200": probes,
    "manifest: its tokens are installed, and asked for": tokens,
    "manifest: a pod has longer to end than the supervisor takes": times,
}

if __name__ == "__main__":
    sys.exit(told_rows.main([told_rows.Row(name, run) for name, run in ROWS.items()]))
