"""Writes a configuration whose one job has 16,384 targets, each with the labels of a Kubernetes pod.

usage: relabel_config.py [rules]      with the ten rules below, or with none
"""
import json
import sys

TARGETS = 16_384
POD = "__meta_kubernetes_pod_"
RULES = [
    {"action": "keep", "source_labels": [POD + "annotation_prometheus_io_scrape"], "regex": "true"},
    {"action": "drop", "source_labels": [POD + "phase"], "regex": "Pending|Succeeded|Failed|Completed"},
    {"source_labels": [POD + "annotation_prometheus_io_path"], "regex": "(.+)", "target_label": "__metrics_path__"},
    {
        "source_labels": ["__address__", POD + "annotation_prometheus_io_port"],
        "regex": "([^:]+)(?::\\d+)?;(\\d+)",
        "replacement": "$1:$2",
        "target_label": "__address__",
    },
    {"action": "labelmap", "regex": POD + "label_(.+)"},
    {"source_labels": ["__meta_kubernetes_namespace"], "target_label": "namespace"},
    {
        "action": "keep",
        "source_labels": ["__meta_kubernetes_namespace", POD + "label_app"],
        "regex": "(?:shop|billing|search);.+",
    },
    # one shard, so that each target goes all the way
    {"action": "hashmod", "source_labels": ["__address__"], "modulus": 1, "target_label": "__tmp_hash"},
    {"action": "keep", "source_labels": ["__tmp_hash"], "regex": "0"},
    {"action": "labeldrop", "regex": "__tmp_.+|pod_template_hash"},
]


def group(number):
    """One pod, of 12 labels. The job adds __address__, job, __scheme__ and __metrics_path__."""
    app = ["web", "cart", "stock", "mail"][number % 4]
    namespace = ["shop", "billing", "search"][number % 3]
    address = f"10.{number // 65536}.{number // 256 % 256}.{number % 256}"
    return {
        "targets": [f"{address}:8080"],
        "labels": {
            "__meta_kubernetes_namespace": namespace,
            POD + "annotation_prometheus_io_path": "/internal/metrics",
            POD + "annotation_prometheus_io_port": "9102",
            POD + "annotation_prometheus_io_scrape": "true",
            POD + "container_port_number": "8080",
            POD + "ip": address,
            POD + "label_app": app,
            POD + "label_pod_template_hash": "7d9f8b6c5",
            POD + "label_version": f"v1.{number % 20}",
            POD + "name": f"{app}-7d9f8b6c5-{number:05x}",
            POD + "node_name": f"node-{number % 256}.example.org",
            POD + "phase": "Running",
        },
    }


rules = RULES if sys.argv[1:] == ["rules"] else []
job = {"job_name": "pods", "relabel_configs": rules, "static_configs": [group(number) for number in range(TARGETS)]}
json.dump({"scrape_configs": [job]}, sys.stdout, separators=(",", ":"))
