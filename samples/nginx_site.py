"""The sample site of nginx in a folder, as the user who starts it: for samples/demo, and for tests."""
import os
import subprocess

NAME = "register.example.org"
here = os.path.dirname(os.path.abspath(__file__))
TEMPORARY = ("client_body", "proxy", "fastcgi", "uwsgi", "scgi")


def write(folder, changes, workers=0):
    """Writes site.conf, which is the sample with these changes, and nginx.conf, which includes it. A change is a pair:
    a text that the sample has once, and what is there instead. Without workers nginx is one process."""
    with open(os.path.join(here, "nginx", "groundreg.conf"), encoding="utf-8") as file:
        text = file.read()
    for old, new in changes:
        assert text.count(old) == 1, old
        text = text.replace(old, new)
    with open(os.path.join(folder, "site.conf"), "w", encoding="utf-8") as file:
        file.write(text)
    places = "".join(f"{name}_temp_path {folder}/{name};\n" for name in TEMPORARY)
    types = "include /etc/nginx/mime.types;\n" if os.path.exists("/etc/nginx/mime.types") else ""
    kind = f"worker_processes {workers};\n" if workers else "master_process off;\n"
    with open(os.path.join(folder, "nginx.conf"), "w", encoding="utf-8") as file:
        file.write(f"daemon off;\n{kind}pid {folder}/pid;\nerror_log {folder}/errors;\n"
                   f"events {{ worker_connections 2000; }}\n"
                   f"http {{\naccess_log off;\n{types}{places}include {folder}/site.conf;\n}}\n")


def command(folder):
    """What starts nginx there."""
    return ["nginx", "-p", folder, "-e", os.path.join(folder, "errors"), "-c", os.path.join(folder, "nginx.conf")]


def certificate_in(folder):
    """The path, without its ending, of a certificate for the site's name and of its key, made for the moment."""
    path = os.path.join(folder, "certificate")
    subprocess.run(["openssl", "req", "-x509", "-newkey", "rsa:2048", "-nodes", "-days", "2", "-subj", f"/CN={NAME}",
                    "-addext", f"subjectAltName=DNS:{NAME}", "-keyout", f"{path}.key", "-out", f"{path}.crt"],
                   check=True, capture_output=True)
    return path
