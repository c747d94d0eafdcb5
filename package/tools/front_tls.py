"""TLS of the front: what microloan-setup writes for a name, a certificate and a key, and what the site then includes."""
import contextlib
import os
import ssl
import subprocess

SITE = "/etc/microloan/site"  # included by the site
CLIENT = "/etc/microloan-client"  # where the tools find the front: of any user
CIPHERS = "ECDHE-{0}-AES128-GCM-SHA256:ECDHE-{0}-AES256-GCM-SHA384:ECDHE-{0}-CHACHA20-POLY1305"
SERVER = """# By microloan-setup, which writes it anew. Included in the server block of the site.
{listens}
server_name {name};
ssl_certificate     {certificate};
ssl_certificate_key {key};
ssl_protocols       TLSv1.2 TLSv1.3;
ssl_ciphers         {ciphers};
ssl_prefer_server_ciphers off;
ssl_session_cache   shared:microloan_tls:1m;
ssl_session_timeout 1d;
ssl_session_tickets off;
add_header Strict-Transport-Security "max-age=31536000" always;
"""
HTTP = """# By microloan-setup, which writes it anew. Included in nginx's http block: who comes without TLS is sent on.
server {{
{listens}
    server_name {name};
    server_tokens off;
    return 301 https://{name}$request_uri;
}}
"""


class Failed(Exception):
    """Why a certificate isn't taken."""


def openssl(certificate, *words):
    done = subprocess.run(["openssl", "x509", "-noout", "-in", certificate, *words], capture_output=True, text=True, check=False)
    return done.returncode, done.stdout


def require_right(name, certificate, key):
    """The key is the certificate's and nobody else may read it; the certificate is of this name, and of today."""
    try:
        ssl.SSLContext(ssl.PROTOCOL_TLS_SERVER).load_cert_chain(certificate, key, password=lambda: "")
    except (OSError, ssl.SSLError) as fault:
        raise Failed(f"{certificate} and {key}: {fault}") from None
    if os.stat(key).st_mode & 0o007:
        raise Failed(f"{key} can be read by anyone on this machine: chmod o= it")
    if "does match" not in openssl(certificate, "-checkhost", name)[1]:
        raise Failed(f"{certificate} is not a certificate of {name}")
    if openssl(certificate, "-checkend", "0")[0]:
        raise Failed(f"{certificate} is no longer valid")


def listens(*texts):
    """A line for each family of addresses that this machine has."""
    families = ["", "[::]:"] if os.path.exists("/proc/net/if_inet6") else [""]
    return "\n".join(text.format(family) for family in families for text in texts)


def put(path, text):
    """Writes a file that anyone may read, beside itself and then in its place."""
    os.makedirs(os.path.dirname(path), mode=0o755, exist_ok=True)
    os.chmod(os.path.dirname(path), 0o755)
    with open(os.open(path + ".new", os.O_WRONLY | os.O_CREAT | os.O_TRUNC, 0o644), "w", encoding="utf-8") as file:
        file.write(text)
        os.fchmod(file.fileno(), 0o644)
        os.fsync(file.fileno())
    os.rename(path + ".new", path)


def write(name, certificate, key, is_taken, folder=SITE):
    """Writes the site's own files. Where `is_taken` says that nginx doesn't take them, those of before stand again."""
    certificate, key = os.path.abspath(certificate), os.path.abspath(key)
    require_right(name, certificate, key)
    ciphers = ":".join(CIPHERS.format(kind) for kind in ("ECDSA", "RSA"))
    server = {"name": name, "certificate": certificate, "key": key, "ciphers": ciphers}
    texts = {
        "server-tls.conf": SERVER.format(listens=listens("listen {}443 ssl;"), **server),
        "http-tls.conf": HTTP.format(listens=listens("    listen {}80;"), name=name),
    }
    before = {file: read(os.path.join(folder, file)) for file in texts}
    for file, text in texts.items():
        put(os.path.join(folder, file), text)
    if not is_taken():
        for file, text in before.items():
            with contextlib.suppress(FileNotFoundError):
                os.unlink(os.path.join(folder, file))
            if text is not None:
                put(os.path.join(folder, file), text)
        raise Failed("nginx doesn't take it: nothing is changed")


def read(path):
    with contextlib.suppress(FileNotFoundError), open(path, encoding="utf-8") as file:
        return file.read()
    return None


def tell_tools(name, ca, folder=CLIENT):
    """Has the tools of this machine find the front, as any user. The folder can be copied to other machines."""
    if ca is not None:
        with open(ca, encoding="utf-8") as file:
            put(os.path.join(folder, "ca.pem"), file.read())
    put(os.path.join(folder, "address"), f"https://{name}\n")
