"""The front of examples/front for scripts: nginx in a folder of its own, before the program over a
store."""

import os
import pathlib
import shutil
import socket
import subprocess
import time

import neutron

MODULE = "/usr/lib/nginx/modules/ngx_http_js_module.so"


def install(*packages):
    """Installs packages of the distribution where nginx or one of their commands is missing."""
    subprocess.run(
        ["apt-get", "install", "-y", "--no-install-recommends", *packages],
        check=True,
        stdout=subprocess.DEVNULL,
        env=dict(os.environ, DEBIAN_FRONTEND="noninteractive"),
    )


def need_nginx():
    if not shutil.which("nginx", path="/usr/sbin:/usr/bin"):
        install("nginx-light")
    if not os.path.exists(MODULE):
        install("libnginx-mod-http-js")


def wait_for(address):
    """Waits until somebody listens, for at most a minute."""
    for _ in range(600):
        with socket.socket() as tried:
            if tried.connect_ex(address) == 0:
                return
        time.sleep(0.1)
    raise SystemExit(f"nobody listens at {address}")


class Front:
    """The front and the server after it, in a folder that has to be there. With `mended`,
    mend.conf is included."""

    def __init__(self, folder, mended=False):
        need_nginx()
        self.folder, self.server = pathlib.Path(folder, "front"), neutron.free_address()
        self.address = neutron.free_address()
        shutil.copytree(os.path.join(neutron.TOP, "examples/front"), self.folder)
        (self.folder / "tmp").mkdir()
        # (as root nginx reads and writes as another user)
        os.chmod(folder, 0o755)
        self.configure(mended)
        self.make_certificate()
        self.serve()
        self.nginx = subprocess.Popen(self.words("-g", "daemon off;"))
        wait_for(self.address)

    def serve(self):
        """Starts the server over the store."""
        store = self.folder.parent / "cloud.db"
        self.run = subprocess.Popen(
            [
                neutron.PROGRAM,
                "serve",
                "--listen",
                f"127.0.0.1:{self.server[1]}",
                "--connections",
                "1000000",
                "--store",
                store,
            ]
        )
        wait_for(self.server)

    def words(self, *more):
        return ["/usr/sbin/nginx", "-p", str(self.folder), "-c", "nginx.conf", *more]

    def configure(self, mended):
        """Takes free ports, and the two lines for scripts."""
        path = self.folder / "nginx.conf"
        text = path.read_text(encoding="utf-8").replace(":9797", f":{self.address[1]}")
        text = text.replace(":9696", f":{self.server[1]}")
        if mended:
            text = text.replace("# load_module", "load_module").replace(
                "# include mend.conf", "include mend.conf"
            )
        path.write_text(text, encoding="utf-8")

    def make_certificate(self):
        subprocess.run(
            [
                "openssl",
                "req",
                "-x509",
                "-newkey",
                "rsa:2048",
                "-nodes",
                "-days",
                "2",
                "-subj",
                "/CN=127.0.0.1",
                "-addext",
                "subjectAltName=IP:127.0.0.1",
                "-keyout",
                "server.key",
                "-out",
                "server.crt",
            ],
            cwd=self.folder,
            check=True,
            stderr=subprocess.DEVNULL,
        )

    @property
    def url(self):
        return f"https://127.0.0.1:{self.address[1]}"

    def end(self):
        """Ends both, the server as a crash does."""
        self.nginx.terminate()
        self.nginx.wait()
        self.run.kill()
        self.run.wait()
