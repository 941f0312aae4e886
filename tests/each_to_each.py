#!/usr/bin/env python3
"""Each part of the repository issues a token of each kind, and each admits it at once: the program, C, Python, Rust, Go, and nginx,
which admits alone. Nothing waits for a second to pass. Keys are in PASERK, and those of version 1 in PEM, too. Each part then tells the
texts and the ids of each key, which are those of OpenSSL's DER and of Python's hashlib, and opens private keys that are locked.

    python3 tests/each_to_each.py PREFIX

PREFIX is where build.sh installed. The last line is 'N passed, M failed', and the status is 0 where none failed.
"""
import base64
import hashlib
import os
import pathlib
import shutil
import socket
import subprocess
import sys
import tempfile
import time
import urllib.request

ROOT = pathlib.Path(__file__).resolve().parent.parent
HERE = ROOT / "tests/each_to_each"
KINDS = [f"v{version}.{purpose}" for version in (1, 2, 3, 4) for purpose in ("local", "public")]
# The names of key files, and their kinds.
FILES = {**{kind: kind for kind in KINDS}, "v1.public.pem": "v1.public"}
PASSWORD = "paßwort"


def run(*words, **options):
    """What a command prints; where it fails, what it says."""
    told = subprocess.run([str(it) for it in words], capture_output=True, text=True, **options)
    if told.returncode != 0:
        raise RuntimeError(f"{pathlib.Path(words[0]).name}: {told.stderr.strip()[-300:]}")
    return told.stdout.strip()


def put(path, text):
    """Writes a file that its owner alone can read."""
    path.touch(0o600)
    path.write_text(text + "\n")


def spelled(contents):
    """Contents in base64url."""
    return base64.urlsafe_b64encode(contents).decode().rstrip("=")


def make_rsa(work):
    """A key pair of version 1 in PEM, as OpenSSL writes it, and in PASERK, from its DER."""
    private, public = work / "v1.public.pem.key", work / "v1.public.pem.pub"
    run("openssl", "genpkey", "-quiet", "-algorithm", "RSA", "-pkeyopt", "rsa_keygen_bits:2048", "-out", private)
    run("openssl", "pkey", "-in", private, "-pubout", "-out", public)
    for half, path, words in (
        ("secret", work / "v1.public.key", ("rsa", "-in", private, "-traditional")),
        ("public", work / "v1.public.pub", ("pkey", "-in", private, "-pubout")),
    ):
        der = subprocess.run(["openssl", *words, "-outform", "DER"], capture_output=True, check=True).stdout
        put(path, f"k1.{half}.{spelled(der)}")


def make_keys(prefix, work):
    """For each kind the files of the key that makes tokens and of the one that reads them."""
    put(work / "password", PASSWORD)
    make_rsa(work)
    for kind in KINDS:
        making, reading = work / f"{kind}.key", work / f"{kind}.pub"
        if kind == "v1.public":
            continue
        if kind.endswith("public"):
            run(prefix / "bin/paseto", "keygen", kind, "--quiet", "--out", making, "--public", reading)
        else:
            run(prefix / "bin/paseto", "keygen", kind, "--quiet", "--out", making)
            shutil.copy(making, reading)
            reading.chmod(0o600)


def id_of(text):
    """The id of a key's text, as the PASERK specification says it."""
    version, half, _ = text.split(".")
    front = f"{version}.{half[0]}id."
    digest = hashlib.sha384 if version in ("k1", "k3") else lambda given: hashlib.blake2b(given, digest_size=33)
    return front + spelled(digest(f"{front}{text}".encode()).digest()[:33])


def texts_of(work, kind):
    """The text and the id of a key, and those of the public key of a private one."""
    private, reading = ((work / f"{kind}.{it}").read_text().strip() for it in ("key", "pub"))
    return [it for text in ([private] if kind.endswith("local") else [private, reading]) for it in (text, id_of(text))]


class Program:
    def __init__(self, prefix, work):
        self.program, self.work = prefix / "bin/paseto", work

    def make(self, kind, key):
        return run(self.program, "issue", "--key", key, "--claim", "sub=ada", "--expires", "1h")

    def read(self, kind, key, token):
        return run(self.program, "check", "--key", key, "--claim", "sub=ada", input=token + "\n")

    def locked(self, key, option, other):
        """The file of the key under what an option names."""
        path = self.work / f"{key.stem}.locked"
        put(path, run(self.program, "wrap", "--key", key, option, other))
        return path

    def unlock(self, kind, key):
        return run(self.program, "unwrap", "--key", key, "--password-file", self.work / "password")

    def unwrap(self, kind, key, opener):
        return run(self.program, "unwrap", "--key", key, "--unlock-key", opener)

    def tell(self, kind, key):
        wrapping = self.work / f"{kind[:2]}.local.key"
        found = [self.unwrap(kind, self.locked(key, "--wrapping-key", wrapping), wrapping), run(self.program, "id", "--key", key)]
        if kind.endswith("public"):
            half = run(self.program, "public", "--key", key)
            found += [half, run(self.program, "id", "--key", "-", input=half + "\n")]
        return "\n".join(found)


class Own:
    """A program of tests/each_to_each."""

    def __init__(self, *words, named=False, **environment):
        self.words, self.named, self.environment = words, named, {**os.environ, **environment}

    def ask(self, call, kind, *rest):
        return run(*self.words, call, *([kind] if self.named else []), *rest, env=self.environment)

    def make(self, kind, key):
        return self.ask("make", kind, key)

    def read(self, kind, key, token):
        return self.ask("read", kind, key, token)

    def tell(self, kind, key):
        return self.ask("tell", kind, key)

    def unlock(self, kind, key):
        return self.ask("unlock", kind, key, PASSWORD)

    def unwrap(self, kind, key, opener):
        return self.ask("unwrap", kind, key, opener)


def built_c(prefix, work):
    run("cc", "-std=c99", "-Wall", "-Wextra", "-I", prefix / "include", "-o", work / "c", HERE / "main.c", prefix / "lib/libpaseto.a")
    return Own(work / "c")


def built_go(prefix, work):
    folder = work / "go"
    folder.mkdir()
    shutil.copy(HERE / "main.go", folder)
    (folder / "go.mod").write_text("module user\n\ngo 1.19\n\nrequire paseto-proved v1.0.0\n\n"
                                   f"replace paseto-proved => {ROOT}/bindings/go\n")
    environment = {**os.environ, "PKG_CONFIG_PATH": f"{prefix}/lib/pkgconfig", "GOCACHE": str(work / "gocache"),
                   "GOPATH": str(work / "gopath"), "GOPROXY": "off", "GOFLAGS": "-mod=mod -modcacherw"}
    run("go", "build", "-o", work / "go/user", ".", cwd=folder, env=environment)
    return Own(work / "go/user")


def built_rust(prefix, work):
    folder = work / "rust"
    (folder / "src").mkdir(parents=True)
    shutil.copy(HERE / "main.rs", folder / "src/main.rs")
    (folder / "Cargo.toml").write_text('[package]\nname = "user"\nversion = "1.0.0"\nedition = "2021"\n\n[dependencies]\n'
                                       f'rusty_paseto = {{ package = "paseto-proved", path = "{ROOT}/bindings/rust" }}\n')
    run("bash", ROOT / "bindings/rust/offline.sh", work / "cargo")
    environment = {**os.environ, "CARGO_HOME": str(work / "cargo"), "PASETO_LIB_DIR": f"{prefix}/lib", "CARGO_TARGET_DIR": str(work / "target")}
    run("cargo", "build", "--quiet", cwd=folder, env=environment)
    return Own(work / "target/debug/user", named=True)


class Nginx:
    """A location for each file of a key."""

    def __init__(self, prefix, work):
        run("bash", ROOT / "bindings/nginx/build.sh", work, prefix)
        with socket.socket() as free:
            free.bind(("127.0.0.1", 0))
            self.port = free.getsockname()[1]
        locations = "".join(f"location /{it} {{ paseto on; paseto_leeway 0; paseto_keys {work}/{it}.pub; return 200 $paseto_claim_sub; }}\n"
                            for it in FILES)
        (work / "nginx.conf").write_text(f"""load_module {work}/ngx_http_paseto_module.so;
pid {work}/pid; error_log {work}/errors info; daemon off; user root;
events {{ }}
http {{ access_log off; server {{ listen 127.0.0.1:{self.port};
{locations} }} }}
""")
        environment = {**os.environ, "LD_LIBRARY_PATH": f"{prefix}/lib"}
        self.server = subprocess.Popen(["/usr/sbin/nginx", "-p", str(work), "-c", str(work / "nginx.conf")], env=environment)
        for _ in range(100):
            with socket.socket() as asked:
                if asked.connect_ex(("127.0.0.1", self.port)) == 0:
                    return
            time.sleep(0.05)

    def read(self, kind, key, token):
        request = urllib.request.Request(f"http://127.0.0.1:{self.port}/{key.stem}", headers={"Authorization": f"Bearer {token}"})
        try:
            with urllib.request.urlopen(request, timeout=10) as answer:
                return answer.read().decode()
        except urllib.error.HTTPError as refused:
            raise RuntimeError(f"{refused.code} {refused.headers['WWW-Authenticate']}") from None


class Count:
    """What was found beside what was wanted."""

    def __init__(self):
        self.passed = self.failed = 0

    def ask(self, name, is_right, call):
        try:
            found = call()
        except RuntimeError as fault:
            found = str(fault)
        if is_right(found):
            self.passed += 1
        else:
            self.failed += 1
            print(f"FAILED: {name}: {found}")


def ask_tokens(count, work, makers, readers):
    """Each token of each maker, to each reader."""
    for name, kind in FILES.items():
        for maker, issuing in makers.items():
            for reader, admitting in readers.items():
                count.ask(f"{name} from {maker} to {reader}", lambda found: "ada" in found, lambda: admitting.read(
                    kind, work / f"{name}.pub", issuing.make(kind, work / f"{name}.key")))


def ask_keys(count, work, program, parts):
    """The texts and the ids of each key, and those that are locked, by each part."""
    for name, kind in FILES.items():
        wanted, key = texts_of(work, kind), work / f"{name}.key"
        for part, told in parts.items():
            count.ask(f"{name} told by {part}", lambda found: found.splitlines() == wanted, lambda: told.tell(kind, key))
        if kind.endswith("local"):
            continue
        locked = program.locked(key, "--password-file", work / "password")
        for part, opening in parts.items():
            count.ask(f"{name} under a password, opened by {part}", lambda found: found == wanted[0], lambda: opening.unlock(kind, locked))
        wrapping = work / f"{kind[:2]}.local.key"
        locked = program.locked(key, "--wrapping-key", wrapping)
        for part, opening in parts.items():
            count.ask(f"{name} under a wrapping key, opened by {part}", lambda found: found == wanted[0],
                      lambda: opening.unwrap(kind, locked, wrapping))


def main():
    if len(sys.argv) != 2:
        sys.exit(__doc__)
    prefix, count = pathlib.Path(sys.argv[1]).resolve(), Count()
    with tempfile.TemporaryDirectory() as folder:
        work = pathlib.Path(folder)
        work.chmod(0o755)
        make_keys(prefix, work)
        python = {"PYTHONPATH": f"{ROOT}/bindings/python/src", "PASETO_LIBRARY": f"{prefix}/lib/libpaseto.so.1", "PYTHONDONTWRITEBYTECODE": "1"}
        program = Program(prefix, work)
        parts = {"the program": program, "C": built_c(prefix, work), "Python": Own(sys.executable, HERE / "main.py", **python),
                 "Rust": built_rust(prefix, work), "Go": built_go(prefix, work)}
        nginx = Nginx(prefix, work)
        try:
            ask_tokens(count, work, parts, {**parts, "nginx": nginx})
        finally:
            nginx.server.terminate()
            nginx.server.wait()
        ask_keys(count, work, program, parts)
    print(f"{count.passed} passed, {count.failed} failed")
    return count.failed > 0


if __name__ == "__main__":
    sys.exit(main())
