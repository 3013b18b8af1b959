#!/usr/bin/env python3
"""Signed calls beside Hawk's own library for Node, both ways.

    bench/hawk_peer.py PROGRAM [CASES]     with node and Hawk's library (Debian: node-hawk)

The library signs requests of several forms (targets with queries and escapes, bodies with line feeds and other letters, types with parameters, with and
without ext), and PROGRAM answers them (`answer`): none may be refused as 401, and of each a copy with another body, another mac, another target or an old time has
to be, with the reason that stands beside it. And headers of `sign` are read by the library as a server reads them, and compared with those that it
writes. It ends with status 1 at the first that comes otherwise."""
import base64, json, os, random, subprocess, sys, tempfile, time

PROGRAM = os.path.realpath(sys.argv[1])
CASES = int(sys.argv[2]) if len(sys.argv) > 2 else 200
TOKEN = "0123456789012345678901234567"
FARM = f"""
[farm]
host = "localhost"
port = 8080

[[client]]
id = "builds/one"
token = "{TOKEN}"
expires = "2030-01-01T00:00:00.000Z"
scopes = ["queue:scheduler-id:-", "queue:status:*"]
"""
SIGNS = """
const Hawk = require('hawk'), fs = require('fs');
for (const c of JSON.parse(fs.readFileSync(0, 'utf8'))) {
  const options = { credentials: { id: 'builds/one', key: c.token, algorithm: 'sha256' }, timestamp: c.ts, nonce: c.nonce };
  if (c.type) { options.contentType = c.type; options.payload = c.body; }
  if (c.ext) options.ext = c.ext;
  const { header, artifacts } = Hawk.client.header('http://localhost:8080' + c.target, c.method, options);
  console.log(JSON.stringify([header, artifacts.resource]));
}
"""
READS = """
const Hawk = require('hawk'), fs = require('fs');
const find = async (id) => ({ id, key: '%s', algorithm: 'sha256', user: id });
(async () => {
  for (const c of JSON.parse(fs.readFileSync(0, 'utf8'))) {
    const request = { method: c.method, url: c.target, host: 'localhost', port: 8080, authorization: c.header, contentType: c.type };
    const options = c.type ? { payload: c.body } : {};
    try {
      const { artifacts } = await Hawk.server.authenticate(request, find, options);
      console.log(artifacts.ext === (c.ext || undefined) || artifacts.ext === c.ext ? 'taken' : 'another ext ' + artifacts.ext);
    } catch (error) { console.log('refused: ' + error.message); }
  }
})();
""" % TOKEN


def node(program, cases):
    env = {**os.environ, "NODE_PATH": os.environ.get("NODE_PATH", "/usr/share/nodejs")}
    ran = subprocess.run(["node", "-e", program], input=json.dumps(cases), capture_output=True, text=True, env=env)
    if ran.returncode:
        sys.exit(f"node failed: {ran.stderr[-400:]}")
    return ran.stdout.splitlines()


def case(draw, number):
    """A request that some route takes, with or without a body."""
    slug = base64.urlsafe_b64encode(bytes(draw.randrange(256) for _ in range(6)) + bytes([0x40 | draw.randrange(16), draw.randrange(256), 0x80 | draw.randrange(64)]) + bytes(draw.randrange(256) for _ in range(7))).decode().rstrip("=")
    made = {"token": TOKEN, "ts": int(time.time()) + draw.choice([0, 0, 1, -1, 600, -600]), "nonce": f"n{number}{draw.choice(['', '-', '_', '+/='])}", "type": None, "body": "", "ext": None}
    kind = draw.randrange(4)
    if kind == 0:
        made |= {"method": "GET", "target": f"/api/queue/v1/task/{slug}/status"}
    elif kind == 1:
        made |= {"method": "GET", "target": f"/api/queue/v1/task-group/{slug}/list?limit={draw.randrange(1, 1000)}&" + draw.choice(["x=%2F%3f", "y=a=b;c", "z=~!*'()", "w"])}
    else:
        queue = draw.choice(["prov/wt", "prov%2Fwt", "prov%2fwt"])
        group = draw.choice(["one", "\\u006fne", "o_-n"])
        space = draw.choice(["", " ", "\n", "\r\n\t", "  \n\n"])
        made |= {"method": "POST", "target": f"/api/queue/v1/claim-work/{queue}", "body": f'{{{space}"workerGroup":{space}"{group}",{space}"workerId": "w{number}"{space}}}{space}'}
        made["type"] = draw.choice(["application/json", "Application/JSON", "application/json; charset=utf-8", "APPLICATION/json;x=y", "text/plain"])
    if draw.randrange(3) == 0:
        more = draw.choice([{}, {"note": "g\u00fcn\u00fc"}, {"n": 7}])
        made["ext"] = base64.b64encode(json.dumps({"authorizedScopes": ["queue:scheduler-id:-"], **more}).encode()).decode()
    return made


def message(made, header, body=None, target=None):
    body = (made["body"] if body is None else body).encode()
    lines = [f"{made['method']} {target or made['target']} HTTP/1.1", f"Authorization: {header}"]
    lines += [f"Content-Type: {made['type']}"] * bool(made["type"]) + [f"Content-Length: {len(body)}"]
    return "\r\n".join(lines).encode() + b"\r\n\r\n" + body


def replies(messages):
    """What `answer` replies to each, in connections of 500."""
    found = []
    with tempfile.TemporaryDirectory() as folder:
        with open(f"{folder}/farm.toml", "w") as it:
            it.write(FARM)
        for at in range(0, len(messages), 500):
            out = subprocess.run([PROGRAM, "answer", f"{folder}/farm.toml"], input=b"".join(messages[at : at + 500]), capture_output=True).stdout
            while out:
                head, _, rest = out.partition(b"\r\n\r\n")
                length = next(int(it.split(b":")[1]) for it in head.split(b"\r\n") if it.lower().startswith(b"content-length"))
                found.append((int(head.split()[1]), json.loads(rest[:length] or b"{}")))
                out = rest[length:]
    return found


def main():
    draw = random.Random(7)
    cases = [case(draw, number) for number in range(CASES)]
    messages, wanted = [], []
    for made, line in zip(cases, node(SIGNS, cases)):
        # The library signs the target as a client sends it: it writes %27 for an apostrophe.
        header, made["target"] = json.loads(line)
        messages.append(message(made, header))
        wanted.append(None)
        turned = header[:-3] + ("B" if header[-3] != "B" else "C") + header[-2:]
        messages.append(message(made, turned))
        wanted.append("BadMac")
        messages.append(message(made, header, target=made["target"] + ("&" if "?" in made["target"] else "?") + "q"))
        wanted.append("BadMac")
        if made["type"]:
            messages.append(message(made, header, body=made["body"] + " "))
            wanted.append("BadHash")
    old = [{**it, "ts": int(time.time()) + draw.choice([-950, 950, -100000, 5000])} for it in cases]
    for made, line in zip(old, node(SIGNS, old)):
        messages.append(message(made, json.loads(line)[0]))
        wanted.append("Skew")
    found = replies(messages)
    if len(found) != len(messages):
        sys.exit(f"{len(messages)} requests have {len(found)} replies")
    counts = {}
    for it, (status, body), reason in zip(messages, found, wanted):
        told = body.get("details", {}).get("reason") if status == 401 else None
        counts[status, told] = counts.get((status, told), 0) + 1
        if told != reason or (status == 401) != (reason is not None) or status == 400:
            sys.exit(f"wanted {reason or 'no 401'}, got {status} {body}, of\n{it.decode()}")
    print(f"{len(messages)} requests signed by Hawk's library:", ", ".join(f"{n} of {status}{' ' + told if told else ''}" for (status, told), n in sorted(counts.items(), key=str)))
    signed = []
    for made in cases[: CASES // 2]:
        made = {**made, "ts": int(time.time()), "nonce": made["nonce"].replace("+/=", "+")}
        words = ["sign", "--id", "builds/one", "--token", TOKEN, "--method", made["method"], "--target", made["target"], "--host", "localhost", "--port", "8080", "--ts", str(made["ts"]), "--nonce", made["nonce"]]
        words += ["--type", made["type"]] * bool(made["type"]) + (["--ext", made["ext"]] if made["ext"] else [])
        ran = subprocess.run([PROGRAM, *words], input=made["body"].encode(), capture_output=True)
        if ran.returncode:
            sys.exit(f"sign ended with {ran.returncode}: {ran.stderr.decode()}, of {words}")
        signed.append({**made, "header": ran.stdout.decode().strip()})
    read = node(READS, signed)
    for made, said, line in zip(signed, read, node(SIGNS, signed)):
        if said != "taken" or json.loads(line)[0] != made["header"]:
            sys.exit(f"Hawk's library says '{said}' and writes {line} of {made}")
    print(f"{len(read)} headers of sign: all taken by Hawk's library, and written by it byte for byte")


main()
