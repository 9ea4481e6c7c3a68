#!/usr/bin/env python3
"""Runs nginx in front of an in proxy and an out proxy; all its files are in one folder.

    tools/nginx_front.py tls FOLDER    takes TLS connections, by default of callers with a certificate
                                       alone, and passes their bytes on
    tools/nginx_front.py http FOLDER   takes requests over TLS, by a password, and answers
                                       Expect: 100-continue

Both need --in and --out, where the proxies listen, --listen, and the front's --certificate and --key.
`tls` listens for OUT channels at --listen-out, and takes callers whose certificate --clients signed.
`http` tells channels by their method, and takes callers whom the file --users has, as htpasswd writes
it. It is not for clients that end a request before the length that it named: nginx drops what it holds
of one then. --print only writes the configuration. docs/DEPLOY.md tells which one is for whom.
"""
import argparse
import os
import pathlib
import re
import subprocess
import sys

COMMON = """\
daemon off;
pid {folder}/nginx.pid;
error_log {folder}/error.log;
events {{
    worker_connections 1024;
}}
"""
TLS = """\
    ssl_certificate {certificate};
    ssl_certificate_key {key};
    ssl_protocols TLSv1.2 TLSv1.3;
    limit_conn_zone $binary_remote_addr zone=callers:1m;
    limit_conn callers {most};
"""
# An end that sends no more may still be sent to, and Pings come before ten minutes are over.
STREAM = """\
stream {{
{tls}\
    ssl_client_certificate {clients};
    ssl_verify_client on;
    proxy_connect_timeout 5s;
    proxy_timeout 10m;
    proxy_half_close on;
    server {{
        listen {listen} ssl;
        proxy_pass {in_proxy};
    }}
    server {{
        listen {listen_out} ssl;
        proxy_pass {out_proxy};
    }}
}}
"""
# Bodies pass as they come, however long they are, and the password doesn't go on.
HTTP = """\
http {{
{tls}\
    access_log {folder}/access.log;
    client_body_temp_path {folder}/bodies;
    proxy_temp_path {folder}/answers;
    fastcgi_temp_path {folder}/fastcgi;
    uwsgi_temp_path {folder}/uwsgi;
    scgi_temp_path {folder}/scgi;
    map $request_method $proxy {{
        RPC_IN_DATA {in_proxy};
        RPC_OUT_DATA {out_proxy};
    }}
    server {{
        listen {listen} ssl;
        client_header_timeout 10s;
        location / {{
            return 404;
        }}
        location ~* ^/rpc(withcert)?/rpcproxy\\.dll$ {{
            if ($proxy = "") {{
                return 405;
            }}
            auth_basic "RPC over HTTP";
            auth_basic_user_file {users};
            proxy_pass http://$proxy;
            proxy_http_version 1.1;
            proxy_set_header Host $host;
            proxy_set_header Authorization "";
            proxy_set_header Connection "";
            proxy_request_buffering off;
            proxy_buffering off;
            client_max_body_size 0;
            client_body_timeout 10m;
            send_timeout 10m;
            proxy_connect_timeout 5s;
            proxy_send_timeout 10m;
            proxy_read_timeout 10m;
        }}
    }}
}}
"""
MODULE = "ngx_stream_module.so"


class Lacks(Exception):
    """What isn't there."""


def stream_module():
    """The line that loads nginx's stream module; none where it is part of nginx."""
    told = subprocess.run(["nginx", "-V"], capture_output=True, text=True, check=True).stderr
    if re.search(r"--with-stream(\s|$)", told):
        return ""
    folder = re.search(r"--modules-path=(\S+)", told)
    module = pathlib.Path(folder[1] if folder else "/usr/lib/nginx/modules") / MODULE
    if not module.is_file():
        raise Lacks("nginx has no stream module (Debian: libnginx-mod-stream)")
    return f"load_module {module};\n"


def configuration(given):
    """The text of nginx's configuration."""
    values = {name: value for name, value in vars(given).items()}
    tls = TLS.format(**values)
    common = COMMON.format(**values)
    if given.front == "tls":
        return stream_module() + common + STREAM.format(tls=tls, **values)
    return common + HTTP.format(tls=tls, **values)


def arguments():
    parser = argparse.ArgumentParser(
        description=__doc__, formatter_class=argparse.RawDescriptionHelpFormatter
    )
    fronts = parser.add_subparsers(dest="front", required=True)
    for front in ("tls", "http"):
        one = fronts.add_parser(front)
        one.add_argument("folder", type=lambda it: pathlib.Path(it).resolve())
        one.add_argument("--in", dest="in_proxy", metavar="HOST:PORT", required=True)
        one.add_argument("--out", dest="out_proxy", metavar="HOST:PORT", required=True)
        one.add_argument("--listen", metavar="HOST:PORT", required=True)
        files = ["--certificate", "--key", "--clients" if front == "tls" else "--users"]
        for file in files:
            one.add_argument(file, type=os.path.abspath, required=True)
        if front == "tls":
            one.add_argument("--listen-out", metavar="HOST:PORT", required=True)
        one.add_argument("--most", type=int, default=16, help="connections of one caller")
        one.add_argument("--print", action="store_true")
    return parser.parse_args()


def main():
    given = arguments()
    try:
        text = configuration(given)
        if given.print:
            print(text, end="")
            return 0
        given.folder.mkdir(parents=True, exist_ok=True)
        file = given.folder / "nginx.conf"
        file.write_text(text, encoding="utf-8")
        words = ["nginx", "-p", given.folder, "-c", file, "-e", given.folder / "error.log"]
        os.execvp("nginx", [*map(str, words)])
    except FileNotFoundError:
        print("nginx_front: no command nginx", file=sys.stderr)
    except Lacks as why:
        print(f"nginx_front: {why}", file=sys.stderr)
    return 1


if __name__ == "__main__":
    sys.exit(main())
