"""serve: the shop over HTTP, by the package shop_web."""

import argparse
import importlib.util

from .ends import Fault, Status


def serve(args: argparse.Namespace) -> int:
    lacking = [f"python3-{name.replace('_', '-')}" for name in ("aiohttp", "prometheus_client") if not importlib.util.find_spec(name)]
    if lacking:
        raise Fault(Status.AWAY, f"shop serve needs what isn't installed: apt-get install {' '.join(lacking)}")
    from shop_web import access
    keys = access.from_file(args.keys_file)     # what is wrong with it is told before a server is loaded, which takes most of the time
    from shop_web import serving
    return serving.serve(args, keys)
