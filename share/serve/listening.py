"""Serves browsers: those of this machine by Python's own server, and those of a network by waitress."""
import socket
import socketserver
import threading
import webbrowser
from wsgiref import simple_server

from . import settings
from .application import MOST_READ, SECONDS
from .program import QUEUE
from .settings import Unusable

# A browser keeps up to six connections open, and 60 browsers are a class. Connections that send nothing for SECONDS are closed.
CONNECTIONS = 900


class Server(socketserver.ThreadingMixIn, simple_server.WSGIServer):
    daemon_threads, request_queue_size = True, 256

    def server_bind(self):
        """Binds without asking for this machine's full name, which may take seconds."""
        socketserver.TCPServer.server_bind(self)
        self.server_name, self.server_port = self.server_address[:2]
        self.setup_environ()

    def handle_error(self, *_):
        """Prints nothing if a browser closes its connection."""


class Handler(simple_server.WSGIRequestHandler):
    timeout = SECONDS

    def log_message(self, *_):
        """Logs nothing."""


def own_address():
    """Returns the address by which other machines reach this one, or None. (It sends nothing: a datagram has no connection.)"""
    with socket.socket(socket.AF_INET, socket.SOCK_DGRAM) as probe:
        try:
            probe.connect(("192.0.2.1", 9))
            return probe.getsockname()[0]
        except OSError:
            return None


def names(chosen, port):
    """Returns the hosts by which browsers may call the server, the best one first. A proxy may call it by a name without a port."""
    found = list(settings.LOOPBACK)
    if chosen.host not in settings.LOOPBACK:
        reached = own_address() if chosen.host in ("0.0.0.0", "::") else chosen.host
        found = [*chosen.name, *(name for name in (reached, socket.gethostname()) if name), *found]
    return [with_port(name, port) for name in found] + chosen.name + [with_port(name, port) for name in chosen.name]


def with_port(name, port):
    """Returns a host with its port, unless it has one."""
    if name.endswith("]") or ":" not in name:
        return f"{name}:{port}"
    return f"[{name}]:{port}" if name.count(":") > 1 else name


def announce(hosts, chosen):
    """Prints the address of the page, and opens it if that is wanted."""
    address = f"http://{hosts[0]}/"
    print(address, flush=True)
    if chosen.open:
        threading.Thread(target=webbrowser.open, args=(address,), daemon=True).start()


def serve_here(chosen):
    """Serves this machine, with nothing to install."""
    with simple_server.make_server(chosen.host, chosen.port, None, Server, Handler) as server:
        hosts = names(chosen, server.server_port)
        server.set_app(settings.laboratory(hosts, chosen.workers))
        announce(hosts, chosen)
        server.serve_forever()


def serve_class(chosen):
    """Serves a network by waitress."""
    try:
        import waitress
    except ImportError:
        raise Unusable("to serve other machines, waitress is needed: apt-get install python3-waitress, or pip install waitress") from None
    how = {"threads": chosen.workers + QUEUE, "connection_limit": CONNECTIONS, "channel_timeout": SECONDS, "cleanup_interval": 5}
    how.update(max_request_body_size=MOST_READ, asyncore_use_poll=True, ident=None)
    family = socket.AF_INET6 if ":" in chosen.host else socket.AF_INET
    with socket.create_server((chosen.host, chosen.port), family=family, backlog=CONNECTIONS) as listening:
        hosts = names(chosen, listening.getsockname()[1])
        server = waitress.create_server(settings.laboratory(hosts, chosen.workers), sockets=[listening], **how)
        announce(hosts, chosen)
        server.run()


def serve(chosen):
    """Serves as the words say, until this process is ended."""
    chosen.workers = chosen.workers or settings.processors()
    try:
        (serve_here if chosen.host in settings.LOOPBACK[:2] else serve_class)(chosen)
    except (OSError, UnicodeError) as error:
        what = getattr(error, "filename", None) or f"{chosen.host}:{chosen.port}"
        raise Unusable(f"{what} cannot be used: {getattr(error, 'strerror', None) or error}") from None
