"""Where requests may go: URLs, public addresses, and the rules of one pull. Nothing is connected here."""
import ipaddress
import re
from pathlib import Path
from typing import Any, Iterable, NamedTuple
from urllib.parse import unquote

URL = re.compile(r"(https?)://([a-z0-9._-]+|\[[0-9a-f:.]+\])(?::(\d{1,5}))?(/[!-~]*)?", re.ASCII | re.IGNORECASE)
FIELD = re.compile(rb"([!#$%&'*+.^_`|~0-9A-Za-z-]+):([\t -~\x80-\xff]*)\r?\n")  # RFC 9110, 5.1 and 5.5
LOOPBACK = re.compile(r"(localhost|127(\.\d{1,3}){3}|\[::1\])(:\d+)?", re.ASCII)
NUMBER = re.compile(r"(.*\.)?(\d+|0x[0-9a-f]*)\.?", re.ASCII | re.IGNORECASE)  # a host that libcurl, and others, take for an address of IPv4, as 127.1
PORTS = {"http": 80, "https": 443}
GLOBAL, NAT64 = ipaddress.IPv6Network("2000::/3"), ipaddress.IPv6Network("64:ff9b::/96")


class Place(NamedTuple):
    """What a URL leads to; of a path its query is left out."""
    scheme: str
    host: str
    port: int
    path: str


def shown(url: str) -> str:
    """A URL as sentences have it: without its query, its fragment and its user, which may be secrets."""
    return re.sub(r"^(\w+://)[^/]*@", r"\1", re.split("[?#]", url)[0])


def cut(text: str) -> str:
    """A text with its URLs as sentences have them."""
    return re.sub(r'(?<=://)(?:[^/\s"]*@)?([^\s"?#]*)(?:[?#][^\s"]*)?', r"\1", text)


def place_of(url: str) -> Place:
    match = URL.fullmatch(url)
    if not match:
        raise ValueError("it is not a URL that requests are sent to")
    scheme = match[1].lower()
    return Place(scheme, match[2].lower(), int(match[3] or PORTS[scheme]), (match[4] or "/").partition("?")[0])


def is_loopback(name: str) -> bool:
    """Whether a host, with a port or without, is this machine."""
    return LOOPBACK.fullmatch(name) is not None


def is_public(host: str) -> bool:
    """False for an address that is private, link-local, loopback, unspecified or multicast, also inside IPv6; of names, for `localhost`."""
    try:
        ip: Any = ipaddress.ip_address(host.strip("[]").partition("%")[0])
    except ValueError:
        return host.rstrip(".") != "localhost" and not NUMBER.fullmatch(host)
    if ip.version == 6:
        ip = ip.ipv4_mapped or ip.sixtofour or (ipaddress.IPv4Address(int(ip) & 0xFFFFFFFF) if ip in NAT64 else ip)
    return ip.is_global and not ip.is_multicast and (ip.version == 4 or ip in GLOBAL)


def proxy_of(url: str) -> str:
    """The URL of a proxy. ValueError if a control character is encoded in it: in a user or a password, libcurl then connects without the proxy."""
    if re.search("%[01][0-9A-Fa-f]", url):
        raise ValueError("the URL of the proxy has an encoded control character (%00 to %1F); write its user and password without it")
    return url


def repository_of(reference: str) -> str:
    """Registry and repository of a reference, as the core parses it."""
    first, slash, rest = reference.partition("/")
    registry, path = (first.lower(), rest) if slash and ("." in first or ":" in first or first == "localhost") else ("docker.io", reference)
    path = path.partition("@")[0].partition(":")[0]
    return f"docker.io/{'' if '/' in path else 'library/'}{path}" if registry in ("docker.io", "index.docker.io") else f"{registry}/{path}"


class Access:
    """How one registry, named as in a reference, is reached: over http or not, and to which other hosts alone requests go, if any are named."""

    def __init__(self, registry: str, plain: bool, hosts: Iterable[str] = (), authority: Path | None = None,
                 certificate: Path | None = None, private_key: Path | None = None, proxy: str | None = None) -> None:
        self.registry, self.plain, self.hosts, self.proxy = registry, plain, {host.lower() for host in hosts}, proxy_of(proxy or "")
        self.authority, self.certificate, self.private_key = authority, certificate, private_key
        url = f"{'http' if plain else 'https'}://{'index.' if registry == 'docker.io' else ''}{registry}/v2/"
        self.own = own = place_of(url) if URL.fullmatch(url) else Place("", "", 0, "")  # which the core refuses
        self.base = f"{own.scheme}://{own.host}{'' if own.port == PORTS.get(own.scheme) else f':{own.port}'}{own.path}"  # as the core writes it

    def is_near(self, place: Place) -> bool:
        """Whether its address may be any: the registry, and hosts that the user named."""
        return place[1:3] == self.own[1:3] or place.host in self.hosts

    def check(self, place: Place, headers: list[list[str]], realms: set[Place]) -> None:
        """Raises why a request is not sent there; the registry named the realms directly before."""
        if place.scheme == "http" and not (self.plain and place[:3] == self.own[:3]):
            raise ValueError("it is not requested, since http is for the registry alone, with --http")
        if self.hosts and place.host not in {*self.hosts, self.own.host, self.registry}:
            raise ValueError(f"it is not requested, since --allow-host does not name {place.host}")
        if not (self.is_near(place) or is_public(place.host)):
            raise ValueError(f"it is not requested, since {place.host} is not a public address; name it by --allow-host if you trust it")
        if not all(FIELD.fullmatch(f"{name}:{value}\n".encode()) for name, value in headers):
            raise ValueError("it is not requested, since a header of it is malformed")
        below = place.path.startswith("/v2/") and "/.." not in unquote(place.path).replace("\\", "/")  # as some servers read it
        if not below and place not in realms and any(name.lower() == "authorization" for name, _ in headers):
            raise ValueError("it is not requested, since credentials are sent below /v2/ and to the realm alone")

    def proxy_to(self, place: Place) -> str:
        """The proxy by which a place is reached, or nothing. The environment's proxy is not used for this machine."""
        if self.proxy or is_loopback(place.host):
            return self.proxy
        from urllib.request import getproxies, proxy_bypass  # which take a while
        found = {} if proxy_bypass(f"{place.host}:{place.port}") else getproxies()
        return proxy_of(found.get(place.scheme) or found.get("all") or "")
