"""The addresses of IPv4 and IPv6, as capt prints them."""
import ipaddress


def address_of(text: str) -> str:
    """An address as capt prints it; a ValueError if it is none."""
    return _ipv6(text) if ":" in text else str(ipaddress.IPv4Address(text))


def _ipv6(text: str) -> str:
    """The form of RFC 5952, even if the address maps an IPv4 address: for these, newer versions of Python have another
    form. No packet has an address with a zone, such as fe80::1%eth0."""
    if "%" in text:
        raise ValueError(text)
    address = ipaddress.IPv6Address(text)
    if address.ipv4_mapped is None:
        return str(address)
    low = int(address) & 0xFFFFFFFF
    return f"::ffff:{low >> 16:x}:{low & 0xFFFF:x}"
