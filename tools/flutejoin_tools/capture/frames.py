"""What the frames of captures carry, by their link types and EtherTypes."""
from __future__ import annotations

ETHERNET, COOKED, COOKED_2 = 1, 113, 276  # link types, https://www.tcpdump.org/linktypes.html
RAW_IP = (12, 14, 101, 228, 229)  # link types of bare IP packets
LOOPBACK = (0, 108)  # link types of loopback: a family comes first
# The numbers of IPv4 and IPv6 on loopback, by system.
FAMILIES = (b"\2", b"\n", b"\x17", b"\x18", b"\x1c", b"\x1e")
IP = (b"\x08\x00", b"\x86\xdd")
VLAN_TAGS = (b"\x81\x00", b"\x88\xa8", b"\x91\x00")
MOST_TAGS = 16  # of a frame
TUNNELS = {b"\x88\x47": "MPLS", b"\x88\x48": "MPLS", b"\x88\x64": "PPPoE", b"\x88\xe7": "PBB"}
# EtherTypes of frames without IP packets: ARP, wake-on-LAN, reverse ARP, AppleTalk and its ARP,
# IPX, pauses, slow protocols, PPPoE discovery, EAPOL, LLDP, MVRP, MMRP, PTP, CFM, loopback tests.
ETHERTYPES_WITHOUT_IP = (
    "0806 0842 8035 809b 80f3 8137 8808 8809 8863 888e 88cc 88f5 88f6 88f7 8902 9000"
)
WITHOUT_IP = {bytes.fromhex(kind) for kind in ETHERTYPES_WITHOUT_IP.split()}
MOST_LLC = 1500  # up to this number an EtherType is the length of an LLC frame
SNAP = b"\xaa\xaa\x03"
SNAP_ETHERNET = (SNAP + b"\0\0\0", SNAP + b"\0\0\xf8")  # an EtherType follows (RFC 1042)
SPANNING_TREE, SNAP_CISCO = b"\x42\x42\x03", SNAP + b"\0\0\x0c"
LLC = b"LLC"
OTHER_FAMILY = b"family"


def link_layer(link: int, frame: bytes) -> tuple[bytes | None, int]:
    """The EtherType in the header of a link, and where its payload begins."""
    if link == ETHERNET:
        return frame[12:14], 14
    if link == COOKED:
        return frame[14:16], 16
    if link == COOKED_2:
        return frame[:2], 20
    if link in RAW_IP:
        return IP[0], 0
    if link in LOOPBACK:  # the number is in the byte order of the host that captured
        return IP[0] if frame[:4].strip(b"\0") in FAMILIES else OTHER_FAMILY, 4
    return None, 0


def carried(link: int, frame: bytes) -> tuple[bytes | None, int, tuple[int, ...]]:
    """What a frame carries after its VLAN tags, LLC and SNAP: EtherType, place in the frame, VLANs.

    The EtherType is None for an unknown link type, `LLC` for an LLC frame without one,
    `OTHER_FAMILY` for anything but IP on loopback, and that of a VLAN tag if there are too many.
    """
    kind, start = link_layer(link, frame)
    if kind in IP or kind is None or len(kind) != 2:
        return kind, start, ()
    vlans: tuple[int, ...] = ()
    while True:
        if kind in VLAN_TAGS and len(vlans) < MOST_TAGS:
            vlans += (int.from_bytes(frame[start : start + 2], "big") & 0xFFF,)
            kind, start = frame[start + 2 : start + 4], start + 4
        elif len(kind) == 2 and int.from_bytes(kind, "big") <= MOST_LLC:
            if not frame.startswith(SNAP_ETHERNET, start):
                return LLC, start, vlans
            kind, start = frame[start + 6 : start + 8], start + 8
        else:
            return kind, start, vlans


def is_without_ip(kind: bytes, frame: bytes, start: int) -> bool:
    """Whether a frame is known to carry no IP packet."""
    if kind == LLC:
        return frame.startswith((SPANNING_TREE, SNAP_CISCO), start)
    return kind in WITHOUT_IP
