"""The words of faults and codes, as docs/CODES.md and `rmapctl explain` have them."""

#: Of `line K fault C`.
LINES = {
    1: "no port",
    2: "bad hexadecimal digits",
    3: "bad end marker",
    4: "packet too long",
    5: "no memory",
    6: "no such port, or no such event",
    7: "more packets than the port has room for",
}

#: Of `PORT discard C`.
DISCARDS = {
    1: "the packet is shorter than its header",
    2: "the protocol identifier is not that of RMAP",
    3: "the packet is a reply",
    4: "the header CRC is wrong",
}

_REFUSALS = (
    "a jump leads outside the code or into an instruction",
    "a backward jump is not that of a declared loop",
    "a declared loop does not have the shape of a loop",
    "a loop may begin with a counter outside its bound",
    "an operand may be unset",
    "an operand may be of the wrong kind",
    "an access may lie outside its region",
    "a stack byte that is loaded may be unset",
    "a store may be to a header region",
    "the frame pointer is written",
    "a pointer may be moved too far",
    "a map does not exist, or a key may lie outside it",
    "a call is to an unknown helper",
    "the last instruction is no exit",
    "the weight is above the budget",
    "an instruction is not supported",
    "no memory",
    "a helper is asked of a map of the other kind",
)
_IMAGES = (
    "the image does not begin with BPFA",
    "the image's version is neither 1 nor 2",
    "the image has another length than it declares",
    "a count of the image is out of range",
    "the image's budget is out of range",
    "a loop of the image is out of range",
    "the bytes of a slot spell no instruction",
    "no memory",
)
_CONTROL = {
    0: "the load was carried out",
    65: "no memory",
    66: "no such slot",
    67: "generations full",
    71: "the control data is none of a load",
}

#: Of the first byte of a load result.
LOADS = {**dict(enumerate(_REFUSALS, 1)), **dict(enumerate(_IMAGES, 33)), **_CONTROL}


def said(words: dict[int, str], code: int) -> str:
    """The words of a code, or that there are none."""
    return words.get(code, "no code of the target")
