"""QR codes, by python3-qrcode."""

import functools

QUIET = 4  # modules around the code, as ISO/IEC 18004 asks for


@functools.lru_cache(maxsize=8)
def modules_of(text: str) -> tuple[tuple[bool, ...], ...]:
    """Return the modules of a code with its quiet zone, row by row. True is dark."""
    import qrcode  # only once there is something to print, because it needs memory
    import qrcode.constants
    import qrcode.util

    code = qrcode.QRCode(error_correction=qrcode.constants.ERROR_CORRECT_M, border=QUIET)
    code.add_data(qrcode.util.QRData(text.encode("ascii"), qrcode.util.MODE_8BIT_BYTE))
    code.make(fit=True)
    return tuple(tuple(bool(it) for it in row) for row in code.get_matrix())
