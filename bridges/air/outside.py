"""PDUs of an outside node, as lines that a node is told."""
PIECE = 12
MOST_UNSEGMENTED = 11
MIC = 4


def talk(net_key: str, key: str, iv_index: str, seq: int, src: int, dst: int, payload: str) -> list[str]:
    """The lines of an access message, each a PDU; they take as many numbers, from `seq` on."""
    size = len(payload) // 2
    pieces = ['u'] if size <= MOST_UNSEGMENTED else [str(place) for place in range(-(-(size + MIC) // PIECE))]
    return [f'talk {net_key} {key} {iv_index} 04 {seq:06x} {seq + place:06x} {src:04x} {dst:04x} {piece} {payload}'
            for place, piece in enumerate(pieces)]
