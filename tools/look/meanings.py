"""What each word of a report, a verdict and an end of the program means, and what to do about it.

The meanings are those of docs/FORMATS.md, "The report", "An audit", "Exits" and "A node in a file".
"""
from typing import NamedTuple


class Meaning(NamedTuple):
    """What a word says, and what to do; nothing where all is as it should be."""
    says: str
    do: str = ''


ANSWERS = {
    'unread': Meaning(
        'The octets have no reading: of a PDU there is no network key, no credentials of a '
        'friendship and neither the current IV Index nor the one before under which they open; of '
        'a beacon they are no beacon of a key held.',
        'Look at NETKEY of `provision` and at the key of the line, at the IV Index, of which one '
        'before the current is heard and none after it, and at whether the friendship still '
        'stands: it ends with the life, and where no Poll comes in time.'),
    'badaddress': Meaning('SRC isn\'t unicast, or DST is 0000.',
                          'A SRC is 0001 to 7fff; give the message a DST.'),
    'own': Meaning('SRC is the address of an element of this node, so the PDU is one of its own.',
                   'Nothing, where it is an echo; else give the sender another address.'),
    'cached': Meaning(
        'Its SRC, IV Index and SEQ are among the last 128 of this life that got past `own` and '
        'weren\'t cached: the same PDU came before, perhaps on another bearer or by a relay.',
        'Nothing; a new message needs a new SEQ.'),
    'notmine': Meaning(
        'DST isn\'t of this node: no element, no fixed group that it hears (ffff; fffd where '
        'Friend is on, fffe where Relay is on), no group or virtual address that a model is '
        'subscribed to. It may still be relayed or stored for a Low Power node.',
        'To be heard, send to an element, or subscribe a model by Model Subscription Add or '
        'Virtual Address Add.'),
    'malformed': Meaning(
        'No lower transport PDU has this text: an unsegmented access message of fewer than 5 '
        'octets behind the first, SegO above SegN, a piece before the last that isn\'t full, or '
        'no SeqAuth.', 'Look at TPDU, octet by octet: FORMATS, "Lower transport PDU".'),
    'again': Meaning(
        'A piece of a message that was accepted from segments in this life, and is the entry of '
        'its SRC: it isn\'t delivered, and to a unicast DST it is acknowledged once more.',
        'Nothing: the sender missed an acknowledgment.'),
    'replay': Meaning(
        'SRC has an entry in the replay list, which is shown, and the name of this message isn\'t '
        'greater by (IV Index, SEQ). It came before, or behind one that was sent later, or the '
        'sender uses numbers again.',
        'Nothing, where the message came once more. Else the sender has to go on above this SEQ '
        'under this IV Index, or under a greater IV Index; a sender that lost its SEQ is heard '
        'again once the IV Index rose.'),
    'noroom': Meaning(
        'A segment of a new message, and eight others are in progress, whose names are shown '
        '(SRC/IV/SEQ). To a unicast DST it is answered by BlockAck 0, so the sender stops.',
        'Send again when one of these is whole, or 1000 ticks after its last new piece.'),
    'conflict': Meaning(
        'The piece is at odds with those of its message: another DST, network key, kind, AKF, '
        'AID or opcode, SZMIC or SegN, or another text under this SegO. The earlier pieces stay.',
        'Send the message anew, all pieces from one text, under a new SeqAuth.'),
    'waiting': Meaning('A segment was taken, and so many pieces of its message are missing.',
                       'Send the other pieces within 1000 ticks.'),
    'nokey': Meaning(
        'An access message that no key opens: of AKF 0 the device key, which is tried where DST '
        'is unicast; of AKF 1 the application keys of this network key with this AID; to a '
        'virtual address with each label that has it.',
        'Look at the key, at whether AppKey Add was delivered before and for this network key, '
        'at DST and SRC, which are sealed along, and at AUTH of a message in segments.'),
    'listfull': Meaning(
        'SRC has no entry in the replay list, and so many others have one, which is all it holds.',
        'Places become free once the IV Index rose twice; use fewer sources.'),
    'control': Meaning('A control message was accepted; its replay entry is on flash.'),
    'delivered': Meaning(
        'An access message was accepted and handed to the models; its replay entry is on flash.',
        'Where nothing happens all the same: is the model bound to this key (Model App Bind), is '
        'DST its element or a group of it, is the opcode one of FORMATS?'),
    'beacon': Meaning(
        'A Secure Network beacon of this network key. KEYSTEP tells what it did to the phase of '
        'a Key Refresh, IVSTEP what to the IV Index; `ignore` has the number of the rule that '
        'held.'),
    'planned': Meaning(
        'What the node was asked to send is a job, unless it is stored for a Low Power node.'),
    'noappkey': Meaning('No application key has this index.',
                        'Have AppKey Add delivered first, under the device key.'),
    'ticked': Meaning('Time passed; NOW is the ticks of 10 ms of this life.'),
    'moved': Meaning(
        'The segments of an own message don\'t begin to go: the transmit IV Index, which is '
        'shown, isn\'t that of its SeqAuth.', 'Send the message again.'),
    'befriended': Meaning(
        'The segments of an own message don\'t begin to go, since DST is an address of a '
        'friendship, and only messages of at most 11 octets are stored for it.',
        'Send at most 11 octets.'),
    'sendfull': Meaning(
        'The segments of an own message don\'t begin to go: so many own messages are '
        'unacknowledged.', 'Wait until one is acknowledged, or has had its rounds.'),
    'begun': Meaning('The segments of an own message follow.'),
    'kept': Meaning('The octets that answered a Poll are kept, for a Poll with the same FSN.'),
    'dropped': Meaning('The octets that answered a Poll aren\'t awaited any more.'),
    'segmented': Meaning(
        'The transport PDU is a segment, and a Low Power node takes none.',
        'Send at most 11 octets to it.'),
    'unasked': Meaning(
        'It came under friendship credentials, and no Poll of this Low Power node is open: it was '
        'closed by an answer, or there was none.', 'Poll first: a Poll lets one PDU in.'),
    'repeat': Meaning(
        'It has the SRC, IV Index and SEQ of the PDU that closed the last Poll: the friend sent its '
        'answer once more. The Poll stays open.', 'Nothing; the next Poll has the other FSN.'),
    'sought': Meaning('A Friend Request goes out; a friendship that stood is over.'),
    'polled': Meaning('A Friend Poll goes out, and one PDU of the friend is let in.'),
    'listed': Meaning('A Friend Subscription List Add goes out, and the address is the node\'s.'),
    'toomany': Meaning('So many other addresses were listed, which is all that the list holds.',
                       'List fewer addresses in a life.'),
    'nofriend': Meaning('This Low Power node has no friend: no Offer was taken since it last looked '
                        'for one, or since the life began.',
                        'Look for one (`seek`), and wait for an Offer.'),
    'reset': Meaning('There was a Node Reset in this life; nothing is heard or sent behind it.',
                     'Provision the node anew.')}

IGNORED = {
    '1': 'its IV Index is below the known one', '2': 'its IV Index is more than 42 above',
    '3': 'it is of another network key than 000, which the node holds, and above',
    '4': 'fewer than 96 hours passed in this state', '5': 'it tells what the node knows',
    '6': 'fewer than 192 hours passed since the last recovery'}
"""Why the IV Index of a beacon was ignored, by the number of the rule."""

RESULTS = {
    'ctl': Meaning('A control message of the node went out, as one network PDU.'),
    'msg': Meaning('An access message of the node went out, as one network PDU.'),
    'seg': Meaning('A segment of an own message went out; AUTH is its SeqAuth.'),
    'relay': Meaning('A PDU of another node was passed on, or handed to a Low Power node.'),
    'long': Meaning('An access message was sealed, to go in segments; it begins at a later entry.'),
    'rep': Meaning('The octets that answered the same Poll before went once more.'),
    'bcn': Meaning('A Secure Network beacon went out.'),
    'spent': Meaning('No SEQ was left under this IV Index, and nothing went out.',
                     'An IV Update gives new numbers.'),
    'late': Meaning(
        'The pair drawn for a segment is of another IV Index than SeqAuth, or more than 8,191 '
        'above it; nothing went out.', 'Send the message again.')}

VERDICTS = {
    'sound': Meaning('No nonce was used twice, no message accepted twice, all octets are under '
                     'the keys given; N lines were read.'),
    'reuse': Meaning(
        'Lines A and B show PDUs of one own SRC, IV Index and SEQ with different octets, or access '
        'payloads of one SRC, IV Index, SEQ, DST and key that differ: a nonce was used twice.',
        'No report of one run of a proved program has it: look at whether two runs were joined, '
        'or lines changed. Else report it as a fault, before all others.'),
    'twice': Meaning(
        'Lines A and B both accepted a message of one SRC, IV Index and SEQ.',
        'As with `reuse`: a report of one run has it never.'),
    'bad': Meaning(
        'The octets of line B are under no key given those of a PDU with the fields that it tells.',
        'Give every key that sealed PDUs, also of friendships (key KEY/LPN/FRIEND/LPNCOUNTER/'
        'FRIENDCOUNTER) and the new one of a Key Refresh, 16 at most.')}

EXITS = {
    'usage': (2, Meaning('The words are no command.', 'meshnode run, lpn, audit or gen: explain --help has their words.')),
    'script': (3, Meaning('The text is no script: nothing was run.')),
    'readfault': (4, Meaning('Standard input failed.',
                             'Give a file or a pipe: meshnode run < FILE')),
    'writefault': (5, Meaning('Standard output failed; a front of what is due was written.',
                              'Is the disk full, or the reader of the pipe gone?')),
    'memory': (6, Meaning('Memory ran out; the report of the first lives, or nothing, was '
                          'written.')),
    'toolong': (7, Meaning('There are more than 4,194,304 octets.', 'Cut the text.')),
    'noterased': (8, Meaning('An octet of the flash isn\'t ff; AT is the first one.',
                             'A flash is erased before it is provisioned.')),
    'flashfault': (9, Meaning('The flash failed before the first life.')),
    'report': (11, Meaning('The text is no input of an audit.'))}
"""The names that the program prints, with its exit status."""

SAID = {'sound': 'sound N', 'reuse': 'reuse A B', 'twice': 'twice A B', 'bad': 'bad B',
        'script': 'script LINE RULE', 'noterased': 'noterased AT', 'report': 'report LINE',
        **{word: word for word in ('usage', 'readfault', 'writefault', 'memory', 'toolong',
                                   'flashfault')}}
"""Verdicts and names of ends with the numbers behind them."""

NEW_NODE = ('Make a new node, with another unicast address, another device key and the network\'s '
            'present IV Index, and remove the old file, which has the keys.')

DAEMON_EXITS = {
    'usage': (2, Meaning('The words are no command.', 'meshnoded --help lists them.')),
    'readfault': (4, Meaning('Standard input failed or is closed; with --clock it may be the clock.')),
    'writefault': (5, Meaning('Standard output failed, is closed, or nobody reads it; a front of what is due '
                              'was written.', 'Is the disk full, or the reader of the pipe gone?')),
    'memory': (6, Meaning('Memory ran out.', 'Run it again: the file opens.')),
    'flashfault': (9, Meaning('The file refused a write as the life was opened: no life was run.',
                              'Look at the disk: is it full, or read-only?')),
    'cut': (12, Meaning('The file refused a write in the life: it was cut as by a loss of power, and the file is '
                        'one of the images that this leaves.', 'Look at the disk, then run it again.')),
    'errorsfault': (13, Meaning('A wrong line couldn\'t be told on standard error, which failed or is closed.')),
    'wasreset': (14, Meaning('There was a Node Reset: the node can\'t be run any more.', NEW_NODE)),
    'keys': (15, Meaning('Standard input isn\'t two keys.', 'Give the network key and the device key, each 32 '
                         'hexadecimal digits, with a space or a line break between them.')),
    'nofile': (16, Meaning('The file isn\'t there, isn\'t a file with one name, is locked, has another size, or '
                           'holds no node; or the system refused a call.')),
    'notmade': (17, Meaning('The file is there, or wasn\'t made.')),
    'noclock': (18, Meaning('--clock: the system gave no thread, or no clock; nothing was opened.'))}
"""The names that meshnoded tells, with its exit status."""

NO_FILE = {
    'there is no such file': 'Name the file; `meshnoded init` makes one.',
    'it is no file': 'Name the file itself, and no folder, link or device.',
    'it has a second name': 'Remove the other name, a hard link.',
    'another process has it': 'Its node runs, or a show or check of it: wait, or stop that.',
    'it has N octets, and not 65536': f'Something else cut it or made it longer. {NEW_NODE}',
    'no node was provisioned': f'Neither bank has a sound header. {NEW_NODE}',
    'the header of bank B could come to count': f'This program didn\'t write it; a file of zeros says so. {NEW_NODE}',
    'slot N is damaged': f'Octets were changed: look at the disk. {NEW_NODE}',
    'the records aren\'t those of a node': f'Octets were changed: look at the disk. {NEW_NODE}'}
"""What stands behind `nofile`, and what to do; N and B are numbers."""

NOT_MADE = {
    'there is such a file': 'It stays as it is: name another one.',
    'there is a file of this name with .new behind it': 'Another init makes it, or was killed as it did: then remove '
                                                        'it, since it has keys.'}
"""What stands behind `notmade`, and what to do."""

BY_THE_SYSTEM = 'The system refused a call; mend what it says.'

REPORT_LINES = {
    'life': 'a life opened: known IV Index, n or p (IV Update in Progress), transmit IV Index, '
            'next SEQ; or it wasn\'t run: wasreset, cut',
    'e': 'an entry of the history: its number, its bearer, the bearer\'s entries so far in this '
         'life, its kind and its answer',
    's': 'a job that a bearer did: the entry and its job there, and what became of it',
    'end': 'the life ended',
    'cut': 'the life was cut; so many program and erase calls were begun'}

RULES_TO_DO = {
    1: 'Cut the line, or take the octet out. A tab is no space, and CR stands only before LF.',
    2: 'Begin with a line `provision`, as examples/no_pdus.mesh does.',
    3: 'Write one of the words that are due. A space before the first word makes an empty word.',
    4: 'Give the words that are due, one or more spaces between them; a space behind the last one '
       'makes an empty word.',
    5: 'Mend the word that is marked.',
    6: 'Take the line away, or put it behind a `life` of its own.',
    7: 'Cut the script into two.'}
