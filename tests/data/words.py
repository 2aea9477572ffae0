"""Words for `bolt`, and what the program prints for each."""

# What the client sends, its bytes, the bytes of the answer, and the state of the session after them.
ANSWERED = [
    ("HELLO at 5.1",
     "6060B017000001050000040400000000000000000012B101A18A757365725F6167656E7483742F310000",
     "00000105002bb170a2867365727665728b426f6c745461626c652f318d636f6e6e656374696f6e5f696486626f6c742d300000",
     "state Unauth"),
    ("HELLO with a further entry that is no cell",
     "6060B017000001050000040400000000000000000017B101A28A757365725F6167656E7483742F318178B15A000000",
     "00000105002bb170a2867365727665728b426f6c745461626c652f318d636f6e6e656374696f6e5f696486626f6c742d300000",
     "state Unauth"),
    ("HELLO without its last byte",
     "6060B017000001050000040400000000000000000012B101A18A757365725F6167656E7483742F3100",
     "00000105",
     "state Fresh"),
    ("no bytes", "", "", "state Fresh"),
    ("another magic", "6060B01800000105000004040000000000000000", "", "ended E1"),
    ("no known version", "6060B01700000003000000000000000000000000", "00000000", "ended E2"),
    ("HELLO without a user agent", "6060B017000001050000040400000000000000000003B101A00000", "00000105", "ended E4"),
    ("HELLO twice",
     "6060b017000001050000040400000000000000000012b101a18a757365725f6167656e7483742f3100000012b101a18a757365725f61676"
     "56e7483742f310000",
     "00000105002bb170a2867365727665728b426f6c745461626c652f318d636f6e6e656374696f6e5f696486626f6c742d3000000052b17fa"
     "284636f6465d01f4e656f2e436c69656e744572726f722e526571756573742e496e76616c6964876d657373616765d01f72657175657374"
     "206e6f742076616c696420696e20746869732073746174650000",
     "ended E5"),
    ("GOODBYE before HELLO", "6060b017000001050000040400000000000000000002b0020000", "00000105", "ended E7"),
    ("HELLO at 4.4, which logs on",
     "6060b01700000404000000000000000000000000003fb101a48a757365725f6167656e7483742f3186736368656d6585626173696389707"
     "2696e636970616c84757365728b63726564656e7469616c7384706173730000",
     "00000404002bb170a2867365727665728b426f6c745461626c652f318d636f6e6e656374696f6e5f696486626f6c742d300000",
     "state Ready"),
    ("LOGON with other credentials",
     "6060b017000001050000040400000000000000000012b101a18a757365725f6167656e7483742f310000002fb16aa386736368656d65856"
     "261736963897072696e636970616c84757365728b63726564656e7469616c73836261640000",
     "00000105002bb170a2867365727665728b426f6c745461626c652f318d636f6e6e656374696f6e5f696486626f6c742d300000004fb17fa"
     "284636f6465d0254e656f2e436c69656e744572726f722e53656375726974792e556e617574686f72697a6564876d657373616765d01661"
     "757468656e7469636174696f6e20726566757365640000",
     "ended E6"),
    ("LOGON of the user",
     "6060b017000001050000040400000000000000000012b101a18a757365725f6167656e7483742f3100000030b16aa386736368656d65856"
     "261736963897072696e636970616c84757365728b63726564656e7469616c7384706173730000",
     "00000105002bb170a2867365727665728b426f6c745461626c652f318d636f6e6e656374696f6e5f696486626f6c742d3000000003b170a"
     "00000",
     "state Ready"),
    ("version 5.0 before 4.4", "6060b01700000005000004040000000000000000", "00000005", "state Fresh"),
    ("HELLO at 5.0, which logs on",
     "6060b01700000005000000000000000000000000003fb101a48a757365725f6167656e7483742f3186736368656d6585626173696389707"
     "2696e636970616c84757365728b63726564656e7469616c7384706173730000",
     "00000005002bb170a2867365727665728b426f6c745461626c652f318d636f6e6e656374696f6e5f696486626f6c742d300000",
     "state Ready"),
    ("version 4.4 after an unknown one", "6060b01700000003000004040000000000000000", "00000404", "state Fresh"),
    ("a range of versions", "6060b01700020105000000000000000000000000", "00000105", "state Fresh"),
    ("rows in two PULLs",
     "6060b01700000404000000000000000000000000003fb101a48a757365725f6167656e7483742f3186736368656d6585626173696389707"
     "2696e636970616c84757365728b63726564656e7469616c7384706173730000000cb31084524f5753a1816e03a000000006b13fa1816e02"
     "00000006b13fa1816e020000",
     "00000404002bb170a2867365727665728b426f6c745461626c652f318d636f6e6e656374696f6e5f696486626f6c742d3000000016b170a"
     "2866669656c647391816987745f66697273740000000004b171910100000004b17191020000000db170a1886861735f6d6f7265c3000000"
     "04b171910300000020b170a388626f6f6b6d61726b84626b3a318474797065817286745f6c617374000000",
     "state Ready"),
    ("rows that are discarded",
     "6060b01700000404000000000000000000000000003fb101a48a757365725f6167656e7483742f3186736368656d6585626173696389707"
     "2696e636970616c84757365728b63726564656e7469616c7384706173730000000cb31084524f5753a1816e03a000000006b12fa1816eff"
     "0000",
     "00000404002bb170a2867365727665728b426f6c745461626c652f318d636f6e6e656374696f6e5f696486626f6c742d3000000016b170a"
     "2866669656c647391816987745f66697273740000000020b170a388626f6f6b6d61726b84626b3a318474797065817286745f6c61737400"
     "0000",
     "state Ready"),
    ("COMMIT, and then bytes that are no request",
     "6060b01700000404000000000000000000000000003fb101a48a757365725f6167656e7483742f3186736368656d6585626173696389707"
     "2696e636970616c84757365728b63726564656e7469616c73847061737300000003b111a000000002b01200000001c00000",
     "00000404002bb170a2867365727665728b426f6c745461626c652f318d636f6e6e656374696f6e5f696486626f6c742d3000000003b170a"
     "000000011b170a188626f6f6b6d61726b84626b3a310000",
     "ended E4"),
    ("PULL without a result",
     "6060b01700000404000000000000000000000000003fb101a48a757365725f6167656e7483742f3186736368656d6585626173696389707"
     "2696e636970616c84757365728b63726564656e7469616c73847061737300000006b13fa1816eff0000",
     "00000404002bb170a2867365727665728b426f6c745461626c652f318d636f6e6e656374696f6e5f696486626f6c742d3000000052b17fa"
     "284636f6465d01f4e656f2e436c69656e744572726f722e526571756573742e496e76616c6964876d657373616765d01f72657175657374"
     "206e6f742076616c696420696e20746869732073746174650000",
     "ended E5"),
    ("LOGON at 4.4, which has none",
     "6060b01700000404000000000000000000000000003fb101a48a757365725f6167656e7483742f3186736368656d6585626173696389707"
     "2696e636970616c84757365728b63726564656e7469616c73847061737300000030b16aa386736368656d65856261736963897072696e63"
     "6970616c84757365728b63726564656e7469616c7384706173730000",
     "00000404002bb170a2867365727665728b426f6c745461626c652f318d636f6e6e656374696f6e5f696486626f6c742d300000",
     "ended E4"),
    ("bytes after the end of a session",
     "6060b017000001050000040400000000000000000002b00200000012b101a18a757365725f6167656e7483742f310000",
     "00000105",
     "ended E7"),
]
# A version, the bytes of a value, what `check` prints, and its status.
CHECKED = [
    ("5.1", "C90001", "ok 01", 0),
    ("4.4", "C17FF0000000000001", "ok c17ff0000000000001", 0),
    ("5.1", "A2816101816102", "refused P5 at 4", 1),
    ("5.1", "", "refused P1 at 0", 1),
    ("5.1", "0102", "refused P7 at 1", 1),
    ("5.1", "D6000F4240", "refused P1 at 5", 1),
    ("5.1", "D6FFFFFFFF", "refused P1 at 5", 1),
    ("4.4", "B34E01918141A0", "ok b34e01918141a0", 0),
    ("4.4", "B144C948E5", "ok b144c948e5", 0),
    ("5.1", "B144C948E5", "ok b144c948e5", 0),
    ("5.1", "B34E01918141A0", "refused S2 at 0", 1),
    ("5.0", "B34E01918141A0", "refused S2 at 0", 1),
    ("5.0", "B3490000C90E10", "ok b3490000c90e10", 0),
    ("5.0", "B346C90E1000C90E10", "refused S6 at 0", 1),
    ("5.1", "B44E01918141A08131", "ok b44e01918141a08131", 0),
    ("4.4", "B346C90E1000C90E10", "ok b346c90e1000c90e10", 0),
    ("5.1", "B346C90E1000C90E10", "refused S6 at 0", 1),
    ("5.1", "B3490000C90E10", "ok b3490000c90e10", 0),
    ("4.4", "B3490000C90E10", "refused S6 at 0", 1),
    ("4.4", "92B14400B2440000", "refused S2 at 1", 1),
    ("5.1", "B15A00", "refused S1 at 0", 1),
    ("5.1", "B445000000CA3B9ACA00", "refused S4 at 0", 1),
    ("5.1", "B25400CA0000FD21", "refused S4 at 0", 1),
    ("5.1", "B25400CA0000FD20", "ok b25400ca0000fd20", 0),
    ("4.4", "B25400CA0000FD20", "ok b25400ca0000fd20", 0),
    ("4.4", "B346CB80000000000000000001", "refused S4 at 0", 1),
    ("4.4", "B350909090", "refused S5 at 0", 1),
    ("4.4", "B144C0", "refused S3 at 0", 1),
    # An offset of more than 18 hours.
    ("4.4", "B25400CA0000FD21", "refused S4 at 0", 1),
    # The nanoseconds of a whole day.
    ("4.4", "B254CB00004E94914F000000", "refused S4 at 0", 1),
    # A path with the index of a relationship that it doesn't have.
    ("4.4", "B35091B34E0190A090920100", "refused S5 at 0", 1),
    # A moment in a zone, in its older form, at both later versions.
    ("5.1", "B366000083555443", "refused S6 at 0", 1),
    ("5.0", "B366000083555443", "refused S6 at 0", 1),
]
# A message or value, its bytes, and what `check 5.1` prints. Each proper prefix of the bytes is too short (P1).
WHOLE = [
    ("HELLO at 4.4",
     "B101A48A757365725F6167656E7483742F3186736368656D65856261736963897072696E636970616C84757365728B63726564656E74696"
     "16C738470617373",
     "refused S1 at 0"),
    ("LOGON",
     "B16AA386736368656D65856261736963897072696E636970616C84757365728B63726564656E7469616C738470617373",
     "refused S1 at 0"),
    ("SUCCESS of RUN", "B170A2866669656C647391816987745F666972737400", "refused S1 at 0"),
    ("FAILURE",
     "B17FA284636F6465D0254E656F2E436C69656E744572726F722E53746174656D656E742E556E6B6E6F776E54657874876D6573736167658"
     "C756E6B6E6F776E2074657874",
     "refused S1 at 0"),
    ("RECORD of a path at 4.4", "B17191B35092B34E01918141A0B34E02918142A091B3720782544FA0920101", "refused S1 at 0"),
    ("RECORD of a path at 5.1",
     "B17191B35092B44E01918141A08131B44E02918142A0813291B4720782544FA08137920101",
     "refused S1 at 0"),
    ("parameters", "A2836B657981618576616C756501", "ok a2836b657981618576616c756501"),
]
# Words whose last one is no hex.
NO_HEX = [["answer", "606"], ["answer", "6g"], ["check", "4.4", "0"]]
# Words that are no command, and the line that says which word is wrong and what the program expects there.
WRONG = [
    (["serve", "0", "1"], "error: word 2 is `0`, wanted is PORT, a number from 1 to 65535"),
    (["serve", "99999", "1"], "error: word 2 is `99999`, wanted is PORT, a number from 1 to 65535"),
    (["serve", "x", "1"], "error: word 2 is `x`, wanted is PORT, a number from 1 to 65535"),
    (["serve", "--", "1"], "error: word 2 is `--`, wanted is PORT, a number from 1 to 65535"),
    (["serve", "7687", "1000001"], "error: word 3 is `1000001`, wanted is COUNT, a number from 0 to 1000000"),
    (["serve", "7687", "-1"], "error: word 3 is `-1`, wanted is COUNT, a number from 0 to 1000000"),
    (["serve", "7687"], "error: word 3 is missing, wanted is COUNT, a number from 0 to 1000000"),
    (["serve"], "error: word 2 is missing, wanted is PORT, a number from 1 to 65535"),
    (["serve", "7687", "1", "x"], "error: word 4 is `x`, wanted is no further word"),
    (["shell", "localhost", "65536"], "error: word 3 is `65536`, wanted is PORT, a number from 1 to 65535"),
    (["shell", "-4", "7687"], "error: word 2 is `-4`, wanted is HOST, a name or an address that begins with no hyphen"),
    (["check", "5.2", "01"], "error: word 2 is `5.2`, wanted is VERSION, which is 4.4, 5.0 or 5.1"),
    (["check", "5.1"], "error: word 3 is missing, wanted is HEX, bytes as pairs of hex digits"),
    (["answer", "--", "6060"], "error: word 2 is `--`, wanted is HEX, bytes as pairs of hex digits"),
    (["answer"], "error: word 2 is missing, wanted is HEX, bytes as pairs of hex digits"),
    (["replay", "one", "two"], "error: word 3 is `two`, wanted is no further word"),
    (["loop", "-f"], "error: word 2 is `-f`, wanted is FILE, a path that begins with no hyphen"),
    (["vectors", "01"], "error: word 2 is `01`, wanted is no further word"),
    (["serv", "7687"], "error: word 1 is `serv`, wanted is a command, perhaps serve"),
    (["serv", "7687", "1"], "error: word 1 is `serv`, wanted is a command, perhaps serve"),
    (["answers", "01"], "error: word 1 is `answers`, wanted is a command, perhaps answer"),
    (["cehck"], "error: word 1 is `cehck`, wanted is a command, perhaps check"),
    (["lo"], "error: word 1 is `lo`, wanted is a command, perhaps loop"),
    (["dance"], "error: word 1 is `dance`, wanted is a command"),
    (["--version"], "error: word 1 is `--version`, wanted is a command"),
    ([""], "error: word 1 is ``, wanted is a command"),
    (["a\nheard 4 Committed Ready"], "error: word 1 is `a\\nheard 4 Committed Ready`, wanted is a command"),
    (["serve", "\x1b[2J", "1"], "error: word 2 is `\\u{1b}[2J`, wanted is PORT, a number from 1 to 65535"),
]
# Words that ask for help.
HELPED = [[], ["help"], ["--help"], ["-h"], ["help", "serve"], ["serve", "--help"]]
# Lines of the help: each command with its words, an example of each, and the meaning of each exit status.
HELP = [
    "  answer HEX  ",
    "  check VERSION HEX  ",
    "  replay FILE  ",
    "  loop FILE  ",
    "  serve PORT COUNT  ",
    "  vectors  ",
    "  shell HOST PORT  ",
    "   bolt answer 6060",
    "   bolt check 5.1 C90001\n",
    "   bolt replay script.txt\n",
    "   bolt loop requests.txt\n",
    "   bolt serve 7687 1\n",
    "   bolt vectors\n",
    " | bolt shell 127.0.0.1 7687\n",
    "\n  0  it is done\n",
    "\n  1  a value is refused, a vector fails, or a file, a port, a host or an output can't be\n"
    "     had (fault I1, fault I2)\n",
    "\n  2  the words are no command, or what is to be read can't be (fault I4,\n     line N unreadable)\n",
    "\n  3  there is not enough memory (fault I3)\n",
]
