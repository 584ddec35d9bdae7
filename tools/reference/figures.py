"""What the manuals of the instruments give as bytes or as a table.

The manuals are those of the SLA series, of the 4800 series and of the GF
series; where nothing else is said, all three have the figure. Their pictures
of complete frames hold no bytes that can be read as text, so no frame is here.
What is built otherwise is named beside the figure.
"""

# --- Frames ---

# The start character, by the kind of message: short frame, long frame.
START_OF_REQUEST = (0x02, 0x82)
START_OF_RESPONSE = (0x06, 0x86)

# How many bytes the address field has in a short and in a long frame.
ADDRESS_WIDTHS = (1, 5)

# Every message is preceded by characters FF; a device needs two of them.
PREAMBLE = 0xFF
LEAST_PREAMBLES = 2

# The manufacturer code of Brooks, in the first byte of a long address.
MANUFACTURER = 10

# The device type code, by the series of the manual.
DEVICE_TYPES = {"SLA": 100, "4800": 70, "GF": 90}

# The most data bytes there are. Here a request may have up to 255.
MOST_DATA = 24

# --- Packed text ---

# The worked example: a tag name; its letters; the six low bits of each; packed.
TAG_NAME = "MFC-1234"
TAG_LETTERS = bytes.fromhex("4D 46 43 2D 31 32 33 34")
TAG_SIX_BITS = bytes.fromhex("0D 06 03 2D 31 32 33 34")
TAG_SIX_BITS_BINARY = "001101 000110 000011 101101 110001 110010 110011 110100"
TAG_PACKED_BINARY = "00110100 01100000 11101101 11000111 00101100 11110100"
TAG_PACKED = bytes.fromhex("34 60 ED C7 2C F4")

# The 64 codes, 00 to 3F, and the letter of each. Two manuals print another
# letter in some places (27 and 2E, for example); the GF manual has these.
CODES = ("@ABCDEFGHIJKLMNO"
         "PQRSTUVWXYZ[\\]^_"
         " !\"#$%&'()*+,-./"
         "0123456789:;<=>?")

# --- Numbers ---

# What a device fills in where a number is not used: not a number.
NOT_USED_NUMBER = bytes.fromhex("7F A0 00 00")

# Worth of a pattern: sign 1.M x 2^(E - 127). So 1, 100 and minus 2 are these.
FLOATS = {1: 0x3F800000, 100: 0x42C80000, -2: 0xC0000000}

# --- Status ---

# The first byte of a communication error, by the error. Here an overflow of the
# receive buffer (82) is never told: what is longer than a frame meets silence.
COMMUNICATION_ERRORS = {"parity": 0xC0, "overrun": 0xA0, "framing": 0x90,
                        "checksum": 0x88}
NEVER_TOLD = {"reserved": 0x84, "rx buffer overflow": 0x82}

# The command errors that are given here, by their number.
COMMAND_ERRORS = {
    0: "non command specific error", 2: "invalid selection",
    3: "passed parameter too large", 4: "passed parameter too small",
    5: "incorrect byte count", 7: "in write-protect mode", 16: "access restricted",
    64: "command not implemented",
}
# Those that are not.
NEVER_GIVEN = {1: "undefined", 6: "transmitter specific command error",
               8: "command specific errors, to 15", 32: "device is busy"}

# Bit 6 of the second byte: the configuration was changed. The others are 0 here:
# 7 malfunction, 5 cold start, 4 more status available, 3 and 2 analog output, 1
# and 0 variables out of range.
CONFIGURATION_CHANGED = 1 << 6

# --- Commands ---

# Of each command: how many data bytes a request has, how many the response has
# beside its status, and the numbers that its list of response codes has.
# Here reading commands disregard request data and never give 5; 11 with another
# count meets silence; and 16 is given by 236 alone.
COMMANDS = {
    0: (0, 12, (0, 5)),
    1: (0, 5, (0, 5)),
    6: (1, 1, (0, 2, 5, 7, 16)),
    11: (6, 12, (0, 5)),
    12: (0, 24, (0, 5)),
    13: (0, 21, (0, 5)),
    16: (0, 3, (0, 5)),
    17: (24, 24, (0, 5, 7)),
    18: (21, 21, (0, 5, 7)),
    19: (3, 3, (0, 5, 7)),
    38: (0, 0, (0, 5, 7, 16)),
    59: (1, 1, (0, 3, 4, 5, 7, 16)),
    235: (0, 10, (0,)),
    # The list of this one has 3 for too small and 4 for too large; here it is the
    # other way round, as in the table of status bytes and in the list of 59.
    236: (5, 10, (0, 2, 3, 4, 5, 7)),
}

# The identifier, response data of 0 and 11: byte 0 is 254, the code for
# expansion, byte 1 the manufacturer, byte 2 the device type; byte 7 has the
# hardware revision in its upper five bits and the signalling code, 0 for RS485,
# in the lower three; bytes 9 to 11 are the identification number. Of the other
# bytes the manuals give no values.
EXPANSION = 254
SIGNALLING_RS485 = 0

# A polling address is 0 to 15, a number of response preambles 2 to 15.
POLLING_ADDRESSES = (0, 15)
RESPONSE_PREAMBLES = (2, 15)

# The unit codes of a setpoint: percent; not used, in the GF and SLA manuals and in
# that of the 4800 series. Here only percent is taken.
PERCENT = 57
NOT_USED = (250, 0)

# The flow unit codes of the manual of the SLA series; those of the other two are
# among them. 57 is a flow unit there, percent of flow range. Here a unit code is
# passed on and nothing is converted by it.
FLOW_UNITS = (15, 16, 17, 18, 19, 22, 24, 26, 27, 28, 29, 30, 31, 70, 71, 72, 73, 74, 75,
              76, 80, 81, 82, 83, 130, 131, 132, 133, 134, 135, 136, 137, 138, 170, 171,
              172, 173, 174, 200, 201, 202, 203, 235, 240, 241, 242, 243, 244, 245, 246,
              247, 248)
LITRES_PER_MINUTE = 17

# The two examples: a device of a full scale of 1.0 litres per minute tells a flow
# of 0.8502 litres per minute, and is sent a setpoint of 85 percent. Here the
# setpoint in units is in mL/min whatever the unit code.
FULL_SCALE = 1000
FLOW = ("0.8502", 0x3F59A6B5)
SETPOINT = (85, 0x42AA0000)
