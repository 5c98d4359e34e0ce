import unittest

from picture.language import Network, Relation, commands_of, float_of, network_of, setup_of

TRACK = b"network 2 1 # two elements\n400 270 90 90 270 1\n0.5 270 90 90 270 0\n0 1 1 0 1 0\n"
# every word of the language, with as many words behind it as it takes
ALL = b"""network 0 1 0 1 1 0 1 1 windows 0 2 1 2 3 4 settings 10 30 minute 3 journal 50 open
feed 2 1 0 0.5 1 -1 0 0.5 1 -1 7 strike 1 poke 0 50000001 short answer 3 words close row 0 steps 0
route 0 0 0 1 routes triple 0 1 0 segments collapse 1 0 0 1 0 1 collapse built kept load 1 50000001 replay"""


class Commands(unittest.TestCase):
    def test_every_command(self):
        """Every command of the language ends where the next one begins."""
        found = [(command.keyword, len(command.words)) for command in commands_of(ALL)]
        counts = "network 8 windows 6 settings 2 minute 1 journal 1 open 0 feed 11 strike 1 poke 2 short 2 words 0 close 0 row 1 steps 1"
        words = (counts + " route 4 routes 0 triple 3 segments 0 collapse 6 collapse 1 kept 0 load 2 replay 0").split()
        self.assertEqual(found, list(zip(words[::2], map(int, words[1::2]))))

    def test_lines(self):
        """A command has the line that it begins in; comments and empty lines count."""
        found = commands_of(b"# feed 1\n\nminute 3 feed 0\n  0 # strike 9\n\tstrike 1#\nopen")
        self.assertEqual([tuple(one) for one in found], [("minute", ["3"], 3), ("feed", ["0", "0"], 3), ("strike", ["1"], 5), ("open", [], 6)])

    def test_floats(self):
        """A float is its bits or a decimal."""
        self.assertEqual([float_of(word) for word in ("C0000000000000A0", "-inf", "250", "0.001")], [-2.000000000000071, float("-inf"), 250.0, 0.001])


class Networks(unittest.TestCase):
    def test_network(self):
        """Lengths, relations and windows; the last windows of a relation count."""
        network = network_of(commands_of(TRACK + b"windows 0 1 5 9 windows 0 2 1 2 7 8"))
        self.assertEqual(network, Network([400.0, 0.5], [Relation(0, 1, 1, 0, True, False, [(1, 2), (7, 8)])]))

    def test_new_network(self):
        """A network has no windows of the one before it."""
        self.assertEqual(network_of(commands_of(TRACK + b"windows 0 1 5 9\n" + TRACK)).relations[0].windows, [])
        self.assertEqual(network_of([]), Network([], []))

    def test_ways(self):
        """Where one may pass, and when: shut at a window's first minute, open at its last."""
        relation = Relation(0, 1, 1, 0, True, False, [(5, 9)])
        self.assertEqual([relation.leads(0, 1), relation.leads(1, 0), relation._replace(backward=True).leads(1, 0)], [True, False, True])
        self.assertEqual([relation.is_open(minute) for minute in (4, 5, 8, 9)], [True, False, False, True])

    def test_setup(self):
        """The last network, its windows and the last settings, in an order that can be read."""
        commands = commands_of(b"settings 1 2\n" + TRACK + b"windows 0 1 5 9\nsettings 10 30\n" + TRACK + b"windows 0 1 6 7\nfeed 0 0")
        setup = [(one.keyword, one.words[:4]) for one in commands_of(setup_of(commands).encode())]
        self.assertEqual(setup, [("settings", ["10", "30"]), ("network", ["2", "1", "400", "270"]), ("windows", ["0", "1", "6", "7"])])
