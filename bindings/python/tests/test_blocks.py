"""The calls on blocks, at four sizes, against the model of the layout; and the buffers that are lent to them."""
import ctypes
import unittest
from array import array

import fascjoldi
from fascjoldi import _library
from fascjoldi._blocks import _CODES, SIZES
from fascjoldi._library import Lent

from .common import Dice

from models import layout  # common.py says where it is

WIDTHS = {8: (0, 1, 3, 7, 8), 16: (0, 1, 9, 15, 16), 32: (0, 1, 17, 31, 32), 64: (0, 1, 10, 33, 63, 64)}


def thrown(dice, bits, count=1024):
    return array(_CODES[bits], dice.bytes(count * bits // 8))


class Blocks(unittest.TestCase):
    def test_as_the_model(self):
        dice = Dice("python", "blocks")
        for bits in SIZES:
            values, base = thrown(dice, bits), thrown(dice, bits, 1024 // bits)
            reference = dice.below(2**bits)
            for width in WIDTHS[bits]:
                with self.subTest(bits=bits, width=width):
                    packed = fascjoldi.pack(width, values)
                    self.assertEqual(list(packed), list(layout.pack(bits, width, [v % 2**width for v in values])))
                    unpacked = fascjoldi.unpack(width, packed)
                    self.assertEqual(list(unpacked), [v % 2**width for v in values])
                    framed = fascjoldi.for_pack(width, values, reference)
                    above = [(v - reference) % 2**bits % 2**width for v in values]
                    self.assertEqual(list(fascjoldi.unpack(width, framed)), above)
                    self.assertEqual(list(fascjoldi.unfor_pack(width, framed, reference)), [(v + reference) % 2**bits for v in above])
                    summed = layout.undelta(bits, list(unpacked), list(base))
                    self.assertEqual(list(fascjoldi.undelta_pack(width, packed, base)), list(summed))
                    self.single(dice, bits, width, packed, unpacked)
                    self.drawer(bits, width, values, reference)
            self.assertEqual(list(fascjoldi.delta(values, base)), list(layout.delta(bits, list(values), list(base))))
            self.assertEqual(list(fascjoldi.undelta(values, base)), list(layout.undelta(bits, list(values), list(base))))
            self.assertEqual(fascjoldi.untranspose(fascjoldi.transpose(values)), values)
            self.assertEqual([fascjoldi.transpose(values)[i] for i in (0, 1, 16, 128)], [values[i] for i in (0, 64, 32, 1)])

    def single(self, dice, bits, width, packed, unpacked):
        indices = array("Q", [dice.below(1024) for _ in range(20)])
        found = fascjoldi.unpack_indices(width, packed, indices)
        self.assertEqual(list(found.output), [unpacked[i] for i in indices])
        words = [fascjoldi.words_at(bits, width, i) for i in indices]
        self.assertEqual(found.words, sum(words))
        for i, count in zip(indices, words):
            self.assertEqual(fascjoldi.unpack_single(width, packed, i), (unpacked[i], count))
        within = fascjoldi.unpack_within(width, packed, indices, 5)
        self.assertLessEqual(within.words, 5)
        self.assertEqual(list(within.output[: within.answered]), [unpacked[i] for i in indices[: within.answered]])

    def drawer(self, bits, width, values, reference):
        three = values + values[::-1] + values
        packed = fascjoldi.for_pack_blocks(width, 3, three, reference)
        above = [(v - reference) % 2**bits % 2**width for v in three]
        self.assertEqual(list(fascjoldi.unpack_blocks(width, 3, packed)), above)

    def test_decode(self):
        dice = Dice("python", "decode")
        for bits in SIZES:
            dictionary = thrown(dice, bits, 7)
            indices = array("H", [dice.below(7) for _ in range(1024)])
            self.assertEqual(list(fascjoldi.decode(dictionary, indices)), [dictionary[i] for i in indices])
            indices[700] = 7
            with self.assertRaises(fascjoldi.Refused) as told:
                fascjoldi.decode(dictionary, indices)
            self.assertEqual((told.exception.number, told.exception.place), (7, 700))

    def test_bits(self):
        words = thrown(Dice("python", "bits"), 64, 16)
        self.assertEqual(fascjoldi.untranspose_bits(fascjoldi.transpose_bits(64, words)), words)
        one = fascjoldi.transpose_bits(8, array("Q", [1] + [0] * 15))
        self.assertEqual(sum(bin(word).count("1") for word in one), 1)
        self.assertRaises(ValueError, fascjoldi.transpose_bits, 64, words[:15])
        self.assertRaises(ValueError, fascjoldi.transpose_bits, 7, words)
        self.assertRaises(ValueError, fascjoldi.untranspose_bits, words, array("Q", [0] * 17))

    def test_refused(self):
        """Each number of the calls on blocks; the output stays as it was."""
        values, mark = array("Q", range(1024)), array("Q", [7] * 160)
        packed = fascjoldi.pack(10, values)
        base = array("Q", [0] * 16)
        for number, place, call in (
            (1, 0, lambda: fascjoldi.pack(65, values, mark)),
            (2, 0, lambda: fascjoldi.pack(10, values[:1023], mark)),
            (3, 0, lambda: fascjoldi.pack(11, values, mark)),
            (3, 0, lambda: fascjoldi.unpack(10, packed[:159])),
            (4, 0, lambda: fascjoldi.delta(values, base[:15])),
            (5, 0, lambda: fascjoldi.unpack_indices(10, packed, values[:5], mark)),
            (6, 2, lambda: fascjoldi.unpack_indices(10, packed, array("Q", [1, 2, 1024]))),
            (6, 0, lambda: fascjoldi.unpack_single(10, packed, 2**64 - 1)),
            (2, 0, lambda: fascjoldi.unpack_blocks(10, 257, packed)),
            (1, 0, lambda: fascjoldi.pack(2**63, values)),
        ):
            with self.assertRaises(fascjoldi.Refused) as told:
                call()
            self.assertEqual((told.exception.number, told.exception.place), (number, place))
            self.assertTrue(told.exception.sentence)
            self.assertEqual(mark, array("Q", [7] * 160))


class Buffers(unittest.TestCase):
    def test_no_copy(self):
        """What fits is lent as it stands, also where it can only be read."""
        numbers = array("Q", range(1024))
        raw = bytes(numbers)
        for thing, at in (
            (numbers, numbers.buffer_info()[0]),
            (memoryview(numbers), numbers.buffer_info()[0]),
            (memoryview(numbers)[512:], numbers.buffer_info()[0] + 8 * 512),
            (memoryview(numbers).toreadonly(), numbers.buffer_info()[0]),
        ):
            with Lent(thing, "it") as lent:
                self.assertEqual((lent.at, lent.length), (at, len(thing)))
        with Lent(array("Q"), "it") as none:
            self.assertNotEqual((none.at, none.length), (0, 0))
        with Lent(memoryview(raw).cast("Q"), "it") as first, Lent(memoryview(raw).cast("Q"), "it") as second:
            self.assertEqual(first.at, second.at)

    def test_all_sorts(self):
        values = array("Q", range(1024))
        wanted = fascjoldi.pack(10, values)
        room = bytearray(8 * 1024 + 8)
        crooked = memoryview(room)[1 : 8 * 1024 + 1].cast("Q")
        crooked[:] = memoryview(values)
        twice = array("Q", [n // 2 for n in range(2048)])
        foreign = (ctypes.c_uint64 * 1024)(*values)
        for given in (
            *(memoryview(values), memoryview(bytes(values)).cast("Q"), crooked, memoryview(twice)[::2], twice[::2], foreign),
            *(array("L", values), memoryview(foreign), memoryview(values)[::-1][::-1]),
        ):
            self.assertEqual(fascjoldi.pack(10, given), wanted)
        square = memoryview(bytes(values)).cast("B").cast("Q", (32, 32))
        self.assertEqual(fascjoldi.pack(10, square), wanted)
        output = bytearray(1280)
        fascjoldi.pack(10, values, memoryview(output).cast("Q"))
        self.assertEqual(bytes(output), wanted.tobytes())
        part = array("Q", [7] * 162)
        self.assertEqual(fascjoldi.pack(10, values, memoryview(part)[1:161])[0], part[1])
        self.assertEqual((part[0], part[161]), (7, 7))
        self.assertEqual(part[1:161], wanted)

    def test_given_back(self):
        """A buffer can grow again when the call is done, and when it was refused."""
        values = array("Q", range(1024))
        fascjoldi.pack(10, values)
        values.append(5)
        self.assertRaises(fascjoldi.Refused, fascjoldi.pack, 10, values)
        values.append(6)
        with Lent(values, "it"):
            self.assertRaises(BufferError, values.append, 7)
        values.append(7)

    def test_wrong_buffers(self):
        values, packed = array("Q", range(1024)), array("Q", [0] * 160)
        both = array("Q", range(2048))
        crooked = memoryview(bytearray(1288))[1:1281].cast("Q")
        for wrong, call in (
            (TypeError, lambda: fascjoldi.pack(10, list(range(1024)))),
            (TypeError, lambda: fascjoldi.pack(10, array("q", range(1024)))),
            (TypeError, lambda: fascjoldi.pack(10, array("d", range(1024)))),
            (TypeError, lambda: fascjoldi.pack(10, values, array("I", [0] * 320))),
            (TypeError, lambda: fascjoldi.pack(10, values, memoryview(packed).toreadonly())),
            (TypeError, lambda: fascjoldi.pack(10, values, bytes(1280))),
            (TypeError, lambda: fascjoldi.pack(1.5, values)),
            (TypeError, lambda: fascjoldi.unpack_indices(10, packed, array("I", [1]))),
            (BufferError, lambda: fascjoldi.pack(10, values, crooked)),
            (BufferError, lambda: fascjoldi.pack(10, values, memoryview(both)[:320:2])),
            (ValueError, lambda: fascjoldi.transpose(values, values)),
            (ValueError, lambda: fascjoldi.transpose(memoryview(both)[:1024], memoryview(both)[1023:2047])),
            (OverflowError, lambda: fascjoldi.pack(-1, values)),
            (OverflowError, lambda: fascjoldi.pack(2**64, values)),
            (OverflowError, lambda: fascjoldi.for_pack(10, array("B", bytes(1024)), 256)),
            (OverflowError, lambda: fascjoldi.for_pack(10, values, -1)),
        ):
            self.assertRaises(wrong, call)
        fascjoldi.transpose(memoryview(both)[:1024], memoryview(both)[1024:])

    def test_numpy(self):
        try:
            import numpy
        except ImportError:
            self.skipTest("numpy is not here, and is not needed")
        values = numpy.arange(1024, dtype=numpy.uint64)
        output = numpy.zeros(160, dtype=numpy.uint64)
        fascjoldi.pack(10, values, output)
        self.assertEqual(fascjoldi.unpack(10, output), array("Q", range(1024)))
        self.assertEqual(fascjoldi.encode(values), fascjoldi.encode(range(1024)))

    def test_functions_are_the_headers(self):
        self.assertTrue(all(_library.has(name) for name in _library.FUNCTIONS))
